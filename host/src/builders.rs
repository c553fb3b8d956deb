//! Encoded arrays for the writers, made in plain Rust.
//!
//! The builders hold the fields to no rule: the writers check what was made.

use crate::{Block, Flags};
use alloc::vec;
use alloc::vec::Vec;

/// Makes the encoded FileInfo array that [`write_index`](crate::write_index) and
/// [`write_index_update`](crate::write_index_update) expect.
///
/// Names, flags and counts are held to no rule here; the writers check them all: a name such as `../a`
/// is refused there (24). A length or count that doesn't fit in its word becomes the highest word, which
/// the writers refuse (5).
///
/// ```
/// use fordtrumpet::{write_index, Block, FilesBuilder, Flags};
///
/// let hash = [0xAB; 32];
/// let mut files = FilesBuilder::new();
/// files.push("a.txt", Flags(0o644), 1_700_000_000, 0, [Block { length: 5, hash: &hash }]);
/// files.push("b.txt", Flags::DELETED, 1_700_000_000, 3, []);
/// let mut out = [0; 200];
/// let length = write_index(0, "default", files.as_bytes(), &mut out)?;
/// # assert_eq!(length, 124);
/// # Ok::<(), fordtrumpet::Refusal>(())
/// ```
#[derive(Clone, Debug)]
pub struct FilesBuilder {
    array: Array,
    /// Where each record begins.
    starts: Vec<usize>,
}

impl FilesBuilder {
    /// An array without files.
    ///
    /// ```
    /// assert_eq!(fordtrumpet::FilesBuilder::new().as_bytes(), [0, 0, 0, 0]);
    /// ```
    pub fn new() -> Self {
        FilesBuilder {
            array: Array::new(),
            starts: Vec::new(),
        }
    }

    /// Adds a file with its blocks. The [`Blocks`](crate::Blocks) of a file that was read will do.
    ///
    /// ```
    /// use fordtrumpet::{FilesBuilder, Flags};
    ///
    /// let mut files = FilesBuilder::new();
    /// files.push("a", Flags(0o644), -1, 2, []);
    /// assert_eq!(files.as_bytes().len(), 4 + 28);
    /// ```
    pub fn push<'b>(
        &mut self,
        name: impl AsRef<[u8]>,
        flags: Flags,
        modified: i64,
        version: u32,
        blocks: impl IntoIterator<Item = Block<'b>>,
    ) {
        let (name, array) = (name.as_ref(), &mut self.array);
        self.starts.push(array.bytes.len());
        array.count();
        array.string(name);
        array.word(flags.0);
        array.bytes.extend_from_slice(&modified.to_be_bytes());
        array.word(version);
        // The number of blocks is known once they are there.
        let count_at = array.bytes.len();
        array.word(0);
        let mut count: u32 = 0;
        for block in blocks {
            count = count.saturating_add(1);
            array.word(block.length);
            array.string(block.hash);
        }
        array.bytes[count_at..][..4].copy_from_slice(&count.to_be_bytes());
    }

    /// The encoded array with its count word.
    ///
    /// ```
    /// use fordtrumpet::{write_index, FilesBuilder};
    ///
    /// let files = FilesBuilder::new();
    /// let mut out = [0; 12];
    /// write_index(0, "", files.as_bytes(), &mut out)?;
    /// # Ok::<(), fordtrumpet::Refusal>(())
    /// ```
    pub fn as_bytes(&self) -> &[u8] {
        &self.array.bytes
    }

    /// The encoded records, one by one.
    pub(crate) fn records(&self) -> impl Iterator<Item = &[u8]> {
        let ends = self
            .starts
            .iter()
            .skip(1)
            .copied()
            .chain([self.array.bytes.len()]);
        self.starts
            .iter()
            .zip(ends)
            .map(|(&start, end)| &self.array.bytes[start..end])
    }

    /// Removes all files, so that the memory can be used again.
    ///
    /// ```
    /// use fordtrumpet::{FilesBuilder, Flags};
    ///
    /// let mut files = FilesBuilder::new();
    /// files.push("a", Flags(0o644), 0, 0, []);
    /// files.clear();
    /// assert_eq!(files.as_bytes(), FilesBuilder::new().as_bytes());
    /// ```
    pub fn clear(&mut self) {
        self.array.clear();
        self.starts.clear();
    }
}

impl Default for FilesBuilder {
    fn default() -> Self {
        FilesBuilder::new()
    }
}

/// Makes the encoded array that [`write_options`](crate::write_options) expects.
///
/// Keys and values are held to no rule here; the writer checks them all. A length or count that
/// doesn't fit in its word becomes the highest word, which the writer refuses (5).
///
/// ```
/// use fordtrumpet::{write_options, OptionsBuilder};
///
/// let mut options = OptionsBuilder::new();
/// options.push("clientId", "fordtrumpet");
/// options.push("clientVersion", "v0.1.0");
/// let mut out = [0; 100];
/// let length = write_options(0, options.as_bytes(), &mut out)?;
/// # assert_eq!(length, 68);
/// # Ok::<(), fordtrumpet::Refusal>(())
/// ```
#[derive(Clone, Debug)]
pub struct OptionsBuilder {
    array: Array,
}

impl OptionsBuilder {
    /// An array without options.
    ///
    /// ```
    /// assert_eq!(fordtrumpet::OptionsBuilder::new().as_bytes(), [0, 0, 0, 0]);
    /// ```
    pub fn new() -> Self {
        OptionsBuilder {
            array: Array::new(),
        }
    }

    /// Adds an option.
    ///
    /// ```
    /// let mut options = fordtrumpet::OptionsBuilder::new();
    /// options.push("ab", "");
    /// assert_eq!(options.as_bytes(), b"\0\0\0\x01\0\0\0\x02ab\0\0\0\0\0\0");
    /// ```
    pub fn push(&mut self, key: impl AsRef<[u8]>, value: impl AsRef<[u8]>) {
        let (key, value) = (key.as_ref(), value.as_ref());
        self.array.count();
        self.array.string(key);
        self.array.string(value);
    }

    /// The encoded array with its count word.
    ///
    /// ```
    /// use fordtrumpet::{write_options, OptionsBuilder};
    ///
    /// let options = OptionsBuilder::new();
    /// let mut out = [0; 8];
    /// write_options(0, options.as_bytes(), &mut out)?;
    /// # Ok::<(), fordtrumpet::Refusal>(())
    /// ```
    pub fn as_bytes(&self) -> &[u8] {
        &self.array.bytes
    }

    /// Removes all options, so that the memory can be used again.
    ///
    /// ```
    /// let mut options = fordtrumpet::OptionsBuilder::new();
    /// options.push("a", "b");
    /// options.clear();
    /// assert_eq!(options.as_bytes(), [0, 0, 0, 0]);
    /// ```
    pub fn clear(&mut self) {
        self.array.clear();
    }
}

impl Default for OptionsBuilder {
    fn default() -> Self {
        OptionsBuilder::new()
    }
}

/// An encoded array: its count word and the elements so far.
#[derive(Clone, Debug)]
struct Array {
    bytes: Vec<u8>,
}

impl Array {
    fn new() -> Self {
        Array { bytes: vec![0; 4] }
    }

    fn clear(&mut self) {
        self.bytes.truncate(4);
        self.bytes.fill(0);
    }

    /// Counts one element more.
    fn count(&mut self) {
        let word = self.bytes.first_chunk_mut().expect("it has a count word");
        *word = u32::from_be_bytes(*word).saturating_add(1).to_be_bytes();
    }

    fn word(&mut self, word: u32) {
        self.bytes.extend_from_slice(&word.to_be_bytes());
    }

    /// A length word, the bytes, and zero bytes up to a multiple of four.
    fn string(&mut self, bytes: &[u8]) {
        // A length that was cut to 32 bits could pass for another one, so it stays too high.
        self.word(u32::try_from(bytes.len()).unwrap_or(u32::MAX));
        self.bytes.extend_from_slice(bytes);
        self.bytes.resize(self.bytes.len().next_multiple_of(4), 0);
    }
}

#[cfg(test)]
mod tests {
    use super::*;

    #[test]
    fn files_are_encoded_as_on_the_wire() {
        let hash = [0xEE; 32];
        let block = Block {
            length: 0x0102,
            hash: &hash,
        };
        let mut files = FilesBuilder::default();
        files.push(b"abcde", Flags(0o644), -2, 9, [block, block]);
        files.push(b"four", Flags::DELETED, 3, 0, []);

        let mut expected = Vec::new();
        expected.extend_from_slice(b"\0\0\0\x02");
        expected.extend_from_slice(b"\0\0\0\x05abcde\0\0\0\0\0\x01\xA4");
        expected.extend_from_slice(b"\xFF\xFF\xFF\xFF\xFF\xFF\xFF\xFE\0\0\0\x09\0\0\0\x02");
        for _ in 0..2 {
            expected.extend_from_slice(b"\0\0\x01\x02\0\0\0\x20");
            expected.extend_from_slice(&hash);
        }
        expected.extend_from_slice(b"\0\0\0\x04four\0\0\x10\0");
        expected.extend_from_slice(b"\0\0\0\0\0\0\0\x03\0\0\0\0\0\0\0\0");
        assert_eq!(files.as_bytes(), expected);
    }

    #[test]
    fn a_cleared_array_is_as_new() {
        let mut files = FilesBuilder::new();
        files.push(b"a", Flags(0), 0, 0, []);
        files.clear();
        files.push(b"b", Flags(0), 0, 0, []);
        let mut fresh = FilesBuilder::new();
        fresh.push(b"b", Flags(0), 0, 0, []);
        assert_eq!(files.as_bytes(), fresh.as_bytes());
    }

    #[test]
    fn options_are_encoded_as_on_the_wire() {
        let mut options = OptionsBuilder::default();
        options.push(b"key", b"value");
        options.push(b"", b"");
        assert_eq!(
            options.as_bytes(),
            b"\0\0\0\x02\0\0\0\x03key\0\0\0\0\x05value\0\0\0\0\0\0\0\0\0\0\0"
        );
    }
}
