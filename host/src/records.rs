//! The elements of an accepted message: files with their blocks, and options.

use crate::answer::{size, text, word};
use crate::ffi;
use crate::show::Hex;
use core::fmt;
use core::iter::FusedIterator;
use core::ops::BitOr;

/// The place of the first record of an array, after its count word.
const FIRST: usize = 4;

/// Bytes of one block: its Length word, the hash's length word and the hash.
const BLOCK_LEN: usize = 40;

/// The files of an Index or IndexUpdate that was read.
///
/// ```
/// # use fordtrumpet::*;
/// # let mut array = FilesBuilder::new();
/// # array.push("a", Flags(0o644), 5, 0, []);
/// # array.push("b", Flags::DELETED, 6, 0, []);
/// # let mut out = [0; 100];
/// # let used = write_index(0, "", array.as_bytes(), &mut out).unwrap();
/// # let input = &out[..used];
/// let Message::Index(index) = read(input)?.message else { panic!("not an Index") };
/// assert_eq!(index.files.len(), 2);
/// for file in index.files {
///     println!("{}", file.name.escape_debug());
/// }
/// # Ok::<(), Refusal>(())
/// ```
#[derive(Clone, Copy, PartialEq, Eq)]
pub struct Files<'a> {
    bytes: &'a [u8],
    count: usize,
}

impl<'a> Files<'a> {
    /// `bytes` is an array whose reading was accepted, and `count` its number of records.
    pub(crate) const fn new(bytes: &'a [u8], count: usize) -> Self {
        Files { bytes, count }
    }

    /// The number of files.
    ///
    /// ```
    /// # use fordtrumpet::*;
    /// # let input = [0, 1, 1, 0, 0, 0, 0, 0, 0, 0, 0, 0];
    /// # let Message::Index(index) = read(&input).unwrap().message else { panic!() };
    /// // An Index of an empty repository:
    /// assert_eq!(index.files.len(), 0);
    /// ```
    pub fn len(&self) -> usize {
        self.count
    }

    /// Whether there is no file.
    ///
    /// ```
    /// # use fordtrumpet::*;
    /// # let input = [0, 1, 1, 0, 0, 0, 0, 0, 0, 0, 0, 0];
    /// # let Message::Index(index) = read(&input).unwrap().message else { panic!() };
    /// // An Index of an empty repository:
    /// assert!(index.files.is_empty());
    /// ```
    pub fn is_empty(&self) -> bool {
        self.count == 0
    }

    /// The encoded array with its count word, as the writers expect it.
    ///
    /// ```
    /// # use fordtrumpet::*;
    /// # let input = [0, 1, 1, 0, 0, 0, 0, 0, 0, 0, 0, 0];
    /// # let Message::Index(index) = read(&input).unwrap().message else { panic!() };
    /// let mut out = [0; 12];
    /// write_index_update(2, index.repository, index.files.as_bytes(), &mut out)?;
    /// # Ok::<(), Refusal>(())
    /// ```
    pub fn as_bytes(&self) -> &'a [u8] {
        self.bytes
    }

    /// Goes through the files in the order they were sent in.
    ///
    /// ```
    /// # use fordtrumpet::*;
    /// # let mut array = FilesBuilder::new();
    /// # array.push("a", Flags::DELETED, 5, 0, []);
    /// # let mut out = [0; 100];
    /// # write_index(0, "", array.as_bytes(), &mut out).unwrap();
    /// # let Message::Index(index) = read(&out).unwrap().message else { panic!() };
    /// let deleted = index.files.iter().filter(|file| file.flags.is_deleted());
    /// assert_eq!(deleted.count(), 1);
    /// ```
    pub fn iter(&self) -> FilesIter<'a> {
        FilesIter {
            bytes: self.bytes,
            at: FIRST,
            left: self.count,
        }
    }
}

impl fmt::Debug for Files<'_> {
    fn fmt(&self, f: &mut fmt::Formatter<'_>) -> fmt::Result {
        f.debug_list().entries(self.iter()).finish()
    }
}

impl<'a> IntoIterator for Files<'a> {
    type Item = FileInfo<'a>;
    type IntoIter = FilesIter<'a>;

    fn into_iter(self) -> FilesIter<'a> {
        self.iter()
    }
}

impl<'a> IntoIterator for &Files<'a> {
    type Item = FileInfo<'a>;
    type IntoIter = FilesIter<'a>;

    fn into_iter(self) -> FilesIter<'a> {
        self.iter()
    }
}

/// Goes through [`Files`].
///
/// ```
/// let mut files = fordtrumpet::Table::EMPTY.files().iter();
/// assert_eq!(files.len(), 0);
/// assert!(files.next().is_none());
/// ```
#[derive(Clone, Debug)]
pub struct FilesIter<'a> {
    bytes: &'a [u8],
    at: usize,
    left: usize,
}

impl<'a> Iterator for FilesIter<'a> {
    type Item = FileInfo<'a>;

    #[inline]
    fn next(&mut self) -> Option<FileInfo<'a>> {
        self.left = self.left.checked_sub(1)?;
        let bytes = self.bytes;
        let mut answer = [0; 8];
        // SAFETY: pointer and length are those of one slice, and the answer has the size asked for.
        let number = unsafe { ffi::bep_file(bytes.as_ptr(), bytes.len(), self.at, &mut answer) };
        assert_eq!(number, 0, "an accepted array holds all its records");
        let file = FileInfo::new(bytes, self.at, answer);
        self.at += file.bytes.len();
        Some(file)
    }

    fn size_hint(&self) -> (usize, Option<usize>) {
        (self.left, Some(self.left))
    }
}

impl ExactSizeIterator for FilesIter<'_> {}
impl FusedIterator for FilesIter<'_> {}

/// One file of an Index or IndexUpdate.
///
/// ```
/// use fordtrumpet::{FilesBuilder, Flags, Table};
///
/// let mut files = FilesBuilder::new();
/// files.push("a", Flags(0o600), -1, 2, []);
/// let file = Table::new(files.as_bytes())?.get(0).unwrap();
/// assert_eq!((file.name, file.modified, file.version), ("a", -1, 2));
/// # Ok::<(), fordtrumpet::Refusal>(())
/// ```
#[derive(Clone, Copy, PartialEq, Eq)]
pub struct FileInfo<'a> {
    /// The name, 1 to 255 bytes: a plain path below its folder, of parts between single slashes, none of
    /// which is `.` or `..`.
    pub name: &'a str,
    /// Deleted, invalid, and the Unix mode.
    pub flags: Flags,
    /// The time of modification in seconds since the Unix epoch.
    pub modified: i64,
    /// Counts changes while the time of modification stays the same.
    pub version: u32,
    /// The blocks, up to 1,024. A deleted file has none.
    pub blocks: Blocks<'a>,
    /// The whole record.
    bytes: &'a [u8],
}

impl<'a> FileInfo<'a> {
    /// The record at a place of an array that was accepted, by the words of an answer.
    #[inline]
    pub(crate) fn new(bytes: &'a [u8], at: usize, answer: [u64; 8]) -> Self {
        let [end, name, name_len, flags, modified, version, _, first_block] = answer;
        FileInfo {
            bytes: &bytes[at..size(end)],
            name: text(bytes, name, name_len),
            flags: Flags(word(flags)),
            modified: modified.cast_signed(),
            version: word(version),
            blocks: Blocks {
                bytes: &bytes[size(first_block)..size(end)],
            },
        }
    }

    /// The encoded record.
    ///
    /// ```
    /// # use fordtrumpet::*;
    /// # let mut array = FilesBuilder::new();
    /// # array.push("a", Flags::DELETED, 5, 0, []);
    /// # let table = Table::new(array.as_bytes()).unwrap();
    /// # let file = table.files().iter().next().unwrap();
    /// assert_eq!(file.as_bytes().len(), 28);
    /// ```
    pub fn as_bytes(&self) -> &'a [u8] {
        self.bytes
    }
}

/// The flags of a file.
///
/// ```
/// use fordtrumpet::Flags;
///
/// let flags = Flags::INVALID | Flags(0o644);
/// assert!(flags.is_invalid());
/// assert!(!flags.is_deleted());
/// assert_eq!(flags.mode(), 0o644);
/// ```
#[derive(Clone, Copy, Debug, Default, PartialEq, Eq, Hash)]
pub struct Flags(pub u32);

impl Flags {
    /// The flag D of a deleted file.
    ///
    /// ```
    /// assert!(fordtrumpet::Flags::DELETED.is_deleted());
    /// ```
    pub const DELETED: Flags = Flags(4096);
    /// The flag I of a file that is invalid and can't be had for now.
    ///
    /// ```
    /// assert!(fordtrumpet::Flags::INVALID.is_invalid());
    /// ```
    pub const INVALID: Flags = Flags(8192);
    /// The bits of the Unix mode.
    ///
    /// ```
    /// assert_eq!(fordtrumpet::Flags::MODE.mode(), 0o7777);
    /// ```
    pub const MODE: Flags = Flags(4095);

    /// Whether the file is deleted.
    ///
    /// ```
    /// assert!(fordtrumpet::Flags(4096).is_deleted());
    /// ```
    pub fn is_deleted(self) -> bool {
        self.0 & Flags::DELETED.0 != 0
    }

    /// Whether the file is invalid.
    ///
    /// ```
    /// assert!(fordtrumpet::Flags(8192).is_invalid());
    /// ```
    pub fn is_invalid(self) -> bool {
        self.0 & Flags::INVALID.0 != 0
    }

    /// The Unix mode.
    ///
    /// ```
    /// assert_eq!(fordtrumpet::Flags(4096 | 0o755).mode(), 0o755);
    /// ```
    pub fn mode(self) -> u32 {
        self.0 & Flags::MODE.0
    }
}

/// The flags of both.
///
/// ```
/// use fordtrumpet::Flags;
///
/// assert_eq!(Flags::DELETED | Flags(0o600), Flags(4096 + 0o600));
/// ```
impl BitOr for Flags {
    type Output = Flags;

    fn bitor(self, other: Flags) -> Flags {
        Flags(self.0 | other.0)
    }
}

/// The blocks of a file that was read.
///
/// ```
/// # use fordtrumpet::*;
/// # let hash = [7; 32];
/// # let mut array = FilesBuilder::new();
/// # array.push("a", Flags(0o644), 5, 0, [Block { length: 9, hash: &hash }]);
/// # let mut out = [0; 100];
/// # write_index(0, "", array.as_bytes(), &mut out).unwrap();
/// # let Message::Index(index) = read(&out).unwrap().message else { panic!() };
/// # let file = index.files.iter().next().unwrap();
/// let size: u64 = file.blocks.iter().map(|block| u64::from(block.length)).sum();
/// # assert_eq!(size, 9);
/// ```
#[derive(Clone, Copy, PartialEq, Eq)]
pub struct Blocks<'a> {
    /// The blocks without a count word.
    bytes: &'a [u8],
}

impl<'a> Blocks<'a> {
    /// The number of blocks.
    ///
    /// ```
    /// # use fordtrumpet::*;
    /// # let mut array = FilesBuilder::new();
    /// # array.push("a", Flags::DELETED, 5, 0, []);
    /// # let mut out = [0; 100];
    /// # write_index(0, "", array.as_bytes(), &mut out).unwrap();
    /// # let Message::Index(index) = read(&out).unwrap().message else { panic!() };
    /// # let deleted = index.files.iter().next().unwrap();
    /// assert_eq!(deleted.blocks.len(), 0);
    /// ```
    pub fn len(&self) -> usize {
        self.bytes.len() / BLOCK_LEN
    }

    /// Whether there is no block.
    ///
    /// ```
    /// # use fordtrumpet::*;
    /// # let mut array = FilesBuilder::new();
    /// # array.push("a", Flags::DELETED, 5, 0, []);
    /// # let mut out = [0; 100];
    /// # write_index(0, "", array.as_bytes(), &mut out).unwrap();
    /// # let Message::Index(index) = read(&out).unwrap().message else { panic!() };
    /// # let deleted = index.files.iter().next().unwrap();
    /// assert!(deleted.blocks.is_empty());
    /// ```
    pub fn is_empty(&self) -> bool {
        self.bytes.is_empty()
    }

    /// Goes through the blocks in their order.
    ///
    /// ```
    /// # use fordtrumpet::*;
    /// # let hash = [7; 32];
    /// # let mut array = FilesBuilder::new();
    /// # array.push("a", Flags(0o644), 5, 0, [Block { length: 9, hash: &hash }]);
    /// # let mut out = [0; 100];
    /// # write_index(0, "", array.as_bytes(), &mut out).unwrap();
    /// # let Message::Index(index) = read(&out).unwrap().message else { panic!() };
    /// # let file = index.files.iter().next().unwrap();
    /// assert!(file.blocks.iter().any(|block| block.hash == &[7; 32]));
    /// ```
    pub fn iter(&self) -> BlocksIter<'a> {
        BlocksIter {
            rest: self.bytes.as_chunks().0.iter(),
        }
    }
}

impl fmt::Debug for Blocks<'_> {
    fn fmt(&self, f: &mut fmt::Formatter<'_>) -> fmt::Result {
        f.debug_list().entries(self.iter()).finish()
    }
}

impl<'a> IntoIterator for Blocks<'a> {
    type Item = Block<'a>;
    type IntoIter = BlocksIter<'a>;

    fn into_iter(self) -> BlocksIter<'a> {
        self.iter()
    }
}

impl<'a> IntoIterator for &Blocks<'a> {
    type Item = Block<'a>;
    type IntoIter = BlocksIter<'a>;

    fn into_iter(self) -> BlocksIter<'a> {
        self.iter()
    }
}

/// Goes through [`Blocks`].
///
/// ```
/// # use fordtrumpet::*;
/// # let mut files = FilesBuilder::new();
/// # files.push("a", Flags(0), 0, 0, [Block { length: 9, hash: &[7; 32] }]);
/// # let table = Table::new(files.as_bytes()).unwrap();
/// let mut blocks = table.get(0).unwrap().blocks.iter();
/// assert_eq!(blocks.next().unwrap().length, 9);
/// assert!(blocks.next().is_none());
/// ```
#[derive(Clone, Debug)]
pub struct BlocksIter<'a> {
    rest: core::slice::Iter<'a, [u8; BLOCK_LEN]>,
}

impl<'a> Iterator for BlocksIter<'a> {
    type Item = Block<'a>;

    #[inline]
    fn next(&mut self) -> Option<Block<'a>> {
        let bytes = self.rest.next()?;
        let [l0, l1, l2, l3, ..] = *bytes;
        Some(Block {
            length: u32::from_be_bytes([l0, l1, l2, l3]),
            hash: bytes.last_chunk().expect("a block ends with its hash"),
        })
    }

    fn size_hint(&self) -> (usize, Option<usize>) {
        self.rest.size_hint()
    }
}

impl ExactSizeIterator for BlocksIter<'_> {}
impl FusedIterator for BlocksIter<'_> {}

/// One block of a file.
///
/// ```
/// use fordtrumpet::{Block, FilesBuilder, Flags};
///
/// let mut files = FilesBuilder::new();
/// files.push("a", Flags(0o600), 0, 0, [Block { length: 9, hash: &[7; 32] }]);
/// assert_eq!(files.as_bytes().len(), 4 + 28 + 40);
/// ```
#[derive(Clone, Copy, PartialEq, Eq, Hash)]
pub struct Block<'a> {
    /// The length, 1 to 131,072.
    pub length: u32,
    /// The hash of the block's bytes.
    pub hash: &'a [u8; 32],
}

/// The options of an Options message that was read.
///
/// ```
/// # use fordtrumpet::*;
/// # let mut array = OptionsBuilder::new();
/// # array.push("clientId", "syncthing");
/// # let mut out = [0; 100];
/// # write_options(0, array.as_bytes(), &mut out).unwrap();
/// # let Message::Options(message) = read(&out).unwrap().message else { panic!() };
/// for option in message.options {
///     if option.key == "clientId" {
///         println!("{}", option.value.escape_debug());
///     }
/// }
/// ```
#[derive(Clone, Copy, PartialEq, Eq)]
pub struct KeyValues<'a> {
    bytes: &'a [u8],
    count: usize,
}

impl<'a> KeyValues<'a> {
    /// `bytes` is an array whose reading was accepted, and `count` its number of options.
    pub(crate) fn new(bytes: &'a [u8], count: usize) -> Self {
        KeyValues { bytes, count }
    }

    /// The number of options.
    ///
    /// ```
    /// # use fordtrumpet::*;
    /// # let input = [0, 1, 7, 0, 0, 0, 0, 0];
    /// # let Message::Options(message) = read(&input).unwrap().message else { panic!() };
    /// // A message without options:
    /// assert_eq!(message.options.len(), 0);
    /// ```
    pub fn len(&self) -> usize {
        self.count
    }

    /// Whether there is no option.
    ///
    /// ```
    /// # use fordtrumpet::*;
    /// # let input = [0, 1, 7, 0, 0, 0, 0, 0];
    /// # let Message::Options(message) = read(&input).unwrap().message else { panic!() };
    /// // A message without options:
    /// assert!(message.options.is_empty());
    /// ```
    pub fn is_empty(&self) -> bool {
        self.count == 0
    }

    /// The encoded array with its count word, as [`write_options`](crate::write_options) expects it.
    ///
    /// ```
    /// # use fordtrumpet::*;
    /// # let input = [0, 1, 7, 0, 0, 0, 0, 0];
    /// # let Message::Options(message) = read(&input).unwrap().message else { panic!() };
    /// let mut out = [0; 8];
    /// write_options(2, message.options.as_bytes(), &mut out)?;
    /// # Ok::<(), Refusal>(())
    /// ```
    pub fn as_bytes(&self) -> &'a [u8] {
        self.bytes
    }

    /// Goes through the options in the order they were sent in.
    ///
    /// ```
    /// # use fordtrumpet::*;
    /// # let mut array = OptionsBuilder::new();
    /// # array.push("clientId", "syncthing");
    /// # let mut out = [0; 100];
    /// # write_options(0, array.as_bytes(), &mut out).unwrap();
    /// # let Message::Options(message) = read(&out).unwrap().message else { panic!() };
    /// let client = message.options.iter().find(|option| option.key == "clientId");
    /// assert_eq!(client.unwrap().value, "syncthing");
    /// ```
    pub fn iter(&self) -> KeyValuesIter<'a> {
        KeyValuesIter {
            bytes: self.bytes,
            at: FIRST,
            left: self.count,
        }
    }
}

impl fmt::Debug for KeyValues<'_> {
    fn fmt(&self, f: &mut fmt::Formatter<'_>) -> fmt::Result {
        f.debug_list().entries(self.iter()).finish()
    }
}

impl<'a> IntoIterator for KeyValues<'a> {
    type Item = KeyValue<'a>;
    type IntoIter = KeyValuesIter<'a>;

    fn into_iter(self) -> KeyValuesIter<'a> {
        self.iter()
    }
}

impl<'a> IntoIterator for &KeyValues<'a> {
    type Item = KeyValue<'a>;
    type IntoIter = KeyValuesIter<'a>;

    fn into_iter(self) -> KeyValuesIter<'a> {
        self.iter()
    }
}

/// Goes through [`KeyValues`].
///
/// ```
/// # use fordtrumpet::*;
/// # let Message::Options(message) = read(&[0, 0, 7, 0, 0, 0, 0, 0]).unwrap().message else { panic!() };
/// assert_eq!(message.options.iter().len(), 0);
/// ```
#[derive(Clone, Debug)]
pub struct KeyValuesIter<'a> {
    bytes: &'a [u8],
    at: usize,
    left: usize,
}

impl<'a> Iterator for KeyValuesIter<'a> {
    type Item = KeyValue<'a>;

    #[inline]
    fn next(&mut self) -> Option<KeyValue<'a>> {
        self.left = self.left.checked_sub(1)?;
        let bytes = self.bytes;
        let mut answer = [0; 5];
        // SAFETY: pointer and length are those of one slice, and the answer has the size asked for.
        let number = unsafe { ffi::bep_option(bytes.as_ptr(), bytes.len(), self.at, &mut answer) };
        assert_eq!(number, 0, "an accepted array holds all its options");
        let [end, key, key_len, value, value_len] = answer;
        self.at = size(end);
        Some(KeyValue {
            key: text(bytes, key, key_len),
            value: text(bytes, value, value_len),
        })
    }

    fn size_hint(&self) -> (usize, Option<usize>) {
        (self.left, Some(self.left))
    }
}

impl ExactSizeIterator for KeyValuesIter<'_> {}
impl FusedIterator for KeyValuesIter<'_> {}

/// One option: a key and its value.
///
/// ```
/// use fordtrumpet::{read, write_options, KeyValue, Message, OptionsBuilder};
///
/// let mut options = OptionsBuilder::new();
/// options.push("name", "truck");
/// let mut out = [0; 100];
/// let length = write_options(0, options.as_bytes(), &mut out)?;
/// let Message::Options(message) = read(&out[..length])?.message else { panic!() };
/// let expected = KeyValue { key: "name", value: "truck" };
/// assert!(message.options.iter().eq([expected]));
/// # Ok::<(), fordtrumpet::Refusal>(())
/// ```
#[derive(Clone, Copy, PartialEq, Eq, Hash)]
pub struct KeyValue<'a> {
    /// The key, up to 64 bytes.
    pub key: &'a str,
    /// The value, up to 255 bytes.
    pub value: &'a str,
}

impl fmt::Debug for FileInfo<'_> {
    fn fmt(&self, f: &mut fmt::Formatter<'_>) -> fmt::Result {
        f.debug_struct("FileInfo")
            .field("name", &self.name)
            .field("flags", &format_args!("{:#o}", self.flags.0))
            .field("modified", &self.modified)
            .field("version", &self.version)
            .field("blocks", &self.blocks)
            .finish()
    }
}

impl fmt::Debug for Block<'_> {
    fn fmt(&self, f: &mut fmt::Formatter<'_>) -> fmt::Result {
        f.debug_struct("Block")
            .field("length", &self.length)
            .field("hash", &Hex(self.hash))
            .finish()
    }
}

impl fmt::Debug for KeyValue<'_> {
    fn fmt(&self, f: &mut fmt::Formatter<'_>) -> fmt::Result {
        write!(f, "{:?}: {:?}", self.key, self.value)
    }
}
