//! SHA-256, which the hashes of blocks are.

use crate::ffi;
use core::fmt;
#[cfg(feature = "std")]
use std::io;

/// The SHA-256 of some bytes, by FIPS 180-4: the hash of a block with these data.
///
/// ```
/// use fordtrumpet::{sha256, Block};
///
/// let data = b"abc";
/// let hash = sha256(data);
/// assert_eq!(hash[..4], [0xba, 0x78, 0x16, 0xbf]);
/// let block = Block { length: data.len() as u32, hash: &hash };
/// ```
pub fn sha256(bytes: &[u8]) -> [u8; 32] {
    let mut digest = [0; 32];
    // SAFETY: pointer and length are those of one slice, and the digest has the size asked for.
    let number = unsafe { ffi::bep_sha256(bytes.as_ptr(), bytes.len(), &mut digest) };
    assert_eq!(number, 0, "any bytes have a hash");
    digest
}

/// The SHA-256 of bytes that come one run after another, of whatever length or none.
///
/// It is that of all of them, however they were cut. At most 63 bytes are kept.
///
/// ```
/// use fordtrumpet::{sha256, Sha256};
///
/// let mut hash = Sha256::new();
/// hash.update(b"a");
/// hash.update(b"bc");
/// assert_eq!(hash.finish(), sha256(b"abc"));
/// ```
///
/// With the feature `std` it is a `std::io::Write`, so that a stream can be copied into it:
///
/// ```
/// # #[cfg(feature = "std")] {
/// use fordtrumpet::{sha256, Sha256};
///
/// let (mut file, mut hash) = (&b"what a file holds"[..], Sha256::new());
/// std::io::copy(&mut file, &mut hash)?;
/// assert_eq!(hash.finish(), sha256(b"what a file holds"));
/// # }
/// # Ok::<(), std::io::Error>(())
/// ```
#[derive(Clone, PartialEq, Eq)]
pub struct Sha256 {
    words: [u32; ffi::SHA256_WORDS],
    tail: [u8; ffi::SHA256_TAIL],
}

impl Sha256 {
    /// That of no bytes so far.
    ///
    /// ```
    /// use fordtrumpet::{sha256, Sha256};
    ///
    /// assert_eq!(Sha256::new().finish(), sha256(b""));
    /// ```
    pub fn new() -> Self {
        let (mut words, mut tail) = ([0; ffi::SHA256_WORDS], [0; ffi::SHA256_TAIL]);
        // SAFETY: words and tail have the sizes asked for.
        let number = unsafe { ffi::bep_sha256_begin(&mut words, &mut tail) };
        assert_eq!(number, 0, "beginning is never refused");
        Sha256 { words, tail }
    }

    /// Takes the next run of bytes.
    ///
    /// ```
    /// use fordtrumpet::{sha256, Sha256};
    ///
    /// let mut hash = Sha256::new();
    /// for run in [&b"two "[..], b"", b"runs"] {
    ///     hash.update(run);
    /// }
    /// assert_eq!(hash.finish(), sha256(b"two runs"));
    /// ```
    pub fn update(&mut self, bytes: &[u8]) {
        let (words, tail) = (&mut self.words, &mut self.tail);
        // SAFETY: pointer and length are those of one slice, words and tail are borrowed for this call
        // alone, and they have the sizes asked for.
        let number = unsafe { ffi::bep_sha256_update(words, tail, bytes.as_ptr(), bytes.len()) };
        assert_eq!(number, 0, "going on is never refused");
    }

    /// The hash of all bytes so far. More may come after that.
    ///
    /// ```
    /// use fordtrumpet::{sha256, Sha256};
    ///
    /// let mut hash = Sha256::new();
    /// hash.update(b"a");
    /// assert_eq!(hash.finish(), sha256(b"a"));
    /// hash.update(b"b");
    /// assert_eq!(hash.finish(), sha256(b"ab"));
    /// ```
    pub fn finish(&self) -> [u8; 32] {
        let mut digest = [0; 32];
        // SAFETY: words, tail and digest have the sizes asked for.
        let number = unsafe { ffi::bep_sha256_finish(&self.words, &self.tail, &mut digest) };
        assert_eq!(number, 0, "any bytes have a hash");
        digest
    }
}

/// That of no bytes so far, as [`Sha256::new`].
///
/// ```
/// use fordtrumpet::Sha256;
///
/// assert_eq!(Sha256::default(), Sha256::new());
/// ```
impl Default for Sha256 {
    fn default() -> Self {
        Self::new()
    }
}

/// Shows how many bytes have come.
impl fmt::Debug for Sha256 {
    fn fmt(&self, f: &mut fmt::Formatter<'_>) -> fmt::Result {
        let [.., high, low] = self.words.map(u64::from);
        f.debug_struct("Sha256")
            .field("bytes", &(high << 32 | low))
            .finish()
    }
}

/// Every write takes all of its bytes, and none fails.
///
/// ```
/// use fordtrumpet::{sha256, Sha256};
/// use std::io::Write;
///
/// let mut hash = Sha256::new();
/// write!(hash, "{} bytes", 131_072)?;
/// assert_eq!(hash.finish(), sha256(b"131072 bytes"));
/// # Ok::<(), std::io::Error>(())
/// ```
#[cfg(feature = "std")]
impl io::Write for Sha256 {
    fn write(&mut self, bytes: &[u8]) -> io::Result<usize> {
        self.update(bytes);
        Ok(bytes.len())
    }

    fn write_all(&mut self, bytes: &[u8]) -> io::Result<()> {
        self.update(bytes);
        Ok(())
    }

    fn flush(&mut self) -> io::Result<()> {
        Ok(())
    }
}

#[cfg(test)]
mod tests {
    use super::Sha256;

    #[test]
    fn how_many_bytes_have_come_is_shown() {
        let mut hash = Sha256::new();
        hash.update(&[7; 100]);
        assert_eq!(format!("{hash:?}"), "Sha256 { bytes: 100 }");
    }
}
