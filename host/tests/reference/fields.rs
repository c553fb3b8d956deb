//! Single fields: words, strings, opaques, hashes.

use super::names::is_plain_path;
use super::text::broken_at;
use super::{Refusal, Span, HASH_LEN};

/// Reads field by field from the left.
pub struct Reader<'a> {
    rest: &'a [u8],
    /// The place past the last byte, so that a place is this less the bytes that are left.
    end: usize,
}

impl<'a> Reader<'a> {
    /// A reader of `bytes`, the first of which stands at the place `base` of the message.
    pub fn new(bytes: &'a [u8], base: usize) -> Self {
        Reader {
            rest: bytes,
            end: base + bytes.len(),
        }
    }

    /// The place of the next field.
    #[inline]
    pub fn place(&self) -> usize {
        self.end - self.rest.len()
    }

    /// The bytes not read yet.
    #[inline]
    pub fn rest(&self) -> &'a [u8] {
        self.rest
    }

    /// Passes over `len` bytes that are known to be there.
    #[inline]
    pub fn skip(&mut self, len: usize) {
        self.rest = &self.rest[len..];
    }

    #[inline]
    fn chunk<const N: usize>(&mut self) -> Result<[u8; N], Refusal> {
        match self.rest.split_first_chunk() {
            Some((chunk, rest)) => {
                self.rest = rest;
                Ok(*chunk)
            }
            None => Err(Refusal::new(1, self.place())),
        }
    }

    /// A 32-bit number.
    #[inline]
    pub fn word(&mut self) -> Result<u32, Refusal> {
        self.chunk().map(u32::from_be_bytes)
    }

    /// A 64-bit number, one field of eight bytes.
    #[inline]
    pub fn hyper(&mut self) -> Result<u64, Refusal> {
        self.chunk().map(u64::from_be_bytes)
    }

    /// A length or count word that is at most `limit`.
    #[inline]
    pub fn limited(&mut self, limit: u32) -> Result<u32, Refusal> {
        let place = self.place();
        let word = self.word()?;
        if word > limit {
            return Err(Refusal::new(5, place));
        }
        Ok(word)
    }

    /// An opaque: length word, contents, and zero bytes up to a multiple of four.
    #[inline]
    pub fn opaque(&mut self, limit: u32) -> Result<Span, Refusal> {
        self.padded(limit).map(|(span, _)| span)
    }

    /// A string: an opaque that follows the text rule.
    #[inline]
    pub fn string(&mut self, limit: u32) -> Result<Span, Refusal> {
        self.text(limit).map(|(span, _)| span)
    }

    /// A string that isn't empty and is a plain path.
    #[inline]
    pub fn name(&mut self, limit: u32) -> Result<Span, Refusal> {
        let place = self.place();
        let (span, bytes) = self.text(limit)?;
        if bytes.is_empty() {
            return Err(Refusal::new(8, place));
        }
        if !is_plain_path(bytes) {
            return Err(Refusal::new(24, place));
        }
        Ok(span)
    }

    /// A hash: a length word of 32 and 32 bytes, which need no pad.
    #[inline]
    pub fn hash(&mut self) -> Result<Span, Refusal> {
        let place = self.place();
        if self.word()? != HASH_LEN {
            return Err(Refusal::new(9, place));
        }
        let start = self.place();
        match self.chunk::<{ HASH_LEN as usize }>() {
            Ok(_) => Ok(Span {
                start,
                len: HASH_LEN as usize,
            }),
            // What is missing is the opaque, and that begins with its length word.
            Err(_) => Err(Refusal::new(1, place)),
        }
    }

    /// Span and contents of a string.
    #[inline]
    fn text(&mut self, limit: u32) -> Result<(Span, &'a [u8]), Refusal> {
        let (span, bytes) = self.padded(limit)?;
        if let Some(at) = broken_at(bytes) {
            return Err(Refusal::new(7, span.start + at));
        }
        Ok((span, bytes))
    }

    /// Span and contents of an opaque.
    #[inline]
    fn padded(&mut self, limit: u32) -> Result<(Span, &'a [u8]), Refusal> {
        let place = self.place();
        let len = self.limited(limit)? as usize;
        let Some((field, rest)) = self.rest.split_at_checked(len.next_multiple_of(4)) else {
            return Err(Refusal::new(1, place));
        };
        let start = place + 4;
        let (bytes, pad) = field.split_at(len);
        if let Some(at) = pad.iter().position(|&byte| byte != 0) {
            return Err(Refusal::new(6, start + len + at));
        }
        self.rest = rest;
        Ok((Span { start, len }, bytes))
    }
}
