//! From the words of an answer to Rust's own types.

use crate::Refusal;

/// A place or a length. Both are bounded by the length of a slice, so they fit.
pub(crate) fn size(word: u64) -> usize {
    usize::try_from(word).expect("a place lies within its slice")
}

/// A field of 32 bits.
pub(crate) fn word(word: u64) -> u32 {
    u32::try_from(word).expect("a 32-bit field has 32 bits")
}

/// The bytes of the span with this start and length.
pub(crate) fn span(bytes: &[u8], start: u64, len: u64) -> &[u8] {
    &bytes[size(start)..][..size(len)]
}

/// The string with this start and length, in bytes whose reading the library accepted.
#[inline]
pub(crate) fn text(bytes: &[u8], start: u64, len: u64) -> &str {
    text_of(span(bytes, start, len))
}

/// The text of a string, which must be one that the library has read: a call accepted the message, the
/// table or the record that it stands in.
#[inline]
pub(crate) fn text_of(string: &[u8]) -> &str {
    debug_assert!(core::str::from_utf8(string).is_ok());
    // SAFETY: the library has read these bytes as a string, and none is accepted that isn't UTF-8; that
    // is proved of every string of a message and every name of a table (`read-strings`, `good-names` in
    // `crates/promises/proofs/Strings.antt`). They have been borrowed since, so they are still the same.
    unsafe { core::str::from_utf8_unchecked(string) }
}

/// What a writer answered: the bytes written, or the refusal with its place.
pub(crate) fn written(number: u32, answer: [u64; 1]) -> Result<usize, Refusal> {
    let size = size(answer[0]);
    match number {
        0 => Ok(size),
        _ => Err(Refusal::new(number, size)),
    }
}
