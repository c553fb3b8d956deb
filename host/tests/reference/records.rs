//! The elements of arrays: files with their blocks, and options.

use super::fields::Reader;
use super::{
    Refusal, Span, BLOCK_LEN, DELETED, HASH_LEN, MAX_BLOCKS, MAX_FILES, MAX_KEY, MAX_LENGTH,
    MAX_NAME, MAX_OPTIONS, MAX_VALUE, RESERVED_FLAGS,
};

/// Checks a FileInfo array with its count word and passes over it. Gives the number of files.
pub fn files(reader: &mut Reader) -> Result<u32, Refusal> {
    let count = reader.limited(MAX_FILES)?;
    for _ in 0..count {
        file(reader)?;
    }
    Ok(count)
}

/// Checks one record and passes over it. Gives its name.
pub fn file(reader: &mut Reader) -> Result<Span, Refusal> {
    let name = reader.name(MAX_NAME)?;
    let place = reader.place();
    let flags = reader.word()?;
    if flags & RESERVED_FLAGS != 0 {
        return Err(Refusal::new(11, place));
    }
    reader.hyper()?;
    reader.word()?;
    let place = reader.place();
    let count = reader.limited(MAX_BLOCKS)?;
    if flags & DELETED != 0 && count > 0 {
        return Err(Refusal::new(12, place));
    }
    blocks(reader, count as usize)?;
    Ok(name)
}

fn blocks(reader: &mut Reader, count: usize) -> Result<(), Refusal> {
    // Blocks that are wholly there need no check of their own for missing bytes.
    let (whole, _) = reader.rest().as_chunks::<BLOCK_LEN>();
    let whole = &whole[..whole.len().min(count)];
    for (number, block) in whole.iter().enumerate() {
        let [l0, l1, l2, l3, h0, h1, h2, h3, ..] = *block;
        let place = reader.place() + number * BLOCK_LEN;
        if !is_block_length(u32::from_be_bytes([l0, l1, l2, l3])) {
            return Err(Refusal::new(10, place));
        }
        if u32::from_be_bytes([h0, h1, h2, h3]) != HASH_LEN {
            return Err(Refusal::new(9, place + 4));
        }
    }
    reader.skip(whole.len() * BLOCK_LEN);
    if whole.len() < count {
        // The next block is cut short. Reading its fields finds the first that is at fault.
        block_length(reader)?;
        reader.hash()?;
    }
    Ok(())
}

/// The Length of a block or a Request.
pub fn block_length(reader: &mut Reader) -> Result<u32, Refusal> {
    let place = reader.place();
    let length = reader.word()?;
    if !is_block_length(length) {
        return Err(Refusal::new(10, place));
    }
    Ok(length)
}

/// Whether a block or a Request may have this Length.
pub fn is_block_length(length: u32) -> bool {
    (1..=MAX_LENGTH).contains(&length)
}

/// Checks an option array with its count word and passes over it. Gives the number of options.
pub fn options(reader: &mut Reader) -> Result<u32, Refusal> {
    let count = reader.limited(MAX_OPTIONS)?;
    for _ in 0..count {
        reader.string(MAX_KEY)?;
        reader.string(MAX_VALUE)?;
    }
    Ok(count)
}

/// One FileInfo record of an array.
#[derive(Clone, Copy, Debug, PartialEq, Eq)]
pub struct File {
    /// The place past the record.
    pub end: usize,
    pub name: Span,
    pub flags: u32,
    pub modified: i64,
    pub version: u32,
    pub blocks: u32,
    pub first_block: usize,
}

/// The record at the place `at`, or none where its fields aren't wholly there.
pub fn file_at(array: &[u8], at: usize) -> Option<File> {
    file_or_missing(array, at).ok()
}

/// The record at the place `at`, or the first byte of the field that isn't wholly there.
pub fn file_or_missing(array: &[u8], at: usize) -> Result<File, usize> {
    let mut reader = Reader::new(array.get(at..).ok_or(at)?, at);
    let name = unchecked_opaque(&mut reader)?;
    let flags = reader.word().map_err(place)?;
    let modified = reader.hyper().map_err(place)? as i64;
    let version = reader.word().map_err(place)?;
    let blocks = reader.word().map_err(place)?;
    let first_block = reader.place();
    for _ in 0..blocks {
        reader.word().map_err(place)?;
        let hash = reader.place();
        if reader.rest().len() < BLOCK_LEN - 4 {
            return Err(hash);
        }
        reader.skip(BLOCK_LEN - 4);
    }
    Ok(File {
        end: reader.place(),
        name,
        flags,
        modified,
        version,
        blocks,
        first_block,
    })
}

fn place(refusal: Refusal) -> usize {
    refusal.place
}

/// One option of an array.
#[derive(Clone, Copy, Debug, PartialEq, Eq)]
pub struct KeyValue {
    /// The place past the option.
    pub end: usize,
    pub key: Span,
    pub value: Span,
}

/// The option at the place `at`, or none where its fields aren't wholly there.
pub fn option_at(array: &[u8], at: usize) -> Option<KeyValue> {
    option_or_missing(array, at).ok()
}

/// The option at the place `at`, or the first byte of the field that isn't wholly there.
pub fn option_or_missing(array: &[u8], at: usize) -> Result<KeyValue, usize> {
    let mut reader = Reader::new(array.get(at..).ok_or(at)?, at);
    let key = unchecked_opaque(&mut reader)?;
    let value = unchecked_opaque(&mut reader)?;
    Ok(KeyValue {
        end: reader.place(),
        key,
        value,
    })
}

/// A string or opaque by bounds alone: of any length, with any contents and pad. Or its place, where it
/// isn't wholly there.
fn unchecked_opaque(reader: &mut Reader) -> Result<Span, usize> {
    let at = reader.place();
    let len = reader.word().map_err(place)? as usize;
    let padded = len.checked_next_multiple_of(4).ok_or(at)?;
    if reader.rest().len() < padded {
        return Err(at);
    }
    let start = reader.place();
    reader.skip(padded);
    Ok(Span { start, len })
}
