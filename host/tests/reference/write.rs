//! Writing the messages of both editions into a lent buffer.
//!
//! Each writer checks the ID, then the fields in the order a reader meets them, then the room. Only
//! after that it writes, so a refusal leaves the buffer as it was. Those of an Index, an IndexUpdate and
//! a Request are given a Repository in the new edition and none in the old; the other messages are the
//! same in both.

use super::fields::Reader;
use super::names::is_plain_path;
use super::text::broken_at;
use super::{
    records, Refusal, HASH_LEN, INDEX, INDEX_UPDATE, MAX_DATA, MAX_ID, MAX_NAME, MAX_REPOSITORY,
    OPTIONS, PING, PONG, REQUEST, RESPONSE,
};

const HEADER_LEN: usize = 4;

/// Writes an Index message. `files` is an encoded FileInfo array; bytes after its end don't count.
pub fn write_index(
    out: &mut [u8],
    id: u32,
    repository: &[u8],
    files: &[u8],
) -> Result<usize, Refusal> {
    index(out, INDEX, id, Some(repository), files)
}

/// Writes an Index message of the old edition.
pub fn write_old_index(out: &mut [u8], id: u32, files: &[u8]) -> Result<usize, Refusal> {
    index(out, INDEX, id, None, files)
}

/// Writes an IndexUpdate message, which is built like an Index.
pub fn write_index_update(
    out: &mut [u8],
    id: u32,
    repository: &[u8],
    files: &[u8],
) -> Result<usize, Refusal> {
    index(out, INDEX_UPDATE, id, Some(repository), files)
}

/// Writes an IndexUpdate message of the old edition.
pub fn write_old_index_update(out: &mut [u8], id: u32, files: &[u8]) -> Result<usize, Refusal> {
    index(out, INDEX_UPDATE, id, None, files)
}

fn index(
    out: &mut [u8],
    kind: u32,
    id: u32,
    repository: Option<&[u8]>,
    files: &[u8],
) -> Result<usize, Refusal> {
    let header = header(kind, id)?;
    let files_place = after_repository(repository)?;
    let files = array(files, files_place, records::files)?;
    let mut out = Output::new(out, files_place + files.len())?;
    out.word(header);
    out.repository(repository);
    out.bytes(files);
    Ok(out.len)
}

/// Writes a Request message. A hash of another length than 32 is refused.
pub fn write_request(
    out: &mut [u8],
    id: u32,
    repository: &[u8],
    name: &[u8],
    offset: u64,
    length: u32,
    hash: &[u8],
) -> Result<usize, Refusal> {
    request(out, id, Some(repository), name, offset, length, hash)
}

/// Writes a Request message of the old edition.
pub fn write_old_request(
    out: &mut [u8],
    id: u32,
    name: &[u8],
    offset: u64,
    length: u32,
    hash: &[u8],
) -> Result<usize, Refusal> {
    request(out, id, None, name, offset, length, hash)
}

fn request(
    out: &mut [u8],
    id: u32,
    repository: Option<&[u8]>,
    name: &[u8],
    offset: u64,
    length: u32,
    hash: &[u8],
) -> Result<usize, Refusal> {
    let header = header(REQUEST, id)?;
    let name_place = after_repository(repository)?;
    check_name(name, name_place)?;
    let length_place = name_place + opaque_len(name) + 8;
    if !records::is_block_length(length) {
        return Err(Refusal::new(10, length_place));
    }
    let hash_place = length_place + 4;
    if hash.len() != HASH_LEN as usize {
        return Err(Refusal::new(9, hash_place));
    }
    let mut out = Output::new(out, hash_place + opaque_len(hash))?;
    out.word(header);
    out.repository(repository);
    out.opaque(name);
    out.bytes(&offset.to_be_bytes());
    out.word(length);
    out.opaque(hash);
    Ok(out.len)
}

/// Writes a Response message.
pub fn write_response(out: &mut [u8], id: u32, data: &[u8]) -> Result<usize, Refusal> {
    let header = header(RESPONSE, id)?;
    if data.len() > MAX_DATA as usize {
        return Err(Refusal::new(5, HEADER_LEN));
    }
    let mut out = Output::new(out, HEADER_LEN + opaque_len(data))?;
    out.word(header);
    out.opaque(data);
    Ok(out.len)
}

/// Writes a Ping message.
pub fn write_ping(out: &mut [u8], id: u32) -> Result<usize, Refusal> {
    bare(out, PING, id)
}

/// Writes a Pong message.
pub fn write_pong(out: &mut [u8], id: u32) -> Result<usize, Refusal> {
    bare(out, PONG, id)
}

fn bare(out: &mut [u8], kind: u32, id: u32) -> Result<usize, Refusal> {
    let header = header(kind, id)?;
    let mut out = Output::new(out, HEADER_LEN)?;
    out.word(header);
    Ok(out.len)
}

/// Writes an Options message. `options` is an encoded array; bytes after its end don't count.
pub fn write_options(out: &mut [u8], id: u32, options: &[u8]) -> Result<usize, Refusal> {
    let header = header(OPTIONS, id)?;
    let options = array(options, HEADER_LEN, records::options)?;
    let mut out = Output::new(out, HEADER_LEN + options.len())?;
    out.word(header);
    out.bytes(options);
    Ok(out.len)
}

/// The header word, or the refusal of an ID that doesn't fit in its 12 bits.
fn header(kind: u32, id: u32) -> Result<u32, Refusal> {
    if id > MAX_ID {
        return Err(Refusal::new(5, 0));
    }
    Ok(id << 16 | kind << 8)
}

/// Checks the Repository, where there is one, and gives the place of the next field.
fn after_repository(repository: Option<&[u8]>) -> Result<usize, Refusal> {
    let Some(repository) = repository else {
        return Ok(HEADER_LEN);
    };
    check_string(repository, MAX_REPOSITORY, HEADER_LEN)?;
    Ok(HEADER_LEN + opaque_len(repository))
}

/// Checks a string whose length word would stand at `place`. The pad is the writer's own, so 6 can't
/// happen.
fn check_string(bytes: &[u8], limit: u32, place: usize) -> Result<(), Refusal> {
    if bytes.len() > limit as usize {
        return Err(Refusal::new(5, place));
    }
    if let Some(at) = broken_at(bytes) {
        return Err(Refusal::new(7, place + 4 + at));
    }
    Ok(())
}

/// Checks a Name whose length word would stand at `place`.
fn check_name(name: &[u8], place: usize) -> Result<(), Refusal> {
    check_string(name, MAX_NAME, place)?;
    if name.is_empty() {
        return Err(Refusal::new(8, place));
    }
    if !is_plain_path(name) {
        return Err(Refusal::new(24, place));
    }
    Ok(())
}

/// The array at the start of `bytes`, checked as if it stood at `place` of a message.
fn array(
    bytes: &[u8],
    place: usize,
    elements: fn(&mut Reader) -> Result<u32, Refusal>,
) -> Result<&[u8], Refusal> {
    let mut reader = Reader::new(bytes, place);
    elements(&mut reader)?;
    Ok(&bytes[..reader.place() - place])
}

/// The bytes that a string or opaque occupies: length word, contents and pad.
fn opaque_len(bytes: &[u8]) -> usize {
    4 + bytes.len().next_multiple_of(4)
}

/// Fills the start of a lent buffer from the left.
struct Output<'a> {
    rest: &'a mut [u8],
    /// The length of the whole message.
    len: usize,
}

impl<'a> Output<'a> {
    /// An output for a message of `len` bytes, or the refusal of a buffer that is too short.
    fn new(out: &'a mut [u8], len: usize) -> Result<Self, Refusal> {
        match out.get_mut(..len) {
            Some(rest) => Ok(Output { rest, len }),
            None => Err(Refusal::new(14, 0)),
        }
    }

    fn bytes(&mut self, bytes: &[u8]) {
        let (head, rest) = std::mem::take(&mut self.rest).split_at_mut(bytes.len());
        head.copy_from_slice(bytes);
        self.rest = rest;
    }

    fn word(&mut self, word: u32) {
        self.bytes(&word.to_be_bytes());
    }

    fn repository(&mut self, repository: Option<&[u8]>) {
        if let Some(repository) = repository {
            self.opaque(repository);
        }
    }

    fn opaque(&mut self, bytes: &[u8]) {
        // The limits were checked, so the length fits in its word.
        self.word(bytes.len() as u32);
        self.bytes(bytes);
        let pad = bytes.len().next_multiple_of(4) - bytes.len();
        self.bytes(&[0; 3][..pad]);
    }
}
