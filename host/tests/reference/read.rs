//! Reading a whole message.

use super::fields::Reader;
use super::{
    records, Edition, Refusal, Span, INDEX, INDEX_UPDATE, MAX_DATA, MAX_ID, MAX_NAME,
    MAX_REPOSITORY, OPTIONS, PING, PONG, REQUEST, RESPONSE,
};

/// A message that was read. Its spans lie in the input.
#[derive(Clone, Copy, Debug, PartialEq, Eq)]
pub struct Message {
    pub id: u32,
    /// The number of bytes the message occupies. Later bytes belong to the next one.
    pub end: usize,
    pub body: Body,
}

/// The kind of a message and its fields.
#[derive(Clone, Copy, Debug, PartialEq, Eq)]
pub enum Body {
    /// `files` is the encoded array with its count word.
    Index {
        repository: Span,
        files: Span,
        count: u32,
    },
    Request {
        repository: Span,
        name: Span,
        offset: u64,
        length: u32,
        hash: Span,
    },
    Response {
        data: Span,
    },
    Ping,
    Pong,
    /// `files` is the encoded array with its count word.
    IndexUpdate {
        repository: Span,
        files: Span,
        count: u32,
    },
    /// `options` is the encoded array with its count word.
    Options {
        options: Span,
        count: u32,
    },
}

/// Reads the message of the new edition at the start of `input`.
pub fn read(input: &[u8]) -> Result<Message, Refusal> {
    read_as(Edition::New, input)
}

/// Reads the message of this edition at the start of `input`. Where the edition is known, its code is made
/// for that one alone.
#[inline(always)]
pub fn read_as(edition: Edition, input: &[u8]) -> Result<Message, Refusal> {
    let mut reader = Reader::new(input, 0);
    let header = reader.word()?;
    if header >> 28 != 0 {
        return Err(Refusal::new(2, 0));
    }
    let kind = header >> 8 & 0xFF;
    let last = match edition {
        Edition::Old => INDEX_UPDATE,
        Edition::New => OPTIONS,
    };
    if !(INDEX..=last).contains(&kind) {
        return Err(Refusal::new(3, 0));
    }
    if header & 0xFF != 0 {
        return Err(Refusal::new(4, 0));
    }
    let body = match kind {
        INDEX => {
            let (repository, files, count) = index(edition, &mut reader)?;
            Body::Index {
                repository,
                files,
                count,
            }
        }
        INDEX_UPDATE => {
            let (repository, files, count) = index(edition, &mut reader)?;
            Body::IndexUpdate {
                repository,
                files,
                count,
            }
        }
        // The fields of a struct expression are evaluated in the order they are written in.
        REQUEST => Body::Request {
            repository: repository(edition, &mut reader)?,
            name: reader.name(MAX_NAME)?,
            offset: reader.hyper()?,
            length: records::block_length(&mut reader)?,
            hash: reader.hash()?,
        },
        RESPONSE => Body::Response {
            data: reader.opaque(MAX_DATA)?,
        },
        PING => Body::Ping,
        PONG => Body::Pong,
        _ => {
            let (options, count) = array(&mut reader, records::options)?;
            Body::Options { options, count }
        }
    };
    Ok(Message {
        id: header >> 16 & MAX_ID,
        end: reader.place(),
        body,
    })
}

#[inline(always)]
fn index(edition: Edition, reader: &mut Reader) -> Result<(Span, Span, u32), Refusal> {
    let repository = repository(edition, reader)?;
    let (files, count) = array(reader, records::files)?;
    Ok((repository, files, count))
}

/// The Repository. An old message has none, which is an empty span where it would stand.
#[inline(always)]
fn repository(edition: Edition, reader: &mut Reader) -> Result<Span, Refusal> {
    match edition {
        Edition::Old => Ok(Span {
            start: reader.place(),
            len: 0,
        }),
        Edition::New => reader.string(MAX_REPOSITORY),
    }
}

/// Passes over an array and gives its span and its number of elements.
fn array(
    reader: &mut Reader,
    elements: fn(&mut Reader) -> Result<u32, Refusal>,
) -> Result<(Span, u32), Refusal> {
    let start = reader.place();
    let count = elements(reader)?;
    let len = reader.place() - start;
    Ok((Span { start, len }, count))
}
