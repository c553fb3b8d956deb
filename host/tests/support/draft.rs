//! A message to be written: the fields as a writer is given them, right or wrong.

use super::encode::Encoding;
use super::library::ffi;
use crate::reference::{self, Edition};

/// The fields of a message, with its arrays encoded.
///
/// In the old edition the Repository doesn't count, and there is no writer for Options.
#[derive(Clone, Debug)]
pub struct Draft {
    pub id: u32,
    pub edition: Edition,
    pub body: Body,
}

#[derive(Clone, Debug)]
pub enum Body {
    Index {
        update: bool,
        repository: Vec<u8>,
        files: Encoding,
    },
    Request {
        repository: Vec<u8>,
        name: Vec<u8>,
        offset: u64,
        length: u32,
        hash: Vec<u8>,
    },
    Response {
        data: Vec<u8>,
    },
    Ping,
    Pong,
    Options {
        options: Encoding,
    },
}

impl Draft {
    /// A message of the new edition.
    pub fn new(id: u32, body: Body) -> Self {
        let edition = Edition::New;
        Draft { id, edition, body }
    }

    /// The type of the message.
    pub fn kind(&self) -> u32 {
        match self.body {
            Body::Index { update: false, .. } => 1,
            Body::Request { .. } => 2,
            Body::Response { .. } => 3,
            Body::Ping => 4,
            Body::Pong => 5,
            Body::Index { update: true, .. } => 6,
            Body::Options { .. } => 7,
        }
    }

    /// The Repository, which such a message has in the new edition.
    pub fn repository(&self) -> Option<&[u8]> {
        match &self.body {
            Body::Index { repository, .. } | Body::Request { repository, .. } => Some(repository),
            _ => None,
        }
    }

    /// The message that the fields make, put together without any check.
    pub fn encode(&self) -> Encoding {
        let mut encoding = Encoding::new();
        encoding.header(self.kind(), self.id);
        if let (Edition::New, Some(repository)) = (self.edition, self.repository()) {
            encoding.string(repository, 64);
        }
        match &self.body {
            Body::Index { files, .. } => {
                encoding.append(files);
            }
            Body::Request {
                name,
                offset,
                length,
                hash,
                ..
            } => {
                encoding
                    .name(name)
                    .offset(*offset)
                    .block_length(*length)
                    .hash(hash);
            }
            Body::Response { data } => {
                encoding.data(data, 131_072);
            }
            Body::Ping | Body::Pong => {}
            Body::Options { options } => {
                encoding.append(options);
            }
        }
        encoding
    }

    /// Writes it with the reference.
    pub fn write_with_reference(&self, out: &mut [u8]) -> Result<usize, reference::Refusal> {
        use reference::{
            write_index, write_index_update, write_old_index, write_old_index_update,
            write_old_request, write_options, write_ping, write_pong, write_request,
            write_response,
        };
        let (id, edition) = (self.id, self.edition);
        match &self.body {
            Body::Index {
                update,
                repository,
                files,
            } => match (edition, update) {
                (Edition::New, false) => write_index(out, id, repository, &files.bytes),
                (Edition::New, true) => write_index_update(out, id, repository, &files.bytes),
                (Edition::Old, false) => write_old_index(out, id, &files.bytes),
                (Edition::Old, true) => write_old_index_update(out, id, &files.bytes),
            },
            Body::Request {
                repository,
                name,
                offset,
                length,
                hash,
            } => match edition {
                Edition::New => write_request(out, id, repository, name, *offset, *length, hash),
                Edition::Old => write_old_request(out, id, name, *offset, *length, hash),
            },
            Body::Response { data } => write_response(out, id, data),
            Body::Ping => write_ping(out, id),
            Body::Pong => write_pong(out, id),
            Body::Options { options } => write_options(out, id, &options.bytes),
        }
    }

    /// Writes it with the library: by way of the safe functions, but for a hash that these can't be
    /// given. A refusal is its number and its place.
    pub fn write_with_library(&self, out: &mut [u8]) -> Result<usize, (u32, usize)> {
        match &self.body {
            Body::Request { hash, .. } if hash.len() != 32 => self.write_with_any_hash(out),
            _ => {
                let written = self.write_safely(out);
                written.map_err(|refusal| (refusal.number(), refusal.place()))
            }
        }
    }

    /// Writes it by way of the safe functions.
    pub fn write_safely(&self, out: &mut [u8]) -> Result<usize, fordtrumpet::Refusal> {
        use fordtrumpet::{
            write_index, write_index_update, write_old_index, write_old_index_update,
            write_old_request, write_options, write_ping, write_pong, write_request,
            write_response,
        };
        let (id, edition) = (self.id, self.edition);
        match &self.body {
            Body::Index {
                update,
                repository,
                files,
            } => match (edition, update) {
                (Edition::New, false) => write_index(id, repository, &files.bytes, out),
                (Edition::New, true) => write_index_update(id, repository, &files.bytes, out),
                (Edition::Old, false) => write_old_index(id, &files.bytes, out),
                (Edition::Old, true) => write_old_index_update(id, &files.bytes, out),
            },
            Body::Request {
                repository,
                name,
                offset,
                length,
                hash,
            } => {
                let hash = hash.as_slice().try_into().expect("a hash has 32 bytes");
                let (offset, length) = (*offset, *length);
                match edition {
                    Edition::New => write_request(id, repository, name, offset, length, hash, out),
                    Edition::Old => write_old_request(id, name, offset, length, hash, out),
                }
            }
            Body::Response { data } => write_response(id, data, out),
            Body::Ping => write_ping(id, out),
            Body::Pong => write_pong(id, out),
            Body::Options { options } => write_options(id, &options.bytes, out),
        }
    }

    /// Writes a Request whose hash has any length.
    fn write_with_any_hash(&self, out: &mut [u8]) -> Result<usize, (u32, usize)> {
        let Body::Request {
            repository,
            name,
            offset,
            length,
            hash,
        } = &self.body
        else {
            panic!("only a Request has a hash");
        };
        let mut answer = [0];
        // SAFETY: each pointer and length are those of one slice, and the answer has the size asked for.
        let number = unsafe {
            match self.edition {
                Edition::New => ffi::bep_write_request(
                    out.as_mut_ptr(),
                    out.len(),
                    self.id,
                    repository.as_ptr(),
                    repository.len(),
                    name.as_ptr(),
                    name.len(),
                    *offset,
                    *length,
                    hash.as_ptr(),
                    hash.len(),
                    &mut answer,
                ),
                Edition::Old => ffi::bep_write_old_request(
                    out.as_mut_ptr(),
                    out.len(),
                    self.id,
                    name.as_ptr(),
                    name.len(),
                    *offset,
                    *length,
                    hash.as_ptr(),
                    hash.len(),
                    &mut answer,
                ),
            }
        };
        match number {
            0 => Ok(answer[0] as usize),
            _ => Err((number, answer[0] as usize)),
        }
    }
}
