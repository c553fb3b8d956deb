//! The two editions, and turning a message of one into the other: its fields are read and written again.
//!
//! What was read keeps the rules that it has in both editions, so that of the writers' checks only those
//! of the Repository and of the room are left.

use super::read::{read, read_as, Body};
use super::write::{
    write_index, write_index_update, write_old_index, write_old_index_update, write_old_request,
    write_ping, write_pong, write_request, write_response,
};
use super::Refusal;

/// Which edition of the protocol a message is of.
#[derive(Clone, Copy, Debug, PartialEq, Eq, PartialOrd, Ord)]
pub enum Edition {
    /// That of source document 000: without Repository and Options.
    Old,
    /// That of source document 001.
    New,
}

/// Turns the old message at the start of `message` into a new one.
pub fn upgrade(message: &[u8], repository: &[u8], out: &mut [u8]) -> Result<usize, Refusal> {
    let read = read_as(Edition::Old, message)?;
    let id = read.id;
    match read.body {
        Body::Index { files, .. } => write_index(out, id, repository, files.of(message)),
        Body::IndexUpdate { files, .. } => {
            write_index_update(out, id, repository, files.of(message))
        }
        Body::Request {
            name,
            offset,
            length,
            hash,
            ..
        } => {
            let (name, hash) = (name.of(message), hash.of(message));
            write_request(out, id, repository, name, offset, length, hash)
        }
        Body::Response { data } => write_response(out, id, data.of(message)),
        Body::Ping => write_ping(out, id),
        Body::Pong => write_pong(out, id),
        Body::Options { .. } => unreachable!("no old message is an Options"),
    }
}

/// Turns the new message at the start of `message` into an old one.
pub fn downgrade(message: &[u8], out: &mut [u8]) -> Result<usize, Refusal> {
    let read = read(message)?;
    let id = read.id;
    match read.body {
        Body::Index { files, .. } => write_old_index(out, id, files.of(message)),
        Body::IndexUpdate { files, .. } => write_old_index_update(out, id, files.of(message)),
        Body::Request {
            name,
            offset,
            length,
            hash,
            ..
        } => {
            let (name, hash) = (name.of(message), hash.of(message));
            write_old_request(out, id, name, offset, length, hash)
        }
        Body::Response { data } => write_response(out, id, data.of(message)),
        Body::Ping => write_ping(out, id),
        Body::Pong => write_pong(out, id),
        Body::Options { .. } => Err(Refusal::new(18, 0)),
    }
}
