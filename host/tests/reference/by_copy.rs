//! Turning a message of one edition into the other once more: it is read, and then its bytes are copied
//! around the Repository.

use super::read::{read, read_as, Body};
use super::text::broken_at;
use super::{Edition, Refusal, MAX_REPOSITORY};

const HEADER_LEN: usize = 4;

/// Turns the old message at the start of `message` into a new one.
pub fn upgrade(message: &[u8], repository: &[u8], out: &mut [u8]) -> Result<usize, Refusal> {
    let read = read_as(Edition::Old, message)?;
    let (header, fields) = message[..read.end].split_at(HEADER_LEN);
    if !has_repository(&read.body) {
        return copy([header, &[], &[], &[], fields], out);
    }
    if repository.len() > MAX_REPOSITORY as usize {
        return Err(Refusal::new(5, HEADER_LEN));
    }
    if let Some(at) = broken_at(repository) {
        return Err(Refusal::new(7, HEADER_LEN + 4 + at));
    }
    let length = (repository.len() as u32).to_be_bytes();
    let pad = repository.len().next_multiple_of(4) - repository.len();
    copy([header, &length, repository, &[0; 3][..pad], fields], out)
}

/// Turns the new message at the start of `message` into an old one.
pub fn downgrade(message: &[u8], out: &mut [u8]) -> Result<usize, Refusal> {
    let read = read(message)?;
    let (header, mut fields) = message[..read.end].split_at(HEADER_LEN);
    match read.body {
        Body::Options { .. } => return Err(Refusal::new(18, 0)),
        Body::Index { repository, .. }
        | Body::IndexUpdate { repository, .. }
        | Body::Request { repository, .. } => {
            fields = &fields[4 + repository.len.next_multiple_of(4)..];
        }
        _ => {}
    }
    copy([header, fields], out)
}

/// Whether such a message has a Repository in the new edition.
fn has_repository(body: &Body) -> bool {
    matches!(
        body,
        Body::Index { .. } | Body::IndexUpdate { .. } | Body::Request { .. }
    )
}

/// Fills the start of the buffer with these runs of bytes, if it has room for all of them.
fn copy<const N: usize>(runs: [&[u8]; N], out: &mut [u8]) -> Result<usize, Refusal> {
    let len = runs.iter().map(|run| run.len()).sum();
    let Some(mut rest) = out.get_mut(..len) else {
        return Err(Refusal::new(14, 0));
    };
    for run in runs {
        let (head, after) = rest.split_at_mut(run.len());
        head.copy_from_slice(run);
        rest = after;
    }
    Ok(len)
}
