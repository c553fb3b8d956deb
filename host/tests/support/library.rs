//! Calls of the library whose answers are words, so that they can be compared word by word.

use super::draft::Draft;
use super::feeding;
use crate::reference::Edition;
use fordtrumpet::{Message, ReadMessage, Refusal};

#[path = "../../src/ffi.rs"]
pub mod ffi;

/// What answers start out as, so that a word left unset shows.
pub const UNSET: u64 = 0xA5A5_A5A5_A5A5_A5A5;

/// A number and the words of an answer.
pub type Answer<const N: usize> = (u32, [u64; N]);

/// The calls under test. Faults are planted by exchanging one of them.
#[derive(Clone, Copy)]
pub struct Library {
    pub read: fn(&[u8]) -> Answer<11>,
    pub read_safely: fn(&[u8]) -> Answer<11>,
    pub read_old: fn(&[u8]) -> Answer<11>,
    pub read_old_safely: fn(&[u8]) -> Answer<11>,
    pub open_feed: fn(Edition) -> feeding::Words,
    pub feed: fn(&mut feeding::Words, &feeding::Given) -> Answer<2>,
    pub feed_header: fn(&feeding::Words) -> Answer<2>,
    pub write: fn(&Draft, &mut [u8]) -> Answer<1>,
    /// Message, repository, buffer.
    pub upgrade: fn(&[u8], &[u8], &mut [u8]) -> Answer<1>,
    pub downgrade: fn(&[u8], &mut [u8]) -> Answer<1>,
    pub file: fn(&[u8], usize) -> Answer<8>,
    pub option: fn(&[u8], usize) -> Answer<5>,
}

/// The library as it is.
pub const LIBRARY: Library = Library {
    read,
    read_safely: |input| safely(input, fordtrumpet::read(input)),
    read_old,
    read_old_safely: |input| safely(input, fordtrumpet::read_old(input)),
    open_feed: feeding::open,
    feed: |words, given| feeding::feed(words, given.run),
    feed_header: feeding::header,
    write,
    upgrade: |message, repository, out| written(fordtrumpet::upgrade(message, repository, out)),
    downgrade: |message, out| written(fordtrumpet::downgrade(message, out)),
    file,
    option,
};

fn read(input: &[u8]) -> Answer<11> {
    let mut answer = [UNSET; 11];
    // SAFETY: pointer and length are those of one slice. The same holds for the other calls.
    let number = unsafe { ffi::bep_read(input.as_ptr(), input.len(), &mut answer) };
    (number, answer)
}

fn read_old(input: &[u8]) -> Answer<11> {
    let mut answer = [UNSET; 11];
    // SAFETY: as in `read`.
    let number = unsafe { ffi::bep_read_old(input.as_ptr(), input.len(), &mut answer) };
    (number, answer)
}

fn file(array: &[u8], at: usize) -> Answer<8> {
    let mut answer = [UNSET; 8];
    // SAFETY: as in `read`.
    let number = unsafe { ffi::bep_file(array.as_ptr(), array.len(), at, &mut answer) };
    (number, answer)
}

fn option(array: &[u8], at: usize) -> Answer<5> {
    let mut answer = [UNSET; 5];
    // SAFETY: as in `read`.
    let number = unsafe { ffi::bep_option(array.as_ptr(), array.len(), at, &mut answer) };
    (number, answer)
}

/// The safe writers stand for the calls below them.
fn write(draft: &Draft, out: &mut [u8]) -> Answer<1> {
    match draft.write_with_library(out) {
        Ok(len) => (0, [len as u64]),
        Err((number, place)) => (number, [place as u64]),
    }
}

/// What a safe call that fills a buffer answered. It gives all there is in an answer.
pub fn written(answer: Result<usize, Refusal>) -> Answer<1> {
    match answer {
        Ok(len) => (0, [len as u64]),
        Err(refusal) => (refusal.number(), [refusal.place() as u64]),
    }
}

/// What the safe reading of an input gave, put back into the words it was made from.
fn safely(input: &[u8], read: Result<ReadMessage, Refusal>) -> Answer<11> {
    let mut answer = [0; 11];
    let ReadMessage { message, used } = match read {
        Ok(read) => read,
        Err(refusal) => {
            answer[0] = refusal.place() as u64;
            return (refusal.number(), answer);
        }
    };
    let mut put = |at: usize, field: &[u8]| {
        let start = field.as_ptr() as usize - input.as_ptr() as usize;
        answer[at] = start as u64;
        answer[at + 1] = field.len() as u64;
    };
    let kind = match &message {
        Message::Index(index) | Message::IndexUpdate(index) => {
            put(3, index.repository.as_bytes());
            put(5, index.files.as_bytes());
            answer[7] = index.files.len() as u64;
            match message {
                Message::Index(_) => 1,
                _ => 6,
            }
        }
        Message::Request(request) => {
            put(3, request.repository.as_bytes());
            put(5, request.name.as_bytes());
            put(9, request.hash);
            answer[7] = request.offset;
            answer[8] = u64::from(request.length);
            2
        }
        Message::Response(response) => {
            put(3, response.data);
            3
        }
        Message::Ping(_) => 4,
        Message::Pong(_) => 5,
        Message::Options(message) => {
            put(5, message.options.as_bytes());
            answer[7] = message.options.len() as u64;
            7
        }
    };
    answer[0] = used as u64;
    answer[1] = kind;
    answer[2] = u64::from(message.id());
    (0, answer)
}
