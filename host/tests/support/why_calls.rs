//! The calls on why a block isn't coming and on what an entry of a list stands for, word by word.

use super::library::{ffi, Answer, UNSET};
use crate::reference::{self, Details, Reason};

/// The words of why a block of a name isn't coming.
pub fn why(tables: [&[u8]; 5], name: &[u8], block: u32) -> Answer<3> {
    let [local, peer1, peer2, peer3, peer4] = tables;
    let mut answer = [UNSET; 3];
    // SAFETY: each pointer and length are those of one slice, and the answer has the size asked for.
    let number = unsafe {
        ffi::bep_why(
            local.as_ptr(),
            local.len(),
            peer1.as_ptr(),
            peer1.len(),
            peer2.as_ptr(),
            peer2.len(),
            peer3.as_ptr(),
            peer3.len(),
            peer4.as_ptr(),
            peer4.len(),
            name.as_ptr(),
            name.len(),
            block,
            &mut answer,
        )
    };
    (number, answer)
}

/// The words of what an entry stands for.
pub fn details(tables: [&[u8]; 5], file: u32, block: u32) -> Answer<6> {
    let [local, peer1, peer2, peer3, peer4] = tables;
    let mut answer = [UNSET; 6];
    // SAFETY: as in `why`.
    let number = unsafe {
        ffi::bep_details(
            local.as_ptr(),
            local.len(),
            peer1.as_ptr(),
            peer1.len(),
            peer2.as_ptr(),
            peer2.len(),
            peer3.as_ptr(),
            peer3.len(),
            peer4.as_ptr(),
            peer4.len(),
            file,
            block,
            &mut answer,
        )
    };
    (number, answer)
}

/// The words of what the reference gives.
pub fn why_words(reason: Result<Reason, reference::Refusal>) -> Answer<3> {
    match reason {
        Ok(Reason::NoSuchName) => (0, [1, 0, 0]),
        Ok(Reason::Deleted) => (0, [2, 0, 0]),
        Ok(Reason::Invalid) => (0, [3, 0, 0]),
        Ok(Reason::NoSuchBlock) => (0, [4, 0, 0]),
        Ok(Reason::Held { record, block }) => (0, [5, u64::from(record), u64::from(block)]),
        Ok(Reason::Wanted { peer }) => (0, [6, u64::from(peer), 0]),
        Err(refusal) => (refusal.number, [0; 3]),
    }
}

/// The words of what the reference gives.
pub fn details_words(details: Result<Option<Details>, reference::Refusal>) -> Answer<6> {
    match details {
        Ok(Some(details)) => {
            let words = [
                details.table as u64,
                details.name.start as u64,
                details.name.len as u64,
                details.offset,
                u64::from(details.length),
                details.hash as u64,
            ];
            (0, words)
        }
        Ok(None) => (1, [0; 6]),
        Err(refusal) => (refusal.number, [0; 6]),
    }
}

/// The reason of the safe call, as the reference has it. It gives all there is in an answer.
pub fn by_reason(tables: [&[u8]; 5], name: &[u8], block: u32) -> Result<Reason, u32> {
    let [local, peers @ ..] = tables;
    match fordtrumpet::raw::why(local, peers, name, block) {
        Ok(fordtrumpet::Reason::NoSuchName) => Ok(Reason::NoSuchName),
        Ok(fordtrumpet::Reason::Deleted) => Ok(Reason::Deleted),
        Ok(fordtrumpet::Reason::Invalid) => Ok(Reason::Invalid),
        Ok(fordtrumpet::Reason::NoSuchBlock) => Ok(Reason::NoSuchBlock),
        Ok(fordtrumpet::Reason::Held { record, block }) => Ok(Reason::Held { record, block }),
        Ok(fordtrumpet::Reason::Wanted { peer }) => Ok(Reason::Wanted { peer }),
        Err(refusal) => Err(refusal.number()),
    }
}
