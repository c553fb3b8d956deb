//! The reference's reading with the standard library's UTF-8 in place of its own text rule.

// Not all of the reference's parts are used, and all are there a second time.
#![allow(dead_code, clippy::duplicate_mod)]

use crate::reference::*;

#[path = "../../tests/reference/fields.rs"]
mod fields;
#[path = "../../tests/reference/names.rs"]
mod names;
#[path = "../../tests/reference/read.rs"]
mod read;
#[path = "../../tests/reference/records.rs"]
mod records;

mod text {
    use std::str::{from_utf8, Utf8Error};

    #[inline]
    pub fn broken_at(bytes: &[u8]) -> Option<usize> {
        from_utf8(bytes).err().map(place)
    }

    /// Out of the way of what is text.
    #[cold]
    fn place(error: Utf8Error) -> usize {
        error.valid_up_to()
    }
}

pub use read::{read, Message};
