//! A second implementation of the library, in plain Rust, for tests and benchmarks only.
//!
//! It shares no code with the library or its wrapper. Tests compare the two answer by answer and
//! benchmarks compare their speed.

// Each test program uses its own part of this module.
#![allow(dead_code, unused_imports)]

pub mod by_copy;
pub mod by_part;
mod editions;
mod fields;
pub mod hashed;
mod names;
mod queue;
mod read;
mod records;
mod runs;
mod sha256;
mod table;
mod text;
mod want;
mod why;
mod write;

pub use editions::{downgrade, upgrade, Edition};
pub use names::is_plain_path;
pub use queue::{
    Answered, Asked, Issued, List, Outcome, Queue, Request as Outstanding, ALLOWANCE, PEERS,
};
pub use read::{read, read_as, Body, Message};
pub use records::{file_at, file_or_missing, option_at, option_or_missing, File, KeyValue};
pub use runs::{Runs, Told};
pub use sha256::{sha256, Sha256};
pub use table::{accept, compare, is_good, merge, step, MAX_TABLE};
pub use text::broken_at;
pub use want::{find_local, request_list, serve, Serving};
pub use why::{details, why, Details, Reason};
pub use write::{
    write_index, write_index_update, write_old_index, write_old_index_update, write_old_request,
    write_options, write_ping, write_pong, write_request, write_response,
};

/// Why an input is refused and where: at the field at fault, or at the byte for 6 and 7.
#[derive(Clone, Copy, Debug, PartialEq, Eq)]
pub struct Refusal {
    pub number: u32,
    pub place: usize,
}

impl Refusal {
    pub fn new(number: u32, place: usize) -> Self {
        Refusal { number, place }
    }
}

/// A run of bytes of the input: where it starts and how long it is.
#[derive(Clone, Copy, Debug, PartialEq, Eq)]
pub struct Span {
    pub start: usize,
    pub len: usize,
}

impl Span {
    /// The bytes of the span in the input it was read from.
    pub fn of(self, input: &[u8]) -> &[u8] {
        &input[self.start..self.start + self.len]
    }
}

pub const MAX_ID: u32 = 4095;
pub const MAX_REPOSITORY: u32 = 64;
pub const MAX_NAME: u32 = 255;
pub const MAX_KEY: u32 = 64;
pub const MAX_VALUE: u32 = 255;
pub const MAX_FILES: u32 = 512;
pub const MAX_BLOCKS: u32 = 1024;
pub const MAX_OPTIONS: u32 = 64;
pub const MAX_DATA: u32 = 131_072;
pub const MAX_LENGTH: u32 = 131_072;
pub const HASH_LEN: u32 = 32;

/// Bytes of one block: its Length word, the hash's length word and the hash.
pub const BLOCK_LEN: usize = 40;

/// The flag of a deleted file.
pub const DELETED: u32 = 4096;
/// The flag of an invalid file.
pub const INVALID: u32 = 8192;
/// The flags that must be zero.
pub const RESERVED_FLAGS: u32 = 0xFFFF_C000;

pub const INDEX: u32 = 1;
pub const REQUEST: u32 = 2;
pub const RESPONSE: u32 = 3;
pub const PING: u32 = 4;
pub const PONG: u32 = 5;
pub const INDEX_UPDATE: u32 = 6;
pub const OPTIONS: u32 = 7;
