//! Messages, tables, hashes and outstanding requests of the Block Exchange Protocol v1.0.
//!
//! The reading and the writing are done by a verified static library, `libbep.a`; this crate gives
//! them in Rust's own terms. What the library asks of its callers, such as pointers that aren't null
//! and buffers that don't overlap, follows here from the types.
//!
//! [`read`] gives a [`Message`] that borrows its fields from the input. The `write_*` functions fill
//! the start of a lent buffer; they are given arrays encoded, as [`FilesBuilder`] and
//! [`OptionsBuilder`] make them. What is refused comes back as a [`Refusal`] with a number and a place.
//!
//! A [`Feed`] reads a message whose bytes come a few at a time, from a radio say: it is given one run of
//! them after another and keeps none. A [`Reader`] takes messages off a stream with it.
//!
//! A [`Table`] is what a device has: its records, one a name. [`accept`] makes it of what the device
//! sends. [`merge`] puts the newest records of two tables together, and whatever order tables are
//! merged in, the result is the same.
//!
//! [`request_list`] tells which blocks to ask for, from whom, and with what: each [`Wanted`] has the name
//! and the hash that go into its Request. [`why`] tells of any block why it isn't in the list.
//!
//! A [`RequestQueue`] keeps the requests of four peers that aren't answered yet, within an allowance of bytes
//! that they share. It has the hash that each asks for, and gives out no data that have another one.
//! [`sha256`] works out such a hash, and a [`Sha256`] that of bytes that come in runs.
//!
//! An old edition of the protocol has no Repository in Index, IndexUpdate and Request, and no Options.
//! [`read_old`], [`write_old_index`], [`write_old_index_update`] and [`write_old_request`] are for links
//! that speak it; Responses, Pings and Pongs are the same in both. [`accept`], [`serve`] and
//! [`RequestQueue`] keep to the new edition: [`upgrade`] turns what comes over such a link into it, and
//! [`downgrade`] what is to be sent.
//!
//! Names and other strings of what was read are `&str`: the library lets through UTF-8 and nothing
//! else, which is proved, so there is no second check. Where a call is given a string, `&str` and
//! `&[u8]` will both do; the writers check it.
//!
//! A name is a plain path below its folder, such as `clips/cam1/take 1.mov`: it doesn't begin or end
//! with a slash, and has no two slashes together, no part that is `.` or `..` and no zero byte. Messages
//! with another name are refused with 24 ([`Refusal::UnsafeName`]), tables with 15. Symbolic links, case
//! and names that an operating system keeps for itself are for the host to look at.
//!
//! # Buffers, stack and threads
//!
//! No call allocates but those of the types that own bytes ([`FilesBuilder`], [`OptionsBuilder`],
//! [`TableBuf`], [`Reader`]). Messages and tables go into lent buffers; there is a constant for each:
//! [`MAX_REQUEST`], [`MAX_RESPONSE`], [`MAX_TABLE`], [`MAX_REQUEST_LIST`] and so on. On the stack
//! [`request_list`] takes about 18 KB, [`accept`] about 13 KB, [`merge`] about 9 KB, all other calls
//! under 2 KB. Calls share nothing, so any thread may call at any time.
//!
//! # Linking
//!
//! The build script looks for `libbep.a`, which `tools/library` makes in the repository's root, in
//! `target/staticlib` there, or in the folder that `FORDTRUMPET_LIB_DIR` names. A host depends on it so:
//!
//! ```toml
//! [dependencies]
//! fordtrumpet = { path = "fordtrumpet/host" }
//! ```
//!
//! Without the default feature `std` the crate needs `alloc` alone; what it lacks then is [`Reader`], writing
//! into a [`Sha256`] as a `std::io::Write` and the way from a [`Refusal`] to a `std::io::Error`.
//!
//! ```
//! use fordtrumpet::{read, write_index, FilesBuilder, Flags, Message};
//!
//! let mut files = FilesBuilder::new();
//! files.push("notes.txt", Flags(0o644), 1_700_000_000, 0, []);
//! let mut out = [0; 100];
//! let length = write_index(1, "default", files.as_bytes(), &mut out)?;
//!
//! let read = read(&out[..length])?;
//! assert_eq!(read.used, length);
//! let Message::Index(index) = read.message else { panic!("not an Index") };
//! assert_eq!(index.repository, "default");
//! for file in index.files {
//!     assert_eq!(file.name, "notes.txt");
//!     assert_eq!(file.flags.mode(), 0o644);
//! }
//! # Ok::<(), fordtrumpet::Refusal>(())
//! ```
//!
//! A buffer that overlaps an input is refused by the compiler:
//!
//! ```compile_fail,E0502
//! let mut bytes = [0; 100];
//! fordtrumpet::write_response(0, &bytes[20..30], &mut bytes[..50]);
//! ```

#![deny(missing_docs)]
#![cfg_attr(not(feature = "std"), no_std)]

extern crate alloc;

// The examples of the README are compiled with the others.
#[cfg(doctest)]
#[doc = include_str!("../../README.md")]
struct Readme;

mod answer;
mod builders;
mod edition;
mod feed;
mod ffi;
mod message;
mod queue;
pub mod raw;
#[cfg(feature = "std")]
mod reader;
mod records;
mod refusal;
mod serve;
mod sha256;
mod show;
mod sizes;
mod table;
mod walker;
mod want;
mod why;
mod write;

pub use builders::{FilesBuilder, OptionsBuilder};
pub use edition::{
    downgrade, read_old, upgrade, write_old_index, write_old_index_update, write_old_request,
};
pub use feed::{Fed, Feed, Header};
pub use message::{read, Index, Message, Options, Ping, Pong, ReadMessage, Request, Response};
pub use queue::{Answered, Issued, Outcome, Peer, RequestQueue};
#[cfg(feature = "std")]
pub use reader::Reader;
pub use records::{
    Block, Blocks, BlocksIter, FileInfo, Files, FilesIter, Flags, KeyValue, KeyValues,
    KeyValuesIter,
};
pub use refusal::Refusal;
pub use serve::{serve, Serving};
pub use sha256::{sha256, Sha256};
pub use sizes::{
    MAX_BLOCK, MAX_BLOCKS, MAX_FILES, MAX_INDEX, MAX_NAME, MAX_OPTIONS, MAX_REPOSITORY,
    MAX_REQUEST, MAX_RESPONSE, MAX_TABLE_INDEX, PING, REPLY,
};
pub use table::{accept, compare, merge, Table, TableBuf, TableError, MAX_RECORDS, MAX_TABLE};
pub use want::{
    details, find_local, request_list, Details, RequestList, RequestListIter, Wanted,
    MAX_REQUEST_LIST,
};
pub use why::{why, Reason};
pub use write::{
    write_index, write_index_update, write_options, write_ping, write_pong, write_request,
    write_response,
};
