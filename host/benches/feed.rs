//! How long a message takes whose bytes come in runs.
//!
//! In one run the feed stands beside the library's own reading at once; in runs of 1,460 bytes, which is
//! what a packet holds, and byte by byte beside the reference's machine (`by_part.rs`); and in those runs
//! beside what a host does that has no feed: after each run it reads all bytes so far.

#[path = "../tests/reference/mod.rs"]
mod reference;
mod timing;

use fordtrumpet::{
    write_index, write_options, write_ping, write_response, Block, Fed, Feed, FilesBuilder, Flags,
    OptionsBuilder, Refusal, MAX_BLOCK, MAX_INDEX,
};
use reference::by_part::Machine;
use reference::{Edition, Told};
use std::hint::black_box;
use std::iter::repeat_n;
use timing::{best_time, compare, compare_parts, heading_of, keep, print, time_once};

/// What a packet holds of a stream.
const PACKET: usize = 1_460;

/// Of the runs of the longest Index one in so many is followed by reading anew: after each it would take
/// many seconds.
const ONE_IN: usize = 16;

fn main() {
    heading_of("in one run", "feed ns", "read ns");
    compare_at_once("Index, 4 files of 400 blocks (64 KB)", &index(4, 400));
    compare_at_once("Index, 512 files without blocks", &index(512, 0));
    compare_at_once("Response, 131,072 bytes", &response());
    compare_at_once("Options, 64", &options());
    compare_at_once("Ping", &written(|out| write_ping(77, out)));

    let indexes = [(32, "1.3 MB"), (128, "5 MB"), (512, "21 MB")].map(|(files, size)| {
        let what = format!("Index, {files} files of 1,024 blocks ({size})");
        (what, index(files, 1_024))
    });
    println!();
    heading_of("in runs of 1,460 bytes", "feed ns", "machine ns");
    for (what, message) in &indexes {
        compare_with_machine(what, message, PACKET, 1);
    }
    compare_with_machine("Response, 131,072 bytes", &response(), PACKET, 1);

    println!();
    heading_of("in runs of 1,460 bytes", "anew ms", "feed ms");
    let [short, long, longest] = &indexes;
    for (what, message) in [short, long] {
        compare_with_anew(what, message, 1);
    }
    compare_with_anew(&longest.0, &longest.1, ONE_IN);
    println!("  anew after every {ONE_IN}th run only, and its time taken {ONE_IN} times");

    println!();
    heading_of("byte by byte, for a byte", "feed ns", "machine ns");
    for (what, message) in [
        ("Index, 4 files of 400 blocks (64 KB)", index(4, 400)),
        ("Index, 512 files without blocks", index(512, 0)),
        ("Options, 64", options()),
        ("Response, 131,072 bytes", response()),
    ] {
        compare_with_machine(what, &message, 1, message.len());
    }
}

/// What a writer fills a buffer with that has room for any message.
fn written(write: impl FnOnce(&mut [u8]) -> Result<usize, Refusal>) -> Vec<u8> {
    let mut out = vec![0; MAX_INDEX];
    let length = write(&mut out).unwrap();
    out[..length].to_vec()
}

fn index(count: usize, blocks: usize) -> Vec<u8> {
    let block = Block {
        length: 131_072,
        hash: &[0xA7; 32],
    };
    let mut files = FilesBuilder::new();
    for number in 0..count {
        let name = format!("directory/file name {number:04}");
        files.push(
            name,
            Flags(0o644),
            1_700_000_000,
            1,
            repeat_n(block, blocks),
        );
    }
    written(|out| write_index(77, "default", files.as_bytes(), out))
}

fn response() -> Vec<u8> {
    written(|out| write_response(77, &[0xA7; MAX_BLOCK], out))
}

fn options() -> Vec<u8> {
    let mut options = OptionsBuilder::new();
    for number in 0..64 {
        options.push(format!("option {number:02}"), "its value");
    }
    written(|out| write_options(77, options.as_bytes(), out))
}

/// What the last of the runs of a message gets.
fn feed(message: &[u8], len: usize) -> Result<Fed, Refusal> {
    let feed: fn(&mut Feed, &[u8]) -> Result<Fed, Refusal> = black_box(Feed::feed);
    let mut state = Feed::open();
    let mut last = feed(&mut state, &[]);
    for run in message.chunks(len) {
        last = feed(&mut state, run);
    }
    last
}

fn feed_machine(message: &[u8], len: usize) -> Told {
    let feed: fn(&mut Machine, &[u8]) -> (Told, usize) = black_box(Machine::feed);
    let mut state = Machine::open(Edition::New);
    let mut last = Told::Waiting;
    for run in message.chunks(len) {
        (last, _) = feed(&mut state, run);
    }
    last
}

/// Reads all bytes so far after one run in so many.
fn read_anew(message: &[u8], one_in: usize) {
    let len = PACKET * one_in;
    for end in (len..message.len()).step_by(len) {
        keep(&fordtrumpet::read(black_box(&message[..end])));
    }
}

fn compare_at_once(what: &str, message: &[u8]) {
    type Read = fn(&[u8]) -> Result<fordtrumpet::ReadMessage<'_>, Refusal>;
    type FeedOne = fn(&mut Feed, &[u8]) -> Result<Fed, Refusal>;
    let (read, feed): (Read, FeedOne) = black_box((fordtrumpet::read, Feed::feed));
    let ended = Fed::Ended {
        length: message.len(),
        taken: message.len(),
    };
    assert_eq!(feed(&mut Feed::open(), message), Ok(ended));
    assert_eq!(read(message).unwrap().used, message.len());
    compare(
        what,
        &mut [],
        |_| keep(&feed(&mut Feed::open(), black_box(message))),
        |_| keep(&read(black_box(message))),
    );
}

fn compare_with_machine(what: &str, message: &[u8], len: usize, parts: usize) {
    let last = feed(message, len).unwrap();
    assert!(matches!(last, Fed::Ended { length, .. } if length == message.len()));
    assert_eq!(feed_machine(message, len), Told::Ended(message.len()));
    compare_parts(
        what,
        parts,
        &mut [],
        |_| keep(&feed(black_box(message), len)),
        |_| keep(&feed_machine(black_box(message), len)),
    );
}

fn compare_with_anew(what: &str, message: &[u8], one_in: usize) {
    let fed = best_time(&mut [], |_| keep(&feed(black_box(message), PACKET)));
    let anew = time_once(|| read_anew(message, one_in)) * one_in as f64;
    print(what, anew / 1e6, fed / 1e6);
}
