//! How long the library and the reference need for the same calls on tables, side by side.

#[path = "../tests/reference/mod.rs"]
mod reference;
#[path = "../tests/support/mod.rs"]
mod support;
mod timing;

use fordtrumpet::raw::Walker;
use fordtrumpet::{FileInfo, Table};
use std::cmp::Ordering;
use std::hint::black_box;
use support::encode::{Block, Encoding, File};
use support::tables::encode;
use timing::{compare, heading, keep};

fn main() {
    heading();
    let full = files(0, 4, 400, 1);
    let many = files(0, 512, 0, 1);
    for (what, files) in [
        ("is_good, 4 files of 400 blocks (64 KB)", &full),
        ("is_good, 512 files without blocks", &many),
    ] {
        compare_checking(what, &encode(files));
    }
    compare_comparing(
        "compare two records, by Version",
        &files(0, 1, 0, 1),
        &files(0, 1, 0, 2),
    );
    compare_comparing(
        "compare two equal records",
        &files(0, 1, 0, 1),
        &files(0, 1, 0, 1),
    );
    compare_comparing(
        "compare two equal records of 400 blocks",
        &files(0, 1, 400, 1),
        &files(0, 1, 400, 1),
    );
    compare_merging(
        "merge 64 KB with a newer 64 KB",
        &full,
        &files(0, 4, 400, 2),
    );
    compare_merging("merge 64 KB with itself", &full, &full);
    compare_merging(
        "merge 512 files with 512 newer",
        &many,
        &files(0, 512, 0, 2),
    );
    compare_merging(
        "merge 256 files with 256 others",
        &files(0, 256, 0, 1),
        &files(256, 256, 0, 1),
    );
    let mut reversed = many.clone();
    reversed.reverse();
    compare_accepting("accept an Index of 512 files in order", 1, &[], &many);
    compare_accepting("accept 512 files in reverse", 1, &[], &reversed);
    compare_accepting(
        "accept an IndexUpdate of 256 among 512 files",
        6,
        &many,
        &files(0, 256, 0, 2),
    );
    compare_accepting(
        "accept an IndexUpdate of one file",
        6,
        &many,
        &files(9, 1, 0, 2),
    );
    compare_walking("step through 512 files", &encode(&many));
    compare_walking("step through 64 KB of 4 files", &encode(&full));
}

fn files(first: usize, count: usize, blocks: usize, version: u32) -> Vec<File> {
    let block = Block {
        length: 131_072,
        hash: [0xA7; 32],
    };
    (first..first + count)
        .map(|number| File {
            name: format!("directory/file name {number:04}").into_bytes(),
            flags: 0o644,
            modified: 1_700_000_000,
            version,
            blocks: vec![block; blocks],
        })
        .collect()
}

fn compare_checking(what: &str, table: &[u8]) {
    let library: fn(&[u8]) -> bool = black_box(fordtrumpet::raw::is_good);
    let reference: fn(&[u8]) -> bool = black_box(reference::is_good);
    assert!(library(table) && reference(table));
    compare(
        what,
        &mut [],
        |_| keep(&library(black_box(table))),
        |_| keep(&reference(black_box(table))),
    );
}

fn compare_comparing(what: &str, first: &[File], second: &[File]) {
    let (a, b) = (encode(first), encode(second));
    let record = |table| Table::new(table).unwrap().files().iter().next().unwrap();
    let (x, y) = (record(&a), record(&b));
    let (f, g) = (
        reference::file_at(&a, 4).unwrap(),
        reference::file_at(&b, 4).unwrap(),
    );
    type Library = fn(&FileInfo<'_>, &FileInfo<'_>) -> Ordering;
    // The reference too is given bytes and places, as the library is behind its safe side.
    type Reference = fn(&[u8], usize, &[u8], usize) -> Option<Ordering>;
    let at_places = |a: &[u8], i, b: &[u8], j| {
        let (f, g) = (reference::file_at(a, i)?, reference::file_at(b, j)?);
        Some(reference::compare(a, &f, b, &g))
    };
    let library: Library = black_box(fordtrumpet::compare);
    let reference: Reference = black_box(at_places);
    assert_eq!(library(&x, &y), reference::compare(&a, &f, &b, &g));
    compare(
        what,
        &mut [],
        |_| keep(&library(black_box(&x), black_box(&y))),
        |_| keep(&reference(black_box(&a), 4, black_box(&b), 4)),
    );
}

fn compare_merging(what: &str, first: &[File], second: &[File]) {
    let (a, b) = (encode(first), encode(second));
    type Library = fn(&[u8], &[u8], &mut [u8]) -> Result<usize, fordtrumpet::Refusal>;
    type Reference = fn(&[u8], &[u8], &mut [u8]) -> Result<usize, reference::Refusal>;
    let library: Library = black_box(fordtrumpet::raw::merge);
    let reference: Reference = black_box(reference::merge);
    let mut out = vec![0; 65_536];
    assert_eq!(
        library(&a, &b, &mut out).unwrap(),
        reference(&a, &b, &mut out).unwrap()
    );
    compare(
        what,
        &mut out,
        |out| keep(&library(black_box(&a), black_box(&b), out)),
        |out| keep(&reference(black_box(&a), black_box(&b), out)),
    );
}

fn compare_accepting(what: &str, kind: u32, old: &[File], sent: &[File]) {
    let old = encode(old);
    let mut message = Encoding::new();
    message.header(kind, 0).string(b"default", 64).files(sent);
    let message = message.bytes;
    type Library =
        fn(&[u8], &[u8], &'static [u8], &mut [u8]) -> Result<usize, fordtrumpet::Refusal>;
    type Reference = fn(&[u8], &[u8], &[u8], &mut [u8]) -> Result<usize, reference::Refusal>;
    let library: Library = black_box(fordtrumpet::raw::accept);
    let reference: Reference = black_box(reference::accept);
    let mut out = vec![0; 65_536];
    assert_eq!(
        library(&old, &message, b"default", &mut out).unwrap(),
        reference(&old, &message, b"default", &mut out).unwrap()
    );
    compare(
        what,
        &mut out,
        |out| {
            keep(&library(
                black_box(&old),
                black_box(&message),
                b"default",
                out,
            ))
        },
        |out| {
            keep(&reference(
                black_box(&old),
                black_box(&message),
                b"default",
                out,
            ))
        },
    );
}

/// A whole walk: each step checks the table, so the time goes with the square of the records.
fn compare_walking(what: &str, table: &[u8]) {
    let library: fn(&[u8]) -> usize = black_box(|table| {
        let mut walker = Walker::open(table);
        while let Ok(Some(file)) = walker.step() {
            keep(&file);
        }
        walker.place()
    });
    let reference: fn(&[u8]) -> usize = black_box(|table| {
        let mut at = 4;
        while let Ok(Some(file)) = reference::step(table, at) {
            keep(&file);
            at = file.end;
        }
        at
    });
    assert_eq!(library(table), reference(table));
    compare(
        what,
        &mut [],
        |_| keep(&library(black_box(table))),
        |_| keep(&reference(black_box(table))),
    );
}
