//! How long the library and the reference need for request lists and what belongs to them, side by side.
//!
//! The reference of a list looks held blocks up in a `HashSet`. The rows that say so are of the plain
//! one, which searches the local table for each block, as those of `find_local` and `why` do.

#[path = "../tests/reference/mod.rs"]
mod reference;
#[path = "../tests/support/mod.rs"]
mod support;
mod timing;

use std::hint::black_box;
use support::encode::{Block, File};
use support::random::Random;
use support::tables::encode;
use timing::{compare, heading, keep, time_alone};

/// Room for the largest list.
const ROOM: usize = fordtrumpet::MAX_REQUEST_LIST;

/// Hashes are numbered: those of the local table below this, those of the first peer from here on.
const PEERS: u32 = 10_000;

type Hash = [u8; 32];
type Tables = [Vec<u8>; 5];

fn main() {
    heading();
    none_held();
    all_held();
    cut_otherwise();
    small_files();
    sizes();
    plain();
    finding();
    reasons();
    entries();
}

/// Four peers of 1,600 blocks each, all to be requested.
fn none_held() {
    let row = |what, hash: fn(u32) -> Hash| compare_lists(what, &strangers(1600, hash), ROOM);
    row("list: 4 peers of 1,600 blocks, none held", last_bytes);
    let tables = strangers(1600, last_bytes);
    compare_lists("list: none held, just enough room", &tables, 24 * 6400);
    row("list: none held, random hashes", random);
    row("list: none held, first bytes differ", first_bytes);
    row("list: none held, last byte differs", halves);
    compare_lists(
        "list: last byte differs, 128 blocks each",
        &strangers(128, halves),
        ROOM,
    );
}

/// Four peers of 1,600 blocks each, none to be requested.
fn all_held() {
    let local = files("local", 1600, 0, last_bytes);
    let same = tables([&local, &local, &local, &local, &local]);
    compare_lists("list: 4 peers of 1,600 blocks, all held", &same, ROOM);
    let row = |what, change: fn(&mut File, u32)| {
        let peers = [1, 2, 3, 4].map(|peer| {
            let mut files = local.clone();
            files.iter_mut().for_each(|file| change(file, peer));
            files
        });
        let [a, b, c, d] = &peers;
        compare_lists(what, &tables([&local, a, b, c, d]), ROOM);
    };
    row("list: all held, newer, in the same order", |file, peer| {
        file.version += peer;
    });
    row("list: all held, newer, in another order", |file, peer| {
        file.version += peer;
        shuffle(&mut file.blocks);
    });
    row("list: all held, other names", |file, peer| {
        file.name.extend(format!(" of {peer}").bytes());
    });
}

/// A file of 1,024 blocks. A peer has another version with blocks of other Lengths.
fn cut_otherwise() {
    let cut = |length, version| File {
        version,
        blocks: (0..1024)
            .map(|number| Block {
                length,
                hash: last_bytes(number),
            })
            .collect(),
        ..file("file".into())
    };
    let (older, newer) = ([cut(100_000, 1)], [cut(131_072, 2)]);
    compare_lists(
        "list: 1,024 blocks, a peer cuts otherwise",
        &tables([&[], &older, &newer, &[], &[]]),
        ROOM,
    );
}

/// Five tables of 512 files each.
fn small_files() {
    let row = |what, make: fn(u32, u32) -> File| {
        let sets: [Vec<File>; 5] =
            std::array::from_fn(|table| (0..512).map(|i| make(i, table as u32)).collect());
        let [a, b, c, d, e] = &sets;
        compare_lists(what, &tables([a, b, c, d, e]), ROOM);
    };
    row("list: 5 tables of the same 512 files", |i, _| {
        file(format!("file {i:04}"))
    });
    row("list: 5 versions of 512 files", |i, table| File {
        version: table,
        ..file(format!("file {i:04}"))
    });
    row("list: 5 sets of 512 names", |i, table| {
        file(format!("file {i:04} of {table}"))
    });
    row("list: 5 versions of 512 files of a block", |i, table| {
        File {
            version: table,
            blocks: vec![Block {
                length: 131_072,
                hash: last_bytes(PEERS * table + i),
            }],
            ..file(format!("file {i:04}"))
        }
    });
}

/// What a list costs against the size of the tables.
fn sizes() {
    for (what, blocks) in [
        ("list: 5 tables of 1 KB, none held", 24),
        ("list: 5 tables of 4 KB, none held", 100),
        ("list: 5 tables of 16 KB, none held", 400),
        ("list: 5 tables of 64 KB, none held", 1600),
    ] {
        compare_lists(what, &strangers(blocks, last_bytes), ROOM);
    }
}

/// The plain reference.
fn plain() {
    let row = |what, tables: &Tables| {
        compare_lists_with(what, tables, ROOM, reference::request_list);
    };
    row("list: none held, plain", &strangers(1600, last_bytes));
    let local = files("local", 1600, 0, last_bytes);
    row(
        "list: all held, plain",
        &tables([&local, &local, &local, &local, &local]),
    );
    let small: Vec<File> = (0..512).map(|i| file(format!("file {i:04}"))).collect();
    row(
        "list: the same 512 files, plain",
        &tables([&small, &small, &small, &small, &small]),
    );
}

fn finding() {
    let table = encode(&files("local", 1600, 0, last_bytes));
    compare_finding(
        "find_local: the last of 1,600 blocks",
        &table,
        &last_bytes(1599),
    );
    compare_finding(
        "find_local: none of 1,600 blocks",
        &table,
        &last_bytes(5000),
    );
    compare_finding(
        "find_local: none of 255, last byte differs",
        &encode(&files("local", 255, 0, last_byte)),
        &last_byte(255),
    );
}

/// Why a block isn't coming, by five tables of 64 KB: of four large files each, and of 512 small ones.
fn reasons() {
    let local = files("local", 1600, 0, last_bytes);
    let same = tables([&local, &local, &local, &local, &local]);
    let strange = strangers(1600, last_bytes);
    let last = Some((3, 399));
    compare_why(
        "why: 4 large files, held at the end",
        &same,
        "local 0003",
        399,
        last,
    );
    compare_why(
        "why: 4 large files, wanted",
        &strange,
        "peer 4 0003",
        399,
        None,
    );
    compare_why("why: 4 large files, no such name", &strange, "z", 0, None);
    let local = small(0, 0);
    let same = tables([&local, &local, &local, &local, &local]);
    let strange: Tables = std::array::from_fn(|table| encode(&small(table as u32, 0)));
    let last = Some((511, 1));
    compare_why(
        "why: 512 small files, held at the end",
        &same,
        "file 0511 of table 0",
        1,
        last,
    );
    compare_why(
        "why: 512 small files, wanted",
        &strange,
        "file 0511 of table 4",
        1,
        None,
    );
    compare_why("why: 512 small files, no such name", &strange, "z", 0, None);
}

/// What the last entry of a list stands for, and a whole list gone through with names and hashes. The
/// local table has the records of the first peer.
fn entries() {
    let large: [Vec<File>; 4] =
        [1, 2, 3, 4].map(|peer| files(&format!("peer {peer}"), 1600, PEERS * peer, last_bytes));
    let [a, b, c, d] = &large;
    compare_details(
        "details: the last of 16 large files",
        &tables([a, a, b, c, d]),
        15,
        399,
    );
    let small: [Vec<File>; 4] = [0, 1, 2, 3].map(|peer| small(peer, PEERS));
    let [a, b, c, d] = &small;
    compare_details(
        "details: the first of 2,048 small files",
        &tables([a, a, b, c, d]),
        0,
        0,
    );
    compare_details(
        "details: the last of 2,048 small files",
        &tables([a, a, b, c, d]),
        2047,
        1,
    );
    go_through(
        "list: going through 16 large files",
        &tables([&[], &large[0], &large[1], &large[2], &large[3]]),
        6400,
    );
    go_through(
        "list: going through 2,048 small files",
        &tables([&[], a, b, c, d]),
        4096,
    );
}

/// 512 files of two blocks, with names of their table.
fn small(table: u32, first: u32) -> Vec<File> {
    (0..512)
        .map(|number| File {
            blocks: [0, 1]
                .map(|block| Block {
                    length: 131_072,
                    hash: last_bytes(first + 1024 * table + 2 * number + block),
                })
                .to_vec(),
            ..file(format!("file {number:04} of table {table}"))
        })
        .collect()
}

/// Hashes that differ in the last bytes.
fn last_bytes(number: u32) -> Hash {
    let mut hash = [0xA7; 32];
    hash[28..].copy_from_slice(&number.to_be_bytes());
    hash
}

/// Hashes that differ in the first bytes.
fn first_bytes(number: u32) -> Hash {
    let mut hash = [0xA7; 32];
    hash[..4].copy_from_slice(&number.to_be_bytes());
    hash
}

/// Hashes that differ in the last byte.
fn last_byte(number: u32) -> Hash {
    let mut hash = [0xA7; 32];
    hash[31] = number as u8;
    hash
}

/// The same: 128 of them for the local table, and the other 128 for the peers.
fn halves(number: u32) -> Hash {
    last_byte(number % 128 + 128 * u32::from(number >= PEERS))
}

fn random(number: u32) -> Hash {
    let mut hash = [0; 32];
    Random::new(u64::from(number) << 32).fill(&mut hash);
    hash
}

fn shuffle(blocks: &mut [Block]) {
    let mut random = Random::new(1);
    for i in (1..blocks.len()).rev() {
        blocks.swap(i, random.below(i + 1));
    }
}

fn file(name: String) -> File {
    File {
        name: name.into_bytes(),
        flags: 0o644,
        modified: 1_700_000_000,
        version: 1,
        blocks: Vec::new(),
    }
}

/// Files of up to 400 blocks with the hashes of the numbers from `first` on.
fn files(name: &str, blocks: u32, first: u32, hash: impl Fn(u32) -> Hash) -> Vec<File> {
    (0..blocks.div_ceil(400))
        .map(|number| File {
            blocks: (400 * number..blocks.min(400 * number + 400))
                .map(|block| Block {
                    length: 131_072,
                    hash: hash(first + block),
                })
                .collect(),
            ..file(format!("{name} {number:04}"))
        })
        .collect()
}

/// Five tables that share no name, and the local one no hash with the others.
fn strangers(blocks: u32, hash: fn(u32) -> Hash) -> Tables {
    std::array::from_fn(|table| {
        let name = match table {
            0 => "local".to_string(),
            peer => format!("peer {peer}"),
        };
        encode(&files(&name, blocks, PEERS * table as u32, hash))
    })
}

fn tables(files: [&[File]; 5]) -> Tables {
    files.map(encode)
}

fn compare_lists(what: &str, tables: &Tables, room: usize) {
    compare_lists_with(what, tables, room, reference::hashed::request_list);
}

type Library = fn([&[u8]; 5], &mut [u8]) -> Result<usize, fordtrumpet::Refusal>;
type Reference = fn([&[u8]; 5], &mut [u8]) -> Result<usize, reference::Refusal>;

fn compare_lists_with(what: &str, tables: &Tables, room: usize, reference: Reference) {
    let [a, b, c, d, e] = tables;
    let tables: [&[u8]; 5] = [a, b, c, d, e];
    let list = |tables: [&[u8]; 5], out: &mut [u8]| {
        let [local, peers @ ..] = tables;
        fordtrumpet::raw::request_list(local, peers, out).map(|list| list.as_bytes().len())
    };
    let library: Library = black_box(list);
    let reference: Reference = black_box(reference);
    let (mut out, mut expected) = (vec![0; room], vec![0; room]);
    assert_eq!(
        library(tables, &mut out).unwrap(),
        reference(tables, &mut expected).unwrap()
    );
    assert!(out == expected);
    compare(
        what,
        &mut out,
        |out| keep(&library(black_box(tables), out)),
        |out| keep(&reference(black_box(tables), out)),
    );
}

fn compare_finding(what: &str, table: &[u8], hash: &Hash) {
    let library = black_box(fordtrumpet::raw::find_local);
    let reference = black_box(reference::find_local);
    assert_eq!(
        library(table, 131_072, hash).unwrap(),
        reference(table, 131_072, hash).unwrap()
    );
    compare(
        what,
        &mut [],
        |_| keep(&library(black_box(table), 131_072, hash)),
        |_| keep(&reference(black_box(table), 131_072, hash)),
    );
}

type Why = fn([&[u8]; 5], &[u8], u32) -> Option<(u32, u32)>;

/// The block is held here, or isn't.
fn compare_why(what: &str, tables: &Tables, name: &str, block: u32, held: Option<(u32, u32)>) {
    let tables = tables.each_ref().map(|table| &table[..]);
    let name = name.as_bytes();
    let library: Why = black_box(|[local, peers @ ..], name, block| {
        match fordtrumpet::raw::why(local, peers, name, block) {
            Ok(fordtrumpet::Reason::Held { record, block }) => Some((record, block)),
            _ => None,
        }
    });
    let reference: Why =
        black_box(
            |tables, name, block| match reference::why(tables, name, block) {
                Ok(reference::Reason::Held { record, block }) => Some((record, block)),
                _ => None,
            },
        );
    for answer in [library, reference].map(|why| why(tables, name, block)) {
        assert_eq!(answer, held, "{what}");
    }
    compare(
        what,
        &mut [],
        |_| keep(&library(black_box(tables), name, block)),
        |_| keep(&reference(black_box(tables), name, block)),
    );
}

/// The table, the offset and the length.
type Details = fn([&[u8]; 5], u32, u32) -> Option<(usize, u64, u32)>;

fn compare_details(what: &str, tables: &Tables, file: u32, block: u32) {
    let tables = tables.each_ref().map(|table| &table[..]);
    let library: Details = black_box(|[local, peers @ ..], file, block| {
        let found = fordtrumpet::raw::details(local, peers, file, block).ok()??;
        Some((found.table, found.offset, found.length))
    });
    let reference: Details = black_box(|tables, file, block| {
        let found = reference::details(tables, file, block).ok()??;
        Some((found.table, found.offset, found.length))
    });
    let answer = library(tables, file, block);
    assert!(
        answer.is_some() && answer == reference(tables, file, block),
        "{what}"
    );
    compare(
        what,
        &mut [],
        |_| keep(&library(black_box(tables), file, block)),
        |_| keep(&reference(black_box(tables), file, block)),
    );
}

/// Goes through a list that is made already, so many blocks with names and hashes, by the library alone.
fn go_through(what: &str, tables: &Tables, blocks: usize) {
    let [local, peers @ ..] = tables.each_ref().map(|table| &table[..]);
    let mut out = vec![0; ROOM];
    let list = fordtrumpet::raw::request_list(local, peers, &mut out).unwrap();
    assert_eq!(list.len(), blocks, "{what}");
    time_alone(what, &mut [], |_| {
        let bytes: usize = black_box(&list)
            .iter()
            .map(|wanted| wanted.name.len() + usize::from(wanted.hash[31]))
            .sum();
        keep(&bytes);
    });
}
