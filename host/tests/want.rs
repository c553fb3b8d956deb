//! The request list and the search for a block against the reference.
//!
//! `SOAK=N` compares N inputs instead of the usual number; `SOAK_FROM=M` starts with input number M.

mod reference;
mod support;

use std::collections::BTreeMap;
use std::io::Write;
use std::ops::Range;
use support::alike;
use support::compare::{expected, same, same_bytes, Compared};
use support::damage;
use support::draft::{Body, Draft};
use support::encode::{Block, File};
use support::generate;
use support::library::{ffi, Answer};
use support::random::Random;
use support::settings::setting;
use support::table_calls::{TableComparison, TABLE_CALLS};
use support::tables::{encode, Pool};

const INPUTS: u64 = 60_000;
const SEED: u64 = 0x3A47_ED00_0000_0000;

/// The bytes of the longest list: a table has no more than 1,638 blocks.
const MOST: usize = 24 * 4 * 1638;

/// The numbers of a record and of its block, or none; or the number of the refusal.
type Found = Result<Option<(u32, u32)>, u32>;

/// The calls under test. Faults are planted by exchanging one of them.
#[derive(Clone, Copy)]
struct Calls {
    list: fn([&[u8]; 5], &mut [u8]) -> Answer<1>,
    find: fn(&[u8], u32, &[u8]) -> Found,
}

const CALLS: Calls = Calls { list, find };

/// The reference that looks held blocks up in a set.
fn hashed(tables: [&[u8]; 5], out: &mut [u8]) -> Answer<1> {
    expected(reference::hashed::request_list(tables, out))
}

fn list(tables: [&[u8]; 5], out: &mut [u8]) -> Answer<1> {
    let [local, peers @ ..] = tables;
    match fordtrumpet::raw::request_list(local, peers, out) {
        Ok(list) => (0, [list.as_bytes().len() as u64]),
        Err(refusal) => (refusal.number(), [refusal.place() as u64]),
    }
}

fn find(table: &[u8], length: u32, hash: &[u8]) -> Found {
    if let Ok(hash) = hash.try_into() {
        let found = fordtrumpet::raw::find_local(table, length, hash);
        return found.map_err(|refusal| refusal.number());
    }
    // A hash of another length, which the safe call can't be given.
    let mut answer = [0; 3];
    // SAFETY: each pointer and length are those of one slice, and the answer has the size asked for.
    let number = unsafe {
        ffi::bep_find(
            table.as_ptr(),
            table.len(),
            length,
            hash.as_ptr(),
            hash.len(),
            &mut answer,
        )
    };
    match (number, answer) {
        (0, [0, ..]) => Ok(None),
        (0, [_, record, block]) => Ok(Some((record as u32, block as u32))),
        _ => Err(number),
    }
}

/// What a ruling came to, in words that both sides share.
#[derive(Clone, Copy, Debug, PartialEq, Eq)]
enum Ruling {
    Served(u32, usize, usize, u64, u32),
    Replied(usize),
    Refused(u32, usize),
}

fn serve(table: &[u8], repository: &[u8], message: &[u8], out: &mut [u8]) -> Ruling {
    match fordtrumpet::raw::serve(table, repository, message, out) {
        Ok(fordtrumpet::Serving::Served {
            id,
            name,
            offset,
            length,
        }) => {
            let start = name.as_ptr() as usize - message.as_ptr() as usize;
            Ruling::Served(id, start, name.len(), offset, length)
        }
        Ok(fordtrumpet::Serving::Replied(len)) => Ruling::Replied(len),
        Err(refusal) => Ruling::Refused(refusal.number(), refusal.place()),
    }
}

fn serve_by_reference(table: &[u8], repository: &[u8], message: &[u8], out: &mut [u8]) -> Ruling {
    match reference::serve(table, repository, message, out) {
        Ok(reference::Serving::Served {
            id,
            name,
            offset,
            length,
        }) => Ruling::Served(id, name.start, name.len, offset, length),
        Ok(reference::Serving::Replied(len)) => Ruling::Replied(len),
        Err(refusal) => Ruling::Refused(refusal.number, refusal.place),
    }
}

/// A Request for a block of a record, mostly as it is, or off by a little.
fn request(random: &mut Random, files: &[File]) -> Draft {
    let file = random.pick_from(files);
    let at = random.below(file.blocks.len() + 1);
    let before: u64 = file.blocks[..at]
        .iter()
        .map(|block| u64::from(block.length))
        .sum();
    let block = match file.blocks.get(at) {
        Some(block) => *block,
        None => generate::block(random),
    };
    let mut hash = block.hash.to_vec();
    let (mut name, mut offset, mut length) = (file.name.clone(), before, block.length);
    let mut repository = b"default".to_vec();
    match random.below(12) {
        0 => repository.push(b's'),
        1 => name.push(b'a'),
        2 => offset = offset.wrapping_add(1),
        3 => length = length % 131_072 + 1,
        4 => hash[random.below(32)] ^= 1,
        _ => {}
    }
    let body = Body::Request {
        repository,
        name,
        offset,
        length,
        hash,
    };
    Draft::new(random.word() % 4096, body)
}

fn compare_serving(number: u64, met: &mut BTreeMap<u32, u64>) -> Compared {
    let mut random = random_of(!number);
    let pool = Pool::new(&mut random);
    let mut files = pool.files(&mut random);
    if files.is_empty() {
        files.push(pool.file(&mut random));
    }
    let table = match random.below(12) {
        0 => pool.table(&mut random),
        _ => encode(&files),
    };
    let draft = match random.below(12) {
        0 => generate::draft(&mut random),
        _ => request(&mut random, &files),
    };
    let mut message = draft.encode();
    if random.once_in(12) {
        damage::encoding(&mut message, &mut random);
    }
    let room = random.pick(&[0, 7, 8, 8, 8, 9, 20]);
    let before = random.bytes(room);
    let (mut out, mut expected_out) = (before.clone(), before);
    let answer = serve(&table, b"default", &message.bytes, &mut out);
    let expected = serve_by_reference(&table, b"default", &message.bytes, &mut expected_out);
    let kind = match expected {
        Ruling::Served(..) => 100,
        Ruling::Replied(_) => 101,
        Ruling::Refused(number, _) => number,
    };
    *met.entry(kind).or_default() += 1;
    same("serve", &answer, &expected)?;
    same_bytes("buffer of a ruling", &out, &expected_out)
}

#[test]
fn generated_requests_get_the_same_rulings() {
    let from = setting("SOAK_FROM").unwrap_or(0);
    let inputs = setting("SOAK").unwrap_or(INPUTS) * 4;
    let mut met = BTreeMap::new();
    for number in from..from + inputs {
        if let Err(difference) = compare_serving(number, &mut met) {
            panic!("ruling {number}: {difference}");
        }
    }
    say(&format!("{inputs} rulings compared, no difference"));
    if inputs >= INPUTS {
        for kind in [1, 7, 8, 9, 10, 14, 15, 18, 24, 100, 101] {
            assert!(met.get(&kind) >= Some(&20), "{kind} in {met:?}");
        }
    }
}

fn random_of(number: u64) -> Random {
    Random::new(SEED ^ number.wrapping_mul(0xD134_2543_DE82_EF95))
}

/// Says something even when the test passes.
fn say(text: &str) {
    let _ = writeln!(std::io::stderr(), "{text}");
}

fn compare_input(
    comparison: &mut TableComparison,
    calls: Calls,
    number: u64,
    found: &mut BTreeMap<&'static str, u64>,
) -> Compared {
    let mut random = random_of(number);
    let pool = Pool::new(&mut random);
    // Bad tables seldom, since one of five is enough for 15.
    let table = |random: &mut Random| match random.below(24) {
        0 => pool.table(random),
        1..=6 => encode(&[]),
        _ => encode(&pool.files(random)),
    };
    let tables: [Vec<u8>; 5] = std::array::from_fn(|_| table(&mut random));
    let [a, b, c, d, e] = &tables;
    let tables: [&[u8]; 5] = [a, b, c, d, e];
    let room = 24 * random.below(40) + random.below(24);
    for (what, list) in [("list", calls.list), ("hashed list", hashed)] {
        comparison.fill_all(
            what,
            room,
            &mut random,
            |out| list(tables, out),
            |out| expected(reference::request_list(tables, out)),
        )?;
    }
    let block = pool.block(&mut random);
    let length = block.length ^ u32::from(random.once_in(8));
    let hash = match random.below(8) {
        0 => &block.hash[..31],
        _ => &block.hash[..],
    };
    comparison.compared += 1;
    let answer = reference::find_local(a, length, hash).map_err(|refusal| refusal.number);
    let kind = match answer {
        Ok(Some(_)) => "found",
        Ok(None) => "not found",
        Err(_) => "refused",
    };
    *found.entry(kind).or_default() += 1;
    same("find_local", &(calls.find)(a, length, hash), &answer)
}

#[test]
fn generated_lists_get_the_same_answers() {
    let from = setting("SOAK_FROM").unwrap_or(0);
    let inputs = setting("SOAK").unwrap_or(INPUTS);
    let mut comparison = TableComparison::new(TABLE_CALLS);
    let mut found = BTreeMap::new();
    for number in from..from + inputs {
        if let Err(difference) = compare_input(&mut comparison, CALLS, number, &mut found) {
            panic!("input {number}: {difference}");
        }
    }
    say(&format!(
        "{inputs} request lists from number {from} on: {} calls compared, no difference",
        comparison.compared
    ));
    if inputs >= INPUTS {
        for number in [0, 14, 15] {
            let times = comparison.seen.get(&("list", number)).copied();
            assert!(times >= Some(1000), "the list met {number} {times:?} times");
        }
        for kind in ["found", "not found", "refused"] {
            assert!(found.get(kind) >= Some(&100), "{kind} in {found:?}");
        }
    }
}

/// Lists of tables whose blocks are easily taken for each other, in buffers of several lengths.
fn compare_alike(
    comparison: &mut TableComparison,
    calls: Calls,
    number: u64,
    met: &mut BTreeMap<&'static str, u64>,
) -> Compared {
    let mut random = random_of(number);
    let files = alike::five(&mut random);
    let tables = files.each_ref().map(|files| encode(files));
    let [a, b, c, d, e] = &tables;
    let tables: [&[u8]; 5] = [a, b, c, d, e];
    let mut list = vec![0; MOST];
    let len = reference::request_list(tables, &mut list).map_err(|_| "a table isn't good")?;
    list.truncate(len);
    let kind = match len {
        0 => "nothing wanted",
        _ => "something wanted",
    };
    *met.entry(kind).or_default() += 1;
    for entry in list.chunks(24) {
        let peer = ["peer 1", "peer 2", "peer 3", "peer 4"][entry[23] as usize - 1];
        *met.entry(peer).or_default() += 1;
    }
    // A buffer takes the whole list, or stays as it is.
    let filled = |out: &mut [u8]| match out.get_mut(..len) {
        Some(out) => {
            out.copy_from_slice(&list);
            (0, [len as u64])
        }
        None => (14, [0]),
    };
    let listed: usize = files[1..]
        .iter()
        .flatten()
        .map(|file| file.blocks.len())
        .sum();
    let places: usize = tables[1..].iter().map(|table| table.len() / 40).sum();
    let rooms = [
        len,
        len.saturating_sub(1),
        random.below(len + 1),
        // As many blocks as the peers list or could list, or a byte less.
        (24 * random.pick(&[listed, places])).saturating_sub(random.below(2)),
        match random.below(8) {
            0 => random.pick(&[MOST - 1, MOST, MOST + 1000]),
            _ => 24 * places + random.below(1000),
        },
    ];
    for room in rooms {
        for (what, list) in [("list", calls.list), ("hashed list", hashed)] {
            comparison.fill(what, room, &mut random, |out| list(tables, out), filled)?;
        }
    }
    let blocks: Vec<&Block> = files
        .iter()
        .flatten()
        .flat_map(|file| &file.blocks)
        .collect();
    if blocks.is_empty() {
        return Ok(());
    }
    let Block {
        mut length,
        mut hash,
    } = *random.pick(&blocks);
    match random.below(4) {
        0 => hash[random.below(32)] ^= 1,
        1 => length = length % 131_072 + 1,
        _ => {}
    }
    comparison.compared += 1;
    let answer = reference::find_local(a, length, &hash).map_err(|refusal| refusal.number);
    same("find_local", &(calls.find)(a, length, &hash), &answer)
}

#[test]
fn generated_tables_alike_get_the_same_lists() {
    let from = setting("SOAK_FROM").unwrap_or(0);
    let inputs = setting("SOAK").unwrap_or(INPUTS) / 4;
    let mut comparison = TableComparison::new(TABLE_CALLS);
    let mut met = BTreeMap::new();
    for number in from..from + inputs {
        if let Err(difference) = compare_alike(&mut comparison, CALLS, number, &mut met) {
            panic!("tables alike {number}: {difference}");
        }
    }
    say(&format!(
        "{inputs} request lists of tables alike: {} calls compared, no difference",
        comparison.compared
    ));
    if inputs >= INPUTS / 4 {
        for kind in [
            "nothing wanted",
            "something wanted",
            "peer 1",
            "peer 2",
            "peer 3",
            "peer 4",
        ] {
            assert!(met.get(kind) >= Some(&1000), "{kind} in {met:?}");
        }
        for number in [0, 14] {
            let times = comparison.seen.get(&("list", number)).copied();
            assert!(times >= Some(1000), "the list met {number} {times:?} times");
        }
    }
}

/// A table of one file with so many blocks, all different.
fn large(name: &str, blocks: u32, first: u32) -> Vec<u8> {
    let files: Vec<File> = (0..blocks.div_ceil(1000))
        .map(|part| File {
            name: format!("{name} {part}").into_bytes(),
            flags: 0,
            modified: 0,
            version: 0,
            blocks: (1000 * part..blocks.min(1000 * part + 1000))
                .map(|number| {
                    let mut hash = [0; 32];
                    hash[28..].copy_from_slice(&(first + number).to_be_bytes());
                    Block { length: 5, hash }
                })
                .collect(),
        })
        .collect();
    encode(&files)
}

#[test]
fn full_tables_get_the_same_answers() {
    let local = large("local", 1600, 0);
    let peers = [1, 2, 3, 4].map(|peer| large(&format!("peer {peer}"), 1600, 10_000 * peer));
    let tables: [&[u8]; 5] = [&local, &peers[0], &peers[1], &peers[2], &peers[3]];
    for room in [0, 24 * 6400 - 1, 24 * 6400, 24 * 6400 + 7] {
        let mut expected_out = vec![0xEE; room];
        let answer = expected(reference::request_list(tables, &mut expected_out));
        for list in [list, hashed] {
            let mut out = vec![0xEE; room];
            assert_eq!(list(tables, &mut out), answer);
            assert!(out == expected_out);
        }
    }
}

/// Compares calls with a fault until that is found.
fn is_found(calls: Calls) -> bool {
    let mut comparison = TableComparison::new(TABLE_CALLS);
    let mut found = BTreeMap::new();
    (0..5_000).any(|number| compare_input(&mut comparison, calls, number, &mut found).is_err())
}

#[test]
fn a_difference_is_found() {
    assert!(is_found(Calls {
        // Only the first block is listed.
        list: |tables, out| match list(tables, out) {
            (0, [len]) if len > 24 => (0, [24]),
            answer => answer,
        },
        ..CALLS
    }));
    assert!(is_found(Calls {
        // Everything is refused.
        list: |_, _| (15, [0]),
        ..CALLS
    }));
    assert!(is_found(Calls {
        // Peers count from the last.
        list: |tables, out| {
            let [a, b, c, d, e] = tables;
            let answer = list([a, e, d, c, b], out);
            if let (0, [len]) = answer {
                for entry in out[..len as usize].chunks_mut(24) {
                    entry[23] = 5 - entry[23];
                }
            }
            answer
        },
        ..CALLS
    }));
    assert!(is_found(Calls {
        // The hash alone counts.
        find: |table, _, hash| {
            let lengths = [1, 2, 131_071, 131_072];
            let found = lengths.map(|length| find(table, length, hash));
            *found
                .iter()
                .find(|answer| matches!(answer, Ok(Some(_))))
                .unwrap_or(&found[0])
        },
        ..CALLS
    }));
}

/// A table whose hashes have lost some of their bytes.
fn blurred(table: &[u8], lost: Range<usize>) -> Vec<u8> {
    let mut blurred = table.to_vec();
    let mut at = 4;
    while let Some(file) = reference::file_at(table, at) {
        for block in blurred[file.first_block..file.end].chunks_mut(40) {
            block[8..][lost.clone()].fill(0);
        }
        at = file.end;
    }
    blurred
}

fn blurred_list(tables: [&[u8]; 5], out: &mut [u8], lost: Range<usize>) -> Answer<1> {
    let [a, b, c, d, e] = &tables.map(|table| blurred(table, lost.clone()));
    list([a, b, c, d, e], out)
}

/// As `is_found`, by tables that are alike.
fn is_found_alike(calls: Calls) -> bool {
    let mut comparison = TableComparison::new(TABLE_CALLS);
    let mut met = BTreeMap::new();
    (0..1_000).any(|number| compare_alike(&mut comparison, calls, number, &mut met).is_err())
}

#[test]
fn a_difference_is_found_by_tables_alike() {
    assert!(is_found_alike(Calls {
        // Only the last four bytes of a hash count.
        list: |tables, out| blurred_list(tables, out, 0..28),
        ..CALLS
    }));
    assert!(is_found_alike(Calls {
        // The last eight count.
        list: |tables, out| blurred_list(tables, out, 0..24),
        ..CALLS
    }));
    assert!(is_found_alike(Calls {
        // The last byte doesn't count.
        list: |tables, out| blurred_list(tables, out, 31..32),
        ..CALLS
    }));
    assert!(is_found_alike(Calls {
        // The last byte doesn't count, as above.
        find: |table, length, hash| {
            let mut lost = hash.to_vec();
            lost[31..].fill(0);
            find(&blurred(table, 31..32), length, &lost)
        },
        ..CALLS
    }));
    assert!(is_found_alike(Calls {
        // A refused list leaves its first block behind.
        list: |tables, out| {
            let answer = list(tables, out);
            if let ((14, _), Some(entry)) = (answer, out.get_mut(..24)) {
                entry.fill(0);
            }
            answer
        },
        ..CALLS
    }));
    assert!(is_found_alike(Calls {
        // What is behind the list is cleared.
        list: |tables, out| {
            let answer = list(tables, out);
            if let (0, [len]) = answer {
                out[len as usize..].fill(0);
            }
            answer
        },
        ..CALLS
    }));
}
