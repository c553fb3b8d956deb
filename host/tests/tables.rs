//! The calls on tables against the reference, and lists of merges against their meaning.
//!
//! `SOAK=N` compares N inputs instead of the usual number; `SOAK_FROM=M` starts with input number M.

mod reference;
mod support;

use std::cmp::Ordering;
use std::collections::{BTreeMap, BTreeSet};
use std::io::Write;
use std::ops::Range;
use support::compare::{same, same_bytes, Compared};
use support::encode::{Block, Encoding, File};
use support::generate::text;
use support::library::ffi;
use support::random::Random;
use support::settings::setting;
use support::table_calls::{TableCalls, TableComparison, TABLE_CALLS};
use support::tables::{encode, full, Pool};

const INPUTS: u64 = 60_000;
const SEED: u64 = 0x7AB1_E500_0000_0000;

fn random_of(number: u64) -> Random {
    Random::new(SEED ^ number.wrapping_mul(0xD134_2543_DE82_EF95))
}

/// Says something even when the test passes.
fn say(text: &str) {
    let _ = writeln!(std::io::stderr(), "{text}");
}

fn compare_input(comparison: &mut TableComparison, number: u64) -> Compared {
    let mut random = random_of(number);
    let pool = Pool::new(&mut random);
    let a = pool.table(&mut random);
    let b = pool.table(&mut random);
    comparison.is_good(&a)?;
    comparison.is_good(&b)?;
    comparison.compare_all(&a, &b)?;
    let (i, j) = (random.below(a.len() + 9), random.below(b.len() + 9));
    comparison.compare(&a, i, &b, j)?;
    comparison.merge(&a, &b, &mut random)?;
    comparison.merge(&a, &a, &mut random)?;
    comparison.walk(&a, &mut random)?;
    let repository = random.pick(&[&b""[..], b"x", b"default"]);
    let expected = match random.once_in(8) {
        true => text(&mut random, 70),
        false => repository.to_vec(),
    };
    let message = pool.message(repository, &mut random);
    comparison.accept(&a, &message, &expected, &mut random)
}

#[test]
fn generated_tables_get_the_same_answers() {
    let from = setting("SOAK_FROM").unwrap_or(0);
    let inputs = setting("SOAK").unwrap_or(INPUTS);
    let mut comparison = TableComparison::new(TABLE_CALLS);
    for number in from..from + inputs {
        if let Err(difference) = compare_input(&mut comparison, number) {
            panic!("input {number}: {difference}");
        }
    }
    say(&format!(
        "{inputs} tables from number {from} on: {} calls compared, no difference",
        comparison.compared
    ));
    if inputs >= INPUTS {
        for (call, numbers) in [
            ("is_good", &[0, 1][..]),
            ("compare", &[0, 1]),
            ("merge", &[0, 14, 15]),
            ("step", &[0, 15]),
            ("accept", &[0, 1, 6, 7, 13, 14, 15, 18, 21, 24]),
        ] {
            for &number in numbers {
                let times = comparison.seen.get(&(call, number)).copied();
                assert!(times >= Some(20), "{call} met {number} {times:?} times");
            }
        }
    }
}

#[test]
fn tables_at_the_limits_get_the_same_answers() {
    let mut comparison = TableComparison::new(TABLE_CALLS);
    let mut random = random_of(u64::MAX);
    let tables = [
        full(&mut random, 0, 512, 0),
        full(&mut random, 0, 513, 0),
        full(&mut random, 0, 256, 0),
        full(&mut random, 256, 256, 0),
        full(&mut random, 256, 257, 0),
        full(&mut random, 0, 4, 65_536),
        full(&mut random, 0, 4, 65_540),
        full(&mut random, 4, 4, 32_768),
        full(&mut random, 8, 4, 32_772),
        full(&mut random, 8, 4, 32_776),
        encode(&[]),
        Vec::new(),
    ];
    assert_eq!((tables[5].len(), tables[6].len()), (65_536, 65_540));
    assert_eq!(tables[7].len() + tables[8].len() - 4, 65_536);
    for a in &tables {
        comparison.is_good(a).unwrap();
        for b in &tables {
            comparison.merge(a, b, &mut random).unwrap();
        }
    }
    for old in &tables {
        comparison.step(old, 4).unwrap();
        comparison.step(old, old.len()).unwrap();
        for sent in &tables {
            for kind in [1, 6] {
                let mut message = Encoding::new();
                message.header(kind, 0).string(b"", 64);
                message.bytes.extend_from_slice(sent);
                let message = &message.bytes;
                comparison.accept(old, message, b"", &mut random).unwrap();
            }
        }
    }
    for call in ["merge", "accept"] {
        for number in [0, 14, 15, 19] {
            assert!(
                comparison.seen.contains_key(&(call, number)),
                "{call} {number}"
            );
        }
    }
}

/// A slice at hand: where it lies and the starting slices that went into it.
#[derive(Clone, Debug)]
struct AtHand {
    lies: Range<usize>,
    origins: BTreeSet<usize>,
}

/// The merged table of some starting tables, straight from its meaning, or none where one isn't good.
fn meaning(starting: &[Vec<u8>], origins: &BTreeSet<usize>) -> Option<(usize, Vec<u8>)> {
    let mut highest: BTreeMap<&[u8], (&[u8], reference::File)> = BTreeMap::new();
    for &origin in origins {
        let table = &starting[origin];
        if !reference::is_good(table) {
            return None;
        }
        let mut at = 4;
        while let Some(file) = reference::file_at(table, at) {
            at = file.end;
            let newer = match highest.get(file.name.of(table)) {
                Some((other, kept)) => {
                    reference::compare(table, &file, other, kept) == Ordering::Greater
                }
                None => true,
            };
            if newer {
                highest.insert(file.name.of(table), (table, file));
            }
        }
    }
    let mut merged = (highest.len() as u32).to_be_bytes().to_vec();
    for (table, file) in highest.values() {
        merged.extend_from_slice(&table[file.name.start - 4..file.end]);
    }
    Some((highest.len(), merged))
}

fn overlap(a: &Range<usize>, b: &Range<usize>) -> bool {
    !a.is_empty() && !b.is_empty() && a.start < b.end && b.start < a.end
}

/// One list of merges in one memory, with somebody else's writes between the calls.
fn list_of_merges(calls: TableCalls, number: u64, met: &mut BTreeMap<u32, u64>) -> Compared {
    let mut random = random_of(number);
    let pool = Pool::new(&mut random);
    let limits = random.once_in(40);
    let starting: Vec<Vec<u8>> = (0..1 + random.below(5) + usize::from(limits))
        .map(|i| match limits {
            true => full(&mut random, 170 * i, 200, 0),
            false => pool.table(&mut random),
        })
        .collect();
    let mut memory = Vec::new();
    let mut hand = Vec::new();
    for (i, table) in starting.iter().enumerate() {
        let lies = memory.len()..memory.len() + table.len();
        memory.extend_from_slice(table);
        hand.push(AtHand {
            lies,
            origins: BTreeSet::from([i]),
        });
    }
    let room = if limits { 40_000 } else { 2_000 };
    memory.resize(memory.len() + room, 0xEE);
    for _ in 0..20 {
        if random.once_in(12) {
            // Somebody writes.
            let at = random.below(memory.len());
            let lies = at..memory.len().min(at + 1 + random.below(8));
            random.fill(&mut memory[lies.clone()]);
            hand.retain(|slice| !overlap(&slice.lies, &lies));
        }
        if hand.is_empty() {
            return Ok(());
        }
        let x = random.pick_from(&hand).clone();
        let y = random.pick_from(&hand).clone();
        let at = random.below(memory.len());
        let buffer = at..memory.len().min(at + random.pick(&[60, 200, 800, room]));
        if overlap(&x.lies, &buffer) || overlap(&y.lies, &buffer) {
            continue;
        }
        let (a, b) = (memory[x.lies].to_vec(), memory[y.lies].to_vec());
        let answer = (calls.merge)(&a, &b, &mut memory[buffer.clone()]);
        let origins: BTreeSet<usize> = x.origins.union(&y.origins).copied().collect();
        let expected = match meaning(&starting, &origins) {
            None => (15, [0]),
            Some((count, merged)) if count > 512 || merged.len() > 65_536 => (19, [0]),
            Some((_, merged)) if merged.len() > buffer.len() => (14, [0]),
            Some((_, merged)) => (0, [merged.len() as u64]),
        };
        *met.entry(expected.0).or_default() += 1;
        same("a merge of the list", &answer, &expected)?;
        if let (0, [len]) = expected {
            let lies = buffer.start..buffer.start + len as usize;
            hand.retain(|slice| !overlap(&slice.lies, &lies));
            hand.push(AtHand { lies, origins });
        }
        // All that is at hand is what it was made from.
        for slice in &hand {
            let bytes = &memory[slice.lies.clone()];
            match meaning(&starting, &slice.origins) {
                Some((_, merged)) => same_bytes("a table at hand", bytes, &merged)?,
                None => same_bytes(
                    "a slice at hand",
                    bytes,
                    &starting[*slice.origins.first().unwrap()],
                )?,
            }
        }
    }
    Ok(())
}

#[test]
fn lists_of_merges_give_the_merged_table_of_their_origins() {
    let lists = setting("SOAK").unwrap_or(INPUTS) / 4;
    let mut met = BTreeMap::new();
    for number in 0..lists {
        if let Err(difference) = list_of_merges(TABLE_CALLS, number, &mut met) {
            panic!("list {number}: {difference}");
        }
    }
    let calls: u64 = met.values().sum();
    say(&format!(
        "{lists} lists of merges: {calls} calls, no difference"
    ));
    if lists >= INPUTS / 4 {
        for number in [0, 14, 15, 19] {
            assert!(met.get(&number) >= Some(&20), "{number} in {met:?}");
        }
    }
}

#[test]
fn a_merge_is_refused_in_one_grouping_and_not_in_another() {
    let block = Block {
        length: 1,
        hash: [7; 32],
    };
    let file = |name: &str, version, blocks| File {
        name: name.as_bytes().to_vec(),
        flags: 0o644,
        modified: 0,
        version,
        blocks: vec![block; blocks],
    };
    let a = encode(&[file("a", 0, 1_000)]);
    let b = encode(&[file("b", 0, 1_000)]);
    let newer = encode(&[file("a", 1, 0)]);
    let mut out = vec![0; 65_536];
    assert_eq!(
        fordtrumpet::raw::merge(&a, &b, &mut out)
            .unwrap_err()
            .number(),
        19
    );
    let length = fordtrumpet::raw::merge(&a, &newer, &mut out).unwrap();
    let shorter = out[..length].to_vec();
    let length = fordtrumpet::raw::merge(&shorter, &b, &mut out).unwrap();
    assert_eq!(
        out[..length],
        encode(&[file("a", 1, 0), file("b", 0, 1_000)])
    );
}

/// Compares calls with a fault until that is found.
fn is_found(calls: TableCalls) -> bool {
    let mut comparison = TableComparison::new(calls);
    (0..5_000).any(|number| compare_input(&mut comparison, number).is_err())
}

#[test]
fn a_difference_is_found() {
    assert!(is_found(TableCalls {
        // Names needn't rise.
        is_good: |table| {
            let mut message = vec![0, 0, 1, 0, 0, 0, 0, 0];
            message.extend_from_slice(table);
            matches!(fordtrumpet::read(&message), Ok(read) if read.used == message.len())
        },
        ..TABLE_CALLS
    }));
    assert!(is_found(TableCalls {
        // Names of stored records may be anything.
        is_good: |table| {
            let mut index = vec![0, 0, 1, 0, 0, 0, 0, 0];
            index.extend_from_slice(table);
            matches!(
                fordtrumpet::read(&index),
                Err(fordtrumpet::Refusal::UnsafeName(_))
            ) || (TABLE_CALLS.is_good)(table)
        },
        ..TABLE_CALLS
    }));
    assert!(is_found(TableCalls {
        // Modified without its sign.
        compare: |a, i, b, j| {
            let modified =
                |array: &[u8], at| reference::file_at(array, at).map(|file| file.modified as u64);
            match (modified(a, i), modified(b, j)) {
                (Some(x), Some(y)) if x != y => (0, [if x < y { 0 } else { 2 }]),
                _ => (TABLE_CALLS.compare)(a, i, b, j),
            }
        },
        ..TABLE_CALLS
    }));
    assert!(is_found(TableCalls {
        // The first record stays where times and versions tie.
        merge: |a, b, out| {
            let files = |array: &[u8]| -> Vec<(Vec<u8>, i64, u32)> {
                let mut at = 4;
                let mut found = Vec::new();
                while let Some(file) = reference::file_at(array, at) {
                    found.push((file.name.of(array).to_vec(), file.modified, file.version));
                    at = file.end;
                }
                found
            };
            match files(a) == files(b) {
                true => (TABLE_CALLS.merge)(a, a, out),
                false => (TABLE_CALLS.merge)(a, b, out),
            }
        },
        ..TABLE_CALLS
    }));
    assert!(is_found(TableCalls {
        // A refused merge has begun to write.
        merge: |a, b, out| {
            let answer = (TABLE_CALLS.merge)(a, b, out);
            if let (14, Some(byte)) = (answer.0, out.first_mut()) {
                *byte ^= 1;
            }
            answer
        },
        ..TABLE_CALLS
    }));
    assert!(is_found(TableCalls {
        // An IndexUpdate merged by newest.
        accept: |old, message, repository, out| {
            let mut index = message.to_vec();
            match index.get_mut(2) {
                Some(kind) if *kind == 6 => *kind = 1,
                _ => return (TABLE_CALLS.accept)(old, message, repository, out),
            }
            let mut sent = vec![0; 65_536];
            match (TABLE_CALLS.accept)(old, &index, repository, &mut sent) {
                (0, [len]) => (TABLE_CALLS.merge)(old, &sent[..len as usize], out),
                refused => refused,
            }
        },
        ..TABLE_CALLS
    }));
    assert!(is_found(TableCalls {
        // An Index keeps old records.
        accept: |old, message, repository, out| {
            let mut update = message.to_vec();
            if let Some(kind @ 1) = update.get_mut(2) {
                *kind = 6;
            }
            (TABLE_CALLS.accept)(old, &update, repository, out)
        },
        ..TABLE_CALLS
    }));
    assert!(is_found(TableCalls {
        // The place of a repeated name counted from the array.
        accept: |old, message, repository, out| {
            match (TABLE_CALLS.accept)(old, message, repository, out) {
                (13, [place]) => (13, [place - 4 - 4]),
                answer => answer,
            }
        },
        ..TABLE_CALLS
    }));
    assert!(is_found(TableCalls {
        // Bytes inside a record that read as one.
        step: |table, at| match reference::file_at(table, at) {
            Some(_) if reference::is_good(table) && at > 4 => {
                let mut answer = [0; 8];
                // SAFETY: pointer and length are those of one slice.
                let number = unsafe { ffi::bep_file(table.as_ptr(), table.len(), at, &mut answer) };
                (number, answer)
            }
            _ => (TABLE_CALLS.step)(table, at),
        },
        ..TABLE_CALLS
    }));
    assert!(is_found(TableCalls {
        // The end of a table that isn't good.
        step: |table, at| match at == table.len() {
            true => (0, [0; 8]),
            false => (TABLE_CALLS.step)(table, at),
        },
        ..TABLE_CALLS
    }));
    let mut met = BTreeMap::new();
    let stale = TableCalls {
        // Whatever is merged, the result is the first table.
        merge: |a, _, out| (TABLE_CALLS.merge)(a, a, out),
        ..TABLE_CALLS
    };
    assert!((0..1_000).any(|number| list_of_merges(stale, number, &mut met).is_err()));
}

/// A file keeps its record when a table is put together.
#[test]
fn the_tables_are_what_they_seem() {
    let mut random = random_of(7);
    let pool = Pool::new(&mut random);
    let files: Vec<File> = pool.files(&mut random);
    let table = encode(&files);
    assert!(fordtrumpet::raw::is_good(&table));
    let read = fordtrumpet::Table::new(&table).unwrap();
    assert!(read
        .files()
        .iter()
        .map(|file| file.name.as_bytes())
        .eq(files.iter().map(|file| &file.name[..])));
}
