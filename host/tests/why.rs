//! Why a block isn't coming, and what the entries of a request list stand for, against the reference, the
//! list and the merged table.
//!
//! `SOAK=N` compares N/20 inputs, of some hundred calls each, instead of the usual number; `SOAK_FROM=M`
//! starts with input number M.

mod reference;
mod support;

use fordtrumpet::{Table, MAX_REQUEST_LIST};
use reference::{File, Reason};
use std::collections::{BTreeMap, BTreeSet};
use std::io::Write;
use support::alike;
use support::compare::{same, Compared};
use support::encode::{self, Block};
use support::library::Answer;
use support::names::spoil;
use support::random::Random;
use support::settings::setting;
use support::tables::{encode, Pool};
use support::why_calls::{by_reason, details, details_words, why, why_words};

const INPUTS: u64 = 3_000;
const SEED: u64 = 0x5742_5900_0000_0000;

/// The calls under test. Faults are planted by exchanging one of them.
#[derive(Clone, Copy)]
struct Calls {
    why: fn([&[u8]; 5], &[u8], u32) -> Answer<3>,
    details: fn([&[u8]; 5], u32, u32) -> Answer<6>,
}

const CALLS: Calls = Calls { why, details };

/// Compares and counts.
struct Comparison {
    calls: Calls,
    /// The number of calls compared.
    compared: u64,
    /// How often an answer was of a kind.
    met: BTreeMap<String, u64>,
}

impl Comparison {
    fn new(calls: Calls) -> Self {
        Comparison {
            calls,
            compared: 0,
            met: BTreeMap::new(),
        }
    }

    fn meet(&mut self, kind: impl Into<String>) {
        *self.met.entry(kind.into()).or_default() += 1;
    }

    /// Why a block isn't coming, by the words and by the safe call.
    fn why(&mut self, tables: [&[u8]; 5], name: &[u8], block: u32) -> Result<Answer<3>, String> {
        let reason = reference::why(tables, name, block);
        let expected = why_words(reason);
        let what = || format!("why {} {block}", name.escape_ascii());
        let answer = (self.calls.why)(tables, name, block);
        same(&what(), &answer, &expected)?;
        let safe = by_reason(tables, name, block);
        same(&what(), &safe, &reason.map_err(|refusal| refusal.number))?;
        self.compared += 2;
        match reason {
            Ok(Reason::Held { record, block }) => {
                self.meet(format!("held {} {}", record > 0, block > 0));
            }
            Ok(reason) => self.meet(format!("{reason:?}")),
            Err(refusal) => self.meet(format!("why: {}", refusal.number)),
        }
        Ok(answer)
    }

    /// What an entry stands for, by the words and by the safe call.
    fn details(&mut self, tables: [&[u8]; 5], file: u32, block: u32) -> Result<Answer<6>, String> {
        let expected = details_words(reference::details(tables, file, block));
        let what = || format!("details {file} {block}");
        let answer = (self.calls.details)(tables, file, block);
        same(&what(), &answer, &expected)?;
        let [local, peers @ ..] = tables;
        let safe = match fordtrumpet::raw::details(local, peers, file, block) {
            Ok(Some(found)) => {
                let place = |bytes: &[u8]| {
                    let table = tables[found.table].as_ptr() as usize;
                    (bytes.as_ptr() as usize - table) as u64
                };
                let words = [
                    found.table as u64,
                    place(found.name.as_bytes()),
                    found.name.len() as u64,
                    found.offset,
                    u64::from(found.length),
                    place(found.hash),
                ];
                (0, words)
            }
            Ok(None) => (1, [0; 6]),
            Err(refusal) => (refusal.number(), [0; 6]),
        };
        same(&what(), &safe, &expected)?;
        self.compared += 2;
        match expected {
            (0, [table, ..]) => self.meet(format!("details in {table}")),
            (number, _) => self.meet(format!("details: {number}")),
        }
        Ok(answer)
    }

    /// Names and numbers that are there and such that aren't. All names and blocks are asked about, or
    /// some of them where there are more than a few.
    fn input(&mut self, tables: [&[u8]; 5], random: &mut Random) -> Compared {
        let names = names(tables);
        for name in strange_names(&names, random) {
            for block in [0, random.below(4) as u32, u32::MAX] {
                self.why(tables, &name, block)?;
            }
        }
        if !tables.into_iter().all(reference::is_good) {
            for (number, name) in names.iter().enumerate() {
                self.why(tables, name, 0)?;
                self.details(tables, number as u32, 0)?;
            }
            self.details(tables, 0, random.word())?;
            return Ok(());
        }
        let (listed, merged) = (listed(tables)?, merged(tables));
        let (asked, all_asked) = some_of(names.len() as u32, random);
        let (mut wanted, mut few) = (0, all_asked);
        for file in asked {
            let number = file as usize;
            let name = &names[number];
            let record = highest(tables, name);
            let (mut blocks, all_blocks) = some_of(record.blocks, random);
            few &= all_blocks;
            blocks.extend([
                record.blocks,
                record.blocks + 1 + random.word() % 2000,
                u32::MAX,
            ]);
            for block in blocks {
                let (_, reason) = self.why(tables, name, block)?;
                // Wanted with a peer exactly where the list has the block with that peer.
                let peer = (reason[0] == 6).then_some(reason[1]);
                let entry = listed.get(&(file, block));
                let listed_peer = entry.map(|entry| u64::from(entry.peer));
                same(
                    "the peer by the reason and by the list",
                    &peer,
                    &listed_peer,
                )?;
                let words = self.details(tables, file, block)?;
                if block < record.blocks {
                    let merged = merged.as_ref().map(|merged| &merged[number]);
                    tells(tables, words, name, merged, block)?;
                } else {
                    same("details of no block", &words, &(1, [0; 6]))?;
                }
                if let Some(entry) = entry {
                    wanted += 1;
                    let (_, [_, _, _, offset, length, hash]) = words;
                    let table = tables[words.1[0] as usize];
                    same("an entry's name", &entry.name.as_bytes(), &&name[..])?;
                    same("an entry's offset", &entry.offset, &offset)?;
                    same("an entry's length", &u64::from(entry.length), &length)?;
                    let hash = &table[hash as usize..][..32];
                    same("an entry's hash", &&entry.hash[..], &hash)?;
                }
            }
        }
        for file in [names.len() as u32, random.word() | 1 << 20, u32::MAX] {
            let words = self.details(tables, file, 0)?;
            same("details of no file", &words, &(1, [0; 6]))?;
        }
        match few {
            true => same("entries of the list", &wanted, &listed.len()),
            false => Ok(()),
        }
    }
}

/// The names of the good ones among these tables.
fn names(tables: [&[u8]; 5]) -> Vec<Vec<u8>> {
    let mut names = BTreeSet::new();
    for table in tables.into_iter().filter(|table| reference::is_good(table)) {
        let mut at = 4;
        while let Some(file) = reference::file_at(table, at) {
            names.insert(file.name.of(table).to_vec());
            at = file.end;
        }
    }
    names.into_iter().collect()
}

/// Names that aren't there, or hardly: no bytes, bytes that are no text, such as no table may have, and
/// those next to a name that is there.
fn strange_names(names: &[Vec<u8>], random: &mut Random) -> Vec<Vec<u8>> {
    let mut strange = vec![
        Vec::new(),
        vec![0xFF],
        vec![0],
        random.bytes(300),
        b"../a".to_vec(),
    ];
    if !names.is_empty() {
        let name = random.pick_from(names).clone();
        let more = |byte| [&name[..], &[byte]].concat();
        strange.extend([more(0), more(b'/'), more(b'a'), more(0xFF)]);
        strange.push(name[..name.len() - 1].to_vec());
        let mut spoiled = name;
        spoil(&mut spoiled, random);
        strange.push(spoiled);
    }
    strange
}

/// The numbers of so many names or blocks, and whether they are all: of more than a few they are some.
fn some_of(count: u32, random: &mut Random) -> (Vec<u32>, bool) {
    match count {
        0..=12 => ((0..count).collect(), true),
        _ => {
            let any = (0..12).map(|_| random.below(count as usize) as u32);
            (any.chain([0, count - 1]).collect(), false)
        }
    }
}

/// The highest record of a name, which is there.
fn highest(tables: [&[u8]; 5], name: &[u8]) -> File {
    let mut highest: Option<(&[u8], File)> = None;
    for table in tables {
        let mut at = 4;
        while let Some(file) = reference::file_at(table, at) {
            at = file.end;
            if file.name.of(table) != name {
                continue;
            }
            let higher =
                |(other, g): (&[u8], File)| reference::compare(table, &file, other, &g).is_gt();
            if highest.is_none_or(higher) {
                highest = Some((table, file));
            }
        }
    }
    highest.expect("the name is there").1
}

/// The entries of the library's list, by file and block.
fn listed<'t>(
    tables: [&'t [u8]; 5],
) -> Result<BTreeMap<(u32, u32), fordtrumpet::Wanted<'t>>, String> {
    let [local, peers @ ..] = tables.map(|table| Table::new(table).unwrap());
    let mut out = vec![0; MAX_REQUEST_LIST];
    let list = fordtrumpet::request_list(local, peers, &mut out).unwrap();
    let entries: BTreeMap<_, _> = list
        .iter()
        .map(|wanted| ((wanted.file, wanted.block), wanted))
        .collect();
    same("the number of entries", &entries.len(), &list.len())?;
    // From the middle on, and one by one.
    let middle = list.len() / 2;
    let from_middle = list
        .iter()
        .skip(middle)
        .map(|wanted| (wanted.name, wanted.hash));
    let by_number = entries
        .values()
        .skip(middle)
        .map(|wanted| (wanted.name, wanted.hash));
    same("entries skipped to", &from_middle.eq(by_number), &true)?;
    same("the count of entries", &list.iter().count(), &list.len())?;
    let last = entries.values().next_back();
    same("the last entry", &list.iter().last().as_ref(), &last)?;
    Ok(entries)
}

/// What each record of the merged table says of its blocks, or none where the five have no merged table.
fn merged(tables: [&[u8]; 5]) -> Option<Vec<Vec<Block>>> {
    let mut merged = vec![0, 0, 0, 0];
    for table in tables {
        let mut out = vec![0; reference::MAX_TABLE];
        let len = reference::merge(&merged, table, &mut out).ok()?;
        out.truncate(len);
        merged = out;
    }
    let (mut records, mut at) = (Vec::new(), 4);
    while let Some(file) = reference::file_at(&merged, at) {
        let blocks = merged[file.first_block..file.end].chunks(40);
        let block = |block: &[u8]| Block {
            length: u32::from_be_bytes(block[..4].try_into().unwrap()),
            hash: block[8..].try_into().unwrap(),
        };
        records.push(blocks.map(block).collect());
        at = file.end;
    }
    Some(records)
}

/// That the words tell this name and what the merged table has of the block, by places of their table.
fn tells(
    tables: [&[u8]; 5],
    words: Answer<6>,
    name: &[u8],
    merged: Option<&Vec<Block>>,
    block: u32,
) -> Compared {
    let (number, [table, start, len, offset, length, hash]) = words;
    same("the number of details", &number, &0)?;
    let table = tables[table as usize];
    let told = &table[start as usize..][..len as usize];
    same("the name of details", &told, &name)?;
    let Some(merged) = merged else { return Ok(()) };
    let before = merged[..block as usize].iter();
    let sum: u64 = before.map(|block| u64::from(block.length)).sum();
    let block = merged[block as usize];
    same("the offset of details", &offset, &sum)?;
    same("the length of details", &length, &u64::from(block.length))?;
    let hash = &table[hash as usize..][..32];
    same("the hash of details", &hash, &&block.hash[..])
}

fn random_of(number: u64) -> Random {
    Random::new(SEED ^ number.wrapping_mul(0xD134_2543_DE82_EF95))
}

/// Says something even when the test passes.
fn say(text: &str) {
    let _ = writeln!(std::io::stderr(), "{text}");
}

/// Tables that share names and blocks. Bad ones are seldom, since one of five is enough for 15.
fn compare_input(comparison: &mut Comparison, number: u64) -> Compared {
    let mut random = random_of(number);
    let pool = Pool::new(&mut random);
    let table = |random: &mut Random| match random.below(24) {
        0 => pool.table(random),
        1..=6 => encode(&[]),
        _ => encode(&pool.files(random)),
    };
    let mut tables: [Vec<u8>; 5] = std::array::from_fn(|_| table(&mut random));
    if random.once_in(4) {
        // The same records in two tables.
        let (from, to) = (random.below(5), random.below(5));
        tables[to] = tables[from].clone();
    }
    comparison.input(tables.each_ref().map(|table| &table[..]), &mut random)
}

/// Tables whose names and blocks are easily taken for each other.
fn compare_alike(comparison: &mut Comparison, number: u64) -> Compared {
    let mut random = random_of(!number);
    let tables = alike::five(&mut random).map(|files| encode(&files));
    comparison.input(tables.each_ref().map(|table| &table[..]), &mut random)
}

/// Compares as many inputs as are asked for.
fn generated(what: &str, compare: fn(&mut Comparison, u64) -> Compared) -> Comparison {
    let from = setting("SOAK_FROM").unwrap_or(0);
    let inputs = setting("SOAK").map_or(INPUTS, |soak| soak / 20);
    let mut comparison = Comparison::new(CALLS);
    for number in from..from + inputs {
        if let Err(difference) = compare(&mut comparison, number) {
            panic!("{what} {number}: {difference}");
        }
    }
    say(&format!(
        "{inputs} {what} from number {from} on: {} calls on reasons and details compared, no difference",
        comparison.compared
    ));
    if inputs >= INPUTS {
        for kind in [
            "NoSuchName",
            "Deleted",
            "Invalid",
            "NoSuchBlock",
            "held false false",
            "held false true",
            "held true false",
            "held true true",
            "Wanted { peer: 1 }",
            "Wanted { peer: 2 }",
            "Wanted { peer: 3 }",
            "Wanted { peer: 4 }",
            "details: 1",
            "details in 0",
            "details in 1",
            "details in 2",
            "details in 3",
            "details in 4",
        ] {
            let times = comparison.met.get(kind).copied();
            assert!(times >= Some(100), "{kind} in {:?}", comparison.met);
        }
    }
    comparison
}

#[test]
fn generated_tables_get_the_same_reasons() {
    let comparison = generated("sets of tables", compare_input);
    if comparison.compared > 100_000 {
        for kind in ["why: 15", "details: 15"] {
            assert!(comparison.met.get(kind) >= Some(&100), "{kind}");
        }
    }
}

#[test]
fn generated_tables_alike_get_the_same_reasons() {
    generated("sets of tables alike", compare_alike);
}

/// A record of some blocks with the hashes of the numbers from `first` on.
fn file(name: String, blocks: u32, first: u32) -> encode::File {
    encode::File {
        name: name.into_bytes(),
        flags: 0o644,
        modified: 0,
        version: 0,
        blocks: (first..first + blocks)
            .map(|number| {
                let mut hash = [0xA7; 32];
                hash[28..].copy_from_slice(&number.to_be_bytes());
                Block { length: 5, hash }
            })
            .collect(),
    }
}

#[test]
fn full_tables_get_the_same_answers() {
    let few: [Vec<u8>; 5] = std::array::from_fn(|table| {
        let number = table as u32;
        let files: Vec<_> = (0..2)
            .map(|part| {
                file(
                    format!("{part} of {number}"),
                    800,
                    2000 * number + 800 * part,
                )
            })
            .collect();
        encode(&files)
    });
    let many: [Vec<u8>; 5] = std::array::from_fn(|table| {
        let number = table as u32;
        let name = |part| format!("{part:04} of {number}");
        let files: Vec<_> = (0..512)
            .map(|part| file(name(part), 2, 2 * (512 * number + part)))
            .collect();
        encode(&files)
    });
    let mut random = random_of(0);
    let mut comparison = Comparison::new(CALLS);
    for tables in [few, many] {
        let tables = tables.each_ref().map(|table| &table[..]);
        assert!(tables.iter().all(|table| table.len() > 59_000));
        comparison.input(tables, &mut random).unwrap();
    }
    assert!(comparison.compared > 1_000);
}

/// Whether calls with a fault are found out.
fn is_found(calls: Calls) -> bool {
    let mut comparison = Comparison::new(calls);
    (0..2_000).any(|number| {
        compare_input(&mut comparison, number).is_err()
            || compare_alike(&mut comparison, number).is_err()
    })
}

/// The records of a table, each from its Name on.
fn records(table: &[u8]) -> Vec<(File, usize)> {
    let (mut records, mut at) = (Vec::new(), 4);
    while let Some(file) = reference::file_at(table, at) {
        records.push((file, at));
        at = file.end;
    }
    records
}

#[test]
fn a_difference_is_found_in_a_reason() {
    let found = |why| is_found(Calls { why, ..CALLS });
    // Everything is refused.
    assert!(found(|_, _, _| (15, [0; 3])));
    // A bad table counts only where it is needed.
    assert!(found(|tables, name, block| {
        let [a, b, c, d, _] = tables;
        match why(tables, name, block) {
            (15, _) => why([a, b, c, d, &[0; 4]], name, block),
            answer => answer,
        }
    }));
    // A word that isn't used is left as it was.
    assert!(found(|tables, name, block| {
        match why(tables, name, block) {
            (0, [6, peer, _]) => (0, [6, peer, 1]),
            answer => answer,
        }
    }));
    // Names that are no plain path, or no text, are refused.
    assert!(found(|tables, name, block| {
        match std::str::from_utf8(name) {
            Ok(_) => why(tables, name, block),
            Err(_) => (7, [0; 3]),
        }
    }));
    // A name is found by its beginning.
    assert!(found(|tables, name, block| {
        match why(tables, name, block) {
            (0, [1, ..]) => why(tables, &[name, b"a"].concat(), block),
            answer => answer,
        }
    }));
    // Invalid before deleted.
    assert!(found(|tables, name, block| {
        let answer = why(tables, name, block);
        let both = tables
            .into_iter()
            .filter(|table| reference::is_good(table))
            .any(|table| {
                let mut records = records(table).into_iter();
                records
                    .any(|(file, _)| file.name.of(table) == name && file.flags & 0x3000 == 0x3000)
            });
        match answer {
            (0, [2, ..]) if both => (0, [3, 0, 0]),
            answer => answer,
        }
    }));
    // The block after the last is there.
    assert!(found(|tables, name, block| {
        match why(tables, name, block) {
            (0, [4, ..]) if block > 0 => why(tables, name, block - 1),
            answer => answer,
        }
    }));
    // The largest number is taken for the one before the first.
    assert!(found(|tables, name, block| match block {
        u32::MAX => why(tables, name, 0),
        _ => why(tables, name, block),
    }));
    // Records that hold nothing don't count.
    assert!(found(|tables, name, block| {
        match why(tables, name, block) {
            (0, [5, record, block]) => {
                let before = &records(tables[0])[..record as usize];
                let left = before.iter().filter(|(file, _)| file.flags & 0x3000 != 0);
                (0, [5, record - left.count() as u64, block])
            }
            answer => answer,
        }
    }));
    // What is invalid holds too.
    assert!(found(|tables, name, block| {
        let [local, b, c, d, e] = tables;
        let answer = why(tables, name, block);
        let mut valid = local.to_vec();
        for (file, _) in records(local) {
            valid[file.first_block - 18] &= !0x20;
        }
        match (answer, why([&valid, b, c, d, e], name, block)) {
            ((0, [6, ..]), held @ (0, [5, ..])) => held,
            _ => answer,
        }
    }));
    // Only the record of the same name holds.
    assert!(found(|tables, name, block| {
        match why(tables, name, block) {
            (0, [5, record, _])
                if {
                    let (file, _) = records(tables[0])[record as usize];
                    file.name.of(tables[0]) != name
                } =>
            {
                (0, [6, 1, 0])
            }
            answer => answer,
        }
    }));
    // Peers count from the last.
    assert!(found(|tables, name, block| {
        let [a, b, c, d, e] = tables;
        match why([a, e, d, c, b], name, block) {
            (0, [6, peer, _]) => (0, [6, 5 - peer, 0]),
            answer => answer,
        }
    }));
    // The peer with the highest record is asked.
    assert!(found(|tables, name, block| {
        match why(tables, name, block) {
            (0, [6, ..]) => {
                let names = names(tables);
                let number = names.iter().position(|other| other == name).unwrap();
                let (_, [table, ..]) = details(tables, number as u32, block);
                (0, [6, table, 0])
            }
            answer => answer,
        }
    }));
}

#[test]
fn a_difference_is_found_in_details() {
    let found = |details| is_found(Calls { details, ..CALLS });
    // Everything is refused, or nothing is there.
    assert!(found(|_, _, _| (15, [0; 6])));
    assert!(found(|tables, file, block| {
        match details(tables, file, block) {
            (0, _) => (1, [0; 6]),
            answer => answer,
        }
    }));
    // The last of the tables that have the record.
    assert!(found(|tables, file, block| {
        let [a, b, c, d, e] = tables;
        match details([e, d, c, b, a], file, block) {
            (0, [table, rest @ ..]) => {
                let [x, y, z, u, v] = rest;
                (0, [4 - table, x, y, z, u, v])
            }
            answer => answer,
        }
    }));
    // Files count without the local ones.
    assert!(found(|tables, file, block| {
        let [_, b, c, d, e] = tables;
        match details(tables, file, block) {
            (0, _) => details([&[0; 4], b, c, d, e], file, block),
            answer => answer,
        }
    }));
    // Only blocks that are to be asked for have details.
    assert!(found(|tables, file, block| {
        let answer = details(tables, file, block);
        let (0, [table, ..]) = answer else {
            return answer;
        };
        match why(tables, &names(tables)[file as usize], block) {
            (0, [6, ..]) => answer,
            _ => (1, [table; 6].map(|_| 0)),
        }
    }));
    // The offset is that of a block of the largest size.
    assert!(found(|tables, file, block| {
        match details(tables, file, block) {
            (0, [table, start, len, _, length, hash]) => {
                let offset = 131_072 * u64::from(block);
                (0, [table, start, len, offset, length, hash])
            }
            answer => answer,
        }
    }));
    // The hash of the first block.
    assert!(found(|tables, file, block| {
        match details(tables, file, block) {
            (0, [table, start, len, offset, length, hash]) => {
                let hash = hash - 40 * u64::from(block);
                (0, [table, start, len, offset, length, hash])
            }
            answer => answer,
        }
    }));
    // The place of the hash's length word.
    assert!(found(|tables, file, block| {
        match details(tables, file, block) {
            (0, [table, start, len, offset, length, hash]) => {
                (0, [table, start, len, offset, length, hash - 4])
            }
            answer => answer,
        }
    }));
    // The last file goes on.
    assert!(found(|tables, file, block| {
        match details(tables, file, block) {
            (1, _) if file > 0 => details(tables, file - 1, block),
            answer => answer,
        }
    }));
}
