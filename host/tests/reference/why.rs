//! Why a block isn't coming, and what an entry of a request list stands for.

use super::table::check;
use super::want::{blocks, is_there, length, lists};
use super::{compare, File, Refusal, Span, BLOCK_LEN, DELETED, INVALID};
use std::cmp::Ordering;

/// Why a block isn't coming, or that it is.
#[derive(Clone, Copy, Debug, PartialEq, Eq, PartialOrd, Ord)]
pub enum Reason {
    NoSuchName,
    Deleted,
    Invalid,
    NoSuchBlock,
    /// The first record and block of the local table that hold it, both from 0.
    Held {
        record: u32,
        block: u32,
    },
    Wanted {
        peer: u32,
    },
}

/// The first reason that is true of a block of a name.
pub fn why(tables: [&[u8]; 5], name: &[u8], block: u32) -> Result<Reason, Refusal> {
    for table in tables {
        check(table)?;
    }
    let files = tables.map(|table| named(table, name));
    let Some((at, file)) = highest(tables, &files) else {
        return Ok(Reason::NoSuchName);
    };
    if file.flags & DELETED != 0 {
        return Ok(Reason::Deleted);
    }
    if file.flags & INVALID != 0 {
        return Ok(Reason::Invalid);
    }
    let all = blocks(tables[at], &file);
    let Some(wanted) = all.get(block as usize) else {
        return Ok(Reason::NoSuchBlock);
    };
    if let Some((record, block)) = first_held(tables[0], wanted) {
        return Ok(Reason::Held { record, block });
    }
    let offset = sum(&all[..block as usize]);
    let peer = (1..5)
        .find(|&i| files[i].is_some_and(|file| lists(tables[i], &file, offset, wanted)))
        .expect("a peer has the highest record");
    Ok(Reason::Wanted { peer: peer as u32 })
}

/// What is to be asked for, with places in the table that has the highest record.
#[derive(Clone, Copy, Debug, PartialEq, Eq)]
pub struct Details {
    /// 0 is the local table, 1 to 4 are the peers'.
    pub table: usize,
    pub name: Span,
    pub offset: u64,
    pub length: u32,
    /// The place of the hash's first byte.
    pub hash: usize,
}

/// The details of a block, by the number of its file among all names and its own in the highest record.
pub fn details(tables: [&[u8]; 5], number: u32, block: u32) -> Result<Option<Details>, Refusal> {
    for table in tables {
        check(table)?;
    }
    let mut walks = tables.map(Walk::new);
    let mut next: [Option<File>; 5] = std::array::from_fn(|i| walks[i].next());
    let mut left = number;
    let files = loop {
        let named = lowest(tables, &next);
        if left == 0 || named == [false; 5] {
            break std::array::from_fn(|i| next[i].filter(|_| named[i]));
        }
        for i in (0..5).filter(|&i| named[i]) {
            next[i] = walks[i].next();
        }
        left -= 1;
    };
    let Some((at, file)) = highest(tables, &files) else {
        return Ok(None);
    };
    let all = blocks(tables[at], &file);
    Ok(all.get(block as usize).map(|wanted| Details {
        table: at,
        name: file.name,
        offset: sum(&all[..block as usize]),
        length: length(wanted),
        hash: file.first_block + block as usize * BLOCK_LEN + 8,
    }))
}

/// Which of these records have the lowest name.
fn lowest(tables: [&[u8]; 5], files: &[Option<File>; 5]) -> [bool; 5] {
    let mut named = [false; 5];
    let mut lowest: Option<&[u8]> = None;
    for (i, file) in files.iter().enumerate() {
        let Some(file) = file else { continue };
        let name = file.name.of(tables[i]);
        match lowest.map_or(Ordering::Less, |lowest| name.cmp(lowest)) {
            Ordering::Less => {
                named = [false; 5];
                lowest = Some(name);
            }
            Ordering::Equal => {}
            Ordering::Greater => continue,
        }
        named[i] = true;
    }
    named
}

/// The highest of these records and the number of its table, the lowest where some are equal.
fn highest(tables: [&[u8]; 5], files: &[Option<File>; 5]) -> Option<(usize, File)> {
    let mut highest: Option<(usize, File)> = None;
    for (i, file) in files.iter().enumerate() {
        let Some(file) = *file else { continue };
        let higher =
            highest.is_none_or(|(j, other)| compare(tables[i], &file, tables[j], &other).is_gt());
        if higher {
            highest = Some((i, file));
        }
    }
    highest
}

/// The record of a name in a good table.
fn named(table: &[u8], name: &[u8]) -> Option<File> {
    // Names rise.
    let file = Walk::new(table).find(|file| file.name.of(table) >= name)?;
    (file.name.of(table) == name).then_some(file)
}

/// Where a good table first holds an encoded block in a valid, undeleted record.
fn first_held(table: &[u8], wanted: &[u8; BLOCK_LEN]) -> Option<(u32, u32)> {
    Walk::new(table).zip(0..).find_map(|(file, record)| {
        let held = |file| blocks(table, file).iter().position(|block| block == wanted);
        let block = is_there(&file).then(|| held(&file)).flatten()?;
        Some((record, block as u32))
    })
}

/// The sum of the Lengths of encoded blocks.
fn sum(blocks: &[[u8; BLOCK_LEN]]) -> u64 {
    blocks.iter().map(|block| u64::from(length(block))).sum()
}

/// The records of a good table, whose blocks needn't be looked at on the way.
struct Walk<'a> {
    table: &'a [u8],
    at: usize,
}

impl<'a> Walk<'a> {
    fn new(table: &'a [u8]) -> Self {
        Walk { table, at: 4 }
    }
}

impl Iterator for Walk<'_> {
    type Item = File;

    #[inline]
    fn next(&mut self) -> Option<File> {
        let &[a, b, c, d, ..] = self.table.get(self.at..)? else {
            return None;
        };
        let name = Span {
            start: self.at + 4,
            len: u32::from_be_bytes([a, b, c, d]) as usize,
        };
        let after = name.start + name.len.next_multiple_of(4);
        let (words, _) = self.table[after..][..20].as_chunks();
        let word = |number: usize| u32::from_be_bytes(words[number]);
        let (count, first_block) = (word(4), after + 20);
        self.at = first_block + count as usize * BLOCK_LEN;
        Some(File {
            end: self.at,
            name,
            flags: word(0),
            modified: (u64::from(word(1)) << 32 | u64::from(word(2))) as i64,
            version: word(3),
            blocks: count,
            first_block,
        })
    }
}
