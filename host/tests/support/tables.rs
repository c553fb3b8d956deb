//! Makes tables that share names, whole and damaged.

use super::damage;
use super::encode::{Block, Encoding, File};
use super::generate::{block, draft, name, small_file};
use super::names::spoil;
use super::random::Random;
use std::collections::BTreeMap;

/// What some tables have in common: names, and records that may stand in several of them.
pub struct Pool {
    names: Vec<Vec<u8>>,
    blocks: Vec<Block>,
}

impl Pool {
    pub fn new(random: &mut Random) -> Self {
        let count = 1 + random.below(8);
        let mut names: Vec<_> = (0..count).map(|_| name(random)).collect();
        // A name and one that it is a proper prefix of.
        let mut longer = random.pick_from(&names).clone();
        longer.push(random.pick(&[1, b'a', b'z']));
        longer.truncate(255);
        names.push(longer);
        Pool {
            names,
            blocks: (0..4).map(|_| block(random)).collect(),
        }
    }

    pub fn name(&self, random: &mut Random) -> Vec<u8> {
        random.pick_from(&self.names).clone()
    }

    pub fn block(&self, random: &mut Random) -> Block {
        random.pick(&self.blocks)
    }

    /// A record of some name. Times and versions tie often.
    pub fn file(&self, random: &mut Random) -> File {
        let count = random.pick(&[0, 0, 1, 1, 2, 3]);
        let mut file = File {
            name: self.name(random),
            modified: random.pick(&[0, 0, 1, -1, i64::MIN, i64::MAX]),
            version: random.pick(&[0, 0, 1, u32::MAX]),
            blocks: (0..count).map(|_| self.block(random)).collect(),
            ..small_file(random)
        };
        if random.once_in(2) {
            file.flags = 0o644;
        }
        if !file.blocks.is_empty() {
            file.flags &= !0x1000;
        }
        file
    }

    /// The records of a good table.
    pub fn files(&self, random: &mut Random) -> Vec<File> {
        let count = random.below(7);
        sorted((0..count).map(|_| self.file(random)))
    }

    /// A table, good three times in four.
    pub fn table(&self, random: &mut Random) -> Vec<u8> {
        let mut files = self.files(random);
        match random.below(20) {
            0 if files.len() > 1 => {
                // Names that don't rise.
                let at = random.below(files.len() - 1);
                match random.once_in(2) {
                    true => files.swap(at, at + 1),
                    false => files[at].name = files[at + 1].name.clone(),
                }
            }
            1 if !files.is_empty() => {
                // Names that rise, but one of them is no plain path.
                let at = random.below(files.len());
                spoil(&mut files[at].name, random);
                files = sorted(files);
            }
            _ => {}
        }
        let mut table = Encoding::new();
        table.files(&files);
        match random.below(8) {
            0 => damage::encoding(&mut table, random),
            1 if random.once_in(4) => table.bytes.push(0),
            _ => {}
        }
        table.bytes
    }
}

impl Pool {
    /// The records of a message: in any order, and a name may stand twice.
    fn sent(&self, random: &mut Random) -> Vec<File> {
        let mut files = self.files(random);
        match random.below(6) {
            0 => files.reverse(),
            1 => {
                let twice = self.file(random);
                let at = random.below(files.len() + 1);
                files.insert(at, twice.clone());
                let at = random.below(files.len() + 1);
                files.insert(at, twice);
            }
            2 => files = (0..random.below(5)).map(|_| self.file(random)).collect(),
            3 if files.len() > 1 => {
                let (i, j) = (random.below(files.len()), random.below(files.len()));
                files.swap(i, j);
            }
            _ => {}
        }
        files
    }

    /// An Index or an IndexUpdate of a repository, now and then damaged or of another type.
    pub fn message(&self, repository: &[u8], random: &mut Random) -> Vec<u8> {
        let mut message = Encoding::new();
        match random.below(12) {
            0 => message = draft(random).encode(),
            _ => {
                let (kind, id) = (random.pick(&[1, 6]), random.word() % 4096);
                let files = self.sent(random);
                message
                    .header(kind, id)
                    .string(repository, 64)
                    .files(&files);
            }
        }
        if random.once_in(8) {
            damage::encoding(&mut message, random);
        }
        message.bytes
    }
}

/// Records with rising names: of one name the last.
pub fn sorted(files: impl IntoIterator<Item = File>) -> Vec<File> {
    let by_name: BTreeMap<_, _> = files
        .into_iter()
        .map(|file| (file.name.clone(), file))
        .collect();
    by_name.into_values().collect()
}

/// The bytes of a table.
pub fn encode(files: &[File]) -> Vec<u8> {
    let mut table = Encoding::new();
    table.files(files);
    table.bytes
}

/// A table near the limits: `count` records, or that many bytes.
pub fn full(random: &mut Random, first: usize, count: usize, bytes: usize) -> Vec<u8> {
    let mut files: Vec<_> = (first..first + count)
        .map(|number| File {
            name: format!("name {number:06}").into_bytes(),
            ..small_file(random)
        })
        .collect();
    let len = encode(&files).len();
    // Blocks for the rest, so far as records without them allow.
    let blocks = bytes.saturating_sub(len) / 40;
    for file in files.iter_mut().take(blocks.div_ceil(1000)) {
        file.flags = 0o644;
        file.blocks = vec![];
    }
    for number in 0..blocks {
        files[number / 1000].blocks.push(block(random));
    }
    let mut table = encode(&files);
    // A longer name for what is left of the bytes.
    let left = bytes.saturating_sub(table.len());
    if left > 0 && left < 200 && left.is_multiple_of(4) {
        files[0].name.extend(vec![b'a'; left]);
        table = encode(&files);
    }
    table
}
