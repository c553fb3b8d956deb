//! Makes five tables whose names, hashes and records are easily taken for each other.

use super::encode::{Block, File};
use super::generate::block;
use super::random::Random;
use super::tables::sorted;
use std::ops::Range;

/// What the blocks of some tables have in common.
struct Kind {
    hash: [u8; 32],
    /// The bytes of a hash that differ.
    differ: Range<usize>,
    lengths: Vec<u32>,
}

impl Kind {
    fn new(random: &mut Random) -> Self {
        let differ = [0..32, 0..28, 0..24, 31..32, 28..32, 24..32, 0..1, 0..4];
        Kind {
            hash: block(random).hash,
            differ: random.pick_from(&differ).clone(),
            lengths: match random.below(4) {
                0 => vec![131_072],
                1 => vec![1, 2, 3],
                2 => vec![1, 131_071, 131_072],
                _ => (0..8).map(|_| block(random).length).collect(),
            },
        }
    }

    fn block(&self, random: &mut Random) -> Block {
        let mut hash = self.hash;
        random.fill(&mut hash[self.differ.clone()]);
        Block {
            length: random.pick(&self.lengths),
            hash,
        }
    }

    /// Some blocks. Now and then one has the hash of the one before, and another Length or the same.
    fn blocks(&self, random: &mut Random, count: usize) -> Vec<Block> {
        let mut blocks: Vec<Block> = (0..count).map(|_| self.block(random)).collect();
        for i in 1..count {
            if random.once_in(8) {
                blocks[i].hash = blocks[i - 1].hash;
            }
        }
        blocks
    }
}

/// The records of five tables, those of the local one first. Most are short, few are full.
pub fn five(random: &mut Random) -> [Vec<File>; 5] {
    let kind = Kind::new(random);
    // A table has room for 1,632 blocks and seven names.
    let size = match random.below(1000) {
        0 => 1632,
        1..=30 => 30 + random.below(300),
        _ => random.below(30),
    };
    // Two names at least, as a record has no more than 1,024 blocks.
    let count = 2 + random.below(6);
    let different = 1 + random.below(size + 1);
    let stock = kind.blocks(random, different);
    let files: Vec<File> = names(random, count)
        .into_iter()
        .map(|name| File {
            name,
            flags: 0o644,
            modified: 0,
            version: 0,
            blocks: (0..size / count).map(|_| random.pick(&stock)).collect(),
        })
        .collect();
    std::array::from_fn(|table| {
        // Of the local blocks all, some or none are taken from the stock.
        let strange = match table {
            0 => random.pick(&[0, 1, 2]),
            _ => 0,
        };
        let mut changed = Vec::new();
        for file in &files {
            let Some(mut file) = version_of(random, file, &stock) else {
                continue;
            };
            for block in &mut file.blocks {
                if strange > random.below(2) {
                    *block = kind.block(random);
                }
            }
            changed.push(file);
        }
        sorted(changed)
    })
}

/// Names that are prefixes of each other.
fn names(random: &mut Random, count: usize) -> Vec<Vec<u8>> {
    let text: Vec<u8> = (0..count).map(|_| random.pick(b"ab\x01")).collect();
    (1..=count).map(|len| text[..len].to_vec()).collect()
}

/// A version of a record, or none.
fn version_of(random: &mut Random, file: &File, stock: &[Block]) -> Option<File> {
    let mut file = file.clone();
    if random.once_in(4) {
        // The same record as in other tables.
        return Some(file);
    }
    file.modified = random.pick(&[0, 0, 0, 1, -1]);
    file.version = random.pick(&[0, 0, 1, 2]);
    let count = file.blocks.len();
    match random.below(10) {
        0 => return None,
        1 => {
            file.flags |= 0x1000;
            file.blocks.clear();
        }
        2 => file.flags |= 0x2000,
        3 => file.blocks.reverse(),
        4 => file.blocks.rotate_left(count / 2),
        5 => file.blocks.truncate(random.below(count + 1)),
        6 => cut_otherwise(random, &mut file.blocks),
        7 => {
            for _ in 0..count.div_ceil(8) {
                file.blocks[random.below(count)] = random.pick(stock);
            }
        }
        8 => {
            for block in &mut file.blocks {
                *block = random.pick(stock);
            }
        }
        _ => {}
    }
    Some(file)
}

/// Joins blocks and cuts others in two, so that offsets part and meet again.
fn cut_otherwise(random: &mut Random, blocks: &mut Vec<Block>) {
    let count = blocks.len();
    let mut i = 0;
    while i < blocks.len() {
        let Block { length, hash } = blocks[i];
        let joined = length + blocks.get(i + 1).map_or(0, |next| next.length);
        match random.below(4) {
            0 if joined <= 131_072 => {
                blocks[i].length = joined;
                blocks.drain(i + 1..blocks.len().min(i + 2));
            }
            1 if length > 1 => {
                let first = 1 + random.below(length as usize - 1) as u32;
                blocks[i].length = first;
                let rest = length - first;
                blocks.insert(i + 1, Block { length: rest, hash });
                i += 1;
            }
            _ => {}
        }
        i += 1;
    }
    blocks.truncate(count);
}
