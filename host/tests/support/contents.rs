//! Data with hashes that are known, so that a request can be answered with what it asks for.

use super::random::Random;
use crate::reference::sha256;
use std::collections::HashMap;
use std::sync::LazyLock;

/// Lengths up to three blocks of the hash, past the ends of two.
const SHORT: std::ops::RangeInclusive<usize> = 1..=140;
/// The largest, and others that a list asks for which fills the allowance.
const LONG: [usize; 4] = [131_072, 131_071, 65_536, 1];

static CONTENTS: LazyLock<Contents> = LazyLock::new(Contents::new);

struct Contents {
    short: Vec<Content>,
    long: Vec<Content>,
    /// All data, by the middle of their hashes.
    by_middle: HashMap<[u8; 16], Vec<u8>>,
}

/// The length and the hash of some data.
#[derive(Clone, Copy)]
pub struct Content {
    pub length: u32,
    pub hash: [u8; 32],
}

impl Contents {
    /// Two of each length.
    fn new() -> Self {
        let (mut random, mut by_middle) = (Random::new(0x54A2_5600), HashMap::new());
        let mut two = |length: usize| {
            let mut one = || {
                let data = random.bytes(length);
                let (length, hash) = (length as u32, sha256(&data));
                by_middle.insert(middle(&hash), data);
                Content { length, hash }
            };
            [one(), one()]
        };
        let short = SHORT.flat_map(&mut two).collect();
        let long = LONG.into_iter().flat_map(&mut two).collect();
        by_middle.insert(middle(&sha256(b"")), Vec::new());
        Contents {
            short,
            long,
            by_middle,
        }
    }
}

/// Some data to ask for.
pub fn content(random: &mut Random, large: bool) -> Content {
    match large {
        true => random.pick(&CONTENTS.long),
        // Mostly those that lie within one block.
        false if random.once_in(4) => random.pick(&CONTENTS.short),
        false => random.pick(&CONTENTS.short[..60]),
    }
}

/// The data with this hash, or with one that differs in its first or last bytes only, if they are among
/// those that can be asked for.
pub fn data_with(hash: &[u8; 32]) -> Option<&'static [u8]> {
    CONTENTS.by_middle.get(&middle(hash)).map(|data| &data[..])
}

fn middle(hash: &[u8; 32]) -> [u8; 16] {
    *hash[8..].first_chunk().expect("24 bytes follow")
}
