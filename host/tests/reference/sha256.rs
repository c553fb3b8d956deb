//! SHA-256 by FIPS 180-4, written for speed: the rounds stand one after another, so that the eight words
//! stay where they are and only their names move on, and of the schedule there are sixteen words at a time.

/// The bytes of a block.
const BLOCK: usize = 64;

/// The hash of some bytes.
pub fn sha256(data: &[u8]) -> [u8; 32] {
    let mut hash = Sha256::new();
    hash.update(data);
    hash.finish()
}

/// The hash of bytes that come in runs.
#[derive(Clone, Debug, PartialEq, Eq)]
pub struct Sha256 {
    /// The hash value so far.
    pub value: [u32; 8],
    /// How many bytes have come.
    pub count: u64,
    /// Those after the last whole block, and then zeros.
    pub tail: [u8; BLOCK],
}

impl Sha256 {
    pub fn new() -> Self {
        Sha256 {
            value: INITIAL,
            count: 0,
            tail: [0; BLOCK],
        }
    }

    /// How many bytes wait for their block to be whole.
    pub fn waiting(&self) -> usize {
        (self.count % BLOCK as u64) as usize
    }

    pub fn update(&mut self, mut data: &[u8]) {
        let waiting = self.waiting();
        self.count = self.count.wrapping_add(data.len() as u64);
        if waiting > 0 {
            let room = &mut self.tail[waiting..];
            let (first, rest) = data.split_at(room.len().min(data.len()));
            room[..first.len()].copy_from_slice(first);
            if first.len() < room.len() {
                return;
            }
            compress(&mut self.value, &self.tail);
            data = rest;
        }
        let (blocks, rest) = data.as_chunks();
        for block in blocks {
            compress(&mut self.value, block);
        }
        self.tail = [0; BLOCK];
        self.tail[..rest.len()].copy_from_slice(rest);
    }

    /// The hash of all bytes so far.
    pub fn finish(&self) -> [u8; 32] {
        let (mut value, waiting) = (self.value, self.waiting());
        // A one bit, zeros, and at the end of the last block the number of bits.
        let mut last = [0; BLOCK];
        last[..waiting].copy_from_slice(&self.tail[..waiting]);
        last[waiting] = 0x80;
        if waiting >= BLOCK - 8 {
            compress(&mut value, &last);
            last = [0; BLOCK];
        }
        let bits = self.count.wrapping_mul(8);
        last[BLOCK - 8..].copy_from_slice(&bits.to_be_bytes());
        compress(&mut value, &last);
        let mut hash = [0; 32];
        for (bytes, word) in hash.as_chunks_mut().0.iter_mut().zip(value) {
            *bytes = word.to_be_bytes();
        }
        hash
    }
}

/// A round, by the eight words in the order that they have in it.
macro_rules! round {
    ($a:ident $b:ident $c:ident $d:ident $e:ident $f:ident $g:ident $h:ident, $added:expr) => {
        let sum = $e.rotate_right(6) ^ $e.rotate_right(11) ^ $e.rotate_right(25);
        let choice = $g ^ ($e & ($f ^ $g));
        let first = $h
            .wrapping_add(sum)
            .wrapping_add(choice)
            .wrapping_add($added);
        let sum = $a.rotate_right(2) ^ $a.rotate_right(13) ^ $a.rotate_right(22);
        let majority = ($a & $b) | ($c & ($a | $b));
        $d = $d.wrapping_add(first);
        $h = first.wrapping_add(sum).wrapping_add(majority);
    };
}

/// Eight rounds, after which every word has its name again, by the round's constants and words.
macro_rules! eight_rounds {
    ($a:ident $b:ident $c:ident $d:ident $e:ident $f:ident $g:ident $h:ident, $k:expr, $w:expr, $at:expr) => {
        round!($a $b $c $d $e $f $g $h, $k[$at].wrapping_add($w[$at]));
        round!($h $a $b $c $d $e $f $g, $k[$at + 1].wrapping_add($w[$at + 1]));
        round!($g $h $a $b $c $d $e $f, $k[$at + 2].wrapping_add($w[$at + 2]));
        round!($f $g $h $a $b $c $d $e, $k[$at + 3].wrapping_add($w[$at + 3]));
        round!($e $f $g $h $a $b $c $d, $k[$at + 4].wrapping_add($w[$at + 4]));
        round!($d $e $f $g $h $a $b $c, $k[$at + 5].wrapping_add($w[$at + 5]));
        round!($c $d $e $f $g $h $a $b, $k[$at + 6].wrapping_add($w[$at + 6]));
        round!($b $c $d $e $f $g $h $a, $k[$at + 7].wrapping_add($w[$at + 7]));
    };
}

fn compress(value: &mut [u32; 8], block: &[u8; BLOCK]) {
    let mut words = [0; 16];
    for (word, bytes) in words.iter_mut().zip(block.as_chunks().0) {
        *word = u32::from_be_bytes(*bytes);
    }
    let [mut a, mut b, mut c, mut d, mut e, mut f, mut g, mut h] = *value;
    let [first, others @ ..] = &CONSTANTS;
    eight_rounds!(a b c d e f g h, first, words, 0);
    eight_rounds!(a b c d e f g h, first, words, 8);
    for constants in others {
        go_on(&mut words);
        eight_rounds!(a b c d e f g h, constants, words, 0);
        eight_rounds!(a b c d e f g h, constants, words, 8);
    }
    for (word, add) in value.iter_mut().zip([a, b, c, d, e, f, g, h]) {
        *word = word.wrapping_add(add);
    }
}

/// The next sixteen words of the schedule in place of the last sixteen.
#[inline(always)]
fn go_on(words: &mut [u32; 16]) {
    for at in 0..16 {
        let (after, before) = (words[(at + 1) % 16], words[(at + 14) % 16]);
        let low = after.rotate_right(7) ^ after.rotate_right(18) ^ (after >> 3);
        let high = before.rotate_right(17) ^ before.rotate_right(19) ^ (before >> 10);
        words[at] = words[at]
            .wrapping_add(low)
            .wrapping_add(words[(at + 9) % 16])
            .wrapping_add(high);
    }
}

/// The first 32 bits of the fractional parts of the square roots of the first 8 primes.
const INITIAL: [u32; 8] = [
    0x6a09e667, 0xbb67ae85, 0x3c6ef372, 0xa54ff53a, 0x510e527f, 0x9b05688c, 0x1f83d9ab, 0x5be0cd19,
];

/// The first 32 bits of the fractional parts of the cube roots of the first 64 primes.
const CONSTANTS: [[u32; 16]; 4] = [
    [
        0x428a2f98, 0x71374491, 0xb5c0fbcf, 0xe9b5dba5, 0x3956c25b, 0x59f111f1, 0x923f82a4,
        0xab1c5ed5, 0xd807aa98, 0x12835b01, 0x243185be, 0x550c7dc3, 0x72be5d74, 0x80deb1fe,
        0x9bdc06a7, 0xc19bf174,
    ],
    [
        0xe49b69c1, 0xefbe4786, 0x0fc19dc6, 0x240ca1cc, 0x2de92c6f, 0x4a7484aa, 0x5cb0a9dc,
        0x76f988da, 0x983e5152, 0xa831c66d, 0xb00327c8, 0xbf597fc7, 0xc6e00bf3, 0xd5a79147,
        0x06ca6351, 0x14292967,
    ],
    [
        0x27b70a85, 0x2e1b2138, 0x4d2c6dfc, 0x53380d13, 0x650a7354, 0x766a0abb, 0x81c2c92e,
        0x92722c85, 0xa2bfe8a1, 0xa81a664b, 0xc24b8b70, 0xc76c51a3, 0xd192e819, 0xd6990624,
        0xf40e3585, 0x106aa070,
    ],
    [
        0x19a4c116, 0x1e376c08, 0x2748774c, 0x34b0bcb5, 0x391c0cb3, 0x4ed8aa4a, 0x5b9cca4f,
        0x682e6ff3, 0x748f82ee, 0x78a5636f, 0x84c87814, 0x8cc70208, 0x90befffa, 0xa4506ceb,
        0xbef9a3f7, 0xc67178f2,
    ],
];
