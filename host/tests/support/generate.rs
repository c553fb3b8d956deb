//! Makes valid messages of every type.

use super::draft::{Body, Draft};
use super::encode::{Block, Encoding, File};
use super::names::mend;
use super::random::Random;
use super::text::character;
use crate::reference::Edition;

/// A message that keeps all rules. Most are short; limits are met now and then.
pub fn draft(random: &mut Random) -> Draft {
    let id = match random.below(4) {
        0 => random.pick(&[0, 1, 4094, 4095]),
        _ => random.word() % 4096,
    };
    let body = match random.below(16) {
        0..=5 => Body::Index {
            update: random.once_in(2),
            repository: text(random, 64),
            files: files(random),
        },
        6..=8 => Body::Request {
            repository: text(random, 64),
            name: name(random),
            offset: random.pick(&[0, 1, 131_072, 1 << 32, u64::MAX]),
            length: block_length(random),
            hash: random.bytes(32),
        },
        9..=10 => Body::Response { data: data(random) },
        11 => Body::Ping,
        12 => Body::Pong,
        _ => Body::Options {
            options: options(random),
        },
    };
    Draft::new(id, body)
}

fn files(random: &mut Random) -> Encoding {
    let count = match random.below(600) {
        0 => random.pick(&[511, 512]),
        1..=20 => random.below(40),
        _ => random.below(5),
    };
    let mut files: Vec<File> = Vec::with_capacity(count);
    for _ in 0..count {
        let mut file = match count {
            0..40 => file(random),
            _ => small_file(random),
        };
        if random.once_in(8) {
            if let Some(earlier) = files.last() {
                file.name.clone_from(&earlier.name);
            }
        }
        files.push(file);
    }
    let mut encoding = Encoding::new();
    encoding.files(&files);
    encoding
}

fn file(random: &mut Random) -> File {
    let count = match random.below(2000) {
        0 => random.pick(&[1023, 1024]),
        1..=40 => random.below(30),
        _ => random.below(4),
    };
    File {
        name: name(random),
        blocks: (0..count).map(|_| block(random)).collect(),
        ..small_file(random)
    }
    .with_honest_flags()
}

/// A file with a short name and no blocks.
pub fn small_file(random: &mut Random) -> File {
    File {
        name: vec![b'a' + random.below(26) as u8, b'a' + random.below(26) as u8],
        flags: match random.below(8) {
            0 => random.pick(&[0, 0xFFF, 0x1000, 0x2000, 0x3000, 0x3FFF]),
            1 => random.word() & 0x3FFF,
            _ => 0o644,
        },
        modified: match random.below(4) {
            0 => random.pick(&[0, 1, -1, i64::MIN, i64::MAX]),
            _ => random.next() as i64,
        },
        version: match random.below(4) {
            0 => random.pick(&[0, 1, u32::MAX]),
            _ => random.word(),
        },
        blocks: Vec::new(),
    }
}

impl File {
    /// Clears D on a file with blocks.
    fn with_honest_flags(mut self) -> Self {
        if !self.blocks.is_empty() {
            self.flags &= !0x1000;
        }
        self
    }
}

pub fn block(random: &mut Random) -> Block {
    let mut hash = [0; 32];
    random.fill(&mut hash);
    Block {
        length: block_length(random),
        hash,
    }
}

fn block_length(random: &mut Random) -> u32 {
    match random.below(4) {
        0 => random.pick(&[1, 2, 131_071, 131_072]),
        _ => 1 + random.word() % 131_072,
    }
}

fn data(random: &mut Random) -> Vec<u8> {
    let len = match random.below(200) {
        0 => random.pick(&[131_071, 131_072]),
        1..=10 => random.below(5000),
        _ => random.below(40),
    };
    random.bytes(len)
}

fn options(random: &mut Random) -> Encoding {
    let count = match random.below(100) {
        0 => random.pick(&[63, 64]),
        _ => random.below(5),
    };
    let options: Vec<_> = (0..count)
        .map(|_| (text(random, 64), text(random, 255)))
        .collect();
    let mut encoding = Encoding::new();
    encoding.options(&options);
    encoding
}

/// A name that keeps all rules.
pub fn name(random: &mut Random) -> Vec<u8> {
    let mut name = text(random, 255);
    if name.is_empty() {
        name.push(b'a' + random.below(4) as u8);
    }
    mend(&mut name);
    name
}

/// A string of at most `limit` bytes that follows the text rule, in ASCII or with other characters.
pub fn text(random: &mut Random, limit: usize) -> Vec<u8> {
    let len = match random.below(16) {
        0 => random.pick(&[limit, limit - 1, limit - 2, limit - 3]),
        1 => random.below(limit + 1),
        _ => random.below(10),
    };
    let plain = random.once_in(2);
    let mut text = String::with_capacity(len);
    while text.len() < len {
        let character = character(random);
        let fits = character.len_utf8() <= len - text.len();
        match character.is_ascii() || fits && !plain {
            true => text.push(character),
            false => text.push('-'),
        }
    }
    text.into_bytes()
}

/// A short message of each type and edition with every kind of field in it.
pub fn short_messages() -> Vec<Draft> {
    let block = |length| Block {
        length,
        hash: [0x20; 32],
    };
    let file = |name: &[u8], flags, blocks| File {
        name: name.to_vec(),
        flags,
        modified: -5,
        version: 3,
        blocks,
    };
    let mut files = Encoding::new();
    files.files(&[
        file("bé".as_bytes(), 0o644, vec![block(1), block(131_072)]),
        file(b"a/.b", 0x3000, vec![]),
    ]);
    let mut options = Encoding::new();
    options.options(&[
        (b"clientId".to_vec(), b"x".to_vec()),
        ("ключ".as_bytes().to_vec(), vec![]),
    ]);
    let bodies = [
        Body::Index {
            update: false,
            repository: b"r".to_vec(),
            files: files.clone(),
        },
        Body::Index {
            update: true,
            repository: vec![],
            files,
        },
        Body::Request {
            repository: b"re".to_vec(),
            name: b"\xE2\x82\xAC\xF0\x9F\x98\x80".to_vec(),
            offset: 131_072,
            length: 5,
            hash: vec![0x20; 32],
        },
        Body::Response {
            data: b"12345".to_vec(),
        },
        Body::Ping,
        Body::Pong,
        Body::Options { options },
    ];
    let new = bodies.map(|body| Draft::new(0x0ABC, body));
    // All but the last, Options, are in the old edition too.
    let old = new[..6].iter().cloned().map(|draft| Draft {
        edition: Edition::Old,
        ..draft
    });
    new.iter().cloned().chain(old).collect()
}
