//! Damages messages and drafts a little, so that most of a message still gets read.

use super::draft::{Body, Draft};
use super::encode::{Encoding, Field, What};
use super::generate;
use super::names;
use super::random::Random;
use super::text;

/// Damages an encoding in one to three places.
pub fn encoding(encoding: &mut Encoding, random: &mut Random) {
    for _ in 0..random.pick(&[1, 1, 1, 2, 3]) {
        once(&mut encoding.bytes, &encoding.fields, random);
    }
}

fn once(bytes: &mut Vec<u8>, fields: &[Field], random: &mut Random) {
    if bytes.is_empty() || fields.is_empty() {
        bytes.push(0);
        return;
    }
    match random.below(16) {
        0 => bytes.truncate(random.below(bytes.len())),
        1 => {
            // Cut at the edge of a field, or a byte beside it.
            let field = random.pick(fields);
            let cut = field.at + random.pick(&[0, field.len]) + random.pick(&[0, 1]);
            bytes.truncate(cut.saturating_sub(random.below(2)));
        }
        2 => {
            let at = random.below(bytes.len());
            bytes[at] = random.word() as u8;
        }
        3 => {
            let at = random.below(bytes.len());
            match random.once_in(2) {
                true => bytes.insert(at, random.word() as u8),
                false => drop(bytes.remove(at)),
            }
        }
        4 => {
            let len = 1 + random.below(8);
            bytes.extend(random.bytes(len));
        }
        _ => {
            let field = random.pick(fields);
            // An earlier cut may have taken it away.
            if let Some(bytes) = bytes.get_mut(field.at..field.at + field.len) {
                in_field(bytes, field.what, random);
            }
        }
    }
}

/// Changes a field's bytes to others that its check may or may not let through.
fn in_field(bytes: &mut [u8], what: What, random: &mut Random) {
    let at = random.below(bytes.len());
    match what {
        What::Header => match random.below(4) {
            0 => bytes[0] ^= random.pick(&[0x10, 0x20, 0x40, 0x80]),
            1 => bytes[1] = random.word() as u8,
            2 => bytes[2] = random.pick(&[0, 1, 2, 3, 4, 5, 6, 7, 8, 9, 0x80, 0xFF]),
            _ => bytes[3] = random.pick(&[1, 2, 0x80, 0xFF]),
        },
        What::Length(limit) | What::Count(limit) => {
            let word = u32::from_be_bytes(bytes.try_into().unwrap());
            let other = random.word();
            let near = [
                word.wrapping_add(1),
                word.wrapping_sub(1),
                word.wrapping_add(4),
                word.wrapping_sub(4),
                word ^ 1 << (other % 32),
                0,
                limit,
                limit + 1,
                1 << 31,
                u32::MAX,
                u32::MAX - 3,
                other,
            ];
            bytes.copy_from_slice(&random.pick(&near).to_be_bytes());
        }
        What::Text => text::damage(bytes, random),
        What::Name => name(bytes, random),
        What::Pad => {
            // Often more than one byte, of which the first counts.
            for at in [at, random.below(bytes.len())] {
                bytes[at] = random.pick(&[1, 0x80, 0xFF]);
            }
        }
        What::Flags => {
            let word = u32::from_be_bytes(bytes.try_into().unwrap());
            let other = random.word();
            let near = [
                word | 0x1000,
                word | 0x3000,
                0x1000,
                0x3FFF,
                0x4000,
                1 << 31,
                u32::MAX,
                word ^ 1 << (other % 32),
            ];
            bytes.copy_from_slice(&random.pick(&near).to_be_bytes());
        }
        What::Free => bytes[at] = random.word() as u8,
        What::BlockLength => {
            let word = random.pick(&[0, 1, 131_072, 131_073, 1 << 17 | 1 << 16, u32::MAX]);
            bytes.copy_from_slice(&word.to_be_bytes());
        }
        What::HashLength => {
            let word = random.pick(&[0, 28, 31, 32, 33, 36, 64, 0x2000_0000, u32::MAX]);
            bytes.copy_from_slice(&u32::to_be_bytes(word));
        }
    }
}

/// Breaks the text of a name that isn't empty, or leaves it text that may or may not be a name.
fn name(bytes: &mut [u8], random: &mut Random) {
    match random.once_in(2) {
        true => text::damage(bytes, random),
        false => names::damage(bytes, random),
    }
}

/// Every cut of some bytes, every value of each of them, and some values of each word.
pub fn everywhere(whole: &[u8], mut take: impl FnMut(&[u8])) {
    for len in 0..=whole.len() {
        take(&whole[..len]);
    }
    let mut bytes = whole.to_vec();
    for at in 0..whole.len() {
        for value in 0..=255 {
            bytes[at] = value;
            take(&bytes);
        }
        bytes[at] = whole[at];
    }
    for at in (0..whole.len()).step_by(4) {
        let word = u32::from_be_bytes(whole[at..at + 4].try_into().unwrap());
        for other in [
            word.wrapping_add(1),
            word.wrapping_sub(1),
            1 << 31,
            u32::MAX,
        ] {
            bytes[at..at + 4].copy_from_slice(&other.to_be_bytes());
            take(&bytes);
        }
        bytes[at..at + 4].copy_from_slice(&whole[at..at + 4]);
    }
}

/// Damages what a writer is given: one or two fields.
pub fn draft(draft: &mut Draft, random: &mut Random) {
    for _ in 0..random.pick(&[1, 1, 2]) {
        if random.once_in(10) {
            draft.id = random.pick(&[4095, 4096, 4097, 0xFFFF, 0x1_0000, 1 << 28, u32::MAX]);
            continue;
        }
        match &mut draft.body {
            Body::Index {
                repository, files, ..
            } => match random.below(400) {
                0 => *files = too_many_files(random),
                1 => *files = too_many_blocks(random),
                2..=60 => string(repository, 64, random),
                _ => encoding(files, random),
            },
            Body::Request {
                repository,
                name,
                offset,
                length,
                hash,
            } => match random.below(6) {
                0 => string(repository, 64, random),
                1 => string(name, 255, random),
                2 => names::spoil(name, random),
                3 => *offset = random.next(),
                4 => *length = random.pick(&[0, 1, 131_072, 131_073, u32::MAX]),
                _ => hash.resize(random.pick(&[0, 28, 31, 32, 33, 36, 64, 300]), 7),
            },
            Body::Response { data } => {
                let len = match random.below(100) {
                    0 => random.pick(&[131_072, 131_073, 131_076, 140_000]),
                    _ => random.below(9),
                };
                data.resize(len, 9);
            }
            Body::Ping | Body::Pong => {
                draft.id = random.pick(&[4095, 4096, 0xFFFF, 0x1_0000, u32::MAX]);
            }
            Body::Options { options } => match random.below(100) {
                0 => *options = too_many_options(random),
                _ => encoding(options, random),
            },
        }
    }
}

/// Makes a string too long, empty, or breaks its text.
fn string(bytes: &mut Vec<u8>, limit: usize, random: &mut Random) {
    match random.below(4) {
        0 => bytes.resize(random.pick(&[limit, limit + 1, limit + 2, 4 * limit]), b'l'),
        1 => bytes.clear(),
        2 => bytes.push(random.pick(&[0x80, 0xBF, 0xC0, 0xC2, 0xEF, 0xF4, 0xF5, 0xFF])),
        _ => match bytes.is_empty() {
            true => bytes.push(0xFF),
            false => text::damage(bytes, random),
        },
    }
}

fn too_many_files(random: &mut Random) -> Encoding {
    let files: Vec<_> = (0..513).map(|_| generate::small_file(random)).collect();
    let mut encoding = Encoding::new();
    encoding.files(&files);
    encoding
}

fn too_many_blocks(random: &mut Random) -> Encoding {
    let mut file = generate::small_file(random);
    file.blocks = (0..1025).map(|_| generate::block(random)).collect();
    let mut encoding = Encoding::new();
    encoding.files(&[file]);
    encoding
}

fn too_many_options(random: &mut Random) -> Encoding {
    let options: Vec<_> = (0..65)
        .map(|_| (generate::text(random, 64), generate::text(random, 255)))
        .collect();
    let mut encoding = Encoding::new();
    encoding.options(&options);
    encoding
}
