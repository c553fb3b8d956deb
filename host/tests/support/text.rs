//! Text for tests: characters of each length, what breaks UTF-8, and the rule before RFC 3629.

use super::random::Random;

/// A character, ASCII more often than not. Those beyond are often the first or last of their range.
pub fn character(random: &mut Random) -> char {
    match random.below(8) {
        1 => near(random, &[0x80, 0xBF, 0x7C0, 0x7FF], 0x80..0x800),
        2 => near(
            random,
            // With those on both sides of the surrogates.
            &[0x800, 0xFFF, 0x1000, 0xCFFF, 0xD000, 0xD7FF, 0xE000, 0xFFFF],
            0x800..0x1_0000,
        ),
        3 => near(
            random,
            &[0x1_0000, 0x3_FFFF, 0x4_0000, 0xF_FFFF, 0x10_0000, 0x10_FFFF],
            0x1_0000..0x11_0000,
        ),
        4 => random.pick(&['\0', '/', '.', '\x7F']),
        _ => char::from(b'a' + random.below(26) as u8),
    }
}

/// One of the edges, or any of the range.
fn near(random: &mut Random, edges: &[u32], range: std::ops::Range<u32>) -> char {
    let any = range.start + random.word() % (range.end - range.start);
    let code = match random.once_in(2) {
        true => random.pick(edges),
        false => any,
    };
    // A surrogate is no character.
    char::from_u32(code).unwrap_or(char::REPLACEMENT_CHARACTER)
}

/// The first and last bytes of the ranges that leads and followers have.
const EDGES: [u8; 24] = [
    0x00, 0x7F, 0x80, 0x8F, 0x90, 0x9F, 0xA0, 0xBF, 0xC0, 0xC1, 0xC2, 0xDF, 0xE0, 0xE1, 0xEC, 0xED,
    0xEE, 0xEF, 0xF0, 0xF1, 0xF4, 0xF5, 0xF7, 0xFF,
];

/// Leads with as many followers as they ask for, which UTF-8 shuts out all the same: overlong forms,
/// surrogates, and what lies above Unicode.
const SHUT_OUT: [&[u8]; 14] = [
    b"\xC0\x80",
    b"\xC0\xAF",
    b"\xC1\xBF",
    b"\xE0\x80\x80",
    b"\xE0\x9F\xBF",
    b"\xED\xA0\x80",
    b"\xED\xBF\xBF",
    b"\xF0\x80\x80\x80",
    b"\xF0\x8F\xBF\xBF",
    b"\xF4\x90\x80\x80",
    b"\xF4\xBF\xBF\xBF",
    b"\xF5\x80\x80\x80",
    b"\xF7\xBF\xBF\xBF",
    b"\xF8\x80\x80\x80",
];

/// Changes a text that isn't empty to another, which may or may not be text.
pub fn damage(bytes: &mut [u8], random: &mut Random) {
    let at = random.below(bytes.len());
    // A lead byte at the end of the string lacks its followers.
    let near_last = (bytes.len() - 1).saturating_sub(random.below(4));
    let rest = &mut bytes[random.pick(&[at, near_last])..];
    match random.below(3) {
        0 => {
            let sequence = random.pick(&SHUT_OUT);
            let len = sequence.len().min(rest.len());
            rest[..len].copy_from_slice(&sequence[..len]);
        }
        _ => rest[0] = random.pick(&EDGES),
    }
}

/// Document 01's rule, which was wider: a fault to be found.
pub fn was_text(bytes: &[u8]) -> bool {
    let mut rest = bytes;
    loop {
        rest = match rest {
            [] => return true,
            [0x00..=0x7F, rest @ ..]
            | [0xC0..=0xDF, 0x80..=0xBF, rest @ ..]
            | [0xE0..=0xEF, 0x80..=0xBF, 0x80..=0xBF, rest @ ..]
            | [0xF0..=0xF7, 0x80..=0xBF, 0x80..=0xBF, 0x80..=0xBF, rest @ ..] => rest,
            _ => return false,
        };
    }
}
