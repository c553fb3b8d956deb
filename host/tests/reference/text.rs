//! The text rule: strings are UTF-8, by the grammar of RFC 3629.

/// Where the first sequence that breaks the rule begins, or none in a text.
///
/// A text is a run of sequences, each a lead byte and its followers. After E0 and F0 fewer bytes may
/// follow, which shuts out overlong forms; after ED, which shuts out surrogates; and after F4, which shuts
/// out what lies above Unicode. A byte that can't lead is a broken sequence, and so is a lead whose
/// followers the end cuts off.
pub fn broken_at(bytes: &[u8]) -> Option<usize> {
    // Nearly all names are ASCII, and that is checked many bytes at a time.
    if bytes.is_ascii() {
        return None;
    }
    let mut rest = bytes;
    while let [lead, after @ ..] = rest {
        rest = match (lead, after) {
            (0x00..=0x7F, rest)
            | (0xC2..=0xDF, [0x80..=0xBF, rest @ ..])
            | (0xE0, [0xA0..=0xBF, 0x80..=0xBF, rest @ ..])
            | (0xE1..=0xEC | 0xEE..=0xEF, [0x80..=0xBF, 0x80..=0xBF, rest @ ..])
            | (0xED, [0x80..=0x9F, 0x80..=0xBF, rest @ ..])
            | (0xF0, [0x90..=0xBF, 0x80..=0xBF, 0x80..=0xBF, rest @ ..])
            | (0xF1..=0xF3, [0x80..=0xBF, 0x80..=0xBF, 0x80..=0xBF, rest @ ..])
            | (0xF4, [0x80..=0x8F, 0x80..=0xBF, 0x80..=0xBF, rest @ ..]) => rest,
            _ => return Some(bytes.len() - rest.len()),
        };
    }
    None
}
