//! Names for tests: what makes a text a plain path, and what makes a name none.

use super::random::Random;

/// Makes a text that isn't empty a name that passes, of the same length.
pub fn mend(text: &mut [u8]) {
    let mut part_begins = true;
    for byte in text.iter_mut() {
        if *byte == 0 || *byte == b'/' && part_begins {
            *byte = b'-';
        }
        part_begins = *byte == b'/';
    }
    if let Some(last @ b'/') = text.last_mut() {
        *last = b'-';
    }
    for part in text.split_mut(|&byte| byte == b'/') {
        if matches!(&*part, b"." | b"..") {
            part.fill(b'-');
        }
    }
}

/// Parts that are refused, and such as look like them.
const ODD: [&[u8]; 10] = [
    b"", b"", b".", b"..", b"\0", b"...", b".a", b"a.", b"..a", b".\x01",
];

/// Changes a name that isn't empty to another of the same length, which may or may not pass: some part of
/// it is an odd one.
pub fn damage(name: &mut [u8], random: &mut Random) {
    let odd = random.pick(&ODD);
    let len = odd.len().min(name.len());
    let any = random.below(name.len() - len + 1);
    let at = random.pick(&[0, any, name.len() - len]);
    name[at..at + len].copy_from_slice(&odd[..len]);
    if at > 0 {
        name[at - 1] = b'/';
    }
    if let Some(after) = name.get_mut(at + len) {
        *after = b'/';
    }
}

/// What makes a name one that is refused, put before it or after it.
const AROUND: [(&[u8], &[u8]); 10] = [
    (b"/", b""),
    (b"", b"/"),
    (b"./", b""),
    (b"../", b""),
    (b"", b"/."),
    (b"", b"/.."),
    (b"a//", b""),
    (b"", b"/../a"),
    (b"\0", b""),
    (b"", b"\0"),
];

/// Makes a name that passes, or none, one that is refused with 24.
pub fn spoil(name: &mut Vec<u8>, random: &mut Random) {
    let (before, after) = random.pick(&AROUND);
    if before.len() + name.len() + after.len() > 255 {
        name.clear();
    }
    name.splice(..0, before.iter().copied());
    name.extend_from_slice(after);
}
