//! The text rule of the library and of the reference against the standard library's UTF-8: which strings
//! are refused, and at which byte.

mod reference;
mod support;

use fordtrumpet::{
    read, write_index, write_options, write_request, FilesBuilder, Flags, Message, Refusal, Table,
};
use std::io::Write;
use support::compare::Compared;
use support::random::Random;
use support::text::{character, damage, was_text};

const GENERATED: u64 = 10_000_000;
const SEED: u64 = 0x7E57_0000_0000_0000;

/// Where a string that isn't text is refused, counted from its length word.
type Rule = fn(&[u8]) -> Option<usize>;

/// The rules under test. Faults are planted by taking others.
const RULES: [(&str, Rule); 2] = [("the library's", library), ("the reference's", reference)];

/// By the standard library: after the length word and what is text.
fn by_std(bytes: &[u8]) -> Option<usize> {
    let error = std::str::from_utf8(bytes).err()?;
    Some(4 + error.valid_up_to())
}

fn reference(bytes: &[u8]) -> Option<usize> {
    reference::broken_at(bytes).map(|at| 4 + at)
}

/// The library's rule: as a Repository, a Key or a Value, by the string's last byte. Names keep another
/// rule besides.
fn library(text: &[u8]) -> Option<usize> {
    let mut out = [0xD7; 128];
    match text.last().map_or(0, |last| last % 4) {
        0 => {
            let (message, len) = request(text);
            let written = write_request(0, text, "n", 0, 1, &[0; 32], &mut out);
            refused(&message[..len], 4, written, &out)
        }
        1 => {
            let (message, len) = index(text);
            let written = write_index(0, text, &[0; 4], &mut out);
            refused(&message[..len], 4, written, &out)
        }
        2 => {
            let (message, len) = options(text, b"");
            let written = write_options(0, &message[4..len], &mut out);
            refused(&message[..len], 8, written, &out)
        }
        _ => {
            let (message, len) = options(b"", text);
            let written = write_options(0, &message[4..len], &mut out);
            refused(&message[..len], 12, written, &out)
        }
    }
}

/// Where a message is refused, read and written alike, counted from the length word at `place`; or none.
/// The string there must be to blame, and the lent buffer be as it was.
fn refused(
    message: &[u8],
    place: usize,
    written: Result<usize, Refusal>,
    out: &[u8; 128],
) -> Option<usize> {
    let len = message.len();
    match read(message) {
        Ok(read) => {
            let string = string(&read.message, place);
            assert_eq!((read.used, written), (len, Ok(len)), "{message:02x?}");
            assert!(message[place + 4..].starts_with(string.as_bytes()));
            assert_eq!(string.len(), usize::from(message[place + 3]));
            assert_eq!(out[..len], *message);
            None
        }
        Err(refusal) => {
            assert_eq!(refusal.number(), 7, "{message:02x?}");
            assert_eq!(written, Err(refusal), "{message:02x?}");
            assert_eq!(*out, [0xD7; 128], "{message:02x?}");
            Some(refusal.place() - place)
        }
    }
}

/// The string whose length word stands at `place`.
fn string<'a>(message: &Message<'a>, place: usize) -> &'a str {
    match message {
        Message::Request(request) => request.repository,
        Message::Index(index) => index.repository,
        Message::Options(message) => {
            let option = message.options.iter().next().unwrap();
            match place {
                8 => option.key,
                _ => option.value,
            }
        }
        other => panic!("{other:?}"),
    }
}

/// A Request with this Repository, whatever it is, and its length.
fn request(repository: &[u8]) -> ([u8; 128], usize) {
    let mut message = [0; 128];
    message[2] = 2;
    let end = put(&mut message, 4, repository);
    let end = put(&mut message, end, b"n");
    // Offset 0, Length 1, and a hash of zeros.
    message[end + 11] = 1;
    message[end + 15] = 32;
    (message, end + 48)
}

/// An Index with this Repository, whatever it is, and no files; and its length.
fn index(repository: &[u8]) -> ([u8; 128], usize) {
    let mut message = [0; 128];
    message[2] = 1;
    let end = put(&mut message, 4, repository);
    (message, end + 4)
}

/// An Options message with one option, whose Key and Value are these, and its length.
fn options(key: &[u8], value: &[u8]) -> ([u8; 128], usize) {
    let mut message = [0; 128];
    message[2] = 7;
    message[7] = 1;
    let end = put(&mut message, 8, key);
    let end = put(&mut message, end, value);
    (message, end)
}

/// Puts a string at a place and gives the place past it.
fn put(message: &mut [u8; 128], at: usize, string: &[u8]) -> usize {
    message[at + 3] = string.len() as u8;
    message[at + 4..][..string.len()].copy_from_slice(string);
    at + 4 + string.len().next_multiple_of(4)
}

/// Compares rules and counts.
struct Comparison<'a> {
    rules: &'a [(&'a str, Rule)],
    /// How many strings were compared, and how many of them are text.
    compared: u64,
    texts: u64,
}

impl<'a> Comparison<'a> {
    fn new(rules: &'a [(&'a str, Rule)]) -> Self {
        Comparison {
            rules,
            compared: 0,
            texts: 0,
        }
    }

    fn compare(&mut self, bytes: &[u8]) -> Compared {
        let expected = by_std(bytes);
        for (whose, rule) in self.rules {
            let place = rule(bytes);
            if place != expected {
                return Err(format!(
                    "{whose} on {bytes:02x?}: {place:?}, not {expected:?}"
                ));
            }
        }
        self.compared += 1;
        self.texts += u64::from(expected.is_none());
        Ok(())
    }

    /// Every string of one, two and three bytes.
    fn short(&mut self) -> Compared {
        for first in 0..=255 {
            self.compare(&[first])?;
            for second in 0..=255 {
                self.compare(&[first, second])?;
                for third in 0..=255 {
                    self.compare(&[first, second, third])?;
                }
            }
        }
        Ok(())
    }

    /// Strings of four bytes: every lead from F0 on, every second byte, and others at the edges of what
    /// may follow.
    fn four(&mut self) -> Compared {
        let edges = [0x00, 0x7F, 0x80, 0x8F, 0x90, 0x9F, 0xA0, 0xBF, 0xC0, 0xFF];
        for lead in 0xF0..=0xFF {
            for second in 0..=255 {
                for third in edges {
                    for fourth in edges {
                        self.compare(&[lead, second, third, fourth])?;
                    }
                }
            }
        }
        Ok(())
    }

    /// Strings of up to 64 bytes: characters of each length, and most strings broken.
    fn generated(&mut self, count: u64) -> Compared {
        let mut random = Random::new(SEED);
        let mut characters = ['x'; 256];
        let mut bytes = [0; 64];
        for number in 0..count {
            if number.is_multiple_of(1024) {
                characters.fill_with(|| character(&mut random));
            }
            let mut len = fill(&mut bytes, &characters, &mut random);
            if !random.once_in(4) {
                len = break_up(&mut bytes[..len], &mut random);
            }
            self.compare(&bytes[..len])?;
        }
        Ok(())
    }
}

/// Fills the start of a buffer with some of these characters and gives how many bytes they take.
fn fill(bytes: &mut [u8; 64], characters: &[char; 256], random: &mut Random) -> usize {
    // The last character may take four.
    let most = random.pick(&[8, 24, 61]);
    let limit = 1 + random.below(most);
    // Of some strings most characters are plain, so that there are long runs of ASCII.
    let plain = random.pick(&[0, 0x03, 0x1F]);
    let mut len = 0;
    while len < limit {
        for choice in random.next().to_le_bytes() {
            let character = match choice & plain {
                0 => characters[usize::from(choice)],
                _ => 'x',
            };
            if len < limit {
                len += character.encode_utf8(&mut bytes[len..]).len();
            }
        }
    }
    len
}

/// Changes some bytes of a string or takes some away, and gives its length then.
fn break_up(bytes: &mut [u8], random: &mut Random) -> usize {
    let (len, at) = (bytes.len(), random.below(bytes.len()));
    match random.below(4) {
        0 if at > 0 => return at,
        1 if len > 1 => {
            bytes.copy_within(at + 1.., at);
            return len - 1;
        }
        2 => damage(bytes, random),
        _ => {}
    }
    damage(bytes, random);
    len
}

/// Says something even when the test passes.
fn say(comparison: &Comparison, what: &str) {
    let Comparison {
        compared, texts, ..
    } = comparison;
    let text = format!("{compared} {what}, {texts} of them text: no difference");
    let _ = writeln!(std::io::stderr(), "{text}");
}

#[test]
fn every_short_string_is_text_where_it_is_utf8() {
    let mut comparison = Comparison::new(&RULES);
    comparison.short().unwrap();
    say(&comparison, "strings of one to three bytes");
    assert_eq!(comparison.compared, 256 + 65_536 + 16_777_216);
    // Characters of one, two and three bytes, put together in every way that takes three at most.
    let (one, two, three) = (0x80, 0x800 - 0x80, 0x1_0000 - 0x800 - 0x800);
    let texts = one + (one * one + two) + (one * one * one + 2 * one * two + three);
    assert_eq!(comparison.texts, texts);
}

#[test]
fn strings_of_four_bytes_are_text_where_they_are_utf8() {
    let mut comparison = Comparison::new(&RULES);
    comparison.four().unwrap();
    say(&comparison, "strings of four bytes");
    assert_eq!(comparison.compared, 16 * 256 * 100);
    // Second bytes 90 to BF after F0, 80 to BF after F1 to F3, 80 to 8F after F4; six others follow.
    assert_eq!(comparison.texts, (48 + 3 * 64 + 16) * 6 * 6);
}

#[test]
fn generated_strings_are_text_where_they_are_utf8() {
    let mut comparison = Comparison::new(&RULES);
    comparison.generated(GENERATED).unwrap();
    say(&comparison, "generated strings");
    let quarter = GENERATED / 4;
    assert!((quarter..3 * quarter).contains(&comparison.texts));
}

#[test]
fn a_difference_is_found() {
    /// The rule, but what breaks it passes where it is let through.
    fn but(bytes: &[u8], let_through: bool) -> Option<usize> {
        by_std(bytes).filter(|_| !let_through)
    }
    // Which of the three sets of strings find it.
    let faults: [(&str, Rule, [bool; 3]); 10] = [
        ("none", by_std, [false; 3]),
        (
            "the rule before RFC 3629",
            |bytes| but(bytes, was_text(bytes)),
            [true; 3],
        ),
        (
            "a surrogate passes",
            |bytes| but(bytes, bytes.ends_with(b"\xED\xA0\x80")),
            [true; 3],
        ),
        (
            "the first above Unicode passes",
            |bytes| but(bytes, bytes.ends_with(b"\xF4\x90\x80\x80")),
            [false, true, true],
        ),
        (
            "the last of Unicode is refused",
            |bytes| match bytes.strip_suffix("\u{10FFFF}".as_bytes()) {
                Some(before) => by_std(bytes).or(Some(4 + before.len())),
                None => by_std(bytes),
            },
            [false, true, true],
        ),
        (
            "only 32 bytes are looked at",
            |bytes| but(bytes, bytes.len() > 32),
            [false, false, true],
        ),
        (
            "the place is the length word",
            |bytes| by_std(bytes).map(|_| 0),
            [true; 3],
        ),
        (
            "the place is that of what can't follow",
            |bytes| {
                let error = std::str::from_utf8(bytes).err()?;
                let at = error.valid_up_to();
                match (bytes[at], error.error_len()) {
                    (0xC2..=0xF4, Some(len)) => Some(4 + at + len),
                    _ => Some(4 + at),
                }
            },
            [true; 3],
        ),
        (
            "the place of a sequence that is cut off is the end",
            |bytes| {
                let error = std::str::from_utf8(bytes).err()?;
                match error.error_len() {
                    Some(_) => by_std(bytes),
                    None => Some(4 + bytes.len()),
                }
            },
            // Sequences of four bytes are whole in strings of four.
            [true, false, true],
        ),
        (
            "the place is that of the last broken sequence",
            |bytes| {
                let mut broken = None;
                let mut at = 4;
                for chunk in bytes.utf8_chunks() {
                    at += chunk.valid().len();
                    if !chunk.invalid().is_empty() {
                        broken = Some(at);
                    }
                    at += chunk.invalid().len();
                }
                broken
            },
            [true; 3],
        ),
    ];
    for (fault, rule, expected) in faults {
        let rules = [(fault, rule)];
        let found = [
            Comparison::new(&rules).short(),
            Comparison::new(&rules).four(),
            Comparison::new(&rules).generated(100_000),
        ];
        assert_eq!(found.map(|compared| compared.is_err()), expected, "{fault}");
    }
}

/// Writes a Request for the file with this name.
fn written(name: impl AsRef<[u8]>) -> Vec<u8> {
    let mut out = [0; 128];
    let len = write_request(0, "default", name, 0, 1, &[0; 32], &mut out).unwrap();
    out[..len].to_vec()
}

#[test]
fn a_string_is_given_as_text_or_as_bytes() {
    let name = "gr\u{FC}n".to_string();
    let bytes = name.as_bytes();
    let expected = written("gr\u{FC}n");
    assert_eq!(written(b"gr\xC3\xBCn"), expected);
    assert_eq!(written(bytes), expected);
    assert_eq!(written(&name), expected);
    assert_eq!(written(Vec::from(bytes)), expected);

    let (mut files, mut again) = (FilesBuilder::new(), FilesBuilder::new());
    files.push(&name, Flags(0), 0, 0, []);
    again.push(bytes, Flags(0), 0, 0, []);
    assert_eq!(files.as_bytes(), again.as_bytes());
    let table = Table::new(files.as_bytes()).unwrap();
    assert_eq!(table.find(&name), table.find(bytes));
    assert_eq!(table.find(&name).unwrap().1.name, name);
}
