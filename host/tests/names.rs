//! The rule of names of the library and of the reference against the standard library's paths.

mod reference;
mod support;

use fordtrumpet::{raw, Refusal, Serving, Table, TableBuf};
use std::collections::BTreeMap;
use std::io::Write;
use std::path::{Component, Path, PathBuf};
use support::compare::Compared;
use support::encode::{Encoding, File};
use support::generate::name;
use support::names::spoil;
use support::random::Random;
use support::tables::encode;
use support::text::{character, damage};

const GENERATED: u64 = 2_000_000;
const SEED: u64 = 0x4A3E_0000_0000_0000;

/// The number that a name of at most 255 bytes is refused with, or 0.
type Rule = fn(&[u8]) -> u32;

/// The rules under test. Faults are planted by taking others.
const RULES: [(&str, Rule); 2] = [("the library's", library), ("the reference's", reference)];

/// By the standard library: UTF-8, not empty, and a path whose components are all names and, put
/// together, are the path again. Going through components it passes over doubled slashes, one at the end
/// and `.` in the middle.
fn by_std(name: &[u8]) -> u32 {
    let Ok(text) = std::str::from_utf8(name) else {
        return 7;
    };
    if text.is_empty() {
        return 8;
    }
    let mut components = Path::new(text).components();
    let again: PathBuf = components.clone().collect();
    let normal = components.all(|component| matches!(component, Component::Normal(_)));
    match normal && again.as_os_str() == text && !text.contains('\0') {
        true => 0,
        false => 24,
    }
}

/// A number and a place, or 0 and a number of bytes.
type Answer = (u32, usize);

/// The calls of one side. The writers are given a Name, or an array with one, and for the rest what is
/// shortest.
struct Side {
    read: fn(&[u8]) -> Answer,
    write_index: fn(&[u8], &mut [u8]) -> Answer,
    write_update: fn(&[u8], &mut [u8]) -> Answer,
    write_request: fn(&[u8], &mut [u8]) -> Answer,
}

fn library(name: &[u8]) -> u32 {
    fn answer(answer: Result<usize, Refusal>) -> Answer {
        answer.map_or_else(
            |refusal| (refusal.number(), refusal.place()),
            |len| (0, len),
        )
    }
    let side = Side {
        read: |input| answer(fordtrumpet::read(input).map(|read| read.used)),
        write_index: |files, out| answer(fordtrumpet::write_index(0, "", files, out)),
        write_update: |files, out| answer(fordtrumpet::write_index_update(0, "", files, out)),
        write_request: |name, out| {
            answer(fordtrumpet::write_request(0, "", name, 0, 1, &[0; 32], out))
        },
    };
    side.number(name)
}

fn reference(name: &[u8]) -> u32 {
    fn answer(answer: Result<usize, reference::Refusal>) -> Answer {
        answer.map_or_else(|refusal| (refusal.number, refusal.place), |len| (0, len))
    }
    let side = Side {
        read: |input| answer(reference::read(input).map(|message| message.end)),
        write_index: |files, out| answer(reference::write_index(out, 0, b"", files)),
        write_update: |files, out| answer(reference::write_index_update(out, 0, b"", files)),
        write_request: |name, out| {
            answer(reference::write_request(out, 0, b"", name, 0, 1, &[0; 32]))
        },
    };
    side.number(name)
}

impl Side {
    /// The number for a name: the same in each message, read and written.
    fn number(&self, name: &[u8]) -> u32 {
        let (mut index, len) = index(name);
        let first = self.agreed(&index[..len], 12, |out| {
            (self.write_index)(&index[8..len], out)
        });
        index[2] = 6;
        let second = self.agreed(&index[..len], 12, |out| {
            (self.write_update)(&index[8..len], out)
        });
        let (request, len) = request(name);
        let third = self.agreed(&request[..len], 8, |out| (self.write_request)(name, out));
        assert_eq!((first, first), (second, third), "{name:02x?}");
        first
    }

    /// The number that reading a message gives and writing it too. The place must be that of the name's
    /// length word, for 7 that of the first byte that isn't text, and the lent buffer then be as it was.
    fn agreed(&self, message: &[u8], place: usize, write: impl Fn(&mut [u8]) -> Answer) -> u32 {
        let mut out = [0xD7; ROOM];
        let answer = (self.read)(message);
        assert_eq!(write(&mut out), answer, "{message:02x?}");
        match answer.0 {
            0 => {
                assert_eq!(answer.1, message.len());
                assert_eq!(out[..answer.1], *message);
            }
            number => {
                let name = &message[place + 4..][..usize::from(message[place + 3])];
                let place = match std::str::from_utf8(name) {
                    Err(error) if number == 7 => place + 4 + error.valid_up_to(),
                    _ => place,
                };
                assert_eq!(answer.1, place, "{message:02x?}");
                assert_eq!(out, [0xD7; ROOM], "{message:02x?}");
            }
        }
        answer.0
    }
}

/// Room for a message with any name.
const ROOM: usize = 320;

/// An Index of one file with this name, whatever it is, and the message's length.
fn index(name: &[u8]) -> ([u8; ROOM], usize) {
    let mut message = [0; ROOM];
    message[2] = 1;
    message[11] = 1;
    let end = put(&mut message, 12, name);
    // Flags, Modified, Version and the number of blocks, all 0.
    (message, end + 20)
}

/// A Request for a file with this name, whatever it is, and the message's length.
fn request(name: &[u8]) -> ([u8; ROOM], usize) {
    let mut message = [0; ROOM];
    message[2] = 2;
    let end = put(&mut message, 8, name);
    // Offset 0, Length 1, and a hash of zeros.
    message[end + 11] = 1;
    message[end + 15] = 32;
    (message, end + 48)
}

/// Puts a string at a place and gives the place past it.
fn put(message: &mut [u8; ROOM], at: usize, string: &[u8]) -> usize {
    message[at + 3] = string.len() as u8;
    message[at + 4..][..string.len()].copy_from_slice(string);
    at + 4 + string.len().next_multiple_of(4)
}

/// Compares rules and counts.
struct Comparison<'a> {
    rules: &'a [(&'a str, Rule)],
    /// How often each number was met.
    met: BTreeMap<u32, u64>,
}

impl<'a> Comparison<'a> {
    fn new(rules: &'a [(&'a str, Rule)]) -> Self {
        let met = BTreeMap::new();
        Comparison { rules, met }
    }

    fn compare(&mut self, name: &[u8]) -> Compared {
        let expected = by_std(name);
        for (whose, rule) in self.rules {
            let number = rule(name);
            if number != expected {
                let name = name.escape_ascii();
                return Err(format!("{whose} on \"{name}\": {number}, not {expected}"));
            }
        }
        *self.met.entry(expected).or_default() += 1;
        Ok(())
    }

    /// Every name of at most two bytes.
    fn two_bytes(&mut self) -> Compared {
        self.compare(b"")?;
        for first in 0..=255 {
            self.compare(&[first])?;
            for second in 0..=255 {
                self.compare(&[first, second])?;
            }
        }
        Ok(())
    }

    /// Every name that goes on from this one with at most `count` of these characters.
    fn every(&mut self, name: &mut String, characters: &[char], count: usize) -> Compared {
        self.compare(name.as_bytes())?;
        if count == 0 {
            return Ok(());
        }
        for &character in characters {
            name.push(character);
            self.every(name, characters, count - 1)?;
            name.pop();
        }
        Ok(())
    }

    /// Every name of at most six characters, among which are the neighbours of dot, slash and zero and
    /// those whose last byte differs from a dot or a slash in the top bit.
    fn six_characters(&mut self) -> Compared {
        self.every(&mut String::new(), &NEAR, 6)
    }

    /// Every name of at most twelve characters, so that whatever takes eight bytes at a time meets a part
    /// at each place.
    fn twelve_characters(&mut self) -> Compared {
        self.every(&mut String::new(), &['.', '/', 'a'], 12)
    }

    /// Names of up to 255 bytes: some plain parts, now and then an odd one, and few that aren't text.
    fn generated(&mut self, count: u64) -> Compared {
        let mut random = Random::new(SEED);
        let mut parts = Vec::new();
        let mut name = Vec::new();
        for number in 0..count {
            if number.is_multiple_of(1024) {
                parts = (0..256).map(|_| part(&mut random)).collect();
            }
            join(&mut name, &parts, &mut random);
            if random.once_in(32) && !name.is_empty() {
                damage(&mut name, &mut random);
            }
            self.compare(&name)?;
        }
        Ok(())
    }
}

const NEAR: [char; 9] = ['.', '/', '\0', 'a', '-', '0', '\x01', '\u{AE}', '\u{AF}'];

/// A part of a name, an odd one now and then.
fn part(random: &mut Random) -> String {
    if random.once_in(4) {
        let odd = ["", ".", "..", "\0", "...", ".a", "..a", "a..", "\\"];
        return random.pick(&odd).to_string();
    }
    let most = random.pick(&[4, 12, 40]);
    let plain = !random.once_in(4);
    let letters = (0..1 + random.below(most)).map(|_| match character(random) {
        '/' | '\0' => '-',
        character if plain && !character.is_ascii() => 'x',
        character => character,
    });
    letters.collect()
}

/// Puts some parts together to a name of at most 255 bytes. What is cut off may leave half a character.
fn join(name: &mut Vec<u8>, parts: &[String], random: &mut Random) {
    name.clear();
    for number in 0..1 + random.pick(&[0, 1, 2, 3, 4, 20]) {
        if number > 0 {
            name.push(b'/');
        }
        name.extend_from_slice(random.pick_from(parts).as_bytes());
    }
    name.truncate(255);
}

/// How many names of at most `count` characters pass where `letters` of the characters are neither dot,
/// slash nor zero. The first part is any run of letters and dots but the empty one, `.` and `..`; after it
/// the name ends, or a slash and the rest of the name follow.
fn passing(letters: u64, count: u32) -> u64 {
    let parts = |len: u32| (letters + 1).pow(len) - u64::from(len < 3);
    let mut passing = vec![0];
    for count in 1..=count {
        let shorter = (1..count).map(|len| parts(len) * passing[(count - len - 1) as usize]);
        passing.push(parts(count) + shorter.sum::<u64>());
    }
    passing.iter().sum()
}

/// Says something even when the test passes.
fn say(comparison: &Comparison, what: &str) {
    let met = &comparison.met;
    let compared: u64 = met.values().sum();
    let text = format!("{compared} {what}, by their numbers {met:?}: no difference");
    let _ = writeln!(std::io::stderr(), "{text}");
}

#[test]
fn every_name_of_two_bytes_gets_the_number_of_a_path() {
    let mut comparison = Comparison::new(&RULES);
    comparison.two_bytes().unwrap();
    say(&comparison, "names of at most two bytes");
    // Of one byte all ASCII but three pass, of two all but those with zero or slash and `..`, and the
    // characters of two bytes.
    let passing = 125 + (126 * 126 - 1) + 1920;
    assert_eq!((comparison.met[&0], comparison.met[&8]), (passing, 1));
    assert_eq!(
        comparison.met[&24],
        (128 + 128 * 128) - 125 - (126 * 126 - 1)
    );
}

#[test]
fn every_name_of_few_characters_gets_the_number_of_a_path() {
    let mut comparison = Comparison::new(&RULES);
    comparison.six_characters().unwrap();
    say(&comparison, "names of at most six characters");
    assert_eq!(comparison.met[&0], passing(6, 6));
    let mut comparison = Comparison::new(&RULES);
    comparison.twelve_characters().unwrap();
    say(&comparison, "names of at most twelve characters");
    assert_eq!(comparison.met[&0], passing(1, 12));
}

#[test]
fn generated_names_get_the_numbers_of_paths() {
    let mut comparison = Comparison::new(&RULES);
    comparison.generated(GENERATED).unwrap();
    say(&comparison, "generated names");
    assert!(comparison.met[&0] > GENERATED / 4 && comparison.met[&24] > GENERATED / 4);
    assert!(comparison.met[&7] > 1000 && comparison.met[&8] > 1000);
}

#[test]
fn a_difference_is_found() {
    /// The rule, but what breaks it passes where it is let through.
    fn but(name: &[u8], let_through: bool) -> u32 {
        match by_std(name) {
            24 if let_through => 0,
            number => number,
        }
    }
    // Which of the four sets of names find it.
    let faults: [(&str, Rule, [bool; 4]); 12] = [
        ("none", by_std, [false; 4]),
        (
            "a part of three dots is refused",
            |name| match by_std(name) {
                0 if name.split(|&byte| byte == b'/').any(|part| part == b"...") => 24,
                number => number,
            },
            [false, true, true, true],
        ),
        (
            "a slash at the start passes",
            |name| match name {
                [b'/', rest @ ..] if by_std(rest) == 0 => 0,
                _ => by_std(name),
            },
            [true; 4],
        ),
        (
            "a slash at the end passes",
            |name| match name {
                [rest @ .., b'/'] if by_std(rest) == 0 => 0,
                _ => by_std(name),
            },
            [true; 4],
        ),
        (
            "two slashes together pass",
            |name| but(name, name.windows(2).any(|pair| pair == b"//")),
            [true; 4],
        ),
        (
            "a zero byte passes",
            |name| but(name, name.contains(&0)),
            [true, true, false, true],
        ),
        (
            "a last part of two dots passes",
            |name| but(name, name.ends_with(b"/..")),
            [false, true, true, true],
        ),
        (
            "a dot alone passes",
            |name| but(name, name == b"."),
            [true; 4],
        ),
        (
            "the top bit doesn't count",
            |name| {
                let low: Vec<u8> = name.iter().map(|byte| byte & 0x7F).collect();
                by_std(name).max(by_std(&low))
            },
            [true, true, false, true],
        ),
        (
            "a backslash parts as a slash does",
            |name| {
                let slashes = name.iter().map(|&byte| match byte {
                    b'\\' => b'/',
                    byte => byte,
                });
                by_std(&slashes.collect::<Vec<u8>>())
            },
            [true, false, false, true],
        ),
        (
            "only 32 bytes are looked at",
            |name| but(name, name.len() > 32 && by_std(&name[..32]) == 0),
            [false, false, false, true],
        ),
        (
            "it comes before the text rule",
            |name| match name.ends_with(b"/") {
                true => 24,
                false => by_std(name),
            },
            [true, false, false, true],
        ),
    ];
    for (fault, rule, expected) in faults {
        let rules = [(fault, rule)];
        let found = [
            Comparison::new(&rules).two_bytes(),
            Comparison::new(&rules).six_characters(),
            Comparison::new(&rules).twelve_characters(),
            Comparison::new(&rules).generated(100_000),
        ];
        assert_eq!(found.map(|compared| compared.is_err()), expected, "{fault}");
    }
}

fn file(name: &[u8]) -> File {
    File {
        name: name.to_vec(),
        flags: 0o644,
        modified: 0,
        version: 0,
        blocks: Vec::new(),
    }
}

/// What every call answers that is given these bytes as a table: how many there are, and how many of them
/// refuse it with 15. A refusal leaves the lent buffer as it was.
fn calls_with(table: &[u8]) -> (usize, usize) {
    const EMPTY: &[u8] = &[0; 4];
    let index = [0, 0, 1, 0, 0, 0, 0, 0, 0, 0, 0, 0];
    let (request, len) = request(b"n");
    let mut answers = vec![
        Table::new(table).map(drop),
        TableBuf::from_bytes(table.to_vec()).map(drop),
        raw::Walker::open(table).step().map(drop),
        raw::find_local(table, 1, &[0; 32]).map(drop),
    ];
    let mut lend = |call: &dyn Fn(&mut [u8]) -> Result<(), Refusal>| {
        let mut out = [0xD7; 2000];
        let answer = call(&mut out);
        assert!(answer.is_ok() || out == [0xD7; 2000]);
        answers.push(answer);
    };
    lend(&|out| raw::merge(table, EMPTY, out).map(drop));
    lend(&|out| raw::merge(EMPTY, table, out).map(drop));
    lend(&|out| raw::accept(table, &index, "", out).map(drop));
    lend(&|out| raw::serve(table, "", &request[..len], out).map(|_: Serving| ()));
    for number in 0..5 {
        let mut tables = [EMPTY; 5];
        tables[number] = table;
        let [local, peers @ ..] = tables;
        lend(&|out| raw::request_list(local, peers, out).map(|_| ()));
        lend(&|_| raw::details(local, peers, 0, 0).map(|_| ()));
        lend(&|_| raw::why(local, peers, "n", 0).map(|_| ()));
    }
    let bad = answers
        .iter()
        .filter(|answer| **answer == Err(Refusal::BadTable));
    (answers.len(), bad.count())
}

#[test]
fn a_table_with_a_name_that_is_no_plain_path_is_refused_by_every_call() {
    let mut random = Random::new(SEED);
    for number in 0..20_000 {
        let count = 1 + random.below(5);
        let mut names: Vec<_> = (0..count).map(|_| name(&mut random)).collect();
        let good = number % 4 == 0;
        if !good {
            let at = random.below(names.len());
            spoil(&mut names[at], &mut random);
        }
        names.sort();
        names.dedup();
        let files: Vec<File> = names.iter().map(|name| file(name)).collect();
        let table = encode(&files);
        assert_eq!(reference::is_good(&table), good, "{table:02x?}");
        let refused = if good { 0 } else { 23 };
        assert_eq!(calls_with(&table), (23, refused), "{table:02x?}");
    }
}

/// Where the table is good, a message gets 24 with its place.
#[test]
fn a_message_with_such_a_name_is_refused_where_a_table_is_good() {
    let good = encode(&[file(b"a/b")]);
    let mut out = [0xD7; 200];
    for (kind, name) in [(1, b"../show.mov"), (6, b"../show.mov")] {
        let mut message = Encoding::new();
        message
            .header(kind, 0)
            .string(b"r", 64)
            .files(&[file(name)]);
        let refused = Err(Refusal::UnsafeName(16));
        assert_eq!(raw::accept(&good, &message.bytes, "r", &mut out), refused);
        // A table that isn't good comes first, another Repository later.
        let table = Err(Refusal::BadTable);
        assert_eq!(raw::accept(&[], &message.bytes, "r", &mut out), table);
        assert_eq!(raw::accept(&good, &message.bytes, "", &mut out), refused);
    }
    let (request, len) = request(b"/a/b");
    let ruling = raw::serve(&good, "", &request[..len], &mut out);
    assert_eq!(ruling, Err(Refusal::UnsafeName(8)));
    assert_eq!(out, [0xD7; 200]);
}
