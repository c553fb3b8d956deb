//! Compares the library with the reference, call by call.

use super::draft::Draft;
use super::library::{Answer, Library};
use super::random::Random;
use crate::reference::{self, Body, Edition, Span, BLOCK_LEN};
use fordtrumpet::{FilesBuilder, Message, OptionsBuilder, ReadMessage, Refusal};
use std::collections::BTreeMap;
use std::fmt::Debug;
use std::ops::Range;
use std::str::from_utf8;

/// An error says what differs.
pub type Compared = Result<(), String>;

const INDEX: [u32; 10] = [1, 5, 6, 7, 8, 9, 10, 11, 12, 24];

/// What reading a message of each type can give, beside what every header can.
pub const READING: [(u32, &[u32]); 7] = [
    (1, &INDEX),
    (2, &[1, 5, 6, 7, 8, 9, 10, 24]),
    (3, &[1, 5, 6]),
    (4, &[1]),
    (5, &[1]),
    (6, &INDEX),
    (7, &[1, 5, 6, 7]),
];

/// What writing a message of each type can give, beside 14.
pub const WRITING: [(u32, &[u32]); 7] = [
    (1, &INDEX),
    (2, &[5, 7, 8, 9, 10, 24]),
    (3, &[5]),
    (4, &[5]),
    (5, &[5]),
    (6, &INDEX),
    (7, &[1, 5, 6, 7]),
];

/// Compares and counts.
pub struct Comparison {
    pub library: Library,
    /// The number of calls compared.
    pub calls: u64,
    /// How often a call, given a message of a type, answered with a number.
    pub seen: BTreeMap<(&'static str, u32, u32), u64>,
}

impl Comparison {
    pub fn new(library: Library) -> Self {
        Comparison {
            library,
            calls: 0,
            seen: BTreeMap::new(),
        }
    }

    /// One call more, which was given a message of type `kind` and answered with `number`.
    pub fn met(&mut self, call: &'static str, kind: u32, number: u32) {
        self.calls += 1;
        *self.seen.entry((call, kind, number)).or_default() += 1;
    }

    /// That a call, given messages of type `kind`, answered often with each of these numbers. A run that
    /// meets one too seldom says little about it.
    #[track_caller]
    pub fn met_often(&self, call: &'static str, kind: u32, numbers: &[u32]) {
        for &number in numbers {
            let times = self.seen.get(&(call, kind, number)).copied();
            assert!(
                times >= Some(20),
                "{call} of type {kind} met {number} {times:?} times"
            );
        }
    }

    /// Reads `input`, which was made from a message of this edition and of type `kind`, with both.
    ///
    /// An accepted message is also gone through record by record, and its array and the message are
    /// made again from what was read.
    pub fn read(&mut self, edition: Edition, kind: u32, input: &[u8]) -> Compared {
        let message = reference::read_as(edition, input);
        let expected = read_words(&message);
        let (call, read, read_safely) = match edition {
            Edition::New => ("read", self.library.read, self.library.read_safely),
            Edition::Old => (
                "read_old",
                self.library.read_old,
                self.library.read_old_safely,
            ),
        };
        self.met(call, kind, expected.0);
        self.calls += 1;
        same(call, &read(input), &expected)?;
        same("safe reading", &read_safely(input), &expected)?;
        let Ok(message) = message else { return Ok(()) };
        match message.body {
            Body::Index { files, count, .. } | Body::IndexUpdate { files, count, .. } => {
                self.files(edition, input, files.of(input), count)?;
            }
            Body::Options { options, count } => {
                self.options(input, options.of(input), count)?;
            }
            _ => {}
        }
        self.calls += 1;
        let mut out = vec![0xC3; message.end];
        same(
            "length written again",
            &write_again(edition, input, &mut out),
            &Ok(message.end),
        )?;
        same_bytes("what is written again", &out, &input[..message.end])
    }

    /// Goes through the records of an accepted array, by places and by the safe iterator.
    fn files(&mut self, edition: Edition, input: &[u8], array: &[u8], count: u32) -> Compared {
        let read = read_safely(edition, input).map_err(|refusal| refusal.to_string())?;
        let (Message::Index(index) | Message::IndexUpdate(index)) = read.message else {
            return Err("no Index".to_string());
        };
        let mut files = index.files.iter();
        let mut again = FilesBuilder::new();
        let mut at = 4;
        for left in (0..count as usize).rev() {
            let expected = reference::file_at(array, at).expect("the record is there");
            self.file(array, at)?;
            self.calls += 1;
            let file = files.next().ok_or("a file is missing")?;
            same("files left", &files.len(), &left)?;
            same("name", &Ok(file.name), &from_utf8(expected.name.of(array)))?;
            same("flags", &file.flags.0, &expected.flags)?;
            same("modified", &file.modified, &expected.modified)?;
            same("version", &file.version, &expected.version)?;
            same(
                "number of blocks",
                &file.blocks.len(),
                &(expected.blocks as usize),
            )?;
            let blocks = file.blocks.iter().map(|block| (block.length, *block.hash));
            let bytes = &array[expected.first_block..expected.end];
            let expected_blocks = bytes.chunks(BLOCK_LEN).map(|block| {
                let length = u32::from_be_bytes(block[..4].try_into().unwrap());
                (length, block[8..].try_into().unwrap())
            });
            if !blocks.eq(expected_blocks) {
                return Err("blocks differ".to_string());
            }
            again.push(
                file.name,
                file.flags,
                file.modified,
                file.version,
                file.blocks,
            );
            at = expected.end;
        }
        same("file after the last", &files.next().is_none(), &true)?;
        same("place past the last file", &at, &array.len())?;
        same_bytes("the array built again", again.as_bytes(), array)
    }

    /// Goes through the options of an accepted array, by places and by the safe iterator.
    fn options(&mut self, input: &[u8], array: &[u8], count: u32) -> Compared {
        let read = fordtrumpet::read(input).map_err(|refusal| refusal.to_string())?;
        let Message::Options(message) = read.message else {
            return Err("no Options".to_string());
        };
        let mut options = message.options.iter();
        let mut again = OptionsBuilder::new();
        let mut at = 4;
        for left in (0..count as usize).rev() {
            let expected = reference::option_at(array, at).expect("the option is there");
            self.option(array, at)?;
            self.calls += 1;
            let option = options.next().ok_or("an option is missing")?;
            same("options left", &options.len(), &left)?;
            same("key", &Ok(option.key), &from_utf8(expected.key.of(array)))?;
            let value = from_utf8(expected.value.of(array));
            same("value", &Ok(option.value), &value)?;
            again.push(option.key, option.value);
            at = expected.end;
        }
        same("option after the last", &options.next().is_none(), &true)?;
        same("place past the last option", &at, &array.len())?;
        same_bytes("the array built again", again.as_bytes(), array)
    }

    /// The record at any place of an array.
    pub fn file(&mut self, array: &[u8], at: usize) -> Compared {
        self.calls += 1;
        let expected = file_words(reference::file_or_missing(array, at));
        same("bep_file", &(self.library.file)(array, at), &expected)
    }

    /// The option at any place of an array.
    pub fn option(&mut self, array: &[u8], at: usize) -> Compared {
        self.calls += 1;
        let expected = option_words(reference::option_or_missing(array, at));
        same("bep_option", &(self.library.option)(array, at), &expected)
    }

    /// Writes the draft with both into buffers that fit, are too short and are longer.
    pub fn write(&mut self, draft: &Draft, random: &mut Random) -> Compared {
        let room = draft.encode().bytes.len() + 1 + random.below(20);
        match self.write_into(draft, room, random)? {
            (0, [len]) => {
                let len = len as usize;
                let shorter = random.below(len);
                for room in [len, len - 1, random.pick(&[0, shorter, shorter, len + 1])] {
                    self.write_into(draft, room, random)?;
                }
            }
            _ => {
                for room in [0, random.below(room)] {
                    self.write_into(draft, room, random)?;
                }
            }
        }
        Ok(())
    }

    /// Writes the draft with both into a buffer of `room` bytes and compares all of them.
    pub fn write_into(
        &mut self,
        draft: &Draft,
        room: usize,
        random: &mut Random,
    ) -> Result<Answer<1>, String> {
        let write = self.library.write;
        let expected = fill(
            room,
            random,
            |out| write(draft, out),
            |out| expected(draft.write_with_reference(out)),
        )?;
        let call = match draft.edition {
            Edition::New => "write",
            Edition::Old => "write_old",
        };
        self.met(call, draft.kind(), expected.0);
        Ok(expected)
    }
}

/// Lends both a buffer of `room` bytes and compares answers and bytes.
///
/// The buffer lies at any place in memory, between bytes that must stay as they are. So must the buffer
/// itself after a refusal, and what isn't filled of it otherwise.
pub fn fill(
    room: usize,
    random: &mut Random,
    library: impl FnOnce(&mut [u8]) -> Answer<1>,
    reference: impl FnOnce(&mut [u8]) -> Answer<1>,
) -> Result<Answer<1>, String> {
    let start = random.below(8);
    let lent = start..start + room;
    let before = random.bytes(start + room + 8);
    let mut expected_memory = before.clone();
    let expected = reference(&mut expected_memory[lent.clone()]);
    let mut memory = before.clone();
    let answer = library(&mut memory[lent]);
    same("answer", &answer, &expected)?;
    same_bytes("memory", &memory, &expected_memory)?;
    let end = match expected {
        (0, [len]) => start + len as usize,
        _ => start,
    };
    same_bytes("memory before", &memory[..start], &before[..start])?;
    same_bytes("memory after", &memory[end..], &before[end..])?;
    Ok(expected)
}

/// Bytes laid out somewhere in memory, and where. Zeros after their end could pass for a pad.
pub fn laid_out(bytes: &[u8], random: &mut Random) -> (Vec<u8>, Range<usize>) {
    let start = random.below(8);
    let mut memory = vec![0xFF; start];
    memory.extend_from_slice(bytes);
    memory.extend_from_slice(&[0; 40]);
    (memory, start..start + bytes.len())
}

/// What the reference answered, in the words of the library.
pub fn expected(answer: Result<usize, reference::Refusal>) -> Answer<1> {
    match answer {
        Ok(len) => (0, [len as u64]),
        Err(refusal) => (refusal.number, [refusal.place as u64]),
    }
}

/// Whether two answers are the same.
pub fn same<T: PartialEq + Debug>(what: &str, library: &T, reference: &T) -> Compared {
    if library == reference {
        return Ok(());
    }
    let text = format!("{what}: library {library:?}, reference {reference:?}");
    Err(short(&text))
}

/// Whether two buffers are the same, byte by byte.
pub fn same_bytes(what: &str, library: &[u8], reference: &[u8]) -> Compared {
    same(
        &format!("length of {what}"),
        &library.len(),
        &reference.len(),
    )?;
    let pairs = library.iter().zip(reference);
    match pairs.clone().position(|(ours, theirs)| ours != theirs) {
        None => Ok(()),
        Some(at) => same(&format!("{what} at {at}"), &library[at], &reference[at]),
    }
}

/// The beginning of a text that may be very long.
pub fn short(text: &str) -> String {
    text.chars().take(4000).collect()
}

/// Reads by the safe call of this edition.
fn read_safely(edition: Edition, input: &[u8]) -> Result<ReadMessage<'_>, Refusal> {
    match edition {
        Edition::New => fordtrumpet::read(input),
        Edition::Old => fordtrumpet::read_old(input),
    }
}

/// Writes the message that `input` holds with the library, from the fields the library read.
fn write_again(edition: Edition, input: &[u8], out: &mut [u8]) -> Result<usize, Refusal> {
    use fordtrumpet::*;
    let is_new = edition == Edition::New;
    match read_safely(edition, input)?.message {
        Message::Index(Index {
            id,
            repository,
            files,
        }) => match is_new {
            true => write_index(id, repository, files.as_bytes(), out),
            false => write_old_index(id, files.as_bytes(), out),
        },
        Message::IndexUpdate(Index {
            id,
            repository,
            files,
        }) => match is_new {
            true => write_index_update(id, repository, files.as_bytes(), out),
            false => write_old_index_update(id, files.as_bytes(), out),
        },
        Message::Request(Request {
            id,
            repository,
            name,
            offset,
            length,
            hash,
        }) => match is_new {
            true => write_request(id, repository, name, offset, length, hash, out),
            false => write_old_request(id, name, offset, length, hash, out),
        },
        Message::Response(response) => write_response(response.id, response.data, out),
        Message::Ping(ping) => write_ping(ping.id, out),
        Message::Pong(pong) => write_pong(pong.id, out),
        Message::Options(message) => write_options(message.id, message.options.as_bytes(), out),
    }
}

/// The words that the library must give for what the reference read.
pub fn read_words(read: &Result<reference::Message, reference::Refusal>) -> Answer<11> {
    let mut answer = [0; 11];
    let message = match read {
        Ok(message) => message,
        Err(refusal) => {
            answer[0] = refusal.place as u64;
            return (refusal.number, answer);
        }
    };
    let mut put = |at: usize, span: Span| {
        answer[at] = span.start as u64;
        answer[at + 1] = span.len as u64;
    };
    let kind = match message.body {
        Body::Index {
            repository,
            files,
            count,
        }
        | Body::IndexUpdate {
            repository,
            files,
            count,
        } => {
            put(3, repository);
            put(5, files);
            answer[7] = u64::from(count);
            match message.body {
                Body::Index { .. } => 1,
                _ => 6,
            }
        }
        Body::Request {
            repository,
            name,
            offset,
            length,
            hash,
        } => {
            put(3, repository);
            put(5, name);
            put(9, hash);
            answer[7] = offset;
            answer[8] = u64::from(length);
            2
        }
        Body::Response { data } => {
            put(3, data);
            3
        }
        Body::Ping => 4,
        Body::Pong => 5,
        Body::Options { options, count } => {
            put(5, options);
            answer[7] = u64::from(count);
            7
        }
    };
    answer[0] = message.end as u64;
    answer[1] = kind;
    answer[2] = u64::from(message.id);
    (0, answer)
}

pub fn file_words(file: Result<reference::File, usize>) -> Answer<8> {
    let file = match file {
        Ok(file) => file,
        Err(missing) => return (1, [missing as u64, 0, 0, 0, 0, 0, 0, 0]),
    };
    let words = [
        file.end as u64,
        file.name.start as u64,
        file.name.len as u64,
        u64::from(file.flags),
        file.modified as u64,
        u64::from(file.version),
        u64::from(file.blocks),
        file.first_block as u64,
    ];
    (0, words)
}

fn option_words(option: Result<reference::KeyValue, usize>) -> Answer<5> {
    let option = match option {
        Ok(option) => option,
        Err(missing) => return (1, [missing as u64, 0, 0, 0, 0]),
    };
    let words = [
        option.end as u64,
        option.key.start as u64,
        option.key.len as u64,
        option.value.start as u64,
        option.value.len as u64,
    ];
    (0, words)
}
