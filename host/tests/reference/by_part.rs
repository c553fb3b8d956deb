//! Reading a message whose bytes come in runs once more, as one writes it for speed: a machine that knows
//! which part of the message comes next.
//!
//! A part is what is told at once: a word, a string with its pad, a hash. Where a run has the whole part,
//! it is checked in place; otherwise its bytes are held until it is whole, which takes no more than the
//! longest string. Data aren't held, and blocks that a run has whole are gone through together.

use super::names::is_plain_path;
use super::records::is_block_length;
use super::runs::Told;
use super::text::broken_at;
use super::{
    Edition, Refusal, BLOCK_LEN, DELETED, HASH_LEN, INDEX, INDEX_UPDATE, MAX_BLOCKS, MAX_DATA,
    MAX_FILES, MAX_KEY, MAX_NAME, MAX_OPTIONS, MAX_REPOSITORY, MAX_VALUE, OPTIONS, PING, PONG,
    REQUEST, RESERVED_FLAGS, RESPONSE,
};

/// The longest string with its pad.
const MOST_HELD: usize = 256;

/// A string, by the limit that its length has and by what comes after it.
#[derive(Clone, Copy, PartialEq, Eq)]
enum Text {
    Repository,
    FileName,
    RequestName,
    Key,
    Value,
}

impl Text {
    fn limit(self) -> u32 {
        match self {
            Text::Repository => MAX_REPOSITORY,
            Text::FileName | Text::RequestName => MAX_NAME,
            Text::Key => MAX_KEY,
            Text::Value => MAX_VALUE,
        }
    }
}

/// What comes next.
#[derive(Clone, Copy, PartialEq, Eq)]
enum Part {
    Header,
    Length(Text),
    /// Contents of this length, and pad.
    Contents(Text, usize),
    FileCount,
    Flags,
    /// Modified and Version, which may be anything.
    Times,
    BlockCount,
    BlockLength,
    BlockHashLength,
    BlockHash,
    Offset,
    RequestLength,
    RequestHashLength,
    RequestHash,
    DataLength,
    /// So many bytes of data, and a pad after them.
    Data(usize, usize),
    DataPad(usize),
    OptionCount,
    End,
}

impl Part {
    fn len(self) -> usize {
        match self {
            Part::Contents(_, len) => len.next_multiple_of(4),
            Part::Times => 12,
            Part::Offset => 8,
            Part::BlockHash | Part::RequestHash => HASH_LEN as usize,
            Part::DataPad(len) => len,
            Part::Data(..) | Part::End => 0,
            _ => 4,
        }
    }
}

pub struct Machine {
    at: At,
    /// What has come of the part.
    held: [u8; MOST_HELD],
    held_len: usize,
    /// The answer that stays, once there is one.
    last: Option<Told>,
}

/// How far the message has come.
struct At {
    edition: Edition,
    part: Part,
    /// Where the part begins in the message.
    place: usize,
    kind: u32,
    flags: u32,
    /// How many files or options are left, and blocks of this file.
    elements: u32,
    blocks: u32,
}

impl Machine {
    pub fn open(edition: Edition) -> Self {
        Machine {
            at: At {
                edition,
                part: Part::Header,
                place: 0,
                kind: 0,
                flags: 0,
                elements: 0,
                blocks: 0,
            },
            held: [0; MOST_HELD],
            held_len: 0,
            last: None,
        }
    }

    /// The answer to a run, and how many of its bytes were taken.
    pub fn feed(&mut self, run: &[u8]) -> (Told, usize) {
        if let Some(told) = self.last {
            return (told, 0);
        }
        let mut rest = run;
        let (told, taken) = match self.go_on(&mut rest) {
            Ok(false) => return (Told::Waiting, run.len()),
            Ok(true) => (Told::Ended(self.at.place), run.len() - rest.len()),
            Err(refusal) => (Told::Refused(refusal), run.len()),
        };
        self.last = Some(told);
        (told, taken)
    }

    /// Takes parts off the run, and gives whether the message has ended.
    fn go_on(&mut self, rest: &mut &[u8]) -> Result<bool, Refusal> {
        loop {
            match self.at.part {
                Part::End => return Ok(true),
                Part::Data(left, pad) => {
                    let count = left.min(rest.len());
                    *rest = &rest[count..];
                    self.at.place += count;
                    if count < left {
                        self.at.part = Part::Data(left - count, pad);
                        return Ok(false);
                    }
                    self.at.part = Part::DataPad(pad);
                }
                Part::BlockLength if self.held_len == 0 && rest.len() >= BLOCK_LEN => {
                    self.at.whole_blocks(rest)?;
                }
                part => {
                    let len = part.len();
                    let missing = len - self.held_len;
                    let (bytes, after) = rest.split_at(missing.min(rest.len()));
                    *rest = after;
                    if bytes.len() == len {
                        self.at.take(bytes)?;
                        continue;
                    }
                    self.held[self.held_len..][..bytes.len()].copy_from_slice(bytes);
                    if bytes.len() < missing {
                        self.held_len += bytes.len();
                        return Ok(false);
                    }
                    self.held_len = 0;
                    self.at.take(&self.held[..len])?;
                }
            }
        }
    }
}

impl At {
    /// Goes through the blocks of this file that the run has whole, of which there is one at least.
    fn whole_blocks(&mut self, rest: &mut &[u8]) -> Result<(), Refusal> {
        let (whole, _) = rest.as_chunks::<BLOCK_LEN>();
        let whole = &whole[..whole.len().min(self.blocks as usize)];
        for (number, block) in whole.iter().enumerate() {
            let place = self.place + number * BLOCK_LEN;
            if !is_block_length(word(&block[..4])) {
                return Err(Refusal::new(10, place));
            }
            if word(&block[4..8]) != HASH_LEN {
                return Err(Refusal::new(9, place + 4));
            }
        }
        let len = whole.len() * BLOCK_LEN;
        self.place += len;
        *rest = &rest[len..];
        self.blocks -= whole.len() as u32;
        self.part = self.next_block();
        Ok(())
    }

    /// Goes on to the next part, now that this one is whole.
    fn take(&mut self, bytes: &[u8]) -> Result<(), Refusal> {
        self.part = self.after(self.part, bytes)?;
        self.place += bytes.len();
        Ok(())
    }

    /// Checks a part that is whole and gives the one after it.
    fn after(&mut self, part: Part, bytes: &[u8]) -> Result<Part, Refusal> {
        let place = self.place;
        let refused = |number| Err(Refusal::new(number, place));
        match part {
            Part::Header => self.header(word(bytes)),
            Part::Length(text) => match word(bytes) {
                len if len > text.limit() => refused(5),
                len => Ok(Part::Contents(text, len as usize)),
            },
            Part::Contents(text, len) => {
                self.contents(text, bytes.split_at(len))?;
                Ok(self.after_text(text))
            }
            Part::FileCount => match word(bytes) {
                count if count > MAX_FILES => refused(5),
                count => {
                    self.elements = count;
                    Ok(self.next_element(Text::FileName))
                }
            },
            Part::OptionCount => match word(bytes) {
                count if count > MAX_OPTIONS => refused(5),
                count => {
                    self.elements = count;
                    Ok(self.next_element(Text::Key))
                }
            },
            Part::Flags => {
                self.flags = word(bytes);
                match self.flags & RESERVED_FLAGS {
                    0 => Ok(Part::Times),
                    _ => refused(11),
                }
            }
            Part::Times => Ok(Part::BlockCount),
            Part::BlockCount => match word(bytes) {
                count if count > MAX_BLOCKS => refused(5),
                1.. if self.flags & DELETED != 0 => refused(12),
                count => {
                    self.blocks = count;
                    Ok(self.next_block())
                }
            },
            Part::BlockLength | Part::RequestLength => match (is_block_length(word(bytes)), part) {
                (false, _) => refused(10),
                (true, Part::BlockLength) => Ok(Part::BlockHashLength),
                (true, _) => Ok(Part::RequestHashLength),
            },
            Part::BlockHashLength | Part::RequestHashLength => match (word(bytes), part) {
                (HASH_LEN, Part::BlockHashLength) => Ok(Part::BlockHash),
                (HASH_LEN, _) => Ok(Part::RequestHash),
                _ => refused(9),
            },
            Part::BlockHash => {
                self.blocks -= 1;
                Ok(self.next_block())
            }
            Part::Offset => Ok(Part::RequestLength),
            Part::DataLength => match word(bytes) {
                len if len > MAX_DATA => refused(5),
                len => {
                    let len = len as usize;
                    Ok(Part::Data(len, len.next_multiple_of(4) - len))
                }
            },
            Part::DataPad(_) => {
                check_pad(bytes, place)?;
                Ok(Part::End)
            }
            Part::RequestHash | Part::Data(..) | Part::End => Ok(Part::End),
        }
    }

    fn header(&mut self, header: u32) -> Result<Part, Refusal> {
        self.kind = header >> 8 & 0xFF;
        let last = match self.edition {
            Edition::Old => INDEX_UPDATE,
            Edition::New => OPTIONS,
        };
        match header {
            _ if header >> 28 != 0 => Err(Refusal::new(2, 0)),
            _ if !(INDEX..=last).contains(&self.kind) => Err(Refusal::new(3, 0)),
            _ if header & 0xFF != 0 => Err(Refusal::new(4, 0)),
            _ => Ok(match (self.kind, self.edition) {
                (INDEX | INDEX_UPDATE | REQUEST, Edition::New) => Part::Length(Text::Repository),
                (INDEX | INDEX_UPDATE, Edition::Old) => Part::FileCount,
                (REQUEST, Edition::Old) => Part::Length(Text::RequestName),
                (RESPONSE, _) => Part::DataLength,
                (PING | PONG, _) => Part::End,
                _ => Part::OptionCount,
            }),
        }
    }

    /// Checks a string: its pad, its text, and what is asked of a Name.
    fn contents(&self, text: Text, (contents, pad): (&[u8], &[u8])) -> Result<(), Refusal> {
        check_pad(pad, self.place + contents.len())?;
        if let Some(at) = broken_at(contents) {
            return Err(Refusal::new(7, self.place + at));
        }
        if matches!(text, Text::FileName | Text::RequestName) {
            let length_word = self.place - 4;
            if contents.is_empty() {
                return Err(Refusal::new(8, length_word));
            }
            if !is_plain_path(contents) {
                return Err(Refusal::new(24, length_word));
            }
        }
        Ok(())
    }

    fn after_text(&mut self, text: Text) -> Part {
        match text {
            Text::Repository if self.kind == REQUEST => Part::Length(Text::RequestName),
            Text::Repository => Part::FileCount,
            Text::FileName => Part::Flags,
            Text::RequestName => Part::Offset,
            Text::Key => Part::Length(Text::Value),
            Text::Value => {
                self.elements -= 1;
                self.next_element(Text::Key)
            }
        }
    }

    fn next_element(&self, first: Text) -> Part {
        match self.elements {
            0 => Part::End,
            _ => Part::Length(first),
        }
    }

    fn next_block(&mut self) -> Part {
        if self.blocks > 0 {
            return Part::BlockLength;
        }
        self.elements -= 1;
        self.next_element(Text::FileName)
    }
}

fn check_pad(pad: &[u8], place: usize) -> Result<(), Refusal> {
    match pad.iter().position(|&byte| byte != 0) {
        None => Ok(()),
        Some(at) => Err(Refusal::new(6, place + at)),
    }
}

fn word(bytes: &[u8]) -> u32 {
    u32::from_be_bytes(bytes.try_into().expect("a word has four bytes"))
}
