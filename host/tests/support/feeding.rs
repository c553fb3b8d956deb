//! Compares reading a message whose bytes come in runs with reading all bytes so far at once, by the
//! library and by both references.

use super::compare::{laid_out, same, Compared, Comparison};
use super::library::{ffi, Answer, UNSET};
use super::random::Random;
use crate::reference::by_part::Machine;
use crate::reference::{read_as, Edition, Refusal, Runs, Told};
use fordtrumpet::{Fed, Feed};

/// A feed as it is lent.
pub type Words = [u32; ffi::FEED_WORDS];

/// A run, and what a fault may know beside it.
pub struct Given<'a> {
    pub edition: Edition,
    /// The bytes that came before.
    pub before: &'a [u8],
    pub run: &'a [u8],
}

/// A feed for a message of this edition.
pub fn open(edition: Edition) -> Words {
    let mut words = [0xA5A5_A5A5; ffi::FEED_WORDS];
    // SAFETY: the feed has the size asked for. In all calls so has the answer, and pointer and length are
    // those of one slice.
    let number = unsafe {
        match edition {
            Edition::New => ffi::bep_feed_open(&mut words),
            Edition::Old => ffi::bep_feed_open_old(&mut words),
        }
    };
    assert_eq!(number, 0);
    words
}

pub fn feed(words: &mut Words, run: &[u8]) -> Answer<2> {
    let mut answer = [UNSET; 2];
    // SAFETY: as in `open`.
    let number = unsafe { ffi::bep_feed(words, run.as_ptr(), run.len(), &mut answer) };
    (number, answer)
}

pub fn header(words: &Words) -> Answer<2> {
    let mut answer = [UNSET; 2];
    // SAFETY: as in `open`.
    let number = unsafe { ffi::bep_feed_header(words, &mut answer) };
    (number, answer)
}

/// A feed by the safe type.
fn open_safely(edition: Edition) -> Feed {
    match edition {
        Edition::New => Feed::open(),
        Edition::Old => Feed::open_old(),
    }
}

/// What the safe type answers, put back into words. Whether a run that is refused was taken is known from
/// what was missing before it.
fn feed_safely(feed: &mut Feed, run: &[u8]) -> Answer<2> {
    let waiting = feed.missing() > 0;
    match feed.feed(run) {
        Ok(Fed::Waiting { missing, taken }) => (1, [missing as u64, taken as u64]),
        Ok(Fed::Ended { length, taken }) => (0, [length as u64, taken as u64]),
        Err(refusal) => {
            let taken = if waiting { run.len() } else { 0 };
            (refusal.number(), [refusal.place() as u64, taken as u64])
        }
    }
}

/// Number, end or place, and bytes taken that the library must give. While it waits the first word is free.
pub fn told_words((told, taken): (Told, usize)) -> (u32, Option<u64>, u64) {
    let (number, first) = match told {
        Told::Waiting => (1, None),
        Told::Ended(end) => (0, Some(end as u64)),
        Told::Refused(Refusal { number, place }) => (number, Some(place as u64)),
    };
    (number, first, taken as u64)
}

impl Comparison {
    /// Feeds runs of bytes that were made from a message of type `kind`, and two more: most messages have
    /// ended or been refused by then. Each answer is held against reading all bytes so far at once.
    pub fn feed(
        &mut self,
        edition: Edition,
        kind: u32,
        runs: &[&[u8]],
        random: &mut Random,
    ) -> Compared {
        let runs = [runs, &[b"\0\0\x04\0", b""]].concat();
        let whole = runs.concat();
        let mut by_reference = Runs::open(edition);
        let mut by_machine = Machine::open(edition);
        let mut words = (self.library.open_feed)(edition);
        let mut safe = open_safely(edition);
        // How many bytes came before, and whether the message had ended or been refused then.
        let (mut before, mut over) = (0, false);
        for run in runs {
            let told = by_reference.feed(run);
            same("the machine", &by_machine.feed(run), &told)?;
            let expected = told_words(told);

            let (memory, lies) = laid_out(run, random);
            let given = Given {
                edition,
                before: &whole[..before],
                run: &memory[lies],
            };
            let answer = (self.library.feed)(&mut words, &given);
            let (number, [first, taken]) = answer;
            self.met(call(edition), kind, number);
            let is_free = number == 1 && expected.1.is_none();
            let told_first = (!is_free).then_some(first);
            same("feed", &(number, told_first, taken), &expected)?;
            same("safe feed", &feed_safely(&mut safe, run), &answer)?;
            if !over {
                before += run.len();
                self.at_once(edition, &whole[..before], (number, first))?;
            }
            if number == 1 {
                waits_for(edition, &whole, before, first as usize, random)?;
            }
            over |= number != 1;

            let expected = header_of(&whole[..before]);
            same("header", &(self.library.feed_header)(&words), &expected)?;
            let safe = match safe.header() {
                Some(header) => (0, [header.kind.into(), header.id.into()]),
                None => (1, [0, 0]),
            };
            same("safe header", &safe, &expected)?;
        }
        Ok(())
    }

    /// That the library's reading at once says the same of all bytes so far.
    fn at_once(&self, edition: Edition, bytes: &[u8], (number, first): (u32, u64)) -> Compared {
        let (at_once, [place, ..]) = match edition {
            Edition::New => (self.library.read)(bytes),
            Edition::Old => (self.library.read_old)(bytes),
        };
        // While it waits there is no place.
        let place = if number == 1 { first } else { place };
        same("reading at once", &(number, first), &(at_once, place))
    }
}

/// The feed's name, of messages of this edition.
pub fn call(edition: Edition) -> &'static str {
    match edition {
        Edition::New => "feed",
        Edition::Old => "feed_old",
    }
}

/// That with fewer than `missing` bytes more it still waits: with the next ones, and with any.
fn waits_for(
    edition: Edition,
    whole: &[u8],
    before: usize,
    missing: usize,
    random: &mut Random,
) -> Compared {
    if missing == 0 {
        return Err("it waits for no bytes".to_string());
    }
    let waits = |bytes: &[u8]| {
        let refusal = read_as(edition, bytes).err();
        match refusal.map(|refusal| refusal.number) {
            Some(1) => Ok(()),
            number => Err(format!(
                "{missing} bytes are missing after {before}, and with {} more there is {number:?}",
                bytes.len() - before
            )),
        }
    };
    let len = before + missing - 1;
    waits(&whole[..len.min(whole.len())])?;
    // Long ones are copied now and then.
    if missing > 1 && (len < 1_000 || random.once_in(100)) {
        let mut bytes = whole[..before].to_vec();
        match random.below(3) {
            0 => bytes.resize(len, 0),
            1 => bytes.resize(len, 0xFF),
            _ => bytes.extend(random.bytes(missing - 1)),
        }
        waits(&bytes)?;
    }
    Ok(())
}

/// What the first four bytes of a message tell.
fn header_of(bytes: &[u8]) -> Answer<2> {
    match bytes {
        &[first, second, kind, _, ..] => {
            let id = u16::from_be_bytes([first & 0x0F, second]);
            (0, [kind.into(), id.into()])
        }
        _ => (1, [0, 0]),
    }
}
