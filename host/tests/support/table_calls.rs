//! Compares the calls on tables with the reference.

use super::compare::{self, expected, file_words, same, Compared};
use super::library::{ffi, written, Answer, UNSET};
use super::random::Random;
use crate::reference;
use std::cmp::Ordering;
use std::collections::BTreeMap;

/// Old table, message, repository, buffer.
pub type Accept = fn(&[u8], &[u8], &[u8], &mut [u8]) -> Answer<1>;

/// The calls under test. Faults are planted by exchanging one of them.
#[derive(Clone, Copy)]
pub struct TableCalls {
    pub is_good: fn(&[u8]) -> bool,
    pub compare: fn(&[u8], usize, &[u8], usize) -> Answer<1>,
    pub merge: fn(&[u8], &[u8], &mut [u8]) -> Answer<1>,
    pub accept: Accept,
    pub step: fn(&[u8], usize) -> Answer<8>,
}

/// The library as it is.
pub const TABLE_CALLS: TableCalls = TableCalls {
    is_good: fordtrumpet::raw::is_good,
    compare,
    merge,
    accept,
    step,
};

fn compare(a: &[u8], i: usize, b: &[u8], j: usize) -> Answer<1> {
    let mut answer = [UNSET];
    // SAFETY: each pointer and length are those of one slice.
    let number =
        unsafe { ffi::bep_compare(a.as_ptr(), a.len(), i, b.as_ptr(), b.len(), j, &mut answer) };
    (number, answer)
}

fn merge(a: &[u8], b: &[u8], out: &mut [u8]) -> Answer<1> {
    written(fordtrumpet::raw::merge(a, b, out))
}

fn accept(old: &[u8], message: &[u8], repository: &[u8], out: &mut [u8]) -> Answer<1> {
    written(fordtrumpet::raw::accept(old, message, repository, out))
}

fn step(table: &[u8], at: usize) -> Answer<8> {
    let mut answer = [UNSET; 8];
    // SAFETY: pointer and length are those of one slice.
    let number = unsafe { ffi::bep_step(table.as_ptr(), table.len(), at, &mut answer) };
    (number, answer)
}

/// Compares and counts.
pub struct TableComparison {
    calls: TableCalls,
    /// The number of calls compared.
    pub compared: u64,
    /// How often a call answered with a number.
    pub seen: BTreeMap<(&'static str, u32), u64>,
}

impl TableComparison {
    pub fn new(calls: TableCalls) -> Self {
        TableComparison {
            calls,
            compared: 0,
            seen: BTreeMap::new(),
        }
    }

    fn met(&mut self, call: &'static str, number: u32) {
        self.compared += 1;
        *self.seen.entry((call, number)).or_default() += 1;
    }

    pub fn is_good(&mut self, table: &[u8]) -> Compared {
        let good = reference::is_good(table);
        self.met("is_good", u32::from(good));
        same("is_good", &(self.calls.is_good)(table), &good)
    }

    /// The records at two places.
    pub fn compare(&mut self, a: &[u8], i: usize, b: &[u8], j: usize) -> Compared {
        let expected = match (
            reference::file_or_missing(a, i),
            reference::file_or_missing(b, j),
        ) {
            (Ok(f), Ok(g)) => match reference::compare(a, &f, b, &g) {
                Ordering::Less => (0, [0]),
                Ordering::Equal => (0, [1]),
                Ordering::Greater => (0, [2]),
            },
            (Err(missing), _) | (_, Err(missing)) => (1, [missing as u64]),
        };
        self.met("compare", expected.0);
        same("bep_compare", &(self.calls.compare)(a, i, b, j), &expected)
    }

    /// Each record of one table with each of another.
    pub fn compare_all(&mut self, a: &[u8], b: &[u8]) -> Compared {
        let mut i = 4;
        while let Some(f) = reference::file_at(a, i) {
            let mut j = 4;
            while let Some(g) = reference::file_at(b, j) {
                self.compare(a, i, b, j)?;
                j = g.end;
            }
            i = f.end;
        }
        self.compare(a, i, b, 4)
    }

    /// Merges into buffers that fit, are too short and are longer.
    pub fn merge(&mut self, a: &[u8], b: &[u8], random: &mut Random) -> Compared {
        let room = a.len() + b.len() + random.below(9);
        let calls = self.calls;
        let call = |out: &mut [u8]| (calls.merge)(a, b, out);
        let reference = |out: &mut [u8]| expected(reference::merge(a, b, out));
        self.fill_all("merge", room, random, call, reference)
    }

    /// Accepts into buffers that fit, are too short and are longer.
    pub fn accept(
        &mut self,
        old: &[u8],
        message: &[u8],
        repository: &[u8],
        random: &mut Random,
    ) -> Compared {
        let room = old.len() + message.len() + random.below(9);
        let calls = self.calls;
        let call = |out: &mut [u8]| (calls.accept)(old, message, repository, out);
        let reference = |out: &mut [u8]| expected(reference::accept(old, message, repository, out));
        self.fill_all("accept", room, random, call, reference)
    }

    /// What stands at a place of a table.
    pub fn step(&mut self, table: &[u8], at: usize) -> Compared {
        let expected = match reference::step(table, at) {
            Ok(Some(file)) => file_words(Ok(file)),
            Ok(None) => (0, [0; 8]),
            Err(refusal) => (refusal.number, [0; 8]),
        };
        self.met("step", expected.0);
        same("bep_step", &(self.calls.step)(table, at), &expected)
    }

    /// Steps through a table, safely too, and looks at a place beside each record.
    pub fn walk(&mut self, table: &[u8], random: &mut Random) -> Compared {
        let mut walker = fordtrumpet::raw::Walker::open(table);
        let mut at = 4;
        loop {
            self.step(table, at)?;
            self.step(table, at + 1 + random.below(60))?;
            same("the walker's place", &walker.place(), &at)?;
            let safe = walker.step();
            let file = match reference::step(table, at) {
                Ok(Some(file)) => file,
                Ok(None) => return same("the walker's end", &safe.map(|f| f.is_none()), &Ok(true)),
                Err(refusal) => {
                    let number = safe.map(|_| ()).map_err(|refusal| refusal.number());
                    return same("the walker's refusal", &number, &Err(refusal.number));
                }
            };
            let bytes = safe.ok().flatten().map(|file| file.as_bytes());
            same("the walker's record", &bytes, &Some(&table[at..file.end]))?;
            at = file.end;
        }
    }

    /// A call that fills a buffer, with one that is large enough, one that just fits and some that don't.
    pub fn fill_all(
        &mut self,
        what: &'static str,
        room: usize,
        random: &mut Random,
        call: impl Fn(&mut [u8]) -> Answer<1>,
        reference: impl Fn(&mut [u8]) -> Answer<1>,
    ) -> Compared {
        let answer = self.fill(what, room, random, &call, &reference)?;
        let len = match answer {
            (0, [len]) => len as usize,
            _ => random.below(room + 1),
        };
        for room in [len, len.saturating_sub(1), random.below(len + 1)] {
            self.fill(what, room, random, &call, &reference)?;
        }
        Ok(())
    }

    /// A call that fills a buffer of `room` bytes, which lies between bytes that must stay as they are.
    pub fn fill(
        &mut self,
        what: &'static str,
        room: usize,
        random: &mut Random,
        call: impl Fn(&mut [u8]) -> Answer<1>,
        reference: impl Fn(&mut [u8]) -> Answer<1>,
    ) -> Result<Answer<1>, String> {
        let answer = compare::fill(room, random, call, reference)
            .map_err(|difference| format!("{what}: {difference}"))?;
        self.met(what, answer.0);
        Ok(answer)
    }
}
