//! Compares the calls on queues with the reference.

use super::compare::{same, same_bytes, Compared};
use super::library::{ffi, Answer, UNSET};
use super::random::Random;
use crate::reference::{
    self, Answered, Asked, Issued, List, Outcome, Outstanding, Queue, ALLOWANCE, PEERS,
};
use std::array;
use std::collections::BTreeMap;
use std::ops::Range;

/// A queue as it is lent.
#[derive(Clone, Copy, Debug, PartialEq, Eq)]
pub struct Lent {
    pub words: [u32; ffi::QUEUE_WORDS],
    pub hashes: [u8; ffi::QUEUE_HASHES],
}

impl Lent {
    /// One whose words are all this one, and the bytes of its hashes too.
    pub fn filled(byte: u8) -> Self {
        Lent {
            words: [u32::from(byte); ffi::QUEUE_WORDS],
            hashes: [byte; ffi::QUEUE_HASHES],
        }
    }

    /// The words of a peer's list. A number that no peer has leads to some list too.
    pub fn list(&mut self, peer: u32) -> &mut [u32; ffi::PEER_WORDS] {
        &mut self.words.as_chunks_mut().0[place_of(peer)]
    }

    /// The hashes of a peer's entries.
    pub fn hashes(&mut self, peer: u32) -> &mut [[u8; 32]; 16] {
        let hashes = self.hashes.as_chunks_mut().0;
        &mut hashes.as_chunks_mut().0[place_of(peer)]
    }
}

/// Where a peer's list stands among the four.
pub fn place_of(peer: u32) -> usize {
    peer.wrapping_sub(1) as usize % PEERS
}

/// The fields of a Request to be issued.
#[derive(Clone, Debug)]
pub struct Wanted {
    pub repository: Vec<u8>,
    pub name: Vec<u8>,
    pub offset: u64,
    pub length: u32,
    pub hash: Vec<u8>,
}

impl Wanted {
    /// As the reference is given them.
    pub fn asked(&self) -> Asked<'_> {
        Asked {
            repository: &self.repository,
            name: &self.name,
            offset: self.offset,
            length: self.length,
            hash: &self.hash,
        }
    }

    /// The bytes of a Request with these fields, as far as they may have their lengths.
    pub fn request_len(&self) -> usize {
        let padded = |bytes: &[u8]| bytes.len().next_multiple_of(4);
        60 + padded(&self.repository) + padded(&self.name)
    }
}

/// The windows of an opening, and the bits of those that are stated.
#[derive(Clone, Copy, Debug)]
pub struct Windows {
    pub windows: [u32; PEERS],
    pub stated: u32,
}

impl Windows {
    /// One that isn't stated is left at 0, which nobody may look at.
    pub fn new(windows: [Option<u32>; PEERS]) -> Self {
        let bits = windows.iter().zip(0..);
        Windows {
            windows: windows.map(Option::unwrap_or_default),
            stated: bits
                .map(|(window, bit)| u32::from(window.is_some()) << bit)
                .sum(),
        }
    }

    /// As the reference is given them.
    pub fn options(&self) -> [Option<u32>; PEERS] {
        array::from_fn(|number| {
            let is_stated = self.stated >> number & 1 == 1;
            is_stated.then_some(self.windows[number])
        })
    }
}

pub type Open = fn(&mut Lent, &Windows) -> u32;
pub type Issue = fn(&mut Lent, u32, &Wanted, &mut [u8]) -> Answer<2>;
pub type AnswerTo = fn(&mut Lent, u32, &[u8]) -> Answer<5>;
pub type DropLink = fn(&mut Lent, u32) -> u32;
pub type Totals = fn(&Lent) -> Answer<10>;

/// The calls under test, each but the opening and the totals for a peer. Faults are planted by exchanging
/// one of them.
#[derive(Clone, Copy)]
pub struct QueueCalls {
    pub open: Open,
    pub issue: Issue,
    pub answer: AnswerTo,
    pub drop_link: DropLink,
    pub totals: Totals,
}

/// The library as it is.
pub const QUEUE_CALLS: QueueCalls = QueueCalls {
    open,
    issue,
    answer,
    drop_link,
    totals,
};

fn open(queue: &mut Lent, given: &Windows) -> u32 {
    let (words, hashes) = (&mut queue.words, &mut queue.hashes);
    // SAFETY: words, hashes and windows have the sizes asked for. In all calls so has the answer, and each
    // pointer and length are those of one slice.
    unsafe { ffi::bep_queue_open(words, hashes, &given.windows, given.stated) }
}

fn issue(queue: &mut Lent, peer: u32, wanted: &Wanted, out: &mut [u8]) -> Answer<2> {
    let mut answer = [UNSET; 2];
    // SAFETY: as in `open`.
    let number = unsafe {
        ffi::bep_queue_issue(
            out.as_mut_ptr(),
            out.len(),
            &mut queue.words,
            &mut queue.hashes,
            peer,
            wanted.repository.as_ptr(),
            wanted.repository.len(),
            wanted.name.as_ptr(),
            wanted.name.len(),
            wanted.offset,
            wanted.length,
            wanted.hash.as_ptr(),
            wanted.hash.len(),
            &mut answer,
        )
    };
    (number, answer)
}

fn answer(queue: &mut Lent, peer: u32, message: &[u8]) -> Answer<5> {
    let mut answer = [UNSET; 5];
    // SAFETY: as in `open`.
    let number = unsafe {
        ffi::bep_queue_answer(
            &mut queue.words,
            &mut queue.hashes,
            peer,
            message.as_ptr(),
            message.len(),
            &mut answer,
        )
    };
    (number, answer)
}

fn drop_link(queue: &mut Lent, peer: u32) -> u32 {
    // SAFETY: as in `open`.
    unsafe { ffi::bep_queue_drop(&mut queue.words, &mut queue.hashes, peer) }
}

fn totals(queue: &Lent) -> Answer<10> {
    let mut answer = [UNSET; 10];
    // SAFETY: as in `open`.
    let number = unsafe { ffi::bep_queue_totals(&queue.words, &mut answer) };
    (number, answer)
}

/// The reference's queue as it would be lent.
pub fn as_lent(queue: &Queue) -> Lent {
    let mut lent = Lent::filled(0);
    for (peer, list) in (1..).zip(&queue.lists) {
        let [window, next, count, entries @ ..] = lent.list(peer);
        (*window, *next, *count) = (list.window, list.next, list.count);
        for (entry, request) in entries.as_chunks_mut().0.iter_mut().zip(&list.requests) {
            *entry = [request.id, request.length];
        }
        *lent.hashes(peer) = list.requests.map(|request| request.hash);
    }
    lent
}

/// The reference's queue by one that is lent.
pub fn queue_of(lent: &Lent) -> Queue {
    let mut lent = *lent;
    let lists = array::from_fn(|number| {
        let peer = number as u32 + 1;
        let hashes = *lent.hashes(peer);
        let &mut [window, next, count, ref entries @ ..] = lent.list(peer);
        let entries = entries.as_chunks().0;
        let requests = array::from_fn(|number| {
            let ([id, length], hash) = (entries[number], hashes[number]);
            Outstanding { id, length, hash }
        });
        List {
            window,
            next,
            count,
            requests,
        }
    });
    Queue { lists }
}

/// The words of what the reference's queue answered to an issue.
fn issued_words(answer: Result<Issued, reference::Refusal>) -> Answer<2> {
    match answer {
        Ok(Issued { id, len }) => (0, [len as u64, u64::from(id)]),
        Err(refusal) => (refusal.number, [refusal.place as u64, 0]),
    }
}

/// The words of what the reference's queue answered to a Response.
fn answered_words(answer: Result<Answered, reference::Refusal>) -> Answer<5> {
    let Answered { outcome, request } = match answer {
        Ok(answered) => answered,
        Err(refusal) => return (refusal.number, [refusal.place as u64, 0, 0, 0, 0]),
    };
    let (kind, start, len) = match outcome {
        Outcome::Data(data) => (0, data.start as u64, data.len as u64),
        Outcome::NotAvailable => (1, 0, 0),
        Outcome::WrongSize => (2, 0, 0),
        Outcome::WrongContent => (3, 0, 0),
    };
    let (id, length) = (u64::from(request.id), u64::from(request.length));
    (0, [kind, id, length, start, len])
}

/// The number of an opening or a drop.
fn number(answer: Result<(), reference::Refusal>) -> u32 {
    answer.map_or_else(|refusal| refusal.number, |()| 0)
}

/// The reference, at a queue that is lent.
pub const REFERENCE_CALLS: QueueCalls = QueueCalls {
    open: |lent, given| {
        let (queue, answer) = Queue::open(given.options());
        *lent = as_lent(&queue);
        number(answer)
    },
    issue: |lent, peer, wanted, out| {
        issued_words(by_reference(lent, |queue| {
            queue.issue(peer, &wanted.asked(), out)
        }))
    },
    answer: |lent, peer, message| {
        answered_words(by_reference(lent, |queue| queue.answer(peer, message)))
    },
    drop_link: |lent, peer| number(by_reference(lent, |queue| queue.drop_link(peer))),
    totals: |lent| (0, totals_of(&queue_of(lent))),
};

fn by_reference<T>(lent: &mut Lent, call: impl FnOnce(&mut Queue) -> T) -> T {
    let mut queue = queue_of(lent);
    let answer = call(&mut queue);
    *lent = as_lent(&queue);
    answer
}

/// The totals of the reference's queue: of all peers, and then of each.
fn totals_of(queue: &Queue) -> [u64; 10] {
    let mut totals = [0; 10];
    let ([common, each @ ..], []) = totals.as_chunks_mut() else {
        unreachable!("they come in pairs")
    };
    for (total, list) in each.iter_mut().zip(&queue.lists) {
        *total = [list.outstanding().len() as u64, list.bytes()];
        common[0] += total[0];
    }
    common[1] = queue.bytes();
    totals
}

/// How often a call answered with a number. An answer that brought no data counts as 100, one of the wrong
/// size as 200, one of the wrong content as 300. The allowance that others have used counts as 1700, and one
/// that is exceeded by lists that are sound each by itself as 2200.
pub type Seen = BTreeMap<(&'static str, u32), u64>;

/// One queue of each side, compared after every call.
pub struct QueueComparison<'a> {
    calls: QueueCalls,
    lent: Lent,
    pub queue: Queue,
    /// The number of calls compared.
    pub compared: u64,
    seen: &'a mut Seen,
}

impl<'a> QueueComparison<'a> {
    pub fn new(calls: QueueCalls, queue: Queue, seen: &'a mut Seen) -> Self {
        QueueComparison {
            calls,
            lent: as_lent(&queue),
            queue,
            compared: 0,
            seen,
        }
    }

    /// Notes a call, and compares the queues and their totals.
    fn met(&mut self, call: &'static str, number: u32) -> Compared {
        let kind = match number {
            22 if call != "open" && self.queue.lists.iter().all(List::is_sound) => 2200,
            number => number,
        };
        self.compared += 1;
        *self.seen.entry((call, kind)).or_default() += 1;
        let expected = as_lent(&self.queue);
        same("the words", &self.lent.words, &expected.words)?;
        same_bytes("the hashes", &self.lent.hashes, &expected.hashes)?;
        let totals = (0, totals_of(&self.queue));
        same("the totals", &(self.calls.totals)(&self.lent), &totals)
    }

    pub fn open(&mut self, given: &Windows) -> Compared {
        let (queue, answer) = Queue::open(given.options());
        self.queue = queue;
        let given = (self.calls.open)(&mut self.lent, given);
        same("open", &given, &number(answer))?;
        self.met("open", given)
    }

    /// Issues into a buffer of `room` bytes, which lies between bytes that must stay as they are.
    pub fn issue(
        &mut self,
        peer: u32,
        wanted: &Wanted,
        room: usize,
        random: &mut Random,
    ) -> Compared {
        let start = random.below(8);
        let lent = start..start + room;
        let mut expected_memory = random.bytes(start + room + 8);
        let mut memory = expected_memory.clone();
        let given = (self.calls.issue)(&mut self.lent, peer, wanted, &mut memory[lent.clone()]);
        let answer = self
            .queue
            .issue(peer, &wanted.asked(), &mut expected_memory[lent]);
        let expected = issued_words(answer);
        same("issue", &given, &expected)?;
        same_bytes("memory", &memory, &expected_memory)?;
        let own = self.queue.lists[place_of(peer)].bytes();
        let kind = match expected.0 {
            17 if own + u64::from(wanted.length) <= ALLOWANCE => 1700,
            number => number,
        };
        self.met("issue", kind)
    }

    pub fn answer(&mut self, peer: u32, message: &[u8]) -> Compared {
        let given = (self.calls.answer)(&mut self.lent, peer, message);
        let expected = answered_words(self.queue.answer(peer, message));
        let kind = match expected {
            (0, [kind, ..]) => 100 * kind as u32,
            (number, _) => number,
        };
        same("answer", &given, &expected)?;
        self.met("answer", kind)
    }

    pub fn drop_link(&mut self, peer: u32) -> Compared {
        let given = (self.calls.drop_link)(&mut self.lent, peer);
        same("drop", &given, &number(self.queue.drop_link(peer)))?;
        self.met("drop", given)
    }

    /// Somebody writes into the queue.
    pub fn write(&mut self, at: usize, word: u32) {
        self.lent.words[at] = word;
        self.queue = queue_of(&self.lent);
    }

    /// Somebody writes into the hashes, of unused entries too. A sound queue stays so.
    pub fn write_hashes(&mut self, at: Range<usize>, random: &mut Random) {
        random.fill(&mut self.lent.hashes[at]);
        self.queue = queue_of(&self.lent);
    }
}
