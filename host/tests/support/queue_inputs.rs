//! Calls on queues, made by chance.

use super::contents::{content, data_with};
use super::damage;
use super::draft::{Body, Draft};
use super::generate::{draft, name};
use super::library::ffi::{PEER_WORDS, QUEUE_HASHES};
use super::names::spoil;
use super::queue_calls::{place_of, Wanted, Windows};
use super::random::Random;
use crate::reference::{sha256, List, Queue, PEERS};
use std::ops::Range;

/// Numbers that no peer has. Some of them end in the bits of one that a peer has.
const NO_PEERS: [u32; 8] = [0, 5, 6, 8, 257, 1 << 16 | 2, 1 << 31 | 3, u32::MAX];

/// What the calls of one list have in common.
#[derive(Clone, Copy)]
pub struct Habits {
    /// Blocks as large as may be, so that the allowance is used up; or small ones, so that windows are.
    pub large: bool,
    /// The peer that most calls are for.
    pub favourite: u32,
}

impl Habits {
    pub fn new(random: &mut Random) -> Self {
        Habits {
            large: random.once_in(3),
            favourite: any_peer(random),
        }
    }

    pub fn peer(&self, random: &mut Random) -> u32 {
        match random.below(30) {
            0 => random.pick(&NO_PEERS),
            1..15 => self.favourite,
            _ => any_peer(random),
        }
    }
}

pub fn any_peer(random: &mut Random) -> u32 {
    1 + random.below(PEERS) as u32
}

/// A queue to start with: sound, with any windows and next IDs, and with few requests outstanding or many.
pub fn starting(random: &mut Random, habits: Habits) -> Queue {
    let mut queue = Queue::default();
    for list in &mut queue.lists {
        list.window = random.pick(&[1, 2, 4, 5, 15, 16, 16, 16]);
        list.next = random.pick(&[0, 0, 7, 4090, 4094, 4095]);
    }
    for _ in 0..random.pick(&[0, 0, 4, 60]) {
        let (peer, wanted) = (any_peer(random), wanted(random, habits.large));
        // Where it is refused there is one less.
        let _ = queue.issue(peer, &wanted.asked(), &mut [0; 400]);
    }
    queue
}

/// The windows of an opening. Those that aren't stated are any, and so are the bits above.
pub fn windows(random: &mut Random) -> Windows {
    let any = [0, 1, 4, 16, 17, 256 + 4, u32::MAX];
    let mut stated = random.word() & random.pick(&[15, 15, u32::MAX]);
    let mut windows = [0; PEERS].map(|_| 1 + random.word() % 16);
    for (number, window) in windows.iter_mut().enumerate() {
        if stated >> number & 1 == 0 {
            *window = random.pick(&any);
        }
    }
    if random.once_in(3) {
        let number = random.below(PEERS);
        windows[number] = random.pick(&any);
        stated |= 1 << number;
    }
    Windows { windows, stated }
}

/// The fields of a Request, wrong now and then. Of the hash nothing is asked but its length: it is that of
/// data of this length, or nearly so, or of data of another length, or of none.
pub fn wanted(random: &mut Random, large: bool) -> Wanted {
    let content = content(random, large);
    let mut wanted = Wanted {
        repository: b"default".to_vec(),
        name: name(random),
        offset: random.pick(&[0, 131_072, u64::MAX]),
        length: content.length,
        hash: content.hash.to_vec(),
    };
    match random.below(24) {
        0 => wanted.hash = random.bytes(32),
        1 => wanted.hash = sha256(b"").to_vec(),
        2 => {
            let at = random.below(32);
            wanted.hash[random.pick(&[0, 31, at])] ^= 1 << random.below(8);
        }
        3 if !large => wanted.length = 1 + random.word() % 140,
        _ => {}
    }
    match random.below(40) {
        0 => wanted.length = random.pick(&[0, 131_073, u32::MAX]),
        1 => wanted.name = vec![b'a'; 256],
        2 => wanted.name.push(0xFF),
        3 => wanted.repository = vec![b'a'; random.pick(&[64, 65])],
        4 => drop(wanted.hash.pop()),
        5 => wanted.name.clear(),
        6 => spoil(&mut wanted.name, random),
        _ => {}
    }
    wanted
}

/// The room for a Request: too little now and then.
pub fn room(random: &mut Random, wanted: &Wanted) -> usize {
    let len = wanted.request_len();
    match random.below(10) {
        0 => random.below(len),
        1 => len - 1,
        2 => len,
        _ => len + random.below(9),
    }
}

/// A Response to a peer's oldest request, or to another one, or something else.
pub fn message(random: &mut Random, queue: &Queue, peer: u32) -> Vec<u8> {
    let number = match random.below(12) {
        0 => random.below(PEERS),
        _ => place_of(peer),
    };
    let list = &queue.lists[number];
    let id = match random.below(8) {
        0 => random.word() % 4096,
        1 => list.next % 4096,
        2 => list.requests[1].id % 4096,
        _ => list.requests[0].id % 4096,
    };
    let data = data(random, list);
    let body = Body::Response { data };
    let mut message = match random.below(12) {
        0 => draft(random).encode(),
        _ => Draft::new(id, body).encode(),
    };
    if random.once_in(10) {
        damage::encoding(&mut message, random);
    }
    message.bytes
}

/// The data that the oldest request of a list asks for, or others.
fn data(random: &mut Random, list: &List) -> Vec<u8> {
    let oldest = list.requests[0];
    // Long data are seldom, since they take long to hash.
    let len = match random.below(4) {
        0 => 0,
        1 => random.below(40),
        _ if oldest.length > 140 && !random.once_in(60) => 0,
        _ => oldest.length.min(131_072) as usize,
    };
    let mut data = match data_with(&oldest.hash) {
        // Those that are asked for. They have another length now and then.
        Some(data) if data.len() == len => data.to_vec(),
        Some(data) if len > 0 && data.len() <= 140 && random.once_in(2) => data.to_vec(),
        _ => random.bytes(len),
    };
    if !data.is_empty() && random.once_in(6) {
        let at = random.below(data.len());
        data[at] ^= 1 << random.below(8);
    }
    data
}

/// A place among the words of a queue, and what somebody writes there. It may leave the queue sound.
pub fn written_word(random: &mut Random, queue: &Queue) -> (usize, u32) {
    let number = random.below(PEERS);
    let list = &queue.lists[number];
    let used = list.outstanding().len();
    let at = match random.below(4) {
        0 => random.below(3),
        1 if used > 0 => 3 + random.below(2 * used),
        2 if used > 0 => {
            // A Length that may exceed the allowance, which is common.
            let at = 4 + 2 * random.below(used);
            return (number * PEER_WORDS + at, 131_072);
        }
        _ => random.below(PEER_WORDS),
    };
    let near = list.next;
    let word = random.pick(&[
        0,
        1,
        16,
        17,
        near,
        near.wrapping_add(1),
        4095,
        4096,
        131_072,
        u32::MAX,
    ]);
    (number * PEER_WORDS + at, word)
}

/// Hashes that somebody writes over: all, one byte of a peer's oldest, or one of any.
pub fn written_hashes(random: &mut Random) -> Range<usize> {
    let one = |at: usize| at..at + 1;
    match random.below(4) {
        0..2 => 0..QUEUE_HASHES,
        2 => one(random.below(PEERS) * (QUEUE_HASHES / PEERS) + random.below(32)),
        _ => one(random.below(QUEUE_HASHES)),
    }
}
