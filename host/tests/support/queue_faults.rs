//! Faults of the calls on queues, each of which a comparison has to find.

use super::library::Answer;
use super::queue_calls::{
    AnswerTo, DropLink, Issue, Lent, Open, QueueCalls, Totals, Wanted, Windows, QUEUE_CALLS,
};
use crate::reference::{self, sha256, Body, ALLOWANCE, PEERS};
use std::ops::Range;

/// Every fault, with what it is.
pub fn faults() -> impl Iterator<Item = (&'static str, QueueCalls)> {
    let calls = QUEUE_CALLS;
    planted(OPENINGS, move |open| QueueCalls { open, ..calls })
        .chain(planted(ISSUES, move |issue| QueueCalls { issue, ..calls }))
        .chain(planted(ANSWERS, move |answer| QueueCalls {
            answer,
            ..calls
        }))
        .chain(planted(DROPS, move |drop_link| QueueCalls {
            drop_link,
            ..calls
        }))
        .chain(planted(TOTALS, move |totals| QueueCalls {
            totals,
            ..calls
        }))
}

/// The calls with each of these in its place.
fn planted<C: Copy>(
    faults: &'static [(&'static str, C)],
    plant: impl Fn(C) -> QueueCalls,
) -> impl Iterator<Item = (&'static str, QueueCalls)> {
    faults.iter().map(move |&(what, call)| (what, plant(call)))
}

const OPENINGS: &[(&str, Open)] = &[
    ("a refused opening leaves what was there", |queue, given| {
        let before = *queue;
        let number = (QUEUE_CALLS.open)(queue, given);
        if number != 0 {
            *queue = before;
        }
        number
    }),
    ("a refused opening leaves the hashes", |queue, given| {
        let hashes = queue.hashes;
        let number = (QUEUE_CALLS.open)(queue, given);
        if number != 0 {
            queue.hashes = hashes;
        }
        number
    }),
    ("an accepted opening leaves the hashes", |queue, given| {
        let hashes = queue.hashes;
        let number = (QUEUE_CALLS.open)(queue, given);
        if number == 0 {
            queue.hashes = hashes;
        }
        number
    }),
    (
        "a refused opening gives the others their windows",
        |queue, given| {
            let number = (QUEUE_CALLS.open)(queue, given);
            for (peer, window) in (1..).zip(given.options()) {
                let window = window.unwrap_or(4);
                queue.list(peer)[0] = if window <= 16 { window } else { 0 };
            }
            number
        },
    ),
    ("the window of peer 4 is not looked at", |queue, given| {
        let mut other = *given;
        other.windows[3] = 4;
        let number = (QUEUE_CALLS.open)(queue, &other);
        if let (0, Some(window)) = (number, given.options()[3]) {
            queue.list(4)[0] = window;
        }
        number
    }),
    ("the default is the largest", |queue, given| {
        other_default(queue, given, 16)
    }),
    ("the default is one more", |queue, given| {
        other_default(queue, given, 5)
    }),
    ("a window counts that isn't stated", |queue, given| {
        let stated = 15;
        (QUEUE_CALLS.open)(queue, &Windows { stated, ..*given })
    }),
    ("a bit above counts", |queue, given| {
        match given.stated >> 4 {
            0 => (QUEUE_CALLS.open)(queue, given),
            _ => (QUEUE_CALLS.open)(queue, &Windows::new([Some(0); PEERS])),
        }
    }),
    (
        "the bits are in the order of a number's digits",
        |queue, given| {
            let stated = given.stated.reverse_bits() >> 28;
            (QUEUE_CALLS.open)(queue, &Windows { stated, ..*given })
        },
    ),
];

fn other_default(queue: &mut Lent, given: &Windows, window: u32) -> u32 {
    let windows = given.options().map(|stated| stated.or(Some(window)));
    (QUEUE_CALLS.open)(queue, &Windows::new(windows))
}

const ISSUES: &[(&str, Issue)] = &[
    (
        "the allowance is each peer's own",
        |queue, peer, wanted, out| alone_after(17, queue, peer, wanted, out),
    ),
    (
        "a sound list of one's own is enough",
        |queue, peer, wanted, out| alone_after(22, queue, peer, wanted, out),
    ),
    (
        "lists may exceed the allowance together",
        |queue, peer, wanted, out| {
            let each_sound = (1..=4).all(|peer| {
                let mut copy = *queue;
                alone(&mut copy, peer, |queue| {
                    (QUEUE_CALLS.drop_link)(queue, peer)
                }) == 0
            });
            match (QUEUE_CALLS.issue)(queue, peer, wanted, out) {
                (22, _) if each_sound => (17, [0, 0]),
                answer => answer,
            }
        },
    ),
    (
        "the window is for the requests of all peers",
        |queue, peer, wanted, out| {
            let (before, all) = (*queue, (QUEUE_CALLS.totals)(queue).1[0]);
            match (QUEUE_CALLS.issue)(queue, peer, wanted, out) {
                (0, _) if all >= u64::from(queue.list(peer)[0]) => {
                    *queue = before;
                    (16, [0, 0])
                }
                answer => answer,
            }
        },
    ),
    ("IDs are common", |queue, peer, wanted, out| {
        let answer = (QUEUE_CALLS.issue)(queue, peer, wanted, out);
        let next = queue.list(peer)[1];
        for other in 1..=4 {
            if answer.0 == 0 && queue.list(other)[2] == 0 {
                queue.list(other)[1] = next;
            }
        }
        answer
    }),
    ("peers are numbered from 0", |queue, peer, wanted, out| {
        (QUEUE_CALLS.issue)(queue, peer.wrapping_add(1), wanted, out)
    }),
    ("a peer's number has 8 bits", |queue, peer, wanted, out| {
        (QUEUE_CALLS.issue)(queue, peer & 0xFF, wanted, out)
    }),
    ("a peer's number has 16 bits", |queue, peer, wanted, out| {
        (QUEUE_CALLS.issue)(queue, peer & 0xFFFF, wanted, out)
    }),
    (
        "the place of 23 is the peer",
        |queue, peer, wanted, out| match (QUEUE_CALLS.issue)(queue, peer, wanted, out) {
            (23, _) => (23, [u64::from(peer), 0]),
            answer => answer,
        },
    ),
    (
        "22 comes before 23",
        |queue, peer, wanted, out| match (QUEUE_CALLS.issue)(queue, peer, wanted, out) {
            (23, _) if (QUEUE_CALLS.drop_link)(&mut { *queue }, 1) == 22 => (22, [0, 0]),
            answer => answer,
        },
    ),
    ("the fields come before 23", |queue, peer, wanted, out| {
        fields_before(23, queue, peer, wanted, out)
    }),
    ("the fields come before 22", |queue, peer, wanted, out| {
        fields_before(22, queue, peer, wanted, out)
    }),
    (
        "the allowance comes before the window",
        |queue, peer, wanted, out| {
            let held = (QUEUE_CALLS.totals)(queue).1[1];
            match (QUEUE_CALLS.issue)(queue, peer, wanted, out) {
                (16, answer) if held + u64::from(wanted.length) > ALLOWANCE => (17, answer),
                answer => answer,
            }
        },
    ),
    (
        "the window comes before the name",
        |queue, peer, wanted, out| {
            let [window, _, count, ..] = *queue.list(peer);
            match (QUEUE_CALLS.issue)(queue, peer, wanted, out) {
                (24, _) if count == window => (16, [0, 0]),
                answer => answer,
            }
        },
    ),
    (
        "the room comes before the allowance",
        |queue, peer, wanted, out| match (QUEUE_CALLS.issue)(queue, peer, wanted, out) {
            (17, answer) if out.len() < wanted.request_len() => (14, answer),
            answer => answer,
        },
    ),
    (
        "the place of a text is its word",
        |queue, peer, wanted, out| match (QUEUE_CALLS.issue)(queue, peer, wanted, out) {
            (7, [place, id]) => (7, [place & !3, id]),
            answer => answer,
        },
    ),
    ("a refused issue uses an ID", |queue, peer, wanted, out| {
        let answer = (QUEUE_CALLS.issue)(queue, peer, wanted, out);
        let [_, next, count, ..] = queue.list(peer);
        if answer.0 == 14 && *count == 0 {
            *next = (*next + 1) % 4096;
        }
        answer
    }),
    (
        "a refused issue keeps the hash",
        |queue, peer, wanted, out| {
            let number = queue.list(peer)[2].min(15) as usize;
            let answer = (QUEUE_CALLS.issue)(queue, peer, wanted, out);
            if let (14, Ok(hash)) = (answer.0, wanted.hash[..].try_into()) {
                queue.hashes(peer)[number] = hash;
            }
            answer
        },
    ),
    (
        "a hash is kept the other way round",
        |queue, peer, wanted, out| {
            let answer = (QUEUE_CALLS.issue)(queue, peer, wanted, out);
            move_hash(queue, peer, &answer, |hashes, number| {
                hashes[number].reverse()
            });
            answer
        },
    ),
    (
        "a hash is kept at the entry after its own",
        |queue, peer, wanted, out| {
            let answer = (QUEUE_CALLS.issue)(queue, peer, wanted, out);
            let after = |hashes: &mut [_; 16], number| hashes.swap(number, (number + 1) % 16);
            move_hash(queue, peer, &answer, after);
            answer
        },
    ),
    (
        "a hash is kept at the peer after its own",
        |queue, peer, wanted, out| {
            let answer = (QUEUE_CALLS.issue)(queue, peer, wanted, out);
            if answer.0 == 0 {
                let (own, next) = (*queue.hashes(peer), *queue.hashes(peer + 1));
                (*queue.hashes(peer), *queue.hashes(peer + 1)) = (next, own);
            }
            answer
        },
    ),
];

/// The entry of a peer's newest request, or the first where there is none.
fn newest(queue: &mut Lent, peer: u32) -> usize {
    queue.list(peer)[2].clamp(1, 16) as usize - 1
}

/// Changes the hashes of a peer, where an issue was accepted, at the entry of that.
fn move_hash(
    queue: &mut Lent,
    peer: u32,
    issued: &Answer<2>,
    change: impl FnOnce(&mut [[u8; 32]; 16], usize),
) {
    if issued.0 == 0 {
        let number = newest(queue, peer);
        change(queue.hashes(peer), number);
    }
}

/// Issues as if there were no other peers, where this is how it is refused with them.
fn alone_after(
    refusal: u32,
    queue: &mut Lent,
    peer: u32,
    wanted: &Wanted,
    out: &mut [u8],
) -> Answer<2> {
    match (QUEUE_CALLS.issue)(queue, peer, wanted, out) {
        (number, _) if number == refusal => alone(queue, peer, |queue| {
            (QUEUE_CALLS.issue)(queue, peer, wanted, out)
        }),
        answer => answer,
    }
}

/// Issues, but what the fields give comes before this refusal.
fn fields_before(
    refusal: u32,
    queue: &mut Lent,
    peer: u32,
    wanted: &Wanted,
    out: &mut [u8],
) -> Answer<2> {
    let of_fields = (QUEUE_CALLS.issue)(&mut opened(), 1, wanted, &mut [0; 400]);
    match (QUEUE_CALLS.issue)(queue, peer, wanted, out) {
        (number, _) if number == refusal && of_fields.0 != 0 => of_fields,
        answer => answer,
    }
}

/// An empty queue.
fn opened() -> Lent {
    let mut queue = Lent::filled(0);
    let opened = (QUEUE_CALLS.open)(&mut queue, &Windows::new([None; PEERS]));
    assert_eq!(opened, 0);
    queue
}

/// Makes a call at a queue that has only this peer's list, where the others are empty, and puts that back.
fn alone<T>(queue: &mut Lent, peer: u32, call: impl FnOnce(&mut Lent) -> T) -> T {
    let mut other = opened();
    *other.list(peer) = *queue.list(peer);
    *other.hashes(peer) = *queue.hashes(peer);
    let answer = call(&mut other);
    *queue.list(peer) = *other.list(peer);
    *queue.hashes(peer) = *other.hashes(peer);
    answer
}

const ANSWERS: &[(&str, AnswerTo)] = &[
    (
        "the room is kept after the wrong size",
        |queue, peer, message| keep_after(2, queue, peer, message),
    ),
    (
        "the room is kept after the wrong content",
        |queue, peer, message| keep_after(3, queue, peer, message),
    ),
    (
        "the last byte of a hash isn't compared",
        |queue, peer, message| alike(queue, peer, message, 0..31),
    ),
    (
        "the first byte of a hash isn't compared",
        |queue, peer, message| alike(queue, peer, message, 1..32),
    ),
    ("one word of a hash is compared", |queue, peer, message| {
        alike(queue, peer, message, 12..16)
    }),
    ("all content is right", |queue, peer, message| {
        alike(queue, peer, message, 0..0)
    }),
    (
        "the content is looked at before the length",
        |queue, peer, message| checked_first(queue, peer, message, 2),
    ),
    (
        "the content is looked at where there is none",
        |queue, peer, message| checked_first(queue, peer, message, 1),
    ),
    (
        "the hash of the newest request is compared",
        |queue, peer, message| {
            let number = newest(queue, peer);
            let other = queue.hashes(peer)[number];
            with_hash(queue, peer, message, other)
        },
    ),
    (
        "the hash of another peer's request is compared",
        |queue, peer, message| {
            let other = queue.hashes(peer.wrapping_add(1))[0];
            with_hash(queue, peer, message, other)
        },
    ),
    (
        "any peer's oldest request will do",
        |queue, peer, message| match (QUEUE_CALLS.answer)(queue, peer, message) {
            (20, answer) => (1..=4)
                .map(|other| (QUEUE_CALLS.answer)(queue, other, message))
                .find(|answer| answer.0 == 0)
                .unwrap_or((20, answer)),
            answer => answer,
        },
    ),
    (
        "a sound list of one's own is enough",
        |queue, peer, message| match (QUEUE_CALLS.answer)(queue, peer, message) {
            (22, _) => alone(queue, peer, |queue| {
                (QUEUE_CALLS.answer)(queue, peer, message)
            }),
            answer => answer,
        },
    ),
    ("peers are counted round", |queue, peer, message| {
        (QUEUE_CALLS.answer)(queue, (peer.wrapping_sub(1) & 3) + 1, message)
    }),
    (
        "reading comes before 23",
        |queue, peer, message| match (QUEUE_CALLS.answer)(queue, peer, message) {
            (23, mut answer) => match reference::read(message) {
                Ok(_) => (23, answer),
                Err(refusal) => {
                    answer[0] = refusal.place as u64;
                    (refusal.number, answer)
                }
            },
            answer => answer,
        },
    ),
    (
        "that there are none comes before reading",
        |queue, peer, message| match (QUEUE_CALLS.answer)(queue, peer, message) {
            (1..=18, _) if queue.list(peer)[2] == 0 => (20, [0; 5]),
            answer => answer,
        },
    ),
    ("the hashes stay where they are", |queue, peer, message| {
        let hashes = queue.hashes;
        let answer = (QUEUE_CALLS.answer)(queue, peer, message);
        queue.hashes = hashes;
        answer
    }),
    ("the hashes of all peers move", |queue, peer, message| {
        let answer = (QUEUE_CALLS.answer)(queue, peer, message);
        if answer.0 == 0 {
            queue.hashes(peer + 1).copy_within(1.., 0);
        }
        answer
    }),
    ("the last hash stays", |queue, peer, message| {
        let last = queue.hashes(peer)[15];
        let answer = (QUEUE_CALLS.answer)(queue, peer, message);
        queue.hashes(peer)[15] = last;
        answer
    }),
    (
        "the first hash of the next peer moves in",
        |queue, peer, message| {
            let next = queue.hashes(peer.wrapping_add(1))[0];
            let answer = (QUEUE_CALLS.answer)(queue, peer, message);
            if answer.0 == 0 {
                queue.hashes(peer)[15] = next;
            }
            answer
        },
    ),
    (
        "a refused answer moves the hashes",
        |queue, peer, message| {
            let answer = (QUEUE_CALLS.answer)(queue, peer, message);
            if answer.0 == 20 {
                queue.hashes(peer).copy_within(1.., 0);
            }
            answer
        },
    ),
    (
        "a hash that begins with a zero isn't sound",
        |queue, peer, message| match (QUEUE_CALLS.answer)(&mut { *queue }, peer, message) {
            (0, _) if queue.hashes(peer)[0][0] == 0 => (22, [0; 5]),
            _ => (QUEUE_CALLS.answer)(queue, peer, message),
        },
    ),
    (
        "the place of a pad is the length word",
        |queue, peer, message| match (QUEUE_CALLS.answer)(queue, peer, message) {
            (6, mut answered) => {
                answered[0] = 4;
                (6, answered)
            }
            answer => answer,
        },
    ),
];

/// Answers, but for this outcome nothing is released.
fn keep_after(outcome: u64, queue: &mut Lent, peer: u32, message: &[u8]) -> Answer<5> {
    let before = *queue;
    let answer = (QUEUE_CALLS.answer)(queue, peer, message);
    if answer.0 == 0 && answer.1[0] == outcome {
        *queue = before;
    }
    answer
}

/// The data of a Response that is read.
fn data_of(message: &[u8]) -> Option<&[u8]> {
    match reference::read(message).ok()?.body {
        Body::Response { data } => Some(data.of(message)),
        _ => None,
    }
}

/// What is answered where the content is right as soon as these bytes of the hash are.
fn alike(queue: &mut Lent, peer: u32, message: &[u8], bytes: Range<usize>) -> Answer<5> {
    let hash = queue.hashes(peer)[0];
    let (number, answer) = (QUEUE_CALLS.answer)(queue, peer, message);
    match (number, answer[0], data_of(message)) {
        (0, 3, Some(data)) if sha256(data)[bytes.clone()] == hash[bytes] => {
            (0, [0, answer[1], answer[2], 8, data.len() as u64])
        }
        _ => (number, answer),
    }
}

/// What is answered where the content is looked at before what gives this outcome.
fn checked_first(queue: &mut Lent, peer: u32, message: &[u8], outcome: u64) -> Answer<5> {
    let hash = queue.hashes(peer)[0];
    let (number, mut answer) = (QUEUE_CALLS.answer)(queue, peer, message);
    if let Some(data) = data_of(message).filter(|_| number == 0 && answer[0] == outcome) {
        if sha256(data) != hash {
            answer[0] = 3;
        }
    }
    (number, answer)
}

/// What is answered where the oldest request asks for this hash.
fn with_hash(queue: &mut Lent, peer: u32, message: &[u8], hash: [u8; 32]) -> Answer<5> {
    let mut other = *queue;
    other.hashes(peer)[0] = hash;
    let answer = (QUEUE_CALLS.answer)(queue, peer, message);
    match (QUEUE_CALLS.answer)(&mut other, peer, message) {
        (0, words) => (0, words),
        _ => answer,
    }
}

const DROPS: &[(&str, DropLink)] = &[
    ("a drop frees the requests of all peers", |queue, peer| {
        let number = (QUEUE_CALLS.drop_link)(queue, peer);
        for other in 1..=4 {
            if number == 0 {
                assert_eq!((QUEUE_CALLS.drop_link)(queue, other), 0);
            }
        }
        number
    }),
    ("a drop frees the hashes of all peers", |queue, peer| {
        let number = (QUEUE_CALLS.drop_link)(queue, peer);
        if number == 0 {
            queue.hashes.fill(0);
        }
        number
    }),
    (
        "a drop frees the next peer's requests",
        |queue, peer| match (QUEUE_CALLS.drop_link)(&mut { *queue }, peer) {
            0 => (QUEUE_CALLS.drop_link)(queue, peer % 4 + 1),
            number => number,
        },
    ),
    (
        "no such peer is all peers",
        |queue, peer| match (QUEUE_CALLS.drop_link)(queue, peer) {
            23 => (1..=4)
                .map(|peer| (QUEUE_CALLS.drop_link)(queue, peer))
                .max()
                .unwrap(),
            number => number,
        },
    ),
    (
        "a sound list of one's own is enough",
        |queue, peer| match (QUEUE_CALLS.drop_link)(queue, peer) {
            22 => alone(queue, peer, |queue| (QUEUE_CALLS.drop_link)(queue, peer)),
            number => number,
        },
    ),
    ("a drop asks for something to be dropped", |queue, peer| {
        let count = queue.list(peer)[2];
        match (QUEUE_CALLS.drop_link)(queue, peer) {
            0 if count == 0 => 20,
            number => number,
        }
    }),
    ("dropped requests leave their hashes", |queue, peer| {
        let hashes = queue.hashes;
        let number = (QUEUE_CALLS.drop_link)(queue, peer);
        queue.hashes = hashes;
        number
    }),
    (
        "a drop leaves the hashes of unused entries",
        |queue, peer| {
            let (hashes, used) = (*queue.hashes(peer), queue.list(peer)[2].min(16));
            let number = (QUEUE_CALLS.drop_link)(queue, peer);
            let used = used as usize;
            queue.hashes(peer)[used..].copy_from_slice(&hashes[used..]);
            number
        },
    ),
    (
        "IDs start again at 0 when the link is dropped",
        |queue, peer| {
            let number = (QUEUE_CALLS.drop_link)(queue, peer);
            if number == 0 {
                queue.list(peer)[1] = 0;
            }
            number
        },
    ),
];

const TOTALS: &[(&str, Totals)] = &[
    ("requests above the count have bytes", |queue| {
        let (number, mut totals) = (QUEUE_CALLS.totals)(queue);
        let lengths = { *queue }.list(1)[3..]
            .chunks(2)
            .map(|entry| u64::from(entry[1]))
            .sum();
        totals[1] += lengths - totals[3];
        totals[3] = lengths;
        (number, totals)
    }),
    ("a count is as it stands", |queue| {
        let (number, mut totals) = (QUEUE_CALLS.totals)(queue);
        for peer in 1..=4 {
            totals[2 * peer as usize] = u64::from({ *queue }.list(peer)[2]);
        }
        (number, totals)
    }),
    ("what is common is peer 1's", |queue| {
        let (number, mut totals) = (QUEUE_CALLS.totals)(queue);
        totals.copy_within(2..4, 0);
        (number, totals)
    }),
    ("the peers come in the other order", |queue| {
        let (number, mut totals) = (QUEUE_CALLS.totals)(queue);
        totals[2..].as_chunks_mut::<2>().0.reverse();
        (number, totals)
    }),
    ("a sum has 32 bits", |queue| {
        let (number, mut totals) = (QUEUE_CALLS.totals)(queue);
        totals[1] &= u64::from(u32::MAX);
        (number, totals)
    }),
];
