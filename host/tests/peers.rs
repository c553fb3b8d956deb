//! What holds of four peers that share one allowance, over lists of calls.
//!
//! `SOAK=N` makes N/4 pairs of runs instead of the usual number; `SOAK_FROM=M` starts with number M.

mod reference;
mod support;

use fordtrumpet::MAX_BLOCK;
use reference::{Queue, ALLOWANCE, PEERS};
use std::collections::BTreeMap;
use std::io::Write;
use std::iter;
use support::queue_calls::{
    place_of, queue_of, Lent, QueueCalls, Wanted, Windows, QUEUE_CALLS, REFERENCE_CALLS,
};
use support::queue_inputs::{any_peer, message, room, wanted, Habits};
use support::random::Random;
use support::settings::setting;

const LISTS: u64 = 5_000;
const CALLS: usize = 60;
const SEED: u64 = 0xF0E5_0000_0000_0000;

/// A call for a peer.
enum Call {
    Issue(Wanted, usize),
    Answer(Vec<u8>),
    Drop,
}

/// What a peer gets to see of a call: the number, the answer's words and the lent buffer.
type Told = (u32, Vec<u64>, Vec<u8>);

/// How often a number was got.
type Seen = BTreeMap<u32, u64>;

impl Call {
    fn new(random: &mut Random, queue: &Queue, peer: u32, large: bool) -> Self {
        match random.below(20) {
            0 => Call::Drop,
            1..9 => Call::Answer(message(random, queue, peer)),
            _ => {
                let wanted = wanted(random, large);
                let room = room(random, &wanted);
                Call::Issue(wanted, room)
            }
        }
    }

    fn make(&self, calls: QueueCalls, queue: &mut Lent, peer: u32) -> Told {
        match self {
            Call::Issue(wanted, room) => {
                let mut out = vec![0xD7; *room];
                let (number, answer) = (calls.issue)(queue, peer, wanted, &mut out);
                (number, answer.to_vec(), out)
            }
            Call::Answer(message) => {
                let (number, answer) = (calls.answer)(queue, peer, message);
                (number, answer.to_vec(), Vec::new())
            }
            Call::Drop => ((calls.drop_link)(queue, peer), Vec::new(), Vec::new()),
        }
    }
}

/// Asks for so many bytes. The other fields don't matter.
fn of_length(length: u32) -> Call {
    let wanted = Wanted {
        repository: Vec::new(),
        name: b"n".to_vec(),
        offset: 0,
        length,
        hash: vec![0xA7; 32],
    };
    let room = wanted.request_len();
    Call::Issue(wanted, room)
}

/// The bytes that all peers have outstanding.
fn total(calls: QueueCalls, queue: &Lent) -> u64 {
    (calls.totals)(queue).1[1]
}

/// A queue that is opened with this window for a peer. The others have any that hold the allowance.
fn opened(calls: QueueCalls, random: &mut Random, peer: u32, window: Option<u32>) -> Lent {
    let mut windows = [(); PEERS].map(|()| random.pick(&[None, Some(2), Some(5), Some(16)]));
    windows[place_of(peer)] = window;
    let mut queue = Lent::filled(0xD7);
    assert_eq!((calls.open)(&mut queue, &Windows::new(windows)), 0);
    queue
}

/// Gives the other peers so many bytes outstanding, shared out by chance.
fn share_out(calls: QueueCalls, random: &mut Random, queue: &mut Lent, peer: u32, bytes: u64) {
    let mut free = Vec::new();
    for other in (1..=PEERS as u32).filter(|&other| other != peer) {
        assert_eq!((calls.drop_link)(queue, other), 0);
        free.extend(iter::repeat_n(other, queue.list(other)[0] as usize));
    }
    let (mut left, most) = (bytes as usize, MAX_BLOCK);
    while left > 0 {
        let other = free.swap_remove(random.below(free.len()));
        // What the places that are left can't take has to go here.
        let least = left.saturating_sub(free.len() * most).max(1);
        let length = least + random.below(left.min(most) - least + 1);
        let (number, ..) = of_length(length as u32).make(calls, queue, other);
        assert_eq!(number, 0, "{length} of {left} bytes to peer {other}");
        left -= length;
    }
}

/// Two runs in which a peer has the same window, makes the same calls and finds the same total before each.
/// In the first the others make calls by chance; in the second they have other windows and requests, and as
/// many bytes. The numbers that the peer got are counted; an error is what it was told otherwise.
///
/// The peer's own calls are `own`, which may have a fault, and all others `calls`.
fn two_runs(
    calls: QueueCalls,
    own: QueueCalls,
    number: u64,
    seen: &mut Seen,
) -> Result<(), [Told; 2]> {
    let mut random = Random::new(SEED ^ number.wrapping_mul(0xD134_2543_DE82_EF95));
    let habits = Habits::new(&mut random);
    let peer = habits.favourite;
    let window = random.pick(&[None, Some(1), Some(4), Some(16)]);
    let [mut first, mut second] = [(); 2].map(|()| opened(calls, &mut random, peer, window));
    for _ in 0..CALLS {
        let caller = habits.peer(&mut random);
        let call = Call::new(&mut random, &queue_of(&first), caller, habits.large);
        if caller == peer {
            let others = total(calls, &first) - queue_of(&first).lists[place_of(peer)].bytes();
            share_out(calls, &mut random, &mut second, peer, others);
            assert_eq!(total(calls, &first), total(calls, &second));
            let told = [&mut first, &mut second].map(|queue| call.make(own, queue, peer));
            if told[0] != told[1] {
                return Err(told);
            }
            *seen.entry(told[0].0).or_default() += 1;
        } else {
            call.make(calls, &mut first, caller);
        }
    }
    Ok(())
}

#[test]
fn in_generated_runs_a_peer_notices_of_the_others_only_their_bytes() {
    let from = setting("SOAK_FROM").unwrap_or(0);
    let lists = setting("SOAK").map_or(LISTS, |soak| soak / 4);
    let mut seen = Seen::new();
    for number in from..from + lists {
        if let Err([first, second]) = two_runs(QUEUE_CALLS, QUEUE_CALLS, number, &mut seen) {
            panic!("runs {number}: {first:?}, and then {second:?}");
        }
    }
    let compared: u64 = seen.values().sum();
    let text = format!("{lists} pairs of runs from number {from} on: {compared} calls alike");
    let _ = writeln!(std::io::stderr(), "{text}");
    for number in [0, 1, 10, 14, 16, 17, 18, 20, 24] {
        let times = seen.get(&number).copied();
        assert!(
            lists < LISTS || times >= Some(20),
            "{number} {times:?} times"
        );
    }
}

#[test]
fn the_same_holds_of_the_reference() {
    for number in 0..LISTS / 10 {
        let told = two_runs(REFERENCE_CALLS, REFERENCE_CALLS, number, &mut Seen::new());
        assert_eq!(told, Ok(()), "runs {number}");
    }
}

#[test]
fn a_peer_that_notices_more_is_found() {
    let is_found = |own| {
        let mut told = (0..200).map(|number| two_runs(QUEUE_CALLS, own, number, &mut Seen::new()));
        told.any(|told| told.is_err())
    };
    assert!(is_found(QueueCalls {
        // IDs tell how many requests all peers have outstanding.
        issue: |queue, peer, wanted, out| {
            let all = (QUEUE_CALLS.totals)(queue).1[0];
            let (number, [first, id]) = (QUEUE_CALLS.issue)(queue, peer, wanted, out);
            (number, [first, id + all])
        },
        ..QUEUE_CALLS
    }));
    assert!(is_found(QueueCalls {
        // The window is for the requests of all peers.
        issue: |queue, peer, wanted, out| {
            let all = (QUEUE_CALLS.totals)(queue).1[0];
            match u64::from(queue.list(peer)[0]) <= all {
                true => (16, [0, 0]),
                false => (QUEUE_CALLS.issue)(queue, peer, wanted, out),
            }
        },
        ..QUEUE_CALLS
    }));
}

/// A queue after some calls by all peers.
fn after_calls(random: &mut Random) -> Lent {
    let habits = Habits::new(random);
    let window = Some(1 + random.word() % 16);
    let mut queue = opened(QUEUE_CALLS, random, habits.favourite, window);
    for _ in 0..CALLS {
        let caller = habits.peer(random);
        let call = Call::new(random, &queue_of(&queue), caller, habits.large);
        call.make(QUEUE_CALLS, &mut queue, caller);
    }
    queue
}

#[test]
fn a_drop_frees_what_the_peer_has_and_four_drops_free_the_whole_allowance() {
    let mut random = Random::new(SEED);
    for _ in 0..LISTS {
        let mut queue = after_calls(&mut random);
        let first = any_peer(&mut random);
        for peer in (0..4).map(|step| (first + step) % 4 + 1) {
            let (_, [count, bytes, own @ ..]) = (QUEUE_CALLS.totals)(&queue);
            let own = &own[2 * (peer as usize - 1)..][..2];
            assert_eq!((QUEUE_CALLS.drop_link)(&mut queue, peer), 0);
            let (_, [count_left, bytes_left, ..]) = (QUEUE_CALLS.totals)(&queue);
            assert_eq!([count_left, bytes_left], [count - own[0], bytes - own[1]]);
        }
        assert_eq!((QUEUE_CALLS.totals)(&queue), (0, [0; 10]));
        assert_eq!(queue.hashes, Lent::filled(0).hashes);
        let peer = any_peer(&mut random);
        share_out(QUEUE_CALLS, &mut random, &mut queue, peer, ALLOWANCE);
        let (number, ..) = of_length(1).make(QUEUE_CALLS, &mut queue, peer);
        assert_eq!(number, 17);
    }
}
