//! Lists of calls on queues of outstanding requests against the reference.
//!
//! `SOAK=N` compares N lists instead of the usual number; `SOAK_FROM=M` starts with list number M.

mod reference;
mod support;

use fordtrumpet::RequestQueue;
use reference::{List, Queue};
use std::io::Write;
use support::compare::Compared;
use support::queue_calls::{QueueCalls, QueueComparison, Seen, QUEUE_CALLS};
use support::queue_faults::faults;
use support::queue_inputs::{
    message, room, starting, wanted, windows, written_hashes, written_word, Habits,
};
use support::random::Random;
use support::settings::setting;

const LISTS: u64 = 20_000;
const CALLS: usize = 40;
const SEED: u64 = 0x0E5E_0000_0000_0000;

/// One list of calls. Somebody may write into the queue between them.
fn list_of_calls(calls: QueueCalls, number: u64, seen: &mut Seen) -> Result<u64, String> {
    let mut random = Random::new(SEED ^ number.wrapping_mul(0xD134_2543_DE82_EF95));
    let habits = Habits::new(&mut random);
    let mut comparison = QueueComparison::new(calls, starting(&mut random, habits), seen);
    for _ in 0..CALLS {
        one_call(&mut comparison, habits, &mut random)?;
    }
    Ok(comparison.compared)
}

fn one_call(comparison: &mut QueueComparison, habits: Habits, random: &mut Random) -> Compared {
    let peer = habits.peer(random);
    let is_sound = comparison.queue.lists.iter().all(List::is_sound);
    match random.below(60) {
        0 => comparison.open(&windows(random)),
        1..3 => comparison.drop_link(peer),
        // Otherwise all calls to come would be refused.
        3..12 if !is_sound => comparison.open(&windows(random)),
        3 if random.once_in(4) => {
            comparison.write_hashes(written_hashes(random), random);
            Ok(())
        }
        3 => {
            let (at, word) = written_word(random, &comparison.queue);
            comparison.write(at, word);
            Ok(())
        }
        4..=24 => {
            let message = message(random, &comparison.queue, peer);
            comparison.answer(peer, &message)
        }
        _ => {
            let wanted = wanted(random, habits.large);
            let room = room(random, &wanted);
            comparison.issue(peer, &wanted, room, random)
        }
    }
}

/// What each call has to have met.
const MET: [(&str, &[u32]); 4] = [
    ("open", &[0, 22]),
    (
        "issue",
        &[0, 5, 7, 8, 9, 10, 14, 16, 17, 1700, 22, 2200, 23, 24],
    ),
    (
        "answer",
        &[0, 100, 200, 300, 1, 2, 3, 4, 5, 6, 18, 20, 22, 2200, 23],
    ),
    ("drop", &[0, 22, 2200, 23]),
];

#[test]
fn generated_lists_of_calls_get_the_same_answers() {
    let from = setting("SOAK_FROM").unwrap_or(0);
    let lists = setting("SOAK").unwrap_or(LISTS);
    let mut seen = Seen::new();
    let mut compared = 0;
    for number in from..from + lists {
        match list_of_calls(QUEUE_CALLS, number, &mut seen) {
            Ok(calls) => compared += calls,
            Err(difference) => panic!("list {number}: {difference}"),
        }
    }
    let text = format!("{lists} lists from number {from} on: {compared} calls, no difference");
    let _ = writeln!(std::io::stderr(), "{text}");
    if lists >= LISTS {
        for (call, numbers) in MET {
            for &number in numbers {
                let times = seen.get(&(call, number)).copied();
                assert!(times >= Some(20), "{call} met {number} {times:?} times");
            }
        }
    }
}

#[test]
fn a_difference_is_found() {
    for (what, calls) in faults() {
        let is_found = |number| list_of_calls(calls, number, &mut Seen::new()).is_err();
        assert!((0..2_000).any(is_found), "{what}");
    }
}

/// The safe side and the reference.
struct Both {
    safe: RequestQueue,
    queue: Queue,
}

impl Both {
    fn issue(&mut self, peer: u32, random: &mut Random, large: bool) {
        let w = wanted(random, large);
        // The safe call can't be given another length.
        let Ok(hash) = w.hash.as_slice().try_into() else {
            return;
        };
        let (mut a, mut b) = ([0; 400], [0; 400]);
        let mut safe = self.safe.peer(peer);
        let given = safe.issue(&w.repository, &w.name, w.offset, w.length, hash, &mut a);
        let expected = self.queue.issue(peer, &w.asked(), &mut b);
        assert_eq!(a, b);
        assert_eq!(
            given
                .map(|issued| (issued.id, issued.written))
                .map_err(refused),
            expected
                .map(|issued| (issued.id, issued.len))
                .map_err(known)
        );
    }

    fn answer(&mut self, peer: u32, random: &mut Random) {
        let message = message(random, &self.queue, peer);
        let given = self.safe.peer(peer).answer(&message).map(|answered| {
            let data = match answered.outcome {
                fordtrumpet::Outcome::Data(data) => Ok(data),
                fordtrumpet::Outcome::NotAvailable => Err("not available"),
                fordtrumpet::Outcome::WrongSize => Err("wrong size"),
                fordtrumpet::Outcome::WrongContent => Err("wrong content"),
            };
            (answered.id, answered.length, data)
        });
        let expected = self.queue.answer(peer, &message).map(|answered| {
            let data = match answered.outcome {
                reference::Outcome::Data(data) => Ok(data.of(&message)),
                reference::Outcome::NotAvailable => Err("not available"),
                reference::Outcome::WrongSize => Err("wrong size"),
                reference::Outcome::WrongContent => Err("wrong content"),
            };
            (answered.request.id, answered.request.length, data)
        });
        assert_eq!(given.map_err(refused), expected.map_err(known));
    }

    fn drop_link(&mut self, peer: u32) {
        let given = self.safe.peer(peer).drop_link().map_err(refused);
        assert_eq!(given, self.queue.drop_link(peer).map_err(known));
    }

    fn check_totals(&mut self) {
        let lists = &self.queue.lists;
        let all = lists.iter().map(|list| list.outstanding().len()).sum();
        assert_eq!(self.safe.outstanding(), all);
        assert_eq!(self.safe.outstanding_bytes(), self.queue.bytes());
        for peer in [0, 1, 2, 3, 4, 5, u32::MAX] {
            let list = match peer {
                1..=4 => lists[peer as usize - 1],
                _ => List::default(),
            };
            let safe = self.safe.peer(peer);
            assert_eq!(safe.outstanding(), list.outstanding().len());
            assert_eq!(safe.outstanding_bytes(), list.bytes());
        }
    }
}

fn refused(refusal: fordtrumpet::Refusal) -> (u32, usize) {
    (refusal.number(), refusal.place())
}

fn known(refusal: reference::Refusal) -> (u32, usize) {
    (refusal.number, refusal.place)
}

/// The safe side gives what the words say.
#[test]
fn the_safe_queue_goes_the_same_way() {
    let mut random = Random::new(SEED);
    for _ in 0..100 {
        let (habits, windows) = (Habits::new(&mut random), windows(&mut random).options());
        let (queue, opened) = Queue::open(windows);
        let safe = RequestQueue::open_with(windows).map_err(refused);
        assert_eq!(safe.as_ref().err(), opened.map_err(known).err().as_ref());
        let Ok(safe) = safe else { continue };
        let mut both = Both { safe, queue };
        for _ in 0..1_000 {
            let peer = habits.peer(&mut random);
            match random.below(20) {
                0 => both.drop_link(peer),
                1..=10 => both.answer(peer, &mut random),
                _ => both.issue(peer, &mut random, habits.large),
            }
            both.check_totals();
        }
    }
}

#[test]
fn what_is_shown_of_a_queue_has_the_list_of_each_peer() {
    let mut queue = RequestQueue::open_with([None, Some(16), None, Some(1)]).unwrap();
    let mut out = [0; 100];
    for (peer, length) in [(2, 5), (2, 7), (4, 131_072)] {
        let issued = queue
            .peer(peer)
            .issue("", "a", 0, length, &[0; 32], &mut out);
        assert!(issued.is_ok());
    }
    assert_eq!(
        format!("{queue:?}"),
        "RequestQueue {1: List { window: 4, next_id: 0, outstanding: {} }, \
         2: List { window: 16, next_id: 2, outstanding: {0: 5, 1: 7} }, \
         3: List { window: 4, next_id: 0, outstanding: {} }, \
         4: List { window: 1, next_id: 1, outstanding: {0: 131072} }}"
    );
    assert_eq!(
        format!("{:?}", queue.peer(4)),
        "Peer { number: 4, list: Some(List { window: 1, next_id: 1, outstanding: {0: 131072} }) }"
    );
    assert_eq!(
        format!("{:?}", queue.peer(0)),
        "Peer { number: 0, list: None }"
    );
}
