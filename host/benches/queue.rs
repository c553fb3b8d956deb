//! How long the library and the reference need for the same calls on a queue, side by side.

#[path = "../tests/reference/mod.rs"]
mod reference;
#[path = "../tests/support/mod.rs"]
mod support;
mod timing;

use fordtrumpet::{RequestQueue, MAX_BLOCK};
use reference::{sha256, Asked, Queue, PEERS};
use std::cell::RefCell;
use std::hint::black_box;
use support::encode::Encoding;
use timing::{compare, heading, keep};

const NAME: &[u8] = b"directory/file name 0001";

/// The peer whose calls are timed.
const PEER: u32 = 2;

fn main() {
    heading();
    // Without data nothing is hashed.
    compare_pairs("issue and answer, none outstanding", 0, 0, &[]);
    compare_pairs("issue and answer, 3 own, 4 of each other", 3, 4, &[]);
    compare_pairs("issue and answer, 15 own, 15 of each other", 15, 15, &[]);
    compare_pairs("issue and answer with 5 bytes", 0, 0, b"12345");
    let data = vec![0xA7; MAX_BLOCK];
    compare_pairs("issue and answer with 131,072 bytes", 0, 0, &data);
}

/// A block that is asked for.
struct Block {
    length: u32,
    hash: [u8; 32],
}

impl Block {
    /// The one that has these data. Where there are none, it has 5 bytes.
    fn of(data: &[u8]) -> Self {
        let (length, hash) = match data {
            [] => (5, [0xA7; 32]),
            data => (data.len() as u32, sha256(data)),
        };
        Block { length, hash }
    }

    fn issue(&self, queue: &mut RequestQueue, peer: u32, out: &mut [u8]) {
        let mut peer = queue.peer(peer);
        let issued = peer.issue(b"default", NAME, 0, self.length, &self.hash, out);
        keep(&issued.unwrap());
    }

    fn issue_by_reference(&self, queue: &mut Queue, peer: u32, out: &mut [u8]) {
        let asked = Asked {
            repository: b"default",
            name: NAME,
            offset: 0,
            length: self.length,
            hash: &self.hash,
        };
        keep(&queue.issue(peer, &asked, out).unwrap());
    }
}

/// A Request is issued and the peer's oldest one answered with these data, while it has so many others
/// outstanding, and each other peer so many.
fn compare_pairs(what: &str, own: usize, of_each_other: usize, data: &[u8]) {
    let (block, has_data, mut out) = (Block::of(data), !data.is_empty(), vec![0; 400]);
    // As in a bulk copy. Without stated windows there would be room for 4 of each.
    let windows = [Some(16); PEERS];
    let mut library = (
        RequestQueue::open_with(windows).unwrap(),
        Responses::new(data),
    );
    let mut reference = (Queue::open(windows).0, Responses::new(data));
    for peer in 1..=PEERS as u32 {
        for _ in 0..if peer == PEER { own } else { of_each_other } {
            block.issue(&mut library.0, peer, &mut out);
            block.issue_by_reference(&mut reference.0, peer, &mut out);
        }
    }
    let (library, reference) = (RefCell::new(library), RefCell::new(reference));
    compare(
        what,
        &mut out,
        |out| {
            let (queue, responses) = &mut *library.borrow_mut();
            let queue = black_box(queue);
            block.issue(queue, PEER, out);
            let answered = queue.peer(PEER).answer(responses.next()).unwrap();
            let data = matches!(answered.outcome, fordtrumpet::Outcome::Data(_));
            assert_eq!(data, has_data);
        },
        |out| {
            let (queue, responses) = &mut *reference.borrow_mut();
            let queue = black_box(queue);
            block.issue_by_reference(queue, PEER, out);
            let answered = queue.answer(PEER, responses.next()).unwrap();
            let data = matches!(answered.outcome, reference::Outcome::Data(_));
            assert_eq!(data, has_data);
        },
    );
}

/// Responses with the same data and the IDs in their order.
struct Responses {
    /// One for each ID. Of a long one there is one for all.
    messages: Vec<Vec<u8>>,
    id: u16,
}

impl Responses {
    fn new(data: &[u8]) -> Self {
        let count = match data.len() {
            0..1_000 => 4_096,
            _ => 1,
        };
        let response = |id| {
            let mut response = Encoding::new();
            response.header(3, id).data(data, 131_072);
            response.bytes
        };
        Responses {
            messages: (0..count).map(response).collect(),
            id: 0,
        }
    }

    fn next(&mut self) -> &[u8] {
        let id = self.id;
        self.id = (id + 1) % 4_096;
        match &mut self.messages[..] {
            [long] => {
                long[..2].copy_from_slice(&id.to_be_bytes());
                long
            }
            messages => &messages[usize::from(id)],
        }
    }
}
