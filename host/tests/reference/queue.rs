//! The outstanding requests of four peers, which share one allowance of bytes.

use super::{read, sha256, write_request, Body, Refusal, Span, MAX_ID, MAX_LENGTH};

/// Peers are numbered from 1.
pub const PEERS: usize = 4;
pub const WINDOW: u32 = 16;
/// The window of a peer for whom none is stated.
pub const DEFAULT_WINDOW: u32 = 4;
/// The bytes that all peers together may have outstanding.
pub const ALLOWANCE: u64 = 524_288;

/// A request that was issued.
#[derive(Clone, Copy, Debug, Default, PartialEq, Eq)]
pub struct Request {
    pub id: u32,
    pub length: u32,
    pub hash: [u8; 32],
}

/// The outstanding requests of a peer, oldest first. Unused entries of those opened are zeros.
#[derive(Clone, Copy, Debug, Default, PartialEq, Eq)]
pub struct List {
    pub window: u32,
    pub next: u32,
    pub count: u32,
    pub requests: [Request; WINDOW as usize],
}

/// The lists of peers 1 to 4.
#[derive(Clone, Copy, Debug, Default, PartialEq, Eq)]
pub struct Queue {
    pub lists: [List; PEERS],
}

/// What a Request asks for.
#[derive(Clone, Copy, Debug)]
pub struct Asked<'a> {
    pub repository: &'a [u8],
    pub name: &'a [u8],
    pub offset: u64,
    pub length: u32,
    pub hash: &'a [u8],
}

/// The ID of a Request that was issued, and the bytes written.
#[derive(Clone, Copy, Debug, PartialEq, Eq)]
pub struct Issued {
    pub id: u32,
    pub len: usize,
}

/// How an answer came out.
#[derive(Clone, Copy, Debug, PartialEq, Eq)]
pub enum Outcome {
    Data(Span),
    NotAvailable,
    WrongSize,
    WrongContent,
}

/// The request that an answer released, and how.
#[derive(Clone, Copy, Debug, PartialEq, Eq)]
pub struct Answered {
    pub request: Request,
    pub outcome: Outcome,
}

impl List {
    /// The requests that count, as far as there are entries.
    pub fn outstanding(&self) -> &[Request] {
        &self.requests[..self.requests.len().min(self.count as usize)]
    }

    /// The sum of their Lengths.
    pub fn bytes(&self) -> u64 {
        let requests = self.outstanding().iter();
        requests.map(|request| u64::from(request.length)).sum()
    }

    /// Whether such a list can come about. Backwards from the next ID each one is that before the last.
    pub fn is_sound(&self) -> bool {
        let mut id = self.next;
        (1..=WINDOW).contains(&self.window)
            && self.count <= self.window
            && self.next <= MAX_ID
            && self.outstanding().iter().rev().all(|request| {
                id = before(id);
                request.id == id && (1..=MAX_LENGTH).contains(&request.length)
            })
    }

    fn append(&mut self, length: u32, hash: [u8; 32]) {
        let id = self.next;
        self.requests[self.count as usize] = Request { id, length, hash };
        self.count += 1;
        self.next = after(id);
    }

    fn release_oldest(&mut self) {
        self.requests.copy_within(1.., 0);
        self.requests[WINDOW as usize - 1] = Request::default();
        self.count -= 1;
    }
}

impl Queue {
    /// An empty queue with these windows, where they are stated. One that isn't among those there are
    /// refuses them all.
    pub fn open(stated: [Option<u32>; PEERS]) -> (Queue, Result<(), Refusal>) {
        let windows = stated.map(|window| window.unwrap_or(DEFAULT_WINDOW));
        match windows.iter().all(|window| (1..=WINDOW).contains(window)) {
            true => {
                let list = |window| List {
                    window,
                    ..List::default()
                };
                let lists = windows.map(list);
                (Queue { lists }, Ok(()))
            }
            false => (Queue::default(), Err(Refusal::new(22, 0))),
        }
    }

    /// The sum of the Lengths over all lists.
    pub fn bytes(&self) -> u64 {
        self.lists.iter().map(List::bytes).sum()
    }

    /// The list of a peer, and the bytes that all peers have outstanding, of a queue that can come about.
    fn sound(&mut self, peer: u32) -> Result<(&mut List, u64), Refusal> {
        let number = match peer {
            1..=4 => peer as usize - 1,
            _ => return Err(Refusal::new(23, 0)),
        };
        let bytes = self.bytes();
        match bytes <= ALLOWANCE && self.lists.iter().all(List::is_sound) {
            true => Ok((&mut self.lists[number], bytes)),
            false => Err(Refusal::new(22, 0)),
        }
    }

    /// Writes a Request with the peer's next ID and appends it to the peer's list.
    pub fn issue(&mut self, peer: u32, asked: &Asked, out: &mut [u8]) -> Result<Issued, Refusal> {
        let (list, held) = self.sound(peer)?;
        let id = list.next;
        let &Asked {
            repository,
            name,
            offset,
            length,
            hash,
        } = asked;
        // The longest Request, to find faults of the fields before the room counts.
        let mut scratch = [0; 380];
        let len = write_request(&mut scratch, id, repository, name, offset, length, hash)?;
        if list.count == list.window {
            return Err(Refusal::new(16, 0));
        }
        if held + u64::from(length) > ALLOWANCE {
            return Err(Refusal::new(17, 0));
        }
        let Some(out) = out.get_mut(..len) else {
            return Err(Refusal::new(14, 0));
        };
        out.copy_from_slice(&scratch[..len]);
        let hash = hash.try_into().expect("with another length it is refused");
        list.append(length, hash);
        Ok(Issued { id, len })
    }

    /// Releases the peer's oldest request by the Response to it.
    pub fn answer(&mut self, peer: u32, message: &[u8]) -> Result<Answered, Refusal> {
        let (list, _) = self.sound(peer)?;
        let response = read(message)?;
        let Body::Response { data } = response.body else {
            return Err(Refusal::new(18, 0));
        };
        let request = match list.outstanding() {
            &[oldest, ..] if oldest.id == response.id => oldest,
            _ => return Err(Refusal::new(20, 0)),
        };
        list.release_oldest();
        let outcome = match data.len {
            0 => Outcome::NotAvailable,
            len if len != request.length as usize => Outcome::WrongSize,
            _ if sha256(data.of(message)) != request.hash => Outcome::WrongContent,
            _ => Outcome::Data(data),
        };
        Ok(Answered { request, outcome })
    }

    /// Releases all requests of the peer, and no others.
    pub fn drop_link(&mut self, peer: u32) -> Result<(), Refusal> {
        let (list, _) = self.sound(peer)?;
        *list = List {
            window: list.window,
            next: list.next,
            ..List::default()
        };
        Ok(())
    }
}

/// The ID that follows.
fn after(id: u32) -> u32 {
    match id {
        MAX_ID => 0,
        id => id + 1,
    }
}

/// The ID that one follows.
fn before(id: u32) -> u32 {
    match id {
        0 => MAX_ID,
        id => id - 1,
    }
}
