//! The outstanding requests of four peers.

use crate::answer::{size, span, word};
use crate::{ffi, Refusal};
use core::fmt;

/// The requests of peers 1 to 4 that were issued and not answered yet.
///
/// Each peer has a list of its own, which [`peer`](RequestQueue::peer) leads to: a window of at most 16
/// requests, of 4 unless it is stated, and IDs that no other peer's calls change. Its requests are answered
/// in the order of their issue. The allowance of 524,288 bytes is common to all four, as the line is that
/// they share: what one has outstanding the others can't ask for. The hash of each request is kept, and what
/// comes is held against it: data are given out only if they are those that were asked for.
///
/// ```
/// use fordtrumpet::{sha256, write_response, Outcome, RequestQueue};
///
/// let mut queue = RequestQueue::open();
/// let mut out = [0; 100];
/// // Its hash stands in the peer's Index; an entry of the request list has it.
/// let issued = queue.peer(2).issue("default", "notes.txt", 0, 3, &sha256(b"abc"), &mut out)?;
/// // Send `out[..issued.written]` to peer 2, and there comes the answer:
/// let length = write_response(issued.id, b"abc", &mut out)?;
/// let answered = queue.peer(2).answer(&out[..length])?;
/// assert_eq!(answered.outcome, Outcome::Data(b"abc"));
/// assert_eq!(queue.outstanding(), 0);
/// # Ok::<(), fordtrumpet::Refusal>(())
/// ```
#[derive(Clone, PartialEq, Eq)]
pub struct RequestQueue {
    words: [u32; ffi::QUEUE_WORDS],
    hashes: [u8; ffi::QUEUE_HASHES],
}

/// One peer's part of a [`RequestQueue`], by [`RequestQueue::peer`].
///
/// ```
/// use fordtrumpet::{Peer, Refusal, RequestQueue};
///
/// /// Issues as many of these blocks as the peer may be asked for now, and gives their number.
/// fn ask(mut peer: Peer, blocks: &[(u64, u32, [u8; 32])], send: fn(&[u8])) -> Result<usize, Refusal> {
///     let mut out = [0; 100];
///     for (offset, length, hash) in blocks.iter().skip(peer.outstanding()) {
///         match peer.issue("default", "show.mov", *offset, *length, hash, &mut out) {
///             Ok(issued) => send(&out[..issued.written]),
///             Err(Refusal::WindowFull | Refusal::AllowanceFull) => break,
///             Err(refusal) => return Err(refusal),
///         }
///     }
///     Ok(peer.outstanding())
/// }
///
/// let mut queue = RequestQueue::open();
/// assert_eq!(ask(queue.peer(3), &[(0, 5, [7; 32]); 9], |_| {})?, 4);
/// # Ok::<(), fordtrumpet::Refusal>(())
/// ```
#[must_use = "a peer's part does nothing until it is called"]
pub struct Peer<'q> {
    queue: &'q mut RequestQueue,
    number: u32,
}

/// A request that was issued.
///
/// ```
/// use fordtrumpet::{Issued, RequestQueue};
///
/// let mut queue = RequestQueue::open();
/// let issued = queue.peer(1).issue("default", "a", 0, 5, &[7; 32], &mut [0; 100])?;
/// assert_eq!(issued, Issued { id: 0, written: 72 });
/// # Ok::<(), fordtrumpet::Refusal>(())
/// ```
#[derive(Clone, Copy, Debug, PartialEq, Eq)]
#[must_use]
pub struct Issued {
    /// The ID of the Request.
    pub id: u32,
    /// How many bytes were written.
    pub written: usize,
}

/// A request that was answered, and how.
///
/// ```
/// use fordtrumpet::{Answered, Outcome, RequestQueue};
///
/// let mut queue = RequestQueue::open();
/// let _ = queue.peer(1).issue("default", "a", 0, 5, &[7; 32], &mut [0; 100])?;
/// let answered = queue.peer(1).answer(&[0, 0, 3, 0, 0, 0, 0, 0])?;
/// assert_eq!(answered, Answered { id: 0, length: 5, outcome: Outcome::NotAvailable });
/// # Ok::<(), fordtrumpet::Refusal>(())
/// ```
#[derive(Clone, Copy, Debug, PartialEq, Eq)]
#[must_use]
pub struct Answered<'a> {
    /// The ID of the Request and of its Response.
    pub id: u32,
    /// The length that was asked for.
    pub length: u32,
    /// What came.
    pub outcome: Outcome<'a>,
}

/// What an answer brought.
///
/// ```
/// use fordtrumpet::{Outcome, RequestQueue};
///
/// let mut queue = RequestQueue::open();
/// let _ = queue.peer(1).issue("default", "a", 0, 5, &[7; 32], &mut [0; 100])?;
/// match queue.peer(1).answer(&[0, 0, 3, 0, 0, 0, 0, 1, b'x', 0, 0, 0])?.outcome {
///     Outcome::Data(data) => println!("{} bytes to be written", data.len()),
///     Outcome::NotAvailable => println!("ask another peer"),
///     Outcome::WrongSize => println!("one byte for five"),
///     Outcome::WrongContent => println!("ask again: five bytes, but not those"),
/// }
/// # Ok::<(), fordtrumpet::Refusal>(())
/// ```
#[derive(Clone, Copy, Debug, PartialEq, Eq)]
pub enum Outcome<'a> {
    /// The data: as long as asked for, and with the hash asked for.
    Data(&'a [u8]),
    /// None: the block isn't available.
    NotAvailable,
    /// Data of another length than asked for.
    WrongSize,
    /// Data of the length asked for, but with another SHA-256.
    WrongContent,
}

impl RequestQueue {
    /// The number of peers, which are numbered from 1 on.
    ///
    /// ```
    /// use fordtrumpet::RequestQueue;
    ///
    /// let all_alike = [Some(RequestQueue::MAX_WINDOW); RequestQueue::PEERS];
    /// assert!(RequestQueue::open_with(all_alike).is_ok());
    /// ```
    pub const PEERS: usize = ffi::PEERS;

    /// The largest window: for a link whose other side is known to take as many, and for a bulk copy.
    ///
    /// ```
    /// use fordtrumpet::RequestQueue;
    ///
    /// let with = |window| RequestQueue::open_with([None, Some(window), None, None]);
    /// assert!(with(RequestQueue::MAX_WINDOW).is_ok());
    /// assert!(with(RequestQueue::MAX_WINDOW + 1).is_err());
    /// ```
    pub const MAX_WINDOW: u32 = 16;

    /// An empty queue with the default window for each peer, which is 4: some devices stall with more
    /// requests open.
    ///
    /// The queue doesn't know whether a window was stated.
    ///
    /// ```
    /// use fordtrumpet::{Refusal, RequestQueue};
    ///
    /// let mut queue = RequestQueue::open();
    /// assert_eq!(queue, RequestQueue::open_with([Some(4); 4])?);
    /// let mut out = [0; 100];
    /// for _ in 0..4 {
    ///     queue.peer(1).issue("default", "a", 0, 131_072, &[0xA7; 32], &mut out)?;
    /// }
    /// let fifth = queue.peer(1).issue("default", "a", 0, 131_072, &[0xA7; 32], &mut out);
    /// assert_eq!(fifth, Err(Refusal::WindowFull));
    /// # Ok::<(), fordtrumpet::Refusal>(())
    /// ```
    pub fn open() -> Self {
        Self::open_with([None; Self::PEERS]).expect("the default window is one of those there are")
    }

    /// An empty queue with a window for each of peers 1 to 4: the stated one, or the default.
    ///
    /// # Errors
    ///
    /// 22 if a stated window isn't 1 to 16.
    ///
    /// ```
    /// use fordtrumpet::{Refusal, RequestQueue};
    ///
    /// let mut queue = RequestQueue::open_with([None, None, Some(16), None])?;
    /// let mut out = [0; 100];
    /// for _ in 0..4 {
    ///     queue.peer(3).issue("default", "a", 0, 131_072, &[0xA7; 32], &mut out)?;
    /// }
    /// let fifth = queue.peer(3).issue("default", "a", 0, 131_072, &[0xA7; 32], &mut out);
    /// assert_eq!(fifth, Err(Refusal::AllowanceFull));
    ///
    /// let none = RequestQueue::open_with([Some(16), Some(17), None, None]);
    /// assert_eq!(none.unwrap_err().number(), 22);
    /// # Ok::<(), fordtrumpet::Refusal>(())
    /// ```
    pub fn open_with(windows: [Option<u32>; Self::PEERS]) -> Result<Self, Refusal> {
        let stated = windows.iter().map(Option::is_some).rev();
        let stated = stated.fold(0, |bits, stated| bits << 1 | u32::from(stated));
        let windows = windows.map(Option::unwrap_or_default);
        let (mut words, mut hashes) = ([0; ffi::QUEUE_WORDS], [0; ffi::QUEUE_HASHES]);
        // SAFETY: words, hashes and windows have the sizes asked for.
        let number = unsafe { ffi::bep_queue_open(&mut words, &mut hashes, &windows, stated) };
        accepted(number, 0).map(|()| RequestQueue { words, hashes })
    }

    /// The part of the peer with this number, 1 to 4.
    ///
    /// Any number may be given: where there is no such peer each call is refused with 23, and nothing is
    /// outstanding.
    ///
    /// ```
    /// use fordtrumpet::{Refusal, RequestQueue};
    ///
    /// let mut queue = RequestQueue::open();
    /// let mut out = [0; 100];
    /// for number in 1..=4 {
    ///     // Each peer has IDs of its own.
    ///     let mut peer = queue.peer(number);
    ///     assert_eq!(peer.issue("default", "a", 0, 5, &[0xA7; 32], &mut out)?.id, 0);
    ///     assert_eq!(peer.issue("default", "a", 5, 5, &[0xA8; 32], &mut out)?.id, 1);
    /// }
    /// assert_eq!((queue.outstanding(), queue.outstanding_bytes()), (8, 40));
    ///
    /// let mut peer = queue.peer(5);
    /// let refused = peer.issue("default", "a", 0, 5, &[0xA7; 32], &mut out);
    /// assert_eq!(refused, Err(Refusal::NoSuchPeer));
    /// assert_eq!(peer.outstanding(), 0);
    /// # Ok::<(), fordtrumpet::Refusal>(())
    /// ```
    pub fn peer(&mut self, number: u32) -> Peer<'_> {
        let queue = self;
        Peer { queue, number }
    }

    /// How many requests are outstanding, of all peers.
    ///
    /// ```
    /// # use fordtrumpet::RequestQueue;
    /// # let mut queue = RequestQueue::open();
    /// # let mut out = [0; 100];
    /// queue.peer(1).issue("default", "a", 0, 5, &[0xA7; 32], &mut out)?;
    /// queue.peer(4).issue("default", "b", 0, 7, &[0xA7; 32], &mut out)?;
    /// assert_eq!((queue.outstanding(), queue.outstanding_bytes()), (2, 12));
    /// # Ok::<(), fordtrumpet::Refusal>(())
    /// ```
    pub fn outstanding(&self) -> usize {
        size(self.totals()[0])
    }

    /// The sum of their lengths, which stays within the common allowance.
    ///
    /// ```
    /// # use fordtrumpet::RequestQueue;
    /// assert_eq!(RequestQueue::open().outstanding_bytes(), 0);
    /// ```
    pub fn outstanding_bytes(&self) -> u64 {
        self.totals()[1]
    }

    /// Requests and bytes of all peers, and then of each.
    fn totals(&self) -> [u64; ffi::TOTALS_WORDS] {
        let mut answer = [0; ffi::TOTALS_WORDS];
        // SAFETY: words and answer have the sizes asked for.
        let number = unsafe { ffi::bep_queue_totals(&self.words, &mut answer) };
        assert_eq!(number, 0, "any queue has totals");
        answer
    }

    /// The lists of peers 1 to 4.
    fn lists(&self) -> impl Iterator<Item = List<'_>> {
        self.words.as_chunks().0.iter().map(List)
    }
}

impl Peer<'_> {
    /// Writes a Request with the peer's next ID into `out` and appends it to the peer's list.
    ///
    /// IDs start at 0 and rise by one; 0 follows 4095.
    ///
    /// # Errors
    ///
    /// 23 if there is no such peer; what reading such a Request would give (24 for a name that isn't a plain
    /// path below its folder); 16 if the peer's window is full; 17 if the bytes outstanding of all peers and
    /// `length` exceed the allowance; 14 if `out` is too short. The ID isn't used then, and nothing is
    /// written.
    ///
    /// ```
    /// use fordtrumpet::{Refusal, RequestQueue};
    ///
    /// let mut queue = RequestQueue::open_with([Some(1), Some(16), None, None])?;
    /// let mut out = [0; 100];
    /// let mut ask = |peer: u32, length| {
    ///     let issued = queue.peer(peer).issue("default", "a", 0, length, &[0xA7; 32], &mut out);
    ///     issued.map(|issued| issued.id)
    /// };
    /// assert_eq!(ask(1, 131_072), Ok(0));
    /// // The window is the peer's own; the allowance is common.
    /// assert_eq!(ask(1, 131_072), Err(Refusal::WindowFull));
    /// assert_eq!([ask(2, 131_072), ask(2, 131_072), ask(2, 131_072)], [Ok(0), Ok(1), Ok(2)]);
    /// assert_eq!(ask(3, 1), Err(Refusal::AllowanceFull));
    /// # Ok::<(), fordtrumpet::Refusal>(())
    /// ```
    pub fn issue(
        &mut self,
        repository: impl AsRef<[u8]>,
        name: impl AsRef<[u8]>,
        offset: u64,
        length: u32,
        hash: &[u8; 32],
        out: &mut [u8],
    ) -> Result<Issued, Refusal> {
        let (repository, name) = (repository.as_ref(), name.as_ref());
        let mut answer = [0; 2];
        // SAFETY: each pointer and length are those of one slice, `out` and the queue are borrowed for
        // this call alone, and words, hashes and answer have the sizes asked for.
        let number = unsafe {
            ffi::bep_queue_issue(
                out.as_mut_ptr(),
                out.len(),
                &mut self.queue.words,
                &mut self.queue.hashes,
                self.number,
                repository.as_ptr(),
                repository.len(),
                name.as_ptr(),
                name.len(),
                offset,
                length,
                hash.as_ptr(),
                hash.len(),
                &mut answer,
            )
        };
        accepted(number, answer[0])?;
        Ok(Issued {
            id: word(answer[1]),
            written: size(answer[0]),
        })
    }

    /// Releases the peer's oldest request by the Response to it, whatever that brought.
    ///
    /// Data as long as asked for are hashed, all others aren't looked at.
    ///
    /// # Errors
    ///
    /// 23 if there is no such peer; what reading the message gives; 18 if it isn't a Response; 20 if its ID
    /// isn't that of the peer's oldest request, or the peer has none outstanding.
    ///
    /// ```
    /// use fordtrumpet::{sha256, write_response, Outcome, RequestQueue};
    ///
    /// let mut queue = RequestQueue::open();
    /// let (hash, mut out) = (sha256(b"hello"), [0; 100]);
    /// let id = queue.peer(1).issue("default", "a", 0, 5, &hash, &mut out)?.id;
    /// let length = write_response(id, b"hullo", &mut out)?;
    /// assert_eq!(queue.peer(1).answer(&out[..length])?.outcome, Outcome::WrongContent);
    /// // The request is released, so that the block is asked for again, here or elsewhere.
    /// assert_eq!(queue.peer(1).answer(&out[..length]).unwrap_err().number(), 20);
    /// let id = queue.peer(2).issue("default", "a", 0, 5, &hash, &mut out)?.id;
    /// let length = write_response(id, b"hello", &mut out)?;
    /// assert_eq!(queue.peer(2).answer(&out[..length])?.outcome, Outcome::Data(b"hello"));
    /// # Ok::<(), fordtrumpet::Refusal>(())
    /// ```
    pub fn answer<'a>(&mut self, message: &'a [u8]) -> Result<Answered<'a>, Refusal> {
        let mut answer = [0; 5];
        // SAFETY: pointer and length are those of one slice, and words, hashes and answer have the sizes
        // asked for.
        let number = unsafe {
            ffi::bep_queue_answer(
                &mut self.queue.words,
                &mut self.queue.hashes,
                self.number,
                message.as_ptr(),
                message.len(),
                &mut answer,
            )
        };
        accepted(number, answer[0])?;
        let [kind, id, length, start, len] = answer;
        Ok(Answered {
            id: word(id),
            length: word(length),
            outcome: match kind {
                0 => Outcome::Data(span(message, start, len)),
                1 => Outcome::NotAvailable,
                2 => Outcome::WrongSize,
                _ => Outcome::WrongContent,
            },
        })
    }

    /// Releases all requests of the peer and no others: its link is gone. Its next ID goes on.
    ///
    /// # Errors
    ///
    /// 23 if there is no such peer.
    ///
    /// ```
    /// # use fordtrumpet::RequestQueue;
    /// # let mut queue = RequestQueue::open();
    /// # let mut out = [0; 100];
    /// queue.peer(1).issue("default", "a", 0, 5, &[0xA7; 32], &mut out)?;
    /// queue.peer(2).issue("default", "b", 0, 7, &[0xA7; 32], &mut out)?;
    /// queue.peer(1).drop_link()?;
    /// assert_eq!(queue.outstanding_bytes(), 7);
    /// assert_eq!(queue.peer(1).issue("default", "a", 0, 5, &[0xA7; 32], &mut out)?.id, 1);
    /// # Ok::<(), fordtrumpet::Refusal>(())
    /// ```
    pub fn drop_link(&mut self) -> Result<(), Refusal> {
        let RequestQueue { words, hashes } = &mut *self.queue;
        // SAFETY: words and hashes have the sizes asked for.
        let number = unsafe { ffi::bep_queue_drop(words, hashes, self.number) };
        accepted(number, 0)
    }

    /// How many requests of the peer are outstanding: 0 if there is no such peer.
    ///
    /// ```
    /// # use fordtrumpet::RequestQueue;
    /// # let mut queue = RequestQueue::open();
    /// # let mut out = [0; 100];
    /// queue.peer(1).issue("default", "a", 0, 5, &[0xA7; 32], &mut out)?;
    /// assert_eq!([0, 1, 2].map(|peer| queue.peer(peer).outstanding()), [0, 1, 0]);
    /// # Ok::<(), fordtrumpet::Refusal>(())
    /// ```
    pub fn outstanding(&self) -> usize {
        size(self.totals()[0])
    }

    /// The sum of their lengths.
    ///
    /// ```
    /// # use fordtrumpet::RequestQueue;
    /// # let mut queue = RequestQueue::open();
    /// # let mut out = [0; 100];
    /// queue.peer(4).issue("default", "a", 0, 5, &[0xA7; 32], &mut out)?;
    /// assert_eq!([3, 4, 5].map(|peer| queue.peer(peer).outstanding_bytes()), [0, 5, 0]);
    /// # Ok::<(), fordtrumpet::Refusal>(())
    /// ```
    pub fn outstanding_bytes(&self) -> u64 {
        self.totals()[1]
    }

    /// Requests and bytes.
    fn totals(&self) -> [u64; 2] {
        let totals = self.queue.totals();
        let [_common, peers @ ..] = totals.as_chunks().0 else {
            unreachable!("the common totals come first")
        };
        self.of(peers.iter()).copied().unwrap_or_default()
    }

    /// Of what there is for each peer, what belongs to this one.
    fn of<T>(&self, mut each: impl Iterator<Item = T>) -> Option<T> {
        each.nth(self.number.checked_sub(1)? as usize)
    }
}

fn accepted(number: u32, place: u64) -> Result<(), Refusal> {
    match number {
        0 => Ok(()),
        _ => Err(Refusal::new(number, size(place))),
    }
}

/// With the default window for each peer, as [`RequestQueue::open`].
///
/// ```
/// use fordtrumpet::RequestQueue;
///
/// assert_eq!(RequestQueue::default(), RequestQueue::open());
/// ```
impl Default for RequestQueue {
    fn default() -> Self {
        Self::open()
    }
}

/// Shows the list of each peer.
///
/// ```
/// use fordtrumpet::RequestQueue;
///
/// let mut queue = RequestQueue::open();
/// queue.peer(3).issue("default", "a", 0, 5, &[0xA7; 32], &mut [0; 100])?;
/// let shown = format!("{queue:?}");
/// assert!(shown.contains("3: List { window: 4, next_id: 1, outstanding: {0: 5} }"), "{shown}");
/// # Ok::<(), fordtrumpet::Refusal>(())
/// ```
impl fmt::Debug for RequestQueue {
    fn fmt(&self, f: &mut fmt::Formatter<'_>) -> fmt::Result {
        f.write_str("RequestQueue ")?;
        f.debug_map().entries((1..).zip(self.lists())).finish()
    }
}

/// Shows the number and the list.
impl fmt::Debug for Peer<'_> {
    fn fmt(&self, f: &mut fmt::Formatter<'_>) -> fmt::Result {
        f.debug_struct("Peer")
            .field("number", &self.number)
            .field("list", &self.of(self.queue.lists()))
            .finish()
    }
}

/// The words of a peer's list.
struct List<'a>(&'a [u32; ffi::PEER_WORDS]);

/// Shows the requests, the oldest first, as ID and length.
impl fmt::Debug for List<'_> {
    fn fmt(&self, f: &mut fmt::Formatter<'_>) -> fmt::Result {
        let [window, next, count, entries @ ..] = self.0;
        let requests: &[[u32; 2]] = entries.as_chunks().0;
        f.debug_struct("List")
            .field("window", window)
            .field("next_id", next)
            .field("outstanding", &Outstanding(&requests[..*count as usize]))
            .finish()
    }
}

struct Outstanding<'a>(&'a [[u32; 2]]);

impl fmt::Debug for Outstanding<'_> {
    fn fmt(&self, f: &mut fmt::Formatter<'_>) -> fmt::Result {
        f.debug_map()
            .entries(self.0.iter().map(|[id, length]| (id, length)))
            .finish()
    }
}
