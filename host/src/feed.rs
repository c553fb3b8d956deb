//! A message whose bytes come in runs.

use crate::answer::{size, word};
use crate::{ffi, Refusal};
use core::fmt;

/// The reading of one message that is fed one run of bytes after another, of whatever length or none.
///
/// After each run it says what [`read`](crate::read) says of all bytes so far, however they were cut: it
/// waits exactly where that is refused with 1, and otherwise the end, or the number and the place of the
/// refusal, are the same. It keeps a few words and none of the bytes, which are for the caller to collect.
///
/// ```
/// use fordtrumpet::{Fed, Feed};
///
/// // A Ping with the ID 7 in two runs, the second with two bytes of the next message.
/// let mut feed = Feed::open();
/// assert_eq!(feed.feed(&[0, 7, 4])?, Fed::Waiting { missing: 1, taken: 3 });
/// assert_eq!(feed.feed(&[0, 0, 8])?, Fed::Ended { length: 4, taken: 1 });
/// # Ok::<(), fordtrumpet::Refusal>(())
/// ```
#[derive(Clone, PartialEq, Eq)]
pub struct Feed {
    words: [u32; ffi::FEED_WORDS],
}

/// What has come of a message.
///
/// ```
/// use fordtrumpet::{Fed, Feed};
///
/// match Feed::open().feed(&[0, 1, 5, 0])? {
///     Fed::Waiting { missing, .. } => println!("at least {missing} bytes are yet to come"),
///     Fed::Ended { length, taken } => println!("{length} bytes, {taken} of them in this run"),
/// }
/// # Ok::<(), fordtrumpet::Refusal>(())
/// ```
#[derive(Clone, Copy, Debug, PartialEq, Eq)]
#[must_use]
pub enum Fed {
    /// The message isn't whole.
    Waiting {
        /// So many bytes are surely still missing: with fewer more it will still wait. At least 1.
        missing: usize,
        /// How many bytes of the run were taken: all.
        taken: usize,
    },
    /// The message has ended.
    Ended {
        /// Its length, from its first byte on.
        length: usize,
        /// How many bytes of the run were taken: those up to the end, and none where it had ended before.
        taken: usize,
    },
}

impl Fed {
    /// How many bytes of the run were taken. Those after them belong to the next message.
    ///
    /// ```
    /// use fordtrumpet::Feed;
    ///
    /// let input = [0, 7, 4, 0, 0, 8];
    /// let taken = Feed::open().feed(&input)?.taken();
    /// assert_eq!(input[taken..], [0, 8]);
    /// # Ok::<(), fordtrumpet::Refusal>(())
    /// ```
    pub fn taken(&self) -> usize {
        match *self {
            Fed::Waiting { taken, .. } | Fed::Ended { taken, .. } => taken,
        }
    }
}

/// What the first four bytes of a message tell.
///
/// ```
/// use fordtrumpet::{Feed, Header};
///
/// let mut feed = Feed::open();
/// let _ = feed.feed(&[0x0A, 0xBC, 3, 0, 0, 2])?;
/// assert_eq!(feed.header(), Some(Header { kind: 3, id: 0xABC }));
/// # Ok::<(), fordtrumpet::Refusal>(())
/// ```
#[derive(Clone, Copy, Debug, PartialEq, Eq)]
pub struct Header {
    /// The type: 1 Index, 2 Request, 3 Response, 4 Ping, 5 Pong, 6 IndexUpdate, 7 Options. With another
    /// one the message is refused.
    pub kind: u8,
    /// The Message ID, from 0 to 4095.
    pub id: u32,
}

impl Feed {
    /// A feed for a message of the new edition. The next message needs another one.
    ///
    /// ```
    /// use fordtrumpet::Feed;
    ///
    /// assert!(Feed::open().feed(&[0, 1, 7, 0]).is_ok());
    /// ```
    pub fn open() -> Self {
        Self::opened(ffi::bep_feed_open)
    }

    /// A feed for a message of the old edition, as [`read_old`](crate::read_old) reads it.
    ///
    /// ```
    /// use fordtrumpet::{Feed, Refusal};
    ///
    /// assert_eq!(Feed::open_old().feed(&[0, 1, 7, 0]), Err(Refusal::Type(0)));
    /// ```
    pub fn open_old() -> Self {
        Self::opened(ffi::bep_feed_open_old)
    }

    fn opened(open: unsafe extern "C" fn(*mut [u32; ffi::FEED_WORDS]) -> u32) -> Self {
        let mut words = [0; ffi::FEED_WORDS];
        // SAFETY: the feed has the size asked for.
        let number = unsafe { open(&mut words) };
        assert_eq!(number, 0, "opening is never refused");
        Feed { words }
    }

    /// Takes the next run of the message's bytes.
    ///
    /// The run in which the message ends is taken up to there. After that every run gets the same answer,
    /// and none of its bytes are taken.
    ///
    /// # Errors
    ///
    /// What [`read`](crate::read) gives for all bytes so far, other than 1, with the place counted from the
    /// message's first byte, which may lie in an earlier run. The run in which that comes is taken whole.
    /// After that every run gets the same refusal, and none of its bytes are taken. Which of the two it is,
    /// [`missing`](Feed::missing) tells before the run.
    ///
    /// ```
    /// use fordtrumpet::{Feed, Refusal};
    ///
    /// // An Index whose Repository is no UTF-8. That is told when its pad is there.
    /// let mut feed = Feed::open();
    /// assert!(feed.feed(&[0, 1, 1, 0, 0, 0, 0, 2, b'r', 0xFF, 0]).is_ok());
    /// assert_eq!(feed.feed(&[0, 0, 0]), Err(Refusal::Text(9)));
    /// assert_eq!(feed.feed(&[0, 0, 0]), Err(Refusal::Text(9)));
    /// ```
    pub fn feed(&mut self, run: &[u8]) -> Result<Fed, Refusal> {
        let mut answer = [0; 2];
        // SAFETY: pointer and length are those of one slice, the feed is borrowed for this call alone, and
        // feed and answer have the sizes asked for.
        let number =
            unsafe { ffi::bep_feed(&mut self.words, run.as_ptr(), run.len(), &mut answer) };
        let [first, taken] = answer.map(size);
        match number {
            0 => Ok(Fed::Ended {
                length: first,
                taken,
            }),
            1 => Ok(Fed::Waiting {
                missing: first,
                taken,
            }),
            _ => Err(Refusal::new(number, first)),
        }
    }

    /// How many bytes are surely still missing: at least 1 while it waits, and 0 once the message has ended
    /// or been refused, when no more are taken.
    ///
    /// ```
    /// use fordtrumpet::Feed;
    ///
    /// let mut feed = Feed::open();
    /// let _ = feed.feed(&[0, 7, 4])?;
    /// assert_eq!(feed.missing(), 1);
    /// let _ = feed.feed(&[0])?;
    /// assert_eq!(feed.missing(), 0);
    /// # Ok::<(), fordtrumpet::Refusal>(())
    /// ```
    pub fn missing(&self) -> usize {
        // A run of no bytes brings nothing new.
        match self.clone().feed(&[]) {
            Ok(Fed::Waiting { missing, .. }) => missing,
            _ => 0,
        }
    }

    /// The type and the ID, once the first four bytes have come, even where the message is refused.
    ///
    /// ```
    /// use fordtrumpet::Feed;
    ///
    /// let mut feed = Feed::open();
    /// let _ = feed.feed(&[0, 7, 4])?;
    /// assert_eq!(feed.header(), None);
    /// let _ = feed.feed(&[0])?;
    /// assert_eq!(feed.header().unwrap().id, 7);
    /// # Ok::<(), fordtrumpet::Refusal>(())
    /// ```
    pub fn header(&self) -> Option<Header> {
        let mut answer = [0; 2];
        // SAFETY: feed and answer have the sizes asked for.
        let number = unsafe { ffi::bep_feed_header(&self.words, &mut answer) };
        let [kind, id] = answer.map(word);
        (number == 0).then(|| Header {
            kind: u8::try_from(kind).expect("a type has 8 bits"),
            id,
        })
    }
}

/// For the new edition.
///
/// ```
/// use fordtrumpet::Feed;
///
/// assert_eq!(Feed::default(), Feed::open());
/// ```
impl Default for Feed {
    fn default() -> Self {
        Self::open()
    }
}

/// Shows the header and what a run of no bytes would get.
impl fmt::Debug for Feed {
    fn fmt(&self, f: &mut fmt::Formatter<'_>) -> fmt::Result {
        f.debug_struct("Feed")
            .field("header", &self.header())
            .field("fed", &self.clone().feed(&[]))
            .finish()
    }
}
