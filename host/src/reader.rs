//! Messages off a stream.

use crate::{Fed, Feed};
use std::fmt;
use std::io::{self, BufRead, BufReader, Read};

/// How many bytes are asked of the stream at a time.
const AT_A_TIME: usize = 16_384;

/// Takes messages off a stream, one after another.
///
/// What has come of later ones waits in the reader. A message is gone through once, however few bytes
/// come at a time.
///
/// ```
/// use fordtrumpet::{read, Reader};
///
/// // A Ping, and a Response without data.
/// let stream = &[0, 7, 4, 0, 0, 8, 3, 0, 0, 0, 0, 0][..];
/// let mut reader = Reader::open(stream);
/// let mut ids = Vec::new();
/// while let Some(message) = reader.next_message()? {
///     ids.push(read(message)?.message.id());
/// }
/// assert_eq!(ids, [7, 8]);
/// # Ok::<(), std::io::Error>(())
/// ```
pub struct Reader<R> {
    stream: BufReader<R>,
    /// A feed for the next message.
    opened: Feed,
    feed: Feed,
    /// What the feed has taken.
    message: Vec<u8>,
    limit: usize,
}

impl<R: Read> Reader<R> {
    /// A reader of messages of the new edition.
    ///
    /// ```
    /// use fordtrumpet::Reader;
    ///
    /// let mut reader = Reader::open(&[0, 1, 5, 0][..]);
    /// assert_eq!(reader.next_message()?, Some(&[0, 1, 5, 0][..]));
    /// # Ok::<(), std::io::Error>(())
    /// ```
    pub fn open(stream: R) -> Self {
        Self::with_feed(Feed::open(), stream)
    }

    /// A reader of messages of the old edition, for [`read_old`](crate::read_old).
    ///
    /// ```
    /// use fordtrumpet::{read_old, Reader};
    ///
    /// let mut reader = Reader::open_old(&[0, 1, 1, 0, 0, 0, 0, 0][..]);
    /// let message = reader.next_message()?.unwrap();
    /// assert_eq!(read_old(message)?.used, 8);
    /// # Ok::<(), std::io::Error>(())
    /// ```
    pub fn open_old(stream: R) -> Self {
        Self::with_feed(Feed::open_old(), stream)
    }

    fn with_feed(feed: Feed, stream: R) -> Self {
        Reader {
            stream: BufReader::with_capacity(AT_A_TIME, stream),
            opened: feed.clone(),
            feed,
            message: Vec::new(),
            limit: usize::MAX,
        }
    }

    /// Takes no message that is longer than so many bytes. Without a limit a peer can have us keep the
    /// longest Index there is, some 21 MB.
    ///
    /// ```
    /// use fordtrumpet::{Reader, REPLY};
    ///
    /// // The first eight bytes of a Response tell that it is longer.
    /// let mut reader = Reader::open(&[0, 1, 3, 0, 0, 0, 0, 4][..]).limit(REPLY);
    /// assert!(reader.next_message().is_err());
    /// ```
    pub fn limit(self, limit: usize) -> Self {
        Reader { limit, ..self }
    }

    /// The bytes of the next message, or none where the stream ends before it begins.
    ///
    /// # Errors
    ///
    /// Those of the stream: it can be asked again, and goes on where it was. An unexpected end where the
    /// stream ends within a message. The [`Refusal`](crate::Refusal) of a message, or invalid data where one
    /// is above the limit; the messages after it can't be told apart then, so every later call gets the same.
    ///
    /// ```
    /// use fordtrumpet::Reader;
    /// use std::io::ErrorKind;
    ///
    /// let mut reader = Reader::open(&[0, 1, 5, 0, 0, 0, 8, 0][..]);
    /// assert!(reader.next_message().is_ok());
    /// assert_eq!(reader.next_message().unwrap_err().kind(), ErrorKind::InvalidData);
    ///
    /// assert_eq!(Reader::open(&[][..]).next_message()?, None);
    /// let cut = Reader::open(&[0, 1, 5][..]).next_message().unwrap_err();
    /// assert_eq!(cut.kind(), ErrorKind::UnexpectedEof);
    /// # Ok::<(), std::io::Error>(())
    /// ```
    pub fn next_message(&mut self) -> io::Result<Option<&[u8]>> {
        if let Fed::Ended { .. } = self.feed.feed(&[])? {
            self.feed.clone_from(&self.opened);
            self.message.clear();
        }
        loop {
            let room = self.limit.saturating_sub(self.message.len());
            if self.feed.missing() > room {
                return Err(too_long(self.limit));
            }
            let run = match self.stream.fill_buf() {
                Err(error) if error.kind() == io::ErrorKind::Interrupted => continue,
                run => run?,
            };
            if run.is_empty() {
                return match self.message.is_empty() {
                    true => Ok(None),
                    false => Err(io::ErrorKind::UnexpectedEof.into()),
                };
            }
            let run = &run[..run.len().min(room)];
            let fed = self.feed.feed(run);
            let taken = fed.map_or(run.len(), |fed| fed.taken());
            self.message.extend_from_slice(&run[..taken]);
            self.stream.consume(taken);
            if let Fed::Ended { .. } = fed? {
                return Ok(Some(&self.message));
            }
        }
    }
}

/// Leaves out the bytes, which may be many.
impl<R: fmt::Debug> fmt::Debug for Reader<R> {
    fn fmt(&self, f: &mut fmt::Formatter<'_>) -> fmt::Result {
        f.debug_struct("Reader")
            .field("stream", self.stream.get_ref())
            .field("feed", &self.feed)
            .field("limit", &self.limit)
            .finish_non_exhaustive()
    }
}

#[cold]
fn too_long(limit: usize) -> io::Error {
    let text = format!("a message is longer than {limit} bytes");
    io::Error::new(io::ErrorKind::InvalidData, text)
}
