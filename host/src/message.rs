//! Reading a message, and what it holds.

use crate::answer::{size, span, text, word};
use crate::show::Hex;
use crate::{ffi, Files, KeyValues, Refusal};
use core::fmt;

/// Reads the message at the start of `input`.
///
/// The fields borrow from `input`. There is no message length on the wire, so `input` may hold more
/// than the message: [`ReadMessage::used`] says where the next one begins, and bytes after that change no
/// answer. A message that is cut short is refused with number 1; where bytes come a few at a time, a
/// [`Feed`](crate::Feed) tells when the message is whole.
///
/// # Errors
///
/// The first check that fails, from the left: numbers 1 to 12, and 24 for a name that isn't a plain path
/// below its folder.
///
/// ```
/// use fordtrumpet::{read, Message};
///
/// // A Ping with the ID 7, and the first byte of the next message.
/// let read = read(&[0, 7, 4, 0, 0]).unwrap();
/// assert_eq!(read.used, 4);
/// assert_eq!(read.message.id(), 7);
/// assert!(matches!(read.message, Message::Ping(_)));
/// ```
pub fn read(input: &[u8]) -> Result<ReadMessage<'_>, Refusal> {
    let mut answer = [0; 11];
    // SAFETY: pointer and length are those of one slice, and the answer has the size asked for.
    let number = unsafe { ffi::bep_read(input.as_ptr(), input.len(), &mut answer) };
    message_read(input, number, &answer)
}

/// What a reading of either edition answered.
#[inline]
pub(crate) fn message_read<'a>(
    input: &'a [u8],
    number: u32,
    answer: &[u64; 11],
) -> Result<ReadMessage<'a>, Refusal> {
    if number != 0 {
        let place = size(answer[0]);
        return Err(Refusal::new(number, place));
    }
    let id = word(answer[2]);
    let message = match answer[1] {
        1 => Message::Index(index(input, id, answer)),
        2 => Message::Request(Request {
            id,
            repository: text(input, answer[3], answer[4]),
            name: text(input, answer[5], answer[6]),
            offset: answer[7],
            length: word(answer[8]),
            hash: span(input, answer[9], answer[10])
                .try_into()
                .expect("an accepted hash has 32 bytes"),
        }),
        3 => Message::Response(Response {
            id,
            data: span(input, answer[3], answer[4]),
        }),
        4 => Message::Ping(Ping { id }),
        5 => Message::Pong(Pong { id }),
        6 => Message::IndexUpdate(index(input, id, answer)),
        7 => Message::Options(Options {
            id,
            options: KeyValues::new(span(input, answer[5], answer[6]), size(answer[7])),
        }),
        kind => unreachable!("an accepted message has no type {kind}"),
    };
    Ok(ReadMessage {
        message,
        used: size(answer[0]),
    })
}

fn index<'a>(input: &'a [u8], id: u32, answer: &[u64; 11]) -> Index<'a> {
    Index {
        id,
        repository: text(input, answer[3], answer[4]),
        files: Files::new(span(input, answer[5], answer[6]), size(answer[7])),
    }
}

/// A message and the number of bytes it was read from.
///
/// ```
/// let input = [0, 7, 4, 0, 0, 8, 4, 0];
/// let first = fordtrumpet::read(&input)?;
/// let second = fordtrumpet::read(&input[first.used..])?;
/// assert_eq!((first.message.id(), second.message.id()), (7, 8));
/// # Ok::<(), fordtrumpet::Refusal>(())
/// ```
#[derive(Clone, Copy, Debug, PartialEq, Eq)]
#[must_use]
pub struct ReadMessage<'a> {
    /// The message.
    pub message: Message<'a>,
    /// The number of bytes the message occupies. Later bytes belong to the next message.
    pub used: usize,
}

/// A message of one of the seven types.
///
/// ```
/// use fordtrumpet::{read, Message, Response};
///
/// match read(&[0, 2, 3, 0, 0, 0, 0, 0])?.message {
///     Message::Response(Response { id: 2, data: [] }) => {}
///     other => panic!("{other:?}"),
/// }
/// # Ok::<(), fordtrumpet::Refusal>(())
/// ```
#[derive(Clone, Copy, Debug, PartialEq, Eq)]
pub enum Message<'a> {
    /// The whole contents of the sender's repository.
    Index(Index<'a>),
    /// A block is asked for.
    Request(Request<'a>),
    /// The answer to a Request.
    Response(Response<'a>),
    /// Asks whether the connection is alive.
    Ping(Ping),
    /// The answer to a Ping.
    Pong(Pong),
    /// New and changed files of the sender's repository.
    IndexUpdate(Index<'a>),
    /// Facts about the sender as pairs of key and value.
    Options(Options<'a>),
}

impl Message<'_> {
    /// The Message ID, from 0 to 4095.
    ///
    /// ```
    /// let read = fordtrumpet::read(&[0x0F, 0xFF, 5, 0]).unwrap();
    /// assert_eq!(read.message.id(), 4095);
    /// ```
    pub fn id(&self) -> u32 {
        match self {
            Message::Index(message) | Message::IndexUpdate(message) => message.id,
            Message::Request(message) => message.id,
            Message::Response(message) => message.id,
            Message::Ping(message) => message.id,
            Message::Pong(message) => message.id,
            Message::Options(message) => message.id,
        }
    }
}

/// An Index or an IndexUpdate; both have the same fields.
///
/// ```
/// use fordtrumpet::{read, Message};
///
/// let Message::Index(index) = read(&[0, 1, 1, 0, 0, 0, 0, 0, 0, 0, 0, 0])?.message else { panic!() };
/// assert_eq!((index.id, index.repository, index.files.len()), (1, "", 0));
/// # Ok::<(), fordtrumpet::Refusal>(())
/// ```
#[derive(Clone, Copy, Debug, PartialEq, Eq)]
pub struct Index<'a> {
    /// The Message ID.
    pub id: u32,
    /// The repository's name, up to 64 bytes; empty in an old message, which has none.
    pub repository: &'a str,
    /// The files, in the order they were sent in.
    pub files: Files<'a>,
}

/// A Request for one block.
///
/// ```
/// use fordtrumpet::{read, write_request, Message, MAX_REQUEST};
///
/// let mut out = [0; MAX_REQUEST];
/// let length = write_request(3, "default", "a", 131_072, 5, &[7; 32], &mut out)?;
/// let Message::Request(request) = read(&out[..length])?.message else { panic!() };
/// assert_eq!((request.name, request.offset, request.hash), ("a", 131_072, &[7; 32]));
/// # Ok::<(), fordtrumpet::Refusal>(())
/// ```
#[derive(Clone, Copy, PartialEq, Eq)]
pub struct Request<'a> {
    /// The Message ID.
    pub id: u32,
    /// The repository's name, up to 64 bytes; empty in an old message, which has none.
    pub repository: &'a str,
    /// The file's name, 1 to 255 bytes: a plain path below its folder.
    pub name: &'a str,
    /// Where the block starts in the file.
    pub offset: u64,
    /// The block's length, 1 to 131,072.
    pub length: u32,
    /// The hash the block should have.
    pub hash: &'a [u8; 32],
}

/// A Response to a Request.
///
/// ```
/// use fordtrumpet::{read, Message};
///
/// let Message::Response(response) = read(&[0, 2, 3, 0, 0, 0, 0, 1, b'x', 0, 0, 0])?.message else { panic!() };
/// assert_eq!(response.data, b"x");
/// # Ok::<(), fordtrumpet::Refusal>(())
/// ```
#[derive(Clone, Copy, PartialEq, Eq)]
pub struct Response<'a> {
    /// The ID of the Request it answers.
    pub id: u32,
    /// The block, up to 131,072 bytes; empty if it isn't available.
    pub data: &'a [u8],
}

/// A Ping.
///
/// ```
/// use fordtrumpet::{read, Message, Ping};
///
/// assert_eq!(read(&[0, 0, 4, 0])?.message, Message::Ping(Ping { id: 0 }));
/// # Ok::<(), fordtrumpet::Refusal>(())
/// ```
#[derive(Clone, Copy, Debug, PartialEq, Eq)]
pub struct Ping {
    /// The Message ID.
    pub id: u32,
}

/// A Pong.
///
/// ```
/// use fordtrumpet::{read, Message, Pong};
///
/// assert_eq!(read(&[0x0F, 0xFF, 5, 0])?.message, Message::Pong(Pong { id: 4095 }));
/// # Ok::<(), fordtrumpet::Refusal>(())
/// ```
#[derive(Clone, Copy, Debug, PartialEq, Eq)]
pub struct Pong {
    /// The ID of the Ping it answers.
    pub id: u32,
}

/// An Options message.
///
/// ```
/// use fordtrumpet::{read, Message};
///
/// let Message::Options(message) = read(&[0, 0, 7, 0, 0, 0, 0, 0])?.message else { panic!() };
/// assert!(message.options.is_empty());
/// # Ok::<(), fordtrumpet::Refusal>(())
/// ```
#[derive(Clone, Copy, Debug, PartialEq, Eq)]
pub struct Options<'a> {
    /// The Message ID.
    pub id: u32,
    /// The options, in the order they were sent in.
    pub options: KeyValues<'a>,
}

impl fmt::Debug for Request<'_> {
    fn fmt(&self, f: &mut fmt::Formatter<'_>) -> fmt::Result {
        f.debug_struct("Request")
            .field("id", &self.id)
            .field("repository", &self.repository)
            .field("name", &self.name)
            .field("offset", &self.offset)
            .field("length", &self.length)
            .field("hash", &Hex(self.hash))
            .finish()
    }
}

impl fmt::Debug for Response<'_> {
    fn fmt(&self, f: &mut fmt::Formatter<'_>) -> fmt::Result {
        f.debug_struct("Response")
            .field("id", &self.id)
            .field("data", &format_args!("{} bytes", self.data.len()))
            .finish()
    }
}
