//! The ruling on an incoming Request.

use crate::{raw, Refusal, Table};

/// What is to be done about an incoming Request.
///
/// ```
/// use fordtrumpet::Serving;
///
/// fn reply(serving: Serving<'_>) {
///     match serving {
///         Serving::Served { id, name, offset, length } => {
///             println!("send {length} bytes of {} at {offset} as {id}", name.escape_debug());
///         }
///         Serving::Replied(length) => println!("send the {length} bytes that were written"),
///     }
/// }
/// ```
#[derive(Clone, Copy, Debug, PartialEq, Eq)]
#[must_use]
pub enum Serving<'a> {
    /// The block is ours: send its bytes in a Response. Nothing was written.
    Served {
        /// The ID of the Request, which the Response has too.
        id: u32,
        /// The name of the file, as the Request has it.
        name: &'a str,
        /// Where the block begins in the file.
        offset: u64,
        /// How many bytes it has.
        length: u32,
    },
    /// The block isn't ours: a Response without data, of this length, was written for the reply.
    Replied(usize),
}

/// Rules on an incoming Request, by our own table and the repository that it is about.
///
/// It is served exactly if it names our repository and our table has a valid, undeleted record of
/// that name with that length and hash at that offset. Otherwise `out` is filled with the reply, a
/// Response with the same ID and no data, which takes 8 bytes.
///
/// # Errors
///
/// What reading the message gives; 18 if it is no Request; 14 if the reply is longer than `out`.
/// Nothing is written then.
///
/// ```
/// use fordtrumpet::{serve, write_request, Block, FilesBuilder, Flags, Serving, Table};
///
/// let hash = [7; 32];
/// let mut files = FilesBuilder::new();
/// files.push("a", Flags(0), 0, 0, [Block { length: 9, hash: &hash }]);
/// let table = Table::new(files.as_bytes())?;
///
/// let mut request = [0; 380];
/// let length = write_request(5, "default", "a", 0, 9, &hash, &mut request)?;
/// let mut out = [0; 8];
/// let serving = serve(table, "default", &request[..length], &mut out)?;
/// assert_eq!(serving, Serving::Served { id: 5, name: "a", offset: 0, length: 9 });
///
/// let serving = serve(table, "another", &request[..length], &mut out)?;
/// assert_eq!(serving, Serving::Replied(8));
/// assert_eq!(out, [0, 5, 3, 0, 0, 0, 0, 0]);
/// # Ok::<(), fordtrumpet::Refusal>(())
/// ```
pub fn serve<'a>(
    table: Table<'_>,
    repository: impl AsRef<[u8]>,
    message: &'a [u8],
    out: &mut [u8],
) -> Result<Serving<'a>, Refusal> {
    raw::serve(table.as_bytes(), repository, message, out)
}
