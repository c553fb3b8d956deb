//! The old edition of the protocol, and turning a message of one edition into the other.

use crate::answer::written;
use crate::message::message_read;
use crate::{ffi, ReadMessage, Refusal};

/// Reads the message of the old edition at the start of `input`.
///
/// It is as [`read`](crate::read) is, but an Index, an IndexUpdate and a Request have no Repository, which
/// is `""` here, and there are no Options.
///
/// # Errors
///
/// As in [`read`](crate::read), and 3 for type 7 as for those above it.
///
/// ```
/// use fordtrumpet::{read_old, Message, Refusal};
///
/// let read = read_old(&[0, 1, 1, 0, 0, 0, 0, 0])?;
/// assert_eq!(read.used, 8);
/// let Message::Index(index) = read.message else { panic!() };
/// assert_eq!((index.id, index.repository, index.files.len()), (1, "", 0));
///
/// assert_eq!(read_old(&[0, 1, 7, 0, 0, 0, 0, 0]), Err(Refusal::Type(0)));
/// # Ok::<(), fordtrumpet::Refusal>(())
/// ```
pub fn read_old(input: &[u8]) -> Result<ReadMessage<'_>, Refusal> {
    let mut answer = [0; 11];
    // SAFETY: pointer and length are those of one slice, and the answer has the size asked for.
    let number = unsafe { ffi::bep_read_old(input.as_ptr(), input.len(), &mut answer) };
    message_read(input, number, &answer)
}

/// Writes an Index message of the old edition into `out` and gives its length.
///
/// Fields and answers are those of [`write_index`](crate::write_index), without the Repository.
///
/// # Errors
///
/// As in [`write_index`](crate::write_index).
///
/// ```
/// use fordtrumpet::{read_old, write_old_index, FilesBuilder, Flags};
///
/// let mut files = FilesBuilder::new();
/// files.push("notes.txt", Flags(0o644), 1_700_000_000, 0, []);
/// let mut out = [0; 100];
/// let length = write_old_index(0, files.as_bytes(), &mut out)?;
/// assert_eq!(length, 44);
/// assert_eq!(read_old(&out)?.used, length);
/// # Ok::<(), fordtrumpet::Refusal>(())
/// ```
pub fn write_old_index(id: u32, files: &[u8], out: &mut [u8]) -> Result<usize, Refusal> {
    let mut answer = [0];
    // SAFETY: each pointer and length are those of one slice, `out` is borrowed for this call alone,
    // and the answer has the size asked for. The same holds for the other calls that fill `out`.
    let number = unsafe {
        ffi::bep_write_old_index(
            out.as_mut_ptr(),
            out.len(),
            id,
            files.as_ptr(),
            files.len(),
            &mut answer,
        )
    };
    written(number, answer)
}

/// Writes an IndexUpdate message of the old edition into `out` and gives its length.
///
/// Fields and answers are those of [`write_index_update`](crate::write_index_update), without the
/// Repository.
///
/// # Errors
///
/// As in [`write_index`](crate::write_index).
///
/// ```
/// use fordtrumpet::{write_old_index_update, FilesBuilder, Flags};
///
/// let mut files = FilesBuilder::new();
/// files.push("notes.txt", Flags::DELETED, 1_700_000_000, 1, []);
/// let mut out = [0; 100];
/// let length = write_old_index_update(1, files.as_bytes(), &mut out)?;
/// assert_eq!(length, 44);
/// # Ok::<(), fordtrumpet::Refusal>(())
/// ```
pub fn write_old_index_update(id: u32, files: &[u8], out: &mut [u8]) -> Result<usize, Refusal> {
    let mut answer = [0];
    // SAFETY: as in `write_old_index`.
    let number = unsafe {
        ffi::bep_write_old_index_update(
            out.as_mut_ptr(),
            out.len(),
            id,
            files.as_ptr(),
            files.len(),
            &mut answer,
        )
    };
    written(number, answer)
}

/// Writes a Request message of the old edition into `out` and gives its length.
///
/// Fields and answers are those of [`write_request`](crate::write_request), without the Repository.
///
/// # Errors
///
/// As in [`write_request`](crate::write_request).
///
/// ```
/// use fordtrumpet::{write_old_request, Refusal};
///
/// let mut out = [0; 380];
/// let length = write_old_request(7, "notes.txt", 0, 5, &[0xAB; 32], &mut out)?;
/// assert_eq!(length, 68);
///
/// let written = write_old_request(7, "../a.txt", 0, 5, &[0xAB; 32], &mut out);
/// assert_eq!(written, Err(Refusal::UnsafeName(4)));
/// # Ok::<(), fordtrumpet::Refusal>(())
/// ```
pub fn write_old_request(
    id: u32,
    name: impl AsRef<[u8]>,
    offset: u64,
    length: u32,
    hash: &[u8; 32],
    out: &mut [u8],
) -> Result<usize, Refusal> {
    let name = name.as_ref();
    let mut answer = [0];
    // SAFETY: as in `write_old_index`.
    let number = unsafe {
        ffi::bep_write_old_request(
            out.as_mut_ptr(),
            out.len(),
            id,
            name.as_ptr(),
            name.len(),
            offset,
            length,
            hash.as_ptr(),
            hash.len(),
            &mut answer,
        )
    };
    written(number, answer)
}

/// Turns a message of the old edition into one of the new: writes that into `out` and gives its length.
///
/// An Index, an IndexUpdate and a Request get the Repository; their ID and the other fields stay. The new
/// message is at most 68 bytes longer than the old one. A Response, a Ping and a Pong are the same bytes
/// in both editions, and the Repository isn't looked at. Bytes after the message don't go along. Only the
/// bytes of the new message change in `out`.
///
/// # Errors
///
/// What [`read_old`] gives for `message`; for an Index, an IndexUpdate and a Request then 5 or 7 if the
/// Repository has more than 64 bytes or isn't UTF-8, with its place in the new message; then 14 if `out`
/// is too short. Nothing is written then.
///
/// ```
/// use fordtrumpet::{accept, upgrade, write_old_index, FilesBuilder, Flags, Refusal, Table};
///
/// let mut files = FilesBuilder::new();
/// files.push("notes.txt", Flags(0o644), 1_700_000_000, 0, []);
/// let mut old = [0; 100];
/// let length = write_old_index(7, files.as_bytes(), &mut old)?;
///
/// let (mut new, mut out) = ([0; 168], [0; 100]);
/// let length = upgrade(&old[..length], "default", &mut new)?;
/// assert_eq!(length, 44 + 12);
/// let table = accept(Table::EMPTY, &new[..length], "default", &mut out)?;
/// assert_eq!(table.as_bytes(), files.as_bytes());
///
/// // A Repository that isn't UTF-8. The place is the one that its bad byte would have.
/// assert_eq!(upgrade(&old, b"clips\xFF", &mut new), Err(Refusal::Text(13)));
/// # Ok::<(), fordtrumpet::Refusal>(())
/// ```
pub fn upgrade(
    message: &[u8],
    repository: impl AsRef<[u8]>,
    out: &mut [u8],
) -> Result<usize, Refusal> {
    let repository = repository.as_ref();
    let mut answer = [0];
    // SAFETY: as in `write_old_index`.
    let number = unsafe {
        ffi::bep_upgrade(
            out.as_mut_ptr(),
            out.len(),
            message.as_ptr(),
            message.len(),
            repository.as_ptr(),
            repository.len(),
            &mut answer,
        )
    };
    written(number, answer)
}

/// Turns a message of the new edition into one of the old: writes that into `out` and gives its length.
///
/// An Index, an IndexUpdate and a Request lose their Repository; their ID and the other fields stay. A
/// Response, a Ping and a Pong are the same bytes in both editions. Bytes after the message don't go along.
/// Only the bytes of the old message change in `out`.
///
/// # Errors
///
/// What [`read`](crate::read) gives for `message`; then 18 if it is an Options message, which the old
/// edition doesn't have; then 14 if `out` is too short. Nothing is written then.
///
/// ```
/// use fordtrumpet::{downgrade, read_old, Message, Refusal, RequestQueue, MAX_REQUEST};
///
/// let mut queue = RequestQueue::open();
/// let (mut new, mut old) = ([0; MAX_REQUEST], [0; MAX_REQUEST]);
/// let issued = queue.peer(1).issue("default", "notes.txt", 0, 5, &[0xAB; 32], &mut new)?;
/// let length = downgrade(&new[..issued.written], &mut old)?;
/// assert_eq!(length, issued.written - 12);
/// let Message::Request(request) = read_old(&old[..length])?.message else { panic!() };
/// assert_eq!((request.id, request.name), (issued.id, "notes.txt"));
///
/// let options = [0, 0, 7, 0, 0, 0, 0, 0];
/// assert_eq!(downgrade(&options, &mut old), Err(Refusal::OtherType));
/// # Ok::<(), fordtrumpet::Refusal>(())
/// ```
pub fn downgrade(message: &[u8], out: &mut [u8]) -> Result<usize, Refusal> {
    let mut answer = [0];
    // SAFETY: as in `write_old_index`.
    let number = unsafe {
        ffi::bep_downgrade(
            out.as_mut_ptr(),
            out.len(),
            message.as_ptr(),
            message.len(),
            &mut answer,
        )
    };
    written(number, answer)
}
