//! The seven writers.
//!
//! Each checks the ID, then the fields as reading the written message would, then the room.

use crate::answer::written;
use crate::{ffi, Refusal};

/// Writes an Index message into `out` and gives its length.
///
/// `files` is an encoded FileInfo array, such as [`FilesBuilder`](crate::FilesBuilder) makes or
/// [`Files::as_bytes`](crate::Files::as_bytes) gives; bytes after its end don't count. Only the
/// bytes of the message change in `out`.
///
/// # Errors
///
/// 5 at 0 for an ID above 4095; then what reading the message would give, with its place there (24 for
/// a name that isn't a plain path below its folder); then 14 if `out` is too short. Nothing is written
/// then.
///
/// ```
/// use fordtrumpet::{write_index, FilesBuilder, Flags, Refusal};
///
/// let mut files = FilesBuilder::new();
/// files.push("notes.txt", Flags(0o644), 1_700_000_000, 0, []);
/// let mut out = [0; 100];
/// let length = write_index(0, "default", files.as_bytes(), &mut out)?;
/// assert_eq!(length, 56);
///
/// files.push("../notes.txt", Flags(0o644), 1_700_000_000, 0, []);
/// let written = write_index(0, "default", files.as_bytes(), &mut out);
/// assert_eq!(written, Err(Refusal::UnsafeName(56)));
/// # Ok::<(), fordtrumpet::Refusal>(())
/// ```
pub fn write_index(
    id: u32,
    repository: impl AsRef<[u8]>,
    files: &[u8],
    out: &mut [u8],
) -> Result<usize, Refusal> {
    let repository = repository.as_ref();
    let mut answer = [0];
    // SAFETY: each pointer and length are those of one slice, `out` is borrowed for this call alone,
    // and the answer has the size asked for. The same holds for the other writers.
    let number = unsafe {
        ffi::bep_write_index(
            out.as_mut_ptr(),
            out.len(),
            id,
            repository.as_ptr(),
            repository.len(),
            files.as_ptr(),
            files.len(),
            &mut answer,
        )
    };
    written(number, answer)
}

/// Writes an IndexUpdate message into `out` and gives its length.
///
/// Fields and answers are those of [`write_index`].
///
/// # Errors
///
/// As in [`write_index`].
///
/// ```
/// use fordtrumpet::{write_index_update, FilesBuilder, Flags};
///
/// let mut files = FilesBuilder::new();
/// files.push("notes.txt", Flags::DELETED, 1_700_000_000, 1, []);
/// let mut out = [0; 100];
/// let length = write_index_update(1, "default", files.as_bytes(), &mut out)?;
/// assert_eq!(length, 56);
/// # Ok::<(), fordtrumpet::Refusal>(())
/// ```
pub fn write_index_update(
    id: u32,
    repository: impl AsRef<[u8]>,
    files: &[u8],
    out: &mut [u8],
) -> Result<usize, Refusal> {
    let repository = repository.as_ref();
    let mut answer = [0];
    // SAFETY: as in `write_index`.
    let number = unsafe {
        ffi::bep_write_index_update(
            out.as_mut_ptr(),
            out.len(),
            id,
            repository.as_ptr(),
            repository.len(),
            files.as_ptr(),
            files.len(),
            &mut answer,
        )
    };
    written(number, answer)
}

/// Writes a Request message into `out` and gives its length.
///
/// The longest has 380 bytes. Only the bytes of the message change in `out`.
///
/// # Errors
///
/// 5 at 0 for an ID above 4095; then what reading the message would give, with its place there (24 for
/// a name that isn't a plain path below its folder); then 14 if `out` is too short. Nothing is written
/// then.
///
/// ```
/// use fordtrumpet::{write_request, Refusal};
///
/// let mut out = [0; 380];
/// let length = write_request(7, "default", "notes.txt", 0, 5, &[0xAB; 32], &mut out)?;
/// assert_eq!(length, 80);
///
/// let refusal = write_request(7, "default", "", 0, 5, &[0xAB; 32], &mut out).unwrap_err();
/// assert_eq!((refusal.number(), refusal.place()), (8, 16));
///
/// // A slash in another spelling isn't UTF-8. The place is that of its first byte.
/// let name = b"notes\xC0\xAFa.txt";
/// let written = write_request(7, "default", name, 0, 5, &[0xAB; 32], &mut out);
/// assert_eq!(written, Err(Refusal::Text(25)));
///
/// // A name that leads out of its folder.
/// let written = write_request(7, "default", "../a.txt", 0, 5, &[0xAB; 32], &mut out);
/// assert_eq!(written, Err(Refusal::UnsafeName(16)));
/// # Ok::<(), fordtrumpet::Refusal>(())
/// ```
pub fn write_request(
    id: u32,
    repository: impl AsRef<[u8]>,
    name: impl AsRef<[u8]>,
    offset: u64,
    length: u32,
    hash: &[u8; 32],
    out: &mut [u8],
) -> Result<usize, Refusal> {
    let (repository, name) = (repository.as_ref(), name.as_ref());
    let mut answer = [0];
    // SAFETY: as in `write_index`.
    let number = unsafe {
        ffi::bep_write_request(
            out.as_mut_ptr(),
            out.len(),
            id,
            repository.as_ptr(),
            repository.len(),
            name.as_ptr(),
            name.len(),
            offset,
            length,
            hash.as_ptr(),
            hash.len(),
            &mut answer,
        )
    };
    written(number, answer)
}

/// Writes a Response message into `out` and gives its length.
///
/// Empty data say that the block isn't available. The longest message has 131,080 bytes. Only the
/// bytes of the message change in `out`.
///
/// # Errors
///
/// 5 at 0 for an ID above 4095; 5 at 4 for more than 131,072 bytes of data; then 14 if `out` is too
/// short. Nothing is written then.
///
/// ```
/// use fordtrumpet::write_response;
///
/// let mut out = [0xFF; 17];
/// let length = write_response(7, b"hello", &mut out)?;
/// assert_eq!(length, 16);
/// // The pad is zero, and what lies after the message is as it was.
/// assert_eq!(out[8..], *b"hello\0\0\0\xFF");
/// # Ok::<(), fordtrumpet::Refusal>(())
/// ```
pub fn write_response(id: u32, data: &[u8], out: &mut [u8]) -> Result<usize, Refusal> {
    let mut answer = [0];
    // SAFETY: as in `write_index`.
    let number = unsafe {
        ffi::bep_write_response(
            out.as_mut_ptr(),
            out.len(),
            id,
            data.as_ptr(),
            data.len(),
            &mut answer,
        )
    };
    written(number, answer)
}

/// Writes a Ping message into `out` and gives its length, which is 4.
///
/// # Errors
///
/// 5 at 0 for an ID above 4095, then 14 if `out` is too short. Nothing is written then.
///
/// ```
/// let mut out = [0; 4];
/// fordtrumpet::write_ping(5, &mut out)?;
/// assert_eq!(out, [0, 5, 4, 0]);
/// # Ok::<(), fordtrumpet::Refusal>(())
/// ```
pub fn write_ping(id: u32, out: &mut [u8]) -> Result<usize, Refusal> {
    let mut answer = [0];
    // SAFETY: as in `write_index`.
    let number = unsafe { ffi::bep_write_ping(out.as_mut_ptr(), out.len(), id, &mut answer) };
    written(number, answer)
}

/// Writes a Pong message into `out` and gives its length, which is 4.
///
/// # Errors
///
/// 5 at 0 for an ID above 4095, then 14 if `out` is too short. Nothing is written then.
///
/// ```
/// let mut out = [0; 4];
/// fordtrumpet::write_pong(4095, &mut out)?;
/// assert_eq!(out, [0x0F, 0xFF, 5, 0]);
/// # Ok::<(), fordtrumpet::Refusal>(())
/// ```
pub fn write_pong(id: u32, out: &mut [u8]) -> Result<usize, Refusal> {
    let mut answer = [0];
    // SAFETY: as in `write_index`.
    let number = unsafe { ffi::bep_write_pong(out.as_mut_ptr(), out.len(), id, &mut answer) };
    written(number, answer)
}

/// Writes an Options message into `out` and gives its length.
///
/// `options` is an encoded array, such as [`OptionsBuilder`](crate::OptionsBuilder) makes; bytes
/// after its end don't count. Only the bytes of the message change in `out`.
///
/// # Errors
///
/// 5 at 0 for an ID above 4095; then what reading the message would give, with its place there; then
/// 14 if `out` is too short. Nothing is written then.
///
/// ```
/// use fordtrumpet::{write_options, OptionsBuilder};
///
/// let mut options = OptionsBuilder::new();
/// options.push("clientId", "fordtrumpet");
/// let mut out = [0; 100];
/// let length = write_options(0, options.as_bytes(), &mut out)?;
/// assert_eq!(length, 36);
/// # Ok::<(), fordtrumpet::Refusal>(())
/// ```
pub fn write_options(id: u32, options: &[u8], out: &mut [u8]) -> Result<usize, Refusal> {
    let mut answer = [0];
    // SAFETY: as in `write_index`.
    let number = unsafe {
        ffi::bep_write_options(
            out.as_mut_ptr(),
            out.len(),
            id,
            options.as_ptr(),
            options.len(),
            &mut answer,
        )
    };
    written(number, answer)
}
