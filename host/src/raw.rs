//! The calls on tables for those who have only bytes: each checks the tables that it is given, and
//! refuses those that aren't good with 15.
//!
//! ```
//! use fordtrumpet::{raw, Refusal};
//!
//! assert_eq!(raw::merge(b"", b"\0\0\0\0", &mut [0; 100]), Err(Refusal::BadTable));
//! ```

use crate::answer::{size, text, word, written};
use crate::{ffi, Details, Reason, Refusal, RequestList, Serving};

pub use crate::walker::Walker;

/// Whether the bytes are a good table.
///
/// ```
/// use fordtrumpet::raw::is_good;
///
/// assert!(is_good(b"\0\0\0\0"));
/// assert!(!is_good(b"\0\0\0"));
/// ```
pub fn is_good(table: &[u8]) -> bool {
    // SAFETY: pointer and length are those of one slice.
    unsafe { ffi::bep_check_table(table.as_ptr(), table.len()) == 0 }
}

/// Fills `out` with the merged table of two tables and gives its length.
///
/// The merged table has the newest record of each name. A buffer of [`MAX_TABLE`](crate::MAX_TABLE) bytes has room for
/// any. Only the bytes of the table change in `out`.
///
/// # Errors
///
/// 15 if either isn't a good table; 19 if the merged table is above 512 records or 65,536 bytes; 14
/// if `out` is too short. Nothing is written then.
///
/// ```
/// use fordtrumpet::raw::merge;
/// use fordtrumpet::{FilesBuilder, Flags};
///
/// let (mut ours, mut theirs) = (FilesBuilder::new(), FilesBuilder::new());
/// ours.push("a", Flags(0o644), 1_700_000_000, 0, []);
/// theirs.push("a", Flags(0o644), 1_700_000_000, 1, []);
/// theirs.push("b", Flags(0o644), 1_700_000_000, 0, []);
/// let mut out = [0; 100];
/// let length = merge(ours.as_bytes(), theirs.as_bytes(), &mut out)?;
/// assert_eq!(out[..length], *theirs.as_bytes());
/// # Ok::<(), fordtrumpet::Refusal>(())
/// ```
pub fn merge(a: &[u8], b: &[u8], out: &mut [u8]) -> Result<usize, Refusal> {
    let mut answer = [0];
    // SAFETY: each pointer and length are those of one slice, `out` is borrowed for this call alone,
    // and the answer has the size asked for.
    let number = unsafe {
        ffi::bep_merge(
            out.as_mut_ptr(),
            out.len(),
            a.as_ptr(),
            a.len(),
            b.as_ptr(),
            b.len(),
            &mut answer,
        )
    };
    written(number, answer)
}

/// Fills `out` with a sender's new table and gives its length.
///
/// `old` is the sender's table so far. After an Index the new one has the message's records, after an
/// IndexUpdate those and the old ones that the message doesn't mention; its records are taken even
/// where they are older. Only the bytes of the table change in `out`.
///
/// # Errors
///
/// 15 if `old` isn't a good table; what reading the message gives; 18 if it is neither an Index nor an
/// IndexUpdate; 21 if it is of another repository; 13 if a name stands twice in it; 19 if the new table
/// is above 512 records or 65,536 bytes; 14 if `out` is too short. Nothing is written then.
///
/// ```
/// use fordtrumpet::raw::accept;
/// use fordtrumpet::{write_index_update, FilesBuilder, Flags, Table};
///
/// let (mut old, mut sent) = (FilesBuilder::new(), FilesBuilder::new());
/// old.push("a", Flags(0o644), 1_700_000_000, 0, []);
/// sent.push("b", Flags(0o644), 1_700_000_000, 0, []);
/// let (mut message, mut out) = ([0; 100], [0; 100]);
/// let length = write_index_update(0, "default", sent.as_bytes(), &mut message)?;
/// let length = accept(old.as_bytes(), &message[..length], "default", &mut out)?;
/// let table = Table::new(&out[..length])?;
/// assert!(table.files().iter().map(|file| file.name).eq(["a", "b"]));
/// # Ok::<(), fordtrumpet::Refusal>(())
/// ```
pub fn accept(
    old: &[u8],
    message: &[u8],
    repository: impl AsRef<[u8]>,
    out: &mut [u8],
) -> Result<usize, Refusal> {
    let repository = repository.as_ref();
    let mut answer = [0];
    // SAFETY: each pointer and length are those of one slice, `out` is borrowed for this call alone,
    // and the answer has the size asked for.
    let number = unsafe {
        ffi::bep_accept(
            out.as_mut_ptr(),
            out.len(),
            old.as_ptr(),
            old.len(),
            message.as_ptr(),
            message.len(),
            repository.as_ptr(),
            repository.len(),
            &mut answer,
        )
    };
    written(number, answer)
}

/// Fills `out` with the blocks to request, and from whom, and gives them.
///
/// Of each name over the five tables the newest record counts. A block of it is wanted where the
/// record is valid and undeleted and no valid, undeleted record of `local` has its length and hash.
/// For an absent peer give the empty table, four zero bytes. Only the bytes of the list change
/// in `out`, 24 a block.
///
/// # Errors
///
/// 15 if one of the five isn't a good table; 14 if `out` is too short. Nothing is written then.
///
/// ```
/// use fordtrumpet::raw::request_list;
/// use fordtrumpet::{Block, FilesBuilder, Flags};
///
/// let (first, second) = ([1; 32], [2; 32]);
/// let (mut local, mut peer) = (FilesBuilder::new(), FilesBuilder::new());
/// local.push("a", Flags(0), 0, 0, [Block { length: 131_072, hash: &first }]);
/// let blocks = [Block { length: 131_072, hash: &first }, Block { length: 5, hash: &second }];
/// peer.push("b", Flags(0), 0, 0, blocks);
///
/// let peers: [&[u8]; 4] = [b"\0\0\0\0", peer.as_bytes(), b"\0\0\0\0", b"\0\0\0\0"];
/// let mut out = [0; 1000];
/// let list = request_list(local.as_bytes(), peers, &mut out)?;
/// let wanted = list.iter().next().unwrap();
/// assert_eq!((wanted.name, wanted.block, wanted.peer), ("b", 1, 2));
/// # Ok::<(), fordtrumpet::Refusal>(())
/// ```
pub fn request_list<'o, 't>(
    local: &'t [u8],
    peers: [&'t [u8]; 4],
    out: &'o mut [u8],
) -> Result<RequestList<'o, 't>, Refusal> {
    let [peer1, peer2, peer3, peer4] = peers;
    let mut answer = [0];
    // SAFETY: each pointer and length are those of one slice, `out` is borrowed for this call alone,
    // and the answer has the size asked for.
    let number = unsafe {
        ffi::bep_request_list(
            out.as_mut_ptr(),
            out.len(),
            local.as_ptr(),
            local.len(),
            peer1.as_ptr(),
            peer1.len(),
            peer2.as_ptr(),
            peer2.len(),
            peer3.as_ptr(),
            peer3.len(),
            peer4.as_ptr(),
            peer4.len(),
            &mut answer,
        )
    };
    let len = written(number, answer)?;
    Ok(RequestList::new(&out[..len], local, peers))
}

/// What a block is to be asked for with, by the numbers of an entry of a request list and the tables
/// that the list was made of.
///
/// `file` counts the names of all five tables, and `block` the blocks of the file's newest record, both
/// from 0. There are details of every such block, listed or not, and `None` where no file or no block has
/// that number.
///
/// # Errors
///
/// 15 if one of the five isn't a good table.
///
/// ```
/// use fordtrumpet::raw::details;
/// use fordtrumpet::{Block, FilesBuilder, Flags, Refusal};
///
/// let hash = [7; 32];
/// let mut peer = FilesBuilder::new();
/// peer.push("a", Flags(0), 0, 0, [Block { length: 9, hash: &hash }]);
///
/// let mut peers: [&[u8]; 4] = [b"\0\0\0\0", peer.as_bytes(), b"\0\0\0\0", b"\0\0\0\0"];
/// let found = details(b"\0\0\0\0", peers, 0, 0)?.unwrap();
/// assert_eq!((found.table, found.name, found.hash), (2, "a", &hash));
/// assert_eq!(details(b"\0\0\0\0", peers, 1, 0), Ok(None));
/// peers[3] = b"";
/// assert_eq!(details(b"\0\0\0\0", peers, 0, 0), Err(Refusal::BadTable));
/// # Ok::<(), Refusal>(())
/// ```
pub fn details<'t>(
    local: &'t [u8],
    peers: [&'t [u8]; 4],
    file: u32,
    block: u32,
) -> Result<Option<Details<'t>>, Refusal> {
    let found = details_at(local, peers, file, block)?;
    Ok(found.map(|(details, _)| details))
}

/// As [`details`], with the place of the hash in its table.
pub(crate) fn details_at<'t>(
    local: &'t [u8],
    peers: [&'t [u8]; 4],
    file: u32,
    block: u32,
) -> Result<Option<(Details<'t>, usize)>, Refusal> {
    let [peer1, peer2, peer3, peer4] = peers;
    let mut answer = [0; 6];
    // SAFETY: each pointer and length are those of one slice, and the answer has the size asked for.
    let number = unsafe {
        ffi::bep_details(
            local.as_ptr(),
            local.len(),
            peer1.as_ptr(),
            peer1.len(),
            peer2.as_ptr(),
            peer2.len(),
            peer3.as_ptr(),
            peer3.len(),
            peer4.as_ptr(),
            peer4.len(),
            file,
            block,
            &mut answer,
        )
    };
    let [table, name, name_len, offset, length, hash] = answer;
    match number {
        0 => {
            let (table, hash_at) = (size(table), size(hash));
            let bytes = [local, peer1, peer2, peer3, peer4][table];
            let hash = bytes[hash_at..].first_chunk();
            let details = Details {
                table,
                name: text(bytes, name, name_len),
                offset,
                length: word(length),
                hash: hash.expect("a hash has 32 bytes"),
            };
            Ok(Some((details, hash_at)))
        }
        1 => Ok(None),
        _ => Err(Refusal::new(number, 0)),
    }
}

/// Why a block isn't coming: the first reason that is true of it.
///
/// `block` counts the blocks of the name's newest record over the five tables, from 0. The name is held
/// to no rule.
///
/// # Errors
///
/// 15 if one of the five isn't a good table.
///
/// ```
/// use fordtrumpet::raw::why;
/// use fordtrumpet::{FilesBuilder, Flags, Reason, Refusal};
///
/// let mut peer = FilesBuilder::new();
/// peer.push("a", Flags::DELETED, 0, 0, []);
///
/// let mut peers: [&[u8]; 4] = [b"\0\0\0\0", peer.as_bytes(), b"\0\0\0\0", b"\0\0\0\0"];
/// assert_eq!(why(b"\0\0\0\0", peers, "a", 0), Ok(Reason::Deleted));
/// assert_eq!(why(b"\0\0\0\0", peers, b"\xFF", 0), Ok(Reason::NoSuchName));
/// peers[3] = b"";
/// assert_eq!(why(b"\0\0\0\0", peers, "a", 0), Err(Refusal::BadTable));
/// ```
pub fn why(
    local: &[u8],
    peers: [&[u8]; 4],
    name: impl AsRef<[u8]>,
    block: u32,
) -> Result<Reason, Refusal> {
    let [peer1, peer2, peer3, peer4] = peers;
    let name = name.as_ref();
    let mut answer = [0; 3];
    // SAFETY: each pointer and length are those of one slice, and the answer has the size asked for.
    let number = unsafe {
        ffi::bep_why(
            local.as_ptr(),
            local.len(),
            peer1.as_ptr(),
            peer1.len(),
            peer2.as_ptr(),
            peer2.len(),
            peer3.as_ptr(),
            peer3.len(),
            peer4.as_ptr(),
            peer4.len(),
            name.as_ptr(),
            name.len(),
            block,
            &mut answer,
        )
    };
    match number {
        0 => Ok(Reason::new(answer)),
        _ => Err(Refusal::new(number, 0)),
    }
}

/// The first record of a table, and its first block, with this length and hash, both from 0.
///
/// Invalid and deleted records don't count.
///
/// # Errors
///
/// 15 if it isn't a good table.
///
/// ```
/// use fordtrumpet::raw::find_local;
/// use fordtrumpet::{Block, FilesBuilder, Flags};
///
/// let hash = [7; 32];
/// let mut table = FilesBuilder::new();
/// table.push("a", Flags(0), 0, 0, []);
/// table.push("b", Flags(0), 0, 0, [Block { length: 9, hash: &hash }]);
/// assert_eq!(find_local(table.as_bytes(), 9, &hash)?, Some((1, 0)));
/// assert_eq!(find_local(table.as_bytes(), 8, &hash)?, None);
/// # Ok::<(), fordtrumpet::Refusal>(())
/// ```
pub fn find_local(
    table: &[u8],
    length: u32,
    hash: &[u8; 32],
) -> Result<Option<(u32, u32)>, Refusal> {
    let mut answer = [0; 3];
    // SAFETY: each pointer and length are those of one slice, and the answer has the size asked for.
    let number = unsafe {
        ffi::bep_find(
            table.as_ptr(),
            table.len(),
            length,
            hash.as_ptr(),
            hash.len(),
            &mut answer,
        )
    };
    match (number, size(answer[0])) {
        (0, 0) => Ok(None),
        (0, _) => Ok(Some((word(answer[1]), word(answer[2])))),
        _ => Err(Refusal::new(number, 0)),
    }
}

/// Rules on an incoming Request, by our own table and the repository that it is about.
///
/// It is served exactly if it names our repository and our table has a valid, undeleted record of
/// that name with that length and hash at that offset. Otherwise `out` is filled with the reply, a
/// Response with the same ID and no data, which takes 8 bytes.
///
/// # Errors
///
/// 15 if `table` isn't a good table; then what reading the message gives; 18 if it is no Request; 14
/// if the reply is longer than `out`. Nothing is written then.
///
/// ```
/// use fordtrumpet::raw::serve;
/// use fordtrumpet::{write_request, Block, FilesBuilder, Flags, Serving};
///
/// let hash = [7; 32];
/// let mut table = FilesBuilder::new();
/// table.push("a", Flags(0), 0, 0, [Block { length: 9, hash: &hash }]);
///
/// let mut request = [0; 380];
/// let length = write_request(5, "default", "a", 0, 9, &hash, &mut request)?;
/// let mut out = [0; 8];
/// let serving = serve(table.as_bytes(), "default", &request[..length], &mut out)?;
/// assert_eq!(serving, Serving::Served { id: 5, name: "a", offset: 0, length: 9 });
///
/// let serving = serve(table.as_bytes(), "another", &request[..length], &mut out)?;
/// assert_eq!(serving, Serving::Replied(8));
/// assert_eq!(out, [0, 5, 3, 0, 0, 0, 0, 0]);
/// # Ok::<(), fordtrumpet::Refusal>(())
/// ```
pub fn serve<'a>(
    table: &[u8],
    repository: impl AsRef<[u8]>,
    message: &'a [u8],
    out: &mut [u8],
) -> Result<Serving<'a>, Refusal> {
    let repository = repository.as_ref();
    let mut answer = [0; 5];
    // SAFETY: each pointer and length are those of one slice, `out` is borrowed for this call alone,
    // and the answer has the size asked for.
    let number = unsafe {
        ffi::bep_serve(
            out.as_mut_ptr(),
            out.len(),
            table.as_ptr(),
            table.len(),
            repository.as_ptr(),
            repository.len(),
            message.as_ptr(),
            message.len(),
            &mut answer,
        )
    };
    match (number, answer) {
        (0, [0, len, ..]) => Ok(Serving::Replied(size(len))),
        (0, [_, start, len, offset, length]) => Ok(Serving::Served {
            // A message that was accepted has the ID in the low 12 bits of its first two bytes.
            id: u32::from(u16::from_be_bytes([message[0], message[1]]) & 0x0FFF),
            name: text(message, start, len),
            offset,
            length: word(length),
        }),
        (number, [place, ..]) => Err(Refusal::new(number, size(place))),
    }
}
