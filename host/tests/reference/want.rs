//! The request list, the search for a block, and the ruling on an incoming Request.

use super::table::{check, Records};
use super::{compare, read, Body, File, Refusal, Span, BLOCK_LEN, DELETED, INVALID};
use std::cmp::Ordering;

/// Bytes of one entry of a request list.
pub(super) const ENTRY_LEN: usize = 24;

pub(super) fn is_there(file: &File) -> bool {
    file.flags & (DELETED | INVALID) == 0
}

/// The blocks of a record as they are encoded.
pub(super) fn blocks<'a>(array: &'a [u8], file: &File) -> &'a [[u8; BLOCK_LEN]] {
    array[file.first_block..file.end].as_chunks().0
}

/// The Length of an encoded block.
pub(super) fn length(block: &[u8; BLOCK_LEN]) -> u32 {
    u32::from_be_bytes([block[0], block[1], block[2], block[3]])
}

/// The record and the block where a good table first lists an encoded block.
fn find(table: &[u8], wanted: &[u8; BLOCK_LEN]) -> Option<(u32, u32)> {
    for (record, file) in Records::new(table).enumerate() {
        if !is_there(&file) {
            continue;
        }
        for (number, block) in blocks(table, &file).iter().enumerate() {
            if block == wanted {
                return Some((record as u32, number as u32));
            }
        }
    }
    None
}

/// The first record and block, both counted from 0, with this length and hash.
pub fn find_local(table: &[u8], length: u32, hash: &[u8]) -> Result<Option<(u32, u32)>, Refusal> {
    check(table)?;
    let Ok(hash) = <[u8; 32]>::try_from(hash) else {
        return Ok(None);
    };
    let mut wanted = [0; BLOCK_LEN];
    wanted[..4].copy_from_slice(&length.to_be_bytes());
    wanted[7] = 32;
    wanted[8..].copy_from_slice(&hash);
    Ok(find(table, &wanted))
}

/// Whether a record is valid, undeleted and has this block at this offset.
pub(super) fn lists(array: &[u8], file: &File, offset: u64, wanted: &[u8; BLOCK_LEN]) -> bool {
    if !is_there(file) {
        return false;
    }
    let mut at = 0;
    for block in blocks(array, file) {
        if at == offset {
            return block == wanted;
        }
        if at > offset {
            return false;
        }
        at += u64::from(length(block));
    }
    false
}

/// Fills the buffer with the list of blocks to request, 24 bytes each.
pub fn request_list(tables: [&[u8]; 5], out: &mut [u8]) -> Result<usize, Refusal> {
    for table in tables {
        check(table)?;
    }
    let mut len = 0;
    wanted(tables, |_| len += ENTRY_LEN);
    let Some(out) = out.get_mut(..len) else {
        return Err(Refusal::new(14, 0));
    };
    let mut entries = out.chunks_mut(ENTRY_LEN);
    wanted(tables, |entry| {
        entries
            .next()
            .expect("they were counted")
            .copy_from_slice(&entry);
    });
    Ok(len)
}

/// Hands the entries on in their order.
fn wanted(tables: [&[u8]; 5], mut take: impl FnMut([u8; ENTRY_LEN])) {
    by_name(tables, |number, files, highest| {
        let file = files[highest].expect("it has the name");
        if !is_there(file) {
            return;
        }
        let mut offset = 0;
        for (index, block) in blocks(tables[highest], file).iter().enumerate() {
            if find(tables[0], block).is_none() {
                let peer = (1..5)
                    .find(|&i| files[i].is_some_and(|file| lists(tables[i], file, offset, block)))
                    .expect("the highest record is a peer's");
                take(entry(number, index, offset, block, peer));
            }
            offset += u64::from(length(block));
        }
    });
}

/// Goes through the names of good tables as they rise. Hands on the name's number, each table's record
/// of that name, and which of these is the highest: the first, where some are equal.
pub(super) fn by_name(tables: [&[u8]; 5], mut take: impl FnMut(u32, [Option<&File>; 5], usize)) {
    let mut records = tables.map(Records::new);
    let mut next: [Option<File>; 5] = std::array::from_fn(|i| records[i].next());
    for number in 0.. {
        // Which tables have the lowest name so far, and the highest of their records.
        let mut named = [false; 5];
        let mut highest: Option<(usize, &File)> = None;
        for (i, file) in next.iter().enumerate() {
            let Some(file) = file else { continue };
            let name = file.name.of(tables[i]);
            let order = highest.map(|(j, other)| name.cmp(other.name.of(tables[j])));
            match (order, highest) {
                (Some(Ordering::Greater), _) => continue,
                (Some(Ordering::Equal), Some((j, other))) => {
                    if compare(tables[i], file, tables[j], other).is_gt() {
                        highest = Some((i, file));
                    }
                }
                _ => {
                    named = [false; 5];
                    highest = Some((i, file));
                }
            }
            named[i] = true;
        }
        let Some((highest, _)) = highest else { return };
        let files = std::array::from_fn(|i| next[i].as_ref().filter(|_| named[i]));
        take(number, files, highest);
        for i in (0..5).filter(|&i| named[i]) {
            next[i] = records[i].next();
        }
    }
}

/// One entry of a request list.
pub(super) fn entry(
    number: u32,
    index: usize,
    offset: u64,
    block: &[u8; BLOCK_LEN],
    peer: usize,
) -> [u8; ENTRY_LEN] {
    let mut entry = [0; ENTRY_LEN];
    entry[..4].copy_from_slice(&number.to_be_bytes());
    entry[4..8].copy_from_slice(&(index as u32).to_be_bytes());
    entry[8..16].copy_from_slice(&offset.to_be_bytes());
    entry[16..20].copy_from_slice(&block[..4]);
    entry[20..].copy_from_slice(&(peer as u32).to_be_bytes());
    entry
}

/// What is done about an incoming Request.
#[derive(Clone, Copy, Debug, PartialEq, Eq)]
pub enum Serving {
    /// The block is ours to give.
    Served {
        id: u32,
        name: Span,
        offset: u64,
        length: u32,
    },
    /// A Response without data was written, of this length.
    Replied(usize),
}

/// Rules on an incoming Request.
pub fn serve(
    table: &[u8],
    repository: &[u8],
    message: &[u8],
    out: &mut [u8],
) -> Result<Serving, Refusal> {
    check(table)?;
    let request = read(message)?;
    let Body::Request {
        repository: named,
        name,
        offset,
        length,
        hash,
    } = request.body
    else {
        return Err(Refusal::new(18, 0));
    };
    let mut wanted = [0; BLOCK_LEN];
    wanted[..4].copy_from_slice(&length.to_be_bytes());
    wanted[7] = 32;
    wanted[8..].copy_from_slice(hash.of(message));
    let ours = named.of(message) == repository
        && Records::new(table)
            .find(|file| file.name.of(table) == name.of(message))
            .is_some_and(|file| lists(table, &file, offset, &wanted));
    if ours {
        return Ok(Serving::Served {
            id: request.id,
            name,
            offset,
            length,
        });
    }
    let Some(out) = out.get_mut(..8) else {
        return Err(Refusal::new(14, 0));
    };
    let header = request.id << 16 | super::RESPONSE << 8;
    out[..4].copy_from_slice(&header.to_be_bytes());
    out[4..].fill(0);
    Ok(Serving::Replied(8))
}
