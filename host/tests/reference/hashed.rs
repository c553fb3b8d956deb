//! The request list written for speed: the held blocks are looked up in a set, and each record is gone
//! through once.

use super::table::{check, Records};
use super::want::{blocks, by_name, entry, is_there, length, ENTRY_LEN};
use super::{Refusal, BLOCK_LEN};
use std::cell::LazyCell;
use std::collections::HashSet;

type Block = [u8; BLOCK_LEN];

/// Fills the buffer with the list of blocks to request, 24 bytes each.
pub fn request_list(tables: [&[u8]; 5], out: &mut [u8]) -> Result<usize, Refusal> {
    for table in tables {
        check(table)?;
    }
    let [_, peers @ ..] = tables;
    let most: usize = peers.iter().map(|table| table.len() / BLOCK_LEN).sum();
    if most * ENTRY_LEN <= out.len() {
        let mut len = 0;
        wanted(tables, |entry| {
            out[len..len + ENTRY_LEN].copy_from_slice(&entry);
            len += ENTRY_LEN;
        });
        return Ok(len);
    }
    let mut list = Vec::with_capacity(out.len());
    wanted(tables, |entry| list.extend_from_slice(&entry));
    let Some(out) = out.get_mut(..list.len()) else {
        return Err(Refusal::new(14, 0));
    };
    out.copy_from_slice(&list);
    Ok(list.len())
}

/// Hands the entries on in their order.
fn wanted(tables: [&[u8]; 5], mut take: impl FnMut([u8; ENTRY_LEN])) {
    let held = LazyCell::new(|| held(tables[0]));
    by_name(tables, |number, files, highest| {
        let file = files[highest].expect("it has the name");
        // The blocks of a local record are held.
        if highest == 0 || !is_there(file) {
            return;
        }
        let mut others: [Along; 5] = std::array::from_fn(|i| Along {
            blocks: match files[i] {
                Some(file) if is_there(file) => blocks(tables[i], file),
                _ => &[],
            },
            offset: 0,
        });
        let mut offset = 0;
        for (index, block) in blocks(tables[highest], file).iter().enumerate() {
            if !held.contains(block) {
                let peer = (1..highest)
                    .find(|&i| others[i].lists(offset, block))
                    .unwrap_or(highest);
                take(entry(number, index, offset, block, peer));
            }
            offset += u64::from(length(block));
        }
    });
}

/// The blocks that a good table's valid, undeleted records hold.
fn held(table: &[u8]) -> HashSet<&Block> {
    let mut held = HashSet::with_capacity(table.len() / BLOCK_LEN);
    for file in Records::new(table).filter(is_there) {
        held.extend(blocks(table, &file));
    }
    held
}

/// The blocks of a record from some offset on.
struct Along<'a> {
    blocks: &'a [Block],
    offset: u64,
}

impl Along<'_> {
    /// Whether this block stands at this offset, which never falls from call to call.
    fn lists(&mut self, offset: u64, wanted: &Block) -> bool {
        while let [first, rest @ ..] = self.blocks {
            if self.offset >= offset {
                return self.offset == offset && first == wanted;
            }
            self.offset += u64::from(length(first));
            self.blocks = rest;
        }
        false
    }
}
