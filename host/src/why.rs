//! Why a block isn't coming.

use crate::answer::word;
use crate::{raw, Table};
use core::fmt;

/// Why a block isn't coming, or that it is to be asked for: what [`why`] gives.
///
/// It is shown in plain words, those of the program `why`.
///
/// ```
/// use fordtrumpet::Reason;
///
/// assert_eq!(Reason::NoSuchBlock.to_string(), "no such block");
/// assert_eq!(Reason::Held { record: 3, block: 0 }.to_string(), "held by file 3 block 0");
/// assert_eq!(Reason::Wanted { peer: 2 }.to_string(), "wanted from peer 2");
/// ```
#[derive(Clone, Copy, Debug, PartialEq, Eq, Hash)]
#[must_use]
pub enum Reason {
    /// The name is in no table.
    NoSuchName,
    /// The newest record of that name is deleted.
    Deleted,
    /// The newest record is invalid.
    Invalid,
    /// The newest record has no block of that number.
    NoSuchBlock,
    /// It is here: a valid, undeleted record of the local table has that length and hash. These are the
    /// first such record and its first such block.
    Held {
        /// The number of the record in the local table, from 0.
        record: u32,
        /// The number of the block in that record, from 0.
        block: u32,
    },
    /// It is to be asked for: the request list has it, with this peer.
    Wanted {
        /// The peer, 1 to 4: the lowest-numbered one that has the block there.
        peer: u32,
    },
}

impl Reason {
    /// The reason that these words tell.
    pub(crate) fn new(answer: [u64; 3]) -> Self {
        match answer {
            [1, ..] => Reason::NoSuchName,
            [2, ..] => Reason::Deleted,
            [3, ..] => Reason::Invalid,
            [4, ..] => Reason::NoSuchBlock,
            [5, record, block] => Reason::Held {
                record: word(record),
                block: word(block),
            },
            [6, peer, _] => Reason::Wanted { peer: word(peer) },
            [other, ..] => unreachable!("the library has no reason {other}"),
        }
    }
}

impl fmt::Display for Reason {
    fn fmt(&self, f: &mut fmt::Formatter<'_>) -> fmt::Result {
        match self {
            Reason::NoSuchName => f.write_str("no such name"),
            Reason::Deleted => f.write_str("deleted"),
            Reason::Invalid => f.write_str("invalid"),
            Reason::NoSuchBlock => f.write_str("no such block"),
            Reason::Held { record, block } => write!(f, "held by file {record} block {block}"),
            Reason::Wanted { peer } => write!(f, "wanted from peer {peer}"),
        }
    }
}

/// Why a block isn't coming: the first reason that is true of it.
///
/// `block` counts the blocks of the name's newest record over the five tables, from 0. The name is held
/// to no rule. It is [`Reason::Wanted`] exactly where the list of [`request_list`](crate::request_list)
/// has the block, with the same peer. For an absent peer give [`Table::EMPTY`].
///
/// ```
/// use fordtrumpet::{why, Block, FilesBuilder, Flags, Reason, Table};
///
/// let (first, second) = ([1; 32], [2; 32]);
/// let (mut local, mut peer) = (FilesBuilder::new(), FilesBuilder::new());
/// local.push("a", Flags(0), 0, 0, [Block { length: 131_072, hash: &first }]);
/// let blocks = [Block { length: 131_072, hash: &first }, Block { length: 5, hash: &second }];
/// peer.push("b", Flags(0), 0, 0, blocks);
///
/// let (local, peer) = (Table::new(local.as_bytes())?, Table::new(peer.as_bytes())?);
/// let peers = [Table::EMPTY, peer, Table::EMPTY, Table::EMPTY];
/// assert_eq!(why(local, peers, "b", 0), Reason::Held { record: 0, block: 0 });
/// assert_eq!(why(local, peers, "b", 1), Reason::Wanted { peer: 2 });
/// assert_eq!(why(local, peers, "b", 2), Reason::NoSuchBlock);
/// assert_eq!(why(local, peers, "../b", 0), Reason::NoSuchName);
/// # Ok::<(), fordtrumpet::Refusal>(())
/// ```
pub fn why(local: Table<'_>, peers: [Table<'_>; 4], name: impl AsRef<[u8]>, block: u32) -> Reason {
    let peers = peers.map(|peer| peer.as_bytes());
    raw::why(local.as_bytes(), peers, name, block).expect("the tables are good")
}
