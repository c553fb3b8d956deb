//! Which blocks to request and with what, and where a table lists a block.

use crate::show::Hex;
use crate::{raw, Refusal, Table};
use core::fmt;
use core::iter::FusedIterator;

/// Bytes of one entry of a request list.
const ENTRY_LEN: usize = 24;

/// Bytes of one block of a table: its Length word, the hash's length word and the hash.
const BLOCK_LEN: usize = 40;

/// Bytes that are enough for the request list of any four peers: an entry for each block that four full
/// tables can hold.
///
/// ```
/// use fordtrumpet::{request_list, Table, MAX_REQUEST_LIST};
///
/// let mut out = vec![0; MAX_REQUEST_LIST];
/// assert!(request_list(Table::EMPTY, [Table::EMPTY; 4], &mut out)?.is_empty());
/// # Ok::<(), fordtrumpet::Refusal>(())
/// ```
pub const MAX_REQUEST_LIST: usize = 4 * 1636 * ENTRY_LEN;

/// A block to request: all that a Request for it says but the ID and the repository.
///
/// ```
/// use fordtrumpet::{write_request, Refusal, Wanted};
///
/// /// Writes the Request for a block of a list.
/// fn request(id: u32, wanted: &Wanted<'_>, out: &mut [u8]) -> Result<usize, Refusal> {
///     let Wanted { name, offset, length, hash, .. } = *wanted;
///     write_request(id, "default", name, offset, length, hash, out)
/// }
/// ```
#[derive(Clone, Copy, PartialEq, Eq, Hash)]
pub struct Wanted<'t> {
    /// The number of the file among all names of the five tables, from 0: that of its record in the
    /// merged table of the five.
    pub file: u32,
    /// The number of the block in its file, from 0.
    pub block: u32,
    /// Where the block begins in its file.
    pub offset: u64,
    /// How long it is.
    pub length: u32,
    /// The peer to ask, 1 to 4: the lowest-numbered one that has the block there.
    pub peer: u32,
    /// The name of the file.
    pub name: &'t str,
    /// The hash of the block's bytes.
    pub hash: &'t [u8; 32],
}

impl fmt::Debug for Wanted<'_> {
    fn fmt(&self, f: &mut fmt::Formatter<'_>) -> fmt::Result {
        f.debug_struct("Wanted")
            .field("file", &self.file)
            .field("block", &self.block)
            .field("offset", &self.offset)
            .field("length", &self.length)
            .field("peer", &self.peer)
            .field("name", &self.name)
            .field("hash", &Hex(self.hash))
            .finish()
    }
}

/// The blocks to request, by name and then by block.
///
/// [`request_list`] gives one. It keeps the bytes that were filled and the five tables that it is of.
///
/// ```
/// use fordtrumpet::{request_list, Table};
///
/// let mut out = [0; 24];
/// let list = request_list(Table::EMPTY, [Table::EMPTY; 4], &mut out)?;
/// assert_eq!(list.len(), 0);
/// # Ok::<(), fordtrumpet::Refusal>(())
/// ```
#[derive(Clone, Copy, PartialEq, Eq)]
#[must_use]
pub struct RequestList<'o, 't> {
    bytes: &'o [u8],
    local: &'t [u8],
    peers: [&'t [u8]; 4],
}

impl<'o, 't> RequestList<'o, 't> {
    /// `bytes` is a list that a call gave of these tables.
    pub(crate) fn new(bytes: &'o [u8], local: &'t [u8], peers: [&'t [u8]; 4]) -> Self {
        RequestList {
            bytes,
            local,
            peers,
        }
    }

    /// The number of blocks.
    ///
    /// ```
    /// # use fordtrumpet::*;
    /// # let empty = Table::EMPTY;
    /// let mut out = [0; 24];
    /// let list = request_list(empty, [empty; 4], &mut out)?;
    /// assert_eq!(list.len(), 0);
    /// # Ok::<(), Refusal>(())
    /// ```
    pub fn len(&self) -> usize {
        self.bytes.len() / ENTRY_LEN
    }

    /// Whether there is no block to request.
    ///
    /// ```
    /// # use fordtrumpet::*;
    /// # let empty = Table::EMPTY;
    /// # let mut out = [0; 24];
    /// assert!(request_list(empty, [empty; 4], &mut out)?.is_empty());
    /// # Ok::<(), Refusal>(())
    /// ```
    pub fn is_empty(&self) -> bool {
        self.bytes.is_empty()
    }

    /// The bytes that were filled, 24 a block: file and block in 32 bits each, offset in 64, length and
    /// peer in 32 each, big-endian.
    ///
    /// ```
    /// # use fordtrumpet::*;
    /// # let empty = Table::EMPTY;
    /// # let mut out = [0; 24];
    /// assert!(request_list(empty, [empty; 4], &mut out)?.as_bytes().is_empty());
    /// # Ok::<(), Refusal>(())
    /// ```
    pub fn as_bytes(&self) -> &'o [u8] {
        self.bytes
    }

    /// Goes through the blocks in their order. What it gives lives as long as the tables, and so longer
    /// than the buffer that the list is in.
    ///
    /// At each new file it looks the name and the hashes up, as [`details`] does: it checks the five
    /// tables and goes through their names up to that file. So going through a list takes time that grows
    /// with the files listed times the bytes of the tables. Blocks that are skipped (`nth`, `skip`,
    /// `last`) cost nothing, and [`as_bytes`](RequestList::as_bytes) has the numbers alone.
    ///
    /// ```
    /// # use fordtrumpet::*;
    /// # let empty = Table::EMPTY;
    /// # let mut out = [0; 24];
    /// for wanted in request_list(empty, [empty; 4], &mut out)?.iter() {
    ///     println!("ask peer {} for {} bytes of {:?}", wanted.peer, wanted.length, wanted.name);
    /// }
    /// # Ok::<(), Refusal>(())
    /// ```
    pub fn iter(&self) -> RequestListIter<'o, 't> {
        RequestListIter {
            rest: self.bytes.as_chunks().0.iter(),
            local: self.local,
            peers: self.peers,
            file: None,
        }
    }
}

impl fmt::Debug for RequestList<'_, '_> {
    fn fmt(&self, f: &mut fmt::Formatter<'_>) -> fmt::Result {
        f.debug_list().entries(self.iter()).finish()
    }
}

impl<'o, 't> IntoIterator for RequestList<'o, 't> {
    type Item = Wanted<'t>;
    type IntoIter = RequestListIter<'o, 't>;

    fn into_iter(self) -> RequestListIter<'o, 't> {
        self.iter()
    }
}

impl<'o, 't> IntoIterator for &RequestList<'o, 't> {
    type Item = Wanted<'t>;
    type IntoIter = RequestListIter<'o, 't>;

    fn into_iter(self) -> RequestListIter<'o, 't> {
        self.iter()
    }
}

/// Goes through a [`RequestList`].
///
/// ```
/// use fordtrumpet::{request_list, Table};
///
/// let mut out = [0; 24];
/// assert!(request_list(Table::EMPTY, [Table::EMPTY; 4], &mut out)?.iter().next().is_none());
/// # Ok::<(), fordtrumpet::Refusal>(())
/// ```
#[derive(Clone)]
pub struct RequestListIter<'o, 't> {
    rest: core::slice::Iter<'o, [u8; ENTRY_LEN]>,
    local: &'t [u8],
    peers: [&'t [u8]; 4],
    /// The file of the block that came last.
    file: Option<ListedFile<'t>>,
}

/// A file that a list has blocks of.
#[derive(Clone, Copy)]
struct ListedFile<'t> {
    number: u32,
    name: &'t str,
    /// The table that its newest record is in.
    table: &'t [u8],
    /// The place there of the hash of its first block.
    first_hash: usize,
}

impl<'t> ListedFile<'t> {
    fn hash(&self, block: u32) -> &'t [u8; 32] {
        let place = self.first_hash + block as usize * BLOCK_LEN;
        let hash = self.table[place..].first_chunk();
        hash.expect("a hash has 32 bytes")
    }
}

impl<'t> RequestListIter<'_, 't> {
    /// The file with this number, which has this block.
    fn listed_file(&mut self, number: u32, block: u32) -> ListedFile<'t> {
        match self.file {
            Some(file) if file.number == number => file,
            _ => {
                let found = raw::details_at(self.local, self.peers, number, block);
                let (details, hash) = found
                    .expect("the tables are good")
                    .expect("the list is of these tables");
                let [peer1, peer2, peer3, peer4] = self.peers;
                *self.file.insert(ListedFile {
                    number,
                    name: details.name,
                    table: [self.local, peer1, peer2, peer3, peer4][details.table],
                    first_hash: hash - block as usize * BLOCK_LEN,
                })
            }
        }
    }

    fn wanted(&mut self, entry: &[u8; ENTRY_LEN]) -> Wanted<'t> {
        let (words, _) = entry.as_chunks();
        let [file, block, high, low, length, peer] = [0, 1, 2, 3, 4, 5].map(|at| {
            let word: [u8; 4] = words[at];
            u32::from_be_bytes(word)
        });
        let listed = self.listed_file(file, block);
        Wanted {
            file,
            block,
            offset: u64::from(high) << 32 | u64::from(low),
            length,
            peer,
            name: listed.name,
            hash: listed.hash(block),
        }
    }
}

impl<'t> Iterator for RequestListIter<'_, 't> {
    type Item = Wanted<'t>;

    #[inline]
    fn next(&mut self) -> Option<Wanted<'t>> {
        let entry = self.rest.next()?;
        Some(self.wanted(entry))
    }

    /// Those that are passed over aren't looked up.
    fn nth(&mut self, n: usize) -> Option<Wanted<'t>> {
        let entry = self.rest.nth(n)?;
        Some(self.wanted(entry))
    }

    fn last(mut self) -> Option<Wanted<'t>> {
        let before = self.rest.len().checked_sub(1)?;
        self.nth(before)
    }

    fn count(self) -> usize {
        self.rest.len()
    }

    fn size_hint(&self) -> (usize, Option<usize>) {
        self.rest.size_hint()
    }
}

impl ExactSizeIterator for RequestListIter<'_, '_> {}
impl FusedIterator for RequestListIter<'_, '_> {}

impl fmt::Debug for RequestListIter<'_, '_> {
    fn fmt(&self, f: &mut fmt::Formatter<'_>) -> fmt::Result {
        f.debug_list().entries(self.clone()).finish()
    }
}

/// Fills `out` with the blocks to request, and from whom, and gives them.
///
/// Of each name over the five tables the newest record counts. A block of it is wanted where the
/// record is valid and undeleted and no valid, undeleted record of `local` has its length and hash.
/// For an absent peer give [`Table::EMPTY`]. Only the bytes of the list change in `out`, 24 a block;
/// [`MAX_REQUEST_LIST`] bytes are enough for any.
///
/// # Errors
///
/// 14 if `out` is too short. Nothing is written then.
///
/// ```
/// use fordtrumpet::{request_list, Block, FilesBuilder, Flags, Table, Wanted};
///
/// let (first, second) = ([1; 32], [2; 32]);
/// let (mut local, mut peer) = (FilesBuilder::new(), FilesBuilder::new());
/// local.push("a", Flags(0), 0, 0, [Block { length: 131_072, hash: &first }]);
/// let blocks = [Block { length: 131_072, hash: &first }, Block { length: 5, hash: &second }];
/// peer.push("b", Flags(0), 0, 0, blocks);
///
/// let (local, peer) = (Table::new(local.as_bytes())?, Table::new(peer.as_bytes())?);
/// let mut out = [0; 1000];
/// let list = request_list(local, [Table::EMPTY, peer, Table::EMPTY, Table::EMPTY], &mut out)?;
/// let wanted = Wanted {
///     file: 1,
///     block: 1,
///     offset: 131_072,
///     length: 5,
///     peer: 2,
///     name: "b",
///     hash: &second,
/// };
/// assert!(list.iter().eq([wanted]));
/// # Ok::<(), fordtrumpet::Refusal>(())
/// ```
pub fn request_list<'o, 't>(
    local: Table<'t>,
    peers: [Table<'t>; 4],
    out: &'o mut [u8],
) -> Result<RequestList<'o, 't>, Refusal> {
    raw::request_list(local.as_bytes(), peers.map(|peer| peer.as_bytes()), out)
}

/// What a block is to be asked for with, and which table tells it.
///
/// [`details`] gives one.
///
/// ```
/// use fordtrumpet::Details;
///
/// fn tell(details: &Details<'_>) {
///     match details.table {
///         0 => println!("{:?} is newest here", details.name),
///         peer => println!("peer {peer} has the newest {:?}", details.name),
///     }
/// }
/// ```
#[derive(Clone, Copy, PartialEq, Eq, Hash)]
pub struct Details<'t> {
    /// The table that has the newest record of the file: 0 is the local one, 1 to 4 are the peers'. The
    /// first, where several have it.
    pub table: usize,
    /// The name of the file.
    pub name: &'t str,
    /// Where the block begins in its file.
    pub offset: u64,
    /// How long it is.
    pub length: u32,
    /// The hash of the block's bytes.
    pub hash: &'t [u8; 32],
}

impl fmt::Debug for Details<'_> {
    fn fmt(&self, f: &mut fmt::Formatter<'_>) -> fmt::Result {
        f.debug_struct("Details")
            .field("table", &self.table)
            .field("name", &self.name)
            .field("offset", &self.offset)
            .field("length", &self.length)
            .field("hash", &Hex(self.hash))
            .finish()
    }
}

/// What a block is to be asked for with, by the numbers of an entry of a request list and the tables
/// that the list was made of. A [`Wanted`] has all this already.
///
/// `file` counts the names of all five tables, and `block` the blocks of the file's newest record, both
/// from 0. There are details of every such block, listed or not: whether to ask for it is for the list to
/// say. `None` where no file or no block has that number.
///
/// ```
/// use fordtrumpet::{details, Block, FilesBuilder, Flags, Table};
///
/// let (first, second) = ([1; 32], [2; 32]);
/// let mut peer = FilesBuilder::new();
/// let blocks = [Block { length: 131_072, hash: &first }, Block { length: 5, hash: &second }];
/// peer.push("a", Flags(0), 0, 0, blocks);
/// let peer = Table::new(peer.as_bytes())?;
///
/// let peers = [Table::EMPTY, peer, Table::EMPTY, Table::EMPTY];
/// let found = details(Table::EMPTY, peers, 0, 1).unwrap();
/// assert_eq!((found.table, found.name, found.offset), (2, "a", 131_072));
/// assert_eq!((found.length, found.hash), (5, &second));
/// assert_eq!(details(Table::EMPTY, peers, 0, 2), None);
/// assert_eq!(details(Table::EMPTY, peers, 1, 0), None);
/// # Ok::<(), fordtrumpet::Refusal>(())
/// ```
pub fn details<'t>(
    local: Table<'t>,
    peers: [Table<'t>; 4],
    file: u32,
    block: u32,
) -> Option<Details<'t>> {
    let peers = peers.map(|peer| peer.as_bytes());
    raw::details(local.as_bytes(), peers, file, block).expect("the tables are good")
}

/// The first record of a table, and its first block, with this length and hash, both from 0.
///
/// Invalid and deleted records don't count.
///
/// ```
/// use fordtrumpet::{find_local, Block, FilesBuilder, Flags, Table};
///
/// let hash = [7; 32];
/// let mut table = FilesBuilder::new();
/// table.push("a", Flags(0), 0, 0, []);
/// table.push("b", Flags(0), 0, 0, [Block { length: 9, hash: &hash }]);
/// let table = Table::new(table.as_bytes())?;
/// assert_eq!(find_local(table, 9, &hash), Some((1, 0)));
/// assert_eq!(find_local(table, 8, &hash), None);
/// # Ok::<(), fordtrumpet::Refusal>(())
/// ```
pub fn find_local(table: Table<'_>, length: u32, hash: &[u8; 32]) -> Option<(u32, u32)> {
    raw::find_local(table.as_bytes(), length, hash).expect("the table is good")
}
