//! What the static library exports. `include/fordtrumpet.h` says the same in C.
//!
//! A slice passes as its pointer and its length. The pointer of an empty slice is never used, so a
//! dangling one such as Rust's own is fine. A lent buffer must not overlap any input, and an answer
//! neither of them. Every call fills its whole answer and gives 0 when it accepts, else the number
//! of the refusal.

/// The words of a feed.
pub const FEED_WORDS: usize = 16;

/// The peers that share a queue. They are numbered from 1.
pub const PEERS: usize = 4;

/// The words of one peer's list in a queue.
pub const PEER_WORDS: usize = 35;

/// The words of a queue.
pub const QUEUE_WORDS: usize = PEERS * PEER_WORDS;

/// The bytes of its hashes.
pub const QUEUE_HASHES: usize = PEERS * 512;

/// The words of its totals.
pub const TOTALS_WORDS: usize = 2 + 2 * PEERS;

/// The words of a SHA-256 that is worked out run by run.
pub const SHA256_WORDS: usize = 10;

/// The bytes of one of its blocks, and so of its tail.
pub const SHA256_TAIL: usize = 64;

unsafe extern "C" {
    /// Reads the message at the start of the input.
    ///
    /// Refused, `answer[0]` is the place and the rest is 0. Accepted, `answer[0]` is the number of
    /// bytes used, `[1]` the type and `[2]` the ID; by type follow (unused ones are 0):
    /// - Index, IndexUpdate: `[3]` and `[4]` start and length of the repository, `[5]` and `[6]` of
    ///   the FileInfo array from its count word on, `[7]` the number of files;
    /// - Request: `[3]` and `[4]` repository, `[5]` and `[6]` name, `[7]` offset, `[8]` length,
    ///   `[9]` and `[10]` hash;
    /// - Response: `[3]` and `[4]` data;
    /// - Options: `[5]` and `[6]` the array from its count word on, `[7]` the number of options.
    pub fn bep_read(input: *const u8, input_len: usize, answer: *mut [u64; 11]) -> u32;

    /// Writes an Index. `answer[0]` of this and every writer is the number of bytes written, or the
    /// place of the refusal.
    pub fn bep_write_index(
        out: *mut u8,
        out_len: usize,
        id: u32,
        repository: *const u8,
        repository_len: usize,
        files: *const u8,
        files_len: usize,
        answer: *mut [u64; 1],
    ) -> u32;

    /// Writes an IndexUpdate.
    pub fn bep_write_index_update(
        out: *mut u8,
        out_len: usize,
        id: u32,
        repository: *const u8,
        repository_len: usize,
        files: *const u8,
        files_len: usize,
        answer: *mut [u64; 1],
    ) -> u32;

    /// Writes a Request.
    pub fn bep_write_request(
        out: *mut u8,
        out_len: usize,
        id: u32,
        repository: *const u8,
        repository_len: usize,
        name: *const u8,
        name_len: usize,
        offset: u64,
        length: u32,
        hash: *const u8,
        hash_len: usize,
        answer: *mut [u64; 1],
    ) -> u32;

    /// Writes a Response.
    pub fn bep_write_response(
        out: *mut u8,
        out_len: usize,
        id: u32,
        data: *const u8,
        data_len: usize,
        answer: *mut [u64; 1],
    ) -> u32;

    /// Writes a Ping.
    pub fn bep_write_ping(out: *mut u8, out_len: usize, id: u32, answer: *mut [u64; 1]) -> u32;

    /// Writes a Pong.
    pub fn bep_write_pong(out: *mut u8, out_len: usize, id: u32, answer: *mut [u64; 1]) -> u32;

    /// Writes an Options message.
    pub fn bep_write_options(
        out: *mut u8,
        out_len: usize,
        id: u32,
        options: *const u8,
        options_len: usize,
        answer: *mut [u64; 1],
    ) -> u32;

    /// Reads the message of the old edition at the start of the input.
    ///
    /// The words are those of `bep_read`. An Index, an IndexUpdate and a Request have no repository: its
    /// start is 4 and its length 0. Type 7 is refused with 3.
    pub fn bep_read_old(input: *const u8, input_len: usize, answer: *mut [u64; 11]) -> u32;

    /// Opens a feed for a message of the new edition. Gives 0.
    pub fn bep_feed_open(feed: *mut [u32; FEED_WORDS]) -> u32;

    /// Opens a feed for a message of the old edition. Gives 0.
    pub fn bep_feed_open_old(feed: *mut [u32; FEED_WORDS]) -> u32;

    /// Feeds a run of bytes. `answer[1]` is how many of them were taken.
    ///
    /// Gives 1 while the message isn't whole: `answer[0]` is a number of bytes that are surely still
    /// missing, at least 1. Gives 0 where it has ended: `answer[0]` is its length. Any other number is the
    /// refusal of reading all bytes so far, and `answer[0]` its place. Then every later run gets the same
    /// number and `answer[0]`, and none of its bytes are taken. Words that are no sound feed, as zeros
    /// aren't, give 22 at 0 and stay as they are.
    pub fn bep_feed(
        feed: *mut [u32; FEED_WORDS],
        run: *const u8,
        run_len: usize,
        answer: *mut [u64; 2],
    ) -> u32;

    /// The type and the ID of the message that is fed: gives 0 once its first four bytes have come, else 1
    /// and zeros.
    pub fn bep_feed_header(feed: *const [u32; FEED_WORDS], answer: *mut [u64; 2]) -> u32;

    /// Writes an Index of the old edition.
    pub fn bep_write_old_index(
        out: *mut u8,
        out_len: usize,
        id: u32,
        files: *const u8,
        files_len: usize,
        answer: *mut [u64; 1],
    ) -> u32;

    /// Writes an IndexUpdate of the old edition.
    pub fn bep_write_old_index_update(
        out: *mut u8,
        out_len: usize,
        id: u32,
        files: *const u8,
        files_len: usize,
        answer: *mut [u64; 1],
    ) -> u32;

    /// Writes a Request of the old edition.
    pub fn bep_write_old_request(
        out: *mut u8,
        out_len: usize,
        id: u32,
        name: *const u8,
        name_len: usize,
        offset: u64,
        length: u32,
        hash: *const u8,
        hash_len: usize,
        answer: *mut [u64; 1],
    ) -> u32;

    /// Turns a message of the old edition into one of the new, of the repository given. `answer[0]` is
    /// the number of bytes written, or the place of the refusal.
    pub fn bep_upgrade(
        out: *mut u8,
        out_len: usize,
        message: *const u8,
        message_len: usize,
        repository: *const u8,
        repository_len: usize,
        answer: *mut [u64; 1],
    ) -> u32;

    /// Turns a message of the new edition into one of the old. `answer[0]` is the number of bytes
    /// written, or the place of the refusal.
    pub fn bep_downgrade(
        out: *mut u8,
        out_len: usize,
        message: *const u8,
        message_len: usize,
        answer: *mut [u64; 1],
    ) -> u32;

    /// The record at a place of a FileInfo array whose reading was accepted, by bounds checks alone.
    ///
    /// `answer[0]` is the place past it, `[1]` and `[2]` start and length of its name, `[3]` the
    /// flags, `[4]` the 64 bits of modified, `[5]` the version, `[6]` the number of blocks and `[7]`
    /// the place of the first. Where the fields aren't wholly there it gives 1, and `answer[0]` is the
    /// first byte of the field that isn't.
    pub fn bep_file(files: *const u8, files_len: usize, at: usize, answer: *mut [u64; 8]) -> u32;

    /// The option at a place of an array whose reading was accepted, by bounds checks alone.
    ///
    /// `answer[0]` is the place past it, `[1]` and `[2]` start and length of its key, `[3]` and
    /// `[4]` of its value. Where the fields aren't wholly there it gives 1, and `answer[0]` is the first
    /// byte of the field that isn't.
    pub fn bep_option(
        options: *const u8,
        options_len: usize,
        at: usize,
        answer: *mut [u64; 5],
    ) -> u32;

    /// Whether bytes are a good table: gives 0, or 15.
    pub fn bep_check_table(table: *const u8, table_len: usize) -> u32;

    /// Compares the record at a place of one array with that at a place of another, by bounds checks
    /// alone: `answer[0]` is 0 where the first is older, 1 where they are equal, 2 where it is newer.
    /// Where the fields of one aren't wholly there it gives 1, and `answer[0]` is the first byte of the
    /// field that isn't, of the first record that is cut short.
    pub fn bep_compare(
        a: *const u8,
        a_len: usize,
        i: usize,
        b: *const u8,
        b_len: usize,
        j: usize,
        answer: *mut [u64; 1],
    ) -> u32;

    /// Fills the buffer with the merged table of two. `answer[0]` is the number of bytes filled, or
    /// the place of the refusal, which is 0.
    pub fn bep_merge(
        out: *mut u8,
        out_len: usize,
        a: *const u8,
        a_len: usize,
        b: *const u8,
        b_len: usize,
        answer: *mut [u64; 1],
    ) -> u32;

    /// Fills the buffer with a sender's new table, by its old one and an Index or an IndexUpdate of the
    /// repository. `answer[0]` is the number of bytes filled, or the place of the refusal.
    pub fn bep_accept(
        out: *mut u8,
        out_len: usize,
        old: *const u8,
        old_len: usize,
        message: *const u8,
        message_len: usize,
        repository: *const u8,
        repository_len: usize,
        answer: *mut [u64; 1],
    ) -> u32;

    /// The record at a place of a table, in the words of `bep_file`. Gives 0 and zeros at the table's
    /// end; 15 and zeros where the table isn't good or no record starts at the place.
    pub fn bep_step(table: *const u8, table_len: usize, at: usize, answer: *mut [u64; 8]) -> u32;

    /// Fills the buffer with the request list of a local table and four peers', 24 bytes a block.
    /// `answer[0]` is the number of bytes filled, or the place of the refusal, which is 0.
    pub fn bep_request_list(
        out: *mut u8,
        out_len: usize,
        local: *const u8,
        local_len: usize,
        peer1: *const u8,
        peer1_len: usize,
        peer2: *const u8,
        peer2_len: usize,
        peer3: *const u8,
        peer3_len: usize,
        peer4: *const u8,
        peer4_len: usize,
        answer: *mut [u64; 1],
    ) -> u32;

    /// Why a block of a name isn't coming, by a local table and four peers'. `answer[0]` is the reason: 1 no
    /// such name, 2 deleted, 3 invalid, 4 no such block, 5 held, 6 wanted. Held, `[1]` is the number of the
    /// local record and `[2]` that of its block, from 0; wanted, `[1]` is the peer, 1 to 4. Unused words are
    /// 0, and all are where a table isn't good (15).
    pub fn bep_why(
        local: *const u8,
        local_len: usize,
        peer1: *const u8,
        peer1_len: usize,
        peer2: *const u8,
        peer2_len: usize,
        peer3: *const u8,
        peer3_len: usize,
        peer4: *const u8,
        peer4_len: usize,
        name: *const u8,
        name_len: usize,
        block: u32,
        answer: *mut [u64; 3],
    ) -> u32;

    /// What an entry of a request list stands for, by its file and its block. `answer[0]` is the table that
    /// has the file's newest record, 0 the local one or 1 to 4 the peers', the first where several have it;
    /// `[1]` and `[2]` are start and length of the name there, `[3]` the block's offset, `[4]` its length and
    /// `[5]` the start of its hash there. Gives 1 and zeros where no file or no block has that number; 15 and
    /// zeros where a table isn't good.
    pub fn bep_details(
        local: *const u8,
        local_len: usize,
        peer1: *const u8,
        peer1_len: usize,
        peer2: *const u8,
        peer2_len: usize,
        peer3: *const u8,
        peer3_len: usize,
        peer4: *const u8,
        peer4_len: usize,
        file: u32,
        block: u32,
        answer: *mut [u64; 6],
    ) -> u32;

    /// Where a table first lists a block: `answer[0]` is 1, `[1]` the record's number and `[2]` the
    /// block's, from 0; or all are 0.
    pub fn bep_find(
        table: *const u8,
        table_len: usize,
        length: u32,
        hash: *const u8,
        hash_len: usize,
        answer: *mut [u64; 3],
    ) -> u32;

    /// Rules on a Request. `answer[0]` is 1 where it is served: `[1]` and `[2]` are start and length
    /// of the name in the message, `[3]` the offset and `[4]` the length. It is 0 where the reply was
    /// written, and `[1]` its length. Refused, `[0]` is the place.
    pub fn bep_serve(
        out: *mut u8,
        out_len: usize,
        table: *const u8,
        table_len: usize,
        repository: *const u8,
        repository_len: usize,
        message: *const u8,
        message_len: usize,
        answer: *mut [u64; 5],
    ) -> u32;

    /// Opens an empty queue of outstanding requests. Both arrays are the queue and go together: its words
    /// are, for each peer, the window, the next ID, the count, and the ID and the length of each of 16
    /// entries; its hashes are those of the entries, 32 bytes each, for each peer too.
    ///
    /// Bit `p - 1` of `stated` says whether peer `p` has the window `windows[p - 1]`, which isn't looked at
    /// otherwise: 4 stands then. Bits above don't count. Refused (22), all words and hashes are 0.
    pub fn bep_queue_open(
        queue: *mut [u32; QUEUE_WORDS],
        hashes: *mut [u8; QUEUE_HASHES],
        windows: *const [u32; PEERS],
        stated: u32,
    ) -> u32;

    /// Writes a Request to a peer with its next ID and appends it. `answer[0]` is the number of bytes
    /// written and `[1]` the ID; refused, they are the place and 0.
    pub fn bep_queue_issue(
        out: *mut u8,
        out_len: usize,
        queue: *mut [u32; QUEUE_WORDS],
        hashes: *mut [u8; QUEUE_HASHES],
        peer: u32,
        repository: *const u8,
        repository_len: usize,
        name: *const u8,
        name_len: usize,
        offset: u64,
        length: u32,
        hash: *const u8,
        hash_len: usize,
        answer: *mut [u64; 2],
    ) -> u32;

    /// Releases a peer's oldest request by the Response to it. `answer[0]` is 0 where it brought the data, 1
    /// where they aren't available, 2 where their size is wrong, 3 where their content is: the size is
    /// right and their SHA-256 isn't the hash asked for; `[1]` and `[2]` the request's ID and length;
    /// `[3]` and `[4]` start and length of the data in the message, zeros where there are none to use.
    /// Refused, `[0]` is the place and the rest is 0.
    pub fn bep_queue_answer(
        queue: *mut [u32; QUEUE_WORDS],
        hashes: *mut [u8; QUEUE_HASHES],
        peer: u32,
        message: *const u8,
        message_len: usize,
        answer: *mut [u64; 5],
    ) -> u32;

    /// Releases all requests of a peer.
    pub fn bep_queue_drop(
        queue: *mut [u32; QUEUE_WORDS],
        hashes: *mut [u8; QUEUE_HASHES],
        peer: u32,
    ) -> u32;

    /// `answer[0]` is how many requests are outstanding over all peers and `[1]` the sum of their lengths;
    /// the same follows for each peer. Of any queue, by its words. Gives 0.
    pub fn bep_queue_totals(
        queue: *const [u32; QUEUE_WORDS],
        answer: *mut [u64; TOTALS_WORDS],
    ) -> u32;

    /// Fills the digest with the SHA-256 of the message. Gives 0.
    pub fn bep_sha256(message: *const u8, message_len: usize, digest: *mut [u8; 32]) -> u32;

    /// Begins the SHA-256 of a message that is given run by run: of no bytes so far. The words are the
    /// eight of the hash value so far and the number of bytes so far, as two words, high first; the tail
    /// has the bytes after the last whole block of 64, and then zeros. Gives 0.
    pub fn bep_sha256_begin(words: *mut [u32; SHA256_WORDS], tail: *mut [u8; SHA256_TAIL]) -> u32;

    /// Goes on with a run of bytes. Any words and any tail will do: of the tail only as many bytes
    /// matter as came after the last whole block. Gives 0.
    pub fn bep_sha256_update(
        words: *mut [u32; SHA256_WORDS],
        tail: *mut [u8; SHA256_TAIL],
        bytes: *const u8,
        bytes_len: usize,
    ) -> u32;

    /// Fills the digest with the SHA-256 of all bytes so far, of words and a tail as above, which stay as
    /// they are. Gives 0.
    pub fn bep_sha256_finish(
        words: *const [u32; SHA256_WORDS],
        tail: *const [u8; SHA256_TAIL],
        digest: *mut [u8; 32],
    ) -> u32;
}
