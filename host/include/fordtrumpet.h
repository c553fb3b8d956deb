/*
 * Messages, tables, hashes and outstanding requests of the Block Exchange Protocol v1.0, as
 * exported by libbep.a.
 *
 * Slices. A run of bytes is given as a pointer and a length. NULL is allowed where the length is 0;
 * this is tested, not proved, since the prover takes slices, which have an address. A lent buffer
 * (out) must not overlap any input, and an answer, a feed, a digest, an array of a queue or one of
 * SHA-256 in pieces nothing else that is given. These, and the windows of an opening, are never
 * NULL and have the size that they are declared with.
 *
 * Answers. Every function returns 0 when it accepts, else the number of the refusal, and fills the
 * whole answer; an enum before the function names the answer's words. A refusal comes with a place,
 * answer[BEP_PLACE]: the first byte of the field at fault, counted from the start of the message
 * that was read or would have been written. The header word is one field; the place of a string or
 * opaque is its length word, but for 6 and 7 that of the bad byte; the place of a field that isn't
 * there is where it would begin. A refused call leaves the lent buffer as it was. An accepted one
 * changes only its first bytes, as many as it reports.
 *
 * Strings. A Repository, Name, Key or Value that was read is UTF-8 (RFC 3629). It has no zero byte
 * after it, and all but a Name may have some inside. A Name is a plain path below its folder: parts
 * with single slashes between them, none of which is . or .. (else it is refused with 24).
 */
#ifndef FORDTRUMPET_H
#define FORDTRUMPET_H

#include <stddef.h>
#include <stdint.h>

/* The version of this header and of the library that it was installed with. */
#define BEP_VERSION_MAJOR 0
#define BEP_VERSION_MINOR 1
#define BEP_VERSION_PATCH 0
#define BEP_VERSION "0.1.0"

/* Of a function that can refuse: its result is to be looked at. */
#if defined(__GNUC__) || defined(__clang__)
#define BEP_CHECKED __attribute__((warn_unused_result))
#else
#define BEP_CHECKED
#endif

#ifdef __cplusplus
extern "C" {
#endif

/*
 * The numbers. Each is given exactly when its check is the first to fail. Reading gives 1 to 12
 * and 24, writing 1, 5 to 12, 14 and 24. The check for 24 is the one after that for 8.
 */
enum {
    BEP_ACCEPTED = 0,
    /* the field isn't wholly there */
    BEP_REFUSED_INCOMPLETE = 1,
    /* version not 0 */
    BEP_REFUSED_VERSION = 2,
    /* type not 1 to 7, of an old message 1 to 6 */
    BEP_REFUSED_TYPE = 3,
    /* reserved not 0 */
    BEP_REFUSED_RESERVED = 4,
    /* a length or count is above its limit; in writing, first of all, a Message ID above 4095
       (place 0) */
    BEP_REFUSED_ABOVE_LIMIT = 5,
    /* a pad byte isn't zero (the place is that of the first such byte) */
    BEP_REFUSED_PAD = 6,
    /* text rule broken: a string isn't UTF-8 (RFC 3629) (the place is where the first sequence that
       breaks it begins: a byte that can't lead, or the lead of what is broken or cut off) */
    BEP_REFUSED_TEXT = 7,
    /* empty Name */
    BEP_REFUSED_EMPTY_NAME = 8,
    /* hash length isn't 32 */
    BEP_REFUSED_HASH_LENGTH = 9,
    /* the Length of a block or Request is 0 or above 131,072 */
    BEP_REFUSED_LENGTH = 10,
    /* a reserved flag is set */
    BEP_REFUSED_FLAG = 11,
    /* a deleted file with a block count above 0 (the place is that of the block count) */
    BEP_REFUSED_DELETED_WITH_BLOCKS = 12,
    /* a name stands twice in the message (never in reading or writing) */
    BEP_REFUSED_REPEATED_NAME = 13,
    /* the answer is longer than the lent buffer (the place is 0, as for all up to 23) */
    BEP_REFUSED_NO_ROOM = 14,
    /* bytes given as a table aren't a good table */
    BEP_REFUSED_BAD_TABLE = 15,
    /* the peer's outstanding count equals its window */
    BEP_REFUSED_WINDOW_FULL = 16,
    /* outstanding bytes, of all peers, plus Length exceed the allowance */
    BEP_REFUSED_ALLOWANCE_FULL = 17,
    /* the message is of another type than the call accepts */
    BEP_REFUSED_OTHER_TYPE = 18,
    /* the resulting table is above 512 records or 65,536 bytes */
    BEP_REFUSED_TABLE_TOO_LARGE = 19,
    /* the Response's ID isn't that of the peer's oldest outstanding request, or it has none */
    BEP_REFUSED_NOT_OLDEST = 20,
    /* another Repository than the call names */
    BEP_REFUSED_OTHER_REPOSITORY = 21,
    /* a window not 1 to 16, or the outstanding requests or the feed given aren't sound */
    BEP_REFUSED_UNSOUND = 22,
    /* peer number not 1 to 4 */
    BEP_REFUSED_NO_SUCH_PEER = 23,
    /* the Name begins or ends with a slash, has two slashes together, a part that is exactly . or
       .., or a zero byte (the place is that of the Name) */
    BEP_REFUSED_UNSAFE_NAME = 24
};

/* What a number means, in a sentence for people. */
static inline const char *bep_refusal_text(uint32_t number)
{
    switch (number) {
    case BEP_ACCEPTED: return "accepted";
    case BEP_REFUSED_INCOMPLETE: return "a field isn't wholly there";
    case BEP_REFUSED_VERSION: return "the version isn't 0";
    case BEP_REFUSED_TYPE: return "the type isn't 1 to 7";
    case BEP_REFUSED_RESERVED: return "the reserved bits aren't 0";
    case BEP_REFUSED_ABOVE_LIMIT: return "a length, a count or a Message ID is above its limit";
    case BEP_REFUSED_PAD: return "a pad byte isn't zero";
    case BEP_REFUSED_TEXT: return "a string isn't UTF-8";
    case BEP_REFUSED_EMPTY_NAME: return "the Name is empty";
    case BEP_REFUSED_HASH_LENGTH: return "the hash isn't 32 bytes long";
    case BEP_REFUSED_LENGTH: return "the Length is 0 or above 131,072";
    case BEP_REFUSED_FLAG: return "a reserved flag is set";
    case BEP_REFUSED_DELETED_WITH_BLOCKS: return "a deleted file has blocks";
    case BEP_REFUSED_REPEATED_NAME: return "a name stands twice in the message";
    case BEP_REFUSED_NO_ROOM: return "the answer is longer than the lent buffer";
    case BEP_REFUSED_BAD_TABLE: return "the bytes aren't a good table";
    case BEP_REFUSED_WINDOW_FULL: return "the window is full";
    case BEP_REFUSED_ALLOWANCE_FULL: return "the byte allowance is exceeded";
    case BEP_REFUSED_OTHER_TYPE: return "the message is of another type than the call takes";
    case BEP_REFUSED_TABLE_TOO_LARGE:
        return "the resulting table is above 512 records or 65,536 bytes";
    case BEP_REFUSED_NOT_OLDEST: return "the Response isn't to the oldest outstanding request";
    case BEP_REFUSED_OTHER_REPOSITORY: return "the message is for another Repository";
    case BEP_REFUSED_UNSOUND: return "a window isn't 1 to 16, or the queue or the feed isn't sound";
    case BEP_REFUSED_NO_SUCH_PEER: return "the peer isn't 1 to 4";
    case BEP_REFUSED_UNSAFE_NAME: return "the Name isn't a plain path below its folder";
    default: return "unknown number";
    }
}

/* The types of messages. */
enum {
    BEP_INDEX = 1,
    BEP_REQUEST = 2,
    BEP_RESPONSE = 3,
    BEP_PING = 4,
    BEP_PONG = 5,
    BEP_INDEX_UPDATE = 6,
    BEP_OPTIONS = 7
};

/* Flags of a file. The low 12 bits are the Unix mode. */
enum {
    BEP_MODE = 4095,
    BEP_DELETED = 4096,
    BEP_INVALID = 8192
};

/*
 * Limits, in bytes but for the counts. A Name has at least one byte, a Key up to 64 and a Value up
 * to 255; there are up to 64 options. The Length of a block or Request is 1 to BEP_MAX_BLOCK.
 */
enum {
    BEP_MAX_REPOSITORY = 64,
    BEP_MAX_NAME = 255,
    BEP_MAX_BLOCK = 131072,             /* and so the most data of a Response */
    BEP_MAX_BLOCKS = 1024,              /* the count of a file */
    BEP_MAX_FILES = 512,                /* the count of a message */
    BEP_MAX_RECORDS = 512,              /* the count of a table */
    BEP_PEERS = 4,                      /* the count of peers, which are numbered from 1 on */
    BEP_MAX_WINDOW = 16                 /* the count of a peer's outstanding requests; 4 unless
                                           stated */
};

/* How long things can be, in bytes: a buffer of that size has room for any. */
enum {
    BEP_MAX_TABLE = 65536,              /* a good table */
    BEP_MAX_INDEX = 21114956,           /* an Index or IndexUpdate */
    BEP_MAX_TABLE_INDEX = 65608,        /* one that has the records of a good table */
    BEP_MAX_REQUEST = 380,
    BEP_MAX_RESPONSE = 131080,
    BEP_PING_BYTES = 4,                 /* a Ping or a Pong */
    BEP_REPLY_BYTES = 8,                /* a Response without data */
    BEP_MAX_OPTIONS = 21000,            /* an Options message */
    BEP_HASH_BYTES = 32,
    BEP_BLOCK_BYTES = 40,               /* a block in a FileInfo array */
    BEP_LIST_ENTRY_BYTES = 24,          /* a block in a request list */
    BEP_MAX_REQUEST_LIST = 157056       /* a request list of four peers */
};

/* The word of every answer that a refusal fills with its place, and a writer with its bytes. */
enum {
    BEP_PLACE = 0,
    BEP_WRITTEN = 0
};

/* A word of 32 bits as messages, tables and lists have it, big-endian. */
static inline uint32_t bep_word(const uint8_t *bytes)
{
    uint32_t word = bytes[0];

    for (int i = 1; i < 4; i++)
        word = word << 8 | bytes[i];
    return word;
}

/*
 * The words of a reading: three for every type, those of the type, and zeros. AT is a place in the
 * input; that of a string, hash or Data is its first byte after the length word, that of an array
 * its count word, which is included in the array's LENGTH.
 */
enum {
    BEP_READ_USED = 0,                  /* the number of bytes used */
    BEP_READ_TYPE = 1,
    BEP_READ_ID = 2,

    BEP_INDEX_REPOSITORY_AT = 3,        /* of an IndexUpdate too */
    BEP_INDEX_REPOSITORY_LENGTH = 4,
    BEP_INDEX_FILES_AT = 5,             /* the FileInfo array */
    BEP_INDEX_FILES_LENGTH = 6,
    BEP_INDEX_FILES_COUNT = 7,

    BEP_REQUEST_REPOSITORY_AT = 3,
    BEP_REQUEST_REPOSITORY_LENGTH = 4,
    BEP_REQUEST_NAME_AT = 5,
    BEP_REQUEST_NAME_LENGTH = 6,
    BEP_REQUEST_OFFSET = 7,
    BEP_REQUEST_LENGTH = 8,
    BEP_REQUEST_HASH_AT = 9,
    BEP_REQUEST_HASH_LENGTH = 10,       /* 32 */

    BEP_RESPONSE_DATA_AT = 3,
    BEP_RESPONSE_DATA_LENGTH = 4,

    BEP_OPTIONS_ARRAY_AT = 5,
    BEP_OPTIONS_ARRAY_LENGTH = 6,
    BEP_OPTIONS_ARRAY_COUNT = 7,

    BEP_READ_WORDS = 11
};

/*
 * Reads the message at the start of the input. Bytes after its end belong to the next message and
 * change no answer. Refused, all words but the place are 0.
 */
BEP_CHECKED uint32_t bep_read(const uint8_t *input, size_t input_len,
                              uint64_t answer[BEP_READ_WORDS]);

/*
 * Bytes as they come. A feed reads one message that is given run by run, of whatever length or
 * none, and keeps none of its bytes. It is opened for a message, and the caller keeps its words,
 * which are handed back changed by each run.
 */
enum {
    BEP_FEED_WORDS = 16
};

/* Opens a feed for a message, or for one of the old edition (below). Returns 0. */
uint32_t bep_feed_open(uint32_t feed[BEP_FEED_WORDS]);
uint32_t bep_feed_open_old(uint32_t feed[BEP_FEED_WORDS]);

/* The words of a run's answer. The first is the place of a refusal, or one of these. */
enum {
    BEP_FED_LENGTH = 0,                 /* ended: the length of the message */
    BEP_FED_MISSING = 0,                /* waiting: so many bytes are surely still missing, at least
                                           1; with fewer more it will still wait */
    BEP_FED_TAKEN = 1,                  /* how many bytes of the run were taken */
    BEP_FED_WORDS = 2
};

/*
 * Feeds a run. The number is that of bep_read, or bep_read_old, for all bytes so far, however they
 * were cut: 1 while the message isn't whole, 0 where it has ended, else that of the refusal, with
 * its place. Length and place count from the message's first byte. The run that the message ends in
 * is taken up to there, and all others whole. After 0 or a refusal every later run gets the same
 * number and first word, and no byte of it is taken: the next message needs a newly opened feed.
 *
 * Any words may be given. Where they are no sound feed, as zeros aren't, the number is 22 and the
 * place 0, nothing is taken, and they stay as they are.
 */
BEP_CHECKED uint32_t bep_feed(uint32_t feed[BEP_FEED_WORDS], const uint8_t *run, size_t run_len,
                              uint64_t answer[BEP_FED_WORDS]);

/* The words of a header. */
enum {
    BEP_HEADER_TYPE = 0,                /* any byte: one that isn't 1 to 7 is refused by the feed */
    BEP_HEADER_ID = 1,
    BEP_HEADER_WORDS = 2
};

/*
 * The type and the ID of the message that is fed, whether or not it is refused. Returns 0 once its
 * first four bytes have come, before that 1 and zeros.
 */
BEP_CHECKED uint32_t bep_feed_header(const uint32_t feed[BEP_FEED_WORDS],
                                     uint64_t answer[BEP_HEADER_WORDS]);

/*
 * The writers. Each checks the ID (5 at 0), then gives what reading the message would give, then 14
 * if it is longer than the lent buffer. answer[BEP_WRITTEN] is the number of bytes written.
 */

/*
 * Writes an Index. The files are an encoded FileInfo array, count word first, in any order; bytes
 * after its end don't count.
 */
BEP_CHECKED uint32_t bep_write_index(uint8_t *out, size_t out_len, uint32_t id,
                                     const uint8_t *repository, size_t repository_len,
                                     const uint8_t *files, size_t files_len, uint64_t answer[1]);

/* Writes an IndexUpdate. Its fields are those of an Index. */
BEP_CHECKED uint32_t bep_write_index_update(uint8_t *out, size_t out_len, uint32_t id,
                                            const uint8_t *repository, size_t repository_len,
                                            const uint8_t *files, size_t files_len,
                                            uint64_t answer[1]);

/* Writes a Request. A hash of another length than 32 is refused (9). */
BEP_CHECKED uint32_t bep_write_request(uint8_t *out, size_t out_len, uint32_t id,
                                       const uint8_t *repository, size_t repository_len,
                                       const uint8_t *name, size_t name_len,
                                       uint64_t offset, uint32_t length,
                                       const uint8_t *hash, size_t hash_len, uint64_t answer[1]);

/* Writes a Response. No data says that the block isn't available. */
BEP_CHECKED uint32_t bep_write_response(uint8_t *out, size_t out_len, uint32_t id,
                                        const uint8_t *data, size_t data_len, uint64_t answer[1]);

/* Writes a Ping. */
BEP_CHECKED uint32_t bep_write_ping(uint8_t *out, size_t out_len, uint32_t id, uint64_t answer[1]);

/* Writes a Pong. */
BEP_CHECKED uint32_t bep_write_pong(uint8_t *out, size_t out_len, uint32_t id, uint64_t answer[1]);

/*
 * Writes an Options message. The options are an encoded array, count word first; bytes after its
 * end don't count.
 */
BEP_CHECKED uint32_t bep_write_options(uint8_t *out, size_t out_len, uint32_t id,
                                       const uint8_t *options, size_t options_len,
                                       uint64_t answer[1]);

/*
 * The old edition. Its Index, IndexUpdate and Request have no Repository, and it has no Options. A
 * Response, a Ping and a Pong are the same bytes in both editions, so the writers above are those
 * of the old one too. All other calls that take a message take one of the new edition: what comes
 * over an old link is turned up first.
 */

/*
 * Reads the old message at the start of the input, as bep_read does a new one. The Repository that
 * isn't there has the place 4 and no bytes. Type 7 is refused with 3.
 */
BEP_CHECKED uint32_t bep_read_old(const uint8_t *input, size_t input_len,
                                  uint64_t answer[BEP_READ_WORDS]);

/* Writes an old Index, as bep_write_index does a new one. */
BEP_CHECKED uint32_t bep_write_old_index(uint8_t *out, size_t out_len, uint32_t id,
                                         const uint8_t *files, size_t files_len,
                                         uint64_t answer[1]);

/* Writes an old IndexUpdate, as bep_write_index_update does a new one. */
BEP_CHECKED uint32_t bep_write_old_index_update(uint8_t *out, size_t out_len, uint32_t id,
                                                const uint8_t *files, size_t files_len,
                                                uint64_t answer[1]);

/* Writes an old Request, as bep_write_request does a new one. */
BEP_CHECKED uint32_t bep_write_old_request(uint8_t *out, size_t out_len, uint32_t id,
                                           const uint8_t *name, size_t name_len,
                                           uint64_t offset, uint32_t length,
                                           const uint8_t *hash, size_t hash_len,
                                           uint64_t answer[1]);

/*
 * Turns an old message into a new one. An Index, an IndexUpdate and a Request get the Repository
 * given, which takes at most 68 bytes; for other types it isn't looked at. The ID and the other
 * fields stay, and bytes after the message don't go along. Refused with what bep_read_old gives for
 * the message; then, for those three types, with 5 or 7 for the Repository, its place counted in
 * the new message; then with 14. answer[BEP_WRITTEN] is the number of bytes written.
 */
BEP_CHECKED uint32_t bep_upgrade(uint8_t *out, size_t out_len,
                                 const uint8_t *message, size_t message_len,
                                 const uint8_t *repository, size_t repository_len,
                                 uint64_t answer[1]);

/*
 * Turns a new message into an old one: the Repository is left out. The ID and the other fields
 * stay, and bytes after the message don't go along. Refused with what bep_read gives for the
 * message; then with 18 if it is an Options message; then with 14. answer[BEP_WRITTEN] is the
 * number of bytes written.
 */
BEP_CHECKED uint32_t bep_downgrade(uint8_t *out, size_t out_len,
                                   const uint8_t *message, size_t message_len,
                                   uint64_t answer[1]);

/* The words of a file. AT is a place in the array. */
enum {
    BEP_FILE_NEXT = 0,                  /* the place past the file */
    BEP_FILE_NAME_AT = 1,
    BEP_FILE_NAME_LENGTH = 2,
    BEP_FILE_FLAGS = 3,
    BEP_FILE_MODIFIED = 4,              /* the 64 bits of a signed number */
    BEP_FILE_VERSION = 5,
    BEP_FILE_BLOCKS_COUNT = 6,
    BEP_FILE_BLOCKS_AT = 7,             /* each has BEP_BLOCK_BYTES: a word with its length, a word
                                           with the hash's length, and the 32 bytes of the hash */
    BEP_FILE_WORDS = 8
};

/* The place of the first element of an array, past the count word. */
enum {
    BEP_FIRST = 4
};

/*
 * The file at a place of a FileInfo array whose reading was accepted. The array is given from its
 * count word on, so the first file is at BEP_FIRST and each next one at the BEP_FILE_NEXT of the
 * one before.
 *
 * It checks bounds alone. Returns 0, or 1 where the fields aren't wholly there: the place is then
 * the first byte of the field that isn't, and the other words are zeros.
 */
BEP_CHECKED uint32_t bep_file(const uint8_t *files, size_t files_len, size_t at,
                              uint64_t answer[BEP_FILE_WORDS]);

/* The words of an option. AT is a place in the array. */
enum {
    BEP_OPTION_NEXT = 0,                /* the place past the option */
    BEP_OPTION_KEY_AT = 1,
    BEP_OPTION_KEY_LENGTH = 2,
    BEP_OPTION_VALUE_AT = 3,
    BEP_OPTION_VALUE_LENGTH = 4,
    BEP_OPTION_WORDS = 5
};

/* The option at a place of an array whose reading was accepted, as bep_file does for files. */
BEP_CHECKED uint32_t bep_option(const uint8_t *options, size_t options_len, size_t at,
                                uint64_t answer[BEP_OPTION_WORDS]);

/*
 * Tables. A good table is a FileInfo array that exactly fills its bytes, names rising bytewise, of
 * at most 512 records and 65,536 bytes. The empty table is four zero bytes.
 */

/* Whether bytes are a good table. Returns 0, or 15. */
BEP_CHECKED uint32_t bep_check_table(const uint8_t *table, size_t table_len);

/* What a comparison finds, in answer[0]: the first is older than the second, equal, newer. */
enum {
    BEP_OLDER = 0,
    BEP_EQUAL = 1,
    BEP_NEWER = 2
};

/*
 * Compares the record at place i of one array with that at place j of another, by which is newer:
 * Modified as a signed number; then Version; then valid over invalid; then deleted over undeleted;
 * then the encoded bytes from Flags to the end. Names don't count.
 *
 * It checks bounds alone. Returns 0, or 1 where the fields of one aren't wholly there: the place is
 * then the first byte of the field that isn't, of the first record that is cut short.
 */
BEP_CHECKED uint32_t bep_compare(const uint8_t *a, size_t a_len, size_t i,
                                 const uint8_t *b, size_t b_len, size_t j, uint64_t answer[1]);

/*
 * Fills the buffer with the merged table of two: the newest record of each name. The two may be
 * one. Refused with 15, 19 or 14, in this order. answer[BEP_WRITTEN] is the number of bytes filled.
 */
BEP_CHECKED uint32_t bep_merge(uint8_t *out, size_t out_len, const uint8_t *a, size_t a_len,
                               const uint8_t *b, size_t b_len, uint64_t answer[1]);

/*
 * Fills the buffer with a sender's new table, by its old one and a message of it: the records of an
 * Index, or those of an IndexUpdate and the old ones that it doesn't mention. The message must be
 * of the repository given. Refused with 15, what reading the message gives, 18, 21, 13, 19 or 14,
 * in this order. answer[BEP_WRITTEN] is the number of bytes filled.
 */
BEP_CHECKED uint32_t bep_accept(uint8_t *out, size_t out_len, const uint8_t *old, size_t old_len,
                                const uint8_t *message, size_t message_len,
                                const uint8_t *repository, size_t repository_len,
                                uint64_t answer[1]);

/*
 * A step through a table: the record at a place, with the answer of bep_file. The first record is
 * at BEP_FIRST, and BEP_FILE_NEXT is the place of the next step. At the end it returns 0 and all
 * zeros. Returns 15 and all zeros where the table isn't good, or where the place starts no record
 * and isn't the end.
 */
BEP_CHECKED uint32_t bep_step(const uint8_t *table, size_t table_len, size_t at,
                              uint64_t answer[BEP_FILE_WORDS]);

/*
 * Fills the buffer with the blocks to request: of each name over the five tables the newest record
 * counts, and its blocks are wanted where it is valid and undeleted and no valid, undeleted record
 * of the local table has their length and hash. An absent peer is the empty table. There is an
 * entry of BEP_LIST_ENTRY_BYTES for each block, by name and then by block; bep_list_entry reads
 * one. Refused with 15 or 14. answer[BEP_WRITTEN] is the number of bytes filled.
 */
BEP_CHECKED uint32_t bep_request_list(uint8_t *out, size_t out_len,
                                      const uint8_t *local, size_t local_len,
                                      const uint8_t *peer1, size_t peer1_len,
                                      const uint8_t *peer2, size_t peer2_len,
                                      const uint8_t *peer3, size_t peer3_len,
                                      const uint8_t *peer4, size_t peer4_len, uint64_t answer[1]);

/* An entry of a request list: a block to request, and from whom. */
struct bep_wanted {
    uint32_t file;                      /* the file's number among all names, from 0 */
    uint32_t block;                     /* the block's number in its file, from 0 */
    uint64_t offset;
    uint32_t length;
    uint32_t peer;                      /* 1 to 4 */
};

/*
 * The entry with this number, from 0, of a list that bep_request_list filled. Its fields stand
 * there in the order of the struct, big-endian. The list must have the entry: nothing is checked.
 */
static inline struct bep_wanted bep_list_entry(const uint8_t *list, size_t number)
{
    const uint8_t *entry = list + number * BEP_LIST_ENTRY_BYTES;
    struct bep_wanted wanted;

    wanted.file = bep_word(entry);
    wanted.block = bep_word(entry + 4);
    wanted.offset = bep_word(entry + 8);
    wanted.offset = wanted.offset << 32 | bep_word(entry + 12);
    wanted.length = bep_word(entry + 16);
    wanted.peer = bep_word(entry + 20);
    return wanted;
}

/*
 * The words of what an entry stands for. AT is a place in the table that the first word tells:
 * there the newest record of the file is, and the first is told where several tables have it.
 */
enum {
    BEP_DETAILS_TABLE = 0,              /* 0 is the local table, 1 to 4 are the peers' */
    BEP_DETAILS_NAME_AT = 1,
    BEP_DETAILS_NAME_LENGTH = 2,
    BEP_DETAILS_OFFSET = 3,
    BEP_DETAILS_LENGTH = 4,
    BEP_DETAILS_HASH_AT = 5,            /* BEP_HASH_BYTES; those of the file's next block begin
                                           BEP_BLOCK_BYTES further on */
    BEP_DETAILS_WORDS = 6
};

/*
 * From an entry to a Request: the name, the offset, the Length and the hash, by the numbers of the
 * entry's file and block and the tables that the list was made of. It answers for any block of the
 * newest record of any name, listed or not. Returns 1 and all zeros where no file or no block has
 * that number; 15 and all zeros where a table isn't good.
 */
BEP_CHECKED uint32_t bep_details(const uint8_t *local, size_t local_len,
                                 const uint8_t *peer1, size_t peer1_len,
                                 const uint8_t *peer2, size_t peer2_len,
                                 const uint8_t *peer3, size_t peer3_len,
                                 const uint8_t *peer4, size_t peer4_len,
                                 uint32_t file, uint32_t block,
                                 uint64_t answer[BEP_DETAILS_WORDS]);

/* The words of why a block isn't coming. */
enum {
    BEP_WHY_REASON = 0,

    BEP_WHY_RECORD = 1,                 /* held: the local record's number, from 0 */
    BEP_WHY_BLOCK = 2,                  /* and that of its block, from 0 */

    BEP_WHY_PEER = 1,                   /* wanted: the peer to ask, 1 to 4 */

    BEP_WHY_WORDS = 3
};

/* The reasons. Each is given exactly when it is the first that is true. */
enum {
    BEP_REASON_NO_SUCH_NAME = 1,        /* the name is in no table */
    BEP_REASON_DELETED = 2,             /* its newest record is deleted */
    BEP_REASON_INVALID = 3,             /* it is invalid */
    BEP_REASON_NO_SUCH_BLOCK = 4,       /* it has no block of that number */
    BEP_REASON_HELD = 5,                /* a valid, undeleted local record has that length and
                                           hash: the first such record and block are told */
    BEP_REASON_WANTED = 6               /* the request list has the block, with that peer */
};

/* A reason in plain words. */
static inline const char *bep_reason_text(uint64_t reason)
{
    switch (reason) {
    case BEP_REASON_NO_SUCH_NAME: return "no such name";
    case BEP_REASON_DELETED: return "deleted";
    case BEP_REASON_INVALID: return "invalid";
    case BEP_REASON_NO_SUCH_BLOCK: return "no such block";
    case BEP_REASON_HELD: return "held";
    case BEP_REASON_WANTED: return "wanted";
    default: return "unknown reason";
    }
}

/*
 * Why a block isn't coming: the first reason that is true of a name and a block number, from 0. The
 * name is held to no rule. Unused words are 0. Returns 15 and all zeros where a table isn't good.
 */
BEP_CHECKED uint32_t bep_why(const uint8_t *local, size_t local_len,
                             const uint8_t *peer1, size_t peer1_len,
                             const uint8_t *peer2, size_t peer2_len,
                             const uint8_t *peer3, size_t peer3_len,
                             const uint8_t *peer4, size_t peer4_len,
                             const uint8_t *name, size_t name_len, uint32_t block,
                             uint64_t answer[BEP_WHY_WORDS]);

/* The words of a search. */
enum {
    BEP_FIND_FOUND = 0,                 /* 1, or 0 and so are all others */
    BEP_FIND_RECORD = 1,                /* the record's number, from 0 */
    BEP_FIND_BLOCK = 2,                 /* the block's number in it, from 0 */
    BEP_FIND_WORDS = 3
};

/*
 * Where a valid, undeleted record of a table first has a block with this length and hash. Refused
 * with 15.
 */
BEP_CHECKED uint32_t bep_find(const uint8_t *table, size_t table_len, uint32_t length,
                              const uint8_t *hash, size_t hash_len,
                              uint64_t answer[BEP_FIND_WORDS]);

/* The words of a ruling. */
enum {
    BEP_SERVE_SERVED = 0,               /* 1 where it is served, 0 where it got the reply */

    BEP_SERVE_NAME_AT = 1,              /* served: the name in the message, and what of it */
    BEP_SERVE_NAME_LENGTH = 2,
    BEP_SERVE_OFFSET = 3,
    BEP_SERVE_LENGTH = 4,

    BEP_SERVE_REPLY_LENGTH = 1,         /* not served: bytes of the reply; the others are 0 */

    BEP_SERVE_WORDS = 5
};

/*
 * Rules on an incoming Request, by our own table and Repository. It is served where it names our
 * Repository and our table has a valid, undeleted record of that name with that length and hash at
 * that offset; nothing is written then. Otherwise the reply, a Response with the same ID and no
 * data (BEP_REPLY_BYTES), is written. Refused with 15, what reading the message gives, 18 or 14.
 */
BEP_CHECKED uint32_t bep_serve(uint8_t *out, size_t out_len,
                               const uint8_t *table, size_t table_len,
                               const uint8_t *repository, size_t repository_len,
                               const uint8_t *message, size_t message_len,
                               uint64_t answer[BEP_SERVE_WORDS]);

/*
 * Outstanding requests of peers 1 to 4. Each peer has a list, with a window of 1 to 16 requests and
 * IDs of its own; the allowance of 524,288 bytes is common to all four. The caller keeps the queue.
 * Both arrays are the queue, its words and its hashes, and they go together.
 *
 * Each call for a peer returns 23 first, where the peer isn't 1 to 4, and then 22, where the queue
 * isn't sound, whichever peer the call is for. In a sound one each list has a window of 1 to 16, no
 * more requests than that, Lengths of 1 to 131,072, and IDs that rise by one (0 after 4095) up to
 * the next ID; and the Lengths of all four lists are together within the allowance. Of a hash
 * nothing is asked, and unused entries don't count. The place of 22 and 23 is 0. A refused call but
 * an opening leaves both arrays as they were.
 */
enum {
    BEP_QUEUE_WORDS = 140,              /* those of peers 1 to 4, in that order */
    BEP_QUEUE_HASHES = 2048,            /* bytes, likewise */

    BEP_QUEUE_PEER_WORDS = 35,          /* those of one peer: */
    BEP_QUEUE_WINDOW = 0,
    BEP_QUEUE_NEXT_ID = 1,
    BEP_QUEUE_COUNT = 2,                /* how many requests are outstanding */
    BEP_QUEUE_ENTRIES = 3,              /* ID and Length of the oldest; those of the others follow,
                                           16 in all, the unused ones 0 */

    BEP_QUEUE_PEER_HASHES = 512         /* bytes: the hash that the oldest asks for, and those of
                                           the others, 32 bytes each; the unused ones 0 */
};

/* The bits that say which peers' windows are stated. */
enum {
    BEP_STATED_NONE = 0,
    BEP_STATED_1 = 1,
    BEP_STATED_2 = 2,
    BEP_STATED_3 = 4,
    BEP_STATED_4 = 8,
    BEP_STATED_ALL = 15
};

/*
 * Opens an empty queue. windows[0] to windows[3] are the windows of peers 1 to 4, of those whose
 * bits are set in stated: BEP_MAX_WINDOW for a link whose other side is known to take as many, and
 * for a bulk copy. A peer without its bit gets the default window, which is 4, since some devices
 * stall with more requests open; its entry isn't looked at. Bits above don't count. The queue
 * doesn't know whether a window was stated. If a stated one isn't 1 to 16, it returns 22 and leaves
 * four empty lists, all windows and next IDs 0, which every call but the totals refuses.
 */
BEP_CHECKED uint32_t bep_queue_open(uint32_t queue[BEP_QUEUE_WORDS],
                                    uint8_t hashes[BEP_QUEUE_HASHES],
                                    const uint32_t windows[BEP_PEERS], uint32_t stated);

/* The words of an issue. Refused, all but the place are 0. */
enum {
    BEP_ISSUED_WRITTEN = 0,
    BEP_ISSUED_ID = 1,
    BEP_ISSUED_WORDS = 2
};

/*
 * Writes a Request with the peer's next ID and appends it to the peer's list, with its hash.
 * Refused with 23, 22, what the fields give, 16, by the peer's own list, 17, by the bytes of all
 * four, or 14, in this order.
 */
BEP_CHECKED uint32_t bep_queue_issue(uint8_t *out, size_t out_len,
                                     uint32_t queue[BEP_QUEUE_WORDS],
                                     uint8_t hashes[BEP_QUEUE_HASHES], uint32_t peer,
                                     const uint8_t *repository, size_t repository_len,
                                     const uint8_t *name, size_t name_len,
                                     uint64_t offset, uint32_t length,
                                     const uint8_t *hash, size_t hash_len,
                                     uint64_t answer[BEP_ISSUED_WORDS]);

/* The words of an answered request. */
enum {
    BEP_ANSWERED_OUTCOME = 0,
    BEP_ANSWERED_ID = 1,
    BEP_ANSWERED_LENGTH = 2,            /* that of the request */
    BEP_ANSWERED_DATA_AT = 3,           /* in the message; 0 unless the outcome is the data */
    BEP_ANSWERED_DATA_LENGTH = 4,
    BEP_ANSWERED_WORDS = 5
};

/* What came. The request is released, whatever it is, so that the block may be asked for again. */
enum {
    BEP_OUTCOME_DATA = 0,               /* as long as asked, and with the hash asked for */
    BEP_OUTCOME_NOT_AVAILABLE = 1,      /* nothing */
    BEP_OUTCOME_WRONG_SIZE = 2,         /* data of another length than asked */
    BEP_OUTCOME_WRONG_CONTENT = 3       /* data of that length, but with another SHA-256 */
};

/*
 * Releases the peer's oldest request by the Response to it. Data as long as asked are hashed, all
 * others aren't looked at. Refused with 23, 22, what reading the message gives, 18 or 20, in this
 * order; all words but the place are 0 then.
 */
BEP_CHECKED uint32_t bep_queue_answer(uint32_t queue[BEP_QUEUE_WORDS],
                                      uint8_t hashes[BEP_QUEUE_HASHES], uint32_t peer,
                                      const uint8_t *message, size_t message_len,
                                      uint64_t answer[BEP_ANSWERED_WORDS]);

/*
 * Releases all requests of the peer and no others: its link is gone. Its next ID goes on. Refused
 * with 23 or 22, in this order.
 */
BEP_CHECKED uint32_t bep_queue_drop(uint32_t queue[BEP_QUEUE_WORDS],
                                    uint8_t hashes[BEP_QUEUE_HASHES], uint32_t peer);

/*
 * The words of the totals: those of all peers together, and then those of each, so that a peer's
 * begin at the peer times BEP_TOTALS_EACH.
 */
enum {
    BEP_TOTALS_COUNT = 0,               /* how many requests are outstanding */
    BEP_TOTALS_BYTES = 1,               /* the sum of their Lengths */
    BEP_TOTALS_EACH = 2,
    BEP_TOTALS_WORDS = 10
};

/*
 * Totals the entries that count, which are at most 16 of a peer, by the words alone, whether they
 * are sound or not. Returns 0.
 */
uint32_t bep_queue_totals(const uint32_t queue[BEP_QUEUE_WORDS],
                          uint64_t answer[BEP_TOTALS_WORDS]);

/* SHA-256 by FIPS 180-4, which the hash of a block is. Fills the digest. Returns 0. */
uint32_t bep_sha256(const uint8_t *message, size_t message_len, uint8_t digest[BEP_HASH_BYTES]);

/*
 * The same of a message that is given run by run, of whatever length or none. The caller keeps
 * words and tail, which are handed back changed by each run. Any may be given: of the tail only as
 * many bytes matter as came after the last whole block, the number of bytes so far modulo 64.
 */
enum {
    BEP_SHA256_VALUE = 0,               /* eight words, the hash value so far */
    BEP_SHA256_COUNT = 8,               /* two words, the number of bytes so far, high word first */
    BEP_SHA256_WORDS = 10,
    BEP_SHA256_TAIL_BYTES = 64          /* the bytes after the last whole block, and then zeros */
};

/* Begins, with no bytes so far. Returns 0. */
uint32_t bep_sha256_begin(uint32_t words[BEP_SHA256_WORDS], uint8_t tail[BEP_SHA256_TAIL_BYTES]);

/* Goes on with the next run. Returns 0. */
uint32_t bep_sha256_update(uint32_t words[BEP_SHA256_WORDS], uint8_t tail[BEP_SHA256_TAIL_BYTES],
                           const uint8_t *bytes, size_t bytes_len);

/* Fills the digest by all bytes so far. Words and tail stay, so that more may come. Returns 0. */
uint32_t bep_sha256_finish(const uint32_t words[BEP_SHA256_WORDS],
                           const uint8_t tail[BEP_SHA256_TAIL_BYTES],
                           uint8_t digest[BEP_HASH_BYTES]);

#ifdef __cplusplus
}
#endif

#endif
