/* Calls every function of the header: its declarations and names are those of the library. */
#include <stdio.h>
#include <string.h>

#include "fordtrumpet.h"

#define CHECK(condition)                                          \
    do {                                                          \
        if (!(condition)) {                                       \
            printf("line %d: %s\n", __LINE__, #condition);        \
            return 1;                                             \
        }                                                         \
    } while (0)

/* A FileInfo array with one file "n": mode 0644, modified -2, version 3, one block. */
static const uint8_t files[72] = {
    0, 0, 0, 1, 0, 0, 0, 1, 'n', 0, 0, 0, 0, 0, 1, 0xA4,
    0xFF, 0xFF, 0xFF, 0xFF, 0xFF, 0xFF, 0xFF, 0xFE, 0, 0, 0, 3, 0, 0, 0, 1,
    0, 0, 0, 5, 0, 0, 0, 32, 1, 2, 3, 4, 5, 6, 7, 8
};

/* A table with "a", modified 1, of no blocks, and "b" of two that differ in their length. */
static const uint8_t two_files[140] = {
    0, 0, 0, 2,
    0, 0, 0, 1, 'a', 0, 0, 0, 0, 0, 0, 0, 0, 0, 0, 0, 0, 0, 0, 1, 0, 0, 0, 0, 0, 0, 0, 0,
    0, 0, 0, 1, 'b', 0, 0, 0, 0, 0, 0, 0, 0, 0, 0, 0, 0, 0, 0, 1, 0, 0, 0, 0, 0, 0, 0, 2,
    0, 0, 0, 1, 0, 0, 0, 32, 0, 0, 0, 0, 0, 0, 0, 0, 0, 0, 0, 0, 0, 0, 0, 0,
    0, 0, 0, 0, 0, 0, 0, 0, 0, 0, 0, 0, 0, 0, 0, 0,
    0, 0, 0, 2, 0, 0, 0, 32
};

/* An array with one option, "k" and "vw". */
static const uint8_t options[20] = {
    0, 0, 0, 1, 0, 0, 0, 1, 'k', 0, 0, 0, 0, 0, 0, 2, 'v', 'w', 0, 0
};

/* The old edition, and turning its messages up and new ones down. */
static int editions(void)
{
    const uint8_t repository[2] = {'r', 0xFF};
    const uint8_t above[4] = {'.', '.', '/', 'a'};
    const uint8_t hash[33] = {9};
    uint8_t old[100];
    uint8_t new[100];
    uint8_t back[100];
    uint64_t length[1];
    uint64_t answer[BEP_READ_WORDS];

    CHECK(bep_write_old_index(old, 75, 7, files, 72, length) == BEP_REFUSED_NO_ROOM);
    CHECK(length[BEP_PLACE] == 0);
    CHECK(bep_write_old_index(old, 76, 7, files, 71, length) == BEP_REFUSED_INCOMPLETE);
    CHECK(length[BEP_PLACE] == 4 + 36);
    CHECK(bep_write_old_index(old, 76, 7, files, 72, length) == 0 && length[BEP_WRITTEN] == 76);
    CHECK(memcmp(old, "\0\7\1\0", 4) == 0 && memcmp(old + 4, files, 72) == 0);
    CHECK(bep_read_old(old, 76, answer) == 0);
    CHECK(answer[BEP_READ_USED] == 76);
    CHECK(answer[BEP_READ_TYPE] == BEP_INDEX && answer[BEP_READ_ID] == 7);
    CHECK(answer[BEP_INDEX_REPOSITORY_AT] == 4 && answer[BEP_INDEX_REPOSITORY_LENGTH] == 0);
    CHECK(answer[BEP_INDEX_FILES_AT] == 4 && answer[BEP_INDEX_FILES_LENGTH] == 72);
    CHECK(answer[BEP_INDEX_FILES_COUNT] == 1);
    CHECK(answer[8] == 0 && answer[9] == 0 && answer[10] == 0);

    CHECK(bep_upgrade(new, 83, old, 76, repository, 1, length) == BEP_REFUSED_NO_ROOM);
    CHECK(length[BEP_PLACE] == 0);
    CHECK(bep_upgrade(new, 84, old, 75, repository, 2, length) == BEP_REFUSED_INCOMPLETE);
    CHECK(length[BEP_PLACE] == 4 + 36);
    CHECK(bep_upgrade(new, 84, old, 76, repository, 2, length) == BEP_REFUSED_TEXT);
    CHECK(length[BEP_PLACE] == 9);
    CHECK(bep_upgrade(new, 84, old, 76, repository, 1, length) == 0);
    CHECK(length[BEP_WRITTEN] == 84);
    CHECK(memcmp(new, "\0\7\1\0\0\0\0\1r\0\0\0", 12) == 0);
    CHECK(memcmp(new + 12, files, 72) == 0);
    CHECK(bep_downgrade(back, 75, new, 84, length) == BEP_REFUSED_NO_ROOM);
    CHECK(length[BEP_PLACE] == 0);
    CHECK(bep_downgrade(back, 76, new, 84, length) == 0 && length[BEP_WRITTEN] == 76);
    CHECK(memcmp(back, old, 76) == 0);

    CHECK(bep_write_old_index_update(old, 100, 4095, files, 72, length) == 0);
    CHECK(length[BEP_WRITTEN] == 76 && old[2] == BEP_INDEX_UPDATE);
    CHECK(bep_write_old_index_update(old, 100, 4096, files, 72, length)
          == BEP_REFUSED_ABOVE_LIMIT);

    CHECK(bep_write_old_request(old, 100, 5, above, 4, 1ULL << 33, 77, hash, 33, length)
          == BEP_REFUSED_UNSAFE_NAME);
    CHECK(length[BEP_PLACE] == 4);
    CHECK(bep_write_old_request(old, 100, 5, above + 3, 1, 1ULL << 33, 77, hash, 33, length)
          == BEP_REFUSED_HASH_LENGTH);
    CHECK(length[BEP_PLACE] == 24);
    CHECK(bep_write_old_request(old, 100, 5, above + 3, 1, 1ULL << 33, 77, hash, 32, length) == 0);
    CHECK(length[BEP_WRITTEN] == 60);
    CHECK(bep_read_old(old, 60, answer) == 0);
    CHECK(answer[BEP_READ_TYPE] == BEP_REQUEST && answer[BEP_READ_ID] == 5);
    CHECK(answer[BEP_REQUEST_REPOSITORY_AT] == 4 && answer[BEP_REQUEST_REPOSITORY_LENGTH] == 0);
    CHECK(answer[BEP_REQUEST_NAME_AT] == 8 && answer[BEP_REQUEST_NAME_LENGTH] == 1);
    CHECK(answer[BEP_REQUEST_OFFSET] == 1ULL << 33 && answer[BEP_REQUEST_LENGTH] == 77);
    CHECK(answer[BEP_REQUEST_HASH_AT] == 28);
    CHECK(answer[BEP_REQUEST_HASH_LENGTH] == BEP_HASH_BYTES);

    CHECK(bep_write_options(new, 100, 5, options, 20, length) == 0);
    CHECK(bep_read_old(new, 24, answer) == BEP_REFUSED_TYPE && answer[BEP_PLACE] == 0);
    CHECK(bep_downgrade(back, 0, new, 24, length) == BEP_REFUSED_OTHER_TYPE);
    CHECK(length[BEP_PLACE] == 0);
    return 0;
}

/* Messages whose bytes come in runs. */
static int feeds(void)
{
    /* A Response, a Ping, and an Index whose Repository has a pad byte that isn't zero. */
    const uint8_t response[12] = {0x0F, 0xFE, 3, 0, 0, 0, 0, 3, 'a', 'b', 'c', 0};
    const uint8_t ping[4] = {0, 3, 4, 0};
    const uint8_t index[12] = {0, 1, 1, 0, 0, 0, 0, 1, 'r', 0, 0, 1};
    const uint8_t options[8] = {0, 1, 7, 0};
    uint32_t feed[BEP_FEED_WORDS];
    uint32_t forged[BEP_FEED_WORDS];
    uint64_t fed[BEP_FED_WORDS];
    uint64_t header[BEP_HEADER_WORDS];

    CHECK(bep_feed_open(feed) == 0);
    CHECK(bep_feed(feed, response, 3, fed) == BEP_REFUSED_INCOMPLETE);
    CHECK(fed[BEP_FED_MISSING] == 1 && fed[BEP_FED_TAKEN] == 3);
    CHECK(bep_feed_header(feed, header) == BEP_REFUSED_INCOMPLETE);
    CHECK(header[BEP_HEADER_TYPE] == 0 && header[BEP_HEADER_ID] == 0);
    CHECK(bep_feed(feed, response + 3, 6, fed) == BEP_REFUSED_INCOMPLETE);
    CHECK(fed[BEP_FED_MISSING] >= 1 && fed[BEP_FED_MISSING] <= 3 && fed[BEP_FED_TAKEN] == 6);
    CHECK(bep_feed_header(feed, header) == 0);
    CHECK(header[BEP_HEADER_TYPE] == BEP_RESPONSE && header[BEP_HEADER_ID] == 0xFFE);
    CHECK(bep_feed(feed, response + 9, 3, fed) == 0);
    CHECK(fed[BEP_FED_LENGTH] == 12 && fed[BEP_FED_TAKEN] == 3);
    CHECK(bep_feed(feed, ping, 4, fed) == 0);
    CHECK(fed[BEP_FED_LENGTH] == 12 && fed[BEP_FED_TAKEN] == 0);

    CHECK(bep_feed_open(feed) == 0);
    CHECK(bep_feed(feed, index, 11, fed) == BEP_REFUSED_INCOMPLETE);
    CHECK(fed[BEP_FED_MISSING] == 1 && fed[BEP_FED_TAKEN] == 11);
    CHECK(bep_feed(feed, index + 11, 1, fed) == BEP_REFUSED_PAD);
    CHECK(fed[BEP_PLACE] == 11 && fed[BEP_FED_TAKEN] == 1);
    CHECK(bep_feed(feed, ping, 4, fed) == BEP_REFUSED_PAD);
    CHECK(fed[BEP_PLACE] == 11 && fed[BEP_FED_TAKEN] == 0);
    CHECK(bep_feed_header(feed, header) == 0);
    CHECK(header[BEP_HEADER_TYPE] == BEP_INDEX && header[BEP_HEADER_ID] == 1);

    CHECK(bep_feed_open(feed) == 0 && bep_feed(feed, options, 8, fed) == 0);
    CHECK(fed[BEP_FED_LENGTH] == 8 && fed[BEP_FED_TAKEN] == 8);
    CHECK(bep_feed_open_old(feed) == 0 && bep_feed(feed, options, 8, fed) == BEP_REFUSED_TYPE);
    CHECK(fed[BEP_PLACE] == 0 && fed[BEP_FED_TAKEN] == 8);
    CHECK(bep_feed_header(feed, header) == 0 && header[BEP_HEADER_TYPE] == BEP_OPTIONS);

    memset(feed, 0xA7, sizeof feed);
    memcpy(forged, feed, sizeof feed);
    CHECK(bep_feed(forged, ping, 4, fed) == BEP_REFUSED_UNSOUND);
    CHECK(fed[BEP_PLACE] == 0 && fed[BEP_FED_TAKEN] == 0);
    CHECK(memcmp(forged, feed, sizeof feed) == 0);
    return 0;
}

/* The empty table, and tables from messages. */
static int tables(void)
{
    const uint8_t empty[4] = {0};
    const uint8_t repository[2] = {'r', 's'};
    uint8_t message[100];
    uint8_t out[100];
    uint64_t length[1];
    uint64_t file[BEP_FILE_WORDS];

    CHECK(bep_check_table(files, 72) == 0 && bep_check_table(files, 71) == BEP_REFUSED_BAD_TABLE);
    CHECK(bep_compare(files, 72, 4, files, 72, 4, length) == 0);
    CHECK(length[0] == BEP_EQUAL);
    CHECK(bep_compare(files, 72, 4, two_files, 140, 4, length) == 0 && length[0] == BEP_OLDER);
    CHECK(bep_compare(two_files, 140, 4, files, 72, 4, length) == 0 && length[0] == BEP_NEWER);
    CHECK(bep_compare(files, 72, 4, files, 72, 72, length) == BEP_REFUSED_INCOMPLETE);
    CHECK(length[BEP_PLACE] == 72);
    CHECK(bep_merge(out, 100, files, 72, empty, 4, length) == 0);
    CHECK(length[0] == 72 && memcmp(out, files, 72) == 0);
    CHECK(bep_merge(out, 71, files, 72, empty, 4, length)
          == BEP_REFUSED_NO_ROOM);
    CHECK(length[BEP_PLACE] == 0);

    CHECK(bep_write_index(message, 100, 0, repository, 2, files, 72, length) == 0);
    memset(out, 0, 100);
    CHECK(bep_accept(out, 100, empty, 4, message, 84, repository, 2, length) == 0);
    CHECK(length[0] == 72 && memcmp(out, files, 72) == 0);
    CHECK(bep_accept(out, 100, empty, 4, message, 84, repository, 1, length)
          == BEP_REFUSED_OTHER_REPOSITORY);
    CHECK(bep_accept(out, 100, empty, 4, message, 83, repository, 2, length)
          == BEP_REFUSED_INCOMPLETE);
    CHECK(length[BEP_PLACE] == 12 + 36);

    CHECK(bep_step(files, 72, BEP_FIRST, file) == 0);
    CHECK(file[BEP_FILE_NEXT] == 72 && file[BEP_FILE_BLOCKS_AT] == 32);
    CHECK(bep_step(files, 72, 72, file) == 0);
    CHECK(file[BEP_FILE_NEXT] == 0 && file[BEP_FILE_BLOCKS_AT] == 0);
    CHECK(bep_step(files, 72, 5, file) == BEP_REFUSED_BAD_TABLE && file[BEP_PLACE] == 0);
    return 0;
}

/* Issues a Request to a peer, with this Length; the other fields don't matter. */
static uint32_t issue(uint32_t queue[BEP_QUEUE_WORDS], uint8_t hashes[BEP_QUEUE_HASHES],
                      uint32_t peer, uint32_t size, uint64_t issued[BEP_ISSUED_WORDS])
{
    const uint8_t name[1] = {'a'};
    const uint8_t hash[32] = {9};
    uint8_t out[68];

    return bep_queue_issue(out, 68, queue, hashes, peer, name, 1, name, 1, 0, size, hash, 32,
                           issued);
}

/* Issues five requests of the largest Length. Four pass; what the fifth gives is returned. */
static uint32_t five_blocks(uint32_t queue[BEP_QUEUE_WORDS], uint8_t hashes[BEP_QUEUE_HASHES],
                            uint32_t peer)
{
    uint64_t issued[BEP_ISSUED_WORDS];

    for (uint32_t i = 0; i < 4; i++)
        if (issue(queue, hashes, peer, BEP_MAX_BLOCK, issued) != 0 || issued[BEP_ISSUED_ID] != i)
            return BEP_ACCEPTED;
    return issue(queue, hashes, peer, BEP_MAX_BLOCK, issued);
}

/* The windows of an opening: stated, default, or not among those there are. */
static int openings(void)
{
    const uint32_t windows[BEP_PEERS] = {17, BEP_MAX_WINDOW, 2, 0};
    uint32_t queue[BEP_QUEUE_WORDS];
    uint8_t hashes[BEP_QUEUE_HASHES];

    CHECK(BEP_QUEUE_WORDS == BEP_PEERS * BEP_QUEUE_PEER_WORDS);
    CHECK(BEP_QUEUE_HASHES == BEP_PEERS * BEP_QUEUE_PEER_HASHES);
    CHECK(BEP_STATED_ALL == (BEP_STATED_1 | BEP_STATED_2 | BEP_STATED_3 | BEP_STATED_4));
    memset(hashes, 0xA7, sizeof hashes);
    CHECK(bep_queue_open(queue, hashes, windows, BEP_STATED_1 | BEP_STATED_2)
          == BEP_REFUSED_UNSOUND);
    for (int i = 0; i < BEP_QUEUE_WORDS; i++)
        CHECK(queue[i] == 0);
    CHECK(hashes[0] == 0 && hashes[BEP_QUEUE_HASHES - 1] == 0);
    CHECK(bep_queue_drop(queue, hashes, 2) == BEP_REFUSED_UNSOUND);
    CHECK(bep_queue_drop(queue, hashes, 5) == BEP_REFUSED_NO_SUCH_PEER);
    CHECK(bep_queue_open(queue, hashes, windows, BEP_STATED_ALL) == BEP_REFUSED_UNSOUND);
    CHECK(bep_queue_open(queue, hashes, windows, BEP_STATED_4) == BEP_REFUSED_UNSOUND);

    /* No window stated: after four requests the fifth gives 16, and with 16 stated it gives 17. */
    CHECK(bep_queue_open(queue, hashes, windows, BEP_STATED_NONE) == 0);
    CHECK(queue[BEP_QUEUE_WINDOW] == 4);
    CHECK(queue[3 * BEP_QUEUE_PEER_WORDS + BEP_QUEUE_WINDOW] == 4);
    CHECK(five_blocks(queue, hashes, 4) == BEP_REFUSED_WINDOW_FULL);
    CHECK(bep_queue_open(queue, hashes, windows, BEP_STATED_2 | BEP_STATED_3 | 16) == 0);
    CHECK(queue[BEP_QUEUE_WINDOW] == 4);
    CHECK(queue[BEP_QUEUE_PEER_WORDS + BEP_QUEUE_WINDOW] == 16);
    CHECK(queue[2 * BEP_QUEUE_PEER_WORDS + BEP_QUEUE_WINDOW] == 2);
    CHECK(five_blocks(queue, hashes, 2) == BEP_REFUSED_ALLOWANCE_FULL);
    return 0;
}

/* Four peers that have their own IDs and windows, and share the allowance. */
static int peers(void)
{
    const uint32_t windows[BEP_PEERS] = {1, 1, 1, 2};
    uint32_t queue[BEP_QUEUE_WORDS];
    uint8_t hashes[BEP_QUEUE_HASHES];
    uint64_t issued[BEP_ISSUED_WORDS];
    uint64_t totals[BEP_TOTALS_WORDS];

    CHECK(bep_queue_open(queue, hashes, windows, BEP_STATED_ALL) == 0);
    for (uint32_t peer = 1; peer <= BEP_PEERS; peer++) {
        CHECK(issue(queue, hashes, peer, BEP_MAX_BLOCK - peer, issued) == 0);
        CHECK(issued[BEP_ISSUED_ID] == 0);
        CHECK(hashes[(peer - 1) * BEP_QUEUE_PEER_HASHES] == 9);
    }
    CHECK(bep_queue_totals(queue, totals) == 0);
    CHECK(totals[BEP_TOTALS_COUNT] == 4);
    CHECK(totals[BEP_TOTALS_BYTES] == 4 * BEP_MAX_BLOCK - 10);
    for (uint32_t peer = 1; peer <= BEP_PEERS; peer++) {
        const uint64_t *own = totals + peer * BEP_TOTALS_EACH;

        CHECK(own[BEP_TOTALS_COUNT] == 1 && own[BEP_TOTALS_BYTES] == BEP_MAX_BLOCK - peer);
    }
    CHECK(issue(queue, hashes, 3, 1, issued) == BEP_REFUSED_WINDOW_FULL);
    CHECK(issue(queue, hashes, 4, 11, issued) == BEP_REFUSED_ALLOWANCE_FULL);
    CHECK(issue(queue, hashes, 0, 1, issued) == BEP_REFUSED_NO_SUCH_PEER);
    CHECK(issued[BEP_PLACE] == 0 && issued[BEP_ISSUED_ID] == 0);

    /* The room that one peer leaves another takes. */
    CHECK(bep_queue_drop(queue, hashes, 1) == 0);
    CHECK(queue[BEP_QUEUE_NEXT_ID] == 1 && queue[BEP_QUEUE_COUNT] == 0 && hashes[0] == 0);
    CHECK(queue[BEP_QUEUE_PEER_WORDS + BEP_QUEUE_COUNT] == 1);
    CHECK(issue(queue, hashes, 4, BEP_MAX_BLOCK, issued) == 0 && issued[BEP_ISSUED_ID] == 1);
    CHECK(bep_queue_totals(queue, totals) == 0);
    CHECK(totals[BEP_TOTALS_COUNT] == 4);
    CHECK(totals[BEP_TOTALS_EACH + BEP_TOTALS_COUNT] == 0);
    CHECK(totals[4 * BEP_TOTALS_EACH + BEP_TOTALS_BYTES] == 2 * BEP_MAX_BLOCK - 4);
    return 0;
}

/* Requests of peer 2, by its window of two. */
static int queues(void)
{
    const uint8_t data[5] = {1, 2, 3, 4, 5};
    const uint32_t windows[BEP_PEERS] = {0, 2, 0, 0};
    uint8_t hash[BEP_HASH_BYTES];
    uint32_t queue[BEP_QUEUE_WORDS];
    const uint32_t *list = queue + BEP_QUEUE_PEER_WORDS;
    const uint32_t *entries = list + BEP_QUEUE_ENTRIES;
    uint8_t hashes[BEP_QUEUE_HASHES];
    const uint8_t *kept = hashes + BEP_QUEUE_PEER_HASHES;
    uint8_t out[100];
    uint64_t length[1];
    uint64_t issued[BEP_ISSUED_WORDS];
    uint64_t answered[BEP_ANSWERED_WORDS];
    uint64_t totals[BEP_TOTALS_WORDS];

    CHECK(bep_sha256(data, sizeof data, hash) == 0);
    CHECK(bep_queue_open(queue, hashes, windows, BEP_STATED_2) == 0);
    CHECK(list[BEP_QUEUE_WINDOW] == 2);
    CHECK(bep_queue_issue(out, 67, queue, hashes, 2, data, 1, data, 1, 0, 5, hash, 32, issued)
          == BEP_REFUSED_NO_ROOM);
    CHECK(bep_queue_issue(out, 68, queue, hashes, 2, data, 1, data, 1, 0, 5, hash, 32, issued)
          == 0);
    CHECK(issued[BEP_ISSUED_WRITTEN] == 68 && issued[BEP_ISSUED_ID] == 0);
    CHECK(bep_queue_issue(out, 68, queue, hashes, 2, data, 1, data, 1, 5, 7, hash, 32, issued)
          == 0);
    CHECK(issued[BEP_ISSUED_WRITTEN] == 68 && issued[BEP_ISSUED_ID] == 1);
    CHECK(list[BEP_QUEUE_NEXT_ID] == 2 && list[BEP_QUEUE_COUNT] == 2);
    CHECK(entries[0] == 0 && entries[1] == 5 && entries[2] == 1 && entries[3] == 7);
    CHECK(entries[4] == 0);
    CHECK(memcmp(kept, hash, 32) == 0 && memcmp(kept + 32, hash, 32) == 0 && kept[64] == 0);
    CHECK(BEP_QUEUE_PEER_HASHES == BEP_MAX_WINDOW * sizeof hash);
    CHECK(bep_queue_issue(out, 68, queue, hashes, 2, data, 1, data, 1, 0, 5, hash, 32, issued)
          == BEP_REFUSED_WINDOW_FULL);
    CHECK(issued[BEP_PLACE] == 0 && issued[BEP_ISSUED_ID] == 0);

    CHECK(bep_write_response(out, 100, 0, data, 5, length) == 0 && length[BEP_WRITTEN] == 16);
    CHECK(bep_queue_answer(queue, hashes, 2, out, 15, answered) == BEP_REFUSED_INCOMPLETE);
    CHECK(answered[BEP_PLACE] == 4);
    CHECK(bep_queue_answer(queue, hashes, 5, out, 15, answered) == BEP_REFUSED_NO_SUCH_PEER);
    CHECK(answered[BEP_PLACE] == 0);
    CHECK(bep_queue_answer(queue, hashes, 1, out, 16, answered) == BEP_REFUSED_NOT_OLDEST);
    CHECK(bep_queue_answer(queue, hashes, 2, out, 16, answered) == 0);
    CHECK(answered[BEP_ANSWERED_OUTCOME] == BEP_OUTCOME_DATA);
    CHECK(answered[BEP_ANSWERED_ID] == 0 && answered[BEP_ANSWERED_LENGTH] == 5);
    CHECK(answered[BEP_ANSWERED_DATA_AT] == 8 && answered[BEP_ANSWERED_DATA_LENGTH] == 5);
    CHECK(bep_queue_answer(queue, hashes, 2, out, 16, answered) == BEP_REFUSED_NOT_OLDEST);
    CHECK(answered[BEP_PLACE] == 0);
    CHECK(memcmp(kept, hash, 32) == 0 && kept[32] == 0);
    CHECK(bep_queue_totals(queue, totals) == 0);
    CHECK(totals[BEP_TOTALS_COUNT] == 1 && totals[BEP_TOTALS_BYTES] == 7);

    CHECK(bep_write_response(out, 100, 1, data, 5, length) == 0);
    CHECK(bep_queue_answer(queue, hashes, 2, out, 16, answered) == 0);
    CHECK(answered[BEP_ANSWERED_OUTCOME] == BEP_OUTCOME_WRONG_SIZE);
    CHECK(answered[BEP_ANSWERED_ID] == 1 && answered[BEP_ANSWERED_LENGTH] == 7);
    CHECK(issue(queue, hashes, 2, 5, issued) == 0);
    CHECK(bep_write_response(out, BEP_REPLY_BYTES, 2, NULL, 0, length) == 0);
    CHECK(bep_queue_answer(queue, hashes, 2, out, BEP_REPLY_BYTES, answered) == 0);
    CHECK(answered[BEP_ANSWERED_OUTCOME] == BEP_OUTCOME_NOT_AVAILABLE);

    /* Five bytes, but not those that are asked for: the room is free again. */
    CHECK(issue(queue, hashes, 2, 5, issued) == 0);
    CHECK(bep_write_response(out, 100, 3, data, 5, length) == 0);
    CHECK(bep_queue_answer(queue, hashes, 2, out, 16, answered) == 0);
    CHECK(answered[BEP_ANSWERED_OUTCOME] == BEP_OUTCOME_WRONG_CONTENT);
    CHECK(answered[BEP_ANSWERED_ID] == 3 && answered[BEP_ANSWERED_LENGTH] == 5);
    CHECK(answered[BEP_ANSWERED_DATA_AT] == 0 && answered[BEP_ANSWERED_DATA_LENGTH] == 0);
    CHECK(list[BEP_QUEUE_COUNT] == 0 && kept[0] == 0);
    CHECK(issue(queue, hashes, 2, 5, issued) == 0);
    CHECK(bep_queue_drop(queue, hashes, 2) == 0);
    CHECK(list[BEP_QUEUE_NEXT_ID] == 5 && list[BEP_QUEUE_COUNT] == 0);
    CHECK(kept[0] == 0 && kept[31] == 0);
    return 0;
}

/* NIST's example of 56 bytes, at once and in runs. */
static int hashes(void)
{
    static const char message[] = "abcdbcdecdefdefgefghfghighijhijkijkljklmklmnlmnomnopnopq";
    const uint8_t *bytes = (const uint8_t *)message;
    const uint32_t expected[8] = {
        0x248d6a61, 0xd20638b8, 0xe5c02693, 0x0c3e6039,
        0xa33ce459, 0x64ff2167, 0xf6ecedd4, 0x19db06c1
    };
    uint8_t digest[BEP_HASH_BYTES];
    uint8_t other[BEP_HASH_BYTES];
    uint32_t words[BEP_SHA256_WORDS];
    uint8_t tail[BEP_SHA256_TAIL_BYTES];
    const uint32_t *count = words + BEP_SHA256_COUNT;

    CHECK(bep_sha256(bytes, 56, digest) == 0);
    for (size_t i = 0; i < 8; i++)
        CHECK(bep_word(digest + 4 * i) == expected[i]);

    memset(words, 0xA7, sizeof words);
    memset(tail, 0xA7, sizeof tail);
    CHECK(bep_sha256_begin(words, tail) == 0);
    CHECK(words[BEP_SHA256_VALUE] == 0x6a09e667 && words[BEP_SHA256_VALUE + 7] == 0x5be0cd19);
    CHECK(count[0] == 0 && count[1] == 0 && count + 2 == words + BEP_SHA256_WORDS);
    CHECK(bep_sha256_update(words, tail, bytes, 20) == 0);
    CHECK(bep_sha256_finish(words, tail, other) == 0 && memcmp(other, digest, 32) != 0);
    CHECK(bep_sha256_update(words, tail, bytes + 20, 36) == 0);
    CHECK(count[0] == 0 && count[1] == 56);
    CHECK(memcmp(tail, bytes, 56) == 0 && tail[56] == 0 && tail[63] == 0);
    CHECK(bep_sha256_finish(words, tail, other) == 0 && memcmp(other, digest, 32) == 0);
    CHECK(bep_sha256_update(words, tail, bytes, 8) == 0);
    CHECK(count[1] == 64 && tail[0] == 0 && words[BEP_SHA256_VALUE] != 0x6a09e667);
    return 0;
}

static int requests(void)
{
    const uint8_t empty[4] = {0};
    const uint8_t repository[1] = {'r'};
    uint8_t list[BEP_LIST_ENTRY_BYTES];
    uint8_t many[2 * BEP_LIST_ENTRY_BYTES];
    struct bep_wanted wanted;
    uint8_t request[100];
    uint8_t out[BEP_REPLY_BYTES];
    uint64_t length[1];
    uint64_t found[BEP_FIND_WORDS];
    uint64_t served[BEP_SERVE_WORDS];
    uint64_t details[BEP_DETAILS_WORDS];
    uint64_t why[BEP_WHY_WORDS];

    /* A peer has a file of one block that we don't have. */
    CHECK(bep_request_list(list, 23, empty, 4, empty, 4, files, 72, empty, 4, empty, 4, length)
          == BEP_REFUSED_NO_ROOM);
    CHECK(bep_request_list(list, 24, empty, 4, empty, 4, files, 72, empty, 4, empty, 4, length)
          == 0);
    CHECK(length[BEP_WRITTEN] == BEP_LIST_ENTRY_BYTES);
    wanted = bep_list_entry(list, 0);
    CHECK(wanted.file == 0 && wanted.block == 0 && wanted.offset == 0);
    CHECK(wanted.length == 5 && wanted.peer == 2);
    CHECK(bep_request_list(list, 24, empty, 3, empty, 4, files, 72, empty, 4, empty, 4, length)
          == BEP_REFUSED_BAD_TABLE);
    CHECK(bep_request_list(list, 24, files, 72, empty, 4, files, 72, empty, 4, empty, 4, length)
          == 0);
    CHECK(length[BEP_WRITTEN] == 0);

    /* Every byte of an entry has its place. */
    for (uint8_t i = 0; i < sizeof many; i++)
        many[i] = i;
    wanted = bep_list_entry(many, 1);
    CHECK(wanted.file == 0x18191A1B && wanted.block == 0x1C1D1E1F);
    CHECK(wanted.offset == 0x2021222324252627);
    CHECK(wanted.length == 0x28292A2B && wanted.peer == 0x2C2D2E2F);

    /* "a", "b" and "n" over two peers: the second block of "b" is 40 bytes after the first. */
    for (uint32_t block = 0; block < 2; block++) {
        CHECK(bep_details(empty, 4, files, 72, empty, 4, two_files, 140, empty, 4, 1, block,
                          details) == 0);
        CHECK(details[BEP_DETAILS_TABLE] == 3);
        CHECK(details[BEP_DETAILS_NAME_AT] == 36 && details[BEP_DETAILS_NAME_LENGTH] == 1);
        CHECK(details[BEP_DETAILS_OFFSET] == block && details[BEP_DETAILS_LENGTH] == block + 1);
        CHECK(details[BEP_DETAILS_HASH_AT] == 68 + block * BEP_BLOCK_BYTES);
    }
    CHECK(bep_details(files, 72, files, 72, empty, 4, two_files, 140, empty, 4, 2, 0, details)
          == 0);
    CHECK(details[BEP_DETAILS_TABLE] == 0 && details[BEP_DETAILS_HASH_AT] == 40);
    CHECK(bep_details(files, 72, files, 72, empty, 4, two_files, 140, empty, 4, 2, 1, details)
          == 1);
    CHECK(details[BEP_DETAILS_TABLE] == 0 && details[BEP_DETAILS_HASH_AT] == 0);
    CHECK(bep_details(files, 72, files, 72, empty, 4, two_files, 140, empty, 4, 3, 0, details)
          == 1);
    CHECK(bep_details(files, 72, files, 72, empty, 4, two_files, 139, empty, 4, 2, 0, details)
          == BEP_REFUSED_BAD_TABLE);

    CHECK(bep_why(empty, 4, empty, 4, files, 72, empty, 4, empty, 4, files + 8, 1, 0, why) == 0);
    CHECK(why[BEP_WHY_REASON] == BEP_REASON_WANTED && why[BEP_WHY_PEER] == 2);
    CHECK(why[2] == 0);
    CHECK(bep_why(two_files, 140, empty, 4, two_files, 140, empty, 4, empty, 4, two_files + 36, 1,
                  1, why) == 0);
    CHECK(why[BEP_WHY_REASON] == BEP_REASON_HELD);
    CHECK(why[BEP_WHY_RECORD] == 1 && why[BEP_WHY_BLOCK] == 1);
    CHECK(bep_why(empty, 4, empty, 4, files, 72, empty, 4, empty, 4, files + 8, 1, 1, why) == 0);
    CHECK(why[BEP_WHY_REASON] == BEP_REASON_NO_SUCH_BLOCK && why[1] == 0 && why[2] == 0);
    CHECK(bep_why(empty, 4, empty, 4, files, 72, empty, 4, empty, 4, files + 8, 2, 0, why) == 0);
    CHECK(why[BEP_WHY_REASON] == BEP_REASON_NO_SUCH_NAME);
    CHECK(bep_why(empty, 4, empty, 4, files, 72, empty, 4, empty, 3, files + 8, 1, 0, why)
          == BEP_REFUSED_BAD_TABLE);
    CHECK(why[BEP_WHY_REASON] == 0);

    uint32_t size = bep_word(files + 32);
    CHECK(bep_find(files, 72, size, files + 40, 32, found) == 0);
    CHECK(found[BEP_FIND_FOUND] == 1);
    CHECK(found[BEP_FIND_RECORD] == 0 && found[BEP_FIND_BLOCK] == 0);
    CHECK(bep_find(two_files, 140, 1, two_files + 68, 32, found) == 0);
    CHECK(found[BEP_FIND_RECORD] == 1 && found[BEP_FIND_BLOCK] == 0);
    CHECK(bep_find(two_files, 140, 2, two_files + 68, 32, found) == 0);
    CHECK(found[BEP_FIND_RECORD] == 1 && found[BEP_FIND_BLOCK] == 1);
    CHECK(bep_find(files, 72, size + 1, files + 40, 32, found) == 0);
    CHECK(found[BEP_FIND_FOUND] == 0);
    CHECK(bep_find(files, 71, size, files + 40, 32, found) == BEP_REFUSED_BAD_TABLE);
    CHECK(found[BEP_PLACE] == 0);

    CHECK(bep_write_request(request, 100, 6, repository, 1, files + 8, 1, 0, size, files + 40, 32,
                            length) == 0);
    CHECK(bep_serve(out, 0, files, 72, repository, 1, request, length[0], served) == 0);
    CHECK(served[BEP_SERVE_SERVED] == 1 && request[served[BEP_SERVE_NAME_AT]] == files[8]);
    CHECK(served[BEP_SERVE_NAME_LENGTH] == 1);
    CHECK(served[BEP_SERVE_OFFSET] == 0 && served[BEP_SERVE_LENGTH] == size);
    CHECK(bep_serve(out, 7, empty, 4, repository, 1, request, length[0], served)
          == BEP_REFUSED_NO_ROOM);
    CHECK(bep_serve(out, 8, empty, 4, repository, 1, request, 6, served)
          == BEP_REFUSED_INCOMPLETE);
    CHECK(served[BEP_PLACE] == 4 && served[1] == 0);
    CHECK(bep_serve(out, 8, empty, 4, repository, 1, request, length[0], served) == 0);
    CHECK(served[BEP_SERVE_SERVED] == 0 && served[BEP_SERVE_REPLY_LENGTH] == BEP_REPLY_BYTES);
    CHECK(memcmp(out, "\0\6\3\0\0\0\0\0", 8) == 0);
    return 0;
}

enum {
    MOST_WORDS = 12,
    UNTOUCHED = 0xA7
};

static uint64_t *untouched(uint64_t answer[MOST_WORDS])
{
    for (int i = 0; i < MOST_WORDS; i++)
        answer[i] = UNTOUCHED;
    return answer;
}

/* Whether a call that was refused filled so many words and no more. */
static int filled(const uint64_t answer[MOST_WORDS], int count)
{
    for (int i = 0; i < MOST_WORDS; i++)
        if ((answer[i] == UNTOUCHED) != (i >= count))
            return 0;
    return 1;
}

/* The entries of peer 4 are the last of a queue: nothing after them changes. */
static int last_entries(void)
{
    const uint32_t windows[BEP_PEERS] = {0, 0, 0, BEP_MAX_WINDOW};
    const uint8_t none[BEP_REPLY_BYTES] = {0, 0, BEP_RESPONSE, 0, 0, 0, 0, 0};
    uint32_t queue[BEP_QUEUE_WORDS + 1];
    uint8_t hashes[BEP_QUEUE_HASHES + 1];
    uint64_t answer[MOST_WORDS];

    queue[BEP_QUEUE_WORDS] = UNTOUCHED;
    hashes[BEP_QUEUE_HASHES] = UNTOUCHED;
    CHECK(bep_queue_open(queue, hashes, windows, BEP_STATED_4) == 0);
    for (uint32_t i = 0; i < BEP_MAX_WINDOW; i++)
        CHECK(issue(queue, hashes, 4, i + 1, answer) == 0 && answer[BEP_ISSUED_ID] == i);
    CHECK(queue[BEP_QUEUE_WORDS - 1] == 16 && hashes[BEP_QUEUE_HASHES - BEP_HASH_BYTES] == 9);
    CHECK(bep_queue_answer(queue, hashes, 4, none, sizeof none, answer) == 0);
    CHECK(queue[BEP_QUEUE_WORDS - 1] == 0 && queue[BEP_QUEUE_WORDS - 3] == 16);
    CHECK(hashes[BEP_QUEUE_HASHES - BEP_HASH_BYTES] == 0);
    CHECK(hashes[BEP_QUEUE_HASHES - 2 * BEP_HASH_BYTES] == 9);
    CHECK(bep_queue_drop(queue, hashes, 4) == 0);
    CHECK(queue[BEP_QUEUE_WORDS - 3] == 0);
    CHECK(hashes[BEP_QUEUE_HASHES - 2 * BEP_HASH_BYTES] == 0);
    CHECK(queue[BEP_QUEUE_WORDS] == UNTOUCHED && hashes[BEP_QUEUE_HASHES] == UNTOUCHED);
    return 0;
}

/* Answers and queues have the sizes that the header gives. */
static int words(void)
{
    const uint32_t windows[BEP_PEERS] = {0};
    uint64_t answer[MOST_WORDS];
    uint32_t queue[BEP_QUEUE_WORDS + 1];
    uint8_t hashes[BEP_QUEUE_HASHES + 1];
    uint32_t feed[BEP_FEED_WORDS + 1];
    uint32_t again[BEP_FEED_WORDS];
    uint8_t out[1];

    CHECK(bep_read(NULL, 0, untouched(answer)) != 0 && filled(answer, BEP_READ_WORDS));
    CHECK(bep_write_ping(NULL, 0, 0, untouched(answer)) != 0 && filled(answer, 1));
    CHECK(bep_read_old(NULL, 0, untouched(answer)) != 0 && filled(answer, BEP_READ_WORDS));
    CHECK(bep_upgrade(out, 1, NULL, 0, NULL, 0, untouched(answer)) != 0 && filled(answer, 1));
    CHECK(bep_downgrade(out, 1, NULL, 0, untouched(answer)) != 0 && filled(answer, 1));
    CHECK(bep_file(NULL, 0, 0, untouched(answer)) != 0 && filled(answer, BEP_FILE_WORDS));
    CHECK(bep_step(NULL, 0, 0, untouched(answer)) != 0 && filled(answer, BEP_FILE_WORDS));
    CHECK(bep_option(NULL, 0, 0, untouched(answer)) != 0 && filled(answer, BEP_OPTION_WORDS));
    CHECK(bep_compare(NULL, 0, 0, NULL, 0, 0, untouched(answer)) != 0 && filled(answer, 1));
    CHECK(bep_merge(out, 1, NULL, 0, NULL, 0, untouched(answer)) != 0 && filled(answer, 1));
    CHECK(bep_accept(out, 1, NULL, 0, NULL, 0, NULL, 0, untouched(answer)) != 0);
    CHECK(filled(answer, 1));
    CHECK(bep_find(NULL, 0, 0, NULL, 0, untouched(answer)) != 0);
    CHECK(filled(answer, BEP_FIND_WORDS));
    CHECK(bep_details(NULL, 0, NULL, 0, NULL, 0, NULL, 0, NULL, 0, 0, 0, untouched(answer)) != 0);
    CHECK(filled(answer, BEP_DETAILS_WORDS));
    CHECK(bep_why(NULL, 0, NULL, 0, NULL, 0, NULL, 0, NULL, 0, NULL, 0, 0, untouched(answer)) != 0);
    CHECK(filled(answer, BEP_WHY_WORDS));
    CHECK(bep_serve(out, 1, NULL, 0, NULL, 0, NULL, 0, untouched(answer)) != 0);
    CHECK(filled(answer, BEP_SERVE_WORDS));

    for (int i = 0; i <= BEP_QUEUE_WORDS; i++)
        queue[i] = UNTOUCHED;
    memset(hashes, 0xA7, sizeof hashes);
    CHECK(bep_queue_open(queue, hashes, windows, BEP_STATED_NONE) == 0);
    CHECK(queue[BEP_QUEUE_WORDS - 1] == 0 && queue[BEP_QUEUE_WORDS] == UNTOUCHED);
    CHECK(hashes[BEP_QUEUE_HASHES - 1] == 0 && hashes[BEP_QUEUE_HASHES] == 0xA7);
    CHECK(bep_queue_issue(out, 1, queue, hashes, 1, NULL, 0, NULL, 0, 0, 0, NULL, 0,
                          untouched(answer)) != 0);
    CHECK(filled(answer, BEP_ISSUED_WORDS));
    CHECK(bep_queue_answer(queue, hashes, 1, NULL, 0, untouched(answer)) != 0);
    CHECK(filled(answer, BEP_ANSWERED_WORDS));
    CHECK(bep_queue_totals(queue, untouched(answer)) == 0 && filled(answer, BEP_TOTALS_WORDS));

    for (int i = 0; i <= BEP_FEED_WORDS; i++)
        feed[i] = UNTOUCHED;
    memset(again, 0, sizeof again);
    CHECK(bep_feed_open(feed) == 0 && bep_feed_open(again) == 0);
    CHECK(memcmp(feed, again, sizeof again) == 0 && feed[BEP_FEED_WORDS] == UNTOUCHED);
    CHECK(bep_feed_header(feed, untouched(answer)) != 0 && filled(answer, BEP_HEADER_WORDS));
    CHECK(bep_feed(feed, NULL, 0, untouched(answer)) != 0 && filled(answer, BEP_FED_WORDS));
    CHECK(feed[BEP_FEED_WORDS] == UNTOUCHED);
    return 0;
}

int main(void)
{
    const uint8_t repository[2] = {'r', 's'};
    const uint8_t name[3] = {'a', 'b', 'c'};
    const uint8_t above[4] = {'.', '.', '/', 'a'};
    const uint8_t hash[33] = {9};
    uint8_t out[100];
    uint64_t length[1];
    uint64_t answer[BEP_READ_WORDS];
    uint64_t file[BEP_FILE_WORDS];
    uint64_t option[BEP_OPTION_WORDS];

    CHECK(bep_write_index(out, 100, 7, repository, 2, files, 72, length) == 0);
    CHECK(length[0] == 84);
    CHECK(memcmp(out, "\0\7\1\0\0\0\0\2rs\0\0", 12) == 0);
    CHECK(memcmp(out + 12, files, 72) == 0);
    CHECK(bep_read(out, 84, answer) == 0);
    CHECK(answer[BEP_READ_USED] == 84);
    CHECK(answer[BEP_READ_TYPE] == BEP_INDEX && answer[BEP_READ_ID] == 7);
    CHECK(answer[BEP_INDEX_REPOSITORY_AT] == 8 && answer[BEP_INDEX_REPOSITORY_LENGTH] == 2);
    CHECK(answer[BEP_INDEX_FILES_AT] == 12 && answer[BEP_INDEX_FILES_LENGTH] == 72);
    CHECK(answer[BEP_INDEX_FILES_COUNT] == 1);
    CHECK(answer[8] == 0 && answer[9] == 0 && answer[10] == 0);

    CHECK(bep_file(files, 72, BEP_FIRST, file) == 0);
    CHECK(file[BEP_FILE_NEXT] == 72);
    CHECK(file[BEP_FILE_NAME_AT] == 8 && file[BEP_FILE_NAME_LENGTH] == 1);
    CHECK(file[BEP_FILE_FLAGS] == 0644 && file[BEP_FILE_MODIFIED] == UINT64_MAX - 1);
    CHECK(file[BEP_FILE_VERSION] == 3);
    CHECK(file[BEP_FILE_BLOCKS_COUNT] == 1 && file[BEP_FILE_BLOCKS_AT] == 32);
    CHECK(bep_file(files, 72, 72, file) == BEP_REFUSED_INCOMPLETE);
    CHECK(file[BEP_PLACE] == 72 && file[BEP_FILE_BLOCKS_AT] == 0);
    CHECK(bep_file(files, 71, 4, file) == BEP_REFUSED_INCOMPLETE && file[BEP_PLACE] == 36);
    CHECK(bep_file(files, 31, 4, file) == BEP_REFUSED_INCOMPLETE && file[BEP_PLACE] == 28);

    CHECK(bep_write_index_update(out, 83, 7, repository, 2, files, 72, length)
          == BEP_REFUSED_NO_ROOM);
    CHECK(length[BEP_PLACE] == 0);
    CHECK(bep_write_index_update(out, 84, 7, repository, 2, files, 71, length)
          == BEP_REFUSED_INCOMPLETE);
    CHECK(length[BEP_PLACE] == 12 + 36);
    CHECK(bep_write_index_update(out, 84, 7, repository, 2, files, 72, length) == 0);
    CHECK(length[0] == 84 && out[2] == BEP_INDEX_UPDATE);

    CHECK(bep_write_request(out, 100, 4095, repository, 2, above, 4, 1ULL << 33, 77, hash, 33,
                            length) == BEP_REFUSED_UNSAFE_NAME);
    CHECK(length[BEP_PLACE] == 12);
    CHECK(bep_write_request(out, 100, 4095, repository, 2, name, 3, 1ULL << 33, 77, hash, 33,
                            length) == BEP_REFUSED_HASH_LENGTH);
    CHECK(length[BEP_PLACE] == 32);
    CHECK(bep_write_request(out, 100, 4095, repository, 2, name, 3, 1ULL << 33, 77, hash, 32,
                            length) == 0);
    CHECK(length[0] == 68);
    CHECK(bep_read(out, 68, answer) == 0);
    CHECK(answer[BEP_READ_USED] == 68);
    CHECK(answer[BEP_READ_TYPE] == BEP_REQUEST && answer[BEP_READ_ID] == 4095);
    CHECK(answer[BEP_REQUEST_REPOSITORY_AT] == 8 && answer[BEP_REQUEST_REPOSITORY_LENGTH] == 2);
    CHECK(answer[BEP_REQUEST_NAME_AT] == 16 && answer[BEP_REQUEST_NAME_LENGTH] == 3);
    CHECK(answer[BEP_REQUEST_OFFSET] == 1ULL << 33 && answer[BEP_REQUEST_LENGTH] == 77);
    CHECK(answer[BEP_REQUEST_HASH_AT] == 36);
    CHECK(answer[BEP_REQUEST_HASH_LENGTH] == BEP_HASH_BYTES);

    CHECK(bep_write_response(out, 100, 2, name, 3, length) == 0);
    CHECK(length[0] == 12 && memcmp(out, "\0\2\3\0\0\0\0\3abc\0", 12) == 0);
    CHECK(bep_read(out, 12, answer) == 0 && answer[BEP_READ_TYPE] == BEP_RESPONSE);
    CHECK(answer[BEP_RESPONSE_DATA_AT] == 8 && answer[BEP_RESPONSE_DATA_LENGTH] == 3);
    CHECK(bep_write_ping(out, 100, 3, length) == 0);
    CHECK(length[0] == 4 && memcmp(out, "\0\3\4\0", 4) == 0);
    CHECK(bep_read(out, 4, answer) == 0 && answer[BEP_READ_TYPE] == BEP_PING);
    CHECK(bep_write_pong(out, 100, 4096, length) == BEP_REFUSED_ABOVE_LIMIT);
    CHECK(length[BEP_PLACE] == 0);
    CHECK(bep_write_pong(out, 100, 4, length) == 0);
    CHECK(length[0] == 4 && memcmp(out, "\0\4\5\0", 4) == 0);
    CHECK(bep_read(out, 4, answer) == 0 && answer[BEP_READ_TYPE] == BEP_PONG);

    CHECK(bep_write_options(out, 100, 5, options, 20, length) == 0);
    CHECK(length[0] == 24 && memcmp(out + 4, options, 20) == 0);
    CHECK(bep_read(out, 24, answer) == 0 && answer[BEP_READ_TYPE] == BEP_OPTIONS);
    CHECK(answer[BEP_OPTIONS_ARRAY_AT] == 4 && answer[BEP_OPTIONS_ARRAY_LENGTH] == 20);
    CHECK(answer[BEP_OPTIONS_ARRAY_COUNT] == 1);
    CHECK(bep_option(options, 20, BEP_FIRST, option) == 0);
    CHECK(option[BEP_OPTION_NEXT] == 20);
    CHECK(option[BEP_OPTION_KEY_AT] == 8 && option[BEP_OPTION_KEY_LENGTH] == 1);
    CHECK(option[BEP_OPTION_VALUE_AT] == 16 && option[BEP_OPTION_VALUE_LENGTH] == 2);
    CHECK(bep_option(options, 20, 20, option) == BEP_REFUSED_INCOMPLETE);
    CHECK(option[BEP_PLACE] == 20);
    CHECK(bep_option(options, 19, 4, option) == BEP_REFUSED_INCOMPLETE);
    CHECK(option[BEP_PLACE] == 12);
    return editions() || feeds() || tables() || openings() || peers() || queues() || hashes()
           || requests() || last_entries() || words();
}
