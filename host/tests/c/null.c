/*
 * NULL stands for no bytes. Every function is called with every choice of its slices empty, once
 * with NULL for them and once with an address; what comes back must be the same. Whatever is read
 * or written through NULL ends the program.
 */
#include <stdio.h>
#include <string.h>

#include "fordtrumpet.h"

enum {
    MOST_SLICES = 6,
    ROOM = 200
};

struct slice {
    const uint8_t *at;
    size_t len;
};

/* All that a call can hand back. */
struct result {
    uint32_t number;
    uint64_t answer[BEP_READ_WORDS];
    uint32_t queue[BEP_QUEUE_WORDS];
    uint8_t hashes[BEP_QUEUE_HASHES];
    uint32_t feed[BEP_FEED_WORDS];
    uint32_t words[BEP_SHA256_WORDS];
    uint8_t tail[BEP_SHA256_TAIL_BYTES];
    uint8_t digest[BEP_HASH_BYTES];
    uint8_t out[ROOM];
};

/* A FileInfo array, and so a table, with one file "n": one block of 5 bytes. */
static const uint8_t files[72] = {
    0, 0, 0, 1, 0, 0, 0, 1, 'n', 0, 0, 0, 0, 0, 1, 0xA4,
    0, 0, 0, 0, 0, 0, 0, 9, 0, 0, 0, 3, 0, 0, 0, 1,
    0, 0, 0, 5, 0, 0, 0, 32, 1, 2, 3, 4, 5, 6, 7, 8
};
static const uint8_t *const hash = files + 40;
static const uint8_t empty[4] = {0};
static const uint8_t repository[2] = {'r', 's'};
static const uint8_t options[20] = {
    0, 0, 0, 1, 0, 0, 0, 1, 'k', 0, 0, 0, 0, 0, 0, 2, 'v', 'w', 0, 0
};

/* A byte that no call may change, for slices that are empty and not NULL. */
static uint8_t nowhere;

static size_t place;
static uint32_t id;
static uint32_t peer;
static uint32_t queue[BEP_QUEUE_WORDS];
static uint8_t hashes[BEP_QUEUE_HASHES];
static uint32_t opened[BEP_FEED_WORDS];

#define IN(i) s[i].at, s[i].len

/* The buffer is lent where its slice isn't empty; its bytes are then those of the result. */
#define OUT (s[0].len != 0 ? r->out : (uint8_t *)s[0].at), s[0].len

typedef uint32_t call(const struct slice *s, struct result *r);

static uint32_t read(const struct slice *s, struct result *r)
{
    return bep_read(IN(0), r->answer);
}

static uint32_t read_old(const struct slice *s, struct result *r)
{
    return bep_read_old(IN(0), r->answer);
}

/* Two runs, the second of which may come after the end. */
static uint32_t feed(const struct slice *s, struct result *r)
{
    uint32_t number = bep_feed(r->feed, IN(0), r->answer);

    return number == BEP_REFUSED_UNSOUND ? number : bep_feed(r->feed, IN(1), r->answer);
}

static uint32_t file(const struct slice *s, struct result *r)
{
    return bep_file(IN(0), place, r->answer);
}

static uint32_t option(const struct slice *s, struct result *r)
{
    return bep_option(IN(0), place, r->answer);
}

static uint32_t check_table(const struct slice *s, struct result *r)
{
    (void)r;
    return bep_check_table(IN(0));
}

static uint32_t compare(const struct slice *s, struct result *r)
{
    return bep_compare(IN(0), place, IN(1), place, r->answer);
}

static uint32_t step(const struct slice *s, struct result *r)
{
    return bep_step(IN(0), place, r->answer);
}

static uint32_t find(const struct slice *s, struct result *r)
{
    return bep_find(IN(0), 5, IN(1), r->answer);
}

static uint32_t details(const struct slice *s, struct result *r)
{
    return bep_details(IN(0), IN(1), IN(2), IN(3), IN(4), 0, 0, r->answer);
}

static uint32_t why(const struct slice *s, struct result *r)
{
    return bep_why(IN(0), IN(1), IN(2), IN(3), IN(4), IN(5), 0, r->answer);
}

static uint32_t queue_answer(const struct slice *s, struct result *r)
{
    return bep_queue_answer(r->queue, r->hashes, peer, IN(0), r->answer);
}

static uint32_t write_index(const struct slice *s, struct result *r)
{
    return bep_write_index(OUT, id, IN(1), IN(2), r->answer);
}

static uint32_t write_index_update(const struct slice *s, struct result *r)
{
    return bep_write_index_update(OUT, id, IN(1), IN(2), r->answer);
}

static uint32_t write_request(const struct slice *s, struct result *r)
{
    return bep_write_request(OUT, id, IN(1), IN(2), 0, 5, IN(3), r->answer);
}

static uint32_t write_response(const struct slice *s, struct result *r)
{
    return bep_write_response(OUT, id, IN(1), r->answer);
}

static uint32_t write_ping(const struct slice *s, struct result *r)
{
    return bep_write_ping(OUT, id, r->answer);
}

static uint32_t write_pong(const struct slice *s, struct result *r)
{
    return bep_write_pong(OUT, id, r->answer);
}

static uint32_t write_options(const struct slice *s, struct result *r)
{
    return bep_write_options(OUT, id, IN(1), r->answer);
}

static uint32_t write_old_index(const struct slice *s, struct result *r)
{
    return bep_write_old_index(OUT, id, IN(1), r->answer);
}

static uint32_t write_old_index_update(const struct slice *s, struct result *r)
{
    return bep_write_old_index_update(OUT, id, IN(1), r->answer);
}

static uint32_t write_old_request(const struct slice *s, struct result *r)
{
    return bep_write_old_request(OUT, id, IN(1), 0, 5, IN(2), r->answer);
}

static uint32_t upgrade(const struct slice *s, struct result *r)
{
    return bep_upgrade(OUT, IN(1), IN(2), r->answer);
}

static uint32_t downgrade(const struct slice *s, struct result *r)
{
    return bep_downgrade(OUT, IN(1), r->answer);
}

static uint32_t merge(const struct slice *s, struct result *r)
{
    return bep_merge(OUT, IN(1), IN(2), r->answer);
}

static uint32_t accept(const struct slice *s, struct result *r)
{
    return bep_accept(OUT, IN(1), IN(2), IN(3), r->answer);
}

static uint32_t request_list(const struct slice *s, struct result *r)
{
    return bep_request_list(OUT, IN(1), IN(2), IN(3), IN(4), IN(5), r->answer);
}

static uint32_t serve(const struct slice *s, struct result *r)
{
    return bep_serve(OUT, IN(1), IN(2), IN(3), r->answer);
}

static uint32_t queue_issue(const struct slice *s, struct result *r)
{
    return bep_queue_issue(OUT, r->queue, r->hashes, peer, IN(1), IN(2), 0, 5, IN(3), r->answer);
}

static uint32_t sha256(const struct slice *s, struct result *r)
{
    return bep_sha256(IN(0), r->digest);
}

/* Two runs. */
static uint32_t sha256_runs(const struct slice *s, struct result *r)
{
    return bep_sha256_begin(r->words, r->tail) | bep_sha256_update(r->words, r->tail, IN(0))
           | bep_sha256_update(r->words, r->tail, IN(1))
           | bep_sha256_finish(r->words, r->tail, r->digest);
}

static int different;
static int accepted_with_null;

/* Calls with every choice of empty slices, and with the whole ones given. */
static void try(const char *name, call *f, int count, const struct slice *whole)
{
    for (unsigned choice = 0; choice < 1u << count; choice++) {
        struct result results[2];

        for (int null = 0; null < 2; null++) {
            struct slice s[MOST_SLICES];
            struct result *r = &results[null];

            memset(r, 0xA7, sizeof *r);
            memcpy(r->queue, queue, sizeof queue);
            memcpy(r->hashes, hashes, sizeof hashes);
            memcpy(r->feed, opened, sizeof opened);
            for (int i = 0; i < count; i++) {
                s[i] = whole[i];
                if (choice >> i & 1 || s[i].len == 0) {
                    s[i].at = null ? NULL : &nowhere;
                    s[i].len = 0;
                }
            }
            r->number = f(s, r);
        }
        if (memcmp(&results[0], &results[1], sizeof results[0]) != 0 || nowhere != 0) {
            printf("%s: NULL makes a difference, choice %u\n", name, choice);
            different = 1;
        }
        if (choice != 0 && results[1].number == BEP_ACCEPTED)
            accepted_with_null++;
    }
}

#define TRY(f, ...)                                                                 \
    do {                                                                            \
        const struct slice whole[] = {__VA_ARGS__};                                 \
        try(#f, f, (int)(sizeof whole / sizeof whole[0]), whole);                   \
    } while (0)

#define LENT {empty, ROOM}          /* only its length counts: OUT has the address */
#define FILES {files, sizeof files}
#define EMPTY {empty, sizeof empty}
#define REPOSITORY {repository, sizeof repository}
#define NAME {files + 8, 1}
#define HASH {hash, 32}

static void try_all(void)
{
    static const size_t places[] = {0, 4, 72, SIZE_MAX - 3, SIZE_MAX};
    static uint8_t messages[8][ROOM];
    uint64_t lengths[8][1];
    uint32_t refused = 0;

    /*
     * Of no Repository, so that an empty one is the right one; two of another; and two of the old
     * edition.
     */
    refused |= bep_write_index(messages[0], ROOM, 1, &nowhere, 0, files, 72, lengths[0]);
    refused |= bep_write_index_update(messages[1], ROOM, 1, &nowhere, 0, files, 72, lengths[1]);
    refused |= bep_write_request(messages[2], ROOM, 1, &nowhere, 0, files + 8, 1, 0, 5, hash, 32,
                                 lengths[2]);
    refused |= bep_write_response(messages[3], ROOM, 0, files, 5, lengths[3]);
    refused |= bep_write_index(messages[4], ROOM, 1, repository, 2, files, 72, lengths[4]);
    refused |= bep_write_request(messages[5], ROOM, 1, repository, 2, files + 8, 1, 0, 5, hash, 32,
                                 lengths[5]);
    refused |= bep_write_old_index(messages[6], ROOM, 1, files, 72, lengths[6]);
    refused |= bep_write_old_request(messages[7], ROOM, 1, files + 8, 1, 0, 5, hash, 32,
                                     lengths[7]);
    if (refused != BEP_ACCEPTED) {
        printf("the messages are refused\n");
        different = 1;
    }

    for (size_t i = 0; i < sizeof places / sizeof places[0]; i++) {
        place = places[i];
        TRY(file, FILES);
        TRY(option, {options, sizeof options});
        TRY(step, FILES);
        TRY(step, EMPTY);
        TRY(compare, FILES, FILES);
    }
    TRY(sha256, FILES);
    TRY(sha256_runs, FILES, EMPTY);
    TRY(sha256_runs, EMPTY, FILES);
    TRY(check_table, FILES);
    TRY(find, FILES, HASH);
    TRY(find, EMPTY, HASH);
    TRY(merge, LENT, FILES, EMPTY);
    TRY(merge, LENT, EMPTY, EMPTY);
    TRY(request_list, LENT, EMPTY, FILES, EMPTY, FILES, EMPTY);
    TRY(request_list, LENT, FILES, FILES, EMPTY, EMPTY, EMPTY);
    TRY(request_list, LENT, EMPTY, EMPTY, EMPTY, EMPTY, EMPTY);
    TRY(details, EMPTY, FILES, EMPTY, FILES, EMPTY);
    TRY(details, EMPTY, EMPTY, EMPTY, EMPTY, EMPTY);
    TRY(why, EMPTY, FILES, EMPTY, FILES, EMPTY, NAME);
    TRY(why, FILES, FILES, EMPTY, EMPTY, EMPTY, NAME);
    for (size_t i = 0; i < 8; i++) {
        const struct slice message = {messages[i], (size_t)lengths[i][BEP_WRITTEN]};

        TRY(read, message);
        TRY(read_old, message);
        for (int old = 0; old < 2; old++) {
            if ((old ? bep_feed_open_old(opened) : bep_feed_open(opened)) != 0)
                different = 1;
            TRY(feed, message, message);
            TRY(feed, {message.at, 6}, {message.at + 6, message.len - 6});
        }
        memset(opened, 0xA7, sizeof opened);
        TRY(feed, message, message);
        TRY(upgrade, LENT, message, REPOSITORY);
        TRY(downgrade, LENT, message);
        TRY(accept, LENT, FILES, message, REPOSITORY);
        TRY(accept, LENT, EMPTY, message, REPOSITORY);
        TRY(serve, LENT, FILES, REPOSITORY, message);
        TRY(serve, LENT, EMPTY, REPOSITORY, message);
        for (peer = 3; peer <= 5; peer++)
            TRY(queue_answer, message);
    }
    for (id = 0; id <= 4096; id += 4096) {
        TRY(write_index, LENT, REPOSITORY, FILES);
        TRY(write_index, LENT, REPOSITORY, EMPTY);
        TRY(write_index_update, LENT, REPOSITORY, FILES);
        TRY(write_index_update, LENT, REPOSITORY, EMPTY);
        TRY(write_request, LENT, REPOSITORY, NAME, HASH);
        TRY(write_response, LENT, FILES);
        TRY(write_ping, LENT);
        TRY(write_pong, LENT);
        TRY(write_options, LENT, {options, sizeof options});
        TRY(write_options, LENT, EMPTY);
        TRY(write_old_index, LENT, FILES);
        TRY(write_old_index_update, LENT, FILES);
        TRY(write_old_request, LENT, NAME, HASH);
    }
    for (peer = 3; peer <= 5; peer++)
        TRY(queue_issue, LENT, REPOSITORY, NAME, HASH);
}

int main(void)
{
    uint32_t windows[BEP_PEERS] = {0};

    /* A queue where a peer's list is full, one with room, and one that isn't sound. */
    for (windows[2] = 1; windows[2] <= 2; windows[2]++) {
        uint8_t out[ROOM];
        uint8_t digest[BEP_HASH_BYTES];
        uint64_t issued[BEP_ISSUED_WORDS];

        /* What the Response among the messages brings. */
        if (bep_sha256(files, 5, digest) != 0
            || bep_queue_open(queue, hashes, windows, BEP_STATED_3) != 0
            || bep_queue_issue(out, ROOM, queue, hashes, 3, &nowhere, 0, files + 8, 1, 0, 5,
                               digest, 32, issued) != 0)
            return 1;
        try_all();
    }
    if (bep_queue_open(queue, hashes, windows, BEP_STATED_ALL) != BEP_REFUSED_UNSOUND)
        return 1;
    try_all();
    /* Refusals alone would show little. */
    return different || accepted_with_null == 0;
}
