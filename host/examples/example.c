/*
 * Takes the messages of a peer out of a buffer, merges the table that they bring with our own, and
 * prints what there is, which blocks are requested and what comes, and why one isn't.
 *
 *   cc example.c $(pkg-config --cflags --libs fordtrumpet) -o example
 *
 * It is C99 and C++.
 */
#include <fordtrumpet.h>
#include <inttypes.h>
#include <stdio.h>
#include <string.h>

/* Our table: "a", version 1, with no blocks. */
static const uint8_t ours[] = {
    0, 0, 0, 1,
    0, 0, 0, 1, 'a', 0, 0, 0, 0, 0, 1, 0xA4, 0, 0, 0, 0, 0, 0, 0, 9, 0, 0, 0, 1, 0, 0, 0, 0
};

/* What the peer has: "a", version 2, with one block, "hello", and "b", which is deleted. */
static const uint8_t theirs[] = {
    0, 0, 0, 2,
    0, 0, 0, 1, 'a', 0, 0, 0, 0, 0, 1, 0xA4, 0, 0, 0, 0, 0, 0, 0, 9, 0, 0, 0, 2, 0, 0, 0, 1,
    0, 0, 0, 5, 0, 0, 0, 32, 0x2c, 0xf2, 0x4d, 0xba, 0x5f, 0xb0, 0xa3, 0x0e, 0x26, 0xe8, 0x3b,
    0x2a, 0xc5, 0xb9, 0xe2, 0x9e, 0x1b, 0x16, 0x1e, 0x5c, 0x1f, 0xa7, 0x42, 0x5e, 0x73, 0x04, 0x33,
    0x62, 0x93, 0x8b, 0x98, 0x24,
    0, 0, 0, 1, 'b', 0, 0, 0, 0, 0, 0x10, 0, 0, 0, 0, 0, 0, 0, 0, 9, 0, 0, 0, 0, 0, 0, 0, 0
};

static const uint8_t repository[] = {'d', 'e', 'f', 'a', 'u', 'l', 't'};
static const uint8_t empty[] = {0, 0, 0, 0};

/* A block that comes with the wrong content is asked for so often. */
enum { TRIES = 3 };

/* A table that changes. */
struct table {
    uint8_t bytes[BEP_MAX_TABLE];
    size_t length;
};

static int refused(uint32_t number, uint64_t place)
{
    printf("refused at byte %" PRIu64 ": %s\n", place, bep_refusal_text(number));
    return 1;
}

/* Stands for what arrives from the peer: an Index, a Ping, and half of a message. */
static int arrive(uint8_t *buffer, size_t room, size_t *length)
{
    uint64_t written[1];
    uint32_t number;

    number = bep_write_index(buffer, room, 1, repository, sizeof repository, theirs,
                             sizeof theirs, written);
    if (number != BEP_ACCEPTED)
        return refused(number, written[BEP_PLACE]);
    *length = (size_t)written[BEP_WRITTEN];
    for (int i = 0; i < 2; i++) {
        number = bep_write_ping(buffer + *length, room - *length, 2, written);
        if (number != BEP_ACCEPTED)
            return refused(number, written[BEP_PLACE]);
        *length += (size_t)written[BEP_WRITTEN];
    }
    *length -= BEP_PING_BYTES / 2;
    return 0;
}

/* Takes every whole message off the front of the buffer; an Index gives the peer's new table. */
static int take(const uint8_t *buffer, size_t length, struct table *peer)
{
    size_t taken = 0;

    for (;;) {
        uint64_t message[BEP_READ_WORDS];
        uint32_t number = bep_read(buffer + taken, length - taken, message);

        if (number == BEP_REFUSED_INCOMPLETE)
            break;
        if (number != BEP_ACCEPTED)
            return refused(number, taken + message[BEP_PLACE]);
        printf("message of type %" PRIu64 ", %" PRIu64 " bytes\n", message[BEP_READ_TYPE],
               message[BEP_READ_USED]);
        if (message[BEP_READ_TYPE] == BEP_INDEX || message[BEP_READ_TYPE] == BEP_INDEX_UPDATE) {
            static uint8_t old[BEP_MAX_TABLE];
            uint64_t written[1];

            /* A lent buffer must not overlap an input, so the old table moves away. */
            memcpy(old, peer->bytes, peer->length);
            number = bep_accept(peer->bytes, sizeof peer->bytes, old, peer->length,
                                buffer + taken, length - taken, repository, sizeof repository,
                                written);
            if (number != BEP_ACCEPTED)
                return refused(number, taken + written[BEP_PLACE]);
            peer->length = (size_t)written[BEP_WRITTEN];
        }
        taken += (size_t)message[BEP_READ_USED];
    }
    printf("%zu bytes wait for more\n", length - taken);
    return 0;
}

static int show(const struct table *table)
{
    uint64_t file[BEP_FILE_WORDS];

    for (size_t at = BEP_FIRST; at < table->length; at = (size_t)file[BEP_FILE_NEXT]) {
        uint32_t number = bep_file(table->bytes, table->length, at, file);

        if (number != BEP_ACCEPTED)
            return refused(number, file[BEP_PLACE]);
        printf("%.*s: version %" PRIu64 ", ", (int)file[BEP_FILE_NAME_LENGTH],
               (const char *)table->bytes + file[BEP_FILE_NAME_AT], file[BEP_FILE_VERSION]);
        if (file[BEP_FILE_FLAGS] & BEP_DELETED)
            printf("deleted\n");
        else
            printf("%" PRIu64 " blocks\n", file[BEP_FILE_BLOCKS_COUNT]);
    }
    return 0;
}

/* Our table and those of four peers, of which one is there. */
struct tables {
    const uint8_t *at[5];
    size_t length[5];
};

/* In calls: each table is a slice. */
#define TABLE(t, i) (t)->at[i], (t)->length[i]
#define FIVE(t) TABLE(t, 0), TABLE(t, 1), TABLE(t, 2), TABLE(t, 3), TABLE(t, 4)

/* The requests of all peers that aren't answered yet. */
struct queue {
    uint32_t words[BEP_QUEUE_WORDS];
    uint8_t hashes[BEP_QUEUE_HASHES];
};

/* From an entry of the list to the Request that asks for its block. */
static int ask(struct queue *queue, const struct tables *tables,
               const struct bep_wanted *wanted, uint64_t *id)
{
    uint8_t request[BEP_MAX_REQUEST];
    uint64_t details[BEP_DETAILS_WORDS];
    uint64_t issued[BEP_ISSUED_WORDS];
    const uint8_t *table;
    uint32_t number = bep_details(FIVE(tables), wanted->file, wanted->block, details);

    if (number != BEP_ACCEPTED)
        return refused(number, 0);
    table = tables->at[details[BEP_DETAILS_TABLE]];
    number = bep_queue_issue(request, sizeof request, queue->words, queue->hashes, wanted->peer,
                             repository, sizeof repository, table + details[BEP_DETAILS_NAME_AT],
                             (size_t)details[BEP_DETAILS_NAME_LENGTH], wanted->offset,
                             wanted->length, table + details[BEP_DETAILS_HASH_AT],
                             BEP_HASH_BYTES, issued);
    if (number != BEP_ACCEPTED)
        return refused(number, issued[BEP_PLACE]);
    *id = issued[BEP_ISSUED_ID];
    printf("ask peer %" PRIu32 " for %" PRIu32 " bytes of %.*s at %" PRIu64 ": %" PRIu64
           " bytes\n", wanted->peer, wanted->length, (int)details[BEP_DETAILS_NAME_LENGTH],
           (const char *)table + details[BEP_DETAILS_NAME_AT], wanted->offset,
           issued[BEP_ISSUED_WRITTEN]);
    return 0;
}

/* Stands for the Response that arrives: the first time the peer's card reads badly. */
static int respond(uint64_t id, int tries, uint8_t *out, size_t room, size_t *length)
{
    static const uint8_t right[] = {'h', 'e', 'l', 'l', 'o'}, wrong[] = {'h', 'u', 'l', 'l', 'o'};
    uint64_t written[1];
    uint32_t number = bep_write_response(out, room, (uint32_t)id, tries == 0 ? wrong : right,
                                         sizeof right, written);

    if (number != BEP_ACCEPTED)
        return refused(number, written[BEP_PLACE]);
    *length = (size_t)written[BEP_WRITTEN];
    return 0;
}

/* Asks for a block, and again as long as what comes isn't what its hash says. */
static int fetch(struct queue *queue, const struct tables *tables,
                 const struct bep_wanted *wanted)
{
    for (int tries = 0; tries < TRIES; tries++) {
        uint8_t response[100];
        uint64_t answered[BEP_ANSWERED_WORDS];
        uint64_t id;
        uint32_t number;
        size_t length;

        if (ask(queue, tables, wanted, &id)
            || respond(id, tries, response, sizeof response, &length))
            return 1;
        number = bep_queue_answer(queue->words, queue->hashes, wanted->peer, response, length,
                                  answered);
        if (number != BEP_ACCEPTED)
            return refused(number, answered[BEP_PLACE]);
        switch (answered[BEP_ANSWERED_OUTCOME]) {
        case BEP_OUTCOME_DATA:
            printf("write %.*s\n", (int)answered[BEP_ANSWERED_DATA_LENGTH],
                   (const char *)response + answered[BEP_ANSWERED_DATA_AT]);
            return 0;
        case BEP_OUTCOME_NOT_AVAILABLE:
            printf("not available\n");
            return 0;
        case BEP_OUTCOME_WRONG_SIZE:
            printf("another length than asked for\n");
            return 0;
        case BEP_OUTCOME_WRONG_CONTENT:
            printf("not what the hash says\n");
            break;
        }
    }
    printf("given up\n");
    return 0;
}

/* What to request, and why "b" isn't coming. */
static int want(const struct tables *tables)
{
    static uint8_t list[BEP_MAX_REQUEST_LIST];
    static const uint8_t name[] = {'b'};
    static const uint32_t windows[BEP_PEERS] = {0};
    struct queue queue;
    uint64_t written[1];
    uint64_t why[BEP_WHY_WORDS];
    uint32_t number = bep_request_list(list, sizeof list, FIVE(tables), written);

    if (number != BEP_ACCEPTED)
        return refused(number, written[BEP_PLACE]);
    /* No window is stated, so each peer gets the default. */
    number = bep_queue_open(queue.words, queue.hashes, windows, BEP_STATED_NONE);
    if (number != BEP_ACCEPTED)
        return refused(number, 0);
    for (size_t i = 0; i < written[BEP_WRITTEN] / BEP_LIST_ENTRY_BYTES; i++) {
        struct bep_wanted wanted = bep_list_entry(list, i);

        if (fetch(&queue, tables, &wanted))
            return 1;
    }
    number = bep_why(FIVE(tables), name, sizeof name, 0, why);
    if (number != BEP_ACCEPTED)
        return refused(number, 0);
    printf("block 0 of b: %s\n", bep_reason_text(why[BEP_WHY_REASON]));
    return 0;
}

int main(void)
{
    static struct table peer;
    static struct table merged;
    static uint8_t buffer[BEP_MAX_TABLE_INDEX];
    struct tables tables = {{ours, peer.bytes, empty, empty, empty}, {sizeof ours, 4, 4, 4, 4}};
    uint64_t written[1];
    uint32_t number;
    size_t length;

    printf("fordtrumpet %s\n", BEP_VERSION);
    peer.length = sizeof empty;             /* four zero bytes are the empty table */
    if (arrive(buffer, sizeof buffer, &length) || take(buffer, length, &peer))
        return 1;
    number = bep_merge(merged.bytes, sizeof merged.bytes, ours, sizeof ours, peer.bytes,
                       peer.length, written);
    if (number != BEP_ACCEPTED)
        return refused(number, written[BEP_PLACE]);
    merged.length = (size_t)written[BEP_WRITTEN];
    tables.length[1] = peer.length;
    return show(&merged) || want(&tables);
}
