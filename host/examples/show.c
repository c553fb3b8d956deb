/*
 * Shows the message in a file, one field a line, or `refused NUMBER at PLACE: MEANING`. For a bad
 * byte in a string or its pad a second line has the byte and those before it. With --old it is
 * taken for a message of the old edition, which has no Repository.
 *
 *   cc -std=c99 -Wall -Wextra -Werror -Iinclude examples/show.c PATH/libbep.a -o show
 *   ./show [--old] sample.bin
 */
#include <inttypes.h>
#include <stdio.h>
#include <stdlib.h>
#include <string.h>

#include "fordtrumpet.h"

static const char *const type_names[] = {
    "", "Index", "Request", "Response", "Ping", "Pong", "IndexUpdate", "Options"
};

/* A string may hold what a terminal obeys, so all but plain ASCII is shown as an escape. */
static void show_text(const char *field, const uint8_t *bytes, uint64_t len)
{
    printf("%s ", field);
    for (uint64_t i = 0; i < len; i++) {
        if (bytes[i] >= 0x20 && bytes[i] < 0x7F && bytes[i] != '\\')
            putchar(bytes[i]);
        else
            printf("\\x%02x", (unsigned)bytes[i]);
    }
    putchar('\n');
}

static void show_hash(const char *field, const uint8_t *bytes)
{
    printf("%s ", field);
    for (int i = 0; i < BEP_HASH_BYTES; i++)
        printf("%02x", (unsigned)bytes[i]);
    putchar('\n');
}

static void show_files(const uint8_t *files, size_t files_len, uint64_t count)
{
    size_t at = BEP_FIRST;

    printf("files %" PRIu64 "\n", count);
    for (uint64_t i = 0; i < count; i++) {
        uint64_t file[BEP_FILE_WORDS];

        if (bep_file(files, files_len, at, file) != BEP_ACCEPTED)
            return;
        show_text("  name", files + file[BEP_FILE_NAME_AT], file[BEP_FILE_NAME_LENGTH]);
        printf("  mode %04" PRIo64 "\n", file[BEP_FILE_FLAGS] & BEP_MODE);
        printf("  deleted %s\n", file[BEP_FILE_FLAGS] & BEP_DELETED ? "yes" : "no");
        printf("  invalid %s\n", file[BEP_FILE_FLAGS] & BEP_INVALID ? "yes" : "no");
        printf("  modified %" PRId64 "\n", (int64_t)file[BEP_FILE_MODIFIED]);
        printf("  version %" PRIu64 "\n", file[BEP_FILE_VERSION]);
        printf("  blocks %" PRIu64 "\n", file[BEP_FILE_BLOCKS_COUNT]);
        for (uint64_t j = 0; j < file[BEP_FILE_BLOCKS_COUNT]; j++) {
            const uint8_t *block = files + file[BEP_FILE_BLOCKS_AT] + BEP_BLOCK_BYTES * j;

            printf("    length %" PRIu32 "\n", bep_word(block));
            show_hash("    hash", block + 8);
        }
        at = (size_t)file[BEP_FILE_NEXT];
    }
}

static void show_options(const uint8_t *options, size_t options_len, uint64_t count)
{
    size_t at = BEP_FIRST;

    printf("options %" PRIu64 "\n", count);
    for (uint64_t i = 0; i < count; i++) {
        uint64_t option[BEP_OPTION_WORDS];

        if (bep_option(options, options_len, at, option) != BEP_ACCEPTED)
            return;
        show_text("  key", options + option[BEP_OPTION_KEY_AT], option[BEP_OPTION_KEY_LENGTH]);
        show_text("  value", options + option[BEP_OPTION_VALUE_AT],
                  option[BEP_OPTION_VALUE_LENGTH]);
        at = (size_t)option[BEP_OPTION_NEXT];
    }
}

/* The byte at a place, after some by which it is found in a dump. */
static void show_byte(const uint8_t *input, uint64_t place)
{
    printf("byte %02x after", (unsigned)input[place]);
    for (uint64_t i = place < 8 ? 0 : place - 8; i < place; i++)
        printf(" %02x", (unsigned)input[i]);
    putchar('\n');
}

static void show_message(const uint8_t *input, size_t input_len, int old)
{
    uint64_t answer[BEP_READ_WORDS];
    uint32_t number = old ? bep_read_old(input, input_len, answer)
                          : bep_read(input, input_len, answer);

    if (number != BEP_ACCEPTED) {
        printf("refused %" PRIu32 " at %" PRIu64 ": %s\n", number, answer[BEP_PLACE],
               bep_refusal_text(number));
        if (number == BEP_REFUSED_PAD || number == BEP_REFUSED_TEXT)
            show_byte(input, answer[BEP_PLACE]);
        return;
    }
    printf("type %s\n", type_names[answer[BEP_READ_TYPE]]);
    printf("id %" PRIu64 "\n", answer[BEP_READ_ID]);
    switch (answer[BEP_READ_TYPE]) {
    case BEP_INDEX:
    case BEP_INDEX_UPDATE:
        if (!old)
            show_text("repository", input + answer[BEP_INDEX_REPOSITORY_AT],
                      answer[BEP_INDEX_REPOSITORY_LENGTH]);
        show_files(input + answer[BEP_INDEX_FILES_AT], (size_t)answer[BEP_INDEX_FILES_LENGTH],
                   answer[BEP_INDEX_FILES_COUNT]);
        break;
    case BEP_REQUEST:
        if (!old)
            show_text("repository", input + answer[BEP_REQUEST_REPOSITORY_AT],
                      answer[BEP_REQUEST_REPOSITORY_LENGTH]);
        show_text("name", input + answer[BEP_REQUEST_NAME_AT], answer[BEP_REQUEST_NAME_LENGTH]);
        printf("offset %" PRIu64 "\n", answer[BEP_REQUEST_OFFSET]);
        printf("length %" PRIu64 "\n", answer[BEP_REQUEST_LENGTH]);
        show_hash("hash", input + answer[BEP_REQUEST_HASH_AT]);
        break;
    case BEP_RESPONSE:
        printf("data %" PRIu64 " bytes\n", answer[BEP_RESPONSE_DATA_LENGTH]);
        break;
    case BEP_OPTIONS:
        show_options(input + answer[BEP_OPTIONS_ARRAY_AT],
                     (size_t)answer[BEP_OPTIONS_ARRAY_LENGTH], answer[BEP_OPTIONS_ARRAY_COUNT]);
        break;
    }
    printf("used %" PRIu64 " of %zu bytes\n", answer[BEP_READ_USED], input_len);
}

/* Reads a whole file. The result isn't NULL for an empty one, and is NULL if it can't be read. */
static uint8_t *load(const char *path, size_t *len)
{
    size_t room = 1 << 16;
    uint8_t *bytes = malloc(room);
    FILE *file = fopen(path, "rb");

    *len = 0;
    while (file != NULL && bytes != NULL) {
        size_t got = fread(bytes + *len, 1, room - *len, file);
        uint8_t *more;

        *len += got;
        if (got == 0)
            break;
        if (*len < room)
            continue;
        more = room <= SIZE_MAX / 2 ? realloc(bytes, room * 2) : NULL;
        if (more == NULL)
            free(bytes);
        bytes = more;
        room *= 2;
    }
    if (file == NULL || ferror(file)) {
        free(bytes);
        bytes = NULL;
    }
    if (file != NULL)
        fclose(file);
    return bytes;
}

int main(int argc, char **argv)
{
    int old = argc > 1 && strcmp(argv[1], "--old") == 0;
    const char *path;
    size_t len;
    uint8_t *input;

    if (argc != 2 + old) {
        fprintf(stderr, "usage: %s [--old] FILE\n", argv[0]);
        return 2;
    }
    path = argv[1 + old];
    input = load(path, &len);
    if (input == NULL) {
        perror(path);
        return 1;
    }
    show_message(input, len, old);
    free(input);
    return 0;
}
