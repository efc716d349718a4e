/* Reads an upload from standard input in chunks, into an empty index of 4,096 slots and 1,024 lines. From the repository's root, on
 * x86-64:
 *   ./library
 *   cc -Iinclude examples/upload.c target/staticlib/libexports.a -o target/upload-c && target/upload-c <docs/uploads/sample.bin
 * It prints what ./intake prints: `entries 6`, then hash, key and place of each name, the last one first; of an upload that is
 * refused `no` and the number, here with its words, and the status is 1. Not one of its names stays then. */
#include "oz.h"
#include <inttypes.h>
#include <stdio.h>

enum { SLOTS = 4096, LINES = 1024 };

static uint64_t names[OZ_NAMES_WORDS(SLOTS)], lines[OZ_LINES_WORDS(LINES)];
static uint32_t cells[OZ_CELLS_WORDS(SLOTS)], head[OZ_HEAD_WORDS], sizes[OZ_SIZES_WORDS(SLOTS)];
static oz_index ix = {names, cells, head, sizes, lines, SLOTS, LINES};
static uint8_t chunk[65536];

/* Each chunk as it comes: the answer of the end call is the one that counts. After a refusal the rest need not be read. */
static uint64_t read_upload(FILE *in) {
    uint64_t reader[OZ_READER_WORDS];
    uint64_t answer = oz_index_read_start(&ix, reader);
    while (oz_number(answer) == 0) {
        size_t got = fread(chunk, 1, sizeof chunk, in);
        if (got == 0) {
            return oz_index_read_end(&ix, reader);
        }
        answer = oz_index_read_chunk(&ix, reader, chunk, got);
    }
    return answer;
}

int main(void) {
    oz_index_fresh(&ix);
    uint64_t answer = read_upload(stdin);
    if (ferror(stdin)) {
        perror("upload");
        return 2;
    }
    if (oz_number(answer) != 0) {
        printf("no %u %s\n", (unsigned)oz_number(answer), oz_words(oz_number(answer)));
        return 1;
    }
    printf("entries %u\n", (unsigned)oz_index_count(&ix));
    for (uint32_t at = oz_index_first(&ix); at != OZ_NULL; at = oz_index_next(&ix, at)) {
        printf("%" PRIu64 " %" PRIu64 " %" PRIu32 "\n", oz_index_hash(&ix, at), oz_index_key(&ix, at), oz_index_place(&ix, at));
    }
    return 0;
}
