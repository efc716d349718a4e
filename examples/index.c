/* Names go in; one is found by its pair and by its position, and taken back. From the repository's root, on x86-64:
 *   ./library
 *   cc -Iinclude examples/index.c target/staticlib/libexports.a -o target/index-c && target/index-c
 * It prints
 *   slot 0, mark 1, slot 1, found at 1 in 2 looks, name 2 of 2, back 1, found nowhere */
#include "oz.h"
#include <stdio.h>
#include <stdlib.h>

enum { SLOTS = 64, LINES = 16 };

static uint64_t names[OZ_NAMES_WORDS(SLOTS)], lines[OZ_LINES_WORDS(LINES)];
static uint32_t cells[OZ_CELLS_WORDS(SLOTS)], head[OZ_HEAD_WORDS], sizes[OZ_SIZES_WORDS(SLOTS)];
static oz_index ix = {names, cells, head, sizes, lines, SLOTS, LINES};

/* The value of an answer; a refusal ends the program. */
static uint32_t value(uint64_t answer) {
    if (oz_number(answer) != 0) {
        fprintf(stderr, "no %u %s\n", (unsigned)oz_number(answer), oz_words(oz_number(answer)));
        exit(1);
    }
    return oz_value(answer);
}

int main(void) {
    value(oz_index_fresh(&ix));
    printf("slot %u, ", (unsigned)value(oz_index_insert(&ix, 17, 1, 10)));
    uint32_t mark = oz_index_mark(&ix);
    printf("mark %u, ", (unsigned)mark);
    printf("slot %u, ", (unsigned)value(oz_index_insert(&ix, 42, 2, 20)));
    uint64_t found = oz_index_find(&ix, 42, 2);
    printf("found at %u in %u looks, ", (unsigned)value(found), (unsigned)oz_looks(found));
    uint32_t at = value(oz_index_position(&ix, 42, 2));
    if (value(oz_index_kth(&ix, at)) != value(found) || oz_index_before(&ix, 42, 2) != at) {
        return 1;
    }
    printf("name %u of %u, ", (unsigned)at + 1, (unsigned)oz_index_count(&ix));
    printf("back %u, ", (unsigned)value(oz_index_rollback(&ix, mark)));
    puts(value(oz_index_find(&ix, 42, 2)) == OZ_NULL ? "found nowhere" : "still there");
    return 0;
}
