/* Three names go in, and the index is dumped to standard output by dump.h. From the repository's root, on x86-64:
 *   ./library
 *   cc -Iinclude examples/dump.c target/staticlib/libexports.a -o target/dump-c && target/dump-c >target/dump.bin
 * The dump of 64 slots and 16 lines is 3,868 bytes long. */
#include "dump.h"
#include "oz.h"

enum { SLOTS = 64, LINES = 16 };

static uint64_t names[OZ_NAMES_WORDS(SLOTS)], lines[OZ_LINES_WORDS(LINES)];
static uint32_t cells[OZ_CELLS_WORDS(SLOTS)], head[OZ_HEAD_WORDS], sizes[OZ_SIZES_WORDS(SLOTS)];
static oz_index ix = {names, cells, head, sizes, lines, SLOTS, LINES};

int main(void) {
    oz_index_fresh(&ix);
    oz_index_insert(&ix, 17, 1, 10);
    oz_index_insert(&ix, 42, 2, 20);
    oz_index_insert(&ix, (uint64_t)1 << 63, 3, 30);
    return dump_index(stdout, OZ_INDEX_OF(&ix));
}
