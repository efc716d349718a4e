/* Each of the 26 routines with null where a length is 0: it answers what it answers with a pointer to somewhere, and where a slice of
 * length 0 is in order it is taken. And each call oz_index_*: it answers and leaves what the routine of its name does on the same slices.
 * harness/header builds and runs it. */
#include "oz.h"
#include <stdio.h>
#include <string.h>

enum { SLOTS = 4, LINES = 4 };

static int wrong;

static void same(const char *what, uint64_t answer, uint64_t wanted) {
    if (answer != wanted) {
        printf("%s: number %u value %u, and not number %u value %u\n", what, (unsigned)oz_number(answer), (unsigned)oz_value(answer),
               (unsigned)oz_number(wanted), (unsigned)oz_value(wanted));
        wrong = 1;
    }
}

/* What a routine answers with every slice null is what it answers with every slice somewhere, both of length 0. */
static uint64_t wide[1];
static uint32_t narrow[1];
static uint8_t bytes[1];
#define W(p) (p) ? wide : NULL, 0
#define N(p) (p) ? narrow : NULL, 0
#define B(p) (p) ? bytes : NULL, 0
#define TREE(p) W(p), N(p), N(p)
#define INDEX(p) TREE(p), N(p), W(p)
#define SET(p) N(p), N(p), N(p), W(p), N(p)
#define BOTH(call) routines++, same(#call, CALL(call, 0), CALL(call, 1)), same(#call, CALL(call, 0), (uint64_t)1 << 32)
#define CALL(call, p) call(p)
#define FRESH(p) oz_fresh(INDEX(p))
#define FIND(p) oz_find(TREE(p), 1, 1)
#define INSERT(p) oz_insert(INDEX(p), 1, 1, 1)
#define REMOVE(p) oz_remove(INDEX(p), 1, 1)
#define REPLACE(p) oz_replace(INDEX(p), 1, 1, 1)
#define ROLLBACK(p) oz_rollback(INDEX(p), 0)
#define BATCH(p) oz_batch(INDEX(p), W(p), W(p))
#define READ_START(p) oz_read_start(INDEX(p), W(p))
#define READ_CHUNK(p) oz_read_chunk(INDEX(p), W(p), B(p))
#define READ_END(p) oz_read_end(INDEX(p), W(p))
#define CHECK(p) oz_check(TREE(p))
#define SOUND(p) oz_sound(TREE(p), N(p))
#define WHY(p) oz_why(TREE(p), N(p), N(p))
#define SALVAGE(p) oz_salvage(W(p), N(p), TREE(p), N(p), N(p))
#define KTH(p) oz_kth(TREE(p), N(p), 0)
#define POSITION(p) oz_position(TREE(p), N(p), 1, 1)
#define ACCEPT(p) oz_accept(SET(p))
#define LOOKUP(p) oz_lookup(SET(p), 0, 1, 1)
#define START(p) oz_start(SET(p), 0, N(p))
#define WALK(p) oz_walk(SET(p), N(p))
#define SAVE(p) oz_save(SET(p), B(p))
#define LOAD_START(p) oz_load_start(W(p))
#define LOAD_CHUNK(p) oz_load_chunk(SET(p), W(p), B(p))
#define LOAD_END(p) oz_load_end(SET(p), W(p))
#define MOVE(p) oz_move(SET(p), 0, 0)
#define TALLY(p) oz_tally(SET(p), W(p))

/* A set of one empty bin, or of two tables of them: no header and no slot, so that heads, names and cells are null. */
#define EMPTY_SET lengths, 2, bins, 3, NULL, 0, NULL, 0, NULL, 0

static int nulls(void) {
    int routines = 0;
    BOTH(FRESH), BOTH(FIND), BOTH(INSERT), BOTH(REMOVE), BOTH(REPLACE), BOTH(ROLLBACK), BOTH(BATCH), BOTH(READ_START), BOTH(READ_CHUNK);
    BOTH(READ_END), BOTH(CHECK), BOTH(SOUND), BOTH(WHY), BOTH(SALVAGE), BOTH(KTH), BOTH(POSITION), BOTH(ACCEPT), BOTH(LOOKUP), BOTH(START);
    BOTH(WALK), BOTH(SAVE), BOTH(LOAD_START), BOTH(LOAD_CHUNK), BOTH(LOAD_END), BOTH(MOVE), BOTH(TALLY);

    static uint64_t names[OZ_NAMES_WORDS(SLOTS)], lines[OZ_LINES_WORDS(LINES)], reader[OZ_READER_WORDS];
    static uint32_t cells[OZ_CELLS_WORDS(SLOTS)], head[OZ_HEAD_WORDS], sizes[OZ_SIZES_WORDS(SLOTS)];
    oz_index ix = {names, cells, head, sizes, lines, SLOTS, LINES};
    same("fresh", oz_index_fresh(&ix), 1);
    same("an empty batch", oz_index_batch(&ix, NULL, 0, NULL, 0), 0);
    same("read start", oz_index_read_start(&ix, reader), 1);
    same("an empty chunk", oz_index_read_chunk(&ix, reader, NULL, 0), 0);
    same("an empty upload", oz_index_read_end(&ix, reader), (uint64_t)OZ_SHORT << 32);

    static uint32_t lengths[2] = {1, 2}, bins[3], cursor[OZ_CURSOR_WORDS];
    static uint64_t loader[OZ_LOADER_WORDS], totals[OZ_TOTALS_WORDS];
    static uint8_t out[OZ_FILE_BYTES(2, 3, 0, 0)];
    same("accept", oz_accept(EMPTY_SET), 1);
    same("lookup", oz_lookup(EMPTY_SET, 0, 1, 1), OZ_NULL);
    same("start", oz_start(EMPTY_SET, 0, cursor, OZ_CURSOR_WORDS), 1);
    same("walk", oz_walk(EMPTY_SET, cursor, OZ_CURSOR_WORDS), OZ_NULL);
    same("save", oz_save(EMPTY_SET, out, sizeof out), sizeof out);
    same("tally", oz_tally(EMPTY_SET, totals, OZ_TOTALS_WORDS), 1);
    same("tally of nothing", oz_tally(NULL, 0, NULL, 0, NULL, 0, NULL, 0, NULL, 0, totals, OZ_TOTALS_WORDS), 0);
    same("move", oz_move(EMPTY_SET, 0, 0), 0);
    same("Moved", bins[0], OZ_BIN_MOVED);
    memset(bins, 0xFF, sizeof bins);
    same("load start", oz_load_start(loader, OZ_LOADER_WORDS), 1);
    same("load nothing", oz_load_chunk(EMPTY_SET, loader, OZ_LOADER_WORDS, NULL, 0), 0);
    same("load chunk", oz_load_chunk(EMPTY_SET, loader, OZ_LOADER_WORDS, out, sizeof out), sizeof out);
    same("load end", oz_load_end(EMPTY_SET, loader, OZ_LOADER_WORDS), sizeof out);
    same("loaded", bins[0] + bins[1] + bins[2], 0);
    return routines;
}

/* Two indexes with the same words: one is called by its name, the other by its slices. */
static uint64_t names_a[OZ_NAMES_WORDS(SLOTS)], names_b[2 * SLOTS], lines_a[OZ_LINES_WORDS(LINES)], lines_b[1 + 6 * LINES];
static uint32_t cells_a[OZ_CELLS_WORDS(SLOTS)], cells_b[7 * SLOTS], head_a[OZ_HEAD_WORDS], head_b[3];
static uint32_t sizes_a[OZ_SIZES_WORDS(SLOTS)], sizes_b[SLOTS];
static oz_index a = {names_a, cells_a, head_a, sizes_a, lines_a, SLOTS, LINES};
#define TREE_B names_b, 2 * SLOTS, cells_b, 7 * SLOTS, head_b, 3
#define SIZED_B TREE_B, sizes_b, SLOTS
#define INDEX_B SIZED_B, lines_b, 1 + 6 * LINES

static int calls;

static void beside(const char *what, uint64_t named, uint64_t sliced) {
    calls++;
    same(what, named, sliced);
    if (memcmp(names_a, names_b, sizeof names_a) != 0 || memcmp(cells_a, cells_b, sizeof cells_a) != 0 || memcmp(head_a, head_b, 12) != 0 ||
        memcmp(sizes_a, sizes_b, sizeof sizes_a) != 0 || memcmp(lines_a, lines_b, sizeof lines_a) != 0) {
        printf("%s: other words\n", what);
        wrong = 1;
    }
}

static void wrappers(void) {
    static const uint8_t upload[28] = {1, 1, 0, 7, 0, 0, 0, 0, 0, 0, 0, 9, 0, 0, 0, 0, 0, 0, 0, 2, 0, 0, 3, 0, 0, 4, 0, 0};
    static const uint64_t batch[8] = {OZ_INSERT, 3, 3, 30, OZ_REMOVE, 9, 9, 0};
    uint64_t reader_a[OZ_READER_WORDS], reader_b[OZ_READER_WORDS], answers_a[2] = {7, 7}, answers_b[2] = {7, 7};
    uint32_t shown_a[OZ_SHOWN_WORDS], shown_b[OZ_SHOWN_WORDS], report_a[SLOTS], report_b[SLOTS];
    beside("fresh", oz_index_fresh(&a), oz_fresh(INDEX_B));
    beside("insert", oz_index_insert(&a, 1, 1, 10), oz_insert(INDEX_B, 1, 1, 10));
    beside("insert", oz_index_insert(&a, 1, 1, 10), oz_insert(INDEX_B, 1, 1, 10));
    beside("batch", oz_index_batch(&a, batch, 8, answers_a, 2), oz_batch(INDEX_B, batch, 8, answers_b, 2));
    same("answers", answers_a[0] ^ answers_a[1], answers_b[0] ^ answers_b[1]);
    beside("replace", oz_index_replace(&a, 3, 3, 31), oz_replace(INDEX_B, 3, 3, 31));
    beside("find", oz_index_find(&a, 3, 3), oz_find(TREE_B, 3, 3));
    beside("kth", oz_index_kth(&a, 1), oz_kth(SIZED_B, 1));
    beside("position", oz_index_position(&a, 3, 3), oz_position(SIZED_B, 3, 3));
    same("before", oz_index_before(&a, 3, 3), oz_position(SIZED_B, 3, 3));
    beside("check", oz_index_check(&a), oz_check(TREE_B));
    beside("sound", oz_index_sound(&a), oz_sound(SIZED_B));
    beside("why", oz_index_why(&a, shown_a), oz_why(SIZED_B, shown_b, OZ_SHOWN_WORDS));
    same("shown", (uint64_t)memcmp(shown_a, shown_b, sizeof shown_a), 0);
    same("mark", oz_index_mark(&a), 3);
    beside("remove", oz_index_remove(&a, 1, 1), oz_remove(INDEX_B, 1, 1));
    beside("rollback", oz_index_rollback(&a, 1), oz_rollback(INDEX_B, 1));
    beside("read start", oz_index_read_start(&a, reader_a), oz_read_start(INDEX_B, reader_b, OZ_READER_WORDS));
    beside("read chunk", oz_index_read_chunk(&a, reader_a, upload, 28), oz_read_chunk(INDEX_B, reader_b, OZ_READER_WORDS, upload, 28));
    beside("read end", oz_index_read_end(&a, reader_a), oz_read_end(INDEX_B, reader_b, OZ_READER_WORDS));
    same("reader", (uint64_t)memcmp(reader_a, reader_b, sizeof reader_a), 0);
    same("listing", oz_index_hash(&a, oz_index_first(&a)), 7);
    same("listing", oz_index_key(&a, oz_index_first(&a)), 9);
    same("listing", oz_index_place(&a, oz_index_first(&a)), 3);
    same("listing", oz_index_next(&a, oz_index_first(&a)), 0);
    same("count", oz_index_count(&a), 2);
    lines_b[0] = 0;
    oz_index_begin_journal(&a);
    beside("insert", oz_index_insert(&a, 5, 5, 50), oz_insert(INDEX_B, 5, 5, 50));

    uint64_t names_c[OZ_NAMES_WORDS(SLOTS)], lines_c[OZ_LINES_WORDS(LINES)];
    uint32_t cells_c[OZ_CELLS_WORDS(SLOTS)], head_c[OZ_HEAD_WORDS], sizes_c[OZ_SIZES_WORDS(SLOTS)];
    oz_index c = {names_c, cells_c, head_c, sizes_c, lines_c, SLOTS, LINES};
    oz_index_fresh(&c);
    uint64_t kept = oz_index_salvage(&a, &c, report_a);
    oz_index_fresh(&c);
    beside("salvage", kept, oz_salvage(names_b, 2 * SLOTS, cells_b, 7 * SLOTS, names_c, 2 * SLOTS, cells_c, 7 * SLOTS, head_c, 3, sizes_c,
                                       SLOTS, report_b, SLOTS));
    same("report", (uint64_t)memcmp(report_a, report_b, sizeof report_a), 0);
    /* a damaged tree: links that lead nowhere, and a ring */
    head_a[OZ_FIRST] = SLOTS;
    same("before, first out of range", oz_index_before(&a, 9, 9), 0);
    head_a[OZ_FIRST] = 0;
    cells_a[OZ_NEXT] = 0;
    same("before, on a ring", oz_index_before(&a, 9, 9), SLOTS);
    cells_a[OZ_NEXT] = OZ_NULL - 1;
    same("before, to a link out of range", oz_index_before(&a, 9, 9), 1);
}

int main(void) {
    int routines = nulls();
    wrappers();
    printf("null with length 0: %d routines; oz_index_ beside its slices: %d calls%s\n", routines, calls, wrong ? "; differences" : "");
    return wrong || routines != 26;
}
