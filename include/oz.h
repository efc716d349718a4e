/* The name index for C99 and C++: link target/staticlib/libexports.a, made by `./library`, for x86-64.
 *
 * oz is our prefix, after Ozynterek. docs/RULES.md says what each routine promises, docs/HANDBOOK.md what to do with
 * each number; examples/ has programs in C and one in Rust, whose crate is rust/.
 *
 * To begin. An index is five slices of words, which the caller owns; oz_index names them, and the calls oz_index_* at
 * the end of this file take it:
 *
 *   enum { SLOTS = 64, LINES = 16 };
 *   static uint64_t names[OZ_NAMES_WORDS(SLOTS)], lines[OZ_LINES_WORDS(LINES)];
 *   static uint32_t cells[OZ_CELLS_WORDS(SLOTS)], head[OZ_HEAD_WORDS], sizes[OZ_SIZES_WORDS(SLOTS)];
 *   static oz_index ix = {names, cells, head, sizes, lines, SLOTS, LINES};
 *
 *   oz_index_fresh(&ix);
 *   uint64_t answer = oz_index_insert(&ix, hash, key, place);
 *   if (oz_number(answer) != 0)
 *       fprintf(stderr, "no %u %s\n", (unsigned)oz_number(answer), oz_words(oz_number(answer)));
 *   else
 *       printf("slot %u\n", (unsigned)oz_value(answer));
 *
 * An upload is oz_index_read_start, oz_index_read_chunk for each chunk, oz_index_read_end (examples/upload.c). To take
 * calls back, keep oz_index_mark and give it to oz_index_rollback; to keep what was entered and begin a new journal,
 * oz_index_begin_journal.
 *
 * Answers. An answer is value + 2^32 * number + 2^48 * looks; oz_value, oz_number and oz_looks take it apart. Number 0
 * is no refusal. 1 to 18 are refusals: the value is 0, with 3 a slot, and nothing was written; what a refused
 * chunk or end call of an upload leaves stands with oz_read_chunk, and of a file with oz_load_chunk and oz_load_end. Where
 * several hold, the one that stands first in a routine's list below is given; of a chunk the one whose byte comes first. A number
 * above 100 is a failing test of oz_check.
 * Looks are how many slots oz_find or oz_lookup read the hash of, on a hit, on OZ_NULL and on 9; every other answer has
 * 0.
 *
 * Slices. A slice is a pointer and its number of words. Every routine takes any words, any numbers and any lengths; a
 * pointer is aligned, and may be null where its length is 0. No two slices of a call may overlap where one of them
 * is written. Nothing is allocated, and nothing is kept between calls.
 *
 *   names    u64, 2n      per slot: hash, key
 *   cells    u32, 7n      per slot: place, state (0 free, 1 black, 2 red), parent, left, right, prev, next
 *   head     u32, 3       root, first, count
 *   sizes    u32, n       per slot: the number of pairs in its subtree, 0 in a free slot. The library keeps them; the
 *                         caller lends them and writes none
 *   lines    u64, 1 + 6c  the journal: its length, then per line: kind, hash, key, place, and the hash and key of the
 *                         pair before. Kind is 1 insert, 2 remove, 2 + 2^32 remove of a pair that stood right behind
 *                         another in the chain, which is then the pair before, 3 replace; but for 2 + 2^32 the pair
 *                         before is 0, 0. The place of a replace is the new place + 2^32 * the old one
 *   shown    u32, 8       of oz_why: slot, other, then two ways down, each its last slot, side (0 left, 1 right) and black
 *                         slots; OZ_NULL where a word says nothing
 *   report   u32, n or    of oz_salvage: a word for each slot, 0 kept, 1 free, 2 of unknown state, 3 + s repeats slot s
 *            more
 *   calls    u64, 4 each  of a batch, per call: kind (1 insert, 2 remove, 3 replace), hash, key, place
 *   answers  u64          of a batch: a word for each call, what the single call would answer
 *   reader   u64, 8       of an upload: the caller keeps them between the calls and writes none. Sections that are whole;
 *                         bytes of the next one's header, 0 to 2, or in its entries 3 and the bytes of the entry; entries
 *                         to come in it, in the header the bytes of the count; the bytes of the entry's hash, and of its
 *                         key; the mark of the start + 1; the entries taken; and the note, 0 while nothing is noted, else
 *                         1 + the answer. Eight zeros are no reader: chunk and end call answer 1 where no start was made.
 *                         docs/RULES.md, section 12, has their ranges
 *   chunk    u8           of an upload or of a set's file: bytes of it, any number
 *   lengths  u32, 1 to 8  of a frozen set: the tables' lengths
 *   bins     u32          of a frozen set: all tables' bins in a row: 0 empty, 1 Moved, 2 + slot a list,
 *                         4098 + header a tree
 *   heads    u32, 3h      of a frozen set, per tree header: root, first, count
 *   cursor   u32, 11      base table, depth, eight indexes, last slot. Any numbers in range are a cursor, eleven zeros too: they
 *                         walk on from bin 0 of table 0 behind slot 0, so that oz_walk does not tell that oz_start was left out
 *   out      u8, as many  of oz_save: the bytes of the file, OZ_FILE_BYTES of them
 *            or more
 *   loader   u64, 8       of a file that is loaded: the caller keeps them between the calls and writes none. Sections that are
 *                         whole; 8 * the words of the next one that have come, its count the first of them, + the bytes of the
 *                         next word; the number of those bytes; the four counts, tables, bin words, headers and slots, each 0
 *                         until it has come; and the note, 0 while nothing is noted, else 1 + the answer. docs/RULES.md,
 *                         section 16, has their ranges
 *   totals   u64, 39      of oz_tally: sets, refused, entries, lists, trees, looks, then the rows of 1 to 32 looks, and of more;
 *                         zeros before the first set. docs/RULES.md, section 18, has their ranges
 *
 * n is 1 to 4,096 (0 to 4,096 in a set), c is 0 to 1,024, h is 0 to 4,096. A link that leads nowhere is OZ_NULL.
 *
 * An empty index: names all 0; each slot's seven cells 0, 0, OZ_NULL, OZ_NULL, OZ_NULL, OZ_NULL, OZ_NULL; head OZ_NULL,
 * OZ_NULL, 0; sizes all 0; lines all 0. oz_fresh writes it.
 *
 * A set's file. Four sections, each a count of four bytes and then so many items; every number has its lowest byte first.
 *
 *   section  an item                                                                             bytes   most
 *   0        a table's length                                                                        4      8
 *   1        a bin word                                                                              4  8,160
 *   2        a tree header: root, first, count, four bytes each                                     12  4,096
 *   3        a slot: hash and key, eight bytes each; place, four; state, one; parent, left,         41  4,096
 *            right, prev and next, four each
 *
 * Counts are of items: of a header's three words and a slot's nine one each. A file has OZ_FILE_BYTES(tables, words, headers,
 * slots) bytes, at most OZ_FILE_MOST.
 *
 * Threads. No routine keeps anything between calls, and none writes but what it is lent to write: two threads may call
 * at once on different slices, and on the same ones where both calls only read them; nobody else may write a slice while a
 * call is lent it.
 *
 * Cost. 'Every slot' is the full check that a routine makes before it trusts the tree, of free slots too; 'the set' is
 * the acceptance, of every bin, header and slot. A way down is at most 24 slots in a sound tree.
 *
 *   routine                            checks              then
 *   oz_find                            nothing             a way down
 *   oz_insert                          every slot          a way down and up, and the lowest free slot is sought
 *   oz_remove                          every slot          a way down and up
 *   oz_replace, oz_kth, oz_position    every slot          a way down
 *   oz_rollback                        every slot          keeps the tree's words aside; ways down and up for each line
 *   oz_batch                           every slot, once    for each call what it does singly after its check
 *   oz_read_start                      every slot          nothing
 *   oz_read_chunk                      every slot, once    an insert for each entry; where no entry ends in the chunk and it is not
 *                                                          refused, nothing is checked. Large chunks are cheaper than small ones
 *   oz_read_end                        nothing             where it refuses, a rollback with its check
 *   oz_sound, oz_why                   every slot
 *   oz_check                           the slots that it reaches from the root
 *   oz_fresh                           nothing             writes every word
 *   oz_salvage                         the second tree     each slot of the first, an insert for each that is kept
 *   oz_lookup                          nothing             a bin in each table, then one list or a way down
 *   oz_start, oz_walk                  nothing             on from bin to bin, over empty ones too
 *   oz_accept                          the set
 *   oz_save                            the set             each word, into the file
 *   oz_load_end                        the set             writes the rest of the slices
 *   oz_move                            the set             each entry of the bin, one that goes into a tree by a way down and up
 *   oz_tally                           the set             a lookup for each entry
 *   oz_load_start, oz_load_chunk       nothing             each byte
 *
 * When to count instead. oz_kth and oz_position go one way down, but check every slot before, free ones too: with 900 names
 * in 4,096 slots each takes 23.6 microseconds, and oz_index_before, which counts along the chain and checks nothing, 1.8 for
 * the same position (with 4,096 names 53.0 and 7.9; measured on x86-64, the best of 300 rounds). Count where only the library
 * writes the words and nothing hangs on the position, as in 'name 214 of 900' on a screen; for many positions at once list the
 * chain and sort it. Ask oz_kth and oz_position where the words may be damaged or something is decided by the answer: they
 * answer 2 where the tree is not sound, and what they answer else is proved.
 *
 * Stack, as measured: oz_check 709 KiB and oz_why 388 KiB on 4,096 slots in one line, since they follow the links as deep as
 * they go; oz_rollback 198 KiB, since it keeps the tree's words and its sizes aside, and oz_read_chunk and oz_read_end 201 KiB
 * where they refuse, since they roll back; oz_accept, oz_save, oz_load_end, oz_move and oz_tally 140 KiB on a set that has a list
 * of more than 64 slots, whose tree they keep meanwhile; the others under 64 KiB.
 */
#ifndef OZ_H
#define OZ_H
#include <stddef.h>
#include <stdint.h>

/* This number is another one whenever an argument of a routine or a word of a slice is: link a library of the commit that
 * this header is of. */
#define OZ_ABI 2

/* Null, Nothing and Done. */
#define OZ_NULL UINT32_C(4294967295)

enum {
    OZ_UNFIT = 1,          /* the lengths of the slices do not fit, or the journal's length passes its capacity */
    OZ_DAMAGED = 2,        /* the tree is not sound; of oz_save, oz_load_end and oz_move: the set is not accepted */
    OZ_PRESENT = 3,        /* the pair is there; the value is its slot */
    OZ_ABSENT = 4,         /* the pair is not there */
    OZ_FULL = 5,           /* no free slot; of oz_move: headers run out */
    OZ_JOURNAL_FULL = 6,   /* no line left */
    OZ_BAD_MARK = 7,       /* the mark is above the journal's length */
    OZ_MISFIT = 8,         /* the journal's lines do not fit the tree */
    OZ_LOST = 9,           /* a read came to a word that leads nowhere, or to more slots than there are */
    OZ_UNKNOWN_TABLE = 10, /* no such table */
    OZ_BAD_CURSOR = 11,    /* no cursor of this set */
    OZ_SHORT = 12,         /* an upload ends before its section 4 is whole, or a file before its last section is */
    OZ_LONG = 13,          /* a byte of an upload comes after section 4, or of a file after its last section */
    OZ_OVER_LIMIT = 14,    /* a count of a file passes its limit, or its lent slice */
    OZ_OUT_OF_RANGE = 15,  /* there is no such position: it is not below the count */
    OZ_CANNOT_MOVE = 16,   /* no next table, no such bin, already Moved, or its parent bin not Moved */
    OZ_TOO_MANY = 17,      /* a million sets are counted */
    OZ_WRONG_KIND = 18,    /* a section of an upload begins with another byte than its kind */
    OZ_TEST = 100          /* 100 + t: test t of 1 to 8 of oz_check fails; the value is the slot */
};

/* The words of each slice: of an index of n slots and c lines, and of the others. */
#define OZ_NAMES_WORDS(n) (2 * (size_t)(n))
#define OZ_CELLS_WORDS(n) (7 * (size_t)(n))
#define OZ_HEAD_WORDS 3
#define OZ_SIZES_WORDS(n) ((size_t)(n))
#define OZ_LINES_WORDS(c) (1 + 6 * (size_t)(c))
#define OZ_REPORT_WORDS(n) ((size_t)(n))
#define OZ_CALLS_WORDS(calls) (4 * (size_t)(calls))
#define OZ_ANSWERS_WORDS(calls) ((size_t)(calls))
#define OZ_HEADS_WORDS(h) (3 * (size_t)(h))
#define OZ_SHOWN_WORDS 8
#define OZ_READER_WORDS 8
#define OZ_LOADER_WORDS 8
#define OZ_CURSOR_WORDS 11
#define OZ_TOTALS_WORDS 39

/* The bytes of a dump of an index (docs/RULES.md, section 15; examples/dump.h writes one), and of a set's file. */
#define OZ_DUMP_BYTES(n, c) (28 + 48 * (size_t)(n) + 48 * (size_t)(c))
#define OZ_FILE_BYTES(tables, words, headers, slots) \
    (16 + 4 * (size_t)(tables) + 4 * (size_t)(words) + 12 * (size_t)(headers) + 41 * (size_t)(slots))
#define OZ_FILE_MOST OZ_FILE_BYTES(8, 8160, 4096, 4096)

/* The limits; and the most of each slice that a set has, with which every file that is allowed can be loaded: 8, 8,160, 12,288,
 * 8,192 and 28,672 words, and 249,776 bytes. */
enum {
    OZ_SLOTS_LEAST = 1, /* of an index; a set may have none */
    OZ_SLOTS_MOST = 4096,
    OZ_LINES_MOST = 1024,
    OZ_TABLES_MOST = 8,
    OZ_HEADERS_MOST = 4096,
    OZ_LENGTHS_MOST = 8,
    OZ_BINS_MOST = 8160,
    OZ_HEADS_MOST = 3 * 4096,
    OZ_NAMES_MOST = 2 * 4096,
    OZ_CELLS_MOST = 7 * 4096
};

/* Where a word stands: slot i has its hash at names[2 * i + OZ_HASH] and its next link at cells[7 * i + OZ_NEXT]; line k of the
 * journal has its kind at lines[1 + 6 * k + OZ_LINE_KIND]; call k of a batch has its kind at calls[4 * k + OZ_CALL_KIND]. */
enum { OZ_HASH = 0, OZ_KEY = 1 };
enum { OZ_PLACE = 0, OZ_STATE = 1, OZ_PARENT = 2, OZ_LEFT = 3, OZ_RIGHT = 4, OZ_PREV = 5, OZ_NEXT = 6 };
enum { OZ_ROOT = 0, OZ_FIRST = 1, OZ_COUNT = 2 };
enum { OZ_LINE_KIND = 0, OZ_LINE_HASH = 1, OZ_LINE_KEY = 2, OZ_LINE_PLACE = 3, OZ_LINE_HASH_BEFORE = 4, OZ_LINE_KEY_BEFORE = 5 };
enum { OZ_CALL_KIND = 0, OZ_CALL_HASH = 1, OZ_CALL_KEY = 2, OZ_CALL_PLACE = 3 };
/* of shown, of a loader whose file was accepted, of the totals (row i, of 1 to 32 looks, is totals[OZ_ROWS + i]) and of a cursor */
enum {
    OZ_SHOWN_SLOT = 0,
    OZ_SHOWN_OTHER = 1,
    OZ_SHOWN_LEFT_LAST = 2,
    OZ_SHOWN_LEFT_SIDE = 3,
    OZ_SHOWN_LEFT_BLACKS = 4,
    OZ_SHOWN_RIGHT_LAST = 5,
    OZ_SHOWN_RIGHT_SIDE = 6,
    OZ_SHOWN_RIGHT_BLACKS = 7
};
enum { OZ_LOADED_TABLES = 3, OZ_LOADED_BINS = 4, OZ_LOADED_HEADERS = 5, OZ_LOADED_SLOTS = 6 };
enum { OZ_SETS = 0, OZ_REFUSED = 1, OZ_ENTRIES = 2, OZ_LISTS = 3, OZ_TREES = 4, OZ_LOOKS = 5, OZ_ROWS = 5, OZ_MORE = 38 };
enum { OZ_CURSOR_TABLE = 0, OZ_CURSOR_DEPTH = 1, OZ_CURSOR_INDEX = 2, OZ_CURSOR_LAST = 10 };

/* What words mean: states, the kinds of lines and calls, bin words, and the words of a report. */
enum { OZ_FREE = 0, OZ_BLACK = 1, OZ_RED = 2 };
enum { OZ_INSERT = 1, OZ_REMOVE = 2, OZ_REPLACE = 3 };
#define OZ_REMOVE_NOTED (UINT64_C(2) + (UINT64_C(1) << 32))
enum { OZ_BIN_EMPTY = 0, OZ_BIN_MOVED = 1, OZ_BIN_LIST = 2, OZ_BIN_TREE = 4098 };
enum { OZ_REPORT_KEPT = 0, OZ_REPORT_FREE = 1, OZ_REPORT_UNKNOWN = 2, OZ_REPORT_REPEATS = 3 };

/* An answer taken apart. */
static inline uint32_t oz_value(uint64_t answer) { return (uint32_t)answer; }
static inline uint32_t oz_number(uint64_t answer) { return (uint16_t)(answer >> 32); }
static inline uint32_t oz_looks(uint64_t answer) { return (uint32_t)(answer >> 48); }

/* A number in words; docs/HANDBOOK.md says what to do with each. */
static inline const char *oz_words(unsigned number) {
    switch (number) {
    case 0: return "no refusal";
    case OZ_UNFIT: return "unfit: lengths that do not fit, a limit that is broken, or words out of their ranges";
    case OZ_DAMAGED: return "damaged: the tree is not sound, or the set is not accepted";
    case OZ_PRESENT: return "present: the pair is there already";
    case OZ_ABSENT: return "absent: the pair is not there";
    case OZ_FULL: return "full: no slot is free, or too few headers";
    case OZ_JOURNAL_FULL: return "journal full: no line is left";
    case OZ_BAD_MARK: return "bad mark: it is above the journal's length";
    case OZ_MISFIT: return "misfit: the journal's lines do not fit the tree";
    case OZ_LOST: return "lost: a word leads nowhere, or to more slots than there are";
    case OZ_UNKNOWN_TABLE: return "unknown table: there is none of this number";
    case OZ_BAD_CURSOR: return "bad cursor: it is none of this set";
    case OZ_SHORT: return "short: the bytes end before the last section is whole";
    case OZ_LONG: return "long: a byte comes after the last section";
    case OZ_OVER_LIMIT: return "over limit: a count passes its limit or its slice";
    case OZ_OUT_OF_RANGE: return "out of range: the position is not below the count";
    case OZ_CANNOT_MOVE: return "cannot move: no next table, no such bin, already Moved, or its parent bin not Moved";
    case OZ_TOO_MANY: return "too many: a million sets are counted";
    case OZ_WRONG_KIND: return "wrong kind: a section begins with another byte than its kind";
    case OZ_TEST + 1: return "test 1 fails: the slot's prev does not have it as next";
    case OZ_TEST + 2: return "test 2 fails: the slot's next does not have it as prev";
    case OZ_TEST + 3: return "test 3 fails: the slot's parent does not have it as a child";
    case OZ_TEST + 4: return "test 4 fails: the slot's left child does not have it as parent";
    case OZ_TEST + 5: return "test 5 fails: the slot's left child has a greater hash";
    case OZ_TEST + 6: return "test 6 fails: the slot's right child does not have it as parent";
    case OZ_TEST + 7: return "test 7 fails: the slot's right child has a smaller hash";
    case OZ_TEST + 8: return "test 8 fails: the slot is red, and so are both its children";
    default: return "no number of the library";
    }
}

#ifdef __cplusplus
extern "C" {
#endif

/* Writes an empty index into the five slices, every word of them; the value is 1. Refusal 1, exactly where their lengths
 * do not fit; what stands in them does not matter. */
uint64_t oz_fresh(uint64_t *names, size_t names_len, uint32_t *cells, size_t cells_len, uint32_t *head,
                  size_t head_len, uint32_t *sizes, size_t sizes_len, uint64_t *lines, size_t lines_len);

/* The slot that has the pair, or OZ_NULL where none has, with the looks: at most n, with 1 none. Refusals 1, 9; never 9
 * on a sound tree. */
uint64_t oz_find(const uint64_t *names, size_t names_len, const uint32_t *cells, size_t cells_len,
                 const uint32_t *head, size_t head_len, uint64_t hash, uint64_t key);

/* The pair joins the tree with its place, and the journal has one line more; answers the slot taken, the lowest free
 * one. Refusals 1, 2, 3 with the slot that has the pair, 5, 6. */
uint64_t oz_insert(uint64_t *names, size_t names_len, uint32_t *cells, size_t cells_len, uint32_t *head,
                   size_t head_len, uint32_t *sizes, size_t sizes_len, uint64_t *lines, size_t lines_len,
                   uint64_t hash, uint64_t key, uint32_t place);

/* The pair leaves the tree, and the journal has one line more, which notes the pair before it in the chain, if one is;
 * answers the slot freed. Refusals 1, 2, 4, 6. */
uint64_t oz_remove(uint64_t *names, size_t names_len, uint32_t *cells, size_t cells_len, uint32_t *head,
                   size_t head_len, uint32_t *sizes, size_t sizes_len, uint64_t *lines, size_t lines_len,
                   uint64_t hash, uint64_t key);

/* The pair's place is this one from now on, and nothing else in the tree is another, nor any size; the journal has one
 * line more, with both places, where they are equal too; answers the slot that has the pair. Refusals 1, 2, 4, 6. */
uint64_t oz_replace(const uint64_t *names, size_t names_len, uint32_t *cells, size_t cells_len, const uint32_t *head,
                    size_t head_len, const uint32_t *sizes, size_t sizes_len, uint64_t *lines, size_t lines_len,
                    uint64_t hash, uint64_t key, uint32_t place);

/* Undoes the journal's lines from the last down to number mark; answers how many. To come back to a state, keep the
 * journal's length then, lines[0]: it is the mark. The pairs and places are then those of the mark, and so is their
 * order from first by next. Refusals 1, 2, 7, 8. */
uint64_t oz_rollback(uint64_t *names, size_t names_len, uint32_t *cells, size_t cells_len, uint32_t *head,
                     size_t head_len, uint32_t *sizes, size_t sizes_len, uint64_t *lines, size_t lines_len,
                     uint32_t mark);

/* Makes the calls in order after one check, and writes the answer of each: what the same calls made singly would answer
 * and leave. A refused call does not stop the later ones, and the words of answers past the calls stay. Answers how many
 * calls were accepted. Refusals 1 (also for a slice of calls that is not whole, an unknown kind, a place of 2^32 or more in
 * an insert or replace, and fewer answers than calls), 2; no call is then made and no answer written. */
uint64_t oz_batch(uint64_t *names, size_t names_len, uint32_t *cells, size_t cells_len, uint32_t *head,
                  size_t head_len, uint32_t *sizes, size_t sizes_len, uint64_t *lines, size_t lines_len,
                  const uint64_t *calls, size_t calls_len, uint64_t *answers, size_t answers_len);

/* Begins an upload: writes the reader, whatever its words were, and nothing else; the value is 1. Refusals 1 (for a reader
 * that is not 8 words, too), 2, each with the reader as it was. */
uint64_t oz_read_start(const uint64_t *names, size_t names_len, const uint32_t *cells, size_t cells_len,
                       const uint32_t *head, size_t head_len, const uint32_t *sizes, size_t sizes_len,
                       const uint64_t *lines, size_t lines_len, uint64_t *reader, size_t reader_len);

/* Takes the bytes of a chunk one after the other and inserts each entry at its last byte, with the offset of its first byte
 * in the upload as place; answers the entries taken since the start. Wherever an upload is cut, the answers and all words
 * are the same. Refusals 18, 13, and 3 with the slot, 5, 6 as oz_insert gives them: everything since the start is then rolled
 * back, the answer is noted in the reader, and every later chunk and end call give it again and change nothing. 1, 2, 7 or 8
 * where somebody else wrote the slices, so that the rollback is refused: it then writes nothing, and what this chunk and
 * those before it inserted stays; 7 also where the journal's length is below the mark + the entries taken. 1 also for a reader
 * that is not 8 words or whose words are out of their ranges, which is not noted and changes nothing. */
uint64_t oz_read_chunk(uint64_t *names, size_t names_len, uint32_t *cells, size_t cells_len, uint32_t *head,
                       size_t head_len, uint32_t *sizes, size_t sizes_len, uint64_t *lines, size_t lines_len,
                       uint64_t *reader, size_t reader_len, const uint8_t *chunk, size_t chunk_len);

/* The upload has ended: answers the entries taken, or refusal 12 where section 4 is not whole; the other refusals, and what
 * they leave, as for a chunk. */
uint64_t oz_read_end(uint64_t *names, size_t names_len, uint32_t *cells, size_t cells_len, uint32_t *head,
                     size_t head_len, uint32_t *sizes, size_t sizes_len, uint64_t *lines, size_t lines_len,
                     uint64_t *reader, size_t reader_len);

/* The source's own check: 0 where it passes, slot + 2^32 * (100 + t) where its test t fails first, at that slot. A tree
 * that passes need not be sound. Refusals 1, 9. */
uint64_t oz_check(const uint64_t *names, size_t names_len, const uint32_t *cells, size_t cells_len,
                  const uint32_t *head, size_t head_len);

/* The full check: 1 exactly if the tree is sound, its sizes included, else 0. Refusal 1. */
uint64_t oz_sound(const uint64_t *names, size_t names_len, const uint32_t *cells, size_t cells_len,
                  const uint32_t *head, size_t head_len, const uint32_t *sizes, size_t sizes_len);

/* Why the tree is not sound: the number of the first broken rule, 1 to 8 for T1 to T8, or 0 exactly if the tree is sound.
 * shown[0] is the lowest slot that shows it, OZ_NULL where only the header does (T1, T2); with 4 shown[1] is the slot next in
 * order, whose pair is not above. With 6 two ways from the root by that slot meet unequally many black slots, the first by its
 * left link and the second by its right: shown[2] and shown[5] are their last slots, shown[3] and shown[6] the sides of the
 * null links that they end at, shown[4] and shown[7] the black slots. Every other word, and each for a sound tree, is OZ_NULL.
 * Refusal 1 (for a shown that is not 8 words, too), with shown as it was; nothing else is written. */
uint64_t oz_why(const uint64_t *names, size_t names_len, const uint32_t *cells, size_t cells_len, const uint32_t *head,
                size_t head_len, const uint32_t *sizes, size_t sizes_len, uint32_t *shown, size_t shown_len);

/* What can be saved of a damaged tree: each slot with state 1 or 2 whose pair is in no lower kept slot is inserted into the
 * second tree, names2, cells2, head2 and sizes2, which is empty and has as many slots. Of the first tree only names and cells
 * are lent: slots are read by number, and no link is followed. The slots kept; they stand in slots 0, 1, 2 and so on of the
 * second tree, in their order, with their pairs and places. report[i] says what became of slot i: 0 kept, 1 free, 2 of a state
 * above 2, 3 + s where the lower slot s was kept with its pair; words past the slots stay. The second tree is then sound. From
 * a sound tree it gives the same pairs and places, listed by slot number with the last first. Write the second tree's journal
 * anew: its length is 0. Refusal 1 (for a second tree that is not empty or of another capacity, and for a report with fewer
 * words than slots, too), and nothing was written. */
uint64_t oz_salvage(const uint64_t *names, size_t names_len, const uint32_t *cells, size_t cells_len, uint64_t *names2,
                    size_t names2_len, uint32_t *cells2, size_t cells2_len, uint32_t *head2, size_t head2_len,
                    uint32_t *sizes2, size_t sizes2_len, uint32_t *report, size_t report_len);

/* The slot of the pair at position k in order, by hash and then key, counted from 0. Refusals 1, 2, 15 where k is not
 * below the count. */
uint64_t oz_kth(const uint64_t *names, size_t names_len, const uint32_t *cells, size_t cells_len, const uint32_t *head,
                size_t head_len, const uint32_t *sizes, size_t sizes_len, uint32_t k);

/* The position of the pair in that order: how many pairs come before it. Refusals 1, 2, 4. */
uint64_t oz_position(const uint64_t *names, size_t names_len, const uint32_t *cells, size_t cells_len,
                     const uint32_t *head, size_t head_len, const uint32_t *sizes, size_t sizes_len, uint64_t hash,
                     uint64_t key);

/* 1 exactly if the frozen set is accepted, else 0. Refusal 1. */
uint64_t oz_accept(const uint32_t *lengths, size_t lengths_len, const uint32_t *bins, size_t bins_len,
                   const uint32_t *heads, size_t heads_len, const uint64_t *names, size_t names_len,
                   const uint32_t *cells, size_t cells_len);

/* The slot that has the pair, sought from this table on, or OZ_NULL where none has, with the looks, in a list those at
 * its slots: at most n, with 1 and 10 none. Refusals 1, 10, 9; on an accepted set 10 alone. */
uint64_t oz_lookup(const uint32_t *lengths, size_t lengths_len, const uint32_t *bins, size_t bins_len,
                   const uint32_t *heads, size_t heads_len, const uint64_t *names, size_t names_len,
                   const uint32_t *cells, size_t cells_len, uint32_t table, uint64_t hash, uint64_t key);

/* Writes a cursor at the first bin of the table; the value is 1. Refusals 1 (for a cursor that is not 11 words, too),
 * 10, each with the cursor as it was. */
uint64_t oz_start(const uint32_t *lengths, size_t lengths_len, const uint32_t *bins, size_t bins_len,
                  const uint32_t *heads, size_t heads_len, const uint64_t *names, size_t names_len,
                  const uint32_t *cells, size_t cells_len, uint32_t table, uint32_t *cursor, size_t cursor_len);

/* The next entry's slot, or OZ_NULL where the walk is done; the cursor is moved on. Refusals 1 (for a cursor that is
 * not 11 words, too), 11, 9, each with the cursor as it was. */
uint64_t oz_walk(const uint32_t *lengths, size_t lengths_len, const uint32_t *bins, size_t bins_len,
                 const uint32_t *heads, size_t heads_len, const uint64_t *names, size_t names_len,
                 const uint32_t *cells, size_t cells_len, uint32_t *cursor, size_t cursor_len);

/* Writes the set's file at the front of out, and answers the number of its bytes; those behind it stay, and the set is only
 * read. Refusals 1 (for an out with fewer bytes than the file, too), 2 where the set is not accepted; nothing was written. */
uint64_t oz_save(const uint32_t *lengths, size_t lengths_len, const uint32_t *bins, size_t bins_len,
                 const uint32_t *heads, size_t heads_len, const uint64_t *names, size_t names_len,
                 const uint32_t *cells, size_t cells_len, uint8_t *out, size_t out_len);

/* Begins a file: writes the loader, whatever its words were; the value is 1. Refusal 1 for a loader that is not 8 words, with
 * the loader as it was. */
uint64_t oz_load_start(uint64_t *loader, size_t loader_len);

/* Takes the bytes of a chunk one after the other, and writes each word into its slice when its last byte has come; answers the
 * bytes taken since the start. Wherever a file is cut, the answers and all words are the same, where nobody else writes them
 * between the calls. The slices may hold anything, and may be longer than the set's. Refusals 14 at the last byte of a count that
 * passes its limit or its slice (of slots names or cells), 13 at a byte after the last section: every word of the five slices
 * becomes 0, the answer is noted in the loader, whose other words stay as they were before that byte, and every later chunk and
 * end call give it again and change nothing, whatever is lent. 1 where the loader is not 8 words or one is out of its range, or,
 * nothing being noted, where a slice is too short for a count that was taken: not noted, and nothing changes. */
uint64_t oz_load_chunk(uint32_t *lengths, size_t lengths_len, uint32_t *bins, size_t bins_len, uint32_t *heads,
                       size_t heads_len, uint64_t *names, size_t names_len, uint32_t *cells, size_t cells_len,
                       uint64_t *loader, size_t loader_len, const uint8_t *chunk, size_t chunk_len);

/* The file has ended: answers its bytes exactly if it is the file of an accepted set. The set stands at the front of the slices,
 * as many words of each as the counts say: loader[3] of lengths, loader[4] of bins, 3 * loader[5] of heads, 2 * loader[6] of
 * names and 7 * loader[6] of cells. Lend so many to the other calls. The rest of each slice is 0, and the answer is noted, so that
 * a later chunk gives it again. Refusals 12 where the last section is not whole, then 1 where the set does not fit and 2 where it
 * is not accepted, each noted and with every word of the five slices 0, as of a chunk. There is a second 1, that of a chunk, which
 * is not noted and changes nothing; the number is the same, but after the first loader[7] has become 1 + 2^32, and after the
 * second it is what it was. */
uint64_t oz_load_end(uint32_t *lengths, size_t lengths_len, uint32_t *bins, size_t bins_len, uint32_t *heads,
                     size_t heads_len, uint64_t *names, size_t names_len, uint32_t *cells, size_t cells_len,
                     uint64_t *loader, size_t loader_len);

/* Moves one bin of a table to the next table, and answers the entries moved: those whose hash names the same index below go there,
 * the others to that plus the table's length, each half in the order of the bin, and the bin's word becomes 1, Moved. A half of one
 * to six is a list, a larger one a tree, which takes a header: the lowest that no bin names, the bin's own among them, the low half
 * first. The set stays accepted; slots keep their numbers, pairs and places, and lookups from table 0 give the same slots. Only
 * bins, heads and cells are written. A cursor from before the move is only safe to use: what it gives may repeat or leave out
 * entries. Refusals 1, 10, 2 where the set is not accepted, 16, 5 where there are too few headers. */
uint64_t oz_move(const uint32_t *lengths, size_t lengths_len, uint32_t *bins, size_t bins_len, uint32_t *heads,
                 size_t heads_len, const uint64_t *names, size_t names_len, uint32_t *cells, size_t cells_len,
                 uint32_t table, uint32_t bin);

/* Adds a set to the totals, and answers 1 where it is counted as accepted, 0 where as refused: a set that does not fit or is not
 * accepted adds one to totals[1] and nothing else. Refusals 1 where the totals are not 39 words or one is out of its range, 17
 * where a million sets are counted; the totals stay then. */
uint64_t oz_tally(const uint32_t *lengths, size_t lengths_len, const uint32_t *bins, size_t bins_len,
                  const uint32_t *heads, size_t heads_len, const uint64_t *names, size_t names_len,
                  const uint32_t *cells, size_t cells_len, uint64_t *totals, size_t totals_len);

#ifdef __cplusplus
}
#endif

/* An index: its five slices, with the lengths that n = slots and c = journal give them. The calls below are those of the same name
 * on these slices, and answer the same words. */
typedef struct oz_index {
    uint64_t *names;
    uint32_t *cells;
    uint32_t *head;
    uint32_t *sizes;
    uint64_t *lines;
    size_t slots;   /* the slots, 1 to 4,096 */
    size_t journal; /* the lines that the journal has room for, 0 to 1,024 */
} oz_index;

/* The slices as arguments: what oz_find is lent, what oz_position is lent, and all five. */
#define OZ_TREE_OF(ix) (ix)->names, OZ_NAMES_WORDS((ix)->slots), (ix)->cells, OZ_CELLS_WORDS((ix)->slots), (ix)->head, OZ_HEAD_WORDS
#define OZ_SIZED_OF(ix) OZ_TREE_OF(ix), (ix)->sizes, OZ_SIZES_WORDS((ix)->slots)
#define OZ_INDEX_OF(ix) OZ_SIZED_OF(ix), (ix)->lines, OZ_LINES_WORDS((ix)->journal)

static inline uint64_t oz_index_fresh(oz_index *ix) { return oz_fresh(OZ_INDEX_OF(ix)); }

static inline uint64_t oz_index_find(const oz_index *ix, uint64_t hash, uint64_t key) { return oz_find(OZ_TREE_OF(ix), hash, key); }

static inline uint64_t oz_index_insert(oz_index *ix, uint64_t hash, uint64_t key, uint32_t place) {
    return oz_insert(OZ_INDEX_OF(ix), hash, key, place);
}

static inline uint64_t oz_index_remove(oz_index *ix, uint64_t hash, uint64_t key) { return oz_remove(OZ_INDEX_OF(ix), hash, key); }

static inline uint64_t oz_index_replace(oz_index *ix, uint64_t hash, uint64_t key, uint32_t place) {
    return oz_replace(OZ_INDEX_OF(ix), hash, key, place);
}

/* The journal's length, the mark to roll back to. */
static inline uint32_t oz_index_mark(const oz_index *ix) { return (uint32_t)ix->lines[0]; }

static inline uint64_t oz_index_rollback(oz_index *ix, uint32_t mark) { return oz_rollback(OZ_INDEX_OF(ix), mark); }

/* Keeps what was entered and begins a new journal: all its lines are there again, nothing from before can be taken back, and marks
 * from before mean nothing any more. Not between the calls of an upload. */
static inline void oz_index_begin_journal(oz_index *ix) { ix->lines[0] = 0; }

static inline uint64_t oz_index_batch(oz_index *ix, const uint64_t *calls, size_t calls_len, uint64_t *answers, size_t answers_len) {
    return oz_batch(OZ_INDEX_OF(ix), calls, calls_len, answers, answers_len);
}

static inline uint64_t oz_index_kth(const oz_index *ix, uint32_t k) { return oz_kth(OZ_SIZED_OF(ix), k); }

static inline uint64_t oz_index_position(const oz_index *ix, uint64_t hash, uint64_t key) {
    return oz_position(OZ_SIZED_OF(ix), hash, key);
}

static inline uint64_t oz_index_check(const oz_index *ix) { return oz_check(OZ_TREE_OF(ix)); }

static inline uint64_t oz_index_sound(const oz_index *ix) { return oz_sound(OZ_SIZED_OF(ix)); }

static inline uint64_t oz_index_why(const oz_index *ix, uint32_t shown[OZ_SHOWN_WORDS]) {
    return oz_why(OZ_SIZED_OF(ix), shown, OZ_SHOWN_WORDS);
}

/* Saves what can be saved of ix in second, which has as many slots and is empty; report has as many words as ix has slots. */
static inline uint64_t oz_index_salvage(const oz_index *ix, oz_index *second, uint32_t *report) {
    return oz_salvage(ix->names, OZ_NAMES_WORDS(ix->slots), ix->cells, OZ_CELLS_WORDS(ix->slots), OZ_SIZED_OF(second), report,
                      OZ_REPORT_WORDS(ix->slots));
}

static inline uint64_t oz_index_read_start(const oz_index *ix, uint64_t reader[OZ_READER_WORDS]) {
    return oz_read_start(OZ_INDEX_OF(ix), reader, OZ_READER_WORDS);
}

static inline uint64_t oz_index_read_chunk(oz_index *ix, uint64_t reader[OZ_READER_WORDS], const uint8_t *chunk, size_t chunk_len) {
    return oz_read_chunk(OZ_INDEX_OF(ix), reader, OZ_READER_WORDS, chunk, chunk_len);
}

static inline uint64_t oz_index_read_end(oz_index *ix, uint64_t reader[OZ_READER_WORDS]) {
    return oz_read_end(OZ_INDEX_OF(ix), reader, OZ_READER_WORDS);
}

/* What stands in a slot, which is below ix->slots, and in the header. The listing is the chain: from oz_index_first, the last
 * insert first, by the link OZ_NEXT to OZ_NULL. In a tree that is not sound a link may be any number, and the chain a ring. */
static inline uint64_t oz_index_hash(const oz_index *ix, uint32_t slot) { return ix->names[2 * (size_t)slot + OZ_HASH]; }
static inline uint64_t oz_index_key(const oz_index *ix, uint32_t slot) { return ix->names[2 * (size_t)slot + OZ_KEY]; }
static inline uint32_t oz_index_cell(const oz_index *ix, uint32_t slot, unsigned field) { return ix->cells[7 * (size_t)slot + field]; }
static inline uint32_t oz_index_place(const oz_index *ix, uint32_t slot) { return oz_index_cell(ix, slot, OZ_PLACE); }
static inline uint32_t oz_index_next(const oz_index *ix, uint32_t slot) { return oz_index_cell(ix, slot, OZ_NEXT); }
static inline uint32_t oz_index_first(const oz_index *ix) { return ix->head[OZ_FIRST]; }
static inline uint32_t oz_index_count(const oz_index *ix) { return ix->head[OZ_COUNT]; }

/* How many pairs on the chain come before this one, by hash and then key. In a sound tree that has the pair it is what oz_position
 * answers. It reads the used slots alone and checks nothing; on any words it ends after as many slots as there are, and reads
 * none that is not there. */
static inline uint32_t oz_index_before(const oz_index *ix, uint64_t hash, uint64_t key) {
    uint32_t before = 0, at = oz_index_first(ix);
    for (size_t left = ix->slots; left > 0 && at < ix->slots; left--, at = oz_index_next(ix, at)) {
        uint64_t h = oz_index_hash(ix, at);
        before += h < hash || (h == hash && oz_index_key(ix, at) < key);
    }
    return before;
}

#endif
