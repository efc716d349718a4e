/* A dump of a live index, for whoever is to see why it answers 2: n and c, then names, cells, head, sizes and lines, every word in its own
 * width with the lowest byte first, on any machine. It is 28 + 48 n + 48 c bytes long, and the index is only read. */
#ifndef DUMP_H
#define DUMP_H
#include <stddef.h>
#include <stdint.h>
#include <stdio.h>

static void dump_word(FILE *out, uint64_t word, int bytes) {
    for (; bytes > 0; bytes--, word >>= 8) {
        putc((int)(word & 255), out);
    }
}

static void dump_wide(FILE *out, const uint64_t *words, size_t len) {
    for (size_t k = 0; k < len; k++) {
        dump_word(out, words[k], 8);
    }
}

static void dump_narrow(FILE *out, const uint32_t *words, size_t len) {
    for (size_t k = 0; k < len; k++) {
        dump_word(out, words[k], 4);
    }
}

/* The five slices come in the order of oz_insert, each a pointer and a number of words. It answers 0 where all bytes were written. */
static int dump_index(FILE *out, const uint64_t *names, size_t names_len, const uint32_t *cells, size_t cells_len, const uint32_t *head,
                      size_t head_len, const uint32_t *sizes, size_t sizes_len, const uint64_t *lines, size_t lines_len) {
    dump_word(out, names_len / 2, 4);
    dump_word(out, (lines_len - 1) / 6, 4);
    dump_wide(out, names, names_len);
    dump_narrow(out, cells, cells_len);
    dump_narrow(out, head, head_len);
    dump_narrow(out, sizes, sizes_len);
    dump_wide(out, lines, lines_len);
    return fflush(out) != 0 || ferror(out);
}

#endif
