/* Checksums behind a change. A saved run has the sum of its own lines, the last line of an output that of the bytes ahead of it, the line of a part that of
 * its table. A change that leaves them wrong comes no further than where they are compared; so most changes are followed by this. */
#define _GNU_SOURCE /* memmem */
#include "../../include/ragymolev.h"
#include "rim.h"
#include <inttypes.h>
#include <stdio.h>
#include <stdlib.h>
#include <string.h>

#define DIGITS 16
#define LONGEST_LINE 1024

uint64_t sum_of(const uint8_t *bytes, size_t length) {
    uint64_t sum = 0xcbf29ce484222325u;
    for (size_t i = 0; i < length; i++) sum = (sum ^ bytes[i]) * 0x100000001b3u;
    return sum;
}

/* The last line of a saved run, where the file has one. */
static void mend_run(Piece *file) {
    static const char word[] = "\ncheck ";
    size_t tail = strlen(word) + DIGITS + 1;
    char line[32];
    if (file->length < tail) return;
    uint8_t *at = file->bytes + file->length - tail;
    if (memcmp(at, word, strlen(word))) return;
    snprintf(line, sizeof line, "%016" PRIx64, sum_of(file->bytes, file->length - tail + 1));
    memcpy(at + strlen(word), line, DIGITS);
}

/* A last line, from `bytes` on: as the bytes ahead of it have it. Behind the line. */
static size_t mend_whole(Piece *file, size_t start, size_t line, size_t end) {
    char text[LONGEST_LINE];
    uint8_t *word = memmem(file->bytes + line, end - line, " bytes ", strlen(" bytes "));
    if (!word) return end;
    size_t at = (size_t)(word - file->bytes);
    int length = snprintf(text, sizeof text, " bytes %zu sum %016" PRIx64 "\n", line - start, sum_of(file->bytes + start, line - start));
    replace(file, at, end - at, text, (size_t)length);
    return at + (size_t)length;
}

static void mend_output(Piece *file) {
    static const char mark[] = "% whole ";
    for (size_t start = 0, line = 0; line < file->length;) {
        const uint8_t *from = file->bytes + line, *stop = memchr(from, '\n', file->length - line);
        size_t end = stop ? (size_t)(stop - file->bytes) + 1 : file->length;
        bool whole = end - line > strlen(mark) && !memcmp(from, mark, strlen(mark));
        size_t behind = whole ? mend_whole(file, start, line, end) : end;
        if (behind > file->length || behind <= line) return;
        if (whole) start = behind;
        line = behind;
    }
}

/* The sum of a table as it stands in the lines of its parts; false where there is no table. */
static bool table_sum(const Input *input, char *digits) {
    const Piece *file = piece_named(input, "table");
    uint64_t table[RG_TABLE_WORDS];
    uint8_t bytes[8 * RG_TABLE_WORDS];
    if (!file || rg_read(file->bytes, file->length, table, RG_TABLE_WORDS)) return false;
    for (size_t i = 0; i < sizeof bytes; i++) bytes[i] = (uint8_t)(table[i / 8] >> 8 * (i % 8));
    snprintf(digits, DIGITS + 1, "%016" PRIx64, sum_of(bytes, sizeof bytes));
    return true;
}

/* Where the table has become another, its sum becomes that of the other one wherever it stands. */
static void mend_table(Input *input, const Input *before) {
    char old[DIGITS + 1], made[DIGITS + 1];
    if (!table_sum(before, old) || !table_sum(input, made) || !strcmp(old, made)) return;
    for (size_t i = 0; i < input->count; i++) {
        Piece *piece = &input->piece[i];
        uint8_t *at = piece->bytes;
        while ((at = memmem(at, piece->length - (size_t)(at - piece->bytes), old, DIGITS))) memcpy(at, made, DIGITS);
    }
}

void mend_sums(Input *input, const Input *before) {
    mend_table(input, before);
    for (size_t i = input->words; i < input->count; i++) {
        mend_output(&input->piece[i]);
        mend_run(&input->piece[i]);
    }
}
