/* Recorded tests: drawn in nine sorts, legal and not. Each is written to bytes that just fit, that are more, and that are one short; what is
 * written is read back with eight cutoffs, in range and not; and every two of nine variants of it are compared. Two small files as they are written stand
 * here too, and the longest one. In order: drawing, variants, the questions. Files by their text are in files.c. */
#include "both.h"
#include <string.h>

typedef struct {
    uint64_t words[RG_TEST_WORDS];
    int32_t readings[RG_READINGS];
} Drawn;

/* --- drawing: the same at every run */

static uint64_t state;

static uint64_t draw(void) {
    state ^= state << 13;
    state ^= state >> 7;
    state ^= state << 17;
    return state;
}

/* The first thirteen are in range. */
static const int32_t values[] = {0, 1, -1, 7, -42, 123, -4567, 89012, -345678, 999999, -999999, 1000000, -1000000, 1000001, -1000001, INT32_MAX, INT32_MIN};

enum { LEGAL, WHOLE, PATTERNS, SHAPES, OUTSIDE, ABSENT, PATTERN_READING, RANGE, ABSENT_AND_RANGE, SORTS };

static int32_t drawn_reading(int sort, bool entry) {
    uint64_t x = draw();
    if (entry && sort != PATTERNS) return values[x % (sort == RANGE || sort == ABSENT_AND_RANGE ? 17 : 13)];
    return !entry && (sort == ABSENT || sort == ABSENT_AND_RANGE) && x % 512 == 0 ? values[x / 512 % 13] : 0;
}

static void draw_test(Drawn *t, int sort, uint64_t seed) {
    memset(t, 0, sizeof *t);
    state = 88172645463325252u ^ seed << 20 ^ (uint64_t)sort;
    uint64_t x = (draw(), draw()), gauges = sort == WHOLE ? 64 : 1 + x % 9, cases = sort == WHOLE ? 64 : 1 + x / 16 % 9;
    t->words[RG_TEST_KIND] = sort == PATTERNS || sort == PATTERN_READING ? RG_PATTERN : RG_INTEGER;
    for (uint64_t g = 0; g < gauges; g++) t->words[RG_TEST_ROWS + g] = draw() & lowest((int)cases);
    if (sort == OUTSIDE) t->words[RG_TEST_ROWS + x % 64] |= (uint64_t)1 << 63;
    for (int p = 0; p < RG_READINGS; p++) t->readings[p] = drawn_reading(sort, t->words[RG_TEST_ROWS + p / 64] >> p % 64 & 1);
    t->words[RG_TEST_GAUGES] = sort == SHAPES ? x % 2 * 65 : gauges;
    t->words[RG_TEST_CASES] = cases;
}

/* --- variants: 1 and 2 have readings of one magnitude at 1:1, 3 a listed zero there, 4 no entry there; 5 has a case more, 6 a gauge more; 7 and 8 have no
 * reading but zero, as an integer test and as one of pairs; 0 is the test as it is. */
static void settle(Drawn *t, int how) {
    if (how >= 1 && how <= 3) t->words[RG_TEST_ROWS] |= 1;
    if (how == 4) t->words[RG_TEST_ROWS] &= ~(uint64_t)1;
    if (how >= 1 && how <= 4) t->readings[0] = how == 1 ? 999999 : how == 2 ? -999999 : 0;
    if (how == 5) t->words[RG_TEST_CASES]++;
    if (how == 6) t->words[RG_TEST_GAUGES]++;
    if (how < 7) return;
    memset(t->readings, 0, sizeof t->readings);
    t->words[RG_TEST_KIND] = how == 7 ? RG_INTEGER : RG_PATTERN;
}

/* --- the questions */

static uint8_t file[RG_TEST_BYTES + 100];

static void read_back(const Drawn *t, size_t n) {
    static const uint64_t cutoffs[] = {0, 1, 42, 43, 1000000, 1000001, (uint64_t)1 << 32 | 1, UINT64_MAX};
    for (int i = 0; i < 8; i++) ask_read_test(file, n, cutoffs[i]);
    must(ask_read_test(file, n, 42) == 0, "what is written is read");
    must(!memcmp(given(1), t->words, sizeof t->words) && !memcmp(given_bytes(2), t->readings, sizeof t->readings), "the test that was written");
    ask_read(file, n);
    ask_comment(file, n, 1);
}

static void write_it(const Drawn *t) {
    if (ask_write_test(t->words, t->readings, RG_TEST_BYTES + 9)) {
        ask_write_test(t->words, t->readings, 0);
        return;
    }
    size_t n = (size_t)given(3)[0];
    memcpy(file, given_bytes(2), n);
    ask_write_test(t->words, t->readings, n);
    ask_write_test(t->words, t->readings, n - 1);
    ask_write_test(t->words, t->readings, 0);
    read_back(t, n);
}

static void one_test(const Drawn *t, const Drawn *next) {
    static Drawn variant[9];
    write_it(t);
    ask_equal(t->words, t->readings, next->words, next->readings);
    for (int i = 0; i < 9; i++) {
        variant[i] = *t;
        settle(&variant[i], i);
    }
    for (int i = 0; i < 81; i++) ask_equal(variant[i / 9].words, variant[i / 9].readings, variant[i % 9].words, variant[i % 9].readings);
}

/* Kinds that are none, in every mixture with what is refused besides. */
static void kinds(void) {
    static const uint64_t kind[] = {0, 1, 2, 3, 257, (uint64_t)1 << 32 | 2, UINT64_MAX};
    static Drawn good, t;
    draw_test(&good, LEGAL, 1);
    for (int k = 0; k < 7; k++)
        for (int sort = 0; sort < SORTS; sort++)
            for (short_piece = -1; short_piece < 5; short_piece++) {
                draw_test(&t, sort, 3);
                t.words[RG_TEST_KIND] = kind[k];
                ask_write_test(t.words, t.readings, RG_TEST_BYTES);
                ask_write_test(t.words, t.readings, 3);
                ask_equal(t.words, t.readings, good.words, good.readings);
                ask_equal(good.words, good.readings, t.words, t.readings);
                ask_equal(t.words, t.readings, t.words, t.readings);
            }
    short_piece = -1;
}

static void shown(uint64_t kind, const char *text) {
    static Drawn t;
    memset(&t, 0, sizeof t);
    t.words[RG_TEST_KIND] = kind;
    t.words[RG_TEST_GAUGES] = 2;
    t.words[RG_TEST_CASES] = 3;
    t.words[RG_TEST_ROWS] = 5;
    t.words[RG_TEST_ROWS + 1] = 2;
    t.readings[0] = kind == RG_INTEGER ? -42 : 0;
    t.readings[65] = kind == RG_INTEGER ? 7 : 0;
    must(ask_write_test(t.words, t.readings, 200) == 0 && given(3)[0] == strlen(text) && !memcmp(given_bytes(2), text, strlen(text)), "the file as written");
}

static void longest(void) {
    static Drawn t;
    t.words[RG_TEST_KIND] = RG_INTEGER;
    t.words[RG_TEST_GAUGES] = t.words[RG_TEST_CASES] = 64;
    memset(t.words + RG_TEST_ROWS, 0xff, 64 * sizeof *t.words);
    for (int p = 0; p < RG_READINGS; p++) t.readings[p] = -1000000;
    must(ask_write_test(t.words, t.readings, RG_TEST_BYTES) == 0 && given(3)[0] == RG_TEST_BYTES, "60,348 bytes");
    must(ask_write_test(t.words, t.readings, RG_TEST_BYTES - 1) == RG_BUFFER, "one byte short");
    write_it(&t);
}

void recorded(void) {
    static Drawn a, b;
    for (int sort = 0; sort < SORTS; sort++)
        for (uint64_t seed = 1; seed <= 12; seed++) {
            draw_test(&a, sort, seed);
            draw_test(&b, sort, seed + 1);
            one_test(&a, &b);
        }
    kinds();
    longest();
    shown(RG_INTEGER, "%%MatrixMarket matrix coordinate integer general\n2 3 3\n1 1 -42\n1 3 0\n2 2 7\n");
    shown(RG_PATTERN, "%%MatrixMarket matrix coordinate pattern general\n2 3 3\n1 1\n1 3\n2 2\n");
}
