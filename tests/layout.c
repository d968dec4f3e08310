/* Every size and every offset of include/ragymolev.h, against what the library does. First the sizes: each entry takes memory of exactly its layouts,
 * refuses one element less with RG_SHORT, and leaves one element more as it was. Then the offsets: known values go through the library, and
 * stand where the header says. Last the structs: every member is at its offset and as long as it should be, by its place and by the words that stand
 * there, and a struct that is lent holds what the words would. */
#include "check.h"
#include <stddef.h>

static const uint64_t first_of_k3[RG_CHAIN_WORDS] = {3, 3, 3, 2};
static const uint64_t second_of_k3[RG_CHAIN_WORDS] = {3, 2, 2, 6};

/* Whether the words from `at` on are these, and zeros up to the end of a set of rows. */
static int rows_are(const uint64_t *at, uint64_t a, uint64_t b, uint64_t c) {
    int i, same = at[0] == a && at[1] == b && at[2] == c;
    for (i = 3; i < RG_ROWS; i++) same = same && at[i] == 0;
    return same;
}

/* --- sizes. Each piece of memory has room for one element more than its layout, which holds a mark. */

#define MARK 0x5a5a5a5au
enum { BYTES = RG_FILE_BYTES + 1 };

static uint64_t table[RG_TABLE_WORDS + 1], order[RG_ORDER_WORDS + 1], chain[RG_CHAIN_WORDS + 1], ladder[RG_CHAIN_WORDS + 1];
static uint64_t run[RG_RUN_WORDS + 1], by_cases[RG_RUN_WORDS + 1], step[RG_STEP_WORDS + 1], count[RG_COUNT_WORDS + 1], one[RG_ONE_WORDS + 1];
static uint64_t pairs[RG_PAIRS_WORDS + 1], cover[RG_COVER_WORDS + 1], proposal[RG_PROPOSAL_WORDS + 1], span[RG_SPAN_WORDS + 1];
static uint64_t test[RG_TEST_WORDS + 1], made[RG_TABLE_WORDS + 1], grown[RG_CHAIN_WORDS + 1], numbers[RG_NUMBERS_WORDS + 1];
static uint64_t part[RG_RUN_WORDS + 1], batch[RG_BATCH_WORDS + 1], listed[RG_RUN_WORDS + 1];
static int32_t readings[RG_READINGS + 1];
static uint8_t bytes[BYTES], words[RG_WORDS_BYTES + 1];
static uint64_t plain[RG_ORDER_WORDS + 1];
static const char file[] = "%%MatrixMarket matrix coordinate pattern general\n%note\n3 3 6\n1 1\n1 2\n2 1\n2 2\n3 2\n3 3\n";
#define FILE_LENT (const uint8_t *)file, sizeof file - 1

static uint64_t at_words(const size_t *n) { return rg_words(14, words, n[0], one, n[1]); }
static uint64_t at_plain_order(const size_t *n) { return rg_plain_order(3, plain, n[0]); }
static uint64_t at_read(const size_t *n) { return rg_read(FILE_LENT, made, n[0]); }
static uint64_t at_locate(const size_t *n) { return rg_locate(FILE_LENT, 0, one, n[0]); }
static uint64_t at_comment(const size_t *n) { return rg_comment(FILE_LENT, 1, span, n[0]); }
static uint64_t at_write(const size_t *n) { return rg_write(table, n[0], bytes, BYTES, one, n[1]); }
static uint64_t at_sample(const size_t *n) { return rg_sample(3, 3, 1, 128, made, n[0]); }
static uint64_t at_judge_chain(const size_t *n) { return rg_judge_chain(table, n[0], chain, n[1], one, n[2]); }
static uint64_t at_judge_ladder(const size_t *n) { return rg_judge_ladder(table, n[0], chain, n[1], one, n[2]); }
static uint64_t at_start_gauges(const size_t *n) { return rg_start_gauges(table, n[0], order, n[1], 0, run, n[2]); }
static uint64_t at_start_cases(const size_t *n) { return rg_start_cases(table, n[0], order, n[1], 0, by_cases, n[2]); }
static uint64_t at_candidates_gauges(const size_t *n) { return rg_candidates_gauges(run, n[0], numbers, n[1]); }
static uint64_t at_candidates_cases(const size_t *n) { return rg_candidates_cases(by_cases, n[0], numbers, n[1]); }
static uint64_t at_part_gauges(const size_t *n) { return rg_part_gauges(run, n[0], 3, part, n[1]); }
static uint64_t at_part_cases(const size_t *n) { return rg_part_cases(by_cases, n[0], 2, part, n[1]); }
static uint64_t at_run_gauges(const size_t *n) { return rg_run_gauges(run, n[0], 9, step, n[1]); }
static uint64_t at_run_cases(const size_t *n) { return rg_run_cases(by_cases, n[0], 9, step, n[1]); }
static uint64_t at_list_gauges(const size_t *n) { return rg_list_gauges(listed, n[0], 9, batch, n[1]); }
static uint64_t at_list_cases(const size_t *n) { return rg_list_cases(by_cases, n[0], 9, batch, n[1]); }
static uint64_t at_explain_gauge(const size_t *n) { return rg_explain_gauge(run, n[0], 3, 3, one, n[1]); }
static uint64_t at_explain_case(const size_t *n) { return rg_explain_case(by_cases, n[0], 1, 1, one, n[1]); }
static uint64_t at_count(const size_t *n) { return rg_count(table, n[0], order, n[1], 99, count, n[2]); }
static uint64_t at_grow(const size_t *n) { return rg_grow(table, n[0], order, n[1], chain, n[2], grown, n[3]); }
static uint64_t at_sequence_gauges(const size_t *n) { return rg_sequence_gauges(table, n[0], order, n[1], ladder, n[2], numbers, n[3]); }
static uint64_t at_sequence_cases(const size_t *n) { return rg_sequence_cases(table, n[0], order, n[1], ladder, n[2], numbers, n[3]); }
static uint64_t at_rivals(const size_t *n) { return rg_rivals(table, n[0], 1, 1, pairs, n[1]); }
static uint64_t at_decides(const size_t *n) { return rg_decides(table, n[0], 1, 1, one, n[1]); }
static uint64_t at_cover(const size_t *n) { return rg_cover(table, n[0], 99, cover, n[1]); }
static uint64_t at_wiring(const size_t *n) { return rg_wiring(table, n[0], chain, n[1], ladder, n[2], bytes, BYTES, one, n[3]); }
static uint64_t at_trial(const size_t *n) { return rg_trial(table, n[0], ladder, n[1], 3, 1, proposal, n[2]); }
static uint64_t at_commit(const size_t *n) { return rg_commit(proposal, n[0], table, n[1], made, n[2]); }
static uint64_t at_read_test(const size_t *n) { return rg_read_test(FILE_LENT, 5, test, n[0], readings, n[1], made, n[2]); }
static uint64_t at_write_test(const size_t *n) { return rg_write_test(test, n[0], readings, n[1], bytes, BYTES, one, n[2]); }
static uint64_t at_equal(const size_t *n) { return rg_equal(test, n[0], readings, n[1], test, n[2], readings, n[3], one, n[4]); }

/* The entries in an order in which each finds what it needs: the layouts of its memory, 0 behind the last. */
typedef struct {
    const char *name;
    uint64_t (*call)(const size_t *);
    size_t layouts[6];
} Entry;

static const Entry entries[] = {
    {"rg_words", at_words, {RG_WORDS_BYTES, RG_ONE_WORDS}},
    {"rg_plain_order", at_plain_order, {RG_ORDER_WORDS}},
    {"rg_read", at_read, {RG_TABLE_WORDS}},
    {"rg_locate", at_locate, {RG_ONE_WORDS}},
    {"rg_comment", at_comment, {RG_SPAN_WORDS}},
    {"rg_write", at_write, {RG_TABLE_WORDS, RG_ONE_WORDS}},
    {"rg_sample", at_sample, {RG_TABLE_WORDS}},
    {"rg_judge_chain", at_judge_chain, {RG_TABLE_WORDS, RG_CHAIN_WORDS, RG_ONE_WORDS}},
    {"rg_judge_ladder", at_judge_ladder, {RG_TABLE_WORDS, RG_CHAIN_WORDS, RG_ONE_WORDS}},
    {"rg_start_gauges", at_start_gauges, {RG_TABLE_WORDS, RG_ORDER_WORDS, RG_RUN_WORDS}},
    {"rg_start_cases", at_start_cases, {RG_TABLE_WORDS, RG_ORDER_WORDS, RG_RUN_WORDS}},
    {"rg_candidates_gauges", at_candidates_gauges, {RG_RUN_WORDS, RG_NUMBERS_WORDS}},
    {"rg_candidates_cases", at_candidates_cases, {RG_RUN_WORDS, RG_NUMBERS_WORDS}},
    {"rg_part_gauges", at_part_gauges, {RG_RUN_WORDS, RG_RUN_WORDS}},
    {"rg_part_cases", at_part_cases, {RG_RUN_WORDS, RG_RUN_WORDS}},
    {"rg_run_gauges", at_run_gauges, {RG_RUN_WORDS, RG_STEP_WORDS}},
    {"rg_run_cases", at_run_cases, {RG_RUN_WORDS, RG_STEP_WORDS}},
    {"rg_list_gauges", at_list_gauges, {RG_RUN_WORDS, RG_BATCH_WORDS}},
    {"rg_list_cases", at_list_cases, {RG_RUN_WORDS, RG_BATCH_WORDS}},
    {"rg_count", at_count, {RG_TABLE_WORDS, RG_ORDER_WORDS, RG_COUNT_WORDS}},
    {"rg_grow", at_grow, {RG_TABLE_WORDS, RG_ORDER_WORDS, RG_CHAIN_WORDS, RG_CHAIN_WORDS}},
    {"rg_sequence_gauges", at_sequence_gauges, {RG_TABLE_WORDS, RG_ORDER_WORDS, RG_CHAIN_WORDS, RG_NUMBERS_WORDS}},
    {"rg_sequence_cases", at_sequence_cases, {RG_TABLE_WORDS, RG_ORDER_WORDS, RG_CHAIN_WORDS, RG_NUMBERS_WORDS}},
    {"rg_rivals", at_rivals, {RG_TABLE_WORDS, RG_PAIRS_WORDS}},
    {"rg_decides", at_decides, {RG_TABLE_WORDS, RG_ONE_WORDS}},
    {"rg_cover", at_cover, {RG_TABLE_WORDS, RG_COVER_WORDS}},
    {"rg_wiring", at_wiring, {RG_TABLE_WORDS, RG_CHAIN_WORDS, RG_CHAIN_WORDS, RG_ONE_WORDS}},
    {"rg_trial", at_trial, {RG_TABLE_WORDS, RG_CHAIN_WORDS, RG_PROPOSAL_WORDS}},
    {"rg_commit", at_commit, {RG_PROPOSAL_WORDS, RG_TABLE_WORDS, RG_TABLE_WORDS}},
    {"rg_read_test", at_read_test, {RG_TEST_WORDS, RG_READINGS, RG_TABLE_WORDS}},
    {"rg_write_test", at_write_test, {RG_TEST_WORDS, RG_READINGS, RG_ONE_WORDS}},
    {"rg_equal", at_equal, {RG_TEST_WORDS, RG_READINGS, RG_TEST_WORDS, RG_READINGS, RG_ONE_WORDS}},
};
static const Entry questions[] = {
    {"rg_explain_gauge", at_explain_gauge, {RG_RUN_WORDS, RG_ONE_WORDS}},
    {"rg_explain_case", at_explain_case, {RG_RUN_WORDS, RG_ONE_WORDS}},
};

static void set_marks(void) {
    table[RG_TABLE_WORDS] = order[RG_ORDER_WORDS] = chain[RG_CHAIN_WORDS] = ladder[RG_CHAIN_WORDS] = grown[RG_CHAIN_WORDS] = MARK;
    run[RG_RUN_WORDS] = by_cases[RG_RUN_WORDS] = step[RG_STEP_WORDS] = count[RG_COUNT_WORDS] = one[RG_ONE_WORDS] = pairs[RG_PAIRS_WORDS] = MARK;
    cover[RG_COVER_WORDS] = proposal[RG_PROPOSAL_WORDS] = span[RG_SPAN_WORDS] = test[RG_TEST_WORDS] = made[RG_TABLE_WORDS] = MARK;
    readings[RG_READINGS] = (int32_t)MARK;
    numbers[RG_NUMBERS_WORDS] = part[RG_RUN_WORDS] = batch[RG_BATCH_WORDS] = listed[RG_RUN_WORDS] = plain[RG_ORDER_WORDS] = MARK;
    words[RG_WORDS_BYTES] = (uint8_t)MARK;
}

static int marks_stand(void) {
    return table[RG_TABLE_WORDS] == MARK && order[RG_ORDER_WORDS] == MARK && chain[RG_CHAIN_WORDS] == MARK && ladder[RG_CHAIN_WORDS] == MARK &&
           grown[RG_CHAIN_WORDS] == MARK && run[RG_RUN_WORDS] == MARK && by_cases[RG_RUN_WORDS] == MARK && step[RG_STEP_WORDS] == MARK &&
           count[RG_COUNT_WORDS] == MARK && one[RG_ONE_WORDS] == MARK && pairs[RG_PAIRS_WORDS] == MARK && cover[RG_COVER_WORDS] == MARK &&
           proposal[RG_PROPOSAL_WORDS] == MARK && span[RG_SPAN_WORDS] == MARK && test[RG_TEST_WORDS] == MARK && made[RG_TABLE_WORDS] == MARK &&
           readings[RG_READINGS] == (int32_t)MARK && numbers[RG_NUMBERS_WORDS] == MARK && part[RG_RUN_WORDS] == MARK &&
           batch[RG_BATCH_WORDS] == MARK && listed[RG_RUN_WORDS] == MARK && plain[RG_ORDER_WORDS] == MARK && words[RG_WORDS_BYTES] == (uint8_t)MARK;
}

static void sizes_of(const Entry *entry) {
    size_t n[6], i;
    int before = failed;
    memcpy(n, entry->layouts, sizeof n);
    for (i = 0; n[i]; i++) {
        n[i]--;
        CHECK(entry->call(n) == RG_SHORT);
        n[i]++;
    }
    CHECK(entry->call(n) == RG_ACCEPTED);
    for (i = 0; n[i]; i++) n[i]++;
    CHECK(entry->call(n) == RG_ACCEPTED);
    CHECK(marks_stand());
    if (failed != before) printf("  of %s\n", entry->name);
}

static void sizes(void) {
    size_t i;
    const size_t n[] = {RG_RUN_WORDS, RG_STEP_WORDS};
    memcpy(table, k3, sizeof k3);
    memcpy(order, plain_of_3, sizeof plain_of_3);
    memcpy(ladder, first_of_k3, sizeof first_of_k3);
    chain[RG_CHAIN_COUNT] = 3;
    set_marks();
    CHECK(rg_start_gauges(k3, RG_TABLE_WORDS, plain_of_3, RG_ORDER_WORDS, 0, listed, RG_RUN_WORDS) == 0);
    for (i = 0; i < sizeof entries / sizeof entries[0]; i++) sizes_of(&entries[i]);
    /* A question is put to a run that is paused at a ladder: the first of the gauge run lacks 3:3, the first of the case run 1:1 or 3:3. */
    CHECK(rg_start_gauges(k3, RG_TABLE_WORDS, plain_of_3, RG_ORDER_WORDS, 0, run, RG_RUN_WORDS) == 0 && at_run_gauges(n) == 0);
    CHECK(rg_start_cases(k3, RG_TABLE_WORDS, plain_of_3, RG_ORDER_WORDS, 0, by_cases, RG_RUN_WORDS) == 0);
    do CHECK(at_run_cases(n) == 0);
    while (step[RG_STEP_OUTCOME] != RG_END && (step[RG_STEP_CHAIN + RG_CHAIN_ROWS] & 1));
    for (i = 0; i < sizeof questions / sizeof questions[0]; i++) sizes_of(&questions[i]);
}

/* --- offsets */

static void offsets_of_words(void) {
    int i;
    memset(words, 'x', RG_WORDS_BYTES);
    CHECK(rg_words(RG_NO_CHAIN, words, RG_WORDS_BYTES, one, RG_ONE_WORDS) == RG_ACCEPTED && one[0] == 11);
    CHECK(strcmp((const char *)words, "not a chain") == 0);
    for (i = 11; i < RG_WORDS_BYTES; i++) CHECK(words[i] == 0);
    CHECK(rg_plain_order(3, plain, RG_ORDER_WORDS) == RG_ACCEPTED && memcmp(plain, plain_of_3, sizeof plain_of_3) == 0);
    CHECK(rg_version() == RG_VERSION);
}

static void offsets_of_table(void) {
    static const char text[] = "%%MatrixMarket matrix coordinate pattern general\n3 4 4\n1 2\n2 1\n2 4\n3 3\n";
    uint64_t t[RG_TABLE_WORDS];
    CHECK(rg_read((const uint8_t *)text, sizeof text - 1, t, RG_TABLE_WORDS) == RG_ACCEPTED);
    CHECK(t[RG_TABLE_GAUGES] == 3 && t[RG_TABLE_CASES] == 4);
    CHECK(rows_are(t + RG_TABLE_ROWS, 2, 9, 4));
    CHECK(RG_TABLE_ROWS + RG_ROWS == RG_TABLE_WORDS);
}

static void offsets_of_file(void) {
    uint64_t s[RG_SPAN_WORDS];
    CHECK(rg_comment(FILE_LENT, 1, s, RG_SPAN_WORDS) == RG_ACCEPTED);
    CHECK(s[RG_SPAN_START] == 49 && s[RG_SPAN_LENGTH] == 5 && memcmp(file + s[RG_SPAN_START], "%note", 5) == 0);
}

/* The full table: the bytes that are always enough, and not one fewer. */
static void bytes_enough(void) {
    static uint64_t full[RG_TABLE_WORDS], n[1];
    CHECK(rg_sample(RG_MOST, RG_MOST, 1, 256, full, RG_TABLE_WORDS) == RG_ACCEPTED);
    CHECK(rg_write(full, RG_TABLE_WORDS, bytes, RG_TABLE_BYTES - 1, n, 1) == RG_BUFFER);
    CHECK(rg_write(full, RG_TABLE_WORDS, bytes, RG_TABLE_BYTES, n, 1) == RG_ACCEPTED && n[0] == RG_TABLE_BYTES);
    CHECK(rg_read(bytes, RG_FILE_BYTES + 1, full, RG_TABLE_WORDS) == RG_LONG_FILE);
}

/* From no pair to the one ladder of the full table: the longest order. */
static void bytes_of_order(void) {
    static uint64_t full[RG_TABLE_WORDS], none[RG_CHAIN_WORDS], all[RG_CHAIN_WORDS], n[1];
    int i;
    CHECK(rg_sample(RG_MOST, RG_MOST, 1, 256, full, RG_TABLE_WORDS) == RG_ACCEPTED);
    none[RG_CHAIN_COUNT] = all[RG_CHAIN_COUNT] = RG_MOST;
    for (i = 0; i < RG_ROWS; i++) all[RG_CHAIN_ROWS + i] = full[RG_TABLE_ROWS + i];
    CHECK(rg_wiring(full, RG_TABLE_WORDS, none, RG_CHAIN_WORDS, all, RG_CHAIN_WORDS, bytes, RG_PAIR_BYTES - 1, n, 1) == RG_BUFFER);
    CHECK(rg_wiring(full, RG_TABLE_WORDS, none, RG_CHAIN_WORDS, all, RG_CHAIN_WORDS, bytes, RG_PAIR_BYTES, n, 1) == RG_ACCEPTED && n[0] == 4096);
    CHECK(bytes[0] == 1 && bytes[1] == 1 && bytes[2] == 1 && bytes[3] == 2);
}

static int run_is(const uint64_t *r, uint64_t phase, uint64_t from, uint64_t picks, uint64_t a, uint64_t b, uint64_t c) {
    return r[RG_RUN_PHASE] == phase && r[RG_RUN_FROM] == from && r[RG_RUN_COUNT] == picks && rows_are(r + RG_RUN_PICKS, a, b, c);
}

/* A gauge run of K3 with gauge 3 the most trusted, move by move: picks 3 1 2, hands out, takes 2 back, takes 1 back. */
static void offsets_of_run(void) {
    static const uint64_t third_first[RG_ORDER_WORDS] = {3, 1, 2};
    uint64_t r[RG_RUN_WORDS], s[RG_STEP_WORDS];
    CHECK(rg_start_gauges(k3, RG_TABLE_WORDS, third_first, RG_ORDER_WORDS, 7, r, RG_RUN_WORDS) == RG_ACCEPTED);
    CHECK(r[RG_RUN_SIDE] == RG_SIDE_GAUGES && r[RG_RUN_OMIT] == 1 && run_is(r, RG_PHASE_DOWN, 0, 0, 0, 0, 0));
    CHECK(memcmp(r + RG_RUN_TABLE, k3, sizeof k3) == 0 && memcmp(r + RG_RUN_ORDER, third_first, sizeof third_first) == 0);
    CHECK(rg_run_gauges(r, RG_RUN_WORDS, 2, s, RG_STEP_WORDS) == RG_ACCEPTED && run_is(r, RG_PHASE_DOWN, 0, 2, 3, 1, 0));
    CHECK(s[RG_STEP_OUTCOME] == RG_SPENT && s[RG_STEP_MOVES] == 2 && s[RG_STEP_CHAIN] == 0);
    CHECK(rows_are(s + RG_STEP_CHAIN + RG_CHAIN_ROWS, 0, 0, 0) && rows_are(s + RG_STEP_PICKS, 0, 0, 0));
    CHECK(rg_run_gauges(r, RG_RUN_WORDS, 9, s, RG_STEP_WORDS) == RG_ACCEPTED && run_is(r, RG_PHASE_HANDED, 0, 3, 3, 1, 2));
    CHECK(s[RG_STEP_OUTCOME] == RG_HANDED_OUT && s[RG_STEP_MOVES] == 2);
    CHECK(memcmp(s + RG_STEP_CHAIN, second_of_k3, sizeof second_of_k3) == 0 && rows_are(s + RG_STEP_PICKS, 3, 1, 2));
    CHECK(rg_run_gauges(r, RG_RUN_WORDS, 1, s, RG_STEP_WORDS) == RG_ACCEPTED && run_is(r, RG_PHASE_BACK, 2, 2, 3, 1, 0));
    do CHECK(rg_run_gauges(r, RG_RUN_WORDS, 9, s, RG_STEP_WORDS) == RG_ACCEPTED);
    while (s[RG_STEP_OUTCOME] != RG_END && failed == 0);
    CHECK(run_is(r, RG_PHASE_ENDED, 0, 0, 0, 0, 0));
    CHECK(r[RG_RUN_SIDE] == RG_SIDE_GAUGES && r[RG_RUN_OMIT] == 1 && memcmp(r + RG_RUN_ORDER, third_first, sizeof third_first) == 0);
    CHECK(RG_RUN_TABLE + RG_TABLE_WORDS == RG_RUN_ORDER && RG_RUN_ORDER + RG_ORDER_WORDS == RG_RUN_PICKS && RG_RUN_PICKS + 64 == RG_RUN_COUNT);
    CHECK(RG_RUN_OMIT + 1 == RG_RUN_WORDS && RG_STEP_CHAIN + RG_CHAIN_WORDS == RG_STEP_PICKS && RG_STEP_PICKS + 64 == RG_STEP_WORDS);
}

/* Of cases: {1} {1,2}, whose one ladder has the rows 1 and 3 by gauges, and picks case 1, then 2. */
static void offsets_of_case_run(void) {
    static const uint64_t t[RG_TABLE_WORDS] = {2, 2, 1, 3}, plain_of_2[RG_ORDER_WORDS] = {1, 2};
    uint64_t r[RG_RUN_WORDS], s[RG_STEP_WORDS];
    CHECK(rg_start_cases(t, RG_TABLE_WORDS, plain_of_2, RG_ORDER_WORDS, 0, r, RG_RUN_WORDS) == RG_ACCEPTED);
    CHECK(r[RG_RUN_SIDE] == RG_SIDE_CASES && r[RG_RUN_OMIT] == 0);
    CHECK(rg_run_cases(r, RG_RUN_WORDS, 9, s, RG_STEP_WORDS) == RG_ACCEPTED && s[RG_STEP_OUTCOME] == RG_HANDED_OUT);
    CHECK(rows_are(s + RG_STEP_CHAIN + RG_CHAIN_ROWS, 1, 3, 0) && s[RG_STEP_CHAIN + RG_CHAIN_COUNT] == 2 && rows_are(s + RG_STEP_PICKS, 1, 2, 0));
}

/* Both ladders of K3 in one batch, with a word too many; then the end, and room for none. */
static void offsets_of_batch(void) {
    uint64_t r[RG_RUN_WORDS], b[RG_BATCH_WORDS + 7];
    CHECK(rg_start_gauges(k3, RG_TABLE_WORDS, plain_of_3, RG_ORDER_WORDS, 0, r, RG_RUN_WORDS) == RG_ACCEPTED);
    b[RG_BATCH_WORDS + 6] = MARK;
    CHECK(rg_list_gauges(r, RG_RUN_WORDS, RG_BUDGET, b, RG_BATCH_WORDS + 7) == RG_ACCEPTED && b[RG_BATCH_OUTCOME] == RG_HANDED_OUT);
    CHECK(b[RG_BATCH_LADDERS] == 2 && b[RG_BATCH_MOVES] == 11 && run_is(r, RG_PHASE_HANDED, 0, 3, 3, 1, 2) && b[RG_BATCH_WORDS + 6] == MARK);
    CHECK(memcmp(b + RG_BATCH_WORDS, first_of_k3 + RG_CHAIN_ROWS, 3 * sizeof *b) == 0);
    CHECK(memcmp(b + RG_BATCH_WORDS + 3, second_of_k3 + RG_CHAIN_ROWS, 3 * sizeof *b) == 0);
    CHECK(rg_list_gauges(r, RG_RUN_WORDS, 0, b, RG_BATCH_WORDS + 2) == RG_ACCEPTED);
    CHECK(b[RG_BATCH_OUTCOME] == RG_HANDED_OUT && b[RG_BATCH_LADDERS] == 0 && b[RG_BATCH_MOVES] == 0 && run_is(r, RG_PHASE_HANDED, 0, 3, 3, 1, 2));
    CHECK(rg_list_gauges(r, RG_RUN_WORDS, 1, b, RG_BATCH_WORDS + 3) == RG_ACCEPTED && b[RG_BATCH_OUTCOME] == RG_SPENT && b[RG_BATCH_MOVES] == 1);
    CHECK(rg_list_gauges(r, RG_RUN_WORDS, RG_BUDGET, b, RG_BATCH_WORDS + 3) == RG_ACCEPTED && b[RG_BATCH_OUTCOME] == RG_END);
}

/* Gauges 1 and 3 are the candidates of a fresh run on K3, of a case run case 2 alone. */
static void offsets_of_parts(void) {
    uint64_t fresh[RG_RUN_WORDS], whole[RG_RUN_WORDS], n[RG_NUMBERS_WORDS];
    CHECK(rg_start_gauges(k3, RG_TABLE_WORDS, plain_of_3, RG_ORDER_WORDS, 1, fresh, RG_RUN_WORDS) == RG_ACCEPTED);
    CHECK(rg_candidates_gauges(fresh, RG_RUN_WORDS, n, RG_NUMBERS_WORDS) == RG_ACCEPTED);
    CHECK(n[0] == 1 && n[1] == 3 && n[2] == 0 && n[RG_NUMBERS_WORDS - 1] == 0);
    memcpy(whole, fresh, sizeof whole);
    CHECK(rg_part_gauges(whole, RG_RUN_WORDS, 3, fresh, RG_RUN_WORDS) == RG_ACCEPTED);
    whole[RG_RUN_PICKS] = 3;
    whole[RG_RUN_COUNT] = 1;
    CHECK(memcmp(whole, fresh, sizeof whole) == 0);
    CHECK(rg_start_cases(k3, RG_TABLE_WORDS, plain_of_3, RG_ORDER_WORDS, 0, fresh, RG_RUN_WORDS) == RG_ACCEPTED);
    CHECK(rg_candidates_cases(fresh, RG_RUN_WORDS, n, RG_NUMBERS_WORDS) == RG_ACCEPTED && n[0] == 2 && n[1] == 0);
    CHECK(rg_part_cases(fresh, RG_RUN_WORDS, 1, whole, RG_RUN_WORDS) == RG_PAUSED);
}

/* The second ladder of K3 has gauges 3, 1 and 2, most cases first, and with gauge 2 ahead of 1 in the order 3, 2 and 1; of its cases 2 has most, then 3. */
static void offsets_of_sequences(void) {
    static const uint64_t turned_order[RG_ORDER_WORDS] = {2, 3, 1};
    uint64_t n[RG_NUMBERS_WORDS];
    CHECK(rg_sequence_gauges(k3, RG_TABLE_WORDS, plain_of_3, RG_ORDER_WORDS, second_of_k3, RG_CHAIN_WORDS, n, RG_NUMBERS_WORDS) == RG_ACCEPTED);
    CHECK(n[0] == 3 && n[1] == 1 && n[2] == 2 && n[3] == 0 && n[RG_NUMBERS_WORDS - 1] == 0);
    CHECK(rg_sequence_gauges(k3, RG_TABLE_WORDS, turned_order, RG_ORDER_WORDS, second_of_k3, RG_CHAIN_WORDS, n, RG_NUMBERS_WORDS) == RG_ACCEPTED);
    CHECK(n[0] == 3 && n[1] == 2 && n[2] == 1 && n[3] == 0);
    CHECK(rg_sequence_cases(k3, RG_TABLE_WORDS, plain_of_3, RG_ORDER_WORDS, second_of_k3, RG_CHAIN_WORDS, n, RG_NUMBERS_WORDS) == RG_ACCEPTED);
    CHECK(n[0] == 2 && n[1] == 3 && n[2] == 0 && n[RG_NUMBERS_WORDS - 1] == 0);
}

static void offsets_of_answers(void) {
    uint64_t n[RG_COUNT_WORDS], c[RG_COVER_WORDS], p[RG_PROPOSAL_WORDS], rival[RG_PAIRS_WORDS];
    CHECK(rg_count(k3, RG_TABLE_WORDS, plain_of_3, RG_ORDER_WORDS, 99, n, RG_COUNT_WORDS) == RG_ACCEPTED);
    CHECK(n[RG_COUNT_OUTCOME] == RG_COUNTED && n[RG_COUNT_LADDERS] == 2 && n[RG_COUNT_CALLS] == 7);
    CHECK(rg_count(k3, RG_TABLE_WORDS, plain_of_3, RG_ORDER_WORDS, 6, n, RG_COUNT_WORDS) == RG_ACCEPTED);
    CHECK(n[RG_COUNT_OUTCOME] == RG_SPENT && n[RG_COUNT_LADDERS] == 0 && n[RG_COUNT_CALLS] == 6);
    CHECK(rg_cover(k3, RG_TABLE_WORDS, 99, c, RG_COVER_WORDS) == RG_ACCEPTED);
    CHECK(c[RG_COVER_OUTCOME] == RG_COVERED && c[RG_COVER_NUMBER] == 2 && c[RG_COVER_TRIED] == 3);
    CHECK(memcmp(c + RG_COVER_CHAINS, first_of_k3, sizeof first_of_k3) == 0);
    CHECK(memcmp(c + RG_COVER_CHAINS + RG_CHAIN_WORDS, second_of_k3, sizeof second_of_k3) == 0);
    CHECK(c[RG_COVER_CHAINS + 2 * RG_CHAIN_WORDS] == 0 && RG_COVER_CHAINS + 8 * RG_CHAIN_WORDS == RG_COVER_WORDS);
    CHECK(rg_cover(k3, RG_TABLE_WORDS, 2, c, RG_COVER_WORDS) == RG_ACCEPTED);
    CHECK(c[RG_COVER_OUTCOME] == RG_SPENT && c[RG_COVER_NUMBER] == 0 && c[RG_COVER_TRIED] == 2 && c[RG_COVER_CHAINS] == 0);
    CHECK(rg_trial(k3, RG_TABLE_WORDS, first_of_k3, RG_CHAIN_WORDS, 3, 1, p, RG_PROPOSAL_WORDS) == RG_ACCEPTED);
    CHECK(memcmp(p + RG_PROPOSAL_TABLE, k3, sizeof k3) == 0 && memcmp(p + RG_PROPOSAL_CHAIN, first_of_k3, sizeof first_of_k3) == 0);
    CHECK(p[RG_PROPOSAL_GAUGE] == 3 && p[RG_PROPOSAL_CASE] == 1 && p[RG_PROPOSAL_EFFECT] == RG_ONLY_CHAIN);
    CHECK(RG_PROPOSAL_EFFECT + 1 == RG_PROPOSAL_WORDS);
    CHECK(rg_trial(k3, RG_TABLE_WORDS, first_of_k3, RG_CHAIN_WORDS, 3, 2, p, RG_PROPOSAL_WORDS) == 0 && p[RG_PROPOSAL_EFFECT] == RG_NOT_WITHIN);
    CHECK(rg_trial(k3, RG_TABLE_WORDS, first_of_k3, RG_CHAIN_WORDS, 3, 3, p, RG_PROPOSAL_WORDS) == 0 && p[RG_PROPOSAL_EFFECT] == RG_STILL_LADDER);
    CHECK(rg_rivals(k3, RG_TABLE_WORDS, 3, 3, rival, RG_PAIRS_WORDS) == RG_ACCEPTED && rows_are(rival, 1, 1, 0));
}

static void offsets_of_test(void) {
    static const char text[] = "%%MatrixMarket matrix coordinate integer general\n2 64 3\n1 1 -7\n2 64 9\n2 3 4\n";
    static int32_t r[RG_READINGS];
    uint64_t t[RG_TEST_WORDS], made_at[RG_TABLE_WORDS], answer[RG_ONE_WORDS];
    int i, others = 0;
    CHECK(rg_read_test((const uint8_t *)text, sizeof text - 1, 5, t, RG_TEST_WORDS, r, RG_READINGS, made_at, RG_TABLE_WORDS) == RG_ACCEPTED);
    CHECK(t[RG_TEST_KIND] == RG_INTEGER && t[RG_TEST_GAUGES] == 2 && t[RG_TEST_CASES] == 64);
    CHECK(rows_are(t + RG_TEST_ROWS, 1, (uint64_t)1 << 63 | 4, 0) && RG_TEST_ROWS + RG_ROWS == RG_TEST_WORDS);
    CHECK(rows_are(made_at + RG_TABLE_ROWS, 1, (uint64_t)1 << 63, 0));
    CHECK(r[0] == -7 && r[1 * 64 + 63] == 9 && r[1 * 64 + 2] == 4);
    for (i = 0; i < RG_READINGS; i++) others += r[i] != 0;
    CHECK(others == 3);
    CHECK(rg_equal(t, RG_TEST_WORDS, r, RG_READINGS, t, RG_TEST_WORDS, r, RG_READINGS, answer, RG_ONE_WORDS) == RG_ACCEPTED && answer[0] == RG_YES);
    CHECK(rg_read_test(FILE_LENT, 5, t, RG_TEST_WORDS, r, RG_READINGS, made_at, RG_TABLE_WORDS) == RG_ACCEPTED && t[RG_TEST_KIND] == RG_PATTERN);
}

/* The fullest test: the bytes that are always enough, and not one fewer. */
static void bytes_of_test(void) {
    static uint64_t whole[RG_TEST_WORDS], n[1];
    static int32_t r[RG_READINGS];
    int i;
    whole[RG_TEST_KIND] = RG_INTEGER;
    whole[RG_TEST_GAUGES] = whole[RG_TEST_CASES] = RG_MOST;
    for (i = 0; i < RG_ROWS; i++) whole[RG_TEST_ROWS + i] = ~(uint64_t)0;
    for (i = 0; i < RG_READINGS; i++) r[i] = -1000000;
    CHECK(rg_write_test(whole, RG_TEST_WORDS, r, RG_READINGS, bytes, RG_TEST_BYTES - 1, n, 1) == RG_BUFFER);
    CHECK(rg_write_test(whole, RG_TEST_WORDS, r, RG_READINGS, bytes, RG_TEST_BYTES, n, 1) == RG_ACCEPTED && n[0] == RG_TEST_BYTES);
}

static void answers(void) {
    uint64_t answer[RG_ONE_WORDS];
    CHECK(rg_judge_chain(k3, RG_TABLE_WORDS, k3 + 1, RG_CHAIN_WORDS, answer, RG_ONE_WORDS) == RG_ACCEPTED && answer[0] == RG_NO);
    CHECK(rg_judge_chain(k3, RG_TABLE_WORDS, first_of_k3, RG_CHAIN_WORDS, answer, RG_ONE_WORDS) == RG_ACCEPTED && answer[0] == RG_YES);
    CHECK(rg_judge_ladder(k3, RG_TABLE_WORDS, first_of_k3, RG_CHAIN_WORDS, answer, RG_ONE_WORDS) == RG_ACCEPTED && answer[0] == RG_YES);
    CHECK(rg_decides(k3, RG_TABLE_WORDS, 3, 3, answer, RG_ONE_WORDS) == RG_ACCEPTED && answer[0] == RG_YES);
}

/* --- structs */

/* Each word gets its own offset as its value. It is not for the compiler to see through, as a call of the library is not. */
static void number_words(uint64_t *words, size_t n) {
    size_t i;
    for (i = 0; i < n; i++) words[i] = i;
}
static void (*volatile number)(uint64_t *, size_t) = number_words;

#define IS(type, words) CHECK(sizeof(type) == sizeof(uint64_t) * (words))
/* A member of the struct `lent`, which holds the offsets: its place, its length, and of a word or a set of words the first and the last. */
#define PLACE(type, member, offset, words)                            \
    CHECK(offsetof(type, member) == sizeof(uint64_t) * (offset));     \
    CHECK(sizeof(((type *)0)->member) == sizeof(uint64_t) * (words))
#define WORD(type, member, offset) \
    PLACE(type, member, offset, 1); \
    CHECK(lent.member == (offset))
#define WORDS(type, member, offset, words)  \
    PLACE(type, member, offset, words);     \
    CHECK(lent.member[0] == (offset));      \
    CHECK(lent.member[(words) - 1] == (offset) + (words) - 1)

static void struct_of_table(void) {
    rg_table lent;
    number(RG_LEND(lent));
    IS(rg_table, RG_TABLE_WORDS);
    WORD(rg_table, gauges, RG_TABLE_GAUGES);
    WORD(rg_table, cases, RG_TABLE_CASES);
    WORDS(rg_table, rows, RG_TABLE_ROWS, RG_ROWS);
}

static void struct_of_chain(void) {
    rg_chain lent;
    number(RG_LEND(lent));
    IS(rg_chain, RG_CHAIN_WORDS);
    WORD(rg_chain, count, RG_CHAIN_COUNT);
    WORDS(rg_chain, rows, RG_CHAIN_ROWS, RG_ROWS);
}

static void struct_of_order(void) {
    rg_order lent;
    number(RG_LEND(lent));
    IS(rg_order, RG_ORDER_WORDS);
    WORDS(rg_order, numbers, 0, RG_ORDER_WORDS);
}

static void struct_of_pairs(void) {
    rg_pairs lent;
    number(RG_LEND(lent));
    IS(rg_pairs, RG_PAIRS_WORDS);
    WORDS(rg_pairs, rows, 0, RG_ROWS);
}

static void struct_of_numbers(void) {
    rg_numbers lent;
    number(RG_LEND(lent));
    IS(rg_numbers, RG_NUMBERS_WORDS);
    WORDS(rg_numbers, numbers, 0, RG_NUMBERS_WORDS);
}

static void struct_of_run(void) {
    rg_run lent;
    number(RG_LEND(lent));
    IS(rg_run, RG_RUN_WORDS);
    WORD(rg_run, side, RG_RUN_SIDE);
    PLACE(rg_run, table, RG_RUN_TABLE, RG_TABLE_WORDS);
    WORD(rg_run, table.gauges, RG_RUN_TABLE + RG_TABLE_GAUGES);
    WORD(rg_run, table.cases, RG_RUN_TABLE + RG_TABLE_CASES);
    WORDS(rg_run, table.rows, RG_RUN_TABLE + RG_TABLE_ROWS, RG_ROWS);
    PLACE(rg_run, order, RG_RUN_ORDER, RG_ORDER_WORDS);
    WORDS(rg_run, order.numbers, RG_RUN_ORDER, RG_ORDER_WORDS);
    WORDS(rg_run, picks, RG_RUN_PICKS, RG_MOST);
    WORD(rg_run, count, RG_RUN_COUNT);
    WORD(rg_run, phase, RG_RUN_PHASE);
    WORD(rg_run, from, RG_RUN_FROM);
    WORD(rg_run, omit, RG_RUN_OMIT);
}

static void struct_of_step(void) {
    rg_step lent;
    number(RG_LEND(lent));
    IS(rg_step, RG_STEP_WORDS);
    WORD(rg_step, outcome, RG_STEP_OUTCOME);
    WORD(rg_step, moves, RG_STEP_MOVES);
    PLACE(rg_step, chain, RG_STEP_CHAIN, RG_CHAIN_WORDS);
    WORD(rg_step, chain.count, RG_STEP_CHAIN + RG_CHAIN_COUNT);
    WORDS(rg_step, chain.rows, RG_STEP_CHAIN + RG_CHAIN_ROWS, RG_ROWS);
    WORDS(rg_step, picks, RG_STEP_PICKS, RG_MOST);
}

static void struct_of_batch(void) {
    rg_batch lent;
    number(RG_LEND(lent));
    IS(rg_batch, RG_BATCH_WORDS);
    WORD(rg_batch, outcome, RG_BATCH_OUTCOME);
    WORD(rg_batch, ladders, RG_BATCH_LADDERS);
    WORD(rg_batch, moves, RG_BATCH_MOVES);
}

/* Room for so many ladders, and no word behind it. */
static void struct_of_batch_64(void) {
    static rg_batch_64 lent;
    number(RG_LEND(lent));
    IS(rg_batch_64, RG_BATCH_WORDS + 64 * RG_ROWS);
    WORD(rg_batch_64, outcome, RG_BATCH_OUTCOME);
    WORD(rg_batch_64, ladders, RG_BATCH_LADDERS);
    WORD(rg_batch_64, moves, RG_BATCH_MOVES);
    WORDS(rg_batch_64, rows, RG_BATCH_WORDS, 64 * RG_ROWS);
    memset(&lent, 0, sizeof lent);
    number(RG_LEND_BATCH(lent, 5, (uint64_t)8));
    CHECK(lent.rows[39] == RG_BATCH_WORDS + 39 && lent.rows[40] == 0);
    number(RG_LEND_BATCH(lent, 64, (uint64_t)RG_MOST));
    CHECK(lent.rows[64 * RG_ROWS - 1] == RG_BATCH_WORDS + 64 * RG_ROWS - 1);
}

static void struct_of_count(void) {
    rg_count_answer lent;
    number(RG_LEND(lent));
    IS(rg_count_answer, RG_COUNT_WORDS);
    WORD(rg_count_answer, outcome, RG_COUNT_OUTCOME);
    WORD(rg_count_answer, ladders, RG_COUNT_LADDERS);
    WORD(rg_count_answer, calls, RG_COUNT_CALLS);
}

static void struct_of_cover(void) {
    rg_cover_answer lent;
    number(RG_LEND(lent));
    IS(rg_cover_answer, RG_COVER_WORDS);
    WORD(rg_cover_answer, outcome, RG_COVER_OUTCOME);
    WORD(rg_cover_answer, number, RG_COVER_NUMBER);
    WORD(rg_cover_answer, tried, RG_COVER_TRIED);
    PLACE(rg_cover_answer, chains, RG_COVER_CHAINS, 8 * RG_CHAIN_WORDS);
    WORD(rg_cover_answer, chains[0].count, RG_COVER_CHAINS + RG_CHAIN_COUNT);
    WORDS(rg_cover_answer, chains[7].rows, RG_COVER_CHAINS + 7 * RG_CHAIN_WORDS + RG_CHAIN_ROWS, RG_ROWS);
}

static void struct_of_proposal(void) {
    rg_proposal lent;
    number(RG_LEND(lent));
    IS(rg_proposal, RG_PROPOSAL_WORDS);
    PLACE(rg_proposal, table, RG_PROPOSAL_TABLE, RG_TABLE_WORDS);
    WORD(rg_proposal, table.cases, RG_PROPOSAL_TABLE + RG_TABLE_CASES);
    PLACE(rg_proposal, chain, RG_PROPOSAL_CHAIN, RG_CHAIN_WORDS);
    WORDS(rg_proposal, chain.rows, RG_PROPOSAL_CHAIN + RG_CHAIN_ROWS, RG_ROWS);
    WORD(rg_proposal, gauge, RG_PROPOSAL_GAUGE);
    WORD(rg_proposal, gauge_case, RG_PROPOSAL_CASE);
    WORD(rg_proposal, effect, RG_PROPOSAL_EFFECT);
}

static void struct_of_test(void) {
    rg_test lent;
    static rg_readings values;
    number(RG_LEND(lent));
    IS(rg_test, RG_TEST_WORDS);
    WORD(rg_test, kind, RG_TEST_KIND);
    WORD(rg_test, gauges, RG_TEST_GAUGES);
    WORD(rg_test, cases, RG_TEST_CASES);
    WORDS(rg_test, rows, RG_TEST_ROWS, RG_ROWS);
    CHECK(sizeof values == sizeof(int32_t) * RG_READINGS && sizeof values.at[0] == sizeof(int32_t) * RG_MOST);
}

static void struct_of_span(void) {
    rg_span lent;
    number(RG_LEND(lent));
    IS(rg_span, RG_SPAN_WORDS);
    WORD(rg_span, start, RG_SPAN_START);
    WORD(rg_span, length, RG_SPAN_LENGTH);
}

/* K3 with gauge 3 the most trusted, by structs: its first ladder, and the other one with the end behind it in a batch. */
static void structs_of_run(void) {
    const rg_table t = {3, 3, {3, 3, 6}};
    const rg_order third_first = {{3, 1, 2}};
    rg_run r;
    rg_step s;
    rg_numbers n;
    static rg_batch_64 b;
    uint64_t pick;
    CHECK(rg_start_gauges(RG_LEND_CONST(t), RG_LEND_CONST(third_first), 0, RG_LEND(r)) == RG_ACCEPTED);
    CHECK(r.side == RG_SIDE_GAUGES && r.table.rows[2] == 6 && r.order.numbers[0] == 3 && r.phase == RG_PHASE_DOWN && r.omit == 0);
    CHECK(rg_candidates_gauges(RG_LEND(r), RG_LEND(n)) == RG_ACCEPTED && n.numbers[0] == 3 && n.numbers[1] == 1 && n.numbers[2] == 0);
    CHECK(rg_run_gauges(RG_LEND(r), RG_BUDGET, RG_LEND(s)) == RG_ACCEPTED && s.outcome == RG_HANDED_OUT && s.moves == 4);
    CHECK(memcmp(&s.chain, second_of_k3, sizeof second_of_k3) == 0 && rows_are(s.picks, 3, 1, 2));
    CHECK(r.count == 3 && r.phase == RG_PHASE_HANDED && r.from == 0 && rows_are(r.picks, 3, 1, 2));
    CHECK(rg_explain_gauge(RG_LEND(r), 1, 1, RG_LEND(pick)) == RG_ACCEPTED && pick == 3);
    CHECK(rg_list_gauges(RG_LEND(r), RG_BUDGET, RG_LEND_BATCH(b, 1, t.gauges)) == RG_ACCEPTED && b.outcome == RG_HANDED_OUT && b.ladders == 1);
    CHECK(b.rows[0] == 3 && b.rows[1] == 3 && b.rows[2] == 2 && b.rows[3] == 0);
    CHECK(rg_list_gauges(RG_LEND(r), RG_BUDGET, RG_LEND(b)) == RG_ACCEPTED && b.outcome == RG_END && b.ladders == 0 && r.phase == RG_PHASE_ENDED);
}

/* A RUN of a layout to come, which has another number in word 0, is refused with 15; but what is no table or no order there is seen first. */
static void run_of_other_layout(void) {
    const rg_table t = {3, 3, {3, 3, 6}};
    const rg_order plain = {{1, 2, 3}};
    rg_run r, other;
    rg_step s;
    uint64_t side;
    CHECK(rg_start_gauges(RG_LEND_CONST(t), RG_LEND_CONST(plain), 0, RG_LEND(r)) == RG_ACCEPTED);
    for (side = 0; side < 40; side++) {
        other = r;
        other.side = side < 20 ? side : UINT64_MAX - (side - 20);
        CHECK(rg_run_gauges(RG_LEND(other), 0, RG_LEND(s)) == (side == RG_SIDE_GAUGES ? RG_ACCEPTED : RG_PAUSED));
        CHECK(rg_run_cases(RG_LEND(other), 0, RG_LEND(s)) == (side == RG_SIDE_CASES ? RG_ACCEPTED : RG_PAUSED));
    }
    other = r;
    other.side = 3;
    other.order.numbers[0] = 2;
    CHECK(rg_run_gauges(RG_LEND(other), 0, RG_LEND(s)) == RG_PREFERENCE);
    other.table.rows[3] = 1;
    CHECK(rg_run_gauges(RG_LEND(other), 0, RG_LEND(s)) == RG_STRAY_BITS);
    other.table.gauges = 0;
    CHECK(rg_run_gauges(RG_LEND(other), 0, RG_LEND(s)) == RG_SHAPE);
}

static void structs_of_answers(void) {
    const rg_table t = {3, 3, {3, 3, 6}};
    const rg_order plain = {{1, 2, 3}};
    const rg_chain first = {3, {3, 3, 2}};
    rg_count_answer n;
    rg_cover_answer c;
    rg_proposal p;
    rg_pairs rival;
    rg_span s;
    rg_table flipped;
    uint64_t answer;
    CHECK(rg_judge_ladder(RG_LEND_CONST(t), RG_LEND_CONST(first), RG_LEND(answer)) == RG_ACCEPTED && answer == RG_YES);
    CHECK(rg_count(RG_LEND_CONST(t), RG_LEND_CONST(plain), 99, RG_LEND(n)) == RG_ACCEPTED);
    CHECK(n.outcome == RG_COUNTED && n.ladders == 2 && n.calls == 7);
    CHECK(rg_cover(RG_LEND_CONST(t), 99, RG_LEND(c)) == RG_ACCEPTED && c.outcome == RG_COVERED && c.number == 2 && c.tried == 3);
    CHECK(memcmp(c.chains, first_of_k3, sizeof first_of_k3) == 0 && c.chains[1].rows[2] == 6 && c.chains[2].count == 0);
    CHECK(rg_trial(RG_LEND_CONST(t), RG_LEND_CONST(first), 3, 1, RG_LEND(p)) == RG_ACCEPTED);
    CHECK(p.table.cases == 3 && p.chain.rows[2] == 2 && p.gauge == 3 && p.gauge_case == 1 && p.effect == RG_ONLY_CHAIN);
    CHECK(rg_commit(RG_LEND(p), RG_LEND_CONST(t), RG_LEND(flipped)) == RG_ACCEPTED && flipped.rows[2] == 7);
    CHECK(rg_rivals(RG_LEND_CONST(t), 3, 3, RG_LEND(rival)) == RG_ACCEPTED && rows_are(rival.rows, 1, 1, 0));
    CHECK(rg_comment(FILE_LENT, 1, RG_LEND(s)) == RG_ACCEPTED && s.start == 49 && s.length == 5);
}

static void structs_of_test(void) {
    static const char text[] = "%%MatrixMarket matrix coordinate integer general\n2 64 3\n1 1 -7\n2 64 9\n2 3 4\n";
    static rg_readings r;
    rg_test t;
    rg_table at_five;
    uint64_t answer;
    CHECK(rg_read_test((const uint8_t *)text, sizeof text - 1, 5, RG_LEND(t), RG_LEND_READINGS(r), RG_LEND(at_five)) == RG_ACCEPTED);
    CHECK(t.kind == RG_INTEGER && t.gauges == 2 && t.cases == 64 && t.rows[1] == ((uint64_t)1 << 63 | 4) && at_five.rows[1] == (uint64_t)1 << 63);
    CHECK(r.at[0][0] == -7 && r.at[1][63] == 9 && r.at[1][2] == 4 && r.at[1][3] == 0);
    CHECK(rg_equal(RG_LEND(t), RG_LEND_READINGS(r), RG_LEND(t), RG_LEND_READINGS(r), RG_LEND(answer)) == RG_ACCEPTED && answer == RG_YES);
}

static void structs(void) {
    struct_of_table();
    struct_of_chain();
    struct_of_order();
    struct_of_pairs();
    struct_of_numbers();
    struct_of_run();
    struct_of_step();
    struct_of_batch();
    struct_of_batch_64();
    struct_of_count();
    struct_of_cover();
    struct_of_proposal();
    struct_of_test();
    struct_of_span();
    structs_of_run();
    run_of_other_layout();
    structs_of_answers();
    structs_of_test();
}

int main(void) {
    sizes();
    offsets_of_words();
    offsets_of_table();
    offsets_of_file();
    bytes_enough();
    bytes_of_order();
    offsets_of_run();
    offsets_of_case_run();
    offsets_of_batch();
    offsets_of_parts();
    offsets_of_sequences();
    offsets_of_answers();
    offsets_of_test();
    bytes_of_test();
    answers();
    structs();
    return end_of_checks();
}
