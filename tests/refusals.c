/* Every refusal of include/ragymolev.h, brought about once: the constant is the number that the library returns, and nothing lent has changed. Those of a file
 * once more with the line that decides. */
#include "check.h"

#define BANNER "%%MatrixMarket matrix coordinate pattern general\n"
#define INTEGER "%%MatrixMarket matrix coordinate integer general\n"

static uint64_t out[RG_COVER_WORDS], before[RG_COVER_WORDS];
static uint8_t bytes[RG_FILE_BYTES + 1];

/* The refusal of an entry that writes to `out`, where that stays as it was; 999 where it does not. */
static uint64_t quiet(uint64_t why) { return memcmp(out, before, sizeof out) ? 999 : why; }

static uint64_t of_file(const char *text) { return quiet(rg_read((const uint8_t *)text, strlen(text), out, RG_TABLE_WORDS)); }

static uint64_t of_comment(const char *text) { return quiet(rg_comment((const uint8_t *)text, strlen(text), 1, out, RG_SPAN_WORDS)); }

/* The line that decides, for the reader of files of pairs, or of either kind. */
static uint64_t line_of(const char *text, uint64_t either) {
    uint64_t line[RG_ONE_WORDS];
    return rg_locate((const uint8_t *)text, strlen(text), either, line, RG_ONE_WORDS) ? 999 : line[0];
}

/* Each refusal of a file at its line, from 1; the end of the file is one line past the last. */
static void lines(void) {
    static char text[2000];
    uint64_t line[RG_ONE_WORDS] = {7};
    memset(bytes, '\n', sizeof bytes);
    CHECK(rg_locate(bytes, sizeof bytes, 0, line, RG_ONE_WORDS) == RG_ACCEPTED && line[0] == 0);
    CHECK(rg_locate(bytes, sizeof bytes, 1, line, 0) == RG_SHORT && line[0] == 0);
    CHECK(line_of("", 0) == 1 && line_of("%%MatrixMarket", 1) == 1);
    CHECK(line_of(INTEGER "1 1 0\n", 0) == 1 && line_of(INTEGER "1 1 0\n", 1) == 0 && line_of(INTEGER "1 1 0\n", UINT64_MAX) == 0);
    strcpy(text, BANNER "%\n%");
    memset(text + strlen(text), 'x', 1024);
    CHECK(line_of(text, 0) == 3);
    CHECK(line_of(BANNER, 0) == 2 && line_of(BANNER "%\r\n \t\n\n", 1) == 5);
    CHECK(line_of(BANNER "1 1\n1 1 0\n", 0) == 2);
    CHECK(line_of(BANNER "%\n65 1 0\n", 0) == 3);
    CHECK(line_of(BANNER "1 1 1\n\n1\n", 0) == 4);
    CHECK(line_of(BANNER "1 1 1\n0 1", 0) == 3);
    CHECK(line_of(BANNER "1 1 2\n1 1\n1 1\n", 0) == 4);
    CHECK(line_of(BANNER "1 2 1\n1 1\n1 2\n", 0) == 4 && line_of(BANNER "1 1 1\n", 0) == 3);
    CHECK(line_of(INTEGER "1 1 1\n1 1 1000001\n", 1) == 3);
    CHECK(line_of(BANNER "1 1 1\n1 1\n", 0) == 0);
}

static void files(void) {
    static char text[2000];
    memset(bytes, '\n', sizeof bytes);
    CHECK(quiet(rg_read(bytes, sizeof bytes, out, RG_TABLE_WORDS)) == RG_LONG_FILE);
    CHECK(of_file("") == RG_BANNER);
    strcpy(text, BANNER "%");
    memset(text + strlen(text), 'x', 1024);
    CHECK(of_file(text) == RG_LONG_LINE);
    CHECK(of_file(BANNER) == RG_SIZE_LINE);
    CHECK(of_file(BANNER "65 1 0\n") == RG_SIZE);
    CHECK(of_file(BANNER "1 1 1\n1\n") == RG_ENTRY_LINE);
    CHECK(of_file(BANNER "1 1 1\n0 1\n") == RG_PLACE);
    CHECK(of_file(BANNER "1 1 2\n1 1\n1 1\n") == RG_REPEATED);
    CHECK(of_file(BANNER "1 1 1\n") == RG_NUMBER_OF_PAIRS);
    CHECK(of_comment(INTEGER "1 1 1\n1 1 1000001\n") == RG_BAD_READING);
    CHECK(of_comment(BANNER "1 1 0\n") == RG_NO_COMMENT);
    CHECK(quiet(rg_write(k3, RG_TABLE_WORDS, bytes, 20, out, RG_ONE_WORDS)) == RG_BUFFER && bytes[0] == '\n');
}

/* A test handed to the writer and, as the second one, to the comparison gets the same number from both. */
static uint64_t of_test(uint64_t kind, uint64_t gauges, uint64_t entries, int32_t reading) {
    static const uint64_t good[RG_TEST_WORDS] = {RG_PATTERN, 1, 1};
    static const int32_t none[RG_READINGS] = {0};
    static int32_t readings[RG_READINGS];
    uint64_t test[RG_TEST_WORDS] = {0}, written, compared;
    test[RG_TEST_KIND] = kind;
    test[RG_TEST_GAUGES] = gauges;
    test[RG_TEST_CASES] = 1;
    test[RG_TEST_ROWS] = entries;
    readings[0] = reading;
    written = quiet(rg_write_test(test, RG_TEST_WORDS, readings, RG_READINGS, (uint8_t *)(out + 100), 20, out, RG_ONE_WORDS));
    compared = quiet(rg_equal(good, RG_TEST_WORDS, none, RG_READINGS, test, RG_TEST_WORDS, readings, RG_READINGS, out, RG_ONE_WORDS));
    CHECK(written == compared);
    return written;
}

static void recorded(void) {
    static int32_t readings[RG_READINGS];
    CHECK(quiet(rg_read_test((const uint8_t *)"", 0, 0, out, RG_TEST_WORDS, readings, RG_READINGS, out + 200, RG_TABLE_WORDS)) == RG_CUTOFF);
    CHECK(of_test(RG_INTEGER, 65, 1, 1) == RG_SHAPE);
    CHECK(of_test(RG_INTEGER, 1, 2, 0) == RG_STRAY_BITS);
    CHECK(of_test(RG_INTEGER, 1, 0, 1) == RG_STRAY_BITS);
    CHECK(of_test(RG_PATTERN, 1, 1, 1) == RG_STRAY_BITS);
    CHECK(of_test(RG_INTEGER, 1, 1, -1000001) == RG_BAD_READING);
    CHECK(of_test(0, 0, 0, 0) == RG_SHAPE && of_test(0, 1, 1, 0) == RG_STRAY_BITS);
    CHECK(of_test(3, 1, 1, 0) == RG_STRAY_BITS && of_test(RG_INTEGER | (uint64_t)1 << 32, 1, 1, 1000001) == RG_STRAY_BITS);
}

static uint64_t judged(const uint64_t *table, const uint64_t *chain) {
    return quiet(rg_judge_chain(table, RG_TABLE_WORDS, chain, RG_CHAIN_WORDS, out, RG_ONE_WORDS));
}

static uint64_t started(const uint64_t *order) {
    return quiet(rg_start_gauges(k3, RG_TABLE_WORDS, order, RG_ORDER_WORDS, 0, out, RG_RUN_WORDS));
}

static uint64_t sequenced(const uint64_t *order, const uint64_t *chain) {
    return quiet(rg_sequence_gauges(k3, RG_TABLE_WORDS, order, RG_ORDER_WORDS, chain, RG_CHAIN_WORDS, out, RG_NUMBERS_WORDS));
}

static void tables(void) {
    static const uint64_t none[RG_TABLE_WORDS] = {0}, stray[RG_TABLE_WORDS] = {1, 1, 2}, all[RG_CHAIN_WORDS] = {3, 3, 3, 6};
    static const uint64_t two[RG_CHAIN_WORDS] = {2}, foreign[RG_CHAIN_WORDS] = {3, 4}, twice[RG_ORDER_WORDS] = {1, 1, 2};
    static const uint64_t wide[RG_TABLE_WORDS] = {9, 1};
    CHECK(judged(none, two) == RG_SHAPE);
    CHECK(judged(stray, two) == RG_STRAY_BITS);
    CHECK(judged(k3, two) == RG_ROW_COUNT);
    CHECK(judged(k3, foreign) == RG_NOT_IN_TABLE);
    CHECK(quiet(rg_grow(k3, RG_TABLE_WORDS, plain_of_3, RG_ORDER_WORDS, all, RG_CHAIN_WORDS, out, RG_CHAIN_WORDS)) == RG_NO_CHAIN);
    CHECK(started(twice) == RG_PREFERENCE);
    CHECK(sequenced(plain_of_3, all) == RG_NO_LADDER && sequenced(twice, all) == RG_PREFERENCE && sequenced(plain_of_3, two) == RG_ROW_COUNT);
    CHECK(quiet(rg_decides(k3, RG_TABLE_WORDS, 1, 3, out, RG_ONE_WORDS)) == RG_NO_PAIR);
    CHECK(quiet(rg_cover(wide, RG_TABLE_WORDS, 1, out, RG_COVER_WORDS)) == RG_ABOVE_EIGHT);
    CHECK(quiet(rg_trial(k3, RG_TABLE_WORDS, all, RG_CHAIN_WORDS, 1, 1, out, RG_PROPOSAL_WORDS)) == RG_NO_LADDER);
    CHECK(quiet(rg_commit(before, RG_PROPOSAL_WORDS, k3, RG_TABLE_WORDS, out, RG_TABLE_WORDS)) == RG_OTHER_PROPOSAL);
    CHECK(quiet(rg_sample(1, 1, 0, 0, out, RG_TABLE_WORDS)) == RG_GENERATOR);
    CHECK(quiet(rg_sample(1, 1, 1, 0, out, RG_TABLE_WORDS - 1)) == RG_SHORT);
}

static void orders(void) {
    CHECK(quiet(rg_plain_order(0, out, RG_ORDER_WORDS)) == RG_SHAPE);
    CHECK(quiet(rg_plain_order(RG_MOST + 1, out, RG_ORDER_WORDS)) == RG_SHAPE);
    CHECK(quiet(rg_plain_order(0, out, RG_ORDER_WORDS - 1)) == RG_SHORT);
    CHECK(quiet(rg_words(RG_SHORT, (uint8_t *)out, RG_WORDS_BYTES - 1, out + 20, RG_ONE_WORDS)) == RG_SHORT);
    CHECK(quiet(rg_words(RG_SHORT, (uint8_t *)out, RG_WORDS_BYTES, out + 20, 0)) == RG_SHORT);
}

static void runs(void) {
    static const uint64_t fresh[RG_RUN_WORDS] = {0};
    uint64_t run[RG_RUN_WORDS], step[RG_STEP_WORDS], same[RG_RUN_WORDS];
    memcpy(run, fresh, sizeof run);
    CHECK(rg_start_gauges(k3, RG_TABLE_WORDS, plain_of_3, RG_ORDER_WORDS, 0, run, RG_RUN_WORDS) == RG_ACCEPTED);
    memcpy(same, run, sizeof run);
    CHECK(quiet(rg_run_gauges(run, RG_RUN_WORDS, RG_BUDGET + 1, out, RG_STEP_WORDS)) == RG_OVER_BUDGET && memcmp(run, same, sizeof run) == 0);
    CHECK(quiet(rg_run_cases(run, RG_RUN_WORDS, 1, out, RG_STEP_WORDS)) == RG_PAUSED && memcmp(run, same, sizeof run) == 0);
    CHECK(rg_run_gauges(run, RG_RUN_WORDS, RG_BUDGET, step, RG_STEP_WORDS) == RG_ACCEPTED);
    CHECK(quiet(rg_explain_gauge(run, RG_RUN_WORDS, 1, 1, out, RG_ONE_WORDS)) == RG_IN_LADDER);
}

/* The 7 by 7 table where gauge g lacks only case g has 5,040 ladders. */
static void crowded(void) {
    uint64_t table[RG_TABLE_WORDS] = {7, 7};
    int g;
    for (g = 0; g < 7; g++) table[RG_TABLE_ROWS + g] = 127 ^ (uint64_t)1 << g;
    CHECK(quiet(rg_cover(table, RG_TABLE_WORDS, 1, out, RG_COVER_WORDS)) == RG_MANY_LADDERS);
}

int main(void) {
    memset(out, 0xa5, sizeof out);
    memcpy(before, out, sizeof out);
    files();
    lines();
    recorded();
    tables();
    orders();
    runs();
    crowded();
    return end_of_checks();
}
