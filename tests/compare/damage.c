/* Paused values that were changed: of all tables below 3 by 3, and of every third of 3 by 3, each value that a run of either side comes to, with one of its
 * words changed, or one pair of its table. Such a value gets 15 unless some moves lead to it, ahead of the budget's 18; with its order changed it gets 27 ahead
 * of both. First the changes of one word, then those of a value, then the tables. */
#include "both.h"
#include "damage.h"
#include "runs.h"
#include <string.h>

/* Numbers of all sizes; some agree with the right one in their low bits. */
static const uint64_t odd[] = {0, 1, 2, 3, 4, 5, 8, 63, 64, 65, UINT64_MAX};
#define ODD (int)(sizeof odd / sizeof odd[0])
static const uint64_t wide[] = {256, (uint64_t)1 << 32, (uint64_t)1 << 63};

static void calls(int which, const uint64_t *run) {
    ask_run(which, run, 3);
    ask_run(which, run, RG_BUDGET + 1);
    ask_list(which, run, 3, 9);
    ask_list(which, run, RG_BUDGET + 1, 9);
}

/* The other entries that take a run. */
static void questions(int which, const uint64_t *run) {
    ask_explain(which, run, 1, 1);
    ask_explain(which, run, 0, 0);
    ask_candidates(which, run);
    ask_part(which, run, 1);
}

static void one_word(int which, const uint64_t *run, int place) {
    uint64_t changed[RG_RUN_WORDS];
    memcpy(changed, run, sizeof changed);
    for (int k = 0; k < ODD + 3; k++) {
        changed[place] = k < ODD ? odd[k] : run[place] + wide[k - ODD];
        if (changed[place] == run[place]) continue;
        calls(which, changed);
        if (place >= RG_RUN_COUNT || k % 3 == 0) questions(which, changed);
    }
}

/* The order changed, and also all that is checked behind it. */
static void order_word(int which, const uint64_t *run, int place) {
    uint64_t changed[RG_RUN_WORDS];
    memcpy(changed, run, sizeof changed);
    for (int k = 0; k < ODD + 3; k++) {
        changed[RG_RUN_ORDER + place] = k < ODD ? odd[k] : run[RG_RUN_ORDER + place] + wide[k - ODD];
        changed[RG_RUN_COUNT] = run[RG_RUN_COUNT];
        calls(which, changed);
        changed[RG_RUN_COUNT] = 99;
        calls(which, changed);
        questions(which, changed);
    }
}

/* Each pair of the shape put into the table or taken out; a stray bit and a row too many. */
static void table_words(int which, const uint64_t *run) {
    uint64_t changed[RG_RUN_WORDS], gauges = run[RG_RUN_TABLE], cases = run[RG_RUN_TABLE + 1];
    for (uint64_t g = 0; g <= gauges; g++)
        for (uint64_t c = 0; c <= cases; c++) {
            memcpy(changed, run, sizeof changed);
            changed[RG_RUN_TABLE + RG_TABLE_ROWS + g] ^= (uint64_t)1 << c;
            calls(which, changed);
            questions(which, changed);
        }
    one_word(which, run, RG_RUN_TABLE + RG_TABLE_GAUGES);
    one_word(which, run, RG_RUN_TABLE + RG_TABLE_CASES);
}

/* Two picks exchanged, and the last pick made twice. */
static void two_words(int which, const uint64_t *run) {
    uint64_t changed[RG_RUN_WORDS];
    memcpy(changed, run, sizeof changed);
    changed[RG_RUN_PICKS] = run[RG_RUN_PICKS + 1];
    changed[RG_RUN_PICKS + 1] = run[RG_RUN_PICKS];
    calls(which, changed);
    memcpy(changed, run, sizeof changed);
    if (run[RG_RUN_COUNT] == 0) return;
    changed[RG_RUN_PICKS + run[RG_RUN_COUNT]] = run[RG_RUN_PICKS + run[RG_RUN_COUNT] - 1];
    changed[RG_RUN_COUNT]++;
    calls(which, changed);
}

static void one_value(int which, const uint64_t *run) {
    static const int picks[] = {0, 1, 2, 3, 4, 8, 63}, order[] = {0, 1, 2, 3, 63};
    one_word(which, run, RG_RUN_SIDE);
    for (int i = 0; i < 7; i++) one_word(which, run, RG_RUN_PICKS + picks[i]);
    for (int place = RG_RUN_COUNT; place < RG_RUN_WORDS; place++) one_word(which, run, place);
    for (int i = 0; i < 5; i++) order_word(which, run, order[i]);
    table_words(which, run);
    two_words(which, run);
}

void ask_damaged(const uint64_t *table) {
    Numbers order;
    for (int which = RG_SIDE_GAUGES; which <= RG_SIDE_CASES; which++) {
        in_order(order, picks_of(table, which));
        each_value(which, table, order, 0, one_value);
    }
}

/* Of the tables of 3 by 3 every third. */
static void one_table(const uint64_t *table) {
    static int turn;
    if (table[RG_TABLE_GAUGES] < 3 || table[RG_TABLE_CASES] < 3 || turn++ % 3 == 0) ask_damaged(table);
}

void damaged_runs(void) { each_small_table(one_table); }
