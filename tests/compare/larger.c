/* Tables up to 8 by 8 that the generator of R-13 draws, and the full ones of these shapes, each asked as the small ones are: runs of both sides under six
 * preferences with every value, reason and part; damaged values of some; rivals, deciding pairs, the claims of R-2 and counts; every set of its own pairs
 * to the judges, to growth, to orders and trials; its ladders asked for their pick sequences. Tables with at most 12 pairs are looked at whole, of 4 by 4
 * every set up to 16; with more, by the questions that need no list of all sets. */
#include "both.h"
#include "damage.h"
#include "pairs.h"
#include "runs.h"
#include <string.h>

static const uint64_t shapes[][2] = {{4, 4}, {2, 5}, {5, 2}, {1, 8}, {8, 1}, {3, 4}, {4, 3}, {3, 6}, {6, 3}, {8, 2}, {5, 5}, {8, 8}};
#define SHAPES (int)(sizeof shapes / sizeof shapes[0])

/* The subset k of a table's own pairs, counted from the first. */
static void own_set(const uint64_t *table, uint64_t k, uint64_t *set) {
    memset(set, 0, RG_CHAIN_WORDS * sizeof *set);
    set[0] = table[RG_TABLE_GAUGES];
    for (int g = 0; g < 64; g++)
        for (uint64_t row = table[RG_TABLE_ROWS + g]; row; row &= row - 1, k >>= 1)
            if (k & 1) set[RG_CHAIN_ROWS + g] |= row & -row;
}

static void own_sets(const uint64_t *table, int pairs) {
    static Rows ladders[100];
    int n = ladders_of(table, ladders, 100), count;
    Numbers orders[6];
    Rows set;
    count = arrangements(orders, table[RG_TABLE_GAUGES]);
    for (uint64_t k = 0; k < (uint64_t)1 << pairs; k++) {
        own_set(table, k, set);
        ask_judge(JUDGE_CHAIN, table, set);
        ask_judge(JUDGE_LADDER, table, set);
        ask_grow(table, orders[k % (uint64_t)count], set);
        ask_wiring(table, set, ladders[k % (uint64_t)n], 2 * (size_t)pairs);
        ask_trial(table, set, 1 + k % table[RG_TABLE_GAUGES], 1 + k / 8 % table[RG_TABLE_CASES]);
    }
    for (int i = 0; i < n; i++) ask_trial(table, ladders[i], table[RG_TABLE_GAUGES], table[RG_TABLE_CASES]);
    for (int which = RG_SIDE_GAUGES; which <= RG_SIDE_CASES; which++) {
        count = arrangements(orders, picks_of(table, which));
        for (int i = 0; i < n; i++)
            for (int k = 0; k < count; k++) ask_sequence(which, table, orders[k], ladders[i]);
    }
}

static int pairs_in(const uint64_t *table) {
    Set pairs = table_set(table);
    return size_of(&pairs);
}

static void one_table(const uint64_t *table, bool damaged) {
    int pairs = pairs_in(table);
    ask_write(table, 400);
    if (pairs <= 12 || (pairs <= 16 && table[RG_TABLE_GAUGES] == 4)) own_sets(table, pairs);
    if (pairs > 12) return;
    ask_runs(table);
    ask_pairs(table);
    if (damaged) ask_damaged(table);
}

/* Tables with more pairs, but few ladders: the rules alone say what is due of a run. */
static void many_pairs(const uint64_t *table) {
    static Rows ladders[200];
    Numbers orders[6];
    if (pairs_in(table) <= 12 || ladders_of(table, ladders, 200) == 200) return;
    for (int which = RG_SIDE_GAUGES; which <= RG_SIDE_CASES; which++) {
        int n = arrangements(orders, picks_of(table, which));
        uint64_t run[RG_RUN_WORDS];
        ask_start(which, table, orders[n - 1], 0);
        memcpy(run, given(2), sizeof run);
        for (int k = 0; k < 400 && run[RG_RUN_PHASE] != RG_PHASE_ENDED; k++) {
            ask_run(which, run, RG_BUDGET);
            memcpy(run, given(0), sizeof run);
            for (uint64_t p = 0; p < 100; p++) ask_explain(which, run, p / 10, p % 10);
        }
    }
    for (uint64_t g = 0; g <= 9; g++)
        for (uint64_t c = 0; c <= 9; c++) {
            ask_pair(RIVALS, table, g, c);
            ask_pair(DECIDES, table, g, c);
        }
}

void larger(void) {
    Table table;
    for (int s = 0; s < SHAPES; s++)
        for (uint64_t k = 0; k < 24; k++) {
            drawn_table(table, shapes[s][0], shapes[s][1], k, 64);
            one_table(table, k % 6 == 0 && s < 5);
            many_pairs(table);
        }
    for (int s = 0; s < SHAPES; s++) {
        memset(table, 0, sizeof table);
        table[RG_TABLE_GAUGES] = shapes[s][0];
        table[RG_TABLE_CASES] = shapes[s][1];
        for (uint64_t g = 0; g < shapes[s][0]; g++) table[RG_TABLE_ROWS + g] = lowest((int)shapes[s][1]);
        one_table(table, false);
        many_pairs(table);
    }
}
