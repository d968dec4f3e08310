/* Judging, growing and pick sequences: of all tables up to 3 by 3 every set of pairs of the shape, those outside the table included, to both judges, to growth
 * and asked for its sequence on either side; every set of the table's own pairs grown, and every ladder asked for its sequence, under every preference. Orders
 * of wiring are in orders.c, trials in trials.c. */
#include "both.h"

/* The pairs of a table as a number, as small_set has them. */
static uint64_t pairs_of(const uint64_t *table) {
    uint64_t pairs = 0;
    for (uint64_t g = 0; g < table[RG_TABLE_GAUGES]; g++) pairs |= table[RG_TABLE_ROWS + g] << (g * table[RG_TABLE_CASES]);
    return pairs;
}

/* Of a set that is no ladder under one preference only. */
static void sequences(const uint64_t *table, const uint64_t *set) {
    Numbers orders[6];
    for (int which = RG_SIDE_GAUGES; which <= RG_SIDE_CASES; which++) {
        int n = arrangements(orders, picks_of(table, which));
        for (int k = 0; k < n; k++)
            if (ask_sequence(which, table, orders[k], set)) break;
    }
}

static void every_set(const uint64_t *table) {
    uint64_t gauges = table[RG_TABLE_GAUGES], cases = table[RG_TABLE_CASES], own = pairs_of(table);
    Numbers orders[6];
    Rows set;
    int n = arrangements(orders, gauges);
    for (uint64_t pairs = 0; pairs < (uint64_t)1 << (gauges * cases); pairs++) {
        small_set(set, gauges, cases, pairs);
        ask_judge(JUDGE_CHAIN, table, set);
        ask_judge(JUDGE_LADDER, table, set);
        for (int k = 0; k < (pairs & ~own ? 1 : n); k++) ask_grow(table, orders[k], set);
        sequences(table, set);
    }
}

void small_chains(void) { each_small_table(every_set); }
