/* Orders of wiring. Of all tables up to 3 by 3 each ladder and every set of pairs of the table, with bytes that the order just fills, some more, and
 * one short. Of all tables of 2 by 2 every two sets of pairs, in the table or not, with row counts that are right and wrong: the order of the refusals.
 * Large orders are in answers.c. */
#include "both.h"
#include <string.h>

static void each_room(const uint64_t *table, const uint64_t *chain, const uint64_t *ladder) {
    if (ask_wiring(table, chain, ladder, 40)) {
        ask_wiring(table, chain, ladder, 0);
        return;
    }
    size_t n = 2 * (size_t)given(4)[0];
    ask_wiring(table, chain, ladder, n);
    ask_wiring(table, chain, ladder, n + 1);
    if (n) ask_wiring(table, chain, ladder, n - 1);
    if (n) ask_wiring(table, chain, ladder, 0);
}

static void every_set(const uint64_t *table) {
    static Rows ladders[8];
    uint64_t gauges = table[RG_TABLE_GAUGES], cases = table[RG_TABLE_CASES];
    int n = ladders_of(table, ladders, 8);
    for (int i = 0; i < n; i++)
        for (uint64_t pairs = 0; pairs < (uint64_t)1 << (gauges * cases); pairs++) {
            Rows set;
            bool inside = true;
            small_set(set, gauges, cases, pairs);
            for (int g = 0; g < 64; g++) inside = inside && !(set[RG_CHAIN_ROWS + g] & ~table[RG_TABLE_ROWS + g]);
            if (inside) each_room(table, set, ladders[i]);
        }
}

/* Two sets of a table of 2 by 2, with a row count and a pair outside the shape of their own. */
static void two_sets(const uint64_t *table, uint64_t first, uint64_t second) {
    for (int how = 0; how < 25; how++) {
        Rows chain, ladder;
        small_set(chain, 2, 2, first);
        small_set(ladder, 2, 2, second);
        if (how % 5 == 1) chain[0] = 1;
        if (how % 5 == 2) chain[0] = 3;
        if (how % 5 == 3) chain[1] |= 4;
        if (how % 5 == 4) chain[64] |= 1;
        if (how / 5 == 1) ladder[0] = 0;
        if (how / 5 == 2) ladder[0] = 64;
        if (how / 5 == 3) ladder[2] |= 4;
        if (how / 5 == 4) ladder[3] |= 1;
        ask_wiring(table, chain, ladder, 8);
        ask_wiring(table, chain, ladder, 0);
    }
}

static void every_two_sets(const uint64_t *table) {
    if (table[RG_TABLE_GAUGES] != 2 || table[RG_TABLE_CASES] != 2) return;
    for (uint64_t first = 0; first < 16; first++)
        for (uint64_t second = 0; second < 16; second++) two_sets(table, first, second);
}

void small_orders(void) {
    each_small_table(every_set);
    each_small_table(every_two_sets);
}
