/* Every refusal ahead of every other: each entry is asked with every mixture of values that are right and wrong in each of its places, and with each piece of
 * memory one element short on top of that. Which refusal comes first is for the plain entries to say. Tables at the edge that are taken are among them.
 * In order: the values, the entries that take tables, those that take runs, and those that take proposals. Recorded tests and samples have theirs in their
 * own themes, files in files.c. */
#include "both.h"
#include <string.h>

/* --- the values */

#define COUNT_OF(a) (int)(sizeof(a) / sizeof *(a))

/* K2, with a shape and one row, at a place from 0, of its own; `whole` keeps K2's other rows. */
typedef struct {
    uint64_t gauges, cases;
    int at;
    uint64_t row;
    bool whole;
} Odd;

static const Odd odd_tables[] = {
    {3, 3, 0, 6, true},       {3, 3, 0, 0, false},      {0, 3, 0, 6, true},   {65, 3, 0, 6, true},   {3, 0, 0, 6, true},
    {3, 65, 0, 6, true},      {UINT64_MAX, 3, 0, 1, 0}, {3, UINT64_MAX, 0, 1, 0}, {259, 3, 0, 6, true}, {3, 259, 0, 6, true},
    {3, 3, 0, 14, true},      {3, 3, 2, (uint64_t)1 << 63, 0}, {3, 3, 3, 1, true}, {3, 3, 63, 1, true}, {65, 3, 0, 8, false},
    {3, 0, 63, 8, false},     {64, 1, 63, 2, false},    {1, 63, 0, UINT64_MAX, false}, {1, 64, 1, 1, false}, {1, 64, 0, UINT64_MAX, false},
    {64, 64, 63, UINT64_MAX, false}, {64, 1, 63, 1, false}, {2, 3, 0, 6, false}, {9, 3, 0, 6, true}, {3, 9, 0, 6, true}, {64, 64, 0, 6, true},
};
#define TABLES COUNT_OF(odd_tables)

static void odd_table(uint64_t *table, int k) {
    static const uint64_t k2[] = {6, 5, 3};
    const Odd *odd = &odd_tables[k];
    memset(table, 0, RG_TABLE_WORDS * sizeof *table);
    table[RG_TABLE_GAUGES] = odd->gauges;
    table[RG_TABLE_CASES] = odd->cases;
    if (odd->whole) memcpy(table + RG_TABLE_ROWS, k2, sizeof k2);
    table[RG_TABLE_ROWS + odd->at] = odd->row;
}

/* Orders of three numbers, right ones and odd ones; the last is changed at its end. */
static const uint64_t odd_orders[][5] = {{1, 2, 3}, {3, 1, 2}, {1, 1, 2}, {3, 2, 3}, {1, 2, 4}, {15, 2, 1}, {1, 0, 3}, {0}, {1, 2}, {1, 2, 3, 3},
                                         {2, 3, 1, 4}, {0, 1, 2, 3}, {1, 2, 259}, {257, 2, 3}, {1, 2, (uint64_t)1 << 32 | 3}, {1}, {1, 2, 3}};
#define ORDERS (COUNT_OF(odd_orders) + 1)

static void odd_order(uint64_t *order, int k, uint64_t n) {
    memset(order, 0, RG_ORDER_WORDS * sizeof *order);
    if (k == COUNT_OF(odd_orders)) {
        in_order(order, n <= 64 ? n : 64);
        return;
    }
    memcpy(order, odd_orders[k], sizeof odd_orders[k]);
    if (k == COUNT_OF(odd_orders) - 1) order[63] = 1;
}

/* Sets of pairs of K2, by row count and rows: its ladder of the picks 1 and 2, a chain, none, K6 of 01, and odd ones; the last has a row far behind. */
static const uint64_t odd_chains[][5] = {{3, 6, 4, 2}, {3, 2}, {3}, {3, 2, 4, 1}, {3, 6, 5, 3}, {2, 6, 4}, {4, 6, 4}, {0}, {UINT64_MAX, 6},
                                         {259, 6, 4}, {64, 1}, {3, 1}, {3, 7, 5, 6}, {3, 0, 0, 0, 1}, {3, 10}, {2, 1}, {3}, {1, 2}, {64}};
#define CHAINS COUNT_OF(odd_chains)

static void odd_chain(uint64_t *chain, int k) {
    memset(chain, 0, RG_CHAIN_WORDS * sizeof *chain);
    memcpy(chain, odd_chains[k], sizeof odd_chains[k]);
    if (k == 16) chain[64] = 1;
}

static const uint64_t budgets[] = {0, 3, RG_BUDGET, RG_BUDGET + 1, (uint64_t)1 << 32, UINT64_MAX};
#define BUDGETS COUNT_OF(budgets)
static const uint64_t places[][2] = {{1, 2}, {1, 1}, {3, 3}, {0, 1}, {1, 0}, {4, 1}, {1, 4}, {64, 64},
                                     {65, 1}, {257, 2}, {1, (uint64_t)1 << 32 | 2}, {UINT64_MAX, UINT64_MAX}};
#define PLACES COUNT_OF(places)

/* --- entries that take a table */

static void with_orders(const uint64_t *table) {
    Numbers order;
    Rows chain;
    for (int o = 0; o < ORDERS; o++) {
        for (int which = RG_SIDE_GAUGES; which <= RG_SIDE_CASES; which++) {
            odd_order(order, o, picks_of(table, which));
            ask_start(which, table, order, (uint64_t)(o % 3));
            for (int c = 0; c < CHAINS; c++) {
                odd_chain(chain, c);
                ask_sequence(which, table, order, chain);
            }
        }
        odd_order(order, o, table[RG_TABLE_GAUGES]);
        for (int b = 0; b < BUDGETS; b++) ask_count(table, order, budgets[b]);
        for (int c = 0; c < CHAINS; c++) {
            odd_chain(chain, c);
            ask_grow(table, order, chain);
        }
    }
}

static void with_chains(const uint64_t *table) {
    Rows chain, ladder;
    for (int c = 0; c < CHAINS; c++) {
        odd_chain(chain, c);
        ask_judge(JUDGE_CHAIN, table, chain);
        ask_judge(JUDGE_LADDER, table, chain);
        for (int l = 0; l < CHAINS; l++) {
            odd_chain(ladder, l);
            ask_wiring(table, chain, ladder, 9);
            ask_wiring(table, chain, ladder, 1);
        }
        for (int p = 0; p < PLACES; p++) ask_trial(table, chain, places[p][0], places[p][1]);
    }
}

static void with_places(const uint64_t *table) {
    static const size_t rooms[] = {0, 20, 60, RG_TABLE_BYTES};
    for (int p = 0; p < PLACES; p++) {
        ask_pair(RIVALS, table, places[p][0], places[p][1]);
        ask_pair(DECIDES, table, places[p][0], places[p][1]);
    }
    for (int b = 0; b < BUDGETS; b++) ask_cover(table, budgets[b]);
    for (int r = 0; r < 4; r++) ask_write(table, rooms[r]);
}

/* --- entries that take a run: fresh, after the picks 1 and 2 as in K2's first ladder, of picks that no run makes, ended, of no side, of no omission */

static void odd_run(uint64_t *run, const uint64_t *table, const uint64_t *order, int which, int k) {
    memset(run, 0, RG_RUN_WORDS * sizeof *run);
    run[RG_RUN_SIDE] = k == 4 ? 0 : (uint64_t)(k == 5 ? 3 - which : which);
    memcpy(run + RG_RUN_TABLE, table, RG_TABLE_WORDS * sizeof *run);
    memcpy(run + RG_RUN_ORDER, order, RG_ORDER_WORDS * sizeof *run);
    run[RG_RUN_OMIT] = k == 6 ? 2 : k == 7;
    if (k == 1 || k == 7) {
        run[RG_RUN_PICKS] = order[0] & 255;
        run[RG_RUN_PICKS + 1] = order[1] & 255;
        run[RG_RUN_COUNT] = 2;
        run[RG_RUN_PHASE] = RG_PHASE_HANDED;
    }
    if (k == 2) run[RG_RUN_COUNT] = 77;
    if (k == 3) run[RG_RUN_PHASE] = RG_PHASE_ENDED;
}

static void one_run(int which, const uint64_t *run) {
    for (int b = 0; b < BUDGETS; b++) {
        ask_run(which, run, budgets[b]);
        ask_list(which, run, budgets[b], RG_BATCH_WORDS + 7);
    }
    for (int p = 0; p < PLACES; p++) ask_explain(which, run, places[p][0], places[p][1]);
    ask_candidates(which, run);
    for (uint64_t number = 0; number <= 4; number++) ask_part(which, run, number);
    ask_part(which, run, 257);
}

static void with_runs(const uint64_t *table) {
    uint64_t run[RG_RUN_WORDS];
    Numbers order;
    for (int which = RG_SIDE_GAUGES; which <= RG_SIDE_CASES; which++)
        for (int o = 0; o < ORDERS; o++)
            for (int k = 0; k < 8; k++) {
                odd_order(order, o, picks_of(table, which));
                odd_run(run, table, order, which, k);
                one_run(which, run);
            }
}

/* --- entries that take a proposal: as a trial on K2 gives it, and as it would be on the table at hand, right or not */

static void with_proposals(const uint64_t *table) {
    uint64_t proposal[RG_PROPOSAL_WORDS];
    Table k2;
    Rows chain;
    odd_table(k2, 0);
    for (int c = 0; c < CHAINS; c++)
        for (int p = 0; p < PLACES; p++)
            for (uint64_t effect = 0; effect < 5; effect++) {
                odd_chain(chain, c);
                memcpy(proposal, effect == 4 ? k2 : table, sizeof k2);
                memcpy(proposal + RG_PROPOSAL_CHAIN, chain, sizeof chain);
                proposal[RG_PROPOSAL_GAUGE] = places[p][0];
                proposal[RG_PROPOSAL_CASE] = places[p][1];
                proposal[RG_PROPOSAL_EFFECT] = effect == 4 ? 1 : effect;
                ask_commit(proposal, table);
            }
}

void mixtures(void) {
    Table table;
    for (short_piece = -1; short_piece < 5; short_piece++)
        for (int t = 0; t < TABLES; t++) {
            odd_table(table, t);
            with_orders(table);
            with_chains(table);
            with_places(table);
            with_runs(table);
            with_proposals(table);
        }
    short_piece = -1;
}
