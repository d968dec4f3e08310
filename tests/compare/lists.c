/* Lists that are known by number, too long for the plain entries. The n by n table where gauge g lacks only case g has n! ladders, 40,320 of 8 by 8: both
 * runs hand out so many, ascending by pick sequence, each with its sequence beside it, each a ladder by the judge, within 01's limits of moves. Tables of 64
 * by 64 with one ladder, and with one for each gauge under an order from the last to the first. In order: one hand-out, whole lists, the tables. */
#include "both.h"
#include <string.h>

typedef struct {
    int which;
    uint64_t run[RG_RUN_WORDS], step[RG_STEP_WORDS];
    Side side;
    int last[65];
    uint64_t handed;
} Walk;

static uint64_t call(Walk *w, uint64_t budget) {
    return (w->which == RG_SIDE_GAUGES ? rg_run_gauges : rg_run_cases)(w->run, RG_RUN_WORDS, budget, w->step, RG_STEP_WORDS);
}

static void start(Walk *w, int which, const uint64_t *table, const uint64_t *order, uint64_t omit) {
    *w = (Walk){.which = which};
    side_of(&w->side, which, table, order);
    must((which == RG_SIDE_GAUGES ? rg_start_gauges : rg_start_cases)(table, RG_TABLE_WORDS, order, RG_ORDER_WORDS, omit, w->run, RG_RUN_WORDS) == 0,
         "a start is accepted");
}

/* Places of picks, zeros behind: they compare as the sequences do. */
static void places(const Walk *w, const int *picks, int n, int *out) {
    for (int i = 0; i < 65; i++) out[i] = i < n ? w->side.place[picks[i]] : 0;
}

static bool ascends(const int *a, const int *b) {
    for (int i = 0; i < 65; i++)
        if (a[i] != b[i]) return a[i] < b[i];
    return false;
}

static void one_ladder(Walk *w) {
    uint64_t answer[1] = {0}, *chain = w->step + RG_STEP_CHAIN, n = picks_of(w->run + RG_RUN_TABLE, w->which);
    int picks[64], now[65];
    Set ladder;
    memcpy(ladder.rows, chain + RG_CHAIN_ROWS, sizeof ladder.rows);
    Set mine = w->which == RG_SIDE_GAUGES ? ladder : turned(&ladder);
    int count = pick_sequence(&w->side, &mine, picks);
    must(rg_judge_ladder(w->run + RG_RUN_TABLE, RG_TABLE_WORDS, chain, RG_CHAIN_WORDS, answer, 1) == 0 && answer[0] == RG_YES, "a ladder by the judge");
    bool same = true;
    for (int i = 0; i < 64; i++) same = same && w->step[RG_STEP_PICKS + i] == (i < count ? (uint64_t)picks[i] : 0);
    must(same, "the pick sequence of the ladder");
    places(w, picks, count, now);
    must(w->handed == 0 || ascends(w->last, now), "a list ascends");
    must(w->step[RG_STEP_MOVES] <= (w->handed ? 2 * n + 1 : n + 1), "no more moves than 01 allows");
    memcpy(w->last, now, sizeof now);
    w->handed++;
}

/* Every hand-out up to the end, and the end again. */
static void whole(int which, const uint64_t *table, const uint64_t *order, uint64_t ladders) {
    Walk w;
    start(&w, which, table, order, 0);
    while (call(&w, RG_BUDGET) == 0 && w.step[RG_STEP_OUTCOME] == RG_HANDED_OUT && w.handed <= ladders) one_ladder(&w);
    must(w.handed == ladders, "so many ladders");
    must(w.step[RG_STEP_OUTCOME] == RG_END && w.run[RG_RUN_PHASE] == RG_PHASE_ENDED, "the end");
    must(call(&w, RG_BUDGET) == 0 && w.step[RG_STEP_OUTCOME] == RG_END && w.step[RG_STEP_MOVES] == 1, "the end again, with one move");
}

static void diagonals(void) {
    static const uint64_t factorial[] = {1, 1, 2, 6, 24, 120, 720, 5040, 40320};
    Table table;
    Numbers orders[6];
    for (uint64_t n = 1; n <= 8; n++) {
        square(table, n, LACKING);
        int count = arrangements(orders, n);
        for (int which = RG_SIDE_GAUGES; which <= RG_SIDE_CASES; which++) {
            whole(which, table, orders[0], factorial[n]);
            if (n < 8) whole(which, table, orders[count - 1], factorial[n]);
        }
    }
}

/* The moves to the one ladder of a table, its rows those of the table, and to the end. */
static void only(int which, const uint64_t *table, uint64_t moves, uint64_t omit) {
    Walk w;
    Numbers order;
    in_order(order, picks_of(table, which));
    start(&w, which, table, order, omit);
    must(call(&w, RG_BUDGET) == 0 && w.step[RG_STEP_OUTCOME] == RG_HANDED_OUT && w.step[RG_STEP_MOVES] == moves, "its ladder after so many moves");
    must(!memcmp(w.step + RG_STEP_CHAIN + RG_CHAIN_ROWS, table + RG_TABLE_ROWS, 64 * sizeof *table), "its ladder is all its pairs");
    must(call(&w, RG_BUDGET) == 0 && w.step[RG_STEP_OUTCOME] == RG_END && w.step[RG_STEP_MOVES] == moves, "the end after as many");
    must(call(&w, RG_BUDGET) == 0 && w.step[RG_STEP_OUTCOME] == RG_END && w.step[RG_STEP_MOVES] == 1, "the end again");
}

/* 64 by 64: full, empty, stairs; and the diagonal under an order from the last to the first, each pair a ladder. */
static void largest(void) {
    Table table;
    Numbers orders[6];
    for (int which = RG_SIDE_GAUGES; which <= RG_SIDE_CASES; which++) {
        square(table, 64, FULL);
        only(which, table, 65, 0);
        only(which, table, 65, 1);
        square(table, 64, STAIRS);
        only(which, table, 65, 0);
        square(table, 64, EMPTY);
        only(which, table, 1, 0);
        square(table, 64, OWN);
        arrangements(orders, 64);
        for (int k = 0; k < 6; k++) whole(which, table, orders[k], 64);
    }
}

/* K2 of 01: six ladders, and the end with move 25 (K9). */
static void k9(void) {
    static const Table k2 = {3, 3, 6, 5, 3};
    Numbers order;
    in_order(order, 3);
    for (int which = RG_SIDE_GAUGES; which <= RG_SIDE_CASES; which++) {
        Walk w;
        uint64_t moves = 0;
        whole(which, k2, order, 6);
        start(&w, which, k2, order, 0);
        do moves += call(&w, 1) == 0 ? w.step[RG_STEP_MOVES] : 100;
        while (w.step[RG_STEP_OUTCOME] != RG_END && moves < 100);
        must(moves == 25, "the end with move 25");
    }
}

void known_lists(void) {
    diagonals();
    largest();
    k9();
}
