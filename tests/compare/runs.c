/* Runs of small tables: all tables up to 3 by 3, both sides, under every preference, omitting and not. From each paused value that a run comes to, every
 * budget up to the next hand-out or the end, above it, and refused ones; every pair of numbers asked why it is left out; the candidates, and the part of
 * every number. The whole list of each run is held to the ladders of the table, sorted by their pick sequences. First the questions to one value, then
 * the list, then the tables. Damaged values are in damage.c, larger tables in larger.c. */
#include "both.h"
#include "runs.h"
#include <string.h>

/* Every budget that says something: none, each up to the next hand-out or the end and one more, the greatest, and two that are refused. */
static void budgets(int which, const uint64_t *run) {
    ask_run(which, run, RG_BUDGET);
    uint64_t moves = given(1)[RG_STEP_MOVES];
    for (uint64_t b = 0; b <= moves + 1 && b < 100; b++) ask_run(which, run, b);
    ask_run(which, run, RG_BUDGET + 1);
    ask_run(which, run, UINT64_MAX);
}

/* R-6's claim: among the picks ahead of the pair's own gauge (of a case run, its own case), or among all, one lacks the pair exactly where it is left out. */
static void claim(int which, const uint64_t *run, uint64_t g, uint64_t c, bool left_out) {
    const uint64_t *rows = run + RG_RUN_TABLE + RG_TABLE_ROWS;
    bool found = false;
    for (uint64_t i = 0; i < run[RG_RUN_COUNT]; i++) {
        uint64_t pick = run[RG_RUN_PICKS + i];
        if (pick == (which == RG_SIDE_GAUGES ? g : c)) break;
        found = found || !((which == RG_SIDE_GAUGES ? rows[pick - 1] >> (c - 1) : rows[g - 1] >> (pick - 1)) & 1);
    }
    must(found == left_out, "R-6, the claim");
}

/* Every pair of numbers around the table, where a ladder is handed out; two pairs elsewhere, which get 15. */
static void reasons(int which, const uint64_t *run) {
    const uint64_t *table = run + RG_RUN_TABLE;
    ask_explain(3 - which, run, 1, 1);
    if (run[RG_RUN_PHASE] != RG_PHASE_HANDED) {
        ask_explain(which, run, 1, 1);
        ask_explain(which, run, 0, 65);
        return;
    }
    for (uint64_t g = 0; g <= table[RG_TABLE_GAUGES] + 1; g++)
        for (uint64_t c = 0; c <= table[RG_TABLE_CASES] + 1; c++) {
            uint64_t why = ask_explain(which, run, g, c);
            if (why == 0 || why == RG_IN_LADDER) claim(which, run, g, c, why == 0);
        }
    ask_explain(which, run, 1 + ((uint64_t)1 << 32), 1);
    ask_explain(which, run, 1, 65);
    ask_explain(which, run, UINT64_MAX, 257);
}

/* The candidates, and the part of every number around them. */
static void parts(int which, const uint64_t *run) {
    uint64_t n = picks_of(run + RG_RUN_TABLE, which);
    ask_candidates(which, run);
    ask_candidates(3 - which, run);
    ask_part(3 - which, run, 1);
    for (uint64_t number = 0; number <= n + 1; number++) ask_part(which, run, number);
    ask_part(which, run, 257);
    ask_part(which, run, UINT64_MAX);
}

static void one_value(int which, const uint64_t *run) {
    budgets(which, run);
    ask_run(3 - which, run, 1);
    reasons(which, run);
    parts(which, run);
}

/* Every value of a run up to its end, move by move, and one move behind the end. */
void each_value(int which, const uint64_t *table, const uint64_t *order, uint64_t omit, void (*ask)(int which, const uint64_t *run)) {
    uint64_t run[RG_RUN_WORDS];
    bool ended = ask_start(which, table, order, omit) != 0;
    memcpy(run, given(2), sizeof run);
    for (int moves = 0; moves < 1000; moves++) {
        ask(which, run);
        if (ended) return;
        ended = run[RG_RUN_PHASE] == RG_PHASE_ENDED;
        ask_run(which, run, 1);
        memcpy(run, given(0), sizeof run);
    }
    must(false, "a run ends");
}

/* --- the list */

static uint64_t budget_of(int pattern, int call) {
    static const uint64_t mixed[12] = {RG_BUDGET + 1, 1, 3, 0, UINT64_MAX, 2, 1, RG_BUDGET + 1, RG_BUDGET, 5, RG_BUDGET + 1, 4};
    return pattern == 0 ? (uint64_t)(call % 2) : pattern == 4 ? 7 : pattern == 5 ? mixed[call % 12] : pattern == 6 ? RG_BUDGET : (uint64_t)pattern;
}

/* A list of calls under way: the run, the moves since the last hand-out, and those handed out so far. */
typedef struct {
    int which;
    uint64_t run[RG_RUN_WORDS], since;
    int handed;
} Going;

/* 01's limits: n + 1 moves to the first hand-out, then 2n + 1 to each next one or to the end. */
static void limits(const Going *going) {
    uint64_t n = picks_of(going->run + RG_RUN_TABLE, going->which);
    must(going->run[RG_RUN_OMIT] || going->since <= (going->handed ? 2 * n + 1 : n + 1), "no more moves than 01 allows");
}

/* Calls up to the next hand-out or the end; whether there was a hand-out. The answer is in given(1). */
static bool next_ladder(Going *going, int pattern, int *call) {
    for (;; ++*call) {
        if (ask_run(going->which, going->run, budget_of(pattern, *call))) continue;
        memcpy(going->run, given(0), sizeof going->run);
        going->since += given(1)[RG_STEP_MOVES];
        limits(going);
        if (given(1)[RG_STEP_OUTCOME] == RG_SPENT) continue;
        ++*call;
        going->since = 0;
        going->handed++;
        return given(1)[RG_STEP_OUTCOME] == RG_HANDED_OUT;
    }
}

/* The list by definition: the ladders among all sets of pairs, by their pick sequences. */
void listed(int which, const uint64_t *table, const uint64_t *order, List *list) {
    Side side;
    side_of(&side, which, table, order);
    list_ladders(&side.set, list);
    sort_ladders(list, &side);
}

/* the pick sequence that a call carries is that of its ladder. */
static void carried(int which, const uint64_t *table, const uint64_t *order) {
    uint64_t step[RG_STEP_WORDS];
    memcpy(step, given(1), sizeof step);
    must(ask_sequence(which, table, order, step + RG_STEP_CHAIN) == 0, "a ladder has a pick sequence");
    must(!memcmp(given(3), step + RG_STEP_PICKS, RG_NUMBERS_WORDS * sizeof *step), "the pick sequence that the call carries");
}

void whole_list(int which, const uint64_t *table, const uint64_t *order, uint64_t omit, int pattern) {
    static List list;
    Going going = {.which = which};
    Set pairs = table_set(table);
    int call = 0;
    listed(which, table, order, &list);
    ask_start(which, table, order, omit);
    memcpy(going.run, given(2), sizeof going.run);
    for (int i = 0; i < list.n; i++) {
        Set due = which == RG_SIDE_GAUGES ? list.ladder[i] : turned(&list.ladder[i]);
        if (omit && !holds_deciding(&pairs, &due)) continue;
        must(next_ladder(&going, pattern, &call), "a ladder more");
        must(!memcmp(given(1) + RG_STEP_CHAIN + RG_CHAIN_ROWS, due.rows, sizeof due.rows), "the ladder that the list has there");
        if (pattern == 6) carried(which, table, order);
    }
    must(!next_ladder(&going, pattern, &call), "no ladder more");
    must(!next_ladder(&going, pattern, &call), "no ladder behind the end");
}

/* Both lists have the same number of ladders, at most (min G L)!. */
static void lengths(const uint64_t *table) {
    static const int factorial[] = {1, 1, 2, 6};
    static List by_gauges, by_cases;
    Numbers order;
    in_order(order, table[RG_TABLE_GAUGES]);
    listed(RG_SIDE_GAUGES, table, order, &by_gauges);
    in_order(order, table[RG_TABLE_CASES]);
    listed(RG_SIDE_CASES, table, order, &by_cases);
    int least = (int)(table[RG_TABLE_GAUGES] < table[RG_TABLE_CASES] ? table[RG_TABLE_GAUGES] : table[RG_TABLE_CASES]);
    must(by_gauges.n == by_cases.n && by_gauges.n <= factorial[least], "as many ladders on both sides, and no more than there can be");
}

/* --- the tables */

void ask_runs(const uint64_t *table) {
    Numbers orders[6];
    for (int which = RG_SIDE_GAUGES; which <= RG_SIDE_CASES; which++) {
        int n = arrangements(orders, picks_of(table, which));
        for (int k = 0; k < n; k++)
            for (uint64_t omit = 0; omit <= 1; omit++) {
                each_value(which, table, orders[k], omit, one_value);
                for (int pattern = 0; pattern < 7; pattern++) whole_list(which, table, orders[k], omit, pattern);
            }
        ask_start(which, table, orders[n - 1], UINT64_MAX);
    }
}

static void one_table(const uint64_t *table) {
    ask_runs(table);
    lengths(table);
}

void small_runs(void) { each_small_table(one_table); }
