/* Batches of small tables: all tables up to 3 by 3, both sides, under every preference, omitting and not. From the fresh value every room from none to one
 * ladder more than there are with every budget up to the end, and a batch of every length up to there; from every other value every room, and every
 * budget. Each is held to the plain entry, and to the run calls that it stands for: the first with the budget, each next with what is left of it. Then
 * whole lists of batches and run calls in turn, held to the ladders of the table, sorted by their pick sequences; and of the 8 by 8 table where gauge g
 * lacks only case g, with its 40,320 ladders. Damaged values are in damage.c. */
#include "both.h"
#include "runs.h"
#include <string.h>

#define MOST_ROOM 4100

static uint64_t call(int which, uint64_t *run, uint64_t budget, uint64_t *step) {
    return (which == RG_SIDE_GAUGES ? rg_run_gauges : rg_run_cases)(run, RG_RUN_WORDS, budget, step, RG_STEP_WORDS);
}

/* --- a batch is its run calls */

/* What the batch just asked for gave is what run calls from `run` on come to, of a batch with room for k ladders. */
static void as_calls(int which, const uint64_t *run, uint64_t budget, uint64_t k) {
    uint64_t now[RG_RUN_WORDS], step[RG_STEP_WORDS], gauges = run[RG_RUN_TABLE + RG_TABLE_GAUGES], outcome = RG_HANDED_OUT, ladders = 0, moves = 0;
    const uint64_t *batch = given(1);
    bool same = true;
    memcpy(now, run, sizeof now);
    while (ladders < k) {
        same = same && call(which, now, budget - moves, step) == 0;
        outcome = step[RG_STEP_OUTCOME];
        moves += step[RG_STEP_MOVES];
        if (!same || outcome != RG_HANDED_OUT) break;
        same = !memcmp(batch + RG_BATCH_WORDS + ladders++ * gauges, step + RG_STEP_CHAIN + RG_CHAIN_ROWS, gauges * sizeof *batch);
    }
    same = same && batch[RG_BATCH_OUTCOME] == outcome && batch[RG_BATCH_LADDERS] == ladders && batch[RG_BATCH_MOVES] == moves;
    must(same && !memcmp(given(0), now, sizeof now), "a batch is its run calls");
}

static void one_batch(int which, const uint64_t *run, uint64_t budget, uint64_t k) {
    size_t gauges = (size_t)run[RG_RUN_TABLE + RG_TABLE_GAUGES];
    if (ask_list(which, run, budget, RG_BATCH_WORDS + (size_t)k * gauges) == 0) as_calls(which, run, budget, k);
}

/* --- from one value */

/* The ladders still to come, at most 40, and the moves up to the end with them, at most 99. */
static void to_come(int which, const uint64_t *run, uint64_t *ladders, uint64_t *moves) {
    size_t gauges = (size_t)run[RG_RUN_TABLE + RG_TABLE_GAUGES];
    ask_list(which, run, RG_BUDGET, RG_BATCH_WORDS + 40 * gauges);
    *ladders = given(1)[RG_BATCH_LADDERS];
    *moves = given(1)[RG_BATCH_MOVES] < 99 ? given(1)[RG_BATCH_MOVES] : 99;
}

static void every_room_and_budget(int which, const uint64_t *run) {
    uint64_t ladders, moves;
    size_t gauges = (size_t)run[RG_RUN_TABLE + RG_TABLE_GAUGES];
    to_come(which, run, &ladders, &moves);
    for (uint64_t k = 0; k <= ladders + 1; k++)
        for (uint64_t b = 0; b <= moves + 1; b++) one_batch(which, run, b, k);
    for (size_t room = 0; room <= RG_BATCH_WORDS + (size_t)(ladders + 2) * gauges; room++)
        if (ask_list(which, run, RG_BUDGET, room) == 0) as_calls(which, run, RG_BUDGET, (room - RG_BATCH_WORDS) / gauges);
}

static void one_value(int which, const uint64_t *run) {
    uint64_t ladders, moves;
    to_come(which, run, &ladders, &moves);
    if (run[RG_RUN_PHASE] == RG_PHASE_DOWN && run[RG_RUN_COUNT] == 0) every_room_and_budget(which, run);
    for (uint64_t k = 0; k <= ladders + 1; k++) one_batch(which, run, RG_BUDGET, k);
    for (uint64_t b = 0; b <= moves + 1; b++) one_batch(which, run, b, ladders + 1);
    ask_list(which, run, RG_BUDGET + 1, RG_BATCH_WORDS);
    ask_list(which, run, UINT64_MAX, 40);
    ask_list(3 - which, run, 1, 40);
}

/* --- whole lists: calls of both kinds in turn */

/* What call number i of a pattern is: the room of a batch, or -1 for a run call; and its budget. */
static int room_of(int pattern, int i) {
    static const int mixed[6] = {2, -1, 0, 1, -1, 3};
    return pattern == 3 ? mixed[i % 6] : pattern == 4 ? i % 2 - 1 : pattern;
}

static uint64_t budget_of(int pattern, int i) {
    static const uint64_t mixed[5] = {RG_BUDGET, 3, RG_BUDGET + 1, 0, 5};
    return pattern == 3 ? mixed[i % 5] : pattern == 4 ? 2 : RG_BUDGET;
}

/* The ladders of one call, by G rows each, into `out`; how many there are. Whether it ended goes to `over`. */
static uint64_t some(int which, uint64_t *run, int room, uint64_t budget, uint64_t *out, bool *over) {
    uint64_t gauges = run[RG_RUN_TABLE + RG_TABLE_GAUGES], n;
    if (room < 0) {
        if (ask_run(which, run, budget)) return 0;
        n = given(1)[RG_STEP_OUTCOME] == RG_HANDED_OUT;
        memcpy(out, given(1) + RG_STEP_CHAIN + RG_CHAIN_ROWS, (size_t)(n * gauges) * sizeof *out);
    } else {
        if (ask_list(which, run, budget, RG_BATCH_WORDS + (size_t)room * (size_t)gauges)) return 0;
        n = given(1)[RG_BATCH_LADDERS];
        memcpy(out, given(1) + RG_BATCH_WORDS, (size_t)(n * gauges) * sizeof *out);
    }
    *over = given(1)[RG_STEP_OUTCOME] == RG_END;
    memcpy(run, given(0), RG_RUN_WORDS * sizeof *run);
    return n;
}

/* A whole list by calls of a pattern is the list by definition. */
static void whole(int which, const uint64_t *table, const uint64_t *order, uint64_t omit, int pattern) {
    static List list;
    uint64_t run[RG_RUN_WORDS], out[200], gauges = table[RG_TABLE_GAUGES];
    Set pairs = table_set(table);
    bool over = false;
    int at = 0;
    listed(which, table, order, &list);
    ask_start(which, table, order, omit);
    memcpy(run, given(2), sizeof run);
    for (int i = 0; i < 300 && !over; i++) {
        uint64_t n = some(which, run, room_of(pattern, i), budget_of(pattern, i), out, &over);
        for (uint64_t k = 0; k < n; k++) {
            Set due = {{0}};
            for (; at < list.n; at++) {
                due = which == RG_SIDE_GAUGES ? list.ladder[at] : turned(&list.ladder[at]);
                if (!omit || holds_deciding(&pairs, &due)) break;
            }
            must(at++ < list.n && !memcmp(out + k * gauges, due.rows, (size_t)gauges * sizeof *out), "the ladder that the list has there");
        }
    }
    for (; omit && at < list.n; at++) {
        Set rest = which == RG_SIDE_GAUGES ? list.ladder[at] : turned(&list.ladder[at]);
        if (holds_deciding(&pairs, &rest)) break;
    }
    must(over && at == list.n, "the whole list, and its end");
}

static void one_table(const uint64_t *table) {
    Numbers orders[6];
    for (int which = RG_SIDE_GAUGES; which <= RG_SIDE_CASES; which++) {
        int n = arrangements(orders, picks_of(table, which));
        for (int k = 0; k < n; k++)
            for (uint64_t omit = 0; omit <= 1; omit++) {
                each_value(which, table, orders[k], omit, one_value);
                for (int pattern = 1; pattern <= 4; pattern++) whole(which, table, orders[k], omit, pattern);
            }
    }
}

/* --- the large one */

/* Batches with room for k ladders, from the start to the end, give what run calls give. */
static void known(int which, uint64_t k, uint64_t omit) {
    static uint64_t batch[RG_BATCH_WORDS + MOST_ROOM * 8];
    uint64_t run[RG_RUN_WORDS], other[RG_RUN_WORDS], step[RG_STEP_WORDS], ladders = 0;
    Table table;
    Numbers order;
    bool same = true;
    square(table, 8, LACKING);
    in_order(order, 8);
    (which == RG_SIDE_GAUGES ? rg_start_gauges : rg_start_cases)(table, RG_TABLE_WORDS, order, RG_ORDER_WORDS, omit, run, RG_RUN_WORDS);
    memcpy(other, run, sizeof other);
    do {
        same = (which == RG_SIDE_GAUGES ? rg_list_gauges : rg_list_cases)(run, RG_RUN_WORDS, RG_BUDGET, batch, RG_BATCH_WORDS + (size_t)k * 8) == 0;
        for (uint64_t i = 0; same && i < batch[RG_BATCH_LADDERS]; i++, ladders++)
            same = call(which, other, RG_BUDGET, step) == 0 && step[RG_STEP_OUTCOME] == RG_HANDED_OUT &&
                   !memcmp(batch + RG_BATCH_WORDS + i * 8, step + RG_STEP_CHAIN + RG_CHAIN_ROWS, 8 * sizeof *batch);
    } while (same && batch[RG_BATCH_OUTCOME] != RG_END && ladders <= 40320);
    must(same && call(which, other, RG_BUDGET, step) == 0 && step[RG_STEP_OUTCOME] == RG_END && !memcmp(run, other, sizeof run),
         "batches give what run calls give");
    must(ladders == 40320, "so many ladders");
}

void small_batches(void) {
    each_small_table(one_table);
    for (int which = RG_SIDE_GAUGES; which <= RG_SIDE_CASES; which++) {
        known(which, 1, 0);
        known(which, 64, 0);
        known(which, 1000, 1);
        known(which, MOST_ROOM, 0);
    }
}
