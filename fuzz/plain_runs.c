/* Rules 1 to 5 by definition, and what is asked of a paused run. Whether a paused value is one that moves lead to is found by making them all, from
 * the fresh start to the end. First candidates and moves, then the values, then the entries: starts, calls, questions, parts, counts. */
#include "plain.h"
#include <stdlib.h>
#include <string.h>

void side_of(Side *side, int which, const uint64_t *table, const uint64_t *order) {
    int gauges = (int)table[RG_TABLE_GAUGES], cases = (int)table[RG_TABLE_CASES];
    Set set = table_set(table);
    Set columns = turned(&set);
    if (which == RG_SIDE_GAUGES) plain_side(side, gauges, cases, &set);
    else plain_side(side, cases, gauges, &columns);
    for (int i = 0; i < side->n; i++) side->place[order[i]] = i + 1;
}

static bool picked(const State *state, int g) {
    for (int i = 0; i < state->count; i++)
        if (state->picks[i] == g) return true;
    return false;
}

static uint64_t left(const Side *side, const State *state) {
    uint64_t cases = side->all;
    for (int i = 0; i < state->count; i++) cases &= side->set.rows[state->picks[i] - 1];
    return cases;
}

/* An unpicked gauge with a remainder that is not empty, such that no unpicked gauge's remainder strictly contains it, and no unpicked gauge of a
 * lower place has an equal one. */
static bool candidate(const Side *side, const State *state, uint64_t cases, int g) {
    uint64_t mine = side->set.rows[g - 1] & cases;
    if (!mine || picked(state, g)) return false;
    for (int h = 1; h <= side->n; h++) {
        uint64_t other = side->set.rows[h - 1] & cases;
        if ((mine & ~other) || picked(state, h)) continue;
        if (other != mine || side->place[h] < side->place[g]) return false;
    }
    return true;
}

/* The candidate of the lowest place above that of `above`, 0 where there is none; place 0 is below all. */
static int next_candidate(const Side *side, const State *state, int above) {
    uint64_t cases = left(side, state);
    int best = 0;
    for (int g = 1; cases && g <= side->n; g++)
        if (side->place[g] > above && (!best || side->place[g] < side->place[best]) && candidate(side, state, cases, g)) best = g;
    return best;
}

static int take_back(State *state) {
    state->phase = state->count ? RG_PHASE_BACK : RG_PHASE_ENDED;
    state->from = state->count ? state->picks[--state->count] : 0;
    return state->phase == RG_PHASE_ENDED ? ENDED : MOVED;
}

static int pick(State *state, int g) {
    state->picks[state->count++] = g;
    state->phase = RG_PHASE_DOWN;
    state->from = 0;
    return MOVED;
}

/* One move. */
int move(const Side *side, State *state) {
    int g;
    switch (state->phase) {
    case RG_PHASE_DOWN:
        g = next_candidate(side, state, 0);
        if (g) return pick(state, g);
        state->phase = RG_PHASE_HANDED;
        return GAVE;
    case RG_PHASE_HANDED:
        return take_back(state);
    case RG_PHASE_BACK:
        g = next_candidate(side, state, side->place[state->from]);
        return g ? pick(state, g) : take_back(state);
    default:
        return ENDED;
    }
}

/* The set of rule 2, by the side's own rows. */
Set handed_out(const Side *side, const State *state) {
    Set s = {{0}};
    uint64_t cases = side->all;
    for (int i = 0; i < state->count; i++) {
        cases &= side->set.rows[state->picks[i] - 1];
        s.rows[state->picks[i] - 1] = cases;
    }
    return s;
}

/* The sets of all pick sequences that no candidate follows, at most so many; `out` may be null. */
int leaves(const Side *side, int most, Set *out) {
    State state = {.phase = RG_PHASE_DOWN};
    int n = 0;
    while (state.phase != RG_PHASE_ENDED && n < most)
        if (move(side, &state) == GAVE) {
            if (out) out[n] = handed_out(side, &state);
            n++;
        }
    return n;
}

void put_run(uint64_t *run, int which, const uint64_t *table, const uint64_t *order, const State *state, bool omit) {
    run[RG_RUN_SIDE] = (uint64_t)which;
    memmove(run + RG_RUN_TABLE, table, 66 * sizeof *run);
    memmove(run + RG_RUN_ORDER, order, 64 * sizeof *run);
    for (int i = 0; i < 64; i++) run[RG_RUN_PICKS + i] = i < state->count ? (uint64_t)state->picks[i] : 0;
    run[RG_RUN_COUNT] = (uint64_t)state->count;
    run[RG_RUN_PHASE] = (uint64_t)state->phase;
    run[RG_RUN_FROM] = (uint64_t)state->from;
    run[RG_RUN_OMIT] = omit;
}

/* Whether the words of a run are those of this state. */
static bool is_state(const uint64_t *run, const State *state) {
    for (int i = 0; i < 64; i++)
        if (run[RG_RUN_PICKS + i] != (i < state->count ? (uint64_t)state->picks[i] : 0)) return false;
    return run[RG_RUN_COUNT] == (uint64_t)state->count && run[RG_RUN_PHASE] == (uint64_t)state->phase && run[RG_RUN_FROM] == (uint64_t)state->from;
}

static bool reached(const Side *side, const uint64_t *run, State *state) {
    *state = (State){.phase = RG_PHASE_DOWN};
    while (!is_state(run, state)) {
        if (state->phase == RG_PHASE_ENDED) return false;
        move(side, state);
    }
    return true;
}

/* 10, 11, 27, 15 of a paused run of a side; its state where it has none of these. */
static uint64_t run_refusal(const uint64_t *run, int which, Side *side, State *state) {
    const uint64_t *table = run + RG_RUN_TABLE, *order = run + RG_RUN_ORDER;
    uint64_t why = table_refusal(table);
    if (!why) why = order_refusal(order, table[which == RG_SIDE_GAUGES ? RG_TABLE_GAUGES : RG_TABLE_CASES]);
    if (why) return why;
    if (run[RG_RUN_SIDE] != (uint64_t)which || run[RG_RUN_OMIT] > 1) return 15;
    side_of(side, which, table, order);
    return reached(side, run, state) ? 0 : 15;
}

static uint64_t start(int which, const uint64_t *table, size_t table_n, const uint64_t *order, size_t order_n, uint64_t omit, uint64_t *run,
                      size_t run_n) {
    State fresh = {.phase = RG_PHASE_DOWN};
    if (table_n < 66 || order_n < 64 || run_n < 199) return 100;
    uint64_t why = table_refusal(table);
    if (!why) why = order_refusal(order, table[which == RG_SIDE_GAUGES ? RG_TABLE_GAUGES : RG_TABLE_CASES]);
    if (why) return why;
    put_run(run, which, table, order, &fresh, omit != 0);
    return 0;
}

uint64_t plain_start_gauges(const uint64_t *table, size_t table_n, const uint64_t *order, size_t order_n, uint64_t omit, uint64_t *run,
                            size_t run_n) {
    return start(RG_SIDE_GAUGES, table, table_n, order, order_n, omit, run, run_n);
}

uint64_t plain_start_cases(const uint64_t *table, size_t table_n, const uint64_t *order, size_t order_n, uint64_t omit, uint64_t *run,
                           size_t run_n) {
    return start(RG_SIDE_CASES, table, table_n, order, order_n, omit, run, run_n);
}

/* A set of the side's rows by gauge rows. */
static Set by_gauges(int which, const Set *s) { return which == RG_SIDE_GAUGES ? *s : turned(s); }

/* Moves up to the budget, the first hand-out that is not omitted, or the end; a run that omits goes on at a ladder without a deciding pair. */
static uint64_t carry(int which, const Side *side, State *state, uint64_t budget, bool omit, const Set *table, uint64_t *moves) {
    for (*moves = 0; *moves < budget;) {
        int came = move(side, state);
        ++*moves;
        if (came == ENDED) return RG_END;
        if (came == MOVED) continue;
        Set mine = handed_out(side, state);
        Set ladder = by_gauges(which, &mine);
        if (!omit || holds_deciding(table, &ladder)) return RG_HANDED_OUT;
    }
    return RG_SPENT;
}

static uint64_t call(int which, uint64_t *run, size_t run_n, uint64_t budget, uint64_t *step, size_t step_n) {
    Side side;
    State state;
    int picks[64];
    if (run_n < 199 || step_n < 131) return 100;
    uint64_t why = run_refusal(run, which, &side, &state);
    if (why) return why;
    if (budget > 1000000) return 18;
    Set table = table_set(run + RG_RUN_TABLE);
    memset(step, 0, 131 * sizeof *step);
    step[RG_STEP_OUTCOME] = carry(which, &side, &state, budget, run[RG_RUN_OMIT], &table, &step[RG_STEP_MOVES]);
    put_run(run, which, run + RG_RUN_TABLE, run + RG_RUN_ORDER, &state, run[RG_RUN_OMIT]);
    if (step[RG_STEP_OUTCOME] != RG_HANDED_OUT) return 0;
    Set mine = handed_out(&side, &state);
    Set ladder = by_gauges(which, &mine);
    put_chain(step + RG_STEP_CHAIN, run[RG_RUN_TABLE + RG_TABLE_GAUGES], &ladder);
    int n = pick_sequence(&side, &mine, picks);
    for (int i = 0; i < n; i++) step[RG_STEP_PICKS + i] = (uint64_t)picks[i];
    return 0;
}

uint64_t plain_run_gauges(uint64_t *run, size_t run_n, uint64_t budget, uint64_t *step, size_t step_n) {
    return call(RG_SIDE_GAUGES, run, run_n, budget, step, step_n);
}

uint64_t plain_run_cases(uint64_t *run, size_t run_n, uint64_t budget, uint64_t *step, size_t step_n) {
    return call(RG_SIDE_CASES, run, run_n, budget, step, step_n);
}

/* As many hand-outs as the words from 3 on have room for, the budget being for all of them. */
static uint64_t batch(int which, uint64_t *run, size_t run_n, uint64_t budget, uint64_t *out, size_t out_n) {
    Side side;
    State state;
    uint64_t outcome = RG_HANDED_OUT, ladders = 0, made = 0, moves;
    if (run_n < 199 || out_n < 3) return 100;
    uint64_t why = run_refusal(run, which, &side, &state), gauges = run[RG_RUN_TABLE + RG_TABLE_GAUGES];
    if (why) return why;
    if (budget > 1000000) return 18;
    Set table = table_set(run + RG_RUN_TABLE);
    while (3 + (ladders + 1) * gauges <= out_n) {
        outcome = carry(which, &side, &state, budget - made, run[RG_RUN_OMIT], &table, &moves);
        made += moves;
        if (outcome != RG_HANDED_OUT) break;
        Set mine = handed_out(&side, &state);
        Set ladder = by_gauges(which, &mine);
        memcpy(out + 3 + ladders++ * gauges, ladder.rows, gauges * sizeof *out);
    }
    out[RG_BATCH_OUTCOME] = outcome;
    out[RG_BATCH_LADDERS] = ladders;
    out[RG_BATCH_MOVES] = made;
    put_run(run, which, run + RG_RUN_TABLE, run + RG_RUN_ORDER, &state, run[RG_RUN_OMIT]);
    return 0;
}

uint64_t plain_list_gauges(uint64_t *run, size_t run_n, uint64_t budget, uint64_t *out, size_t out_n) {
    return batch(RG_SIDE_GAUGES, run, run_n, budget, out, out_n);
}

uint64_t plain_list_cases(uint64_t *run, size_t run_n, uint64_t budget, uint64_t *out, size_t out_n) {
    return batch(RG_SIDE_CASES, run, run_n, budget, out, out_n);
}

static bool names_pair(const uint64_t *table, uint64_t g, uint64_t c) {
    Set t = table_set(table);
    return g >= 1 && g <= table[RG_TABLE_GAUGES] && c >= 1 && c <= table[RG_TABLE_CASES] && has(&t, (int)g, (int)c);
}

/* The first pick whose row, on the run's side, lacks the pair: of a gauge run the pair's case, of a case run the pair's gauge. */
static uint64_t first_lacking(const Side *side, const State *state, int other) {
    for (int i = 0; i < state->count; i++)
        if (!has(&side->set, state->picks[i], other)) return (uint64_t)state->picks[i];
    abort();
}

static uint64_t explain(int which, const uint64_t *run, size_t run_n, uint64_t g, uint64_t c, uint64_t *out, size_t out_n) {
    Side side;
    State state;
    if (run_n < 199 || out_n < 1) return 100;
    uint64_t why = run_refusal(run, which, &side, &state);
    if (why) return why;
    if (state.phase != RG_PHASE_HANDED) return 15;
    if (!names_pair(run + RG_RUN_TABLE, g, c)) return 19;
    Set mine = handed_out(&side, &state);
    Set ladder = by_gauges(which, &mine);
    if (has(&ladder, (int)g, (int)c)) return 22;
    out[0] = first_lacking(&side, &state, which == RG_SIDE_GAUGES ? (int)c : (int)g);
    return 0;
}

uint64_t plain_explain_gauge(const uint64_t *run, size_t run_n, uint64_t g, uint64_t c, uint64_t *out, size_t out_n) {
    return explain(RG_SIDE_GAUGES, run, run_n, g, c, out, out_n);
}

uint64_t plain_explain_case(const uint64_t *run, size_t run_n, uint64_t g, uint64_t c, uint64_t *out, size_t out_n) {
    return explain(RG_SIDE_CASES, run, run_n, g, c, out, out_n);
}

/* 10, 11, 27, 15 of a run that is to be split; then 15 for another phase. */
static uint64_t part_refusal(const uint64_t *run, int which, Side *side, State *state) {
    uint64_t why = run_refusal(run, which, side, state);
    if (why) return why;
    return state->phase == RG_PHASE_DOWN ? 0 : 15;
}

static uint64_t candidates(int which, const uint64_t *run, size_t run_n, uint64_t *numbers, size_t numbers_n) {
    Side side;
    State state;
    int n = 0;
    if (run_n < 199 || numbers_n < 64) return 100;
    uint64_t why = part_refusal(run, which, &side, &state);
    if (why) return why;
    memset(numbers, 0, 64 * sizeof *numbers);
    for (int g = next_candidate(&side, &state, 0); g; g = next_candidate(&side, &state, side.place[g])) numbers[n++] = (uint64_t)g;
    return 0;
}

uint64_t plain_candidates_gauges(const uint64_t *run, size_t run_n, uint64_t *numbers, size_t numbers_n) {
    return candidates(RG_SIDE_GAUGES, run, run_n, numbers, numbers_n);
}

uint64_t plain_candidates_cases(const uint64_t *run, size_t run_n, uint64_t *numbers, size_t numbers_n) {
    return candidates(RG_SIDE_CASES, run, run_n, numbers, numbers_n);
}

static uint64_t part(int which, const uint64_t *run, size_t run_n, uint64_t number, uint64_t *out, size_t out_n) {
    Side side;
    State state;
    if (run_n < 199 || out_n < 199) return 100;
    uint64_t why = part_refusal(run, which, &side, &state);
    if (why) return why;
    if (number < 1 || number > (uint64_t)side.n || !candidate(&side, &state, left(&side, &state), (int)number)) return 15;
    pick(&state, (int)number);
    put_run(out, which, run + RG_RUN_TABLE, run + RG_RUN_ORDER, &state, run[RG_RUN_OMIT]);
    return 0;
}

uint64_t plain_part_gauges(const uint64_t *run, size_t run_n, uint64_t number, uint64_t *out, size_t out_n) {
    return part(RG_SIDE_GAUGES, run, run_n, number, out, out_n);
}

uint64_t plain_part_cases(const uint64_t *run, size_t run_n, uint64_t number, uint64_t *out, size_t out_n) {
    return part(RG_SIDE_CASES, run, run_n, number, out, out_n);
}

/* The pick sequences that begin with these picks. */
static uint64_t sequences(const Side *side, State *state) {
    uint64_t cases = left(side, state), n = 1;
    for (int g = 1; g <= side->n; g++)
        if (candidate(side, state, cases, g)) {
            state->picks[state->count++] = g;
            n += sequences(side, state);
            state->count--;
        }
    return n;
}

uint64_t plain_count(const uint64_t *table, size_t table_n, const uint64_t *order, size_t order_n, uint64_t budget, uint64_t *count,
                     size_t count_n) {
    static List list;
    Side side;
    State state = {.phase = RG_PHASE_DOWN};
    if (table_n < 66 || order_n < 64 || count_n < 3) return 100;
    uint64_t why = table_refusal(table);
    if (!why) why = order_refusal(order, table[RG_TABLE_GAUGES]);
    if (why) return why;
    if (budget > 1000000) return 18;
    side_of(&side, RG_SIDE_GAUGES, table, order);
    uint64_t calls = sequences(&side, &state);
    list_ladders(&side.set, &list);
    if (calls <= budget && list.n == PLAIN_LADDERS) abort();
    count[0] = calls > budget ? 2 : 1;
    count[1] = calls > budget ? 0 : (uint64_t)list.n;
    count[2] = calls > budget ? budget : calls;
    return 0;
}
