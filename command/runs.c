/* Runs of either side under one roof: a start, a call, a batch of calls, the next ladder, a pick sequence. */
#include "planner.h"

uint64_t side_count(const uint64_t *table, bool by_cases) { return table[by_cases ? RG_TABLE_CASES : RG_TABLE_GAUGES]; }

/* A fresh run, or the refusal: on a table that was read, of nothing but the preference. */
uint64_t start_with(const uint64_t *table, const uint64_t *order, bool by_cases, bool needed, Run *run) {
    run->by_cases = by_cases;
    run->budget = RG_BUDGET;
    return (by_cases ? rg_start_cases : rg_start_gauges)(table, RG_TABLE_WORDS, order, RG_ORDER_WORDS, needed, run->words, RG_RUN_WORDS);
}

/* The run that the options ask for. */
void start_run(const Request *request, const uint64_t *table, Run *run) {
    uint64_t order[RG_ORDER_WORDS];
    bool by_cases = request->option[BY_CASES];
    order_of(request, side_count(table, by_cases), order);
    uint64_t why = start_with(table, order, by_cases, request->option[NEEDED], run);
    accept(subject_of(request, why, request->command->name), why);
}

/* One call; its outcome. Of a value that a start, a part or another call gave, 18 alone is refused. */
uint64_t call_run(const Request *request, Run *run) {
    uint64_t why = (run->by_cases ? rg_run_cases : rg_run_gauges)(run->words, RG_RUN_WORDS, run->budget, run->step, RG_STEP_WORDS);
    accept(subject_of(request, why, request->command->name), why);
    return run->step[RG_STEP_OUTCOME];
}

/* A batch of calls, for as many ladders as `batch` has room for; its outcome. */
uint64_t call_batch(const Request *request, Run *run, uint64_t *batch, size_t words) {
    uint64_t why = (run->by_cases ? rg_list_cases : rg_list_gauges)(run->words, RG_RUN_WORDS, run->budget, batch, words);
    accept(subject_of(request, why, request->command->name), why);
    return batch[RG_BATCH_OUTCOME];
}

/* Calls until a ladder is handed out; false at the end of the list. */
bool next_ladder(const Request *request, Run *run) {
    uint64_t outcome;
    do outcome = call_run(request, run);
    while (outcome == RG_SPENT);
    return outcome == RG_HANDED_OUT;
}

/* The pick sequence of a ladder on the side of a run and under its preference; the refusal where it is none. */
uint64_t sequence_of(const Run *run, const uint64_t *ladder, uint64_t *picks) {
    return (run->by_cases ? rg_sequence_cases : rg_sequence_gauges)(run->words + RG_RUN_TABLE, RG_TABLE_WORDS, run->words + RG_RUN_ORDER, RG_ORDER_WORDS,
                                                                    ladder, RG_CHAIN_WORDS, picks, RG_NUMBERS_WORDS);
}
