/* What bench/run measures of the C library: a table from standard input is listed whole, by gauges or by cases, some times over. Arguments and what is
 * written are those of crates/bench_runs and crates/bench_batches: the side, `gauges` or `cases`, and the budget of a call with the number of repeats, as
 * one word of two numbers, for one run call a ladder; a third number is that of the words for the ladders of a batch, at most 65,536. It writes the number
 * of ladders, and a sum that depends on every row of each and on their order. */
#include "../include/ragymolev.h"
#include <stdio.h>
#include <string.h>

#define MOST_WORDS 65536

static uint64_t ladders, sum;

/* A ladder more: the sum goes one step on and takes the ladder in. */
static void take(const uint64_t *rows, uint64_t gauges) {
    uint64_t folded = 0;
    for (uint64_t i = 0; i < gauges; i++) folded ^= rows[i] << (i * 7 % 64);
    sum ^= sum << 13;
    sum ^= sum >> 7;
    sum ^= sum << 17;
    sum ^= folded;
    ladders++;
}

/* A run from its fresh start to its end, one call a ladder; 0, or the number of a refusal. */
static uint64_t list(int by_cases, uint64_t budget, uint64_t *run) {
    uint64_t step[RG_STEP_WORDS], why;
    do {
        why = (by_cases ? rg_run_cases : rg_run_gauges)(run, RG_RUN_WORDS, budget, step, RG_STEP_WORDS);
        if (why) return why;
        if (step[RG_STEP_OUTCOME] == RG_HANDED_OUT) take(step + RG_STEP_CHAIN + RG_CHAIN_ROWS, step[RG_STEP_CHAIN + RG_CHAIN_COUNT]);
    } while (step[RG_STEP_OUTCOME] != RG_END);
    return 0;
}

/* The same in batches that have so many words for their ladders. */
static uint64_t list_batches(int by_cases, uint64_t budget, uint64_t *run, size_t words) {
    static uint64_t batch[RG_BATCH_WORDS + MOST_WORDS];
    uint64_t gauges = run[RG_RUN_TABLE + RG_TABLE_GAUGES], why;
    do {
        why = (by_cases ? rg_list_cases : rg_list_gauges)(run, RG_RUN_WORDS, budget, batch, RG_BATCH_WORDS + words);
        if (why) return why;
        for (uint64_t i = 0; i < batch[RG_BATCH_LADDERS]; i++) take(batch + RG_BATCH_WORDS + i * gauges, gauges);
    } while (batch[RG_BATCH_OUTCOME] != RG_END);
    return 0;
}

int main(int argc, char **argv) {
    static uint8_t file[RG_FILE_BYTES + 1];
    uint64_t table[RG_TABLE_WORDS], order[RG_ORDER_WORDS] = {0}, run[RG_RUN_WORDS], why;
    unsigned long long budget, repeats, words = 0;
    if (argc != 3 || sscanf(argv[2], "%llu %llu %llu", &budget, &repeats, &words) < 2 || words > MOST_WORDS) return 2;
    int by_cases = !strcmp(argv[1], "cases");
    why = rg_read(file, fread(file, 1, sizeof file, stdin), table, RG_TABLE_WORDS);
    for (uint64_t i = 0; !why && i < table[by_cases ? RG_TABLE_CASES : RG_TABLE_GAUGES]; i++) order[i] = i + 1;
    while (!why && repeats-- > 0) {
        why = (by_cases ? rg_start_cases : rg_start_gauges)(table, RG_TABLE_WORDS, order, RG_ORDER_WORDS, 0, run, RG_RUN_WORDS);
        if (!why) why = words ? list_batches(by_cases, budget, run, (size_t)words) : list(by_cases, budget, run);
    }
    if (why) return 3;
    printf("%llu %llu\n", (unsigned long long)ladders, (unsigned long long)sum);
    return 0;
}
