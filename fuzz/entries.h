/* How each entry is called, of the library and of the plain ones of plain.h: numbers and lent memory, in the order of the entry's parameters, each kind
 * by itself. First an input, then the calls, then what each entry refuses. fuzz.c and the comparisons of tests/compare/
 * share it; include ragymolev.h ahead of it. */
#ifndef ENTRIES_H
#define ENTRIES_H

#include "plain.h"

#define MOST_LENT 5

/* Memory to be lent: elements of a size, how many the layout has (0: any number of bytes), how many are lent, and what they hold at first. */
typedef struct {
    size_t size, layout, length;
    uint8_t *first;
} Lent;

typedef struct {
    uint64_t number[4];
    int lent;
    Lent at[MOST_LENT];
} Input;

#define W(i) (uint64_t *)p[i], in->at[i].length
#define B(i) (uint8_t *)p[i], in->at[i].length
#define R(i) (int32_t *)p[i], in->at[i].length
#define N(i) in->number[i]
#define ENTRY(name, ...)                                                                                    \
    static uint64_t rg_call_##name(const Input *in, void *const *p) { return rg_##name(__VA_ARGS__); }      \
    static uint64_t plain_call_##name(const Input *in, void *const *p) { return plain_##name(__VA_ARGS__); }

ENTRY(words, N(0), B(0), W(1))
ENTRY(plain_order, N(0), W(0))
ENTRY(read, B(0), W(1))
ENTRY(locate, B(0), N(0), W(1))
ENTRY(comment, B(0), N(0), W(1))
ENTRY(write, W(0), B(1), W(2))
ENTRY(sample, N(0), N(1), N(2), N(3), W(0))
ENTRY(judge_chain, W(0), W(1), W(2))
ENTRY(judge_ladder, W(0), W(1), W(2))
ENTRY(start_gauges, W(0), W(1), N(0), W(2))
ENTRY(start_cases, W(0), W(1), N(0), W(2))
ENTRY(run_gauges, W(0), N(0), W(1))
ENTRY(run_cases, W(0), N(0), W(1))
ENTRY(list_gauges, W(0), N(0), W(1))
ENTRY(list_cases, W(0), N(0), W(1))
ENTRY(explain_gauge, W(0), N(0), N(1), W(1))
ENTRY(explain_case, W(0), N(0), N(1), W(1))
ENTRY(sequence_gauges, W(0), W(1), W(2), W(3))
ENTRY(sequence_cases, W(0), W(1), W(2), W(3))
ENTRY(candidates_gauges, W(0), W(1))
ENTRY(candidates_cases, W(0), W(1))
ENTRY(part_gauges, W(0), N(0), W(1))
ENTRY(part_cases, W(0), N(0), W(1))
ENTRY(count, W(0), W(1), N(0), W(2))
ENTRY(grow, W(0), W(1), W(2), W(3))
ENTRY(rivals, W(0), N(0), N(1), W(1))
ENTRY(decides, W(0), N(0), N(1), W(1))
ENTRY(cover, W(0), N(0), W(1))
ENTRY(wiring, W(0), W(1), W(2), B(3), W(4))
ENTRY(trial, W(0), W(1), N(0), N(1), W(2))
ENTRY(commit, W(0), W(1), W(2))
ENTRY(read_test, B(0), N(0), W(1), R(2), W(3))
ENTRY(write_test, W(0), R(1), B(2), W(3))
ENTRY(equal, W(0), R(1), W(2), R(3), W(4))

/* Every entry, with the refusals that it has beside 100. */
#define EACH_ENTRY(X) \
    X(words, 0) \
    X(plain_order, 10) \
    X(read, 1, 2, 3, 4, 5, 6, 7, 8, 9) \
    X(locate, 0) \
    X(comment, 1, 2, 3, 4, 5, 6, 7, 8, 9, 17, 20) \
    X(write, 10, 11, 16) \
    X(sample, 10, 28) \
    X(judge_chain, 10, 11, 12, 13) \
    X(judge_ladder, 10, 11, 12, 13) \
    X(start_gauges, 10, 11, 27) \
    X(start_cases, 10, 11, 27) \
    X(run_gauges, 10, 11, 15, 18, 27) \
    X(run_cases, 10, 11, 15, 18, 27) \
    X(list_gauges, 10, 11, 15, 18, 27) \
    X(list_cases, 10, 11, 15, 18, 27) \
    X(explain_gauge, 10, 11, 15, 19, 22, 27) \
    X(explain_case, 10, 11, 15, 19, 22, 27) \
    X(sequence_gauges, 10, 11, 12, 13, 25, 27) \
    X(sequence_cases, 10, 11, 12, 13, 25, 27) \
    X(candidates_gauges, 10, 11, 15, 27) \
    X(candidates_cases, 10, 11, 15, 27) \
    X(part_gauges, 10, 11, 15, 27) \
    X(part_cases, 10, 11, 15, 27) \
    X(count, 10, 11, 18, 27) \
    X(grow, 10, 11, 12, 13, 14, 27) \
    X(rivals, 10, 11, 19) \
    X(decides, 10, 11, 19) \
    X(cover, 10, 11, 18, 23, 24) \
    X(wiring, 10, 11, 12, 13, 14, 16, 25) \
    X(trial, 7, 10, 11, 12, 13, 25) \
    X(commit, 10, 11, 26) \
    X(read_test, 1, 2, 3, 4, 5, 6, 7, 8, 9, 20, 21) \
    X(write_test, 10, 11, 16, 20) \
    X(equal, 10, 11, 20)

#endif
