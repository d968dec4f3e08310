/* The header by itself, and twice: it names all that it uses. Compiled as C and as C++, with warnings as errors: each struct lent to an entry that takes its
 * layout, those that are only read as const ones too. Nothing of it is run; tests/layout.c does that. */
#include "ragymolev.h"
#include "ragymolev.h"

static uint64_t questions(const rg_table *table, const rg_order *order, const rg_chain *chain, const rg_proposal *proposal) {
    uint8_t bytes[RG_PAIR_BYTES];
    uint64_t answer, words[RG_TABLE_WORDS];
    rg_table flipped;
    rg_chain ladder;
    rg_numbers numbers;
    rg_pairs pairs;
    rg_count_answer count;
    rg_cover_answer cover;
    rg_proposal trial;
    return rg_judge_ladder(RG_LEND_CONST(*table), RG_LEND_CONST(*chain), RG_LEND(answer)) |
           rg_grow(RG_LEND_CONST(*table), RG_LEND_CONST(*order), RG_LEND_CONST(*chain), RG_LEND(ladder)) |
           rg_sequence_gauges(RG_LEND_CONST(*table), RG_LEND_CONST(*order), RG_LEND(ladder), RG_LEND(numbers)) |
           rg_rivals(RG_LEND_CONST(*table), 1, 1, RG_LEND(pairs)) | rg_cover(RG_LEND_CONST(*table), RG_BUDGET, RG_LEND(cover)) |
           rg_count(RG_LEND_CONST(*table), RG_LEND_CONST(*order), RG_BUDGET, RG_LEND(count)) |
           rg_wiring(RG_LEND_CONST(*table), RG_LEND_CONST(*chain), RG_LEND(ladder), bytes, RG_PAIR_BYTES, RG_LEND(answer)) |
           rg_trial(RG_LEND_CONST(*table), RG_LEND(ladder), 1, 1, RG_LEND(trial)) |
           rg_commit(RG_LEND_CONST(*proposal), RG_LEND_CONST(*table), RG_LEND(flipped)) | rg_sample(3, 3, 1, 128, RG_LEND(words));
}

static uint64_t runs(const rg_table *table, const rg_run *stored) {
    const rg_order order = {{1, 2, 3}};
    rg_run run;
    rg_step step;
    rg_batch_64 batch;
    struct {
        rg_batch head;
        uint64_t rows[5 * 3];
    } five;
    uint64_t pick;
    return rg_start_gauges(RG_LEND_CONST(*table), RG_LEND_CONST(order), 0, RG_LEND(run)) | rg_run_gauges(RG_LEND(run), RG_BUDGET, RG_LEND(step)) |
           rg_list_gauges(RG_LEND(run), RG_BUDGET, RG_LEND(batch)) | rg_list_gauges(RG_LEND(run), RG_BUDGET, RG_LEND_BATCH(batch, 64, table->gauges)) |
           rg_list_gauges(RG_LEND(run), RG_BUDGET, RG_LEND(five)) | rg_explain_gauge(RG_LEND_CONST(*stored), 1, 1, RG_LEND(pick));
}

static uint64_t files(const uint8_t *file, size_t length, const rg_test *stored, const rg_readings *stored_readings) {
    rg_span span;
    rg_test test;
    rg_readings readings;
    rg_table table;
    uint64_t answer;
    return rg_comment(file, length, 1, RG_LEND(span)) | rg_read_test(file, length, 1, RG_LEND(test), RG_LEND_READINGS(readings), RG_LEND(table)) |
           rg_equal(RG_LEND(test), RG_LEND_READINGS(readings), RG_LEND_CONST(*stored), RG_LEND_CONST_READINGS(*stored_readings), RG_LEND(answer));
}

int main(void) {
    const rg_table table = {3, 3, {3, 3, 6}};
    const rg_order order = {{1, 2, 3}};
    const rg_chain chain = {3, {3, 3, 2}};
    const rg_proposal proposal = {{3, 3, {3, 3, 6}}, {3, {3, 3, 2}}, 3, 1, RG_ONLY_CHAIN};
    const rg_run run = {RG_SIDE_GAUGES, {3, 3, {3, 3, 6}}, {{1, 2, 3}}, {0}, 0, RG_PHASE_DOWN, 0, 0};
    const uint8_t file[] = "%%MatrixMarket matrix coordinate pattern general\n3 3 0\n";
    const rg_test test = {RG_INTEGER, 3, 3, {1}};
    const rg_readings readings = {{{-200}}};
    return questions(&table, &order, &chain, &proposal) | runs(&table, &run) | files(file, sizeof file - 1, &test, &readings) ? 1 : RG_ACCEPTED;
}
