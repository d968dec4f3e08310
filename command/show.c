/* show: a table as a grid of characters, gauges down and cases across; with a ladder in it both sides go in the order of its pick sequences, so that its
 * pairs are a staircase. What is kept and which sequence a ladder has, the library says. */
#include "planner.h"
#include <inttypes.h>
#include <string.h>

/* One side of the grid: its numbers, those of a sequence first and the others behind them. */
static void put_first(const uint64_t *sequence, uint64_t n, uint64_t *numbers) {
    bool taken[RG_MOST + 1] = {false};
    uint64_t count = 0;
    for (int i = 0; i < RG_NUMBERS_WORDS && sequence[i]; i++) {
        numbers[count++] = sequence[i];
        taken[sequence[i]] = true;
    }
    for (uint64_t number = 1; number <= n; number++)
        if (!taken[number]) numbers[count++] = number;
}

/* The pick sequence of a ladder on one side: of the run's side as the run has it, of the other in plain order. */
static void side_sequence(const Run *run, bool by_cases, uint64_t *sequence) {
    const uint64_t *table = run->words + RG_RUN_TABLE, *ladder = run->step + RG_STEP_CHAIN;
    Run plain = *run;
    plain.by_cases = by_cases;
    if (by_cases != run->by_cases) plain_order(side_count(table, by_cases), plain.words + RG_RUN_ORDER);
    accept("planner", sequence_of(&plain, ladder, sequence));
}

static char mark(const uint64_t *table, const uint64_t *ladder, uint64_t g, uint64_t c) {
    uint64_t bit = (uint64_t)1 << (c - 1);
    if (ladder && ladder[RG_CHAIN_ROWS + g - 1] & bit) return '#';
    return table[RG_TABLE_ROWS + g - 1] & bit ? 'o' : '.';
}

static void put_row(const uint64_t *table, const uint64_t *ladder, uint64_t g, const uint64_t *cases) {
    put_text("%3" PRIu64 " ", g);
    for (uint64_t i = 0; i < table[RG_TABLE_CASES]; i++) put_text("  %c", mark(table, ladder, g, cases[i]));
    put_text("\n");
}

static void put_grid(const uint64_t *table, const uint64_t *ladder, const uint64_t *gauges, const uint64_t *cases) {
    put_text("    ");
    for (uint64_t i = 0; i < table[RG_TABLE_CASES]; i++) put_text(" %2" PRIu64, cases[i]);
    put_text("\n");
    for (uint64_t i = 0; i < table[RG_TABLE_GAUGES]; i++) put_row(table, ladder, gauges[i], cases);
}

int answer_show(const Request *request) {
    uint64_t table[RG_TABLE_WORDS], gauges[RG_MOST], cases[RG_MOST], by_gauges[RG_NUMBERS_WORDS] = {0}, by_cases[RG_NUMBERS_WORDS] = {0};
    bool with_ladder = request->words == 2;
    Run run;
    read_table(request, table);
    if (with_ladder) {
        start_at_ladder(request, request->word[1], table, NULL, &run);
        side_sequence(&run, false, by_gauges);
        side_sequence(&run, true, by_cases);
    }
    put_first(by_gauges, table[RG_TABLE_GAUGES], gauges);
    put_first(by_cases, table[RG_TABLE_CASES], cases);
    put_grid(table, with_ladder ? run.step + RG_STEP_CHAIN : NULL, gauges, cases);
    put_text("gauges down, cases across: %s\n", with_ladder ? "# a pair of the ladder, o one that it leaves out, . no pair" : "o a pair, . none");
    return STATUS_DONE;
}
