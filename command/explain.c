/* explain: why a pair is left out of a ladder. And a ladder that is named by a word, its number in the list or its file, for show too. */
#include "planner.h"
#include <inttypes.h>
#include <string.h>

/* Brings a fresh run to where it has handed out this ladder: to its pick sequence, from where one move hands it out; and what is handed out is compared.
 * The run omits nothing: the question is about any ladder. */
static void go_to_ladder(const Request *request, const char *name, const uint64_t *ladder, Run *run) {
    uint64_t *picks = run->words + RG_RUN_PICKS;
    accept_set(name, sequence_of(run, ladder, picks), run->words + RG_RUN_TABLE, ladder);
    while (run->words[RG_RUN_COUNT] < RG_MOST && picks[run->words[RG_RUN_COUNT]]) run->words[RG_RUN_COUNT]++;
    run->words[RG_RUN_OMIT] = 0;
    run->budget = 1;
    call_run(request, run);
    if (memcmp(run->step + RG_STEP_CHAIN, ladder, RG_CHAIN_WORDS * sizeof *ladder)) refuse(name, RG_PAUSED);
}

/* The same by a number in the list, from 1. */
static void go_to_number(const Request *request, const char *word, uint64_t number, Run *run) {
    if (number == 0) refuse(word, NO_SUCH_LADDER);
    for (uint64_t i = 0; i < number; i++)
        if (!next_ladder(request, run)) refuse(word, NO_SUCH_LADDER);
}

/* The run that the options ask for, where it has handed out the ladder of a word. The file of a ladder is read before the preference is looked at; a pair,
 * where one is asked about, is looked at before a list is gone through. */
void start_at_ladder(const Request *request, const char *word, const uint64_t *table, const char *pair, Run *run) {
    uint64_t ladder[RG_CHAIN_WORDS], rivals[RG_PAIRS_WORDS], number, g, c;
    bool by_number = read_number(word, strlen(word), &number);
    if (!by_number) read_chain(word, ladder);
    start_run(request, table, run);
    if (by_number && pair) {
        pair_of(pair, &g, &c);
        accept(pair, rg_rivals(table, RG_TABLE_WORDS, g, c, rivals, RG_PAIRS_WORDS));
    }
    if (by_number) go_to_number(request, word, number, run);
    else go_to_ladder(request, name_of(word), ladder, run);
}

int answer_explain(const Request *request) {
    uint64_t table[RG_TABLE_WORDS], pick[RG_ONE_WORDS], g, c;
    const char *pair = request->word[2];
    Run run;
    pair_of(pair, &g, &c);
    read_table(request, table);
    start_at_ladder(request, request->word[1], table, pair, &run);
    accept(pair, (run.by_cases ? rg_explain_case : rg_explain_gauge)(run.words, RG_RUN_WORDS, g, c, pick, RG_ONE_WORDS));
    put_text("%s %" PRIu64 "\n", run.by_cases ? "case" : "gauge", pick[0]);
    return STATUS_DONE;
}
