/* fuzz N SEED [FIRST]: makes N inputs, gives each to the library and to the plain entries of plain.h, and compares the number returned and every byte
 * of all that was lent. Around each piece of memory lent to the library stand guards, which must stay as they were; a refusal must leave everything
 * as it was. Input i of a seed is the same in every run: FIRST is the first one, 0 by default.
 *
 * In order: an input and its memory; how an input of each entry is made; comparing; whole lists; counting what was seen. How each entry is called stands in
 * entries.h. */
#include "../include/ragymolev.h"
#include "entries.h"
#include "generate.h"
#include <inttypes.h>
#include <stdio.h>
#include <stdlib.h>
#include <string.h>

#define GUARD 64
#define ENOUGH 100000 /* inputs after which every answer of every entry must have been seen */

/* --- an input and its memory */

/* Lends so many elements as the layout has, at times some more; what lies behind the content is random. */
static void lend(Input *in, size_t size, size_t layout, size_t length, const void *content, size_t content_length) {
    Lent *lent = &in->at[in->lent++];
    *lent = (Lent){size, layout, length, malloc(length * size + 1)};
    for (size_t i = 0; i < length * size; i++) lent->first[i] = (uint8_t)any();
    if (content && content_length) memcpy(lent->first, content, (content_length < length ? content_length : length) * size);
}

static size_t room(size_t layout) { return layout + (chance(4) ? (size_t)below(5) : 0); }

static void lend_words(Input *in, const uint64_t *words, size_t layout) { lend(in, 8, layout, room(layout), words, layout); }

static void lend_out(Input *in, size_t layout) { lend_words(in, NULL, layout); }

static void lend_bytes(Input *in, const uint8_t *bytes, size_t n) { lend(in, 1, 0, n, bytes, n); }

/* At times one piece with a layout is lent too short. */
static void shorten(Input *in) {
    Lent *lent = &in->at[below(in->lent)];
    if (lent->layout) lent->length = chance(4) ? lent->layout - 1 : (size_t)below((int)lent->layout);
}

static void give_back(Input *in) {
    for (int i = 0; i < in->lent; i++) free(in->at[i].first);
}

/* --- how an input of each is made */

static uint64_t table[RG_TABLE_WORDS], order[RG_ORDER_WORDS], chain[RG_CHAIN_WORDS], ladder[RG_CHAIN_WORDS], run[RG_RUN_WORDS];
static uint8_t file[LONGEST_MADE];

static void lend_file(Input *in, bool integer) {
    size_t n = make_file(file, integer);
    for (int i = chance(3) ? 0 : below(4); i > 0; i--) n = damage_file(file, n);
    lend_bytes(in, file, n);
}

static void for_words(Input *in) {
    in->number[0] = chance(4) ? make_number(100) : (uint64_t)below(30);
    lend(in, 1, RG_WORDS_BYTES, room(RG_WORDS_BYTES), NULL, 0);
    lend_out(in, RG_ONE_WORDS);
}

static void for_plain_order(Input *in) {
    in->number[0] = make_number(64);
    lend_out(in, RG_ORDER_WORDS);
}

static void for_read(Input *in) {
    lend_file(in, chance(10));
    lend_out(in, RG_TABLE_WORDS);
}

static void for_locate(Input *in) {
    lend_file(in, chance(2));
    in->number[0] = chance(10) ? any() : (uint64_t)below(2);
    lend_out(in, RG_ONE_WORDS);
}

static void for_comment(Input *in) {
    lend_file(in, chance(2));
    in->number[0] = make_number(2);
    lend_out(in, RG_SPAN_WORDS);
}

static void lend_table(Input *in) {
    uint64_t words[RG_TABLE_WORDS];
    memcpy(words, table, sizeof words);
    if (chance(10)) damage_table(words);
    lend_words(in, words, RG_TABLE_WORDS);
}

static void lend_order(Input *in, uint64_t n) {
    make_order(order, n);
    if (chance(6)) damage_words(order, RG_ORDER_WORDS);
    lend_words(in, order, RG_ORDER_WORDS);
}

static void lend_chain(Input *in, uint64_t *words) {
    if (chance(8)) damage_words(words, RG_CHAIN_WORDS);
    lend_words(in, words, RG_CHAIN_WORDS);
}

static size_t few_or(size_t enough) { return chance(3) ? (size_t)below((int)enough + 1) : enough + (size_t)below(9); }

static void for_write(Input *in) {
    make_table(table);
    if (chance(30)) plain_sample(64, 64, any() | 1, (uint64_t)below(257), table, RG_TABLE_WORDS);
    Set pairs = table_set(table);
    lend_table(in);
    lend_bytes(in, NULL, few_or(59 + 6 * (size_t)size_of(&pairs)));
    lend_out(in, RG_ONE_WORDS);
}

static void for_sample(Input *in) {
    in->number[0] = make_number(64);
    in->number[1] = make_number(64);
    in->number[2] = chance(20) ? 0 : any();
    in->number[3] = chance(5) ? 255 + (uint64_t)below(3) : chance(10) ? any() : (uint64_t)below(257);
    lend_out(in, RG_TABLE_WORDS);
}

static void for_judge(Input *in) {
    make_table(table);
    make_chain(table, chain);
    lend_table(in);
    lend_chain(in, chain);
    lend_out(in, RG_ONE_WORDS);
}

static void for_start(Input *in, int which) {
    make_table(table);
    lend_table(in);
    lend_order(in, table[which == RG_SIDE_GAUGES ? RG_TABLE_GAUGES : RG_TABLE_CASES]);
    in->number[0] = chance(2) ? 0 : chance(2) ? 1 : any() << below(64);
    lend_out(in, RG_RUN_WORDS);
}

static void for_start_gauges(Input *in) { for_start(in, RG_SIDE_GAUGES); }

static void for_start_cases(Input *in) { for_start(in, RG_SIDE_CASES); }

static void lend_run(Input *in) {
    if (chance(2)) damage_run(run);
    else if (chance(10)) damage_table(run + RG_RUN_TABLE);
    lend_words(in, run, RG_RUN_WORDS);
}

static void for_run(Input *in, int which) {
    make_run(run, chance(20) ? 3 - which : which, chance(4));
    lend_run(in);
    in->number[0] = make_budget(12);
    lend_out(in, RG_STEP_WORDS);
}

static void for_run_gauges(Input *in) { for_run(in, RG_SIDE_GAUGES); }

static void for_run_cases(Input *in) { for_run(in, RG_SIDE_CASES); }

/* Room for none to nine ladders, and some words that are too few for one more. */
static void for_list(Input *in, int which) {
    make_run(run, chance(20) ? 3 - which : which, chance(4));
    size_t gauges = (size_t)run[RG_RUN_TABLE + RG_TABLE_GAUGES];
    lend_run(in);
    in->number[0] = make_budget(chance(2) ? 12 : 90);
    lend(in, 8, RG_BATCH_WORDS, RG_BATCH_WORDS + (size_t)below(10) * gauges + (size_t)below((int)gauges), NULL, 0);
}

static void for_list_gauges(Input *in) { for_list(in, RG_SIDE_GAUGES); }

static void for_list_cases(Input *in) { for_list(in, RG_SIDE_CASES); }

/* Mostly one of these pairs, else any numbers, at times far outside the table. */
static void name_pair(Input *in, const Set *pairs) {
    int n = size_of(pairs), wanted = n ? below(n) : 0;
    in->number[0] = make_number(table[RG_TABLE_GAUGES]);
    in->number[1] = make_number(table[RG_TABLE_CASES]);
    bool from_these = !chance(8);
    for (int g = 1; from_these && g <= 64; g++)
        for (int c = 1; pairs->rows[g - 1] && c <= 64; c++)
            if (has(pairs, g, c) && wanted-- == 0) {
                in->number[0] = (uint64_t)g;
                in->number[1] = (uint64_t)c;
            }
}

/* Mostly a pair that the ladder of the run lacks, where there is one. */
static void name_left_out(Input *in, int which) {
    Side side;
    State now = {.phase = RG_PHASE_HANDED, .count = (int)run[RG_RUN_COUNT]};
    for (int i = 0; i < now.count; i++) now.picks[i] = (int)run[RG_RUN_PICKS + i];
    side_of(&side, which, table, run + RG_RUN_ORDER);
    Set mine = handed_out(&side, &now), pairs = table_set(table), left_out = pairs;
    Set kept = which == RG_SIDE_GAUGES ? mine : turned(&mine);
    for (int i = 0; i < 64; i++) left_out.rows[i] &= ~kept.rows[i];
    name_pair(in, size_of(&left_out) && !chance(6) ? &left_out : &pairs);
}

static void for_explain(Input *in, int which) {
    make_run(run, which, true);
    memcpy(table, run + RG_RUN_TABLE, sizeof table);
    name_left_out(in, which);
    if (chance(6)) make_run(run, chance(4) ? 3 - which : which, chance(2));
    lend_run(in);
    lend_out(in, RG_ONE_WORDS);
}

static void for_explain_gauge(Input *in) { for_explain(in, RG_SIDE_GAUGES); }

static void for_explain_case(Input *in) { for_explain(in, RG_SIDE_CASES); }

/* Mostly a ladder. */
static void for_sequence(Input *in, int which) {
    make_table(table);
    make_ladder(table, ladder);
    if (chance(6)) make_chain(table, ladder);
    lend_table(in);
    lend_order(in, table[which == RG_SIDE_GAUGES ? RG_TABLE_GAUGES : RG_TABLE_CASES]);
    lend_chain(in, ladder);
    lend_out(in, RG_NUMBERS_WORDS);
}

static void for_sequence_gauges(Input *in) { for_sequence(in, RG_SIDE_GAUGES); }

static void for_sequence_cases(Input *in) { for_sequence(in, RG_SIDE_CASES); }

/* Mostly a run that is Down: as it was started, or gone on with by a few moves that hand nothing out. */
static void make_part(int which) {
    make_run(run, chance(20) ? 3 - which : which, false);
    for (int i = 0; i < 8 && run[RG_RUN_PHASE] != RG_PHASE_DOWN && !chance(8); i++) make_run(run, which, false);
}

static void for_candidates(Input *in, int which) {
    make_part(which);
    lend_run(in);
    lend_out(in, RG_NUMBERS_WORDS);
}

static void for_candidates_gauges(Input *in) { for_candidates(in, RG_SIDE_GAUGES); }

static void for_candidates_cases(Input *in) { for_candidates(in, RG_SIDE_CASES); }

static void for_part(Input *in, int which) {
    make_part(which);
    in->number[0] = make_number(run[RG_RUN_TABLE + (which == RG_SIDE_GAUGES ? RG_TABLE_GAUGES : RG_TABLE_CASES)]);
    lend_run(in);
    lend_out(in, RG_RUN_WORDS);
}

static void for_part_gauges(Input *in) { for_part(in, RG_SIDE_GAUGES); }

static void for_part_cases(Input *in) { for_part(in, RG_SIDE_CASES); }

static void for_count(Input *in) {
    make_table(table);
    lend_table(in);
    lend_order(in, table[RG_TABLE_GAUGES]);
    in->number[0] = make_budget(24);
    lend_out(in, RG_COUNT_WORDS);
}

static void for_grow(Input *in) {
    make_table(table);
    make_chain(table, chain);
    lend_table(in);
    lend_order(in, table[RG_TABLE_GAUGES]);
    lend_chain(in, chain);
    lend_out(in, RG_CHAIN_WORDS);
}

static void for_rivals(Input *in) {
    make_table(table);
    Set pairs = table_set(table);
    name_pair(in, &pairs);
    lend_table(in);
    lend_out(in, RG_PAIRS_WORDS);
}

static void for_decides(Input *in) {
    make_table(table);
    Set pairs = table_set(table);
    name_pair(in, &pairs);
    lend_table(in);
    lend_out(in, RG_ONE_WORDS);
}

/* Few tables have more than 1,024 ladders; those near 7 by 7 without a diagonal do. */
static void crowd(void) {
    int n = 6 + below(3);
    memset(table, 0, sizeof table);
    table[0] = table[1] = (uint64_t)n;
    for (int g = 0; g < n; g++) table[2 + g] = lowest(n) ^ (uint64_t)1 << g;
    if (chance(2)) table[2 + below(n)] &= any();
}

static void for_cover(Input *in) {
    make_table(table);
    if (chance(100)) crowd();
    lend_table(in);
    in->number[0] = size_of(&(Set){{table[2], table[3], table[4], table[5], table[6]}}) > 20 ? (uint64_t)below(2000) : make_budget(20);
    lend_out(in, RG_COVER_WORDS);
}

static void for_wiring(Input *in) {
    make_table(table);
    make_ladder(table, ladder);
    memcpy(chain, ladder, sizeof chain);
    for (int i = 0; i < 64; i++) chain[1 + i] &= chance(2) ? any() : ~(uint64_t)0;
    if (chance(4)) make_chain(table, chain);
    if (chance(10)) make_chain(table, ladder);
    lend_table(in);
    lend_chain(in, chain);
    lend_chain(in, ladder);
    lend_bytes(in, NULL, few_or(12));
    lend_out(in, RG_ONE_WORDS);
}

static void for_trial(Input *in) {
    make_table(table);
    make_ladder(table, ladder);
    if (chance(8)) make_chain(table, ladder);
    in->number[0] = make_number(table[RG_TABLE_GAUGES]);
    in->number[1] = make_number(table[RG_TABLE_CASES]);
    lend_table(in);
    lend_chain(in, ladder);
    lend_out(in, RG_PROPOSAL_WORDS);
}

/* A proposal as the trial gives it, mostly; on the table it was tried on, mostly. */
static void for_commit(Input *in) {
    uint64_t proposal[RG_PROPOSAL_WORDS] = {0};
    make_table(table);
    make_ladder(table, ladder);
    uint64_t g = 1 + any() % table[RG_TABLE_GAUGES], c = 1 + any() % table[RG_TABLE_CASES];
    plain_trial(table, RG_TABLE_WORDS, ladder, RG_CHAIN_WORDS, g, c, proposal, RG_PROPOSAL_WORDS);
    if (chance(4)) damage_words(proposal + (chance(2) ? RG_PROPOSAL_GAUGE : below(RG_PROPOSAL_GAUGE)), 3);
    if (chance(8)) table[RG_TABLE_ROWS + below((int)table[0])] ^= (uint64_t)1 << below((int)table[1]);
    lend_words(in, proposal, RG_PROPOSAL_WORDS);
    lend_table(in);
    lend_out(in, RG_TABLE_WORDS);
}

static uint64_t test[RG_TEST_WORDS], other[RG_TEST_WORDS];
static int32_t readings[RG_READINGS], more[RG_READINGS];

static void lend_readings(Input *in, const int32_t *readings) { lend(in, 4, RG_READINGS, room(RG_READINGS), readings, RG_READINGS); }

static void for_read_test(Input *in) {
    lend_file(in, !chance(3));
    in->number[0] = chance(10) ? make_number(1000000) : chance(20) ? 1000001 : chance(2) ? 100 * (1 + (uint64_t)below(10)) : 1 + (uint64_t)below(1000);
    lend_out(in, RG_TEST_WORDS);
    lend_readings(in, NULL);
    lend_out(in, RG_TABLE_WORDS);
}

static void for_write_test(Input *in) {
    make_test(test, readings);
    Set entries = table_set(test + 1);
    if (chance(3)) damage_test(test, readings);
    lend_words(in, test, RG_TEST_WORDS);
    lend_readings(in, readings);
    lend_bytes(in, NULL, few_or(60 + 11 * (size_t)size_of(&entries)));
    lend_out(in, RG_ONE_WORDS);
}

static void for_equal(Input *in) {
    make_test(test, readings);
    if (chance(4)) {
        make_test(other, more);
    } else {
        memcpy(other, test, sizeof other);
        memcpy(more, readings, sizeof more);
    }
    if (chance(4)) damage_test(test, readings);
    if (chance(3)) damage_test(other, more);
    lend_words(in, test, RG_TEST_WORDS);
    lend_readings(in, readings);
    lend_words(in, other, RG_TEST_WORDS);
    lend_readings(in, more);
    lend_out(in, RG_ONE_WORDS);
}

/* --- the entries */

typedef struct {
    const char *name;
    void (*make)(Input *);
    uint64_t (*library)(const Input *, void *const *);
    uint64_t (*plain)(const Input *, void *const *);
    uint8_t refusals[12];
} Entry;

#define LISTED(name, ...) {#name, for_##name, rg_call_##name, plain_call_##name, {__VA_ARGS__}},
#define for_judge_chain for_judge
#define for_judge_ladder for_judge

static const Entry entries[] = {EACH_ENTRY(LISTED)};
#define ENTRIES ((int)(sizeof entries / sizeof entries[0]))
#define WHOLE_LISTS ENTRIES

static uint64_t seen[ENTRIES + 1][101], differences;

/* --- comparing */

static void differs(const char *name, uint64_t input, const char *what, int where) {
    if (differences++ < 20) printf("input %" PRIu64 ", rg_%s: %s %d\n", input, name, what, where);
}

static uint8_t guard(int where, size_t i) { return (uint8_t)(0xa5 ^ where * 16 ^ i); }

/* The memory that the library gets: guards on both sides. */
static uint8_t *guarded(const Lent *lent, int where) {
    size_t n = lent->length * lent->size;
    uint8_t *at = malloc(n + 2 * GUARD);
    for (size_t i = 0; i < GUARD; i++) at[i] = at[GUARD + n + i] = guard(where, i);
    memcpy(at + GUARD, lent->first, n);
    return at;
}

static bool guards_stand(const Lent *lent, int where, const uint8_t *at) {
    size_t n = lent->length * lent->size;
    for (size_t i = 0; i < GUARD; i++)
        if (at[i] != guard(where, i) || at[GUARD + n + i] != guard(where, i)) return false;
    return true;
}

/* What one piece of memory came to, on both sides; `why` is the library's number. */
static void compare_lent(const Entry *entry, uint64_t input, const Lent *lent, int where, const uint8_t *library, const uint8_t *plain, uint64_t why) {
    size_t n = lent->length * lent->size;
    if (!guards_stand(lent, where, library)) differs(entry->name, input, "wrote outside of lent memory", where);
    if (memcmp(library + GUARD, plain, n)) differs(entry->name, input, "left something else in lent memory", where);
    if (why && memcmp(library + GUARD, lent->first, n)) differs(entry->name, input, "refused, and changed lent memory", where);
}

/* Gives an input to both. The plain entry gets memory of the exact length, which the sanitizers watch; nothing of no length is lent as null at times. */
static uint64_t try_input(const Entry *entry, uint64_t input, const Input *in) {
    uint8_t *library[MOST_LENT], *plain[MOST_LENT];
    void *to_library[MOST_LENT] = {NULL}, *to_plain[MOST_LENT] = {NULL};
    for (int i = 0; i < in->lent; i++) {
        size_t n = in->at[i].length * in->at[i].size;
        library[i] = guarded(&in->at[i], i);
        plain[i] = malloc(n ? n : 1);
        memcpy(plain[i], in->at[i].first, n);
        bool null = n == 0 && chance(2);
        to_library[i] = null ? NULL : library[i] + GUARD;
        to_plain[i] = null ? NULL : plain[i];
    }
    uint64_t why = entry->library(in, to_library), due = entry->plain(in, to_plain);
    if (why != due) {
        differs(entry->name, input, "should return", (int)due);
        differs(entry->name, input, "   and returned", (int)why);
    }
    for (int i = 0; i < in->lent; i++) {
        compare_lent(entry, input, &in->at[i], i, library[i], plain[i], why);
        free(library[i]);
        free(plain[i]);
    }
    return due;
}

/* --- whole lists: a run from its start to its end, in calls of random budgets, is the list by definition */

static bool next_ladder(int which, uint64_t *words, uint64_t *step) {
    do {
        uint64_t budget = (uint64_t)below(chance(3) ? 40 : 4);
        uint64_t why = (which == RG_SIDE_GAUGES ? rg_run_gauges : rg_run_cases)(words, RG_RUN_WORDS, budget, step, RG_STEP_WORDS);
        if (why) return false;
    } while (step[RG_STEP_OUTCOME] == RG_SPENT);
    return step[RG_STEP_OUTCOME] == RG_HANDED_OUT;
}

/* The list of a side: all ladders by its rows, in its order. */
static void list_of(const Side *side, List *list) {
    list_ladders(&side->set, list);
    sort_ladders(list, side);
}

static void try_list(uint64_t input) {
    static List list;
    static uint64_t step[RG_STEP_WORDS], words[RG_RUN_WORDS];
    Side side;
    int which = chance(2) ? RG_SIDE_GAUGES : RG_SIDE_CASES, wrong = 0;
    bool omit = chance(3);
    make_table(table);
    make_order(order, table[which == RG_SIDE_GAUGES ? RG_TABLE_GAUGES : RG_TABLE_CASES]);
    side_of(&side, which, table, order);
    list_of(&side, &list);
    if (leaves(&side, PLAIN_LADDERS, NULL) != list.n) differs("list", input, "the plain rules do not give the plain list of", list.n);
    Set pairs = table_set(table);
    uint64_t why = (which == RG_SIDE_GAUGES ? rg_start_gauges : rg_start_cases)(table, RG_TABLE_WORDS, order, RG_ORDER_WORDS, omit, words, RG_RUN_WORDS);
    for (int i = 0; i < list.n; i++) {
        Set due = which == RG_SIDE_GAUGES ? list.ladder[i] : turned(&list.ladder[i]);
        if (omit && !holds_deciding(&pairs, &due)) continue;
        wrong += !next_ladder(which, words, step) || memcmp(step + RG_STEP_CHAIN + RG_CHAIN_ROWS, due.rows, sizeof due.rows);
    }
    wrong += next_ladder(which, words, step) || step[RG_STEP_OUTCOME] != RG_END;
    if (why || wrong) differs("list", input, "ladders of a run that are not those of the list:", wrong);
    seen[WHOLE_LISTS][0]++;
}

/* --- counting what was seen */

static void one_input(uint64_t seed, uint64_t input) {
    set_seed(seed * 0xd1342543de82ef95u + input);
    int which = below(ENTRIES + 1);
    if (which == WHOLE_LISTS) {
        try_list(input);
        return;
    }
    Input in = {.lent = 0};
    entries[which].make(&in);
    if (chance(25)) shorten(&in);
    seen[which][try_input(&entries[which], input, &in)]++;
    give_back(&in);
}

static void report_entry(const Entry *entry, const uint64_t *counts) {
    uint64_t all = 0;
    for (int i = 0; i <= 100; i++) all += counts[i];
    printf("rg_%-17s %8" PRIu64 " inputs, accepted %" PRIu64, entry->name, all, counts[0]);
    for (int i = 1; i <= 100; i++)
        if (counts[i]) printf(", %d: %" PRIu64, i, counts[i]);
    printf("\n");
}

/* An answer that no input got was not compared. */
static int report_unseen(const Entry *entry, const uint64_t *counts) {
    int unseen = 0;
    for (const uint8_t *why = entry->refusals; *why; why++)
        if (!counts[*why]) unseen += printf("rg_%s: no input got %d\n", entry->name, *why) > 0;
    if (!counts[0] || !counts[100]) unseen += printf("rg_%s: no input was accepted, or none got 100\n", entry->name) > 0;
    return unseen;
}

int main(int argc, char **argv) {
    uint64_t n = argc > 1 ? strtoull(argv[1], NULL, 10) : 10000, seed = argc > 2 ? strtoull(argv[2], NULL, 10) : 1;
    uint64_t first = argc > 3 ? strtoull(argv[3], NULL, 10) : 0;
    int unseen = 0;
    for (uint64_t i = first; i - first < n; i++) one_input(seed, i);
    for (int i = 0; i < ENTRIES; i++) report_entry(&entries[i], seen[i]);
    printf("whole lists          %8" PRIu64 "\n", seen[WHOLE_LISTS][0]);
    for (int i = 0; n >= ENOUGH && i < ENTRIES; i++) unseen += report_unseen(&entries[i], seen[i]);
    printf("fuzz-library: %" PRIu64 " inputs from %" PRIu64 " on of seed %" PRIu64 ", %" PRIu64 " differences\n", n, first, seed, differences);
    return differences || unseen;
}
