/* The questions about a table: count, judge, grow, rivals, cover, order. Each reads its words, then the table, then what else it is about, and
 * says whose refusal a number of the library is. */
#include "planner.h"
#include <inttypes.h>
#include <string.h>

static void put_number(uint64_t n, const char *of_what) { put_text("%" PRIu64 " %s%s", n, of_what, n == 1 ? "" : "s"); }

/* Of a part its ladders alone: it is listed, and rg_count makes no call. */
static void answer_count_part(const Request *request) {
    put_number(count_part(request), "ladder");
    put_text("\n");
}

/* Of a part, part by part, or by the library's count, which is of the whole list by gauges: what goes with which. */
static void check_count_options(const Request *request) {
    if (request->option[PARTS] && request->option[PART]) wrong_usage("a part is counted by %s, or all parts by --parts", "--part");
    if (request->option[PARTS] && request->option[BUDGET]) wrong_usage("%s has no use with --parts", "--budget");
    if (request->option[PARTS] || request->option[PART]) return;
    if (request->option[BY_CASES]) wrong_usage("%s goes with --parts: the number of ladders is the same", "--by-cases");
    if (request->option[NEEDED]) wrong_usage("%s goes with --parts", "--needed");
}

/* The whole list by the library's count. */
static void answer_count_all(const Request *request) {
    uint64_t table[RG_TABLE_WORDS], order[RG_ORDER_WORDS], count[RG_COUNT_WORDS], budget = budget_of(request);
    read_table(request, table);
    order_of(request, table[RG_TABLE_GAUGES], order);
    uint64_t why = rg_count(table, RG_TABLE_WORDS, order, RG_ORDER_WORDS, budget, count, RG_COUNT_WORDS);
    accept(subject_of(request, why, name_of(request->word[0])), why);
    if (count[RG_COUNT_OUTCOME] == RG_SPENT)
        spent(name_of(request->word[0]), "counting takes more calls than the budget has; planner count --parts 64 counts it part by part");
    put_number(count[RG_COUNT_LADDERS], "ladder");
    put_text(", ");
    put_number(count[RG_COUNT_CALLS], "call");
    put_text("\n");
}

int answer_count(const Request *request) {
    check_count_options(request);
    if (request->option[PART]) answer_count_part(request);
    else if (request->option[PARTS]) put_counts(request);
    else answer_count_all(request);
    return STATUS_DONE;
}

int answer_judge(const Request *request) {
    uint64_t table[RG_TABLE_WORDS], chain[RG_CHAIN_WORDS], is_chain[RG_ONE_WORDS], is_ladder[RG_ONE_WORDS];
    read_table(request, table);
    read_chain(request->word[1], chain);
    const char *name = name_of(request->word[1]);
    accept_set(name, rg_judge_chain(table, RG_TABLE_WORDS, chain, RG_CHAIN_WORDS, is_chain, RG_ONE_WORDS), table, chain);
    accept(name, rg_judge_ladder(table, RG_TABLE_WORDS, chain, RG_CHAIN_WORDS, is_ladder, RG_ONE_WORDS));
    put_text("%s\n", is_ladder[0] == RG_YES ? "ladder" : is_chain[0] == RG_YES ? "chain" : "no chain");
    return STATUS_DONE;
}

int answer_grow(const Request *request) {
    uint64_t table[RG_TABLE_WORDS], order[RG_ORDER_WORDS], chain[RG_CHAIN_WORDS], ladder[RG_CHAIN_WORDS];
    read_table(request, table);
    read_chain(request->word[1], chain);
    order_of(request, table[RG_TABLE_GAUGES], order);
    uint64_t why = rg_grow(table, RG_TABLE_WORDS, order, RG_ORDER_WORDS, chain, RG_CHAIN_WORDS, ladder, RG_CHAIN_WORDS);
    if (why == RG_PREFERENCE) refuse(subject_of(request, why, request->command->name), why);
    accept_set(name_of(request->word[1]), why, table, chain);
    put_chain(ladder, table[RG_TABLE_CASES]);
    return STATUS_DONE;
}

/* The rivals are a file of pairs, and whether the pair decides is a comment in it, behind its first line. */
int answer_rivals(const Request *request) {
    static uint8_t bytes[RG_TABLE_BYTES];
    uint64_t table[RG_TABLE_WORDS], pairs[RG_PAIRS_WORDS], decides[RG_ONE_WORDS], g, c;
    pair_of(request->word[1], &g, &c);
    read_table(request, table);
    accept(request->word[1], rg_rivals(table, RG_TABLE_WORDS, g, c, pairs, RG_PAIRS_WORDS));
    accept(request->word[1], rg_decides(table, RG_TABLE_WORDS, g, c, decides, RG_ONE_WORDS));
    memcpy(table + RG_TABLE_ROWS, pairs, sizeof pairs);
    size_t length = file_of_table(table, bytes);
    size_t first = (size_t)((uint8_t *)memchr(bytes, '\n', length) - bytes) + 1;
    put(bytes, first);
    put_text("%% rivals of %" PRIu64 ":%" PRIu64 ", which %s\n", g, c, decides[0] == RG_YES ? "decides" : "does not decide");
    put(bytes + first, length - first);
    return STATUS_DONE;
}

int answer_cover(const Request *request) {
    static uint64_t cover[RG_COVER_WORDS];
    uint64_t table[RG_TABLE_WORDS], budget = budget_of(request);
    read_table(request, table);
    uint64_t why = rg_cover(table, RG_TABLE_WORDS, budget, cover, RG_COVER_WORDS);
    accept(subject_of(request, why, name_of(request->word[0])), why);
    if (cover[RG_COVER_OUTCOME] == RG_SPENT) spent(name_of(request->word[0]), "the search tries more ladders than the budget has");
    put_number(cover[RG_COVER_NUMBER], "ladder");
    put_text(", %" PRIu64 " tried\n", cover[RG_COVER_TRIED]);
    for (uint64_t i = 0; i < cover[RG_COVER_NUMBER]; i++) put_chain(cover + RG_COVER_CHAINS + RG_CHAIN_WORDS * i, table[RG_TABLE_CASES]);
    return STATUS_DONE;
}

/* 25 of an order: the second is no ladder, or it is one and lacks a pair of the first. */
_Noreturn static void refuse_order(const char *name, const uint64_t *table, const uint64_t *chain, const uint64_t *ladder) {
    uint64_t is_ladder[RG_ONE_WORDS], as_table[RG_TABLE_WORDS];
    char reason[REASON];
    accept(name, rg_judge_ladder(table, RG_TABLE_WORDS, ladder, RG_CHAIN_WORDS, is_ladder, RG_ONE_WORDS));
    table_of_chain(ladder, table[RG_TABLE_CASES], as_table);
    if (is_ladder[0] == RG_YES) reason_of_set(RG_NOT_IN_TABLE, as_table, chain, reason);
    else reason_of_set(RG_NO_LADDER, table, ladder, reason);
    refuse_because(name, RG_NO_LADDER, is_ladder[0] == RG_YES ? "the ladder lacks a pair of the chain" : words_of(RG_NO_LADDER), reason);
}

/* The chain is judged ahead of the order, so that 12 and 13 behind it are the ladder's. */
int answer_order(const Request *request) {
    static uint8_t bytes[RG_PAIR_BYTES];
    uint64_t table[RG_TABLE_WORDS], chain[RG_CHAIN_WORDS], ladder[RG_CHAIN_WORDS], count[RG_ONE_WORDS];
    const char *chain_name = name_of(request->word[1]);
    read_table(request, table);
    read_chain(request->word[1], chain);
    read_chain(request->word[2], ladder);
    accept_set(chain_name, rg_judge_chain(table, RG_TABLE_WORDS, chain, RG_CHAIN_WORDS, count, RG_ONE_WORDS), table, chain);
    uint64_t why = rg_wiring(table, RG_TABLE_WORDS, chain, RG_CHAIN_WORDS, ladder, RG_CHAIN_WORDS, bytes, RG_PAIR_BYTES, count, RG_ONE_WORDS);
    if (why == RG_NO_CHAIN) accept_set(chain_name, why, table, chain);
    if (why == RG_NO_LADDER) refuse_order(name_of(request->word[2]), table, chain, ladder);
    accept_set(name_of(request->word[2]), why, table, ladder);
    for (uint64_t i = 0; i < count[0]; i++) put_text("%d:%d\n", bytes[2 * i], bytes[2 * i + 1]);
    return STATUS_DONE;
}
