/* Asks both and compares: see both.h. In order: lent memory, comparing, the entries, what must hold besides. The file has no theme of its own. */
#include "both.h"
#include "../../fuzz/entries.h"
#include "count.h"
#include <stdio.h>
#include <string.h>

#define GUARD 64
#define MOST_BYTES 66000

typedef struct {
    const char *name;
    uint64_t (*library)(const Input *, void *const *);
    uint64_t (*plain)(const Input *, void *const *);
    uint8_t refusals[12];
} Entry;

#define LISTED(name, ...) {#name, rg_call_##name, plain_call_##name, {__VA_ARGS__}},
#define NUMBERED(name, ...) E_##name,

static const Entry entries[] = {EACH_ENTRY(LISTED)};
enum { EACH_ENTRY(NUMBERED) ENTRIES };
static uint64_t seen[ENTRIES][101];

uint64_t asked, differences;
int short_piece = -1;

/* --- lent memory */

static Input input;
static _Alignas(16) uint8_t library_at[MOST_LENT][GUARD + MOST_BYTES + GUARD], plain_at[MOST_LENT][MOST_BYTES], first_at[MOST_LENT][MOST_BYTES];

static void begin(uint64_t a, uint64_t b, uint64_t c, uint64_t d) { input = (Input){.number = {a, b, c, d}}; }

static void lend(const void *content, size_t size, size_t layout, size_t length) {
    int i = input.lent++;
    if (i == short_piece && layout) length = layout - 1;
    input.at[i] = (Lent){size, layout, length, first_at[i]};
    if (content) memcpy(first_at[i], content, length * size);
    else memset(first_at[i], 0xd7, length * size);
    memset(library_at[i], 0xa5, GUARD);
    memcpy(library_at[i] + GUARD, first_at[i], length * size);
    memset(library_at[i] + GUARD + length * size, 0xa5, GUARD);
    memcpy(plain_at[i], first_at[i], length * size);
}

static void words(const uint64_t *content, size_t layout) { lend(content, 8, layout, layout); }

static void out(size_t layout) { lend(NULL, 8, layout, layout + 1); }

static void bytes(const uint8_t *content, size_t n) { lend(content, 1, 0, n); }

static void readings(const int32_t *content) { lend(content, 4, RG_READINGS, RG_READINGS + (content == NULL)); }

/* --- comparing */

static void differs(const char *name, const char *what, uint64_t due, uint64_t got) {
    if (differences++ >= 10) return;
    printf("rg_%s: %s; due %llu, got %llu; asked with", name, what, (unsigned long long)due, (unsigned long long)got);
    for (int i = 0; i < 4; i++) printf(" %llu", (unsigned long long)input.number[i]);
    const uint64_t *first = (const uint64_t *)(const void *)first_at[0];
    for (size_t i = 0; input.at[0].size == 8 && i < 8 && i < input.at[0].length; i++) printf("%s%llu", i ? " " : "; ", (unsigned long long)first[i]);
    printf("\n");
}

static bool guards_stand(int i) {
    const uint8_t *front = library_at[i], *behind = front + GUARD + input.at[i].length * input.at[i].size;
    for (int k = 0; k < GUARD; k++)
        if (front[k] != 0xa5 || behind[k] != 0xa5) return false;
    return true;
}

static void compare_piece(const char *name, int i, uint64_t why) {
    size_t n = input.at[i].length * input.at[i].size;
    if (!guards_stand(i)) differs(name, "wrote outside of lent memory", (uint64_t)i, 0);
    if (memcmp(library_at[i] + GUARD, plain_at[i], n)) differs(name, "left something else in a lent piece", (uint64_t)i, 0);
    if (why && memcmp(library_at[i] + GUARD, first_at[i], n)) differs(name, "refused, and changed a lent piece", (uint64_t)i, 0);
}

static uint64_t both(int name) {
    const Entry *entry = &entries[name];
    void *to_library[MOST_LENT] = {NULL}, *to_plain[MOST_LENT] = {NULL};
    for (int i = 0; i < input.lent; i++) {
        to_library[i] = library_at[i] + GUARD;
        to_plain[i] = plain_at[i];
    }
    uint64_t got = entry->library(&input, to_library), due = entry->plain(&input, to_plain);
    asked++;
    seen[name][due]++;
    if (got != due) differs(entry->name, "another number", due, got);
    for (int i = 0; i < input.lent; i++) compare_piece(entry->name, i, got);
    return due;
}

/* Of an entry that has two sides; that of the cases stands behind that of the gauges. */
static uint64_t of_side(int name, int which) { return both(name + (which == RG_SIDE_CASES)); }

/* An answer that no question got was not compared. */
int unseen_answers(void) {
    int unseen = 0;
    for (int i = 0; i < ENTRIES; i++) {
        for (const uint8_t *why = entries[i].refusals; *why; why++)
            if (!seen[i][*why]) unseen += printf("rg_%s: no question got %d\n", entries[i].name, *why) > 0;
        if (!seen[i][0] || !seen[i][100]) unseen += printf("rg_%s: no question was accepted, or none got 100\n", entries[i].name) > 0;
    }
    return unseen;
}

const uint64_t *given(int piece) { return (const uint64_t *)(const void *)(library_at[piece] + GUARD); }

const uint8_t *given_bytes(int piece) { return library_at[piece] + GUARD; }

void must(bool holds, const char *what) {
    asked++;
    if (holds) return;
    if (differences++ < 10) printf("not so: %s\n", what);
}

/* --- the entries */

uint64_t ask_words(uint64_t number) {
    begin(number, 0, 0, 0);
    lend(NULL, 1, RG_WORDS_BYTES, RG_WORDS_BYTES + 1);
    out(RG_ONE_WORDS);
    return both(E_words);
}

uint64_t ask_plain_order(uint64_t n) {
    begin(n, 0, 0, 0);
    out(RG_ORDER_WORDS);
    return both(E_plain_order);
}

uint64_t ask_read(const uint8_t *file, size_t n) {
    begin(0, 0, 0, 0);
    bytes(file, n);
    out(RG_TABLE_WORDS);
    return both(E_read);
}

uint64_t ask_locate(const uint8_t *file, size_t n, uint64_t either) {
    begin(either, 0, 0, 0);
    bytes(file, n);
    out(RG_ONE_WORDS);
    return both(E_locate);
}

uint64_t ask_comment(const uint8_t *file, size_t n, uint64_t k) {
    begin(k, 0, 0, 0);
    bytes(file, n);
    out(RG_SPAN_WORDS);
    return both(E_comment);
}

uint64_t ask_write(const uint64_t *table, size_t room) {
    begin(0, 0, 0, 0);
    words(table, RG_TABLE_WORDS);
    bytes(NULL, room);
    out(RG_ONE_WORDS);
    return both(E_write);
}

uint64_t ask_sample(uint64_t gauges, uint64_t cases, uint64_t start, uint64_t density) {
    begin(gauges, cases, start, density);
    out(RG_TABLE_WORDS);
    return both(E_sample);
}

uint64_t ask_judge(int judge, const uint64_t *table, const uint64_t *chain) {
    begin(0, 0, 0, 0);
    words(table, RG_TABLE_WORDS);
    words(chain, RG_CHAIN_WORDS);
    out(RG_ONE_WORDS);
    return both(judge == JUDGE_CHAIN ? E_judge_chain : E_judge_ladder);
}

uint64_t ask_start(int which, const uint64_t *table, const uint64_t *order, uint64_t omit) {
    begin(omit, 0, 0, 0);
    words(table, RG_TABLE_WORDS);
    words(order, RG_ORDER_WORDS);
    out(RG_RUN_WORDS);
    return of_side(E_start_gauges, which);
}

uint64_t ask_run(int which, const uint64_t *run, uint64_t budget) {
    begin(budget, 0, 0, 0);
    words(run, RG_RUN_WORDS);
    out(RG_STEP_WORDS);
    return of_side(E_run_gauges, which);
}

/* The words behind a batch's ladders are among those lent. */
uint64_t ask_list(int which, const uint64_t *run, uint64_t budget, size_t room) {
    begin(budget, 0, 0, 0);
    words(run, RG_RUN_WORDS);
    lend(NULL, 8, RG_BATCH_WORDS, room);
    return of_side(E_list_gauges, which);
}

uint64_t ask_explain(int which, const uint64_t *run, uint64_t g, uint64_t c) {
    begin(g, c, 0, 0);
    words(run, RG_RUN_WORDS);
    out(RG_ONE_WORDS);
    return of_side(E_explain_gauge, which);
}

uint64_t ask_sequence(int which, const uint64_t *table, const uint64_t *order, const uint64_t *ladder) {
    begin(0, 0, 0, 0);
    words(table, RG_TABLE_WORDS);
    words(order, RG_ORDER_WORDS);
    words(ladder, RG_CHAIN_WORDS);
    out(RG_NUMBERS_WORDS);
    return of_side(E_sequence_gauges, which);
}

uint64_t ask_candidates(int which, const uint64_t *run) {
    begin(0, 0, 0, 0);
    words(run, RG_RUN_WORDS);
    out(RG_NUMBERS_WORDS);
    return of_side(E_candidates_gauges, which);
}

uint64_t ask_part(int which, const uint64_t *run, uint64_t number) {
    begin(number, 0, 0, 0);
    words(run, RG_RUN_WORDS);
    out(RG_RUN_WORDS);
    return of_side(E_part_gauges, which);
}

uint64_t ask_count(const uint64_t *table, const uint64_t *order, uint64_t budget) {
    begin(budget, 0, 0, 0);
    words(table, RG_TABLE_WORDS);
    words(order, RG_ORDER_WORDS);
    out(RG_COUNT_WORDS);
    return both(E_count);
}

uint64_t ask_grow(const uint64_t *table, const uint64_t *order, const uint64_t *chain) {
    begin(0, 0, 0, 0);
    words(table, RG_TABLE_WORDS);
    words(order, RG_ORDER_WORDS);
    words(chain, RG_CHAIN_WORDS);
    out(RG_CHAIN_WORDS);
    return both(E_grow);
}

uint64_t ask_pair(int about, const uint64_t *table, uint64_t g, uint64_t c) {
    begin(g, c, 0, 0);
    words(table, RG_TABLE_WORDS);
    out(about == RIVALS ? RG_PAIRS_WORDS : RG_ONE_WORDS);
    return both(about == RIVALS ? E_rivals : E_decides);
}

uint64_t ask_cover(const uint64_t *table, uint64_t budget) {
    begin(budget, 0, 0, 0);
    words(table, RG_TABLE_WORDS);
    out(RG_COVER_WORDS);
    return both(E_cover);
}

uint64_t ask_wiring(const uint64_t *table, const uint64_t *chain, const uint64_t *ladder, size_t room) {
    begin(0, 0, 0, 0);
    words(table, RG_TABLE_WORDS);
    words(chain, RG_CHAIN_WORDS);
    words(ladder, RG_CHAIN_WORDS);
    bytes(NULL, room);
    out(RG_ONE_WORDS);
    return both(E_wiring);
}

uint64_t ask_trial(const uint64_t *table, const uint64_t *ladder, uint64_t g, uint64_t c) {
    begin(g, c, 0, 0);
    words(table, RG_TABLE_WORDS);
    words(ladder, RG_CHAIN_WORDS);
    out(RG_PROPOSAL_WORDS);
    return both(E_trial);
}

uint64_t ask_commit(const uint64_t *proposal, const uint64_t *table) {
    begin(0, 0, 0, 0);
    words(proposal, RG_PROPOSAL_WORDS);
    words(table, RG_TABLE_WORDS);
    out(RG_TABLE_WORDS);
    return both(E_commit);
}

uint64_t ask_read_test(const uint8_t *file, size_t n, uint64_t cutoff) {
    begin(cutoff, 0, 0, 0);
    bytes(file, n);
    out(RG_TEST_WORDS);
    readings(NULL);
    out(RG_TABLE_WORDS);
    return both(E_read_test);
}

uint64_t ask_write_test(const uint64_t *test, const int32_t *own, size_t room) {
    begin(0, 0, 0, 0);
    words(test, RG_TEST_WORDS);
    readings(own);
    bytes(NULL, room);
    out(RG_ONE_WORDS);
    return both(E_write_test);
}

uint64_t ask_equal(const uint64_t *a, const int32_t *readings_a, const uint64_t *b, const int32_t *readings_b) {
    begin(0, 0, 0, 0);
    words(a, RG_TEST_WORDS);
    readings(readings_a);
    words(b, RG_TEST_WORDS);
    readings(readings_b);
    out(RG_ONE_WORDS);
    return both(E_equal);
}
