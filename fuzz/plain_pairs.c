/* What is said of single pairs, by definition: rivals and deciding pairs, the fewest ladders, orders of wiring, the flip of one
 * entry and sample tables. */
#include "plain.h"
#include <stdlib.h>
#include <string.h>

/* h:d with another gauge and another case, and neither g:d nor h:c in the table. */
Set rivals_of(const Set *table, int g, int c) {
    Set s = {{0}};
    for (int h = 1; h <= 64; h++)
        for (int d = 1; table->rows[h - 1] && d <= 64; d++)
            if (has(table, h, d) && h != g && d != c && !has(table, g, d) && !has(table, h, c)) add(&s, h, d);
    return s;
}

bool decides(const Set *table, int g, int c) {
    Set mine = rivals_of(table, g, c);
    for (int h = 1; h <= 64; h++)
        for (int d = 1; table->rows[h - 1] && d <= 64; d++) {
            if (!has(table, h, d)) continue;
            Set other = rivals_of(table, h, d);
            if (within(&mine, &other) && !within(&other, &mine)) return false;
        }
    return true;
}

bool holds_deciding(const Set *table, const Set *ladder) {
    for (int g = 1; g <= 64; g++)
        for (int c = 1; ladder->rows[g - 1] && c <= 64; c++)
            if (has(ladder, g, c) && decides(table, g, c)) return true;
    return false;
}

/* 10, 11, 19. */
static uint64_t pair_refusal(const uint64_t *table, uint64_t g, uint64_t c) {
    uint64_t why = table_refusal(table);
    if (why) return why;
    Set t = table_set(table);
    if (g < 1 || g > table[RG_TABLE_GAUGES] || c < 1 || c > table[RG_TABLE_CASES]) return 19;
    return has(&t, (int)g, (int)c) ? 0 : 19;
}

uint64_t plain_rivals(const uint64_t *table, size_t table_n, uint64_t g, uint64_t c, uint64_t *pairs, size_t pairs_n) {
    if (table_n < 66 || pairs_n < 64) return 100;
    uint64_t why = pair_refusal(table, g, c);
    if (why) return why;
    Set t = table_set(table);
    Set rivals = rivals_of(&t, (int)g, (int)c);
    memcpy(pairs, rivals.rows, sizeof rivals.rows);
    return 0;
}

uint64_t plain_decides(const uint64_t *table, size_t table_n, uint64_t g, uint64_t c, uint64_t *answer, size_t answer_n) {
    if (table_n < 66 || answer_n < 1) return 100;
    uint64_t why = pair_refusal(table, g, c);
    if (why) return why;
    Set t = table_set(table);
    answer[0] = decides(&t, (int)g, (int)c);
    return 0;
}

/* The ladders in gauge order. */
static void ladders_in_order(const uint64_t *table, List *list) {
    Side side;
    Set t = table_set(table);
    plain_side(&side, (int)table[RG_TABLE_GAUGES], (int)table[RG_TABLE_CASES], &t);
    list_ladders(&t, list);
    sort_ladders(list, &side);
}

/* A search in progress: the ladders chosen so far, those tried, and how many may be. */
typedef struct {
    const List *list;
    const Set *chosen[8];
    uint64_t tried, budget;
} Search;

static bool first_pair(const Set *s, int *g, int *c) {
    for (*g = 1; *g <= 64; ++*g)
        for (*c = 1; s->rows[*g - 1] && *c <= 64; ++*c)
            if (has(s, *g, *c)) return true;
    return false;
}

static Set without(const Set *a, const Set *b) {
    Set s;
    for (int i = 0; i < 64; i++) s.rows[i] = a->rows[i] & ~b->rows[i];
    return s;
}

enum { COVERS, FAILS, OVER };

/* Each ladder that holds the first uncovered pair, none at k = 0, and under it what is still uncovered with k - 1. */
static int cover_rest(Search *search, const Set *open, int depth, int k) {
    int g, c;
    if (!first_pair(open, &g, &c)) return COVERS;
    for (int i = 0; k > 0 && i < search->list->n; i++) {
        const Set *ladder = &search->list->ladder[i];
        if (!has(ladder, g, c)) continue;
        if (search->tried == search->budget) return OVER;
        search->tried++;
        search->chosen[depth] = ladder;
        Set rest = without(open, ladder);
        int came = cover_rest(search, &rest, depth + 1, k - 1);
        if (came != FAILS) return came;
    }
    return FAILS;
}

static int cover_fewest(Search *search, const Set *table, int *k) {
    for (*k = 0; *k <= 8; ++*k) {
        int came = cover_rest(search, table, 0, *k);
        if (came != FAILS) return came;
    }
    abort();
}

uint64_t plain_cover(const uint64_t *table, size_t table_n, uint64_t budget, uint64_t *cover, size_t cover_n) {
    static List list;
    int k;
    if (table_n < 66 || cover_n < 523) return 100;
    uint64_t why = table_refusal(table);
    if (why) return why;
    if (budget > 1000000) return 18;
    if (table[RG_TABLE_GAUGES] > 8 || table[RG_TABLE_CASES] > 8) return 23;
    ladders_in_order(table, &list);
    if (list.n > 1024) return 24;
    Search search = {.list = &list, .budget = budget};
    Set t = table_set(table);
    bool found = cover_fewest(&search, &t, &k) == COVERS;
    memset(cover, 0, 523 * sizeof *cover);
    cover[0] = found ? 1 : 2;
    cover[1] = found ? (uint64_t)k : 0;
    cover[2] = found ? search.tried : budget;
    for (int i = 0; found && i < k; i++) put_chain(cover + RG_COVER_CHAINS + 65 * i, table[RG_TABLE_GAUGES], search.chosen[i]);
    return 0;
}

static Set chain_set(const uint64_t *chain) {
    Set s;
    memcpy(s.rows, chain + RG_CHAIN_ROWS, sizeof s.rows);
    return s;
}

/* Of the missing pairs that leave a chain when they come next, the first by gauge, then case. */
static bool next_to_wire(const Set *s, const Set *ladder, int *g, int *c) {
    for (*g = 1; *g <= 64; ++*g)
        for (*c = 1; ladder->rows[*g - 1] && *c <= 64; ++*c) {
            if (!has(ladder, *g, *c) || has(s, *g, *c)) continue;
            Set more = *s;
            add(&more, *g, *c);
            if (is_chain(&more)) return true;
        }
    return false;
}

static uint64_t order_of_refusal(const uint64_t *table, const uint64_t *chain, const uint64_t *ladder) {
    uint64_t why = table_refusal(table);
    if (!why) why = chain_refusal(table, chain);
    if (why) return why;
    Set t = table_set(table), s = chain_set(chain), l = chain_set(ladder);
    if (!is_chain(&s)) return 14;
    why = chain_refusal(table, ladder);
    if (why) return why;
    return is_ladder(&t, &l) && within(&s, &l) ? 0 : 25;
}

uint64_t plain_wiring(const uint64_t *table, size_t table_n, const uint64_t *chain, size_t chain_n, const uint64_t *ladder, size_t ladder_n,
                      uint8_t *bytes, size_t bytes_n, uint64_t *count, size_t count_n) {
    int g, c;
    if (table_n < 66 || chain_n < 65 || ladder_n < 65 || count_n < 1) return 100;
    uint64_t why = order_of_refusal(table, chain, ladder);
    if (why) return why;
    Set s = chain_set(chain), l = chain_set(ladder);
    size_t missing = (size_t)(size_of(&l) - size_of(&s));
    if (bytes_n < 2 * missing) return 16;
    for (size_t i = 0; i < missing; i++) {
        if (!next_to_wire(&s, &l, &g, &c)) abort();
        bytes[2 * i] = (uint8_t)g;
        bytes[2 * i + 1] = (uint8_t)c;
        add(&s, g, c);
    }
    count[0] = missing;
    return 0;
}

/* */
static Set flipped(const Set *table, int g, int c) {
    Set s = *table;
    s.rows[g - 1] ^= (uint64_t)1 << (c - 1);
    return s;
}

uint64_t plain_trial(const uint64_t *table, size_t table_n, const uint64_t *chain, size_t chain_n, uint64_t g, uint64_t c, uint64_t *proposal,
                     size_t proposal_n) {
    if (table_n < 66 || chain_n < 65 || proposal_n < 134) return 100;
    uint64_t why = table_refusal(table);
    if (why) return why;
    if (g < 1 || g > table[RG_TABLE_GAUGES] || c < 1 || c > table[RG_TABLE_CASES]) return 7;
    why = chain_refusal(table, chain);
    if (why) return why;
    Set t = table_set(table), s = chain_set(chain);
    if (!is_ladder(&t, &s)) return 25;
    Set new_table = flipped(&t, (int)g, (int)c);
    memcpy(proposal + RG_PROPOSAL_TABLE, table, 66 * sizeof *proposal);
    memcpy(proposal + RG_PROPOSAL_CHAIN, chain, 65 * sizeof *proposal);
    proposal[RG_PROPOSAL_GAUGE] = g;
    proposal[RG_PROPOSAL_CASE] = c;
    proposal[RG_PROPOSAL_EFFECT] = !within(&s, &new_table) ? 3 : is_ladder(&new_table, &s) ? 1 : 2;
    return 0;
}

uint64_t plain_commit(const uint64_t *proposal, size_t proposal_n, const uint64_t *table, size_t table_n, uint64_t *out, size_t out_n) {
    uint64_t again[134];
    if (proposal_n < 134 || table_n < 66 || out_n < 66) return 100;
    uint64_t why = table_refusal(table);
    if (why) return why;
    uint64_t g = proposal[RG_PROPOSAL_GAUGE], c = proposal[RG_PROPOSAL_CASE];
    if (plain_trial(table, 66, proposal + RG_PROPOSAL_CHAIN, 65, g, c, again, 134)) return 26;
    if (memcmp(again, proposal, sizeof again)) return 26;
    Set t = table_set(table);
    Set s = flipped(&t, (int)g, (int)c);
    put_table(out, table[RG_TABLE_GAUGES], table[RG_TABLE_CASES], &s);
    return 0;
}

/* */
uint64_t plain_sample(uint64_t gauges, uint64_t cases, uint64_t start, uint64_t density, uint64_t *table, size_t table_n) {
    Set s = {{0}};
    if (table_n < 66) return 100;
    if (gauges < 1 || gauges > 64 || cases < 1 || cases > 64) return 10;
    if (start == 0 || density > 256) return 28;
    for (int g = 1; g <= (int)gauges; g++)
        for (int c = 1; c <= (int)cases; c++) {
            start ^= start << 13;
            start ^= start >> 7;
            start ^= start << 17;
            if ((start & 255) < density) add(&s, g, c);
        }
    put_table(table, gauges, cases, &s);
    return 0;
}
