/* What is said of pairs, and counts: of all tables up to 3 by 3 the rivals of every pair of numbers, and whether it decides; the two claims of R-2 by
 * brute force, on the library's own answers; the count of ladders under every preference with every budget up to the calls that it takes, and above.
 * ask_pairs is for other themes too. Covers are in covers.c. */
#include "both.h"
#include "pairs.h"
#include <string.h>

#define MOST 10 /* the second claim looks at every set of so many ladders */

static const uint64_t beyond[] = {9, 64, 65, 257, (uint64_t)1 << 32 | 1, UINT64_MAX};

static void every_pair(const uint64_t *table) {
    for (int about = RIVALS; about <= DECIDES; about++) {
        for (uint64_t g = 0; g <= table[RG_TABLE_GAUGES] + 1; g++)
            for (uint64_t c = 0; c <= table[RG_TABLE_CASES] + 1; c++) ask_pair(about, table, g, c);
        for (int i = 0; i < 6; i++) {
            ask_pair(about, table, beyond[i], 1);
            ask_pair(about, table, 1, beyond[i]);
        }
    }
}

/* --- the two claims */

static Set rivals[64][64];
static bool deciding[64][64];

static void learn(const uint64_t *table) {
    Set t = table_set(table);
    for (int g = 1; g <= 64; g++)
        for (int c = 1; t.rows[g - 1] && c <= 64; c++) {
            if (!has(&t, g, c)) continue;
            ask_pair(RIVALS, table, (uint64_t)g, (uint64_t)c);
            memcpy(rivals[g - 1][c - 1].rows, given(1), sizeof rivals[0][0].rows);
            ask_pair(DECIDES, table, (uint64_t)g, (uint64_t)c);
            deciding[g - 1][c - 1] = given(1)[0];
        }
}

/* Every ladder with g:c holds h:d. */
static bool held(const List *list, int g, int c, int h, int d) {
    for (int i = 0; i < list->n; i++)
        if (has(&list->ladder[i], g, c) && !has(&list->ladder[i], h, d)) return false;
    return true;
}

/* "Every ladder with pair p holds pair q exactly when p's rivals include q's." */
static void first_claim(const Set *t, const List *list) {
    for (int p = 0; p < 64; p++)
        for (int q = 0; q < 64; q++) {
            int g = p / 8 + 1, c = p % 8 + 1, h = q / 8 + 1, d = q % 8 + 1;
            if (!has(t, g, c) || !has(t, h, d)) continue;
            must(within(&rivals[h - 1][d - 1], &rivals[g - 1][c - 1]) == held(list, g, c, h, d), "R-2, the first claim");
        }
}

static bool covers(const Set *t, const List *list, unsigned chosen) {
    Set s = {{0}};
    for (int i = 0; i < list->n; i++)
        for (int g = 0; chosen >> i & 1 && g < 8; g++) s.rows[g] |= list->ladder[i].rows[g];
    return within(t, &s);
}

static bool irreducible(const Set *t, const List *list, unsigned chosen) {
    if (!covers(t, list, chosen)) return false;
    for (int i = 0; i < list->n; i++)
        if (chosen >> i & 1 && covers(t, list, chosen & ~(1u << i))) return false;
    return true;
}

/* "A ladder belongs to some irreducible cover exactly when it holds a deciding pair." */
static void second_claim(const Set *t, const List *list) {
    unsigned found = 0;
    for (unsigned chosen = 0; chosen < 1u << list->n; chosen++)
        if (irreducible(t, list, chosen)) found |= chosen;
    for (int i = 0; i < list->n; i++) {
        bool one = false;
        for (int p = 0; p < 64; p++) one = one || (has(&list->ladder[i], p / 8 + 1, p % 8 + 1) && deciding[p / 8][p % 8]);
        must((found >> i & 1) == one, "R-2, the second claim");
    }
}

static void claims(const uint64_t *table) {
    static List list;
    Set t = table_set(table);
    learn(table);
    list_ladders(&t, &list);
    first_claim(&t, &list);
    if (list.n <= MOST) second_claim(&t, &list);
}

/* --- counts */

static void counts(const uint64_t *table) {
    Numbers orders[6];
    int n = arrangements(orders, table[RG_TABLE_GAUGES]);
    for (int k = 0; k < n; k++) {
        ask_count(table, orders[k], RG_BUDGET);
        uint64_t calls = given(2)[RG_COUNT_CALLS], from = k || calls < 40 ? 0 : calls - 20;
        for (uint64_t b = from; b <= calls + 2; b++) ask_count(table, orders[k], b);
        ask_count(table, orders[k], RG_BUDGET + 1);
        ask_count(table, orders[k], UINT64_MAX);
    }
}

void ask_pairs(const uint64_t *table) {
    every_pair(table);
    claims(table);
    counts(table);
}

void small_pairs(void) { each_small_table(ask_pairs); }
