/* Values to ask with: all small tables, their sets of pairs and their arrangements; tables drawn by the generator of R-13; tables whose answers are known;
 * and the ladders of a table, as a gauge run of the plain entries gives them. */
#include "both.h"
#include <string.h>

/* The set of pairs of a number, pair g:c at bit (g - 1) * cases + (c - 1), into rows. */
static void rows_of(uint64_t *rows, uint64_t gauges, uint64_t cases, uint64_t pairs) {
    memset(rows, 0, 64 * sizeof *rows);
    for (uint64_t g = 0; g < gauges; g++) rows[g] = pairs >> (g * cases) & lowest((int)cases);
}

/* The same as a chain. */
void small_set(uint64_t *words, uint64_t gauges, uint64_t cases, uint64_t pairs) {
    words[RG_CHAIN_COUNT] = gauges;
    rows_of(words + RG_CHAIN_ROWS, gauges, cases, pairs);
}

/* All 682 tables up to 3 by 3. */
void each_small_table(void (*ask)(const uint64_t *table)) {
    for (uint64_t gauges = 1; gauges <= 3; gauges++)
        for (uint64_t cases = 1; cases <= 3; cases++)
            for (uint64_t pairs = 0; pairs < (uint64_t)1 << (gauges * cases); pairs++) {
                Table table = {gauges, cases};
                rows_of(table + RG_TABLE_ROWS, gauges, cases, pairs);
                ask(table);
            }
}

void in_order(uint64_t *order, uint64_t n) {
    memset(order, 0, RG_ORDER_WORDS * sizeof *order);
    for (uint64_t i = 0; i < n; i++) order[i] = i + 1;
}

/* Number i, from 0, of an arrangement of 1..n: as they come, from the middle on, or the odd ones first; each of these from the back too. */
static uint64_t arranged(int how, uint64_t n, uint64_t i) {
    uint64_t at = how % 2 ? n - 1 - i : i, half = (n + 1) / 2;
    switch (how / 2) {
    case 0: return at + 1;
    case 1: return (at + n / 2) % n + 1;
    default: return at < half ? 2 * at + 1 : 2 * (at - half) + 2;
    }
}

/* Every arrangement of 1..n up to three, the plain one first; of more numbers six. */
int arrangements(Numbers *out, uint64_t n) {
    static const uint64_t three[6][3] = {{1, 2, 3}, {1, 3, 2}, {2, 1, 3}, {2, 3, 1}, {3, 1, 2}, {3, 2, 1}};
    int count = n == 1 ? 1 : n == 2 ? 2 : 6;
    for (int k = 0; k < count; k++) {
        in_order(out[k], n);
        for (uint64_t i = 0; n > 1 && i < n; i++) out[k][i] = n > 3 ? arranged(k, n, i) : three[n == 2 ? 2 * k : k][i];
    }
    return count;
}

/* Table k of a shape, which anyone can make again; whether it has at most so many pairs. */
bool drawn_table(uint64_t *table, uint64_t gauges, uint64_t cases, uint64_t k, int most) {
    static const uint64_t densities[] = {128, 64, 192, 96, 160, 32, 224, 144};
    ask_sample(gauges, cases, 88172645463325252u ^ k, densities[k % 8]);
    memcpy(table, given(0), RG_TABLE_WORDS * sizeof *table);
    Set pairs = table_set(table);
    return size_of(&pairs) <= most;
}

static uint64_t row_of(int pattern, uint64_t n, uint64_t g) {
    uint64_t own = (uint64_t)1 << g, all = lowest((int)n);
    switch (pattern) {
    case FULL: return all;
    case STAIRS: return lowest((int)g + 1);
    case FALLING: return all & ~lowest((int)g);
    case OWN: return own;
    case LACKING: return all ^ own;
    default: return 0;
    }
}

/* n by n: all pairs; none; the first g cases of gauge g; its last ones; case g alone; all but case g. */
void square(uint64_t *table, uint64_t n, int pattern) {
    memset(table, 0, RG_TABLE_WORDS * sizeof *table);
    table[RG_TABLE_GAUGES] = table[RG_TABLE_CASES] = n;
    for (uint64_t g = 0; g < n; g++) table[RG_TABLE_ROWS + g] = row_of(pattern, n, g);
}

/* The ladders of a table as chains, in gauge order, at most so many. */
int ladders_of(const uint64_t *table, Rows *out, int most) {
    static Set found[PLAIN_LADDERS];
    Side side;
    Set pairs = table_set(table);
    plain_side(&side, (int)table[RG_TABLE_GAUGES], (int)table[RG_TABLE_CASES], &pairs);
    int n = leaves(&side, most < PLAIN_LADDERS ? most : PLAIN_LADDERS, found);
    for (int i = 0; i < n; i++) put_chain(out[i], table[RG_TABLE_GAUGES], &found[i]);
    return n;
}

/* The numbers that a side of a table picks from. */
uint64_t picks_of(const uint64_t *table, int which) { return table[which == RG_SIDE_GAUGES ? RG_TABLE_GAUGES : RG_TABLE_CASES]; }
