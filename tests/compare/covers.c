/* The fewest ladders that hold every pair: all tables up to 3 by 3 with every budget up to the ladders tried, and above; then tables up to 5 by 5,
 * which the generator of R-13 draws, and tables of 8 by 8 at the limits: 1,023, 1,024, 1,025 and 40,320 ladders; no pairs, one, all, a diagonal. What is due
 * of those with 1,023 and 1,024 ladders stands here too. */
#include "both.h"
#include <string.h>

static void budgets(const uint64_t *table, uint64_t least) {
    uint64_t tried = ask_cover(table, RG_BUDGET) ? 0 : given(1)[RG_COVER_TRIED];
    for (uint64_t b = tried < least ? 0 : tried - least; b <= tried + 1; b++) ask_cover(table, b);
    ask_cover(table, 0);
    ask_cover(table, RG_BUDGET + 1);
    ask_cover(table, UINT64_MAX);
}

static void every_budget(const uint64_t *table) { budgets(table, 1000); }

void small_covers(void) { each_small_table(every_budget); }

/* 8 by 8 with so many ladders, found by drawing; of the first two the least number and the ladders tried. */
static const uint64_t crowded[][8] = {
    {219, 247, 239, 252, 254, 215, 159, 121}, {254, 219, 231, 242, 190, 245, 29, 127}, {159, 239, 252, 190, 216, 183, 126, 107}};
static const int ladders[] = {1024, 1023, 1025};
static const uint64_t least[] = {2, 3}, tried[] = {113082, 363450};

static void at_the_limits(void) {
    static Rows found[PLAIN_LADDERS];
    for (int i = 0; i < 3; i++) {
        Table table = {8, 8};
        memcpy(table + RG_TABLE_ROWS, crowded[i], sizeof crowded[i]);
        must(ladders_of(table, found, PLAIN_LADDERS) == ladders[i], "so many ladders");
        uint64_t why = ask_cover(table, RG_BUDGET);
        must(i == 2 ? why == RG_MANY_LADDERS : given(1)[RG_COVER_NUMBER] == least[i] && given(1)[RG_COVER_TRIED] == tried[i], "the least number");
        budgets(table, 1);
    }
    Table table;
    square(table, 8, LACKING);
    budgets(table, 1);
}

/* Refused for its size, just above 8, whatever else would be refused later; and the shapes that are not. */
static void shapes(void) {
    for (uint64_t gauges = 7; gauges <= 10; gauges++)
        for (uint64_t cases = 7; cases <= 10; cases++)
            for (int pattern = FULL; pattern <= LACKING; pattern++) {
                Table table;
                square(table, gauges < cases ? gauges : cases, pattern);
                table[RG_TABLE_GAUGES] = gauges;
                table[RG_TABLE_CASES] = cases;
                if (pattern != LACKING || gauges > 8 || cases > 8) budgets(table, 2);
            }
}

void known_covers(void) {
    static const uint64_t shape[][2] = {{3, 4}, {4, 3}, {4, 4}, {4, 4}, {3, 5}, {5, 3}, {4, 5}, {5, 4}, {5, 5}, {5, 5}, {5, 5}, {5, 5}};
    Table table;
    for (uint64_t k = 0; k < 60; k++) {
        drawn_table(table, shape[k % 12][0], shape[k % 12][1], k, 64);
        budgets(table, 40);
    }
    at_the_limits();
    shapes();
}
