/* Answers that are known by themselves, of tables too large to look at all sets of pairs. In order: chains of full tables, as many as the books have;
 * counts of the n by n tables where gauge g lacks only case g, and of 64 by 64; rivals and deciding pairs of 64 by 64; orders of up to 4,096 pairs, followed
 * pair by pair; flips of the last entry of 64 by 64. */
#include "both.h"
#include <string.h>

/* The chains of a full n by n table are as many as the n by n matrices of zeros and ones that their row and column sums determine. */
static void chains(uint64_t n, uint64_t due) {
    Table table;
    Rows set;
    uint64_t found = 0;
    square(table, n, FULL);
    for (uint64_t pairs = 0; pairs < (uint64_t)1 << (n * n); pairs++) {
        small_set(set, n, n, pairs);
        ask_judge(JUDGE_CHAIN, table, set);
        found += given(2)[0];
    }
    must(found == due, "so many chains of a full table");
}

/* --- counts: n!, and the sequences of fewer than n different numbers */

static void counted(const uint64_t *table, const uint64_t *order, uint64_t budget, uint64_t ladders, uint64_t calls) {
    uint64_t count[RG_COUNT_WORDS] = {7, 7, 7};
    must(rg_count(table, RG_TABLE_WORDS, order, RG_ORDER_WORDS, budget, count, RG_COUNT_WORDS) == 0, "a count is accepted");
    bool spent = calls > budget;
    must(count[RG_COUNT_OUTCOME] == (spent ? RG_SPENT : RG_COUNTED), "counted or spent");
    must(count[RG_COUNT_LADDERS] == (spent ? 0 : ladders) && count[RG_COUNT_CALLS] == (spent ? budget : calls), "so many ladders and calls");
}

static void counts_near(const uint64_t *table, uint64_t ladders, uint64_t calls) {
    Numbers orders[6];
    int n = arrangements(orders, table[RG_TABLE_GAUGES]);
    uint64_t near = calls > 100000 ? 1 : 20, to = calls < RG_BUDGET ? calls + near : RG_BUDGET;
    for (uint64_t b = calls < near ? 0 : calls > RG_BUDGET ? RG_BUDGET : calls - near; b <= to && b <= RG_BUDGET; b++)
        counted(table, orders[0], b, ladders, calls);
    counted(table, orders[n - 1], RG_BUDGET, ladders, calls);
    counted(table, orders[0], 0, ladders, calls);
}

static void counts(void) {
    static const uint64_t factorial[] = {1, 1, 2, 6, 24, 120, 720, 5040, 40320, 362880, 0};
    static const uint64_t sequences[] = {0, 1, 3, 10, 41, 206, 1237, 8660, 69281, 623530, UINT64_MAX};
    Table table;
    for (uint64_t n = 1; n <= 10; n++) {
        square(table, n, LACKING);
        counts_near(table, factorial[n], sequences[n]);
    }
    square(table, 64, FULL);
    counts_near(table, 1, 65);
    square(table, 64, EMPTY);
    counts_near(table, 1, 1);
    square(table, 64, STAIRS);
    counts_near(table, 1, 65);
    square(table, 64, OWN);
    counts_near(table, 64, 65);
    square(table, 64, LACKING);
    counts_near(table, 0, UINT64_MAX);
}

/* --- rivals: where each pair has the same rivals, or as many of its own as any other, all decide */

static void every_pair_decides(int pattern) {
    Table table;
    square(table, 64, pattern);
    bool all = true;
    for (uint64_t g = 1; g <= 64; g++)
        for (uint64_t c = 1; c <= 64; c++) {
            uint64_t answer[1] = {9}, why = rg_decides(table, RG_TABLE_WORDS, g, c, answer, 1);
            bool there = table[RG_TABLE_ROWS + g - 1] >> (c - 1) & 1;
            all = all && (there ? why == 0 && answer[0] == RG_YES : why == RG_NO_PAIR && answer[0] == 9);
        }
    must(all, "every pair decides, and no other place has an answer");
}

static void pairs(void) {
    Table table;
    every_pair_decides(FULL);
    every_pair_decides(LACKING);
    every_pair_decides(OWN);
    every_pair_decides(STAIRS);
    square(table, 64, LACKING);
    ask_pair(RIVALS, table, 1, 2);
    must(given(1)[1] == 1 && given(1)[0] == 0 && given(1)[63] == 0, "1:2 has the one rival 2:1");
    square(table, 64, OWN);
    ask_pair(RIVALS, table, 1, 1);
    must(given(1)[0] == 0 && !memcmp(given(1) + 1, table + RG_TABLE_ROWS + 1, 63 * sizeof *table), "1:1 has every other pair as a rival");
}

/* --- orders */

static bool nested_with_all(const uint64_t *rows, uint64_t row) {
    for (int j = 0; j < 64; j++)
        if ((row & rows[j]) != row && (row & rows[j]) != rows[j]) return false;
    return true;
}

/* The first pair, by gauge and then case, that the rows lack and with which any two of them are nested; 4,096 where there is none. */
static int next_pair(const uint64_t *ladder, const uint64_t *rows) {
    for (int p = 0; p < 4096; p++) {
        uint64_t bit = (uint64_t)1 << p % 64;
        if ((ladder[p / 64] & ~rows[p / 64] & bit) && nested_with_all(rows, rows[p / 64] | bit)) return p;
    }
    return 4096;
}

static void followed(const uint64_t *ladder, const uint64_t *chain, const uint8_t *bytes, uint64_t n) {
    uint64_t rows[64];
    bool all = true;
    memcpy(rows, chain, sizeof rows);
    for (uint64_t k = 0; k < n; k++) {
        int p = next_pair(ladder, rows);
        all = all && p < 4096 && bytes[2 * k] == p / 64 + 1 && bytes[2 * k + 1] == p % 64 + 1;
        if (p < 4096) rows[p / 64] |= (uint64_t)1 << p % 64;
    }
    must(all, "each pair is the first that can come");
    must(!memcmp(rows, ladder, sizeof rows), "the pairs lead to the ladder");
}

/* With bytes that the order just fills, some more, and one short. */
static void one_order(const uint64_t *table, const uint64_t *ladder, const uint64_t *chain) {
    static uint8_t bytes[8200];
    uint64_t missing = 0, count[1];
    for (int i = 1; i <= 64; i++)
        for (uint64_t row = ladder[i] & ~chain[i]; row; row &= row - 1) missing++;
    for (int room = 2 * (int)missing - 1; room <= 2 * (int)missing + 7; room += room == 2 * (int)missing ? 7 : 1) {
        if (room < 0) continue;
        memset(bytes, 0xee, sizeof bytes);
        count[0] = 77777;
        uint64_t why = rg_wiring(table, RG_TABLE_WORDS, chain, RG_CHAIN_WORDS, ladder, RG_CHAIN_WORDS, bytes, (size_t)room, count, 1);
        bool fits = (uint64_t)room >= 2 * missing;
        must(why == (fits ? 0 : RG_BUFFER) && count[0] == (fits ? missing : 77777), "so many pairs, or 16");
        bool untouched = true;
        for (size_t i = fits ? 2 * missing : 0; i < sizeof bytes; i++) untouched = untouched && bytes[i] == 0xee;
        must(untouched, "bytes behind the order stay as they were");
        if (fits) followed(ladder + 1, chain + 1, bytes, missing);
    }
}

/* From no pairs, from the last row but one, and from the whole ladder. */
static void orders_of(const uint64_t *table, const uint64_t *ladder) {
    Rows none = {64}, last = {64};
    last[63] = ladder[63];
    one_order(table, ladder, none);
    one_order(table, ladder, last);
    one_order(table, ladder, ladder);
}

static void orders(void) {
    Table table;
    Rows ladder = {64};
    for (int pattern = FULL; pattern <= FALLING; pattern++) {
        if (pattern == EMPTY) continue;
        square(table, 64, pattern);
        memcpy(ladder + 1, table + RG_TABLE_ROWS, 64 * sizeof *table);
        orders_of(table, ladder);
    }
    square(table, 64, LACKING);
    for (int g = 0; g < 64; g++) ladder[1 + g] = ~lowest(g + 1); /* of the picks 1, 2, 3 and on */
    orders_of(table, ladder);
}

/* --- trials: of a table that is its own ladder, the last entry flipped */

static void last_entry(const uint64_t *table, uint64_t effect) {
    uint64_t proposal[RG_PROPOSAL_WORDS];
    Rows ladder = {64};
    memcpy(ladder + 1, table + RG_TABLE_ROWS, 64 * sizeof *table);
    ask_trial(table, ladder, 65, 1);
    must(ask_trial(table, ladder, 64, 64) == 0 && given(2)[RG_PROPOSAL_EFFECT] == effect, "the effect on the ladder");
    memcpy(proposal, given(2), sizeof proposal);
    must(ask_commit(proposal, table) == 0 && given(2)[RG_TABLE_ROWS + 63] == (table[RG_TABLE_ROWS + 63] ^ (uint64_t)1 << 63), "the entry flipped");
}

static void trials(void) {
    Table table;
    square(table, 64, FULL);
    last_entry(table, RG_NOT_WITHIN);
    square(table, 64, EMPTY);
    last_entry(table, RG_ONLY_CHAIN);
    table[RG_TABLE_ROWS] = 1;
    last_entry(table, RG_STILL_LADDER);
}

void known_answers(void) {
    static const uint64_t known[] = {2, 14, 230, 6902};
    for (uint64_t n = 1; n <= 4; n++) chains(n, known[n - 1]);
    counts();
    pairs();
    orders();
    trials();
}
