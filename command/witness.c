/* What shows that the library's answer about a set of pairs is right, for the words behind it: a pair that the table lacks, two pairs that clash, a pair
 * that can be added. Nothing is decided here: the library has judged the set before. */
#include "planner.h"
#include <inttypes.h>

/* The lowest case of a row. */
static uint64_t first_case(uint64_t row) {
    uint64_t c = 1;
    for (; !(row & 1); row >>= 1) c++;
    return c;
}

/* The first pair, by gauge and then case, that the table lacks. */
bool foreign_pair(const uint64_t *table, const uint64_t *chain, Pair *pair) {
    for (uint64_t g = 1; g <= RG_ROWS; g++) {
        uint64_t row = chain[RG_CHAIN_ROWS + g - 1] & ~table[RG_TABLE_ROWS + g - 1];
        if (!row) continue;
        *pair = (Pair){g, first_case(row)};
        return true;
    }
    return false;
}

/* Of two rows neither of which contains the other, a pair of each that the other lacks. */
static bool clash(const uint64_t *chain, uint64_t g, uint64_t h, Pair *two) {
    uint64_t first = chain[RG_CHAIN_ROWS + g - 1], second = chain[RG_CHAIN_ROWS + h - 1];
    if (!(first & ~second) || !(second & ~first)) return false;
    two[0] = (Pair){g, first_case(first & ~second)};
    two[1] = (Pair){h, first_case(second & ~first)};
    return true;
}

/* The first two pairs g:c and h:d of a set that has neither g:d nor h:c. */
bool clashing_pairs(const uint64_t *chain, Pair *two) {
    for (uint64_t g = 1; g < RG_ROWS; g++)
        for (uint64_t h = g + 1; h <= RG_ROWS; h++)
            if (clash(chain, g, h, two)) return true;
    return false;
}

/* The pair that comes next on the way from a chain to the ladder that it grows to; false where there is none. */
bool pair_to_add(const uint64_t *table, const uint64_t *chain, Pair *pair) {
    static uint8_t bytes[RG_PAIR_BYTES];
    uint64_t order[RG_ORDER_WORDS], ladder[RG_CHAIN_WORDS], count[RG_ONE_WORDS];
    plain_order(table[RG_TABLE_GAUGES], order);
    if (rg_grow(table, RG_TABLE_WORDS, order, RG_ORDER_WORDS, chain, RG_CHAIN_WORDS, ladder, RG_CHAIN_WORDS)) return false;
    if (rg_wiring(table, RG_TABLE_WORDS, chain, RG_CHAIN_WORDS, ladder, RG_CHAIN_WORDS, bytes, RG_PAIR_BYTES, count, RG_ONE_WORDS)) return false;
    *pair = (Pair){bytes[0], bytes[1]};
    return count[0] > 0;
}

/* The reason of a refusal of a set: 12, 13, 14 and 25, the last of a chain or of a set that is none. */
void reason_of_set(uint64_t why, const uint64_t *table, const uint64_t *chain, char *reason) {
    Pair two[2];
    reason[0] = 0;
    if (why == RG_ROW_COUNT)
        snprintf(reason, REASON, "the file has %" PRIu64 " gauges, the table %" PRIu64, chain[RG_CHAIN_COUNT], table[RG_TABLE_GAUGES]);
    else if (why == RG_NOT_IN_TABLE && foreign_pair(table, chain, two))
        snprintf(reason, REASON, "%" PRIu64 ":%" PRIu64, two[0].gauge, two[0].gauge_case);
    else if ((why == RG_NO_CHAIN || why == RG_NO_LADDER) && clashing_pairs(chain, two))
        snprintf(reason, REASON, "%" PRIu64 ":%" PRIu64 " and %" PRIu64 ":%" PRIu64 " clash", two[0].gauge, two[0].gauge_case, two[1].gauge, two[1].gauge_case);
    else if (why == RG_NO_LADDER && pair_to_add(table, chain, two))
        snprintf(reason, REASON, "%" PRIu64 ":%" PRIu64 " can be added", two[0].gauge, two[0].gauge_case);
}
