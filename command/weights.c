/* How many ladders a part has, so that a list is split where it is longest. Nothing rests on it but how even the parts are: which parts there are, and that
 * they are the list, the library says.
 *
 * What can follow some picks goes by the cases alone that every picked gauge responds to, the left ones: a gauge that responds to all of them is picked next
 * without a choice, and of the others each that has a widest part of them is a candidate, the first of those that have the same. So the ladders behind are
 * counted once for each set of left cases, of which a table of 20 gauges or 20 cases has a million at most. Where a table has more, random ways down are
 * taken from each part, always the same ones: the product of the candidates on a way is, in the mean, the number of ladders. By cases all of this is said
 * with the sides exchanged. */
#include "planner.h"
#include <stdlib.h>

/* The sets that are counted through before it is left to estimates; a half of the slots stays free. */
#ifndef MOST_SETS
#define MOST_SETS 1048576
#endif
#define FIRST_SLOTS 1024

/* Ways down for an estimate, in all and of one part. */
#define ALL_WAYS 65536
#define MOST_WAYS 256

/* Of the sets so far, none of which holds another, and one more those that no other holds; how many. */
static size_t add_set(uint64_t *sets, size_t count, uint64_t set) {
    size_t kept = 0;
    for (size_t i = 0; i < count; i++) {
        if (!(set & ~sets[i])) return count; /* none was dropped ahead of it: it would lie within this one too */
        if (sets[i] & ~set) sets[kept++] = sets[i];
    }
    sets[kept++] = set;
    return kept;
}

/* What can be left behind the next choice: the widest sets that some row has of what is left, each once. */
static size_t choices(const Weights *weights, uint64_t left, uint64_t *sets) {
    size_t count = 0;
    for (uint64_t i = 0; i < weights->count; i++) {
        uint64_t set = weights->rows[i] & left;
        if (set && set != left) count = add_set(sets, count, set);
    }
    return count;
}

/* Where a set is, or the free slot for it. No set is empty, so that 0 is free. */
static Weight *slot_of(const Weights *weights, uint64_t set) {
    size_t at = (size_t)((set * 0x9e3779b97f4a7c15u) >> 20) & (weights->slots - 1);
    while (weights->slot[at].set && weights->slot[at].set != set) at = (at + 1) & (weights->slots - 1);
    return &weights->slot[at];
}

static void make_slots(Weights *weights, size_t slots) {
    weights->slots = slots;
    weights->slot = calloc(slots, sizeof *weights->slot);
    if (!weights->slot) fail("planner", "no memory");
}

static void double_slots(Weights *weights) {
    Weights old = *weights;
    make_slots(weights, 2 * old.slots);
    for (size_t i = 0; i < old.slots; i++)
        if (old.slot[i].set) *slot_of(weights, old.slot[i].set) = old.slot[i];
    free(old.slot);
}

static void keep_weight(Weights *weights, uint64_t set, double ladders) {
    if (2 * weights->used == weights->slots) double_slots(weights);
    *slot_of(weights, set) = (Weight){set, ladders};
    weights->used++;
    weights->spent = weights->used == MOST_SETS;
}

/* The ladders behind what is left, by those behind each choice; 1 where there is none. */
static double count_behind(Weights *weights, uint64_t left) {
    uint64_t sets[RG_MOST];
    const Weight *known = slot_of(weights, left);
    if (known->set) return known->ladders;
    size_t count = choices(weights, left, sets);
    double ladders = count ? 0 : 1;
    for (size_t i = 0; i < count && !weights->spent; i++) ladders += count_behind(weights, sets[i]);
    if (!weights->spent) keep_weight(weights, left, ladders);
    return ladders;
}

/* The generator of sample tables. */
static uint64_t next_state(uint64_t x) {
    x ^= x << 13;
    x ^= x >> 7;
    return x ^ x << 17;
}

/* One way down: the product of its choices. */
static double way_down(const Weights *weights, uint64_t left, uint64_t *state) {
    uint64_t sets[RG_MOST];
    double ladders = 1;
    for (size_t count; (count = choices(weights, left, sets)) > 0; left = sets[*state % count]) {
        *state = next_state(*state);
        ladders *= (double)count;
    }
    return ladders;
}

/* The mean of some ways, which go by what is left alone. */
static double estimate(const Weights *weights, uint64_t left) {
    uint64_t state = left * 0x9e3779b97f4a7c15u;
    double sum = 0;
    for (uint64_t i = 0; i < weights->ways; i++) sum += way_down(weights, left, &state);
    return sum / (double)weights->ways;
}

/* The rows of the side that is picked from. */
static void take_rows(Weights *weights, const uint64_t *table, bool by_cases) {
    weights->count = side_count(table, by_cases);
    for (uint64_t g = 0; g < table[RG_TABLE_GAUGES]; g++)
        for (uint64_t c = 0; c < table[RG_TABLE_CASES]; c++)
            if (table[RG_TABLE_ROWS + g] >> c & 1) weights->rows[by_cases ? c : g] |= (uint64_t)1 << (by_cases ? g : c);
}

/* For so many parts of a run's list. All that can be left behind some picks is counted at once, or nothing is. */
void begin_weights(Weights *weights, const Run *fresh, uint64_t parts) {
    const uint64_t *table = fresh->words + RG_RUN_TABLE;
    uint64_t others = side_count(table, !fresh->by_cases), ways = ALL_WAYS / parts;
    *weights = (Weights){.all = others < RG_MOST ? ((uint64_t)1 << others) - 1 : UINT64_MAX, .ways = ways < 1 ? 1 : ways > MOST_WAYS ? MOST_WAYS : ways};
    take_rows(weights, table, fresh->by_cases);
    make_slots(weights, FIRST_SLOTS);
    count_behind(weights, weights->all);
}

double weight_of(const Weights *weights, const Part *part) {
    uint64_t left = weights->all;
    for (int i = 0; i < part->count; i++) left &= weights->rows[part->picks[i] - 1];
    return weights->spent ? estimate(weights, left) : slot_of(weights, left)->ladders;
}

void end_weights(Weights *weights) { free(weights->slot); }
