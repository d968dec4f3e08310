/* Trials and commits. Of all tables up to 3 by 3 every set of pairs of 3 by 3 tried at one place, and each ladder at every place from 0:0 to 4:4;
 * each proposal committed as it is and with one part changed, on its own table and on another one. In order: changes, commits, trials. */
#include "both.h"
#include <string.h>

#define CHANGES 29

/* One part of a proposal changed; 0 leaves it as it is. */
static void change(uint64_t *p, int how) {
    uint64_t g = p[RG_PROPOSAL_GAUGE], c = p[RG_PROPOSAL_CASE], *chain = p + RG_PROPOSAL_CHAIN;
    switch (how) {
    case 1: p[RG_TABLE_GAUGES]++; break;
    case 2: p[RG_TABLE_CASES]++; break;
    case 3: p[RG_TABLE_ROWS] ^= 1; break;
    case 4: p[RG_TABLE_ROWS + 2] ^= 4; break;
    case 5: chain[0]++; break;
    case 6: chain[0] = 0; break;
    case 7: chain[1] ^= 1; break;
    case 8: chain[3] ^= 4; break;
    case 9: chain[g] ^= (uint64_t)1 << (c - 1); break;
    case 10: p[RG_PROPOSAL_GAUGE]++; break;
    case 11: p[RG_PROPOSAL_GAUGE] = 0; break;
    case 12: p[RG_PROPOSAL_GAUGE] = UINT64_MAX; break;
    case 13: p[RG_PROPOSAL_CASE]++; break;
    case 14: p[RG_PROPOSAL_CASE] = 0; break;
    case 15: p[RG_PROPOSAL_CASE] = UINT64_MAX; break;
    case 16: p[RG_PROPOSAL_EFFECT] = 1; break;
    case 17: p[RG_PROPOSAL_EFFECT] = 2; break;
    case 18: p[RG_PROPOSAL_EFFECT] = 3; break;
    case 19: p[RG_PROPOSAL_EFFECT] += (uint64_t)1 << 32; break;
    case 20: p[RG_TABLE_GAUGES] = UINT64_MAX; break;
    case 21: memset(chain + 1, 0, 64 * sizeof *chain); break;
    case 22: p[RG_TABLE_ROWS + 63] ^= 1; break;
    case 23: chain[64] ^= 1; break;
    case 24: p[RG_PROPOSAL_GAUGE] += 256; break;
    case 25: p[RG_PROPOSAL_EFFECT] = 0; break;
    case 26: p[RG_PROPOSAL_EFFECT] = 4; break;
    case 27: p[RG_PROPOSAL_EFFECT] += 256; break;
    case 28: p[RG_PROPOSAL_EFFECT] = UINT64_MAX; break;
    default: break;
    }
}

/* On its own table, and on tables with another pair or another shape. */
static void commits(const uint64_t *table, const uint64_t *proposal) {
    for (int how = 0; how < CHANGES; how++) {
        uint64_t changed[RG_PROPOSAL_WORDS];
        memcpy(changed, proposal, sizeof changed);
        change(changed, how);
        ask_commit(changed, table);
    }
    Table other;
    memcpy(other, table, sizeof other);
    other[RG_TABLE_ROWS] ^= 1;
    ask_commit(proposal, other);
    memcpy(other, table, sizeof other);
    other[RG_TABLE_CASES]++;
    ask_commit(proposal, other);
    other[RG_TABLE_CASES] = 0;
    ask_commit(proposal, other);
}

static void every_place(const uint64_t *table, const uint64_t *ladder) {
    for (uint64_t g = 0; g <= 4; g++)
        for (uint64_t c = 0; c <= 4; c++) {
            uint64_t proposal[RG_PROPOSAL_WORDS];
            if (ask_trial(table, ladder, g, c)) continue;
            memcpy(proposal, given(2), sizeof proposal);
            commits(table, proposal);
        }
}

static void one_table(const uint64_t *table) {
    static Rows ladders[8];
    int n = ladders_of(table, ladders, 8);
    for (int i = 0; i < n; i++) every_place(table, ladders[i]);
    for (uint64_t pairs = 0; pairs < 512; pairs++) {
        Rows set;
        small_set(set, 3, 3, pairs);
        set[0] = table[RG_TABLE_GAUGES];
        ask_trial(table, set, 1, 1);
    }
}

void small_trials(void) { each_small_table(one_table); }
