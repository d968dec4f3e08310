/* Lists ladders in batches of 64, and says what each batch came to: those of a file of pairs, or without a file the 40,320 of the 8 by 8 table that lacks
 * its diagonal. docs/LINKING.md shows how it is built and what it writes. */
#include "ragymolev.h"
#include <stdio.h>

#define ROOM 64 /* ladders in a batch; an rg_batch_64 has room for so many, whatever the table */

static int refused(uint64_t why) { return printf("refused %d\n", (int)why) < 0 ? 1 : 3; }

/* The table where gauge g responds under every case but case g. */
static void lacking_diagonal(rg_table *table, uint64_t n) {
    *table = (rg_table){n, n, {0}};
    for (uint64_t g = 0; g < n; g++) table->rows[g] = (((uint64_t)1 << n) - 1) ^ (uint64_t)1 << g;
}

static uint64_t read_table(rg_table *table, FILE *in) {
    static uint8_t file[RG_FILE_BYTES + 1]; /* one byte more than the longest file, so that a longer one is seen to be longer */
    return rg_read(file, fread(file, 1, sizeof file, in), RG_LEND(*table));
}

static void print_ladder(const uint64_t *rows, uint64_t gauges) {
    for (uint64_t g = 0; g < gauges; g++)
        for (int c = 0; c < RG_MOST; c++)
            if (rows[g] >> c & 1) printf(" %d:%d", (int)g + 1, c + 1);
    printf("\n");
}

int main(int argc, char **argv) {
    static rg_batch_64 batch;
    rg_table table;
    rg_order order;
    rg_run run;
    uint64_t why = 0;
    FILE *in = argc > 1 ? fopen(argv[1], "rb") : NULL;
    if (argc > 1 && !in) return 1;
    if (in) why = read_table(&table, in);
    else lacking_diagonal(&table, 8);
    if (why) return refused(why);
    if ((why = rg_plain_order(table.gauges, RG_LEND(order)))) return refused(why);
    if ((why = rg_start_gauges(RG_LEND(table), RG_LEND(order), 0, RG_LEND(run)))) return refused(why);
    do {
        if ((why = rg_list_gauges(RG_LEND(run), RG_BUDGET, RG_LEND_BATCH(batch, ROOM, table.gauges)))) return refused(why);
        printf("%d ladders, %d moves\n", (int)batch.ladders, (int)batch.moves);
        for (uint64_t i = 0; i < batch.ladders; i++) print_ladder(batch.rows + i * table.gauges, table.gauges);
    } while (batch.outcome != RG_END);
    return 0;
}
