/* Lists the ladders of a file of pairs, at most 3 moves a call, and says where it pauses. docs/LINKING.md shows how it is built and what it writes. */
#include "ragymolev.h"
#include <stdio.h>

static int refused(uint64_t why) { return printf("refused %d\n", (int)why) < 0 ? 1 : 3; }

int main(int argc, char **argv) {
    static uint8_t file[RG_FILE_BYTES + 1]; /* one byte more than the longest file, so that a longer one is seen to be longer */
    rg_table table;
    rg_order order;
    rg_run run;
    rg_step step;
    uint64_t why;
    FILE *in = argc > 1 ? fopen(argv[1], "rb") : stdin;
    if (!in) return 1;
    if ((why = rg_read(file, fread(file, 1, sizeof file, in), RG_LEND(table)))) return refused(why);
    if ((why = rg_plain_order(table.gauges, RG_LEND(order)))) return refused(why);
    if ((why = rg_start_gauges(RG_LEND(table), RG_LEND(order), 0, RG_LEND(run)))) return refused(why);
    do { /* between two calls the run is what stands in `run`: it can be stored as it is, and gone on from another day */
        if ((why = rg_run_gauges(RG_LEND(run), 3, RG_LEND(step)))) return refused(why);
        printf("%s", step.outcome == RG_SPENT ? "pause" : step.outcome == RG_END ? "end" : "ladder");
        for (int g = 0; g < RG_ROWS; g++)
            for (int c = 0; c < RG_MOST; c++)
                if (step.chain.rows[g] >> c & 1) printf(" %d:%d", g + 1, c + 1);
        printf("\n");
    } while (step.outcome != RG_END);
    return 0;
}
