/* count --parts: the ladders of a list part by part, each part run to its close, and their sum. So a list is counted whose count takes more calls than a
 * budget can have, of either side and of the needed ladders too. The parts are those of splitting.c, and how one is run to its close is in list.c. */
#include "planner.h"
#include <inttypes.h>

/* What `planner parts` with the same number and options writes, each line with the ladders of its part. */
void put_counts(const Request *request) {
    uint64_t table[RG_TABLE_WORDS], total = 0;
    Parts parts;
    Run fresh, run;
    read_table(request, table);
    start_run(request, table, &fresh);
    split_list(&parts, &fresh, parts_of(request->option[PARTS]));
    for (size_t at = 0; at != LAST_PART; at = parts.nodes[at].next) {
        char line[PART_LINE];
        part_value("planner", &fresh, &parts.nodes[at].part, &run);
        uint64_t ladders = ladders_of(request, table, &parts.nodes[at].part, &run);
        part_line(line, &fresh, request->option[PREFER], &parts.nodes[at].part);
        put_text("%s %" PRIu64 "\n", line, ladders);
        total += ladders;
    }
    put_text("total %" PRIu64 " %s in %zu %s\n", total, total == 1 ? "ladder" : "ladders", parts.count, parts.count == 1 ? "part" : "parts");
    end_parts(&parts);
}
