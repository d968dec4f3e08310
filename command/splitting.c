/* parts: the parts of a list, at least so many where there are as many. The largest is split first, so that they are even; how large one is, is in
 * weights.c. What a part is split into are the parts of its candidates, which the library gives, and that they are the part is proved. A part by itself, and
 * its line, are in parts.c; how many ladders each has, by listing it, is in counts.c. */
#include "planner.h"
#include <stdlib.h>

#define MOST_PARTS 1000000

/* Parts are even where the largest has at most so many times the mean. Some lists have no such split near the number that was asked for: candidates with few
 * ladders come along with each that has many. So it is tried up to so many times that number, where ladders are counted, and less far by estimates. */
#define EVEN 3
#define MORE 16
#define MORE_BY_ESTIMATE 4

static size_t new_node(Parts *parts, const Part *part, size_t next) {
    if (parts->used == parts->room) {
        parts->room = parts->room ? 2 * parts->room : 64;
        parts->nodes = realloc(parts->nodes, parts->room * sizeof *parts->nodes);
        parts->heap = realloc(parts->heap, parts->room * sizeof *parts->heap);
        if (!parts->nodes || !parts->heap) fail("planner", "no memory");
    }
    parts->nodes[parts->used] = (Node){.part = *part, .next = next};
    return parts->used++;
}

/* Which of two parts is split first: the one with more ladders, the first in the list on a tie. */
static bool ahead(const Parts *parts, size_t a, size_t b) {
    const Node *x = &parts->nodes[a], *y = &parts->nodes[b];
    return x->weight > y->weight || (x->weight == y->weight && compare_parts(parts->place, &x->part, &y->part) < 0);
}

/* Puts a part into the heap, whose first is the one to split next. */
static void put_in_heap(Parts *parts, size_t node) {
    size_t at = parts->waiting++;
    while (at && ahead(parts, node, parts->heap[(at - 1) / 2])) {
        parts->heap[at] = parts->heap[(at - 1) / 2];
        at = (at - 1) / 2;
    }
    parts->heap[at] = node;
}

/* Takes the first one out: the last one moves into the gap that the larger of two leaves each time. */
static size_t take_from_heap(Parts *parts) {
    size_t first = parts->heap[0], last = parts->heap[--parts->waiting], at = 0, below;
    while ((below = 2 * at + 1) < parts->waiting) {
        if (below + 1 < parts->waiting && ahead(parts, parts->heap[below + 1], parts->heap[below])) below++;
        if (!ahead(parts, parts->heap[below], last)) break;
        parts->heap[at] = parts->heap[below];
        at = below;
    }
    parts->heap[at] = last;
    return first;
}

/* Weighs a part. One of a single ladder is never split. */
static void weigh(Parts *parts, size_t node) {
    parts->nodes[node].weight = weight_of(&parts->weights, &parts->nodes[node].part);
    parts->sum += parts->nodes[node].weight;
    if (parts->nodes[node].weight > 1) put_in_heap(parts, node);
}

/* Puts the parts of its candidates in the place of a part, of which there is one at least: more than one ladder begins with its picks. */
static void split(Parts *parts, const Run *fresh, size_t at) {
    uint64_t numbers[RG_NUMBERS_WORDS];
    Part part = parts->nodes[at].part;
    Run run;
    part_value("planner", fresh, &part, &run);
    candidates_of(&run, numbers);
    if (!numbers[0]) return;
    parts->sum -= parts->nodes[at].weight;
    part.picks[part.count++] = (uint8_t)numbers[0];
    parts->nodes[at].part = part;
    weigh(parts, at);
    for (int i = 1; i < RG_NUMBERS_WORDS && numbers[i]; i++) {
        part.picks[part.count - 1] = (uint8_t)numbers[i];
        size_t made = new_node(parts, &part, parts->nodes[at].next);
        parts->nodes[at].next = made;
        parts->count++;
        weigh(parts, made);
        at = made;
    }
}

/* How many parts are asked for, by a word or an option. */
uint64_t parts_of(const char *text) {
    uint64_t enough = number_of("a number of parts is wanted, not '%s'", text);
    if (enough < 1 || enough > MOST_PARTS) wrong_usage("a number of parts is from 1 to 1000000, not %s", text);
    return enough;
}

/* The largest part by the mean. */
static double unevenness(const Parts *parts) { return parts->nodes[parts->heap[0]].weight * (double)parts->count / parts->sum; }

/* How many parts there are at most. */
static uint64_t most_of(const Parts *parts, uint64_t enough) {
    uint64_t most = enough * (parts->weights.spent ? MORE_BY_ESTIMATE : MORE);
    return most < MOST_PARTS ? most : MOST_PARTS;
}

/* From the whole list, until there are enough parts and they are even, or as many as there may be, or each has one ladder. The first part is the first node.
 * Gives the number of parts, from `enough` on, at which they were most even. */
static uint64_t split_until(Parts *parts, const Run *fresh, uint64_t enough, uint64_t most) {
    double least = 0;
    uint64_t best = enough;
    parts->used = parts->waiting = 0;
    parts->count = 1;
    parts->sum = 0;
    weigh(parts, new_node(parts, &(Part){.count = 0}, LAST_PART));
    while (parts->waiting && (parts->count < enough || (parts->count < most && unevenness(parts) > EVEN))) {
        split(parts, fresh, take_from_heap(parts));
        if (!parts->waiting || parts->count < enough || (least > 0 && unevenness(parts) >= least)) continue;
        least = unevenness(parts);
        best = parts->count;
    }
    return best;
}

/* Even parts, or where there are none so even the most even ones. */
void split_list(Parts *parts, const Run *fresh, uint64_t enough) {
    *parts = (Parts){.count = 1};
    places_of(fresh, parts->place);
    begin_weights(&parts->weights, fresh, enough);
    uint64_t best = split_until(parts, fresh, enough, most_of(parts, enough));
    if (parts->waiting && unevenness(parts) > EVEN) split_until(parts, fresh, best, best);
    end_weights(&parts->weights);
}

void end_parts(Parts *parts) {
    free(parts->nodes);
    free(parts->heap);
}

int answer_parts(const Request *request) {
    uint64_t table[RG_TABLE_WORDS], enough = parts_of(request->word[1]);
    Parts parts;
    Run fresh;
    read_table(request, table);
    start_run(request, table, &fresh);
    split_list(&parts, &fresh, enough);
    for (size_t at = 0; at != LAST_PART; at = parts.nodes[at].next) put_part(request, &fresh, &parts.nodes[at].part);
    end_parts(&parts);
    return STATUS_DONE;
}
