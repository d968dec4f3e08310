/* The file of parts that `join` is given: lines of `planner parts`, in any order, and whether they are a whole split of one list. The library is asked for the
 * candidates from the fresh start on: what begins with some picks is one part, or it is what begins with them and each candidate behind. So no part is
 * forgotten and none is there twice, and the lists of the parts, one after the other, are the list. What was listed of them is in outputs.c. */
#include "planner.h"
#include <inttypes.h>
#include <stdio.h>
#include <stdlib.h>
#include <string.h>

/* A part with its line, as it stands in what is said. */
static void name_part(const Split *split, const Part *part, uint64_t number) {
    char line[PART_LINE];
    part_line(line, &split->fresh, split->prefers, part);
    fprintf(stderr, "%s: %s: ", place_in(split->name, number), line);
}

static SplitPart *new_part(Split *split) {
    if (split->count == split->room) {
        split->room = split->room ? 2 * split->room : 64;
        split->parts = realloc(split->parts, split->room * sizeof *split->parts);
        if (!split->parts) fail("planner", "no memory");
    }
    return &split->parts[split->count++];
}

/* A line of the file; the first one says of which list all are parts. */
static void take_line(Split *split, const char *line, uint64_t number, const uint64_t *table) {
    SplitPart *made = new_part(split);
    Run fresh, run;
    *made = (SplitPart){.number = number, .output = NO_OUTPUT};
    uint64_t why = read_part(line, table, &made->part, &fresh);
    accept(why ? place_in(split->name, number) : "planner", why);
    why = try_part(&fresh, &made->part, &run);
    accept_picks(why ? place_in(split->name, number) : "planner", why);
    if (split->count == 1) {
        split->fresh = fresh;
        split->prefers = line_prefers(line);
    } else if (!same_list(split, &fresh)) {
        fprintf(stderr, "%s: %s: of another list than the first line\n", place_in(split->name, number), line);
        split->faults++;
        split->count--;
    }
}

/* Whether a part is one of the list that is split: of its side, all or needed, and its preference. */
bool same_list(const Split *split, const Run *fresh) { return !memcmp(fresh->words, split->fresh.words, sizeof fresh->words); }

/* Takes the end off a line that was read; false where it has none and is not the last, so that it is longer than any. */
static bool cut_end(char *line, FILE *in) {
    size_t length = strlen(line);
    bool ended = length && line[length - 1] == '\n';
    if (ended) line[length - 1] = 0;
    return ended || feof(in);
}

void read_split(Split *split, const char *word, const uint64_t *table) {
    char line[PART_LINE + 1];
    uint64_t number = 0;
    FILE *in = open_word(word);
    *split = (Split){.name = name_of(word)};
    while (fgets(line, sizeof line, in)) {
        number++;
        if (!cut_end(line, in)) refuse(place_in(split->name, number), NO_PART_LINE);
        take_line(split, line, number, table);
    }
    if (ferror(in)) fail(split->name, "reading failed");
    if (in != stdin) fclose(in);
    if (!split->count) refuse(place_in(split->name, 1), NO_PART_LINE);
    places_of(&split->fresh, split->place);
}

/* In the order of the list, a part behind its own beginning, the same in the order of the file. */
static const uint8_t *places;
static int in_order(const void *a, const void *b) {
    const SplitPart *x = a, *y = b;
    int order = compare_parts(places, &x->part, &y->part);
    return order ? order : x->number < y->number ? -1 : x->number > y->number;
}

/* The first of some lines is the part that was looked for; the others are the same, or lie within it, and go. */
static void keep_first(Split *split, size_t from, size_t end) {
    split->parts[split->kept] = split->parts[from];
    const SplitPart *first = &split->parts[split->kept++];
    for (size_t i = from + 1; i < end; i++) {
        bool same = split->parts[i].part.count == first->part.count;
        name_part(split, &split->parts[i].part, split->parts[i].number);
        fprintf(stderr, same ? "twice: it is line %" PRIu64 " too\n" : "twice: its ladders are of line %" PRIu64 " too\n", first->number);
        split->faults++;
    }
}

/* Behind the lines that have this number as their next pick, of those from `at` on. */
static size_t behind(const Split *split, size_t at, size_t end, int depth, uint64_t number) {
    while (at < end && split->parts[at].part.picks[depth] == number) at++;
    return at;
}

/* The lines from `at` up to `end` are those that begin with the picks of a part. */
static void walk(Split *split, const Run *run, const Part *part, size_t at, size_t end) {
    uint64_t numbers[RG_NUMBERS_WORDS];
    if (at == end) {
        name_part(split, part, 0);
        fputs("missing: no line has its ladders\n", stderr);
        split->faults++;
        return;
    }
    if (split->parts[at].part.count == part->count) {
        keep_first(split, at, end);
        return;
    }
    candidates_of(run, numbers);
    for (int i = 0; i < RG_NUMBERS_WORDS && numbers[i]; i++) {
        Part longer = *part, one = {.count = 1, .picks = {(uint8_t)numbers[i]}};
        Run next;
        size_t from = at;
        longer.picks[longer.count++] = (uint8_t)numbers[i];
        part_value("planner", run, &one, &next);
        at = behind(split, at, end, part->count, numbers[i]);
        walk(split, &next, &longer, from, at);
    }
}

/* Puts the parts in the order of the list. False where they are no whole split: each fault has been named then. */
bool check_split(Split *split) {
    places = split->place;
    qsort(split->parts, split->count, sizeof *split->parts, in_order);
    walk(split, &split->fresh, &(Part){.count = 0}, 0, split->count);
    split->count = split->kept;
    return !split->faults;
}

/* Where a part is in the split; the number of parts where it is none of it. */
size_t find_part(const Split *split, const Part *part) {
    size_t low = 0, high = split->count;
    while (low < high) {
        size_t middle = low + (high - low) / 2;
        int order = compare_parts(split->place, &split->parts[middle].part, part);
        if (!order) return middle;
        if (order < 0) low = middle + 1;
        else high = middle;
    }
    return split->count;
}
