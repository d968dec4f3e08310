/* join: the whole list from the outputs of its parts. Each file is read twice. First all is checked: that the parts are a whole split (splits.c), and that each
 * has one output, which is whole (outputs.c). Only then the list is written, without the last lines of the outputs. Else each fault is named, and with
 * --again the lines of the parts that are to be run again are written. */
#define _POSIX_C_SOURCE 200809L /* access */
#include "planner.h"
#include <errno.h>
#include <stdio.h>
#include <stdlib.h>
#include <string.h>
#include <unistd.h>

/* An output of a part of the split that is whole. */
typedef struct {
    size_t file, part; /* the word that names the file; the part */
    bool picks;
    uint64_t start, bytes, sum;
} WholeOutput;

typedef struct {
    const Request *request;
    uint64_t table[RG_TABLE_WORDS];
    Split split;
    WholeOutput *outputs;
    size_t count, room, faults, again;
} Join;

/* A fault of a file, of which part, if that is known, and which. */
static void name_fault(Join *join, const char *file, const char *part, const char *fault) {
    fprintf(stderr, "%s: %s%s%s\n", file, part, part[0] ? ": " : "", fault);
    join->faults++;
}

static void add_output(Join *join, WholeOutput output) {
    if (join->count == join->room) {
        join->room = join->room ? 2 * join->room : 64;
        join->outputs = realloc(join->outputs, join->room * sizeof *join->outputs);
        if (!join->outputs) fail("planner", "no memory");
    }
    join->outputs[join->count++] = output;
}

/* What is wrong with an output of a part, by its last line and by what lies ahead of it; null where nothing is. */
static const char *damage(const Whole *whole, const Listed *found) {
    if (found->bytes < whole->bytes) return "cut: it has fewer bytes than its last line says";
    if (found->bytes > whole->bytes) return "damaged: it has more bytes than its last line says";
    if (found->sum != whole->sum) return "damaged: its bytes are not those that its last line has the sum of";
    return (whole->picks ? found->lines : found->ladders) == whole->ladders ? NULL : "damaged: it has more or fewer ladders than its last line says";
}

/* An output that ends with a last line: kept, or named. */
static void take_output(Join *join, size_t file, const Listed *found, Text line) {
    const char *name = join->request->word[file], *wrong;
    char text[PART_LINE];
    Whole whole;
    Part part;
    Run fresh;
    bool read = take_whole(line, &whole, text);
    uint64_t why = read ? read_part(text, join->table, &part, &fresh) : NO_PART_LINE;
    size_t at = !why && same_list(&join->split, &fresh) ? find_part(&join->split, &part) : join->split.count;
    if (line.text[line.length - 1] != '\n') name_fault(join, name, "", "cut: its last line has no end");
    else if (why == OTHER_TABLE) name_fault(join, name, text, "of another table");
    else if (why) name_fault(join, name, "", "damaged: a line that begins with % is none that says what is whole");
    else if (at == join->split.count) name_fault(join, name, text, "of another split");
    else if ((wrong = damage(&whole, found))) {
        name_fault(join, name, text, wrong);
        join->split.parts[at].named = true;
    } else add_output(join, (WholeOutput){file, at, whole.picks, found->start, found->bytes, found->sum});
}

/* A file that a job never came to write has the output of no part. */
static bool is_there(Join *join, const char *name) {
    if (!access(name, F_OK) || errno != ENOENT) return true;
    name_fault(join, name, "", "missing: there is no such file");
    return false;
}

/* All outputs of a file. It ends with a last line, or some output is cut. */
static void read_outputs(Join *join, size_t file) {
    static Output output;
    Listed found;
    Text line;
    if (!is_there(join, join->request->word[file])) return;
    open_output(&output, join->request->word[file]);
    while (next_whole(&output, &found, &line)) take_output(join, file, &found, line);
    if (!output.passed) name_fault(join, output.name, "", "cut: it is empty");
    else if (found.bytes) name_fault(join, output.name, "", "cut: it does not end with the line that says what is whole");
    close_output(&output);
}

/* Files of ladders or lines of picks: of which kind most outputs are. */
static bool most_are_picks(const Join *join) {
    size_t picks = 0;
    for (size_t i = 0; i < join->count; i++) picks += join->outputs[i].picks;
    return picks > join->count - picks;
}

/* Gives each part its output. One of another kind is none of this list, and a second one would be written twice. */
static void match_outputs(Join *join) {
    bool picks = most_are_picks(join);
    char text[PART_LINE], fault[REASON];
    for (size_t i = 0; i < join->count; i++) {
        const WholeOutput *output = &join->outputs[i];
        SplitPart *part = &join->split.parts[output->part];
        const char *name = join->request->word[output->file];
        part_line(text, &join->split.fresh, join->split.prefers, &part->part);
        if (output->picks != picks) {
            name_fault(join, name, text, picks ? "of another kind: most have picks" : "of another kind: most have ladders as files");
            part->named = true;
        } else if (part->output != NO_OUTPUT) {
            snprintf(fault, sizeof fault, "twice: it is whole in %s too", join->request->word[join->outputs[part->output].file]);
            name_fault(join, name, text, fault);
        } else part->output = i;
    }
}

/* Names the parts that no fault has named yet, and counts those that are to be run again; with --again writes their lines. */
static void name_missing(Join *join) {
    char text[PART_LINE];
    for (size_t i = 0; i < join->split.count; i++) {
        const SplitPart *part = &join->split.parts[i];
        if (part->output != NO_OUTPUT) continue;
        join->again++;
        part_line(text, &join->split.fresh, join->split.prefers, &part->part);
        if (!part->named) name_fault(join, place_in(join->split.name, part->number), text, "missing: no output of it is whole");
        if (join->request->option[AGAIN]) put_text("%s\n", text);
    }
}

/* The list, part by part, from the files as they were checked. One file is open at a time. */
static void write_list(const Join *join) {
    static Output output;
    size_t open = NO_OUTPUT;
    for (size_t i = 0; i < join->split.count; i++) {
        const WholeOutput *next = &join->outputs[join->split.parts[i].output];
        if (open != next->file) {
            close_output(&output);
            open_output(&output, join->request->word[next->file]);
            open = next->file;
        }
        copy_output(&output, next->start, next->bytes, next->sum);
    }
    close_output(&output);
}

static const char *plural(size_t n) { return n == 1 ? "" : "s"; }

/* The last line of what is said where something is wrong. */
static void sum_up(const Join *join) {
    size_t parts = join->split.count, faults = join->faults + join->split.faults;
    if (join->split.faults) fprintf(stderr, "planner join: the parts are no whole split: %zu fault%s\n", faults, plural(faults));
    else fprintf(stderr, "planner join: %zu part%s, %zu to be run again: %zu fault%s\n", parts, plural(parts), join->again, faults, plural(faults));
}

/* All that is checked ahead of the list; whether nothing is wrong. */
static bool check_all(Join *join) {
    const Request *request = join->request;
    read_table(request, join->table);
    read_split(&join->split, request->word[1], join->table);
    if (!check_split(&join->split)) return false;
    for (int i = FIRST_OUTPUT; i < request->words; i++) read_outputs(join, (size_t)i);
    match_outputs(join);
    name_missing(join);
    return !join->faults;
}

int answer_join(const Request *request) {
    static Join join;
    join.request = request;
    for (int i = FIRST_OUTPUT; i < request->words; i++)
        if (!strcmp(request->word[i], "-")) wrong_usage("an output is read twice, and cannot be %s", "standard input");
    if (check_all(&join)) {
        if (!request->option[AGAIN]) write_list(&join);
        return STATUS_DONE;
    }
    sum_up(&join);
    return request->option[AGAIN] && !join.again && !join.split.faults ? STATUS_DONE : STATUS_NO;
}
