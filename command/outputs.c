/* What `planner list --part` wrote, in files: of one part or of several one behind another, each with its last line, that it is whole. A file is read in pieces
 * of fixed size, so that it may be of any length. Which parts there are is in splits.c, and what becomes of them in join.c. */
#define _POSIX_C_SOURCE 200809L /* fileno, fseeko, fstat */
#include "planner.h"
#include <inttypes.h>
#include <stdio.h>
#include <string.h>
#include <sys/stat.h>

#define WHOLE "% " /* how a last line begins; no line of a ladder and no pick does */
#define MARK "%%"  /* how a ladder begins */

/* Opens a file of outputs; one that cannot be read twice is none. */
void open_output(Output *output, const char *name) {
    struct stat about;
    output->name = name;
    output->in = open_word(name);
    output->at = output->end = 0;
    output->passed = 0;
    output->within = output->over = false;
    if (fstat(fileno(output->in), &about) || !S_ISREG(about.st_mode)) fail(name, "it is no file, and an output is read twice: write it to a file first");
}

void close_output(Output *output) {
    if (output->in) fclose(output->in);
    output->in = NULL;
}

/* The bytes of the next line, or of as much of it as there is room for; 0 at the end. Where a line begins, enough of it is there to be a last line. */
static size_t piece(Output *output) {
    if (output->end - output->at < WHOLE_LINE && !output->over) {
        memmove(output->buffer, output->buffer + output->at, output->end - output->at);
        output->end -= output->at;
        output->at = 0;
        output->end += fread(output->buffer + output->end, 1, sizeof output->buffer - output->end, output->in);
        if (ferror(output->in)) fail(output->name, "reading failed");
        output->over = output->end < sizeof output->buffer;
    }
    const uint8_t *from = output->buffer + output->at, *end = memchr(from, '\n', output->end - output->at);
    return end ? (size_t)(end - from) + 1 : output->end - output->at;
}

static bool begins(const Output *output, size_t length, const char *mark) {
    return !output->within && length >= strlen(mark) && !memcmp(output->buffer + output->at, mark, strlen(mark));
}

static void pass(Output *output, size_t length) {
    output->within = output->buffer[output->at + length - 1] != '\n';
    output->at += length;
    output->passed += length;
}

/* Goes on to the next line that may be a last one, and past it; false where the file ends without one. `found` has what lies ahead of it. */
bool next_whole(Output *output, Listed *found, Text *line) {
    *found = (Listed){.start = output->passed, .sum = EMPTY_SUM};
    for (size_t length; (length = piece(output)) > 0; pass(output, length)) {
        const uint8_t *from = output->buffer + output->at;
        if (begins(output, length, WHOLE)) {
            *line = (Text){(const char *)from, length};
            pass(output, length);
            return true;
        }
        found->ladders += begins(output, length, MARK);
        found->lines += !output->within;
        found->bytes += length;
        found->sum = add_to_sum(found->sum, from, length);
    }
    return false;
}

/* A last line as it is written and in no other form; false where it is none. The part's line is copied, with an end mark. */
bool take_whole(Text line, Whole *whole, char *part) {
    char due[WHOLE_LINE];
    if (!read_whole(line, whole) || whole->line.length >= PART_LINE) return false;
    memcpy(part, whole->line.text, whole->line.length);
    part[whole->line.length] = 0;
    int length = snprintf(due, sizeof due, "%% whole %s %s %" PRIu64 " bytes %" PRIu64 " sum %016" PRIx64 "\n", part, whole->picks ? "picks" : "ladders",
                          whole->ladders, whole->bytes, whole->sum);
    return (size_t)length == line.length && !memcmp(due, line.text, line.length);
}

/* Writes what lies between two places of a file to standard output. What was there when it was checked has to be there still. */
void copy_output(Output *output, uint64_t start, uint64_t bytes, uint64_t sum) {
    uint64_t left = bytes, found = EMPTY_SUM;
    size_t got = 1;
    if (fseeko(output->in, (off_t)start, SEEK_SET)) fail(output->name, "reading failed, the output is not complete");
    while (left && got) {
        got = fread(output->buffer, 1, left < sizeof output->buffer ? (size_t)left : sizeof output->buffer, output->in);
        found = add_to_sum(found, output->buffer, got);
        put(output->buffer, got);
        left -= got;
    }
    if (ferror(output->in)) fail(output->name, "reading failed, the output is not complete");
    if (left || found != sum) fail(output->name, "it has changed while it was read, the output is not complete");
}
