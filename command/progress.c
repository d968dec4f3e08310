/* How far a listing is, on standard error, where that is a terminal and standard output is none: on a terminal the list itself shows it. The first line
 * comes after a second, so that a short listing says nothing, and a new one in its place each second: the ladders so far, those of an earlier listing that
 * this one goes on from with them; how many of a hundred that are, where the number of all is known; and how many came in a second, here. */
#define _POSIX_C_SOURCE 200809L /* clock_gettime, isatty */
#include "planner.h"
#include <inttypes.h>
#include <stdio.h>
#include <time.h>
#include <unistd.h>

static int64_t milliseconds(void) {
    struct timespec now;
    return clock_gettime(CLOCK_MONOTONIC, &now) ? 0 : (int64_t)now.tv_sec * 1000 + now.tv_nsec / 1000000;
}

void begin_progress(Progress *progress) {
    *progress = (Progress){.shown = isatty(STDERR_FILENO) && !isatty(STDOUT_FILENO), .next = (int64_t)time(NULL) + 1, .began = milliseconds()};
}

/* How many ladders there are, where counting them takes no more calls than the greatest budget, some hundredths of a second. */
static void count_all(Progress *progress, const uint64_t *table) {
    uint64_t order[RG_ORDER_WORDS], count[RG_COUNT_WORDS];
    plain_order(table[RG_TABLE_GAUGES], order);
    progress->counted = !rg_count(table, RG_TABLE_WORDS, order, RG_ORDER_WORDS, RG_BUDGET, count, RG_COUNT_WORDS) && count[RG_COUNT_OUTCOME] == RG_COUNTED;
    progress->all = count[RG_COUNT_LADDERS];
}

static int percent(uint64_t part, uint64_t all) { return all ? (int)((double)part * 100.0 / (double)all) : 100; }

/* A line that is shorter than the one in whose place it stands covers it with blanks. */
static void print(Progress *progress) {
    char line[160];
    int64_t passed = milliseconds() - progress->began;
    double rate = (double)(progress->ladders - progress->before) * 1000.0 / (double)(passed > 0 ? passed : 1);
    int length = snprintf(line, sizeof line, "planner: %" PRIu64, progress->ladders);
    if (progress->counted) length += snprintf(line + length, sizeof line - (size_t)length, " of %" PRIu64, progress->all);
    length += snprintf(line + length, sizeof line - (size_t)length, " ladders so far");
    if (progress->counted) length += snprintf(line + length, sizeof line - (size_t)length, ", %d%%", percent(progress->ladders, progress->all));
    length += snprintf(line + length, sizeof line - (size_t)length, ", %.0f a second", rate);
    fprintf(stderr, "\r%-*s", progress->width, line);
    progress->width = length;
}

/* `whole` says that every ladder of the table is listed, so that their number is that of the list. */
void show_progress(Progress *progress, const uint64_t *table, bool whole) {
    if (!progress->shown || (int64_t)time(NULL) <= progress->next) return;
    if (!progress->started && whole) count_all(progress, table);
    progress->started = true;
    progress->next = (int64_t)time(NULL);
    print(progress);
}

void end_progress(Progress *progress) {
    if (!progress->started) return;
    print(progress);
    fputc('\n', stderr);
}
