/* The run beside the ladders of a list, which come in ascending order of their pick sequences. Each ladder that the run hands out is found among them or is
 * missing; each of them is one that the run hands out, or the same as the one before it, or none of the list that was asked for. Entries are told apart in
 * entry.c, and put in order in sorting.c where they are not. */
#include "planner.h"
#include <string.h>

/* The ladders that are missing are counted up to here, so that a check comes to its end on a table whose list does not. */
#ifndef MOST_MISSING
#define MOST_MISSING 100000000
#endif

/* The next ladder that the run hands out within the part; its end. */
static void advance(Course *course) {
    Run *run = &course->run;
    course->over = !next_ladder(course->request, run) || !starts_with(run->step + RG_STEP_PICKS, &course->part);
    if (!course->over) course->handed++;
    course->progress.ladders = course->handed;
    show_progress(&course->progress, run->words + RG_RUN_TABLE, course->whole);
}

/* Beside where a list begins, a run of all ladders of the same side and preference, which judges its entries, and the places in the preference. */
void prepare_course(Course *course) {
    const uint64_t *order = course->from.words + RG_RUN_ORDER;
    accept("planner", start_with(course->from.words + RG_RUN_TABLE, order, course->from.by_cases, false, &course->fresh));
    for (int i = 0; i < RG_ORDER_WORDS; i++)
        if (order[i]) course->place[order[i]] = (uint8_t)(i + 1);
    begin_progress(&course->progress);
}

/* The list that is asked for. */
void start_course(const Request *request, Course *course) {
    uint64_t table[RG_TABLE_WORDS];
    const char *part = request->option[PART];
    *course = (Course){.request = request, .picks = request->option[PICKS], .whole = !part && !request->option[NEEDED]};
    if (part) check_part_options(request);
    read_table(request, table);
    if (part) start_part(part, table, &course->part, &course->from);
    else start_run(request, table, &course->from);
    prepare_course(course);
}

/* From the front of the list. */
void begin_course(Course *course) {
    course->run = course->from;
    course->handed = course->matched = course->missing = 0;
    course->last.number = 0;
    course->stopped = false;
    advance(course);
}

/* Which of two pick sequences comes first, by the places of their numbers: below 0, 0 where they are the same, above 0. */
static int compare(const Course *course, const uint64_t *a, const uint64_t *b) {
    for (int i = 0; i < RG_NUMBERS_WORDS; i++)
        if (a[i] != b[i]) return course->place[a[i]] < course->place[b[i]] ? -1 : 1;
    return 0;
}

/* The ladder at which the run stands is not in the list. */
static void pass_missing(Course *course) {
    if (course->missing < FIRST_MISSING) memcpy(course->first[course->missing], course->run.step, sizeof course->run.step);
    course->missing++;
    advance(course);
    if (course->missing < MOST_MISSING) return;
    course->stopped = !course->over;
    course->over = true;
}

/* The ladder at which the run stands is this entry. */
static void match(Course *course, uint64_t number, uint64_t line) {
    memcpy(course->last.picks, course->run.step + RG_STEP_PICKS, sizeof course->last.picks);
    course->last.number = number;
    course->last.line = line;
    course->matched++;
    advance(course);
}

/* Whether typed picks are a sequence: the same numbers and no more. The zeros behind a sequence are no picks, so that a typed 0 is none of it. */
static bool same_picks(const Part *part, const uint64_t *sequence) {
    for (int i = 0; i < part->count; i++)
        if (!part->picks[i] || part->picks[i] != sequence[i]) return false;
    return part->count == RG_MOST || !sequence[part->count];
}

/* An entry as it was read: whether it is the ladder at which the run stands, by its set or by its picks. */
bool take_next(Course *course, const Found *found, uint64_t number, uint64_t line) {
    const uint64_t *step = course->run.step;
    if (course->over) return false;
    bool same = course->picks ? same_picks(&found->part, step + RG_STEP_PICKS) : !memcmp(step + RG_STEP_CHAIN, found->chain, sizeof found->chain);
    if (same) match(course, number, line);
    return same;
}

/* A ladder by its pick sequence. The run goes on to it; what it passes is missing. Where it stops on the way, nothing is known of the ladder. */
Fault take_ladder(Course *course, const uint64_t *picks, uint64_t number, uint64_t line) {
    int ahead = course->last.number ? compare(course, picks, course->last.picks) : 1;
    if (ahead == 0) return REPEATED;
    if (ahead < 0) return DESCENDS;
    while (!course->over && compare(course, course->run.step + RG_STEP_PICKS, picks) < 0) pass_missing(course);
    if (course->stopped) return STOPPED;
    if (!course->over && !compare(course, course->run.step + RG_STEP_PICKS, picks)) {
        match(course, number, line);
        return NO_FAULT;
    }
    memcpy(course->last.picks, picks, sizeof course->last.picks);
    course->last.number = number;
    course->last.line = line;
    return NOT_LISTED;
}

/* Behind the last entry all that the run still hands out is missing. */
void end_course(Course *course) {
    while (!course->over) pass_missing(course);
    end_progress(&course->progress);
}
