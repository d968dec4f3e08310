/* check: whether a list that some lister wrote is the list of a table. It is said to be complete only where the run, called to its end, handed out as many
 * ladders as the list has entries, and each was one of them; so that no ladder is missing by what is promised of the run.
 * That entries and ladders are compared and counted rightly is this file's, and is tested and not proved.
 *
 * Entries come from entries.c and are judged by the library (entry.c); the run goes beside them (course.c). A list in the run's order is gone through once,
 * in fixed memory. Where an entry comes behind a later one, the list is read again and its ladders are sorted (sorting.c). */
#include "planner.h"
#include <inttypes.h>
#include <string.h>

/* A check: the list and the run beside it, how many entries have which fault; and of a list that is not in order the first entry that comes behind a later
 * one, up to which all faults are named already. */
typedef struct {
    List *list;
    Course *course;
    uint64_t entries, faults[FAULTS], named_from, line;
} Check;

/* A ladder that the run does not hand out, or not once more. */
static void name_ladder(Check *check, Fault fault, uint64_t number, uint64_t line) {
    const Course *course = check->course;
    check->faults[fault]++;
    if (number < check->named_from) return;
    put_text("%s:%" PRIu64 ": entry %" PRIu64 ": %s: ", check->list->name, line, number, fault_words(fault));
    if (fault == REPEATED) put_text("the same as entry %" PRIu64 ", line %" PRIu64 "\n", course->last.number, course->last.line);
    else put_text("%s\n", starts_with(course->last.picks, &course->part) ? "it holds no deciding pair" : "it is not of this part");
}

/* An entry that is no ladder. */
static void name_entry(Check *check, const Entry *entry, const Found *found, Fault fault) {
    check->faults[fault]++;
    if (entry->number < check->named_from) return;
    put_fault(check->list->name, check->course->from.words + RG_RUN_TABLE, check->list->picks, entry, found, fault);
}

/* One entry of a list in the run's order; false where it comes behind a later one. */
static bool take_entry(Check *check, const Entry *entry) {
    static Found found;
    Course *course = check->course;
    Fault fault = read_entry(entry, check->list->picks, &found);
    if (!fault && take_next(course, &found, entry->number, entry->line)) return true;
    if (!fault) fault = judge_entry(&course->fresh, check->list->picks, &found);
    if (fault) {
        name_entry(check, entry, &found, fault);
        return true;
    }
    fault = take_ladder(course, found.picks, entry->number, entry->line);
    if (fault && fault < FAULTS) name_ladder(check, fault, entry->number, entry->line);
    return fault != DESCENDS;
}

#define TO_SORT "to be sorted in memory: give it in that order"

_Noreturn static void too_long(const Check *check, const char *why) {
    static char text[200];
    snprintf(text, sizeof text, "entry %" PRIu64 " is not in the order of the run, and the list is too long %s", check->named_from, why);
    spent(place_in(check->list->name, check->line), text);
}

/* Whether the list can be sorted is said as soon as it has to be: of a file by its size and what its entries have had so far. */
static void see_whether_it_fits(const Check *check, const Records *records) {
    const List *list = check->list;
    uint64_t each = list->passed / list->number;
    if (!list->again) too_long(check, "to be read twice from a pipe: give it as a file, or in that order");
    if (list->start >= 0 && !records_fit(records, list->size / (each ? each : 1))) too_long(check, TO_SORT);
}

/* One entry of a list that is sorted first. */
static void keep_entry(Check *check, const Entry *entry, Records *records) {
    static Found found;
    Fault fault = read_entry(entry, check->list->picks, &found);
    if (!fault) fault = judge_entry(&check->course->fresh, check->list->picks, &found);
    if (fault) name_entry(check, entry, &found, fault);
    else if (!add_record(records, check->course, found.picks, entry)) too_long(check, TO_SORT);
}

static void take_records(Check *check, const Records *records) {
    uint64_t picks[RG_NUMBERS_WORDS], number, line;
    Course *course = check->course;
    for (size_t i = 0; i < records->count && !course->stopped; i++) {
        record_at(records, i, course->from.words + RG_RUN_ORDER, picks, &number, &line);
        Fault fault = take_ladder(course, picks, number, line);
        if (fault && fault < FAULTS) name_ladder(check, fault, number, line);
    }
}

/* From this entry on the list is in another order: what was found of it so far is named, and counted anew. */
static void check_sorted(Check *check, Entry *entry) {
    Records records;
    begin_records(&records, side_count(check->course->from.words + RG_RUN_TABLE, check->course->from.by_cases));
    memset(check->faults, 0, sizeof check->faults);
    check->named_from = entry->number;
    check->line = entry->line;
    see_whether_it_fits(check, &records);
    if (!rewind_list(check->list)) fail(check->list->name, "cannot be read again");
    while (next_entry(check->list, entry)) keep_entry(check, entry, &records);
    sort_records(&records);
    begin_course(check->course);
    take_records(check, &records);
    end_records(&records);
}

static void go_through(Check *check) {
    static Entry entry;
    bool ascends = true;
    begin_course(check->course);
    while (ascends && !check->course->stopped && next_entry(check->list, &entry)) ascends = take_entry(check, &entry);
    if (!ascends) check_sorted(check, &entry);
    check->entries = check->list->number;
    end_course(check->course);
}

static void put_missing(const Course *course) {
    uint64_t here = course->missing < FIRST_MISSING ? course->missing : FIRST_MISSING;
    if (!here) return;
    put_text("missing: %" PRIu64 " ladder%s%s", course->missing, course->missing == 1 ? "" : "s", course->stopped ? " or more" : "");
    if (course->missing > here) put_text(", the first %" PRIu64 " here and %" PRIu64 " more", here, course->missing - here);
    put_text("\n");
    for (uint64_t i = 0; i < here; i++) {
        if (course->picks) put_picks(course->first[i] + RG_STEP_PICKS);
        else put_chain(course->first[i] + RG_STEP_CHAIN, course->from.words[RG_RUN_TABLE + RG_TABLE_CASES]);
    }
}

/* The last line, where something is wrong: how many of what. */
static void put_faults(const Check *check) {
    const Course *course = check->course;
    const char *or_more = course->stopped ? " or more" : "";
    put_text("%s: %" PRIu64 "%s ladder%s, %" PRIu64 "%s entr%s: ", course->missing ? "not complete" : "not each once", course->handed, or_more,
             course->handed == 1 ? "" : "s", check->entries, or_more, check->entries == 1 ? "y" : "ies");
    put_text("%" PRIu64 "%s missing", course->missing, or_more);
    for (int fault = UNREADABLE; fault < FAULTS; fault++)
        if (check->faults[fault]) put_text(", %" PRIu64 " %s", check->faults[fault], fault_words(fault));
    put_text("\n");
}

/* The verdict on a list, written; the exit status. */
int check_list(Course *course, List *list) {
    Check check = {.list = list, .course = course};
    go_through(&check);
    if (!course->stopped && course->handed == course->matched && check.entries == course->matched) {
        put_text("complete: %" PRIu64 " ladder%s, each once\n", course->matched, course->matched == 1 ? "" : "s");
        return STATUS_DONE;
    }
    put_missing(course);
    put_faults(&check);
    return STATUS_NO;
}

int answer_check(const Request *request) {
    static List list;
    static Course course;
    start_course(request, &course);
    open_list(&list, request->words == 2 ? request->word[1] : "-", course.picks);
    int status = check_list(&course, &list);
    close_list(&list);
    return status;
}
