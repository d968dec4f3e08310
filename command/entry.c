/* What one entry of a list is, as the library judges it: a ladder, or which fault. Entries are split in entries.c; what a ladder is in the list is seen in
 * course.c. */
#include "planner.h"
#include <inttypes.h>
#include <stdio.h>
#include <string.h>

/* A set that the library has refused as a ladder: it is no chain, or one that a pair can be added to. */
static Fault fault_of_set(const uint64_t *table, const uint64_t *chain) {
    uint64_t answer[RG_ONE_WORDS];
    accept("planner", rg_judge_chain(table, RG_TABLE_WORDS, chain, RG_CHAIN_WORDS, answer, RG_ONE_WORDS));
    return answer[0] == RG_YES ? ONLY_CHAIN : NO_CHAIN;
}

/* The set of an entry that is a file; its refusal. */
static uint64_t read_set(const Entry *entry, uint64_t *chain) {
    uint64_t table[RG_TABLE_WORDS];
    uint64_t why = rg_read(entry->bytes, entry->length, table, RG_TABLE_WORDS);
    if (!why) chain_of_table(table, chain);
    return why;
}

static Fault judge_file(const Run *fresh, const uint64_t *chain, Found *found) {
    const uint64_t *table = fresh->words + RG_RUN_TABLE;
    found->why = sequence_of(fresh, chain, found->picks);
    if (!found->why) return NO_FAULT;
    if (found->why == RG_ROW_COUNT || found->why == RG_NOT_IN_TABLE) return NOT_OF_TABLE;
    if (found->why != RG_NO_LADDER) refuse("planner", found->why);
    return fault_of_set(table, chain);
}

static Fault judge_picks(const Run *fresh, const Part *part, Found *found) {
    Run run;
    found->why = ladder_of_picks(fresh, part, &run);
    if (found->why == RG_PAUSED) return NOT_OF_TABLE;
    if (found->why == NO_WHOLE_PICKS) {
        found->next = run.words[RG_RUN_PICKS + part->count];
        return ONLY_CHAIN;
    }
    accept("planner", found->why);
    memcpy(found->picks, run.step + RG_STEP_PICKS, sizeof found->picks);
    return NO_FAULT;
}

/* Reads an entry: the set of a file, the picks of a line. */
Fault read_entry(const Entry *entry, bool picks, Found *found) {
    if (!picks) found->why = read_set(entry, found->chain);
    else found->why = picks_of_entry(entry, &found->part) ? RG_ACCEPTED : NO_PICKS_LINE;
    return found->why ? UNREADABLE : NO_FAULT;
}

/* Judges an entry that was read: of a ladder its pick sequence is found. */
Fault judge_entry(const Run *fresh, bool picks, Found *found) {
    return picks ? judge_picks(fresh, &found->part, found) : judge_file(fresh, found->chain, found);
}

/* What is wrong with an entry that is no ladder, and the line that it is named with: where a file was refused, the line that decided; else the first of the
 * entry. */
static uint64_t say_fault(const uint64_t *table, bool picks, const Entry *entry, const Found *found, Fault fault, char *reason) {
    uint64_t line = 1;
    reason[0] = 0;
    if (fault == UNREADABLE && !picks) line = reason_of(entry->bytes, entry->length, found->why, SET_OF_PAIRS, reason);
    else if (fault == ONLY_CHAIN && picks) snprintf(reason, REASON, "pick %" PRIu64 " can be added", found->next);
    else if (fault == NOT_OF_TABLE && picks) snprintf(reason, REASON, "no ladder begins with these picks");
    else if (fault != UNREADABLE) reason_of_set(found->why, table, found->chain, reason);
    return entry->line + (line ? line - 1 : 0);
}

void put_fault(const char *name, const uint64_t *table, bool picks, const Entry *entry, const Found *found, Fault fault) {
    char reason[REASON];
    uint64_t line = say_fault(table, picks, entry, found, fault, reason);
    put_text("%s:%" PRIu64 ": entry %" PRIu64 ": %s", name, line, entry->number, fault_words(fault));
    if (fault == UNREADABLE) put_text(": refused %" PRIu64 ": %s", found->why, words_of(found->why));
    put_text("%s%s\n", reason[0] ? ": " : "", reason);
}

const char *fault_words(Fault fault) {
    static const char *const words[] = {[UNREADABLE] = "unreadable", [NOT_OF_TABLE] = "not of this table", [NO_CHAIN] = "no chain",
                                        [ONLY_CHAIN] = "a chain and no ladder", [REPEATED] = "repeated", [NOT_LISTED] = "a ladder of another list"};
    return words[fault];
}
