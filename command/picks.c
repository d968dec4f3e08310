/* Pick sequences: numbers with commas between them, or `-` where there is none; and ladder: the ladder of one, or of each line of standard input. Which
 * sequences a table leads to, and which ladder one is of, the library says. */
#include "planner.h"
#include <inttypes.h>
#include <string.h>

/* Up to 64 numbers. A number that no table has stands for every one above it: the library refuses it. */
bool read_picks(const char *text, size_t length, Part *part) {
    uint64_t numbers[RG_ORDER_WORDS];
    size_t count = 0;
    bool none = length == 1 && text[0] == '-';
    if (!none && (!read_numbers(text, length, numbers, &count) || count > RG_MOST)) return false;
    part->count = (uint8_t)count;
    for (size_t i = 0; i < count; i++) part->picks[i] = (uint8_t)(numbers[i] > RG_MOST ? RG_MOST + 1 : numbers[i]);
    return true;
}

/* Of picks 15 says that the table does not lead to them. */
void accept_picks(const char *subject, uint64_t why) {
    if (why == RG_PAUSED) refuse_because(subject, why, words_of(why), "no ladder begins with these picks");
    accept(subject, why);
}

/* Without printf: a list has as many sequences as ladders. A number has two digits at most. The text has no end mark; its length. */
size_t picks_text(const uint64_t *picks, char *text) {
    size_t length = 0;
    for (int i = 0; i < RG_NUMBERS_WORDS && picks[i]; i++) {
        if (i) text[length++] = ',';
        if (picks[i] > 9) text[length++] = (char)('0' + picks[i] / 10 % 10);
        text[length++] = (char)('0' + picks[i] % 10);
    }
    if (!length) text[length++] = '-';
    return length;
}

void put_picks(const uint64_t *picks) {
    char line[PICKS_TEXT + 1];
    size_t length = picks_text(picks, line);
    line[length++] = '\n';
    put(line, length);
}

/* The picks lead to a value from which one move hands their ladder out: RG_PAUSED where they do not, NO_WHOLE_PICKS where the move picks one more. The
 * ladder and its sequence are in the step of the run. */
uint64_t ladder_of_picks(const Run *fresh, const Part *part, Run *run) {
    uint64_t why = try_part(fresh, part, run);
    if (why) return why;
    why = (run->by_cases ? rg_run_cases : rg_run_gauges)(run->words, RG_RUN_WORDS, 1, run->step, RG_STEP_WORDS);
    if (why) return why;
    return run->step[RG_STEP_OUTCOME] == RG_HANDED_OUT ? RG_ACCEPTED : NO_WHOLE_PICKS;
}

/* The text of a line of picks: without its end, and without blanks around it. */
static const char *trimmed(const Entry *entry, size_t *length) {
    const char *text = (const char *)entry->bytes;
    *length = entry->length;
    while (*length && memchr(" \t\r\n", text[*length - 1], 4)) --*length;
    for (; *length && memchr(" \t", *text, 2); --*length) text++;
    return text;
}

/* A line of picks; false for anything else, one that was too long to be kept too. */
bool picks_of_entry(const Entry *entry, Part *part) {
    size_t length;
    const char *text = trimmed(entry, &length);
    return entry->length <= RG_FILE_BYTES && read_picks(text, length, part);
}

static uint64_t put_ladder(const Run *fresh, const Part *part) {
    const uint64_t *table = fresh->words + RG_RUN_TABLE;
    Run run;
    uint64_t why = ladder_of_picks(fresh, part, &run);
    if (!why) put_chain(run.step + RG_STEP_CHAIN, table[RG_TABLE_CASES]);
    return why;
}

static void put_ladders(const char *word, const Run *fresh) {
    static List list;
    static Entry entry;
    Part part;
    open_list(&list, word, true);
    while (next_entry(&list, &entry)) {
        uint64_t why = picks_of_entry(&entry, &part) ? put_ladder(fresh, &part) : NO_PICKS_LINE;
        if (why) accept_picks(place_in(list.name, entry.line), why);
    }
    close_list(&list);
}

int answer_ladder(const Request *request) {
    uint64_t table[RG_TABLE_WORDS];
    bool one = request->words == 2 && strcmp(request->word[1], "-");
    Run fresh;
    Part part;
    if (one && !read_picks(request->word[1], strlen(request->word[1]), &part))
        wrong_usage("picks are up to 64 numbers with commas between them, as 3,1,2, not '%s'", request->word[1]);
    read_table(request, table);
    start_run(request, table, &fresh);
    if (one) accept_picks(request->word[1], put_ladder(&fresh, &part));
    else put_ladders("-", &fresh);
    return STATUS_DONE;
}
