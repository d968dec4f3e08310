/* `planner check` on every sub-list, repetition, exchange and damaged entry of the lists of all tables of up to 3 by 3, in both orders, as files and by picks:
 * what it writes and its exit status, beside those of plain.c. It is linked with the sources of the command, all but main.c, in one process, with standard
 * output in memory (as glibc lets it be put). The last line counts; the exit status is 0 where nothing differs. */
#define _POSIX_C_SOURCE 200809L /* open_memstream */
#include "../../command/planner.h"
#include "plain.h"
#include <stdlib.h>
#include <string.h>

#define MOST_TEXT 8192

static char *written; /* what the command writes, in memory */
static size_t written_length;
static unsigned long lists, tables, damaged, differences;
static Course course;

static void start(const Table *table) {
    static Request request;
    static const Command command = {.name = "check"};
    uint64_t words[RG_TABLE_WORDS] = {(uint64_t)table->gauges, (uint64_t)table->cases}, order[RG_ORDER_WORDS];
    for (int g = 0; g < SIDE; g++) words[RG_TABLE_ROWS + g] = table->pairs >> (SIDE * g) & 7;
    request.command = &command;
    course = (Course){.request = &request, .whole = true};
    plain_order(side_count(words, table->by_cases), order);
    accept("start", start_with(words, order, table->by_cases, false, &course.from));
    prepare_course(&course);
}

/* What the command says of a text. */
static int verdict_on(char *text, size_t length, bool picks) {
    static List list;
    rewind(stdout);
    memset(&list, 0, offsetof(List, buffer));
    list.at = list.end = 0;
    list.over = list.within = list.comment = false;
    list.passed = list.line = list.number = 0;
    list.name = "list";
    list.picks = course.picks = picks;
    list.again = true;
    list.start = -1;
    list.held = (uint8_t *)text;
    list.held_length = length;
    int status = check_list(&course, &list);
    put("", 1);
    fflush(stdout);
    return status;
}

static void try_list(const Table *table, const List3 *list, bool picks) {
    static char text[MOST_TEXT], due[MOST_TEXT];
    size_t length = write_list(table, list, picks, text);
    int status = due_verdict(table, list, picks, due), got = verdict_on(text, length, picks);
    lists++;
    if (status == got && !strcmp(written, due)) return;
    if (differences++ < 5) fprintf(stderr, "list:\n%sshould give %d:\n%sand gave %d:\n%s", text, status, due, got, written);
}

static List3 whole_list(const Table *table) {
    List3 list = {.count = table->count};
    for (int i = 0; i < table->count; i++) {
        list.entry[i] = (Entry3){.set = table->ladder[i], .gauges = table->gauges};
        memcpy(list.entry[i].picks, table->picks[i], sizeof table->picks[i]);
    }
    return list;
}

static void try_sublists(const Table *table, const List3 *whole, bool picks) {
    for (unsigned kept = 0; kept < 1u << whole->count; kept++) {
        List3 list = {.count = 0};
        for (int i = 0; i < whole->count; i++)
            if (kept >> i & 1) list.entry[list.count++] = whole->entry[i];
        try_list(table, &list, picks);
    }
}

static List3 with(const List3 *list, int at, const Entry3 *entry) {
    List3 out = *list;
    memmove(out.entry + at + 1, list->entry + at, (size_t)(list->count - at) * sizeof *entry);
    out.entry[at] = *entry;
    out.count++;
    return out;
}

/* Each entry once more at each place, and twice more. */
static void try_repetitions(const Table *table, const List3 *whole, bool picks) {
    for (int i = 0; i < whole->count; i++)
        for (int at = 0; at <= whole->count; at++) {
            List3 once = with(whole, at, &whole->entry[i]), twice = with(&once, (at * 3 + i) % once.count, &whole->entry[i]);
            try_list(table, &once, picks);
            try_list(table, &twice, picks);
        }
}

/* Two entries in each other's place, and then one of them once more or left out. */
static void try_exchanges(const Table *table, const List3 *whole, bool picks) {
    for (int i = 0; i < whole->count; i++)
        for (int j = i + 1; j < whole->count; j++) {
            List3 list = *whole;
            list.entry[i] = whole->entry[j];
            list.entry[j] = whole->entry[i];
            try_list(table, &list, picks);
            List3 more = with(&list, i, &whole->entry[i]);
            try_list(table, &more, picks);
            list.entry[j] = whole->entry[j];
            try_list(table, &list, picks);
        }
}

/* An entry with each place flipped, and of another number of gauges. */
static void damage_set(const Table *table, const List3 *whole, int i) {
    List3 list = *whole;
    for (int g = 0; g < table->gauges; g++)
        for (int c = 0; c < table->cases; c++) {
            list.entry[i].set = whole->entry[i].set ^ 1u << (SIDE * g + c);
            try_list(table, &list, false);
        }
    list.entry[i] = whole->entry[i];
    list.entry[i].gauges = table->gauges + 1;
    try_list(table, &list, false);
}

/* An entry in place of which every set of places stands. */
static void damage_wholly(const Table *table, const List3 *whole, Set places, int i) {
    List3 list = *whole;
    for (Set set = 0; set < 512; set++) {
        list.entry[i].set = set;
        if (!(set & ~places)) try_list(table, &list, false);
    }
}

/* A line of picks with each one left out or another number, one more, and without its last ones. */
static void damage_picks(const Table *table, const List3 *whole, int i) {
    int length = 0;
    while (whole->entry[i].picks[length]) length++;
    for (int at = 0; at <= length; at++) {
        for (int number = 1; number <= SIDE + 1; number++) {
            List3 list = *whole;
            list.entry[i].picks[at] = number;
            try_list(table, &list, true);
        }
        List3 list = *whole;
        for (int k = at; k <= SIDE; k++) list.entry[i].picks[k] = at < length ? 0 : list.entry[i].picks[k];
        try_list(table, &list, true);
    }
}

/* Every byte of a list of files, one after another, in place of itself something that no file has there: such a list is never complete. */
static void damage_bytes(const Table *table, const List3 *whole) {
    static char text[MOST_TEXT];
    size_t length = write_list(table, whole, false, text);
    for (size_t at = 0; at < length; at++) {
        char kept = text[at];
        text[at] = at % 2 ? '#' : '\x01';
        damaged++;
        if (verdict_on(text, length, false) != STATUS_NO && differences++ < 5) fprintf(stderr, "complete, with byte %zu changed:\n%s", at, text);
        text[at] = kept;
    }
}

static void try_table(int gauges, int cases, Set places, Set pairs, bool by_cases) {
    static Table table;
    make_table(&table, gauges, cases, pairs, by_cases);
    List3 whole = whole_list(&table);
    start(&table);
    tables++;
    for (int picks = 0; picks < 2; picks++) {
        try_sublists(&table, &whole, picks);
        try_repetitions(&table, &whole, picks);
        try_exchanges(&table, &whole, picks);
    }
    for (int i = 0; i < whole.count; i++) {
        damage_set(&table, &whole, i);
        damage_picks(&table, &whole, i);
    }
    if (by_cases) return;
    damage_wholly(&table, &whole, places, (int)pairs % whole.count);
    damage_bytes(&table, &whole);
}

int main(void) {
    FILE *out = stdout;
    stdout = open_memstream(&written, &written_length);
    if (!stdout) return 1;
    for (int shape = 0; shape < SIDE * SIDE; shape++) {
        int gauges = shape / SIDE + 1, cases = shape % SIDE + 1;
        Set places = 0;
        for (int g = 0; g < gauges; g++) places |= ((1u << cases) - 1) << (SIDE * g);
        for (Set pairs = 0; pairs < 512; pairs++) {
            if (pairs & ~places) continue;
            try_table(gauges, cases, places, pairs, false);
            try_table(gauges, cases, places, pairs, true);
        }
    }
    fprintf(out, "lists: %lu lists of %lu tables and sides, %lu with a byte changed, %lu differences\n", lists, tables, damaged, differences);
    return differences || fflush(out) ? 1 : 0;
}
