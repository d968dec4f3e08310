/* Parts of a list. A part is a pick sequence: the ladders whose own sequence begins with it. Its value is made from the fresh one by one pick after
 * another, each of which the library checks. Its line is
 *
 *     TABLE/SIDE/LADDERS/PREFERENCE/PICKS
 *
 * a checksum of the table in 16 hexadecimal digits; `gauges` or `cases`; `all` or `needed`; the preference as numbers with commas, or `plain`; the
 * picks likewise, or `-` where there are none. It has no blank and nothing that a shell looks at, so that it can be handed on as one word. */
#include "planner.h"
#include <inttypes.h>
#include <stdio.h>
#include <string.h>

#define LINE_FIELDS 5

/* FNV-1a: the sum of some bytes, and then of these behind them. It tells what was cut or mistaken for something else, and nothing of what was forged. */
uint64_t add_to_sum(uint64_t sum, const void *bytes, size_t length) {
    const uint8_t *at = bytes;
    for (size_t i = 0; i < length; i++) sum = (sum ^ at[i]) * 0x100000001b3u;
    return sum;
}

/* Over the table's words, low byte first. It tells a line of another table; whether picks fit the table is the library's to say. */
static uint64_t checksum(const uint64_t *table) {
    uint8_t bytes[8 * RG_TABLE_WORDS];
    for (size_t i = 0; i < sizeof bytes; i++) bytes[i] = (uint8_t)(table[i / 8] >> 8 * (i % 8));
    return add_to_sum(EMPTY_SUM, bytes, sizeof bytes);
}

/* The value of a part, from the fresh one pick by pick; the refusal where some pick is no candidate. */
uint64_t try_part(const Run *fresh, const Part *part, Run *run) {
    Run next = *fresh;
    uint64_t why = RG_ACCEPTED;
    *run = *fresh;
    for (int i = 0; i < part->count && !why; i++) {
        why = (run->by_cases ? rg_part_cases : rg_part_gauges)(run->words, RG_RUN_WORDS, part->picks[i], next.words, RG_RUN_WORDS);
        if (!why) *run = next;
    }
    return why;
}

void part_value(const char *subject, const Run *fresh, const Part *part, Run *run) { accept_picks(subject, try_part(fresh, part, run)); }

void candidates_of(const Run *run, uint64_t *numbers) {
    accept("planner", (run->by_cases ? rg_candidates_cases : rg_candidates_gauges)(run->words, RG_RUN_WORDS, numbers, RG_NUMBERS_WORDS));
}

/* The place of each number in the preference of a run, from 1. */
void places_of(const Run *run, uint8_t *place) {
    const uint64_t *order = run->words + RG_RUN_ORDER;
    for (int i = 0; i < RG_ORDER_WORDS; i++)
        if (order[i]) place[order[i]] = (uint8_t)(i + 1);
}

/* Which of two parts comes first in the list, by the places of their picks: below 0, 0 where they are the same, above 0. A beginning of another comes first. */
int compare_parts(const uint8_t *place, const Part *a, const Part *b) {
    for (int i = 0; i < a->count && i < b->count; i++)
        if (a->picks[i] != b->picks[i]) return place[a->picks[i]] < place[b->picks[i]] ? -1 : 1;
    return a->count < b->count ? -1 : a->count > b->count;
}

bool starts_with(const uint64_t *picks, const Part *part) {
    for (int i = 0; i < part->count; i++)
        if (picks[i] != part->picks[i]) return false;
    return true;
}

/* Whether the run stands within the part, by its own picks. As long as it does, every ladder that it handed out since the part's value is of the part;
 * where it does not, also with nothing handed out, none of the part comes later. */
bool within_part(const Run *run, const Part *part) { return run->words[RG_RUN_COUNT] >= part->count && starts_with(run->words + RG_RUN_PICKS, part); }

/* The line of a part of the run's list, as text with an end mark; whether the preference stands in it. */
void part_line(char *room, const Run *run, bool prefers, const Part *part) {
    const uint64_t *table = run->words + RG_RUN_TABLE;
    uint64_t picks[RG_NUMBERS_WORDS] = {0};
    int length = snprintf(room, PART_LINE, "%016" PRIx64 "/%s/%s/%s", checksum(table), run->by_cases ? "cases" : "gauges",
                          run->words[RG_RUN_OMIT] ? "needed" : "all", prefers ? "" : "plain");
    for (int i = 0; i < part->count; i++) picks[i] = part->picks[i];
    room += length;
    if (prefers) room += picks_text(run->words + RG_RUN_ORDER, room);
    *room++ = '/';
    room[picks_text(picks, room)] = 0;
}

void put_part(const Request *request, const Run *fresh, const Part *part) {
    char line[PART_LINE];
    part_line(line, fresh, request->option[PREFER], part);
    put_text("%s\n", line);
}

static bool fields_of(const char *line, Text *fields) {
    for (int i = 0; i < LINE_FIELDS; i++) {
        fields[i] = (Text){line, strcspn(line, "/")};
        line += fields[i].length;
        if (i < LINE_FIELDS - 1 && *line++ != '/') return false;
    }
    return *line == 0;
}

static bool is(Text field, const char *text) { return field.length == strlen(text) && !memcmp(field.text, text, field.length); }

/* One of two words; which it is. */
static bool one_of(Text field, const char *no, const char *yes, bool *which) {
    *which = is(field, yes);
    return *which || is(field, no);
}

static bool hexadecimal(Text field, uint64_t *number) {
    static const char digits[] = "0123456789abcdef";
    *number = 0;
    for (size_t i = 0; i < field.length; i++) {
        const char *digit = memchr(digits, field.text[i], 16);
        if (!digit) return false;
        *number = *number << 4 | (uint64_t)(digit - digits);
    }
    return field.length == 16;
}

/* The picks of a line, each a number that a table can have. */
static bool picks_of(Text field, Part *part) {
    if (!read_picks(field.text, field.length, part)) return false;
    for (int i = 0; i < part->count; i++)
        if (part->picks[i] > RG_MOST) return false;
    return true;
}

static bool preference_of(Text field, uint64_t n, uint64_t *order) {
    size_t count;
    plain_order(n, order);
    if (is(field, "plain")) return true;
    memset(order, 0, RG_ORDER_WORDS * sizeof *order);
    return read_numbers(field.text, field.length, order, &count) && count <= RG_ORDER_WORDS;
}

/* A sum as it is written, 16 digits. */
bool read_sum(const char *text, size_t length, uint64_t *sum) { return hexadecimal((Text){text, length}, sum); }

/* The last line of a part's output, with its end or without: `% whole LINE ladders N bytes B sum S`, or `picks` in place of `ladders`. */
bool read_whole(Text line, Whole *whole) {
    static const char *const words[] = {"%", "whole", NULL, NULL, NULL, "bytes", NULL, "sum"};
    enum { WORDS = 8, FIELDS = 9 };
    Text field[FIELDS + 1];
    while (line.length && (line.text[line.length - 1] == '\n' || line.text[line.length - 1] == '\r')) line.length--;
    if (fields_in(line, field, FIELDS + 1) != FIELDS) return false;
    for (int i = 0; i < WORDS; i++)
        if (words[i] && !is(field[i], words[i])) return false;
    whole->line = field[2];
    return one_of(field[3], "ladders", "picks", &whole->picks) && read_number(field[4].text, field[4].length, &whole->ladders) &&
           read_number(field[6].text, field[6].length, &whole->bytes) && read_sum(field[8].text, field[8].length, &whole->sum);
}

/* Whether a line that was read has a preference. */
bool line_prefers(const char *line) {
    Text field[LINE_FIELDS];
    return fields_of(line, field) && !is(field[3], "plain");
}

/* The part of a line, and the fresh run of the list that it is a part of; the refusal: 101, 102, then 27 by the library. */
uint64_t read_part(const char *line, const uint64_t *table, Part *part, Run *fresh) {
    Text field[LINE_FIELDS];
    uint64_t sum, order[RG_ORDER_WORDS];
    bool by_cases = false, needed = false;
    bool read = fields_of(line, field) && hexadecimal(field[0], &sum) && one_of(field[1], "gauges", "cases", &by_cases) &&
                one_of(field[2], "all", "needed", &needed) && preference_of(field[3], side_count(table, by_cases), order) && picks_of(field[4], part);
    if (!read) return NO_PART_LINE;
    return sum != checksum(table) ? (uint64_t)OTHER_TABLE : start_with(table, order, by_cases, needed, fresh);
}

/* The part of a line, and its value on a table: as above, then 15 by the library. */
void start_part(const char *line, const uint64_t *table, Part *part, Run *run) {
    Run fresh;
    accept(line, read_part(line, table, part, &fresh));
    part_value(line, &fresh, part, run);
}
