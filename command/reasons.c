/* Why a file was refused, in words behind those of its number: what stands in the line that decided. The library has refused the file and says the line
 * (rg_locate); here is nothing but what a reader would see there. The first line has more to say, and is in banner.c. */
#include "planner.h"
#include <inttypes.h>
#include <stdio.h>
#include <string.h>

/* Cuts the first line from the front of a text, without its end; false where nothing is left. */
bool cut_line(Text *rest, Text *line) {
    const char *end = memchr(rest->text, '\n', rest->length);
    size_t length = end ? (size_t)(end - rest->text) : rest->length, passed = end ? length + 1 : length;
    *line = (Text){rest->text, length};
    if (end && length && rest->text[length - 1] == '\r') line->length--;
    rest->text += passed;
    rest->length -= passed;
    return passed > 0;
}

/* A line of a file, from 1; empty where there is none. */
static Text line_at(const uint8_t *file, size_t length, uint64_t number) {
    Text rest = {(const char *)file, length}, line = {(const char *)file, 0};
    for (; number > 0; number--)
        if (!cut_line(&rest, &line)) break;
    return line;
}

/* The fields of a line, up to `most`; how many there are. */
size_t fields_in(Text line, Text *fields, size_t most) {
    size_t count = 0, at = 0;
    while (at < line.length) {
        size_t start = at;
        while (at < line.length && line.text[at] != ' ' && line.text[at] != '\t') at++;
        if (at > start && count < most) fields[count] = (Text){line.text + start, at - start};
        count += at > start;
        at++;
    }
    return count;
}

/* Words of a file between quotes: the front of long ones, and a question mark for what a terminal would not show. */
const char *quoted(Text text, char *room) {
    size_t length = text.length < QUOTED ? text.length : QUOTED, at = 0;
    room[at++] = '\'';
    for (size_t i = 0; i < length; i++) room[at++] = text.text[i] >= ' ' && text.text[i] <= '~' ? text.text[i] : '?';
    memcpy(room + at, text.length > QUOTED ? "..'" : "'", text.length > QUOTED ? 4 : 2);
    return room;
}

/* Whether a field is a number as the file has it: 1 to 9 digits, of a reading with a sign ahead. */
static bool is_number(Text field, bool sign) {
    size_t start = sign && field.length && (field.text[0] == '-' || field.text[0] == '+');
    if (field.length == start || field.length - start > 9) return false;
    for (size_t i = start; i < field.length; i++)
        if (field.text[i] < '0' || field.text[i] > '9') return false;
    return true;
}

/* Of a line with the right number of fields the one that is no number. */
static void say_fields(char *reason, Text line, size_t wanted, bool sign) {
    Text fields[MOST_FIELDS];
    char room[QUOTED + 8];
    size_t count = fields_in(line, fields, MOST_FIELDS);
    if (count != wanted) {
        snprintf(reason, REASON, "it has %zu field%s", count, count == 1 ? "" : "s");
        return;
    }
    for (size_t i = 0; i < count; i++) {
        if (is_number(fields[i], sign && i == 2)) continue;
        snprintf(reason, REASON, "%s is no number of 1 to 9 digits", quoted(fields[i], room));
        return;
    }
}

static bool is_blank(Text line) {
    Text field;
    return !fields_in(line, &field, 1);
}

/* The fields of the size line, the first behind the banner that is neither blank nor a comment, and the lines behind it. */
static Text behind_size_line(const uint8_t *file, size_t length, Text *fields) {
    Text rest = {(const char *)file, length}, line;
    cut_line(&rest, &line);
    while (cut_line(&rest, &line))
        if (!is_blank(line) && line.text[0] != '%') break;
    fields_in(line, fields, MOST_FIELDS);
    return rest;
}

/* 9: at the end of the file pairs are missing, before it there is one too many. */
static void say_number(char *reason, const uint8_t *file, size_t length, Text at) {
    Text size[MOST_FIELDS] = {{0}}, rest = behind_size_line(file, length, size), line;
    char room[QUOTED + 8];
    uint64_t count = 0;
    while (cut_line(&rest, &line) && (is_blank(at) || line.text <= at.text)) count += !is_blank(line);
    snprintf(reason, REASON, "the size line says %s, and %s %" PRIu64, quoted(size[2], room), is_blank(at) ? "the file ends after" : "this is number", count);
}

static void say_place(char *reason, const uint8_t *file, size_t length, Text line, uint64_t why) {
    Text size[MOST_FIELDS] = {{0}}, fields[MOST_FIELDS] = {{0}};
    char room[4][QUOTED + 8];
    behind_size_line(file, length, size);
    fields_in(line, fields, MOST_FIELDS);
    const char *g = quoted(fields[0], room[0]), *c = quoted(fields[1], room[1]);
    if (why == RG_PLACE) snprintf(reason, REASON, "gauge %s, case %s in a table of %s by %s", g, c, quoted(size[0], room[2]), quoted(size[1], room[3]));
    else if (why == RG_BAD_READING) snprintf(reason, REASON, "it is %s", quoted(fields[2], room[2]));
    else if (why == RG_REPEATED) snprintf(reason, REASON, "gauge %s, case %s stands above already", g, c);
    else snprintf(reason, REASON, "it says %s by %s", g, c);
}

/* 6: a comment below the size line is the likeliest. */
static void say_entry(char *reason, Text line, bool integer) {
    if (line.length && line.text[0] == '%') snprintf(reason, REASON, "a comment stands above the size line, and not below it");
    else say_fields(reason, line, integer ? 3 : 2, integer);
}

/* Of a logger's file 6 speaks of three fields. */
const char *words_of_file(const uint8_t *file, size_t length, uint64_t why) {
    return why == RG_ENTRY_LINE && is_integer(file, length) ? "entry line not three fields" : words_of(why);
}

/* The reason of a refusal, empty where its words are enough; and the line that it is about. `use` says what the file is read for. */
uint64_t reason_of(const uint8_t *file, size_t length, uint64_t why, Use use, char *reason) {
    uint64_t line[RG_ONE_WORDS] = {0};
    reason[0] = 0;
    if (why > RG_NUMBER_OF_PAIRS && why != RG_BAD_READING) return 0;
    accept("planner", rg_locate(file, length, use == EITHER_KIND, line, RG_ONE_WORDS));
    Text text = line_at(file, length, line[0]);
    if (why == RG_BANNER) say_banner(reason, file, length, use);
    if (why == RG_LONG_LINE) snprintf(reason, REASON, "it has %zu", text.length);
    if (why == RG_SIZE_LINE && !text.length) snprintf(reason, REASON, "the file ends without one");
    if (why == RG_SIZE_LINE && text.length) say_fields(reason, text, 3, false);
    if (why == RG_ENTRY_LINE) say_entry(reason, text, is_integer(file, length));
    if (why == RG_PLACE || why == RG_BAD_READING || why == RG_REPEATED || why == RG_SIZE) say_place(reason, file, length, text, why);
    if (why == RG_NUMBER_OF_PAIRS) say_number(reason, file, length, text);
    return line[0];
}
