/* Files by their text. The cases of crates/test_files/stdin are put to both readers, to the search for the line that decides and to the comment lookup, of
 * the library and of the plain entries. Those of tests/compare/files.txt, which read with a cutoff or write a table, stand with what 01 and 02 ask for, in
 * the line below each, and are held to that too. The heads of the two files say how a case is written. Last, every two faults that a file can have, each in
 * both orders. In order: files and tables from their text, what reading and writing came to, the cases, the faults. */
#include "both.h"
#include <inttypes.h>
#include <stdio.h>
#include <stdlib.h>
#include <string.h>

#define ROOM 65537
#define LONGEST_CASE 4096

static uint8_t file[ROOM];

/* --- files and tables from their text */

static size_t put(size_t at, uint8_t byte) {
    if (at < ROOM) file[at] = byte;
    return at + 1;
}

/* The byte or escape at *text, `times` over; \c is a comment line of 1,024 bytes with its LF. */
static size_t put_item(size_t at, const char **text, long times) {
    static const char letters[] = "nrtfsz", bytes[] = "\n\r\t\f \0";
    char c = *(*text)++;
    bool comment = false;
    if (c == '\\') {
        c = *(*text)++;
        comment = c == 'c';
        const char *known = c ? strchr(letters, c) : NULL;
        if (known) c = bytes[known - letters];
    }
    for (; times > 0; times--) {
        for (int i = 0; comment && i < 1024; i++) at = put(at, '%');
        at = put(at, comment ? '\n' : (uint8_t)c);
    }
    return at;
}

/* The length of the file of a text. */
static size_t build(const char *text) {
    size_t at = 0;
    if (*text == '@' || *text == '$') {
        const char *banner = *text++ == '@' ? "%%MatrixMarket matrix coordinate pattern general\n" : "%%MatrixMarket matrix coordinate integer general\n";
        while (*banner) at = put(at, (uint8_t)*banner++);
    }
    while (*text) {
        long times = 1;
        if (text[0] == '\\' && text[1] >= '0' && text[1] <= '9') {
            times = strtol(text + 1, (char **)&text, 10);
            text++; /* the semicolon */
        }
        at = put_item(at, &text, times);
    }
    return at < ROOM ? at : ROOM;
}

/* G, L, then rows: G=ROW, *=ROW for every gauge, /=ROW for stairs that end with it. */
static void build_table(const char *text, uint64_t *table) {
    char *at;
    memset(table, 0, RG_TABLE_WORDS * sizeof *table);
    table[RG_TABLE_GAUGES] = strtoull(text, &at, 10);
    table[RG_TABLE_CASES] = strtoull(at, &at, 10);
    while (*at == ' ') {
        char how = at[1];
        uint64_t g = strtoull(how == '*' || how == '/' ? at + 1 : at, &at, 10);
        at = strchr(at, '=');
        uint64_t row = strtoull(at + 1, &at, 10);
        for (int i = 63; i >= 0; i--) {
            if (how == '*' || how == '/' || (uint64_t)i + 1 == g) table[RG_TABLE_ROWS + i] = row;
            if (how == '/') row = (row & (row - 1)) >> 1;
        }
    }
}

/* --- what a reading with a cutoff came to, as a line */

static int show_table(char *out, const uint64_t *table) {
    Set s = table_set(table);
    int pairs = size_of(&s), n = sprintf(out, "%d %d %d", (int)table[0], (int)table[1], pairs);
    if (pairs == 0 || pairs > 8) return n;
    n += sprintf(out + n, ",");
    for (int p = 0; p < 4096; p++)
        if (has(&s, p / 64 + 1, p % 64 + 1)) n += sprintf(out + n, " %d:%d", p / 64 + 1, p % 64 + 1);
    return n;
}

static int show_readings(char *out, const uint64_t *table, const int32_t *readings) {
    Set s = table_set(table);
    int n = 0;
    if (size_of(&s) > 8) return 0;
    n += sprintf(out, " with");
    for (int p = 0; p < 4096; p++)
        if (has(&s, p / 64 + 1, p % 64 + 1)) n += sprintf(out + n, " %d", (int)readings[p]);
        else if (readings[p]) n += sprintf(out + n, " stray %d", (int)readings[p]);
    return n;
}

static void measured(size_t length, uint64_t cutoff, const char *label, char *out) {
    uint64_t why = ask_read_test(file, length, cutoff);
    int n = 0;
    if (why) {
        sprintf(out, "refused %d: %s", (int)why, label);
        return;
    }
    n += sprintf(out, "%s ", given(1)[RG_TEST_KIND] == RG_INTEGER ? "integer" : "pattern");
    n += show_table(out + n, given(1) + RG_TEST_GAUGES);
    n += show_readings(out + n, given(1) + RG_TEST_GAUGES, (const int32_t *)(const void *)given_bytes(2));
    n += sprintf(out + n, "; at the cutoff ");
    n += show_table(out + n, given(3));
    sprintf(out + n, ": %s", label);
}

/* --- what writing a table came to, as a line and, where the file is shown, its lines */

/* The bytes that are no longer as they were lent. */
static size_t changed(const uint8_t *bytes, size_t n) {
    size_t count = 0;
    for (size_t i = 0; i < n; i++) count += bytes[i] != 0xd7;
    return count;
}

/* Writes to a buffer of which so many bytes are lent; the length of the file, which is then in `file`. */
static size_t written(const uint64_t *table, size_t room, char *out, int *n) {
    uint64_t why = ask_write(table, room);
    if (why) {
        *n = sprintf(out, "refused %d, changed %zu", (int)why, changed(given_bytes(1), room));
        return 0;
    }
    size_t length = (size_t)given(2)[0];
    *n = sprintf(out, "wrote %zu, changed %zu and %zu", length, changed(given_bytes(1), length), changed(given_bytes(1) + length, room - length));
    memcpy(file, given_bytes(1), length);
    return length;
}

static void wrote(char verb, const uint64_t *table, size_t room, const char *label, char *out) {
    int n;
    size_t length = written(table, room, out, &n);
    if (verb == 'w') {
        sprintf(out + n, ", of %zu bytes: %s", room, label);
    } else if (verb == 't') {
        ask_read(file, length);
        n += sprintf(out + n, ", read ");
        n += show_table(out + n, given(1));
        int differ = 0;
        for (int i = 0; i < 64; i++) differ += given(1)[RG_TABLE_ROWS + i] != table[RG_TABLE_ROWS + i];
        sprintf(out + n, ", differ %d: %s", differ, label);
    } else {
        n += sprintf(out + n, ": %s\n", label);
        memcpy(out + n, file, length);
        out[n + (int)length - 1] = 0; /* in place of the last LF */
    }
}

/* --- the cases */

/* A file to every entry that reads one, with comments and cutoffs of its own. */
static void every_reader(size_t n, uint64_t number) {
    static const uint64_t cutoffs[] = {1, 7, 1000000, 0, 1000001};
    ask_read(file, n);
    ask_locate(file, n, 0);
    ask_locate(file, n, 1);
    ask_locate(file, n, number);
    for (uint64_t k = 0; k <= 3; k++) ask_comment(file, n, k);
    ask_comment(file, n, number);
    ask_comment(file, n, UINT64_MAX);
    for (int i = 0; i < 5; i++) ask_read_test(file, n, cutoffs[i]);
    ask_read_test(file, n, number);
}

/* Whether the script goes on with these lines. */
static bool comes_next(FILE *script, const char *got) {
    static char due[LONGEST_CASE];
    bool same = true;
    while (got) {
        const char *end = strchr(got, '\n');
        size_t n = end ? (size_t)(end - got) : strlen(got);
        if (!fgets(due, sizeof due, script)) return false;
        due[strcspn(due, "\n")] = 0;
        same = same && strlen(due) == n && !memcmp(due, got, n);
        got = end ? end + 1 : NULL;
    }
    return same;
}

/* A line VERB [N]|LABEL|CONTENT of either script; what a verb of files.txt is due stands in the lines below. */
static void one_case(char *line, FILE *script) {
    static char got[LONGEST_CASE];
    char *label = strchr(line, '|'), *content = label ? strchr(label + 1, '|') : NULL, *space = strchr(line, ' ');
    if (!content) return;
    *content++ = 0;
    uint64_t number = space && space < label ? strtoull(space, NULL, 10) : 0;
    Table table;
    size_t n = strchr("wts", line[0]) ? 0 : build(content);
    if (n == 0 && strchr("wts", line[0])) build_table(content, table);
    else every_reader(n, number);
    if (!strchr("wtsam", line[0])) return;
    if (line[0] == 'a' && ask_read(file, n) == 0) memcpy(table, given(1), sizeof table);
    if (line[0] == 'm') measured(n, number, label + 1, got);
    else wrote(line[0], table, line[0] == 'w' ? (size_t)number : ROOM, label + 1, got);
    must(comes_next(script, got), got);
}

static void run_script(const char *name, int least) {
    static char line[LONGEST_CASE];
    FILE *script = fopen(name, "r");
    int cases = 0;
    must(script != NULL, name);
    while (script && fgets(line, sizeof line, script)) {
        line[strcspn(line, "\n")] = 0;
        if (!line[0] || line[0] == '#' || line[0] == '=') continue;
        one_case(line, script);
        cases++;
    }
    must(cases >= least, "the script has its cases");
    if (script) fclose(script);
}

/* --- every two faults, the one above and below the other */

static const char *const faults[] = {"1 1", "1 2", "", "x", "1", "1 1 1", "0 1", "3 1", "1 3", "1 1 1000001", "2 2 -1000001", "1 1 7", "2 1 -7", "1 1 +0",
                                     "1 1 1000000000", "%", " 2 2", "2\t2", "2 2 ", "\\1025;1", "\\1024;1", "1 1\\r",
                                     "999999999 1", "1\\v1", "2 2 -", "2 2 +-1"};
#define FAULTS (int)(sizeof faults / sizeof faults[0])

static void two_faults(void) {
    static const char *const sizes[] = {"2 2 2", "2 2 1", "2 2 0", "2 2 3", "0 2 2", "2 65 2", "2 2", "64 64 2", "2 2 2 2", "2 2 x"};
    static const char *const banners[] = {"@", "$", "x\\n"};
    char text[200];
    for (int kind = 0; kind < 3; kind++)
        for (int s = 0; s < 10; s++)
            for (int a = 0; a < FAULTS; a++)
                for (int b = 0; b < FAULTS; b++) {
                    const char *note = a % 2 ? "% note\\n" : "";
                    snprintf(text, sizeof text, "%s%s%s\\n%s\\n%s\\n", banners[kind], note, sizes[s], faults[a], faults[b]);
                    size_t n = build(text);
                    ask_read(file, n);
                    ask_locate(file, n, 0);
                    ask_locate(file, n - 1, 1);
                    ask_comment(file, n, (uint64_t)(b % 2 + 1));
                    ask_read_test(file, n, (uint64_t)(b % 5 ? b : 0));
                    ask_read_test(file, n - 1, 7);
                }
}

/* Memory too short ahead of every fault of a file. */
static void too_short(void) {
    for (short_piece = 1; short_piece < 4; short_piece++)
        for (int a = 0; a < FAULTS; a++) {
            char text[100];
            snprintf(text, sizeof text, "%s2 2 1\\n%s\\n", a % 2 ? "@" : "$", faults[a]);
            every_reader(build(text), 9);
            every_reader(0, 9);
        }
    short_piece = -1;
}

void files(void) {
    run_script("crates/test_files/stdin", 200);
    run_script("tests/compare/files.txt", 150);
    two_faults();
    too_short();
}
