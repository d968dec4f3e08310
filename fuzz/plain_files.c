/* The file, line by line, and recorded tests. First lines and fields, then the reader, the writer, the tests, and the entries. */
#include "plain.h"
#include <stdio.h>
#include <stdlib.h>
#include <string.h>

/* A line: where it starts, its bytes without its end, and where the next one starts. */
typedef struct {
    size_t start, length, next;
} Line;

/* What a file has come to, line by line. */
typedef struct {
    Test test;
    bool sized;
    uint64_t due, found;
    uint64_t comments, wanted;
    uint64_t line;
    Line comment;
} Reading;

/* A line ends with LF, or CR LF, or the end of the file. */
static Line line_at(const uint8_t *file, size_t n, size_t start) {
    Line line = {start, 0, n};
    size_t end = start;
    while (end < n && file[end] != '\n') end++;
    line.length = end - start;
    if (end < n) {
        line.next = end + 1;
        if (line.length && file[end - 1] == '\r') line.length--;
    }
    return line;
}

static bool blank(uint8_t b) { return b == ' ' || b == '\t'; }

/* The next field of the line, from *at on; its length, 0 where there is none. */
static size_t field(const uint8_t *text, size_t n, size_t *at) {
    while (*at < n && blank(text[*at])) ++*at;
    size_t end = *at;
    while (end < n && !blank(text[end])) end++;
    return end - *at;
}

/* 1 to 9 digits. */
static bool number(const uint8_t *text, size_t n, int64_t *value) {
    *value = 0;
    for (size_t i = 0; i < n; i++) {
        if (text[i] < '0' || text[i] > '9') return false;
        if (i < 9) *value = *value * 10 + (text[i] - '0');
    }
    return n >= 1 && n <= 9;
}

/* The same behind an optional sign. */
static bool signed_number(const uint8_t *text, size_t n, int64_t *value) {
    bool sign = n > 0 && (text[0] == '+' || text[0] == '-');
    if (!number(text + sign, n - sign, value)) return false;
    if (sign && text[0] == '-') *value = -*value;
    return true;
}

/* Whether a line has exactly so many fields; the third is signed where the caller says so. */
static bool fields(const uint8_t *text, size_t n, int count, bool sign, int64_t *values) {
    size_t at = 0;
    for (int i = 0; i < count; i++) {
        size_t length = field(text, n, &at);
        if (!(sign && i == 2 ? signed_number : number)(text + at, length, &values[i])) return false;
        at += length;
    }
    return field(text, n, &at) == 0;
}

static bool is_banner(const uint8_t *text, size_t n, const char *kind) {
    char banner[64];
    size_t length = (size_t)sprintf(banner, "%%%%MatrixMarket matrix coordinate %s general", kind);
    if (n != length || memcmp(text, "%%MatrixMarket", 14)) return false;
    for (size_t i = 14; i < n; i++) {
        uint8_t b = text[i];
        if (b >= 'A' && b <= 'Z') b = (uint8_t)(b - 'A' + 'a');
        if (b != (uint8_t)banner[i]) return false;
    }
    return true;
}

static uint64_t size_line(Reading *r, const uint8_t *text, size_t n) {
    int64_t v[3];
    if (!fields(text, n, 3, false, v)) return 4;
    if (v[0] < 1 || v[0] > 64 || v[1] < 1 || v[1] > 64) return 5;
    r->sized = true;
    r->test.gauges = (uint64_t)v[0];
    r->test.cases = (uint64_t)v[1];
    r->due = (uint64_t)v[2];
    return 0;
}

static uint64_t entry_line(Reading *r, const uint8_t *text, size_t n) {
    int64_t v[3] = {0, 0, 0};
    bool integer = r->test.kind == RG_INTEGER;
    if (!fields(text, n, integer ? 3 : 2, true, v)) return 6;
    if (v[0] < 1 || v[0] > (int64_t)r->test.gauges || v[1] < 1 || v[1] > (int64_t)r->test.cases) return 7;
    if (v[2] < -1000000 || v[2] > 1000000) return 20;
    if (has(&r->test.entries, (int)v[0], (int)v[1])) return 8;
    if (r->found == r->due) return 9;
    r->found++;
    add(&r->test.entries, (int)v[0], (int)v[1]);
    r->test.readings[(v[0] - 1) * 64 + (v[1] - 1)] = (int32_t)v[2];
    return 0;
}

static bool all_blank(const uint8_t *text, size_t n) {
    size_t at = 0;
    return field(text, n, &at) == 0;
}

/* A line behind the first one. */
static uint64_t later_line(Reading *r, const uint8_t *file, Line line) {
    const uint8_t *text = file + line.start;
    if (line.length > 1024) return 3;
    if (!r->sized && line.length && text[0] == '%') {
        if (++r->comments == r->wanted) r->comment = line;
        return 0;
    }
    if (all_blank(text, line.length)) return 0;
    return r->sized ? entry_line(r, text, line.length) : size_line(r, text, line.length);
}

/* Reads a file; `wanted` of the reading is set by the caller. `line` is left at the number of the line that was looked at last, one higher at the end. */
static uint64_t read_file(Reading *r, const uint8_t *file, size_t n, bool integer_too) {
    if (n > 65536) return 1;
    r->line = 1;
    if (n == 0) return 2;
    Line line = line_at(file, n, 0);
    r->test.kind = is_banner(file, line.length, "pattern") ? RG_PATTERN : RG_INTEGER;
    if (r->test.kind == RG_INTEGER && !(integer_too && is_banner(file, line.length, "integer"))) return 2;
    while (line.next < n) {
        line = line_at(file, n, line.next);
        r->line++;
        uint64_t why = later_line(r, file, line);
        if (why) return why;
    }
    r->line++;
    if (!r->sized) return 4;
    return r->found < r->due ? 9 : 0;
}

uint64_t plain_read(const uint8_t *file, size_t file_n, uint64_t *table, size_t table_n) {
    if (table_n < 66) return 100;
    Reading *r = calloc(1, sizeof *r);
    uint64_t why = read_file(r, file, file_n, false);
    if (!why) put_table(table, r->test.gauges, r->test.cases, &r->test.entries);
    free(r);
    return why;
}

/* A pair exists when the magnitude of the reading reaches the cutoff; of a pattern test, where there is an entry. */
static Set set_at(const Test *test, uint64_t cutoff) {
    Set s = {{0}};
    for (int g = 1; g <= 64; g++)
        for (int c = 1; test->entries.rows[g - 1] && c <= 64; c++) {
            if (!has(&test->entries, g, c)) continue;
            int64_t v = test->readings[(g - 1) * 64 + (c - 1)];
            if (test->kind == RG_PATTERN || (uint64_t)(v < 0 ? -v : v) >= cutoff) add(&s, g, c);
        }
    return s;
}

uint64_t plain_read_test(const uint8_t *file, size_t file_n, uint64_t cutoff, uint64_t *test, size_t test_n, int32_t *readings, size_t readings_n,
                         uint64_t *table, size_t table_n) {
    if (test_n < 67 || readings_n < 4096 || table_n < 66) return 100;
    if (cutoff < 1 || cutoff > 1000000) return 21;
    Reading *r = calloc(1, sizeof *r);
    uint64_t why = read_file(r, file, file_n, true);
    if (!why) {
        test[RG_TEST_KIND] = r->test.kind;
        put_table(test + RG_TEST_GAUGES, r->test.gauges, r->test.cases, &r->test.entries);
        memcpy(readings, r->test.readings, sizeof r->test.readings);
        Set s = set_at(&r->test, cutoff);
        put_table(table, r->test.gauges, r->test.cases, &s);
    }
    free(r);
    return why;
}

uint64_t plain_locate(const uint8_t *file, size_t file_n, uint64_t either, uint64_t *line, size_t line_n) {
    if (line_n < 1) return 100;
    Reading *r = calloc(1, sizeof *r);
    line[0] = read_file(r, file, file_n, either != 0) ? r->line : 0;
    free(r);
    return 0;
}

uint64_t plain_comment(const uint8_t *file, size_t file_n, uint64_t k, uint64_t *span, size_t span_n) {
    if (span_n < 2) return 100;
    Reading *r = calloc(1, sizeof *r);
    r->wanted = k;
    uint64_t why = read_file(r, file, file_n, true);
    if (!why && (k == 0 || k > r->comments)) why = 17;
    if (!why) {
        span[0] = r->comment.start;
        span[1] = r->comment.length;
    }
    free(r);
    return why;
}

/* The file of a test that is not refused; its length. */
static size_t file_of(const Test *test, char *out) {
    bool integer = test->kind == RG_INTEGER;
    size_t n = (size_t)sprintf(out, "%%%%MatrixMarket matrix coordinate %s general\n", integer ? "integer" : "pattern");
    n += (size_t)sprintf(out + n, "%d %d %d\n", (int)test->gauges, (int)test->cases, size_of(&test->entries));
    for (int g = 1; g <= 64; g++)
        for (int c = 1; c <= 64; c++) {
            if (!has(&test->entries, g, c)) continue;
            n += (size_t)sprintf(out + n, "%d %d", g, c);
            if (integer) n += (size_t)sprintf(out + n, " %d", test->readings[(g - 1) * 64 + (c - 1)]);
            out[n++] = '\n';
        }
    return n;
}

static uint64_t put_file(const Test *test, uint8_t *bytes, size_t bytes_n, uint64_t *length) {
    char *text = malloc(RG_TEST_BYTES + 1);
    size_t n = file_of(test, text);
    if (n <= bytes_n) {
        memcpy(bytes, text, n);
        length[0] = n;
    }
    free(text);
    return n <= bytes_n ? 0 : 16;
}

uint64_t plain_write(const uint64_t *table, size_t table_n, uint8_t *bytes, size_t bytes_n, uint64_t *length, size_t length_n) {
    if (table_n < 66 || length_n < 1) return 100;
    uint64_t why = table_refusal(table);
    if (why) return why;
    Test test = {.kind = RG_PATTERN, .gauges = table[RG_TABLE_GAUGES], .cases = table[RG_TABLE_CASES], .entries = table_set(table)};
    return put_file(&test, bytes, bytes_n, length);
}

/* 10; 11; 20 of a test. */
uint64_t test_refusal(const uint64_t *test, const int32_t *readings) {
    uint64_t why = table_refusal(test + RG_TEST_GAUGES);
    if (why == 10) return 10;
    if (test[RG_TEST_KIND] != RG_PATTERN && test[RG_TEST_KIND] != RG_INTEGER) return 11;
    if (why) return why;
    Set entries = table_set(test + RG_TEST_GAUGES);
    for (int i = 0; i < 4096; i++)
        if (readings[i] && (test[RG_TEST_KIND] == RG_PATTERN || !has(&entries, i / 64 + 1, i % 64 + 1))) return 11;
    for (int i = 0; i < 4096; i++)
        if (readings[i] < -1000000 || readings[i] > 1000000) return 20;
    return 0;
}

static Test test_of(const uint64_t *words, const int32_t *readings) {
    Test test = {.kind = words[RG_TEST_KIND], .gauges = words[RG_TEST_GAUGES], .cases = words[RG_TEST_CASES]};
    test.entries = table_set(words + RG_TEST_GAUGES);
    memcpy(test.readings, readings, sizeof test.readings);
    return test;
}

uint64_t plain_write_test(const uint64_t *words, size_t words_n, const int32_t *readings, size_t readings_n, uint8_t *bytes, size_t bytes_n,
                          uint64_t *length, size_t length_n) {
    if (words_n < 67 || readings_n < 4096 || length_n < 1) return 100;
    uint64_t why = test_refusal(words, readings);
    if (why) return why;
    Test test = test_of(words, readings);
    return put_file(&test, bytes, bytes_n, length);
}

/* the same kind, shape, entries and readings. */
uint64_t plain_equal(const uint64_t *a, size_t a_n, const int32_t *readings_a, size_t readings_a_n, const uint64_t *b, size_t b_n,
                     const int32_t *readings_b, size_t readings_b_n, uint64_t *answer, size_t answer_n) {
    if (a_n < 67 || readings_a_n < 4096 || b_n < 67 || readings_b_n < 4096 || answer_n < 1) return 100;
    uint64_t why = test_refusal(a, readings_a);
    if (!why) why = test_refusal(b, readings_b);
    if (why) return why;
    answer[0] = !memcmp(a, b, 67 * sizeof *a) && !memcmp(readings_a, readings_b, 4096 * sizeof *readings_a);
    return 0;
}
