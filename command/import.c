/* import: what other programs export, turned into a file that is read here. Nothing of this is proved: it is text work ahead of the library, which writes the
 * result and refuses it by its own checks. Taken are `coordinate` and `array`; `pattern`, `integer` and `real`; `general`, `symmetric` and
 * `skew-symmetric`; a byte-order mark; any line ends and blanks. Readings are cut in decimal.c.
 *
 * A reading is cut towards zero. A gauge responds where the magnitude of its reading reaches the cutoff, a whole number; the magnitude cut reaches it exactly
 * where the magnitude itself does, so that the table of every cutoff stays. */
#define _POSIX_C_SOURCE 200809L /* strncasecmp */
#include "planner.h"
#include <inttypes.h>
#include <stdio.h>
#include <string.h>
#include <strings.h>

/* The longest file that is taken; the library's own are shorter, since its numbers are. */
#define IMPORTED ((size_t)4 << 20)

typedef struct {
    const char *name;
    Text rest;
    uint64_t line, wanted, listed;
    bool array, readings, symmetric, skew;
    uint64_t test[RG_TEST_WORDS];
    int32_t values[RG_READINGS];
} Import;

_Noreturn static void refuse_line(const Import *import, uint64_t why, const char *reason, Text field) {
    char room[QUOTED + 8], text[REASON];
    snprintf(text, sizeof text, "%s%s%s", field.text ? quoted(field, room) : "", field.text ? " " : "", reason);
    refuse_because(place_in(import->name, import->line), why, words_of(why), text);
}

static const Text none = {NULL, 0};

static bool is_word(Text text, const char *word) { return text.length == strlen(word) && !strncasecmp(text.text, word, text.length); }

/* Without a byte-order mark, and with LF for every line end; the length that is left. */
static size_t plain_lines(uint8_t *bytes, size_t length) {
    size_t from = length >= 3 && !memcmp(bytes, "\xef\xbb\xbf", 3) ? 3 : 0, to = 0;
    for (; from < length; from++) {
        if (bytes[from] == '\r' && from + 1 < length && bytes[from + 1] == '\n') continue;
        bytes[to++] = bytes[from] == '\r' ? '\n' : bytes[from];
    }
    return to;
}

/* The fields of the next line that is neither blank nor a comment; 0 at the end of the file. */
static size_t next_fields(Import *import, Text *fields) {
    Text line;
    while (cut_line(&import->rest, &line)) {
        size_t count = fields_in(line, fields, MOST_FIELDS);
        import->line++;
        if (count && line.text[0] != '%') return count;
    }
    import->line++;
    return 0;
}

static void read_banner(Import *import) {
    Text line = none, word[MOST_FIELDS];
    cut_line(&import->rest, &line);
    import->line = 1;
    size_t count = line.text ? fields_in(line, word, MOST_FIELDS) : 0;
    if (count < 5) refuse_line(import, RG_BANNER, "it has fewer than five words", none);
    import->array = is_word(word[2], "array");
    import->readings = !is_word(word[3], "pattern");
    import->skew = is_word(word[4], "skew-symmetric");
    import->symmetric = import->skew || is_word(word[4], "symmetric");
    if (!is_word(word[0], "%%MatrixMarket")) refuse_line(import, RG_BANNER, "stands where '%%MatrixMarket' is wanted", word[0]);
    if (!is_word(word[1], "matrix")) refuse_line(import, RG_BANNER, "is not imported", word[1]);
    if (!import->array && !is_word(word[2], "coordinate")) refuse_line(import, RG_BANNER, "is not imported", word[2]);
    if (import->readings && !is_word(word[3], "integer") && !is_word(word[3], "real") && !is_word(word[3], "double"))
        refuse_line(import, RG_BANNER, "is not imported", word[3]);
    if (!import->symmetric && !is_word(word[4], "general")) refuse_line(import, RG_BANNER, "is not imported", word[4]);
    if (import->array && !import->readings) refuse_line(import, RG_BANNER, "has no array", word[3]);
}

static uint64_t number_in(const Import *import, uint64_t why, Text field) {
    uint64_t number;
    if (!read_number(field.text, field.length, &number)) refuse_line(import, why, "is no number", field);
    return number;
}

/* How many readings an array has: every place, or of a symmetric one those of the lower triangle. */
static uint64_t places(const Import *import, uint64_t gauges, uint64_t cases) {
    if (!import->symmetric) return gauges * cases;
    return import->skew ? gauges * (gauges - 1) / 2 : gauges * (gauges + 1) / 2;
}

static void read_size(Import *import) {
    Text field[MOST_FIELDS];
    size_t count = next_fields(import, field), due = import->array ? 2 : 3;
    if (!count) refuse_line(import, RG_SIZE_LINE, "the file ends without one", none);
    if (count != due) refuse_line(import, RG_SIZE_LINE, import->array ? "an array has two" : "it has another number", none);
    uint64_t gauges = number_in(import, RG_SIZE_LINE, field[0]), cases = number_in(import, RG_SIZE_LINE, field[1]);
    if (gauges < 1 || gauges > RG_MOST) refuse_line(import, RG_SIZE, "gauges", field[0]);
    if (cases < 1 || cases > RG_MOST) refuse_line(import, RG_SIZE, "cases", field[1]);
    if (import->symmetric && gauges != cases) refuse_line(import, RG_SIZE, "a symmetric table has as many gauges as cases", none);
    import->test[RG_TEST_KIND] = import->readings ? RG_INTEGER : RG_PATTERN;
    import->test[RG_TEST_GAUGES] = gauges;
    import->test[RG_TEST_CASES] = cases;
    import->wanted = import->array ? places(import, gauges, cases) : number_in(import, RG_SIZE_LINE, field[2]);
}

static void set_place(Import *import, uint64_t g, uint64_t c, int32_t value) {
    uint64_t *row = &import->test[RG_TEST_ROWS + g - 1], bit = (uint64_t)1 << (c - 1);
    if (*row & bit) refuse_line(import, RG_REPEATED, import->symmetric ? "or its mirror image is listed already" : "", none);
    *row |= bit;
    import->values[(g - 1) * RG_MOST + (c - 1)] = value;
}

/* An entry, and in a symmetric table its mirror image. */
static void put_entry(Import *import, uint64_t g, uint64_t c, int32_t value) {
    if (g < 1 || g > import->test[RG_TEST_GAUGES] || c < 1 || c > import->test[RG_TEST_CASES]) refuse_line(import, RG_PLACE, "", none);
    if (import->skew && g == c) refuse_line(import, RG_PLACE, "a skew-symmetric table has no diagonal", none);
    if (import->listed++ == import->wanted) refuse_line(import, RG_NUMBER_OF_PAIRS, "this is one more", none);
    set_place(import, g, c, value);
    if (import->symmetric && g != c) set_place(import, c, g, import->skew ? -value : value);
}

static int32_t reading_in(const Import *import, Text field) {
    int64_t value;
    if (!cut_decimal(field, &value)) refuse_line(import, RG_ENTRY_LINE, "is no reading", field);
    if (value < -1000000 || value > 1000000) refuse_line(import, RG_BAD_READING, "is beyond that", field);
    return (int32_t)value;
}

static void read_coordinates(Import *import) {
    Text field[MOST_FIELDS];
    size_t count, due = import->readings ? 3 : 2;
    while ((count = next_fields(import, field))) {
        if (count != due) refuse_line(import, RG_ENTRY_LINE, import->readings ? "gauge, case and reading are wanted" : "gauge and case are wanted", none);
        uint64_t g = number_in(import, RG_ENTRY_LINE, field[0]), c = number_in(import, RG_ENTRY_LINE, field[1]);
        put_entry(import, g, c, import->readings ? reading_in(import, field[2]) : 0);
    }
}

/* An array goes case by case, of a symmetric one from the diagonal on, of a skew-symmetric one from below it. Every place is an entry, a zero too. */
static void read_array(Import *import) {
    Text field[MOST_FIELDS];
    uint64_t c = 1, g = import->skew ? 2 : 1;
    for (size_t count; (count = next_fields(import, field));) {
        if (count != 1) refuse_line(import, RG_ENTRY_LINE, "one reading a line is wanted", none);
        int32_t value = reading_in(import, field[0]);
        if (import->listed == import->wanted) refuse_line(import, RG_NUMBER_OF_PAIRS, "this is one more", none);
        put_entry(import, g, c, value);
        if (++g <= import->test[RG_TEST_GAUGES]) continue;
        c++;
        g = !import->symmetric ? 1 : import->skew ? c + 1 : c;
    }
}

int answer_import(const Request *request) {
    static uint8_t bytes[IMPORTED + 1], written[RG_TEST_BYTES];
    static Import import;
    uint64_t length[RG_ONE_WORDS];
    FILE *in = open_word(request->word[0]);
    import.name = name_of(request->word[0]);
    size_t read = fread(bytes, 1, sizeof bytes, in);
    if (ferror(in)) fail(import.name, "reading failed");
    if (read > IMPORTED) refuse_because(import.name, RG_LONG_FILE, "file longer than 4 MiB", "");
    import.rest = (Text){(const char *)bytes, plain_lines(bytes, read)};
    read_banner(&import);
    read_size(&import);
    if (import.array) read_array(&import);
    else read_coordinates(&import);
    if (import.listed != import.wanted) refuse_line(&import, RG_NUMBER_OF_PAIRS, "the file ends too early", none);
    accept(import.name, rg_write_test(import.test, RG_TEST_WORDS, import.values, RG_READINGS, written, RG_TEST_BYTES, length, RG_ONE_WORDS));
    put(written, (size_t)length[0]);
    return STATUS_DONE;
}
