/* Why a first line is not the banner: which of its words is wrong, and what to do. The library has refused it. */
#define _POSIX_C_SOURCE 200809L /* strncasecmp */
#include "planner.h"
#include <stdio.h>
#include <string.h>
#include <strings.h>

#define MARK "%%MatrixMarket"
#define IMPORT "planner import turns it into a file that is read here"

static bool is_word(Text text, const char *word) { return text.length == strlen(word) && !strncasecmp(text.text, word, text.length); }

/* The words of a first line. */
static size_t words_in(const uint8_t *file, size_t length, Text *line, Text *fields) {
    Text rest = {(const char *)file, length};
    cut_line(&rest, line);
    return fields_in(*line, fields, MOST_FIELDS);
}

/* Whether a file that was read is a logger's. */
bool is_integer(const uint8_t *file, size_t length) {
    Text line, fields[MOST_FIELDS];
    return words_in(file, length, &line, fields) > 3 && is_word(fields[3], "integer");
}

/* The five words; and what import takes in place of them. */
static const char *const words[] = {MARK, "matrix", "coordinate", "pattern", "general"};
#define WORDS (sizeof words / sizeof words[0])
static const char *const others[] = {"array", "real", "double", "symmetric", "skew-symmetric"};

static bool is_imported(Text word) {
    for (size_t i = 0; i < sizeof others / sizeof others[0]; i++)
        if (is_word(word, others[i])) return true;
    return false;
}

/* The first keeps its spelling; the others may be in capitals. */
static bool is_right(Text word, size_t at, Use use) {
    if (at == 0) return word.length == strlen(MARK) && !memcmp(word.text, MARK, word.length);
    return is_word(word, words[at]) || (at == 3 && use == EITHER_KIND && is_word(word, "integer"));
}

/* What to do about a word that is not the one wanted. */
static void say_word(char *reason, Text word, size_t at, Use use) {
    char room[QUOTED + 8];
    bool import = is_imported(word);
    if (at == 3 && is_word(word, "integer"))
        snprintf(reason, REASON, "'integer' is a logger's file%s", use == TABLE_OF_PAIRS ? ": give --cutoff N" : ", and pairs are wanted");
    else snprintf(reason, REASON, "%s stands where '%s' is wanted%s%s", quoted(word, room), words[at], import ? ": " : "", import ? IMPORT : "");
}

/* All words are right, and still it is not the banner: blanks. */
static void say_blanks(char *reason, Text line) {
    char first = line.text[0], last = line.text[line.length - 1];
    bool ahead = first == ' ' || first == '\t', behind = last == ' ' || last == '\t';
    const char *wrong = ahead ? "a blank stands ahead of it" : behind ? "a blank stands behind it" : "one space stands between two words, and no tab";
    snprintf(reason, REASON, "%s", wrong);
}

/* What is wrong with the whole of it. */
static const char *wrong_at_all(const uint8_t *file, size_t length, Text line, size_t count) {
    if (!length) return "the file is empty";
    if (length >= 3 && !memcmp(file, "\xef\xbb\xbf", 3)) return "a byte-order mark stands ahead of it: " IMPORT;
    if (memchr(line.text, '\r', line.length)) return "a line ends with CR alone: " IMPORT;
    return count ? NULL : "it is blank";
}

void say_banner(char *reason, const uint8_t *file, size_t length, Use use) {
    Text line, fields[MOST_FIELDS];
    size_t count = words_in(file, length, &line, fields), at = 0;
    const char *wrong = wrong_at_all(file, length, line, count);
    while (at < count && at < WORDS && is_right(fields[at], at, use)) at++;
    if (wrong) snprintf(reason, REASON, "%s", wrong);
    else if (at < WORDS && at < count) say_word(reason, fields[at], at, use);
    else if (at < WORDS) snprintf(reason, REASON, "'%s' is missing", words[at]);
    else if (count > WORDS) snprintf(reason, REASON, "it goes on behind 'general'");
    else say_blanks(reason, line);
}
