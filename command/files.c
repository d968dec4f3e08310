/* What is read: a file by name or from standard input, and what it holds, a table or a chain; and how it is refused. */
#define _POSIX_C_SOURCE 200809L /* fileno, fstat, isatty */
#include "planner.h"
#include <errno.h>
#include <stdio.h>
#include <string.h>
#include <sys/stat.h>
#include <unistd.h>

static bool is_input(const char *word) { return !strcmp(word, "-"); }

const char *name_of(const char *word) { return is_input(word) ? "standard input" : word; }

static const char *why_not(void) {
    switch (errno) {
    case ENOENT: return "cannot be read: there is no such file";
    case EACCES: return "cannot be read: no permission";
    default: return "cannot be read";
    }
}

static FILE *open_named(const char *name) {
    struct stat about;
    FILE *in = fopen(name, "rb");
    if (!in) fail(name, why_not());
    if (!fstat(fileno(in), &about) && S_ISDIR(about.st_mode)) fail(name, "cannot be read: it is a directory");
    return in;
}

/* Standard input can be one of the files that a subcommand reads, and not two of them. */
static FILE *open_input(void) {
    static bool taken;
    if (taken) wrong_usage("standard input is one file, and cannot be two%s", "");
    taken = true;
    if (isatty(STDIN_FILENO)) fputs("planner: waiting for a file on the terminal; end it with Ctrl-D (planner --help says more)\n", stderr);
    return stdin;
}

FILE *open_word(const char *word) { return is_input(word) ? open_input() : open_named(word); }

void read_file(const char *word, File *file) {
    FILE *in = open_word(word);
    file->name = name_of(word);
    file->length = fread(file->bytes, 1, sizeof file->bytes, in);
    if (ferror(in)) fail(file->name, "reading failed");
    if (in != stdin) fclose(in);
}

/* A file that is refused is named with the line that decided, and with what stands there. */
void accept_file(const File *file, uint64_t why, Use use) {
    char reason[REASON];
    if (!why) return;
    uint64_t line = reason_of(file->bytes, file->length, why, use, reason);
    refuse_because(place_in(file->name, line), why, words_of_file(file->bytes, file->length, why), reason);
}

/* A set of pairs that is refused is named with the pairs that show it. */
void accept_set(const char *name, uint64_t why, const uint64_t *table, const uint64_t *chain) {
    char reason[REASON];
    if (!why) return;
    reason_of_set(why, table, chain, reason);
    refuse_because(name, why, words_of(why), reason);
}

/* The table of the first word: of a file of pairs, or with `--cutoff` of either kind. */
void read_table(const Request *request, uint64_t *table) {
    static File file;
    static uint64_t test[RG_TEST_WORDS];
    static int32_t readings[RG_READINGS];
    const char *text = request->option[CUTOFF];
    uint64_t cutoff = text ? number_of("--cutoff wants a number, not '%s'", text) : 0;
    read_file(request->word[0], &file);
    uint64_t why = text ? rg_read_test(file.bytes, file.length, cutoff, test, RG_TEST_WORDS, readings, RG_READINGS, table, RG_TABLE_WORDS)
                        : rg_read(file.bytes, file.length, table, RG_TABLE_WORDS);
    if (why == RG_CUTOFF) refuse(option_text(request, CUTOFF), why);
    accept_file(&file, why, text ? EITHER_KIND : TABLE_OF_PAIRS);
}

/* A chain is a file of pairs. */
void read_chain(const char *word, uint64_t *chain) {
    static File file;
    uint64_t table[RG_TABLE_WORDS];
    read_file(word, &file);
    accept_file(&file, rg_read(file.bytes, file.length, table, RG_TABLE_WORDS), SET_OF_PAIRS);
    chain_of_table(table, chain);
}
