/* How the command ends where it does not come to its answer, and what it says then on standard error: a failure, wrong usage, a refusal by number and in
 * words, a budget used up. Each ends the process with its own exit status. */
#include "planner.h"
#include <inttypes.h>
#include <stdio.h>
#include <stdlib.h>
#include <string.h>

/* The subcommand asked for, once it is known: its name stands in what is said of usage. */
static const Command *asked;

void usage_of(const Command *command) { asked = command; }

/* The command's own refusals have their words here, those of the library in rg_words. The words stand until the next number is asked for. */
const char *words_of(uint64_t why) {
    static uint8_t words[RG_WORDS_BYTES];
    uint64_t length[RG_ONE_WORDS];
    switch (why) {
    case NO_PART_LINE: return "not a line of planner parts";
    case OTHER_TABLE: return "the part is one of another table";
    case NO_SUCH_LADDER: return "the list has no ladder of that number";
    case NO_PICKS_LINE: return "not a line of picks";
    case NO_WHOLE_PICKS: return "the picks are only the beginning of a ladder's";
    default: rg_words(why, words, RG_WORDS_BYTES, length, RG_ONE_WORDS); return (const char *)words;
    }
}

/* A line of a file, as a refusal names it; without a line the file alone. It is made for the words that end the command, and never freed. */
const char *place_in(const char *name, uint64_t line) {
    size_t room = strlen(name) + 24;
    char *text = line ? malloc(room) : NULL;
    if (!text) return name;
    snprintf(text, room, "%s:%" PRIu64, name, line);
    return text;
}

void fail(const char *subject, const char *what) {
    fprintf(stderr, "%s: %s\n", subject, what);
    exit(STATUS_FAILED);
}

void wrong_usage(const char *format, const char *what) {
    fprintf(stderr, "planner%s%s: ", asked ? " " : "", asked ? asked->name : "");
    fprintf(stderr, format, what);
    if (asked) {
        fprintf(stderr, "\nusage: planner %s ", asked->name);
        print_options(asked->options);
        fprintf(stderr, "%s    (planner %s --help says more)\n", asked->arguments, asked->name);
    } else {
        fprintf(stderr, "\nusage: planner SUBCOMMAND [OPTIONS] [FILE] ..    (planner --help says more)\n");
    }
    exit(STATUS_USAGE);
}

/* In words that fit the place, and behind them what is the matter, where there is more to say. */
void refuse_because(const char *subject, uint64_t why, const char *words, const char *reason) {
    fprintf(stderr, "%s: refused %" PRIu64 ": %s%s%s\n", subject, why, words, reason[0] ? ": " : "", reason);
    exit(STATUS_REFUSED);
}

void refuse(const char *subject, uint64_t why) { refuse_because(subject, why, words_of(why), ""); }

void spent(const char *subject, const char *what) {
    fprintf(stderr, "%s: spent: %s\n", subject, what);
    exit(STATUS_SPENT);
}

void accept(const char *subject, uint64_t why) {
    if (why) refuse(subject, why);
}
