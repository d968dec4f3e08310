/* The words of a subcommand: options, which may stand anywhere ahead of `--`, and arguments. What stands in arguments is looked at where it is used. */
#include "planner.h"
#include <stdio.h>
#include <stdlib.h>
#include <string.h>

static const struct {
    const char *name;
    const char *value; /* what follows it, null where nothing does */
} options[OPTIONS] = {
    [BY_CASES] = {"--by-cases", NULL}, [NEEDED] = {"--needed", NULL},  [PREFER] = {"--prefer", "ORDER"},
    [CUTOFF] = {"--cutoff", "N"},      [BUDGET] = {"--budget", "N"},   [PART] = {"--part", "LINE"},
    [PICKS] = {"--picks", NULL},       [SAVE] = {"--save", "RUN"},     [RESUME] = {"--resume", "RUN"},
    [PARTS] = {"--parts", "N"},        [AGAIN] = {"--again", NULL},
};

void print_options(unsigned taken) {
    for (int i = 0; i < OPTIONS; i++)
        if (taken & SET(i)) fprintf(stderr, "[%s%s%s] ", options[i].name, options[i].value ? " " : "", options[i].value ? options[i].value : "");
}

/* An option as it was typed, for a refusal of what it says. */
const char *option_text(const Request *request, Option option) {
    const char *value = request->option[option];
    size_t length = strlen(options[option].name) + strlen(value) + 2;
    char *text = malloc(length);
    if (!text) fail("planner", "no memory");
    snprintf(text, length, "%s %s", options[option].name, value);
    return text;
}

/* What a refusal is about: the option that 18, 21 or 27 speak of, where it was given. */
const char *subject_of(const Request *request, uint64_t why, const char *otherwise) {
    Option option = why == RG_OVER_BUDGET ? BUDGET : why == RG_CUTOFF ? CUTOFF : why == RG_PREFERENCE ? PREFER : OPTIONS;
    return option != OPTIONS && request->option[option] ? option_text(request, option) : otherwise;
}

/* An option as a word names it: its name alone, or with `=` and its value behind. */
static int option_named(const char *word) {
    size_t length = strcspn(word, "=");
    for (int i = 0; i < OPTIONS; i++)
        if (strlen(options[i].name) == length && !memcmp(options[i].name, word, length)) return i;
    return OPTIONS;
}

static bool is_option(const char *word) { return word[0] == '-' && word[1]; }

/* How many words an option is: two where its value is the next one. */
static int words_of_option(const char *word) {
    int option = option_named(word);
    return option != OPTIONS && options[option].value && !strchr(word, '=') ? 2 : 1;
}

/* The first word that is no option and no value of one. */
int subcommand_at(int argc, char **argv) {
    int at = 1;
    while (at < argc && is_option(argv[at]) && strcmp(argv[at], "--")) at += words_of_option(argv[at]);
    return at < argc ? at : argc;
}

/* Takes the option at argv[0], with its value; how many words that are. */
static int take_option(Request *request, int argc, char **argv) {
    int option = option_named(argv[0]), words = words_of_option(argv[0]);
    const char *equals = strchr(argv[0], '=');
    if (option == OPTIONS || !(request->command->options & SET(option))) wrong_usage("no option %s", argv[0]);
    if (request->option[option]) wrong_usage("%s twice", options[option].name);
    if (equals && !options[option].value) wrong_usage("%s takes no value", options[option].name);
    if (words > argc) wrong_usage("%s wants a value", argv[0]);
    request->option[option] = !options[option].value ? "" : equals ? equals + 1 : argv[1];
    return words;
}

static void take_word(Request *request, const char *word) {
    if (request->words == request->command->words + request->command->more) wrong_usage("a word too many: %s", word);
    request->word[request->words++] = word;
}

/* Where one word is missing it is the file: standard input. */
static void put_file_first(Request *request) {
    memmove(request->word + 1, request->word, (size_t)request->words * sizeof request->word[0]);
    request->word[0] = "-";
    request->words++;
}

/* The form of what follows an option, before any file is read. */
static void check_values(const Request *request) {
    uint64_t order[RG_ORDER_WORDS];
    if (request->option[CUTOFF]) number_of("--cutoff wants a number, not '%s'", request->option[CUTOFF]);
    if (request->option[PARTS]) parts_of(request->option[PARTS]);
    budget_of(request);
    order_of(request, 0, order);
}

/* There may be as many words as were typed, and one more for a file that is left out. */
void read_request(Request *request, const Command *command, int argc, char **argv) {
    bool more_options = true;
    *request = (Request){.command = command, .word = calloc((size_t)argc + 1, sizeof *request->word)};
    if (!request->word) fail("planner", "no memory");
    for (int i = 0; i < argc;) {
        if (more_options && !strcmp(argv[i], "--")) {
            more_options = false;
            i++;
        } else if (more_options && is_option(argv[i])) {
            i += take_option(request, argc - i, argv + i);
        } else {
            take_word(request, argv[i++]);
        }
    }
    if (command->reads && request->words == command->words - 1) put_file_first(request);
    if (request->words < command->words) wrong_usage("a word is missing: %s", command->arguments);
    check_values(request);
}
