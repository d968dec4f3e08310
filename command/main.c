/* The table of the subcommands, and main. `./planner` shows the help, which is text beside these files, so that nobody has to build first. */
#include "planner.h"
#include <signal.h>
#include <string.h>

#define OF_RUNS (SET(BY_CASES) | SET(NEEDED) | SET(PREFER) | SET(CUTOFF))

static const Command commands[] = {
    {"list", "[FILE]", 1, 0, true, OF_RUNS | SET(BUDGET) | SET(PART) | SET(PICKS) | SET(SAVE) | SET(RESUME), answer_list},
    {"ladder", "FILE [PICKS]", 1, 1, true, SET(BY_CASES) | SET(PREFER) | SET(CUTOFF), answer_ladder},
    {"check", "FILE [LIST]", 1, 1, true, OF_RUNS | SET(PART) | SET(PICKS), answer_check},
    {"parts", "[FILE] N", 2, 0, true, OF_RUNS, answer_parts},
    {"join", "FILE PARTS [OUT ..]", 2, ANY_MORE, false, SET(CUTOFF) | SET(AGAIN), answer_join},
    {"count", "[FILE]", 1, 0, true, OF_RUNS | SET(BUDGET) | SET(PART) | SET(PARTS), answer_count},
    {"judge", "[FILE] CHAIN", 2, 0, true, SET(CUTOFF), answer_judge},
    {"grow", "[FILE] CHAIN", 2, 0, true, SET(PREFER) | SET(CUTOFF), answer_grow},
    {"rivals", "[FILE] PAIR", 2, 0, true, SET(CUTOFF), answer_rivals},
    {"explain", "[FILE] LADDER PAIR", 3, 0, true, OF_RUNS, answer_explain},
    {"cover", "[FILE]", 1, 0, true, SET(CUTOFF) | SET(BUDGET), answer_cover},
    {"order", "[FILE] CHAIN LADDER", 3, 0, true, SET(CUTOFF), answer_order},
    {"trial", "[FILE] LADDER PLACE", 3, 0, true, SET(CUTOFF), answer_trial},
    {"commit", "[FILE] PROPOSAL", 2, 0, true, SET(CUTOFF), answer_commit},
    {"make", "G L START DENSITY", 4, 0, false, 0, answer_make},
    {"comments", "[FILE [K]]", 1, 1, true, 0, answer_comments},
    {"convert", "[FILE]", 1, 0, true, SET(CUTOFF), answer_convert},
    {"import", "[FILE]", 1, 0, true, 0, answer_import},
    {"equal", "[FILE] FILE", 2, 0, true, 0, answer_equal},
    {"show", "FILE [LADDER]", 1, 1, true, OF_RUNS, answer_show},
};
#define COMMANDS (sizeof commands / sizeof commands[0])

static const Command *command_named(const char *name) {
    for (size_t i = 0; i < COMMANDS; i++)
        if (!strcmp(commands[i].name, name)) return &commands[i];
    return NULL;
}

int main(int argc, char **argv) {
    Request request;
    /* A reader that goes away is seen as a write that fails, so that the exit status is the command's own. */
    signal(SIGPIPE, SIG_IGN);
    start_output();
    int at = subcommand_at(argc, argv);
    if (at == argc) wrong_usage("a subcommand is wanted%s", "");
    const Command *command = command_named(argv[at]);
    if (!command) wrong_usage("no subcommand %s", argv[at]);
    usage_of(command);
    /* Options may stand ahead of it. */
    memmove(argv + 1 + 1, argv + 1, (size_t)(at - 1) * sizeof *argv);
    read_request(&request, command, argc - 2, argv + 2);
    int status = command->answer(&request);
    finish_output();
    return status;
}
