/* What is done with the targets: `fuzz` changes inputs until no new path comes, `unreached` runs what is kept and names what it does not reach, `compare` runs
 * what is kept alone and among many, `replay` runs each seed once, `show` one input. usage:
 *
 *     fuzz SEEDS KEPT WORK SECONDS QUIET NUMBER TARGET..    SECONDS in all at most, 0 for no bound; QUIET without a path that is new to all targets end it
 *     unreached SEEDS KEPT WORK TARGET..
 *     compare SEEDS KEPT WORK TARGET..
 *     replay SEEDS WORK TARGET..
 *     show WORK FILE
 *
 * with whole paths; without a target all of them. tools/fuzz-command starts it. */
#include "rim.h"
#include <stdio.h>
#include <stdlib.h>
#include <string.h>

static const Target *target_named(const char *name) {
    for (size_t i = 0; i < TARGETS; i++)
        if (!strcmp(targets[i].name, name)) return &targets[i];
    fprintf(stderr, "fuzz-command: no target %s; there are", name);
    for (size_t i = 0; i < TARGETS; i++) fprintf(stderr, " %s", targets[i].name);
    fputc('\n', stderr);
    exit(2);
}

/* One of those that are named, or of all where none is. */
const Target *target_at(char **names, size_t named, size_t i) { return named ? target_named(names[i]) : &targets[i]; }

int main(int argc, char **argv) {
    if (argc >= 8 && !strcmp(argv[1], "fuzz")) return fuzz(argv + 2, argc - 2);
    if (argc >= 5 && !strcmp(argv[1], "unreached")) return unreached(argv + 2, argc - 2);
    if (argc >= 5 && !strcmp(argv[1], "compare")) return compare(argv + 2, argc - 2);
    if (argc >= 4 && !strcmp(argv[1], "replay")) return replay(argv + 2, argc - 2);
    if (argc == 4 && !strcmp(argv[1], "show")) return show(argv + 2);
    fputs("fuzz-command: it is started by tools/fuzz-command\n", stderr);
    return 2;
}
