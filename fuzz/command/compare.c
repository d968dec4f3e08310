/* Whether an input goes the same ways alone and among many: all seeds and what is kept of a target are run one after the other in one process, then each
 * alone. What differs is named. */
#define _GNU_SOURCE /* MAP_ANONYMOUS */
#include "rim.h"
#include <stdio.h>
#include <stdlib.h>
#include <string.h>
#include <sys/mman.h>
#include <sys/wait.h>
#include <unistd.h>

#define PATH_ROOM 4096

typedef struct {
    Kept kept;
    size_t *at;         /* in shared memory: the input that is run */
    int *status;        /* of each input; negative where it was not run to its end */
    uint8_t *maps;      /* and its path */
    size_t differences;
} Comparison;

static void take(const char *path, const Input *input, void *with) {
    (void)path;
    keep(&((Comparison *)with)->kept, input, 0);
}

static void *shared_room(size_t length) {
    void *room = mmap(NULL, length, PROT_READ | PROT_WRITE, MAP_SHARED | MAP_ANONYMOUS | MAP_NORESERVE, -1, 0);
    if (room != MAP_FAILED) return room;
    fputs("fuzz-command: no shared memory\n", stderr);
    exit(2);
}

static uint8_t *map_of(const Comparison *comparison, size_t i) { return comparison->maps + i * (edges_in_all() + 1); }

/* In a process of their own, from an input on. */
static void run_from(Comparison *comparison, size_t first) {
    begin_within();
    for (size_t i = first; i < comparison->kept.count; i++) {
        *comparison->at = i;
        Outcome outcome = run_within(&comparison->kept.inputs[i]);
        comparison->status[i] = outcome.status;
        if (!outcome.left_out) add_path(map_of(comparison, i));
    }
    *comparison->at = comparison->kept.count;
    _exit(0);
}

/* An input that ends the process is left out. */
static void run_all_within(Comparison *comparison) {
    int ended;
    for (size_t i = 0; i < comparison->kept.count; i = *comparison->at + 1) {
        comparison->status[i] = -1;
        pid_t child = fork();
        if (!child) run_from(comparison, i);
        if (child < 0) exit(2);
        while (waitpid(child, &ended, 0) != child) {}
        if (*comparison->at < comparison->kept.count) comparison->status[*comparison->at] = -1;
    }
    distrust_layout();
}

static void compare_alone(Comparison *comparison, const char *name, size_t i) {
    static uint8_t alone[MOST_EDGES];
    memset(alone, 0, sizeof alone);
    Outcome outcome = run_once(&comparison->kept.inputs[i]);
    if (outcome.left_out) return;
    add_path(alone);
    if (outcome.status == comparison->status[i] && !memcmp(alone, map_of(comparison, i), edges_in_all() + 1)) return;
    comparison->differences++;
    printf("%s: input %zu differs: exit status %d alone, %d among many; %zu and %zu edges\n", name, i + 1, outcome.status, comparison->status[i],
           edges_reached(alone), edges_reached(map_of(comparison, i)));
}

static size_t compare_target(const Target *target, char **folders) {
    char folder[PATH_ROOM];
    Comparison comparison = {.differences = 0};
    for (int i = 0; i < 2; i++) {
        snprintf(folder, sizeof folder, "%s/%s", folders[i], target->name);
        each_file(folder, take, &comparison);
    }
    size_t count = comparison.kept.count;
    comparison.at = shared_room(sizeof *comparison.at);
    comparison.status = shared_room((count + 1) * sizeof *comparison.status);
    comparison.maps = shared_room((count + 1) * (edges_in_all() + 1));
    run_all_within(&comparison);
    for (size_t i = 0; i < count; i++) compare_alone(&comparison, target->name, i);
    printf("%s: %zu inputs, %zu differ\n", target->name, count, comparison.differences);
    fflush(stdout);
    let_go(&comparison.kept);
    return comparison.differences;
}

int compare(char **words, int count) {
    size_t named = (size_t)count - 3, differences = 0;
    if (!take_statics()) {
        fputs("fuzz-command: the command's values cannot be put back\n", stderr);
        return 2;
    }
    begin_running(words[2]);
    for (size_t i = 0; i < (named ? named : TARGETS); i++) differences += compare_target(target_at(words + 3, named, i), words);
    return differences ? 1 : 0;
}
