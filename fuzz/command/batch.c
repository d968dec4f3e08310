/* Many inputs in one process. It makes them itself, from random numbers whose state stands in shared memory ahead of each input: so the process that started
 * it can make the input again at which it ended, and run it alone. It ends at an input that goes a new way or that something is wrong with, and else after a
 * number of inputs, some time, or where its memory has grown. */
#define _GNU_SOURCE /* MAP_ANONYMOUS */
#include "rim.h"
#include <stdio.h>
#include <stdlib.h>
#include <sys/mman.h>
#include <sys/wait.h>
#include <time.h>
#include <unistd.h>

#define MOST_INPUTS 2000
#define MOST_MEMORY ((size_t)256 << 20)
#define MOST_TIME ((clock_t)(CLOCKS_PER_SEC / 2)) /* of the processor */
#define BETWEEN 16                                /* inputs between two looks at time and memory */

size_t __sanitizer_get_current_allocated_bytes(void);

static Batch *shared;

void begin_batches(void) {
    shared = mmap(NULL, sizeof *shared, PROT_READ | PROT_WRITE, MAP_SHARED | MAP_ANONYMOUS, -1, 0);
    if (shared != MAP_FAILED) return;
    fputs("fuzz-command: no shared memory\n", stderr);
    exit(2);
}

/* Time of a process begins where it is started. */
static bool has_enough(int made) {
    return made == MOST_INPUTS || (made % BETWEEN == 0 && (clock() > MOST_TIME || __sanitizer_get_current_allocated_bytes() > MOST_MEMORY));
}

static void run_many(Make make, void *with, const uint8_t *seen) {
    Input input;
    begin_within();
    for (int made = 0; !has_enough(made); made++) {
        shared->state = state_of_numbers();
        make(&input, with);
        Outcome outcome = run_within(&input);
        free_input(&input);
        if (outcome.left_out) continue;
        shared->end = outcome.wrong ? SOMETHING_WRONG : new_path(seen) ? A_NEW_PATH : BY_DEATH;
        if (shared->end != BY_DEATH) _exit(0);
        shared->inputs++;
        shared->ended[outcome.status]++;
    }
    shared->state = state_of_numbers();
    shared->end = AT_ITS_END;
    _exit(0);
}

/* Of the inputs that were run the last one is not counted where it is to be run alone. */
Batch run_batch(Make make, void *with, const uint8_t *seen, const volatile sig_atomic_t *stopped) {
    int ended;
    *shared = (Batch){.end = BY_DEATH, .state = state_of_numbers()};
    continued = 0;
    pid_t child = fork();
    if (child < 0) {
        fputs("fuzz-command: starting a process failed\n", stderr);
        exit(2);
    }
    if (!child) run_many(make, with, seen);
    while (waitpid(child, &ended, 0) != child)
        if (*stopped) kill(child, SIGKILL);
    distrust_layout();
    shared->stood_still = stood_still(ended);
    return *shared;
}
