/* One run of the command among many in one process. Where it would end the process it comes back here (--wrap); then what it left is put away: its values,
 * streams, descriptors and signals, and what was closed behind its reads. Memory that it never freed stays, so that a process runs only so many. What ends it
 * else, a signal or a sanitizer's report, ends the process, and the input is run alone. */
#define _GNU_SOURCE /* close_range */
#include "rim.h"
#include <setjmp.h>
#include <stdio.h>
#include <stdio_ext.h>
#include <stdlib.h>
#include <unistd.h>

void __real_exit(int status) __attribute__((noreturn));
void __wrap_exit(int status) __attribute__((noreturn));
void __real__Exit(int status) __attribute__((noreturn));
void __wrap__Exit(int status) __attribute__((noreturn));

static jmp_buf back;
static bool within; /* the command is running here */
static int left;    /* its exit status */

void __wrap_exit(int status) {
    if (!within) __real_exit(status);
    left = status;
    longjmp(back, 1);
}

void __wrap__Exit(int status) {
    if (!within) __real__Exit(status);
    left = status;
    longjmp(back, 1);
}

/* In the process that is to run many. */
void begin_within(void) {
    bound_process();
    default_signals();
    if (dup2(said, STDERR_FILENO) < 0 || dup2(nothing, STDOUT_FILENO) < 0 || dup2(nothing, STDIN_FILENO) < 0) _exit(99);
}

/* Standard output is closed by the command; the descriptors behind those that are held here are what it left open. */
static void put_back(void) {
    int last = said > nothing ? said : nothing;
    __fpurge(stdin);
    __fpurge(stdout);
    clearerr(stdin);
    clearerr(stdout);
    clearerr(stderr);
    if (close_range((unsigned)last + 1, ~0u, 0) || dup2(nothing, STDIN_FILENO) < 0 || dup2(nothing, STDOUT_FILENO) < 0) _exit(99);
    default_signals();
    open_reads();
    put_statics_back();
}

static void run_words(int argc, char **argv) {
    within = true;
    if (!setjmp(back)) left = planner_main(argc, argv);
    within = false;
}

Outcome run_within(const Input *input) {
    Outcome outcome = {.left_out = saves_elsewhere(input)};
    char *words[MOST_PIECES + 2], *argv[MOST_PIECES + 2];
    if (outcome.left_out) return outcome;
    lay_out_all(input);
    size_t count = words_of_input(input, words);
    for (size_t i = 0; i <= count; i++) argv[i] = words[i];
    if (lseek(said, 0, SEEK_SET) || dup2(input_of(input, nothing), STDIN_FILENO) < 0) _exit(99);
    clear_path();
    bound_run();
    run_words((int)count, argv);
    outcome.status = left & UINT8_MAX;
    outcome.wrong = wrong_status(outcome.status, lseek(said, 0, SEEK_CUR) == 0);
    put_back();
    for (size_t i = 1; i < count; i++) free(words[i]);
    return outcome;
}
