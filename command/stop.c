/* What stops a list ahead of its end, and how it ends then. A signal is only noted, and is seen between two rounds; a budget is used up there too; and of a
 * round that could not be written nothing counts. So the list ends after a whole ladder. It is saved where that was asked for, and what is said tells how
 * far it came. */
#define _POSIX_C_SOURCE 200809L /* sigaction */
#include "planner.h"
#include <errno.h>
#include <inttypes.h>
#include <signal.h>
#include <stdio.h>

static volatile sig_atomic_t came;

static void note(int number) { came = number; }

/* A second signal of the kind ends the command at once; one that is ignored stays ignored. A file at its longest is a write that fails. */
void watch_signals(void) {
    static const int watched[] = {SIGINT, SIGTERM, SIGHUP};
    struct sigaction noted = {.sa_handler = note, .sa_flags = (int)SA_RESETHAND}, before;
    sigemptyset(&noted.sa_mask);
    for (size_t i = 0; i < sizeof watched / sizeof watched[0]; i++)
        if (!sigaction(watched[i], NULL, &before) && before.sa_handler != SIG_IGN) sigaction(watched[i], &noted, NULL);
    signal(SIGXFSZ, SIG_IGN);
}

bool signal_came(void) { return came; }

static void say_cause(const Request *request, Stop stop, int error) {
    if (stop == BY_BUDGET) fprintf(stderr, "%s: spent", option_text(request, BUDGET));
    else if (stop == BY_SIGNAL) fputs("planner: stopped by a signal", stderr);
    else fprintf(stderr, "planner: %s", error == EPIPE ? "nobody reads any more" : "writing failed");
}

/* Behind how many ladders, from the first one of the list or the part on. */
static void say_end(const Paused *paused, bool taken_back) {
    const char *of = paused->ladders == 1 ? "ladder" : "ladders";
    fprintf(stderr, ": the %s is not complete, ", paused->of_part ? "part" : "list");
    if (taken_back) fprintf(stderr, "it ends after %" PRIu64 " %s", paused->ladders, of);
    else fprintf(stderr, "%" PRIu64 " %s count, and what was written behind them could not be taken back", paused->ladders, of);
}

static void say_saved(const char *file, bool saved) {
    if (saved) fprintf(stderr, "; %s has the run, and planner list --resume %s goes on", file, file);
    else fprintf(stderr, "; the run could not be saved in %s", file);
}

/* The exit status of a stopped list. Without a saved run a signal ends it as it would have; a reader that goes away is no fault. */
int end_stopped(const Request *request, Stop stop, const Paused *paused, int error, bool taken_back) {
    const char *file = request->option[SAVE];
    if (stop == BY_WRITE && error == EPIPE && !file) write_failed(error);
    bool saved = file && sync_output() && save_run(paused);
    say_cause(request, stop, error);
    say_end(paused, taken_back);
    if (file) say_saved(file, saved);
    fputc('\n', stderr);
    if (saved) return STATUS_SPENT;
    if (stop == BY_SIGNAL && !file) raise(came);
    return stop == BY_BUDGET && !file ? STATUS_SPENT : STATUS_FAILED;
}
