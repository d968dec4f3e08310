/* One run of the command alone: it is started by a fork, and how it ends is judged. The contract is that it ends by itself, with an exit status from 0 to 5,
 * and that it says something on standard error where it ends with 1 to 4. What a run among many starts with is here too. */
#define _GNU_SOURCE /* memfd_create, on_exit, sigaction */
#include "rim.h"
#include <fcntl.h>
#include <stdio.h>
#include <stdlib.h>
#include <string.h>
#include <sys/mman.h>
#include <sys/resource.h>
#include <sys/time.h>
#include <sys/wait.h>
#include <unistd.h>

/* A run may take so many seconds of the processor, so many on the clock, and files of so many bytes; a piece of memory may have so many megabytes. */
#define PROCESSOR_SECONDS 1
#define CLOCK_SECONDS 20
#define FILE_BYTES ((rlim_t)16 << 20)

/* A report ends the process by a signal. Memory that is never freed is no fault: the command ends soon. A piece that is too large is none, and the command
 * has to say so. */
const char *__asan_default_options(void);
const char *__asan_default_options(void) {
    return "detect_leaks=0:abort_on_error=1:handle_abort=0:allocator_may_return_null=1:max_allocation_size_mb=256:"
           "quarantine_size_mb=1:thread_local_quarantine_size_kb=64";
}

int said = -1, nothing = -1;
volatile sig_atomic_t continued;

static void note(int number) { continued = number; }

static void stop(const char *what) {
    fprintf(stderr, "fuzz-command: %s failed\n", what);
    exit(2);
}

/* The folder becomes the current one. */
void begin_running(const char *folder) {
    struct sigaction noted = {.sa_handler = note, .sa_flags = SA_RESTART};
    sigaction(SIGCONT, &noted, NULL);
    said = memfd_create("said", MFD_CLOEXEC);
    nothing = open("/dev/null", O_RDWR | O_CLOEXEC);
    if (said < 0 || nothing < 0) stop("opening /dev/null and a file in memory");
    begin_layout(folder);
}

/* --- what a run starts with */

/* The words, in memory of their own each; how many. There is room for two more than an input has pieces. */
size_t words_of_input(const Input *input, char **words) {
    words[0] = "planner";
    for (size_t i = 0; i < input->words; i++) words[i + 1] = strndup((const char *)input->piece[i].bytes, input->piece[i].length);
    words[input->words + 1] = NULL;
    return input->words + 1;
}

static void bound(int resource, rlim_t most) {
    struct rlimit limit = {most, most};
    setrlimit(resource, &limit);
}

void bound_process(void) {
    bound(RLIMIT_FSIZE, FILE_BYTES);
    bound(RLIMIT_CORE, 0);
}

void bound_run(void) {
    struct itimerval time = {.it_value = {.tv_sec = PROCESSOR_SECONDS}};
    setitimer(ITIMER_PROF, &time, NULL);
    alarm(CLOCK_SECONDS);
}

/* Those that the command or the rounds have their own ways with. Whether one is ignored where all of this is started makes no difference. */
void default_signals(void) {
    static const int numbers[] = {SIGINT, SIGTERM, SIGHUP, SIGPIPE, SIGXFSZ};
    for (size_t i = 0; i < sizeof numbers / sizeof numbers[0]; i++) signal(numbers[i], SIG_DFL);
}

/* --- alone */

/* The command has ended, and what it left in its buffers is written. What the sanitizers would do at the end is left out: it takes longer than the run. */
static void end_at_once(int status, void *unused) {
    (void)unused;
    fflush(NULL);
    _exit(status);
}

/* In the process of its own. */
static void run_command(const Input *input) {
    char *argv[MOST_PIECES + 2];
    int argc = (int)words_of_input(input, argv);
    if (dup2(input_of(input, nothing), STDIN_FILENO) < 0 || dup2(nothing, STDOUT_FILENO) < 0 || dup2(said, STDERR_FILENO) < 0) _exit(99);
    default_signals();
    on_exit(end_at_once, NULL);
    bound_process();
    bound_run();
    exit(planner_main(argc, argv));
}

/* The front of what was said on standard error; its length in all. */
size_t said_of_it(char *room, size_t length) {
    ssize_t read = pread(said, room, length - 1, 0);
    off_t end = lseek(said, 0, SEEK_END);
    room[read > 0 ? read : 0] = 0;
    return end > 0 ? (size_t)end : 0;
}

/* What is wrong with an exit status, null where nothing is. */
const char *wrong_status(int status, bool silent) {
    static char text[64];
    if (status > MOST_STATUS) snprintf(text, sizeof text, "exit status %d", status);
    else if (status > 0 && status < MOST_STATUS && silent) snprintf(text, sizeof text, "exit status %d, and nothing was said", status);
    else return NULL;
    return text;
}

static const char *wrong_with(int ended) {
    static char text[64], words[1 << 14];
    size_t length = said_of_it(words, sizeof words);
    if (WIFSIGNALED(ended)) {
        snprintf(text, sizeof text, "ended by signal %d", WTERMSIG(ended));
        return text;
    }
    if (strstr(words, "runtime error: ") || strstr(words, "Sanitizer: ")) return "a sanitizer's report";
    return wrong_status(WEXITSTATUS(ended), !length);
}

/* A process that is stopped and continued may come to its bound on the clock by that. */
bool stood_still(int ended) { return continued && WIFSIGNALED(ended) && WTERMSIG(ended) == SIGALRM; }

static int ended_alone(const Input *input) {
    int ended;
    lay_out_all(input);
    clear_path();
    continued = 0;
    if (ftruncate(said, 0) || lseek(said, 0, SEEK_SET)) stop("emptying a file in memory");
    pid_t child = fork();
    if (child < 0) stop("starting a process");
    if (!child) run_command(input);
    while (waitpid(child, &ended, 0) != child) {}
    return ended;
}

Outcome run_once(const Input *input) {
    Outcome outcome = {.left_out = saves_elsewhere(input)};
    if (outcome.left_out) return outcome;
    int ended = ended_alone(input);
    while (stood_still(ended)) ended = ended_alone(input);
    int by = WIFSIGNALED(ended) ? WTERMSIG(ended) : 0;
    outcome.slow = by == SIGPROF || by == SIGALRM || by == SIGXFSZ;
    outcome.status = WIFEXITED(ended) ? WEXITSTATUS(ended) : -1;
    if (!outcome.slow) outcome.wrong = wrong_with(ended);
    return outcome;
}
