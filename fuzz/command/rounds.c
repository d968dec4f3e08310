/* The targets, and their turns. Each has its own inputs and its own map of paths. They take turns in slices, and a target that went a new way in its slice
 * has another one at once. All end when no target has gone a way that is new to all of them for some time, or after some time in all. Time is that of
 * the processor, of this process and of all that it started: what it does not run does not count, where it is stopped or where others have the processor. */
#define _DEFAULT_SOURCE /* getrusage, mkdir, sigaction */
#include "rounds.h"
#include <errno.h>
#include <stdio.h>
#include <stdlib.h>
#include <string.h>
#include <sys/resource.h>
#include <sys/stat.h>

#define SLICE 20.0
#define TURNS 2 /* of each target at least, in shorter slices where there is less time */
#define MINUTE 60.0

const Target targets[TARGETS] = {
    {"arguments", "*"}, {"order", "--prefer"}, {"part", "--part"}, {"proposal", ""}, {"run", ""},
    {"import", ""},     {"check", ""},         {"join", ""},       {"table", "table"},
};

volatile sig_atomic_t stopped;

static void note(int number) { stopped = number; }

/* Of the processor, by this process and by those that it waited for. */
double seconds(void) {
    static const int whose[] = {RUSAGE_SELF, RUSAGE_CHILDREN};
    double sum = 0;
    for (int i = 0; i < 2; i++) {
        struct rusage used;
        getrusage(whose[i], &used);
        sum += (double)(used.ru_utime.tv_sec + used.ru_stime.tv_sec) + (double)(used.ru_utime.tv_usec + used.ru_stime.tv_usec) / 1e6;
    }
    return sum;
}

static void take_stored(const char *path, const Input *input, void *with) {
    (void)path;
    try_input(with, input, true);
}

static void make_folder(const char *path) {
    if (!mkdir(path, 0777) || errno == EEXIST) return;
    fprintf(stderr, "fuzz-command: %s cannot be made\n", path);
    exit(2);
}

/* What is stored of a target, run once each: the seeds, and what earlier rounds kept. */
static void begin_round(Rounds *all, Round *round, char **folders) {
    char seeds[PATH_ROOM];
    round->all = all;
    round->from = seconds();
    snprintf(seeds, sizeof seeds, "%s/%s", folders[0], round->target->name);
    snprintf(round->folder, sizeof round->folder, "%s/%s", folders[1], round->target->name);
    make_folder(round->folder);
    each_file(seeds, take_stored, round);
    each_file(round->folder, take_stored, round);
    if (stopped || round->kept.count) return;
    fprintf(stderr, "fuzz-command: %s: there are no seeds that are run to their end, or the command has no marks\n", round->target->name);
    exit(2);
}

static void begin_rounds(Rounds *all, char **folders, char **names, int named) {
    all->count = named ? (size_t)named : TARGETS;
    snprintf(all->faults, sizeof all->faults, "%s/faults", folders[1]);
    snprintf(all->report, sizeof all->report, "%s/report", folders[1]);
    make_folder(all->faults);
    if (all->count > TARGETS) {
        fputs("fuzz-command: a target is named twice\n", stderr);
        exit(2);
    }
    for (size_t i = 0; i < all->count; i++) all->round[i].target = target_at(names, (size_t)named, i);
    for (size_t i = 0; i < all->count && !stopped; i++) begin_round(all, &all->round[i], folders);
    all->said = all->last.edge = all->last.count = all->began = seconds();
}

static bool are_over(const Rounds *all) {
    double now = seconds(), last = all->last.edge > all->last.count ? all->last.edge : all->last.count;
    return stopped || (all->most > 0 && now - all->began >= all->most) || now - last >= all->quiet;
}

static void say_at_times(Rounds *all, double now) {
    if (now - all->said < MINUTE) return;
    all->said = now;
    say_line(all, now);
    write_report(all, now);
}

/* A slice of a target; whether it went a new way. */
static bool fuzz_slice(Rounds *all, Round *round) {
    double before = round->last.edge + round->last.count, now = round->from = seconds(), end = now + all->slice;
    while (!are_over(all) && now < end) {
        if (all->together) change_many(round);
        else change_alone(round);
        now = seconds();
        say_at_times(all, now);
    }
    round->spent += now - round->from;
    return round->last.edge + round->last.count > before;
}

/* Whether nothing was wrong. */
static bool end_rounds(Rounds *all) {
    uint64_t wrong = 0;
    say_report(stdout, all, seconds());
    fflush(stdout);
    for (size_t i = 0; i < all->count; i++) {
        wrong += all->round[i].wrong;
        let_go(&all->round[i].kept);
    }
    return !wrong;
}

int fuzz(char **words, int count) {
    static Rounds all;
    struct sigaction noted = {.sa_handler = note, .sa_flags = (int)SA_RESETHAND};
    sigaction(SIGINT, &noted, NULL);
    sigaction(SIGTERM, &noted, NULL);
    all.most = atof(words[3]);
    all.quiet = atof(words[4]);
    all.slice = SLICE;
    all.together = take_statics();
    if (!all.together) puts("each input is a fork, since the command's values cannot be put back");
    fflush(stdout);
    set_seed(strtoull(words[5], NULL, 10));
    begin_running(words[2]);
    begin_batches();
    begin_rounds(&all, words, words + 6, count - 6);
    if (all.most > 0 && all.most < TURNS * SLICE * (double)all.count) all.slice = all.most / (TURNS * (double)all.count);
    say_line(&all, seconds());
    while (!are_over(&all))
        for (size_t i = 0; i < all.count && !are_over(&all); i++)
            if (fuzz_slice(&all, &all.round[i])) fuzz_slice(&all, &all.round[i]);
    write_report(&all, seconds());
    return end_rounds(&all) ? 0 : 1;
}

int unreached(char **words, int count) {
    static Rounds all;
    begin_running(words[2]);
    begin_rounds(&all, words, words + 3, count - 3);
    bool right = end_rounds(&all);
    name_unreached(all.seen);
    printf("%zu of %zu edges\n", edges_reached(all.seen), edges_in_all());
    return right ? 0 : 1;
}
