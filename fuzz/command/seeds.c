/* The seeds, run once each, and one input that is shown. The name of a seed says what it is, and behind a point its exit status. */
#include "rim.h"
#include <inttypes.h>
#include <stdio.h>
#include <stdlib.h>
#include <string.h>

#define PATH_ROOM 4096

typedef struct {
    uint64_t passed, failed;
} Counts;

/* What was said last is shown, since a sanitizer's report is there. */
void name_wrong(const char *name, const char *wrong) {
    static char words[4000];
    said_of_it(words, sizeof words);
    printf("%s: %s\n%s\n", name, wrong, words);
    fflush(stdout);
}

static void replay_seed(const char *path, const Input *input, void *with) {
    Counts *counts = with;
    const char *point = strrchr(path, '.');
    Outcome outcome = run_once(input);
    bool due = point && outcome.status == atoi(point + 1) && point[1] >= '0' && point[1] <= '9';
    if (due && !outcome.slow && !outcome.wrong) {
        counts->passed++;
        return;
    }
    counts->failed++;
    printf("exit status %d: ", outcome.status);
    name_wrong(path, outcome.slow ? "it takes too long" : outcome.wrong ? outcome.wrong : "it has another exit status than its name says");
}

static void replay_target(const char *seeds, const Target *target, Counts *counts) {
    char folder[PATH_ROOM];
    uint64_t before = counts->passed + counts->failed;
    snprintf(folder, sizeof folder, "%s/%s", seeds, target->name);
    if (each_file(folder, replay_seed, counts) && counts->passed + counts->failed > before) return;
    printf("%s: there are no seeds\n", folder);
    counts->failed++;
}

int replay(char **words, int count) {
    Counts counts = {.passed = 0};
    size_t named = (size_t)count - 2;
    begin_running(words[1]);
    for (size_t i = 0; i < (named ? named : TARGETS); i++) replay_target(words[0], target_at(words + 2, named, i), &counts);
    printf("fuzz seeds: %" PRIu64 " passed, %" PRIu64 " failed, 0 skipped\n", counts.passed, counts.failed);
    fflush(stdout);
    return counts.failed ? 1 : 0;
}

/* One input, and what the command says of it. */
int show(char **words) {
    char text[1 << 16];
    Input input;
    read_input(words[1], &input);
    begin_running(words[0]);
    Outcome outcome = run_once(&input);
    said_of_it(text, sizeof text);
    printf("exit status %d%s%s%s\n%s", outcome.status, outcome.slow ? ", slow" : "", outcome.wrong ? ", " : "", outcome.wrong ? outcome.wrong : "", text);
    fflush(stdout);
    free_input(&input);
    return outcome.wrong ? 1 : 0;
}
