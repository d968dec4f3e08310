/* What is said of the rounds: a line now and then, and what came of each target. Standard output is written at once: what is left in a buffer would be written
 * by each process that is started, too. */
#include "rounds.h"
#include <inttypes.h>

/* What all targets come to. */
static Round sum_of_all(const Rounds *all, double now) {
    Round sum = {.spent = now - all->began, .last = {.edge = all->last.edge - all->began, .count = all->last.count - all->began}};
    for (size_t i = 0; i < all->count; i++) {
        const Round *round = &all->round[i];
        sum.inputs += round->inputs;
        sum.wrong += round->wrong;
        sum.slow += round->slow;
        sum.not_again += round->not_again;
        sum.passing += round->passing;
        sum.kept.count += round->kept.count;
        for (int j = 0; j < STATUSES; j++) sum.ended[j] += round->ended[j];
    }
    return sum;
}

static void say_front(FILE *out, const char *name, const Round *round, size_t edges) {
    fprintf(out, "%s: %.0f s, %" PRIu64 " inputs, %zu edges, %zu kept, the last new edge after %.0f s, the last new count after %.0f s", name, round->spent,
            round->inputs, edges, round->kept.count, round->last.edge, round->last.count);
}

static void say_round(FILE *out, const char *name, const Round *round, size_t edges) {
    say_front(out, name, round, edges);
    fputs("; ended", out);
    for (int i = 0; i < STATUSES; i++) fprintf(out, " %d: %" PRIu64 "%s", i, round->ended[i], i + 1 < STATUSES ? "," : "");
    fprintf(out, "; %" PRIu64 " slow, %" PRIu64 " wrong; not again alone: %" PRIu64 " paths, %" PRIu64 " ends\n", round->slow, round->wrong, round->passing,
            round->not_again);
}

void say_line(const Rounds *all, double now) {
    Round sum = sum_of_all(all, now);
    say_front(stdout, "in all", &sum, edges_reached(all->seen));
    printf("; %" PRIu64 " slow, %" PRIu64 " wrong\n", sum.slow, sum.wrong);
    fflush(stdout);
}

void say_report(FILE *out, const Rounds *all, double now) {
    Round sum = sum_of_all(all, now);
    for (size_t i = 0; i < all->count; i++) say_round(out, all->round[i].target->name, &all->round[i], edges_reached(all->round[i].seen));
    say_round(out, "in all", &sum, edges_reached(all->seen));
}

/* The same in a file, which can be read while the rounds go on. */
void write_report(const Rounds *all, double now) {
    FILE *out = fopen(all->report, "w");
    if (!out) return;
    say_report(out, all, now);
    fclose(out);
}
