/* compare [THEME..]: asks the library and the plain entries the same questions, theme by theme, and writes a line for each theme: how often it asked, and
 * how many answers differed. With names it runs these themes alone. The exit status is 0 where nothing differed, every theme asked something and, of all
 * themes, every answer that an entry can give was got. It is run in the root of the repository. */
#include "both.h"
#include "count.h"
#include <stdio.h>
#include <string.h>
#include <time.h>

typedef struct {
    const char *name;
    void (*run)(void);
} Theme;

static const Theme themes[] = {
    {"small_runs", small_runs},
    {"small_batches", small_batches},
    {"damaged_runs", damaged_runs},
    {"small_chains", small_chains},
    {"small_orders", small_orders},
    {"small_trials", small_trials},
    {"small_pairs", small_pairs},
    {"small_covers", small_covers},
    {"known_covers", known_covers},
    {"mixtures", mixtures},
    {"recorded", recorded},
    {"files", files},
    {"larger", larger},
    {"samples", samples},
    {"support", support},
    {"known_lists", known_lists},
    {"known_answers", known_answers},
};
#define THEMES (int)(sizeof themes / sizeof themes[0])

static bool wanted(int argc, char **argv, const char *name) {
    for (int i = 1; i < argc; i++)
        if (!strcmp(argv[i], name)) return true;
    return argc == 1;
}

/* Runs a theme; whether it asked, and nothing differed. */
static bool run(const Theme *theme) {
    uint64_t asked_before = asked, different_before = differences;
    clock_t start = clock();
    theme->run();
    uint64_t now = asked - asked_before, different = differences - different_before;
    printf("%s: %llu comparisons, %llu differences, %.1f s\n", theme->name, (unsigned long long)now, (unsigned long long)different,
           (double)(clock() - start) / CLOCKS_PER_SEC);
    return now > 0 && different == 0;
}

int main(int argc, char **argv) {
    int done = 0, bad = 0;
    for (int i = 0; i < THEMES; i++)
        if (wanted(argc, argv, themes[i].name)) {
            done++;
            bad += !run(&themes[i]);
        }
    if (argc == 1) bad += unseen_answers();
    printf("compare: %d themes, %llu comparisons, %llu differences\n", done, (unsigned long long)asked, (unsigned long long)differences);
    return bad || done == 0;
}
