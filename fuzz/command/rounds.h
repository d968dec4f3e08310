/* What rounds.c, tries.c and report.c share: the targets that take turns, and what came of each. */
#ifndef ROUNDS_H
#define ROUNDS_H

#include "rim.h"
#include <stdio.h>

#define PATH_ROOM 4096

/* When a path was new last, by an edge that was passed for the first time, and by one passed so often as never before. */
typedef struct {
    double edge, count;
} Last;

typedef struct Rounds Rounds;
typedef struct {
    Rounds *all;
    const Target *target;
    char folder[PATH_ROOM]; /* where inputs are kept */
    Kept kept;
    uint8_t seen[MOST_EDGES];
    uint64_t inputs, wrong, slow, not_again, ended[STATUSES];
    uint64_t passing;   /* paths that were new among many inputs, and not alone */
    double spent, from; /* seconds in earlier slices, and when this one began */
    Last last;          /* in its own seconds */
} Round;

struct Rounds {
    Round round[TARGETS];
    size_t count;
    char faults[PATH_ROOM], report[PATH_ROOM]; /* where inputs are stored that something is wrong with, and what came of all */
    uint8_t seen[MOST_EDGES];
    bool together;      /* many inputs are run in one process */
    double most, quiet; /* seconds, and seconds without a new path, until the end; no bound where the first is 0 */
    double slice;       /* seconds of a target's turn */
    double began, said; /* the fuzzing, behind what is stored, and when something was said last */
    Last last;          /* a way that no target had gone */
};

/* rounds.c */
extern volatile sig_atomic_t stopped; /* by a signal */
double seconds(void);

/* tries.c */
typedef enum { NOT_TRIED, NOTHING_TO_IT, A_NEW_WAY, A_FAULT } Worth;
Worth try_input(Round *round, const Input *input, bool stored);
void change_alone(Round *round);
void change_many(Round *round);

/* report.c */
void say_line(const Rounds *all, double now);
void say_report(FILE *out, const Rounds *all, double now);
void write_report(const Rounds *all, double now);

#endif
