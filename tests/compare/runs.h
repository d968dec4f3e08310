/* What runs.c does with one table, for other themes. */
#ifndef RUNS_H
#define RUNS_H

#include "both.h"

void ask_runs(const uint64_t *table);
void each_value(int which, const uint64_t *table, const uint64_t *order, uint64_t omit, void (*ask)(int which, const uint64_t *run));
void listed(int which, const uint64_t *table, const uint64_t *order, List *list);
void whole_list(int which, const uint64_t *table, const uint64_t *order, uint64_t omit, int pattern);

#endif
