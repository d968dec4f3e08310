/* Inputs for tools/fuzz-library: random numbers, then legal values of each layout, then damage. */
#ifndef GENERATE_H
#define GENERATE_H

#include "plain.h"

#define LONGEST_MADE 66000

void set_seed(uint64_t seed);
uint64_t any(void);
int below(int n);
bool chance(int one_in);

void make_table(uint64_t *table);
void make_order(uint64_t *order, uint64_t n);
void make_chain(const uint64_t *table, uint64_t *chain);
void make_ladder(const uint64_t *table, uint64_t *chain);
void make_run(uint64_t *run, int which, bool handed);
void make_test(uint64_t *test, int32_t *readings);
size_t make_file(uint8_t *file, bool integer);
uint64_t make_number(uint64_t greatest);
uint64_t make_budget(int usual);

void damage_table(uint64_t *table);
void damage_words(uint64_t *words, int n);
void damage_run(uint64_t *run);
void damage_test(uint64_t *test, int32_t *readings);
size_t damage_file(uint8_t *file, size_t n);

#endif
