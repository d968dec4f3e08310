/* The planner core a second time, plainly: every entry of include/ragymolev.h but rg_version under the name plain_.. in place of rg_.., written from the scope
 * document and its requests alone, by enumeration and by definition, and for tables of few pairs. tools/fuzz-library compares the library with it.
 *
 * Here: the values that the files share and what each file gives the others. plain_sets.c has tables, chains, ladders and pick sequences;
 * plain_runs.c rules 1 to 5 and what is asked of paused values; plain_pairs.c rivals, covers, orders, trials and sample tables; plain_files.c the
 * file and recorded tests; plain_words.c words and the plain order. */
#ifndef PLAIN_H
#define PLAIN_H

#include "../include/ragymolev.h"
#include <stdbool.h>

/* The types are those of the header's own prototypes, so that a definition with other types does not compile. */
#define PLAIN(name) extern __typeof__(rg_##name) plain_##name
PLAIN(words);
PLAIN(plain_order);
PLAIN(read);
PLAIN(read_test);
PLAIN(locate);
PLAIN(comment);
PLAIN(write);
PLAIN(write_test);
PLAIN(sample);
PLAIN(judge_chain);
PLAIN(judge_ladder);
PLAIN(start_gauges);
PLAIN(start_cases);
PLAIN(run_gauges);
PLAIN(run_cases);
PLAIN(list_gauges);
PLAIN(list_cases);
PLAIN(explain_gauge);
PLAIN(explain_case);
PLAIN(sequence_gauges);
PLAIN(sequence_cases);
PLAIN(candidates_gauges);
PLAIN(candidates_cases);
PLAIN(part_gauges);
PLAIN(part_cases);
PLAIN(count);
PLAIN(grow);
PLAIN(rivals);
PLAIN(decides);
PLAIN(cover);
PLAIN(wiring);
PLAIN(trial);
PLAIN(commit);
PLAIN(equal);
#undef PLAIN

/* Of more pairs than this not every subset is looked at, 2 to that many: the ladders are then those that the rules come to. */
#define PLAIN_PAIRS 18
/* R-7 looks at 1,024 ladders and refuses one more. */
#define PLAIN_LADDERS 1025

/* A set of pairs: gauge g has rows[g - 1], bit c - 1 for case c. */
typedef struct {
    uint64_t rows[64];
} Set;

/* One side of a table under a preference: n picks can be made; place[x] is the place of number x. On the case side the rows are the columns. */
typedef struct {
    int n;
    uint64_t all;
    Set set;
    int place[65];
} Side;

/* Ladders in some order. */
typedef struct {
    int n;
    Set ladder[PLAIN_LADDERS];
} List;

/* A paused run without its table. */
typedef struct {
    int picks[64];
    int count;
    int phase;
    int from;
} State;

/* A recorded test. */
typedef struct {
    uint64_t kind, gauges, cases;
    Set entries;
    int32_t readings[RG_READINGS];
} Test;

/* plain_sets.c */
bool has(const Set *s, int g, int c);
void add(Set *s, int g, int c);
bool within(const Set *a, const Set *b);
bool equal_sets(const Set *a, const Set *b);
int size_of(const Set *s);
uint64_t lowest(int n);
Set turned(const Set *s);
Set table_set(const uint64_t *table);
bool is_chain(const Set *s);
bool is_ladder(const Set *table, const Set *s);
void list_ladders(const Set *table, List *out);
void sort_ladders(List *list, const Side *side);
int pick_sequence(const Side *side, const Set *ladder, int *out);
void plain_side(Side *side, int n, int other, const Set *set);
uint64_t table_refusal(const uint64_t *table);
uint64_t order_refusal(const uint64_t *order, uint64_t n);
uint64_t chain_refusal(const uint64_t *table, const uint64_t *chain);
void put_chain(uint64_t *out, uint64_t gauges, const Set *s);
void put_table(uint64_t *out, uint64_t gauges, uint64_t cases, const Set *s);

/* plain_runs.c */
enum { MOVED, GAVE, ENDED };
void side_of(Side *side, int which, const uint64_t *table, const uint64_t *order);
int move(const Side *side, State *state);
Set handed_out(const Side *side, const State *state);
void put_run(uint64_t *run, int which, const uint64_t *table, const uint64_t *order, const State *state, bool omit);
int leaves(const Side *side, int most, Set *out);

/* plain_pairs.c */
Set rivals_of(const Set *table, int g, int c);
bool decides(const Set *table, int g, int c);
bool holds_deciding(const Set *table, const Set *ladder);

/* plain_files.c */
uint64_t test_refusal(const uint64_t *test, const int32_t *readings);

#endif
