/* What the comparisons share. Each of them asks an entry of the library and the plain entry of the same name (fuzz/plain.h) with the same input, on two
 * copies of the same memory: the number returned must be the same, and so must every byte of all that was lent. Guards stand around what the library
 * gets, memory that is written is lent one element longer than its layout, and a refusal must leave everything as it was.
 *
 * In order: themes, which main.c runs; what an entry is asked, in the order of ragymolev.h; what it gave; values to ask with. */
#ifndef BOTH_H
#define BOTH_H

#include "../../include/ragymolev.h"
#include "../../fuzz/plain.h"

/* --- themes: each asks, and counts by asking. */
void small_runs(void);
void small_batches(void);
void damaged_runs(void);
void small_chains(void);
void small_orders(void);
void small_trials(void);
void small_pairs(void);
void small_covers(void);
void mixtures(void);
void larger(void);
void known_lists(void);
void known_answers(void);
void known_covers(void);
void recorded(void);
void files(void);
void samples(void);
void support(void);

/* --- what an entry is asked; `which` is RG_SIDE_GAUGES or RG_SIDE_CASES. Each returns the number that the plain entry gave. */
enum { JUDGE_CHAIN, JUDGE_LADDER };
enum { RIVALS, DECIDES };
uint64_t ask_words(uint64_t number);
uint64_t ask_plain_order(uint64_t n);
uint64_t ask_read(const uint8_t *file, size_t n);
uint64_t ask_locate(const uint8_t *file, size_t n, uint64_t either);
uint64_t ask_comment(const uint8_t *file, size_t n, uint64_t k);
uint64_t ask_write(const uint64_t *table, size_t room);
uint64_t ask_sample(uint64_t gauges, uint64_t cases, uint64_t start, uint64_t density);
uint64_t ask_judge(int judge, const uint64_t *table, const uint64_t *chain);
uint64_t ask_start(int which, const uint64_t *table, const uint64_t *order, uint64_t omit);
uint64_t ask_run(int which, const uint64_t *run, uint64_t budget);
uint64_t ask_list(int which, const uint64_t *run, uint64_t budget, size_t room);
uint64_t ask_explain(int which, const uint64_t *run, uint64_t g, uint64_t c);
uint64_t ask_sequence(int which, const uint64_t *table, const uint64_t *order, const uint64_t *ladder);
uint64_t ask_candidates(int which, const uint64_t *run);
uint64_t ask_part(int which, const uint64_t *run, uint64_t number);
uint64_t ask_count(const uint64_t *table, const uint64_t *order, uint64_t budget);
uint64_t ask_grow(const uint64_t *table, const uint64_t *order, const uint64_t *chain);
uint64_t ask_pair(int about, const uint64_t *table, uint64_t g, uint64_t c);
uint64_t ask_cover(const uint64_t *table, uint64_t budget);
uint64_t ask_wiring(const uint64_t *table, const uint64_t *chain, const uint64_t *ladder, size_t room);
uint64_t ask_trial(const uint64_t *table, const uint64_t *ladder, uint64_t g, uint64_t c);
uint64_t ask_commit(const uint64_t *proposal, const uint64_t *table);
uint64_t ask_read_test(const uint8_t *file, size_t n, uint64_t cutoff);
uint64_t ask_write_test(const uint64_t *test, const int32_t *readings, size_t room);
uint64_t ask_equal(const uint64_t *a, const int32_t *readings_a, const uint64_t *b, const int32_t *readings_b);

/* The piece of lent memory, from 0, that is lent one element short of its layout; -1 for none. */
extern int short_piece;

/* --- what it gave: the words or bytes of a lent piece, by its place among them; they stay until the next question. */
const uint64_t *given(int piece);
const uint8_t *given_bytes(int piece);

/* What must hold of the answers besides. */
void must(bool holds, const char *what);

/* --- values to ask with (tables.c) */
typedef uint64_t Table[RG_TABLE_WORDS];
typedef uint64_t Numbers[RG_ORDER_WORDS];
typedef uint64_t Rows[RG_CHAIN_WORDS];

void each_small_table(void (*ask)(const uint64_t *table));
void small_set(uint64_t *words, uint64_t gauges, uint64_t cases, uint64_t pairs);
int arrangements(Numbers *out, uint64_t n);
void in_order(uint64_t *order, uint64_t n);
bool drawn_table(uint64_t *table, uint64_t gauges, uint64_t cases, uint64_t k, int most);
enum { FULL, EMPTY, STAIRS, FALLING, OWN, LACKING };
void square(uint64_t *table, uint64_t n, int pattern);
int ladders_of(const uint64_t *table, Rows *out, int most);
uint64_t picks_of(const uint64_t *table, int which);

#endif
