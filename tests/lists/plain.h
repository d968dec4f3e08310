/* Tables of up to 3 by 3, their sets of pairs as nine bits, and what `planner check` has to say of a list: plainly, from the definitions, without the library
 * and without the command. plain.c has it; main.c makes the lists. */
#ifndef PLAIN_H
#define PLAIN_H

#include <stdbool.h>
#include <stddef.h>

#define SIDE 3
#define MOST_LADDERS 6
#define MOST_ENTRIES 16

/* A set: bit 3 g + c for the gauge g and the case c, from 0. */
typedef unsigned Set;

typedef struct {
    int gauges, cases;
    bool by_cases;
    Set pairs;
    int count;                        /* its ladders, in order, and their pick sequences from 1 with zeros behind */
    Set ladder[MOST_LADDERS];
    int picks[MOST_LADDERS][SIDE + 1];
    int plain_count;                  /* the same in plain gauge order, in which chains grow */
    Set plain[MOST_LADDERS];
} Table;

/* An entry: a set as a file of so many gauges, or picks as a line. */
typedef struct {
    Set set;
    int gauges;
    int picks[SIDE + 2];
} Entry3;

typedef struct {
    int count;
    Entry3 entry[MOST_ENTRIES];
} List3;

void make_table(Table *table, int gauges, int cases, Set pairs, bool by_cases);
size_t write_list(const Table *table, const List3 *list, bool picks, char *text);
int due_verdict(const Table *table, const List3 *list, bool picks, char *text);

#endif
