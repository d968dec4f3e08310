/* What pairs.c does with one table up to 8 by 8, for other themes. */
#ifndef PAIRS_H
#define PAIRS_H

#include <stdint.h>

void ask_pairs(const uint64_t *table);

#endif
