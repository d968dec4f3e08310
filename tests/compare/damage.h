/* What damage.c does with one table, for other themes. */
#ifndef DAMAGE_H
#define DAMAGE_H

#include <stdint.h>

void ask_damaged(const uint64_t *table);

#endif
