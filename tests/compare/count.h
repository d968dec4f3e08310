/* What main.c counts by: the questions asked and the differences found so far, and how many answers of the entries no question got. */
#ifndef COUNT_H
#define COUNT_H

#include <stdint.h>

extern uint64_t asked, differences;
int unseen_answers(void);

#endif
