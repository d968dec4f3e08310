/* What the tests of the library share: a check that says where it fails, and the last line. */
#ifndef CHECK_H
#define CHECK_H

#include "ragymolev.h"
#include <stdio.h>
#include <string.h>

static int checked, failed;

static void check(int holds, const char *what, int line) {
    checked++;
    if (holds) return;
    failed++;
    printf("line %d: not so: %s\n", line, what);
}

#define CHECK(holds) check(holds, #holds, __LINE__)

static int end_of_checks(void) {
    printf("%d checks, %d failed\n", checked, failed);
    return failed != 0;
}

/* K3, rows {1,2} {1,2} {2,3}: ladders 1:1 1:2 2:1 2:2 3:2, then 1:2 2:2 3:2 3:3. */
static const uint64_t k3[RG_TABLE_WORDS] = {3, 3, 3, 3, 6};
static const uint64_t plain_of_3[RG_ORDER_WORDS] = {1, 2, 3};

#endif
