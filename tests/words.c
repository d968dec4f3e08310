/* Writes the number of the release, and a line for each number up to 200 that has words of its own: the number and its words. .ci/library-tests and
 * .ci/planner-tests hold VERSION, docs/MANUAL.md and the help to them. The exit status is 0 where every number had words, with a zero right behind them. */
#include "ragymolev.h"
#include <stdio.h>
#include <string.h>

int main(void) {
    uint8_t none[RG_WORDS_BYTES], words[RG_WORDS_BYTES];
    uint64_t length[RG_ONE_WORDS], number;
    if (rg_words(UINT64_MAX, none, RG_WORDS_BYTES, length, RG_ONE_WORDS)) return 1;
    printf("%llu\n", (unsigned long long)rg_version());
    for (number = 1; number <= 200; number++) {
        if (rg_words(number, words, RG_WORDS_BYTES, length, RG_ONE_WORDS) || strlen((const char *)words) != length[0]) return 1;
        if (memcmp(words, none, RG_WORDS_BYTES)) printf("%llu %s\n", (unsigned long long)number, (const char *)words);
    }
    return 0;
}
