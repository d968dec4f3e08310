/* Words of every small number and of some large ones, and the plain order of every number of gauges, refused ones too, with memory lent short or not. The
 * plain order of a table is taken by a start of both sides. */
#include "both.h"

static const uint64_t large[] = {255, 256, 257, 356, (uint64_t)1 << 32, (uint64_t)1 << 32 | 14, (uint64_t)1 << 63, UINT64_MAX};
enum { LARGE = sizeof large / sizeof large[0] };

static void words_of(uint64_t number) {
    for (short_piece = -1; short_piece < 2; short_piece++) {
        ask_words(number);
        if (short_piece < 0) must(given(1)[0] > 0 && given(1)[0] < RG_WORDS_BYTES && given_bytes(0)[given(1)[0]] == 0, "words end with a zero");
    }
    short_piece = -1;
}

static void order_of(uint64_t n) {
    for (short_piece = 0; short_piece > -2; short_piece--) ask_plain_order(n);
    short_piece = -1;
    if (n < 1 || n > 64) return;
    Numbers order;
    Table table = {n, n};
    ask_plain_order(n);
    for (int i = 0; i < RG_ORDER_WORDS; i++) order[i] = given(0)[i];
    must(ask_start(RG_SIDE_GAUGES, table, order, 0) == 0, "the plain order of the gauges is taken");
    must(ask_start(RG_SIDE_CASES, table, order, 0) == 0, "the plain order of the cases is taken");
}

void support(void) {
    for (uint64_t i = 0; i < 200; i++) words_of(i);
    for (uint64_t i = 0; i < 100; i++) order_of(i);
    for (int i = 0; i < LARGE; i++) {
        words_of(large[i]);
        order_of(large[i]);
    }
    must(rg_version() == RG_VERSION, "the release of the header and of the library");
}
