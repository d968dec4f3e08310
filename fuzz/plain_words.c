/* What a caller asks beside the questions of the core: a number in words, and the plain order. */
#include "plain.h"
#include <string.h>

static const char *const texts[] = {
    "accepted",
    "file longer than 65,536 bytes",
    "first line is not the banner",
    "line longer than 1,024 bytes",
    "size line absent or not three fields",
    "G or L not in 1..64",
    "pair line not two fields",
    "g or c outside 1..G, 1..L",
    "pair repeated",
    "more or fewer than N pairs",
    "G or L not in 1..64",
    "a bit at L or above, or a row past G not zero",
    "row count not G",
    "a pair not in the table",
    "not a chain",
    "a value that no moves from a fresh start lead to",
    "buffer too short",
    "no such comment",
    "budget above 1,000,000",
    "the pair named is not in the table",
    "reading outside -1,000,000..1,000,000",
    "cutoff not in 1..1,000,000",
    "the pair is in the ladder",
    "G or L above 8",
    "more than 1,024 ladders",
    "not a ladder of the table",
    "the proposal is not what the trial on the current table gives",
    "the preference is no arrangement",
    "the start is zero or the density above 256",
};

uint64_t plain_words(uint64_t number, uint8_t *words, size_t words_n, uint64_t *length, size_t length_n) {
    const char *text = number == 100 ? "lent memory is shorter than its layout" : "a number without words";
    if (number < sizeof texts / sizeof texts[0]) text = texts[number];
    if (words_n < 80 || length_n < 1) return 100;
    for (size_t i = 0; i < 80; i++) words[i] = i < strlen(text) ? (uint8_t)text[i] : 0;
    length[0] = strlen(text);
    return 0;
}

uint64_t plain_plain_order(uint64_t n, uint64_t *order, size_t order_n) {
    if (order_n < 64) return 100;
    if (n < 1 || n > 64) return 10;
    for (uint64_t i = 0; i < 64; i++) order[i] = i < n ? i + 1 : 0;
    return 0;
}
