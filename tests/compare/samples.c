/* Sample tables: shapes, starts and densities against the plain entry, refused ones too; and what is known of the generator: ten states from three
 * starts, which the densities show by their low bytes, and some tables, all worked out by another program from the words of R-13. */
#include "both.h"
#include <string.h>

#define PAPER 88172645463325252u /* the start that Marsaglia's paper uses */

static const uint64_t states[3][11] = {
    {1, 0x40822041, 0x100041060c011441, 0x9b1e842f6e862629, 0xf554f503555d8025, 0x860c1fb090599265, 0xf6b05302e5531801, 0xa2460108ebbd9e71,
     0xc62c9fc114d9590d, 0x7d3e032e9a7908ff, 0x73a397e1324c252e},
    {PAPER, 0x79690975fbde15b0, 0x2a337357ae2cc59b, 0x2fef107a27529ad0, 0xe4093df8432a8be5, 0x71dd0913271687b2, 0xf70abb341875063d, 0x61b97bcd4b21c371,
     0xe845105ed8c77cb7, 0xe77b20aec4233f8e, 0xc9ddc8f042775a71},
    {UINT64_MAX, 0x3f801fc0, 0xfffbffe03feefff, 0x70dc404c67d0de0, 0x3217a46feef88ffb, 0x1d1050f05eb1e024, 0x98001b703bb80ae4, 0x1a26a91db37343f1,
     0xe4016c3bced77936, 0xfb80deae573a5a44, 0x9d56a2f5f1aa3ff0},
};

/* From each state of a list on, the low bytes of those that follow: a pair is there from the density on that is above its byte. */
static void follows(const uint64_t *list) {
    for (int from = 0; from < 10; from++)
        for (uint64_t density = 0; density <= 256; density++) {
            ask_sample(1, 10 - (uint64_t)from, list[from], density);
            uint64_t due = 0;
            for (int i = from + 1; i <= 10; i++)
                if ((list[i] & 255) < density) due |= (uint64_t)1 << (i - from - 1);
            must(given(0)[RG_TABLE_ROWS] == due, "the states of the generator");
        }
}

static void rows_are(uint64_t gauges, uint64_t cases, uint64_t start, uint64_t density, const uint64_t *rows, uint64_t n) {
    must(ask_sample(gauges, cases, start, density) == 0, "a sample is accepted");
    must(given(0)[0] == gauges && given(0)[1] == cases, "the shape of a sample");
    bool all = true;
    for (uint64_t i = 0; i < 64; i++) all = all && (i < n ? given(0)[RG_TABLE_ROWS + i] == rows[i] : i < gauges || given(0)[RG_TABLE_ROWS + i] == 0);
    must(all, "the rows of a sample");
}

static void known(void) {
    static const uint64_t wide[] = {0xfb9063d3f50b82ff}, three[] = {0, 4, 1}, eight[] = {0xf3, 0xf7, 0xcf, 0xde, 0xed, 0xdd, 0x77, 0xff};
    static const uint64_t five[] = {0x224, 0x16c22, 0x2800, 0x808, 0x112f1}, hundred[] = {0x24, 0x2c, 4, 0x19}, all[] = {63, 63, 63, 63}, none[] = {0, 0, 0, 0};
    static const uint64_t tall[] = {4, 0x11, 0, 8, 4, 0xc, 0xb, 0, 0, 5, 0x10, 0, 4, 8, 0x1c, 5, 0x11};
    static const uint64_t large[] = {0x1000000200000, 0x4400200000208000, 0x82024010000010, 0x40004000002810};
    uint64_t column[64];
    for (int i = 0; i < 64; i++) column[i] = wide[0] >> i & 1;
    rows_are(1, 1, 1, 128, column, 1);
    rows_are(1, 64, 1, 128, wide, 1);
    rows_are(64, 1, 1, 128, column, 64);
    rows_are(3, 3, PAPER, 128, three, 3);
    rows_are(8, 8, PAPER, 200, eight, 8);
    rows_are(5, 17, 2, 64, five, 5);
    rows_are(17, 5, 2, 64, tall, 17);
    rows_are(64, 64, UINT64_MAX, 16, large, 4);
    must(given(0)[RG_TABLE_ROWS + 63] == 0x100000000000800, "the last row of a sample");
    rows_are(4, 6, 7, 0, none, 4);
    rows_are(4, 6, 7, 1, none, 4);
    rows_are(4, 6, 7, 100, hundred, 4);
    rows_are(4, 6, 7, 255, all, 4);
    rows_are(4, 6, 7, 256, all, 4);
}

/* Every mixture of numbers that are taken and refused: 10 comes before 28. */
static void numbers(void) {
    static const uint64_t sizes[] = {0, 1, 2, 63, 64, 65, 257, (uint64_t)1 << 32 | 1, UINT64_MAX}, starts[] = {0, 1, PAPER, (uint64_t)1 << 63, UINT64_MAX};
    static const uint64_t densities[] = {0, 1, 128, 255, 256, 257, (uint64_t)1 << 32, UINT64_MAX};
    for (int g = 0; g < 9; g++)
        for (int c = 0; c < 9; c++)
            for (int s = 0; s < 5; s++)
                for (int d = 0; d < 8; d++)
                    for (short_piece = -1; short_piece < 1; short_piece++) ask_sample(sizes[g], sizes[c], starts[s], densities[d]);
    short_piece = -1;
}

void samples(void) {
    for (int i = 0; i < 3; i++) follows(states[i]);
    known();
    numbers();
    for (uint64_t k = 0; k < 500; k++) ask_sample(1 + k % 64, 1 + k * 7 % 64, k * 0x9e3779b97f4a7c15u + 1, k * 3 % 257);
}
