/* See generate.h. A table has at most 16 pairs, in up to 64 by 64 places, so that its chains can be enumerated. Damage is mostly small: one word, one
 * byte, one number too many; a value that is wrong all over is refused by the first check and shows little. */
#include "generate.h"
#include <stdio.h>
#include <stdlib.h>
#include <string.h>

static uint64_t state;

void set_seed(uint64_t seed) { state = seed; }

/* Splitmix64: every seed gives numbers of its own, so that each input can be made again alone. */
uint64_t any(void) {
    uint64_t z = state += 0x9e3779b97f4a7c15u;
    z = (z ^ z >> 30) * 0xbf58476d1ce4e5b9u;
    z = (z ^ z >> 27) * 0x94d049bb133111ebu;
    return z ^ z >> 31;
}

int below(int n) { return (int)(any() % (uint64_t)n); }

bool chance(int one_in) { return below(one_in) == 0; }

/* --- tables */

static void fill(uint64_t *table, int gauges, int cases, int eighths) {
    memset(table, 0, 66 * sizeof *table);
    table[0] = (uint64_t)gauges;
    table[1] = (uint64_t)cases;
    for (int g = 0; g < gauges; g++)
        for (int c = 0; c < cases; c++)
            if (below(8) < eighths) table[2 + g] |= (uint64_t)1 << c;
}

/* Of a table up to 4 by 4, the rows and columns put to random places of a larger one, the last of both often among them. */
static void spread(uint64_t *table) {
    uint64_t small[66];
    int gauges = chance(2) ? 64 : 5 + below(60), cases = chance(2) ? 64 : 5 + below(60), at[4];
    memcpy(small, table, sizeof small);
    memset(table, 0, 66 * sizeof *table);
    table[0] = (uint64_t)gauges;
    table[1] = (uint64_t)cases;
    for (int c = 0; c < 4; c++) at[c] = c == 3 && chance(2) ? cases - 1 : below(cases);
    for (int g = 0; g < 4; g++) {
        int row = g == 3 && chance(2) ? gauges - 1 : below(gauges);
        table[2 + row] = 0;
        for (int c = 0; c < 4; c++)
            if (small[2 + g] >> c & 1) table[2 + row] |= (uint64_t)1 << at[c];
    }
}

void make_table(uint64_t *table) {
    int shape = below(20), eighths = 1 + below(8);
    if (shape < 12) {
        fill(table, 1 + below(4), 1 + below(4), eighths);
    } else if (shape == 12) {
        fill(table, 4, 4, 8);
        for (int g = 0; g < 4; g++) table[2 + g] ^= (uint64_t)1 << g;
    } else if (shape < 15) {
        int cases = 1 + below(2);
        fill(table, 1 + below(16 / cases), cases, eighths);
    } else if (shape < 17) {
        int gauges = 1 + below(2);
        fill(table, gauges, 1 + below(16 / gauges), eighths);
    } else {
        fill(table, 4, 4, eighths);
        spread(table);
    }
}

/* A number that changes a word in a way that a narrower type would not notice, or only just. */
static uint64_t changed(uint64_t word) {
    switch (below(8)) {
    case 0: return word + 256;
    case 1: return word + ((uint64_t)1 << 32);
    case 2: return word | (uint64_t)1 << 63;
    case 3: return ~(uint64_t)0;
    case 4: return word - 1;
    case 5: return word + 1;
    case 6: return (uint64_t)below(6);
    default: return word ^ (uint64_t)1 << below(64);
    }
}

static void change_one(uint64_t *word) { *word = changed(*word); }

void damage_words(uint64_t *words, int n) {
    int at = below(chance(2) && n > 6 ? 6 : n);
    if (chance(6)) {
        int other = below(n);
        uint64_t word = words[at];
        words[at] = words[other];
        words[other] = word;
    } else {
        change_one(&words[at]);
    }
}

static void change_table(uint64_t *table) {
    int gauges = (int)table[0], cases = (int)table[1];
    switch (below(6)) {
    case 0: table[below(2)] = 0; break;
    case 1: table[below(2)] = 65; break;
    case 2: if (cases < 64) table[2 + below(gauges)] |= (uint64_t)1 << (cases + below(64 - cases)); break;
    case 3: if (gauges < 64) table[2 + gauges + below(64 - gauges)] |= (uint64_t)1 << below(64); break;
    default: damage_words(table, 66);
    }
}

/* What is legal all the same keeps few pairs. */
void damage_table(uint64_t *table) {
    uint64_t before[66];
    memcpy(before, table, sizeof before);
    change_table(table);
    Set pairs = table_set(table);
    if (!table_refusal(table) && size_of(&pairs) > 16) memcpy(table, before, sizeof before);
}

/* --- orders, chains, runs of a legal table */

void make_order(uint64_t *order, uint64_t n) {
    memset(order, 0, 64 * sizeof *order);
    for (uint64_t i = 0; i < n; i++) order[i] = i + 1;
    bool mixed = !chance(3);
    for (uint64_t i = n - 1; mixed && i > 0; i--) {
        uint64_t j = any() % (i + 1), number = order[i];
        order[i] = order[j];
        order[j] = number;
    }
}

void make_ladder(const uint64_t *table, uint64_t *chain) {
    static Set found[PLAIN_LADDERS];
    Side side;
    Set t = table_set(table);
    plain_side(&side, (int)table[0], (int)table[1], &t);
    int n = leaves(&side, PLAIN_LADDERS, found);
    put_chain(chain, table[0], &found[below(n)]);
}

/* A ladder, a part of one, or any pairs of the table. */
void make_chain(const uint64_t *table, uint64_t *chain) {
    if (chance(4)) {
        chain[0] = table[0];
        for (int i = 0; i < 64; i++) chain[1 + i] = table[2 + i] & any();
    } else {
        bool part = !chance(3);
        make_ladder(table, chain);
        for (int i = 0; part && i < 64; i++) chain[1 + i] &= chance(3) ? any() : ~(uint64_t)0;
    }
}

/* A run after some of its moves; where `handed`, after its last hand-out among these. */
void make_run(uint64_t *run, int which, bool handed) {
    uint64_t table[66], order[64];
    Side side;
    State now = {.phase = RG_PHASE_DOWN}, then = now;
    make_table(table);
    make_order(order, table[which == RG_SIDE_GAUGES ? 0 : 1]);
    side_of(&side, which, table, order);
    int moves = below(chance(2) ? 8 : 80);
    for (int i = 0; i < moves || (handed && then.phase != RG_PHASE_HANDED); i++)
        if (move(&side, &now) == GAVE) then = now;
    put_run(run, which, table, order, handed ? &then : &now, chance(3));
}

/* Small changes of the few words that a run turns on, more than one of them at times; or any word. */
void damage_run(uint64_t *run) {
    for (int i = chance(3) ? 2 : 1; i > 0; i--) {
        int n = (int)(run[0] == 1 ? run[1] : run[2]);
        switch (below(10)) {
        case 0: run[RG_RUN_PHASE] = (uint64_t)below(5); break;
        case 1: run[RG_RUN_FROM] = (uint64_t)below(n + 2); break;
        case 2: run[RG_RUN_COUNT] = (uint64_t)below(n + 2); break;
        case 3: run[RG_RUN_PICKS + below(n)] = (uint64_t)below(n + 2); break;
        case 4: run[RG_RUN_OMIT] ^= chance(2) ? 1 : 3; break;
        case 5: run[RG_RUN_SIDE] = (uint64_t)below(4); break;
        case 6: damage_words(run + RG_RUN_PICKS, 68); break;
        case 7: damage_words(run + RG_RUN_ORDER, 64); break;
        case 8: change_one(run + RG_RUN_COUNT + below(4)); break;
        default: run[below(199)] ^= (uint64_t)1 << below(64);
        }
        if (run[1] < 1 || run[1] > 64 || run[2] < 1 || run[2] > 64) return;
    }
}

/* --- numbers */

uint64_t make_number(uint64_t greatest) {
    return chance(12) ? changed(greatest) : chance(16) ? 0 : 1 + any() % greatest;
}

uint64_t make_budget(int usual) {
    if (chance(12)) return 1000000;
    if (chance(12)) return chance(2) ? 1000001 : any();
    return (uint64_t)below(usual);
}

/* --- recorded tests */

/* Often a multiple of 100, so that a cutoff is reached exactly. */
static int32_t reading(void) {
    if (chance(4)) return 0;
    if (chance(2)) return 100 * (below(21) - 10);
    if (chance(8)) return chance(2) ? 1000000 : -1000000;
    return below(2001) - 1000;
}

void make_test(uint64_t *test, int32_t *readings) {
    int gauges = 1 + below(chance(8) ? 64 : 4), cases = 1 + below(chance(8) ? 64 : 4);
    test[0] = chance(3) ? RG_PATTERN : RG_INTEGER;
    fill(test + 1, gauges, cases, chance(30) ? 8 : below(9));
    memset(readings, 0, RG_READINGS * sizeof *readings);
    for (int g = 0; test[0] == RG_INTEGER && g < gauges; g++)
        for (int c = 0; c < cases; c++)
            if (test[3 + g] >> c & 1) readings[g * 64 + c] = reading();
}

void damage_test(uint64_t *test, int32_t *readings) {
    int gauges = (int)test[1], cases = (int)test[2], place = chance(2) ? below(gauges) * 64 + below(cases) : below(RG_READINGS);
    switch (below(6)) {
    case 0: test[0] = chance(2) ? 3 - test[0] : changed(test[0]); break;
    case 1: damage_table(test + 1); break;
    case 2: readings[place] = reading(); break;
    case 3: readings[place] = chance(2) ? 1000001 : -1000001; break;
    case 4: readings[place] = chance(2) ? INT32_MIN : INT32_MAX; break;
    default: test[3 + below(gauges)] ^= (uint64_t)1 << below(cases);
    }
}

/* --- files */

typedef struct {
    uint8_t *at;
    size_t n;
} Text;

static void put(Text *text, const char *bytes) {
    size_t n = strlen(bytes);
    memcpy(text->at + text->n, bytes, n);
    text->n += n;
}

static void put_blanks(Text *text, int least) {
    put(text, &"   "[3 - least]);
    while (chance(6)) put(text, chance(2) ? " " : "\t");
}

static void put_end(Text *text, bool carriage) { put(text, carriage ? "\r\n" : "\n"); }

static void put_banner(Text *text, bool integer) {
    size_t start = text->n;
    bool capitals = chance(4);
    put(text, integer ? "%%MatrixMarket matrix coordinate integer general" : "%%MatrixMarket matrix coordinate pattern general");
    for (size_t i = start + 15; capitals && i < text->n; i++)
        if (text->at[i] >= 'a' && text->at[i] <= 'z' && chance(2)) text->at[i] = (uint8_t)(text->at[i] - 'a' + 'A');
}

/* A comment; at times as long as a line may be, or one byte longer. */
static void put_comment(Text *text) {
    size_t n = chance(40) ? (size_t)(1022 + below(3)) : (size_t)below(12);
    put(text, "%");
    for (size_t i = 0; i < n; i++) text->at[text->n++] = (uint8_t)(' ' + below(90));
}

static void put_field(Text *text, int64_t value, bool last) {
    char field[32];
    const char *sign = value < 0 ? "-" : last && chance(8) ? "+" : "";
    snprintf(field, sizeof field, "%s%0*lld", sign, chance(10) ? below(11) : 1, (long long)(value < 0 ? -value : value));
    put(text, field);
}

/* A pair seldom comes twice, and then half the time with a reading that is out of range too: two refusals of which one comes first. */
static void put_entries(Text *text, int gauges, int cases, int n, bool integer, bool carriage) {
    bool used[4096] = {false};
    for (int i = 0; i < n;) {
        int g = below(gauges), c = below(cases);
        bool again = used[g * 64 + c];
        if (again && !chance(60)) continue;
        used[g * 64 + c] = true;
        put_blanks(text, 0);
        put_field(text, g + 1, false);
        put_blanks(text, 1);
        put_field(text, c + 1, false);
        if (integer) put_blanks(text, 1);
        if (integer) put_field(text, chance(again ? 2 : 60) ? 1000001 : reading(), true);
        put_blanks(text, 0);
        put_end(text, carriage);
        if (chance(20)) put_end(text, carriage);
        i++;
    }
}

size_t make_file(uint8_t *file, bool integer) {
    Text text = {file, 0};
    int gauges = 1 + below(chance(4) ? 64 : 4), cases = 1 + below(chance(4) ? 64 : 4), most = gauges * cases;
    int n = below((most < 24 ? most : 24) + 1);
    bool carriage = chance(5);
    put_banner(&text, integer);
    put_end(&text, carriage);
    while (!chance(3)) {
        if (chance(4)) put_blanks(&text, 0);
        else put_comment(&text);
        put_end(&text, carriage);
    }
    put_field(&text, chance(60) ? 65 * below(2) : gauges, false);
    put_blanks(&text, 1);
    put_field(&text, cases, false);
    put_blanks(&text, 1);
    put_field(&text, chance(30) ? below(9) : n, false);
    put_blanks(&text, 0);
    put_end(&text, carriage);
    put_entries(&text, gauges, cases, n, integer, carriage);
    if (chance(10)) text.n -= carriage && chance(2) ? 2 : 1; /* the last line without its end, or with a CR that no LF follows */
    return text.n;
}

/* Blank lines up to about the greatest length of a file. */
static size_t lengthen(uint8_t *file, size_t n) {
    size_t to = (size_t)(65534 + below(5));
    while (n < to) file[n++] = '\n';
    return n;
}

static size_t cut(uint8_t *file, size_t n, size_t from, size_t count) {
    if (count > n - from) count = n - from;
    memmove(file + from, file + from + count, n - from - count);
    return n - count;
}

static size_t repeat(uint8_t *file, size_t n, size_t from, size_t count) {
    if (count > n - from) count = n - from;
    memmove(file + from + count, file + from, n - from);
    return n + count;
}

/* The start of the line behind the byte at `from`, and its bytes with the end. */
static size_t line_behind(const uint8_t *file, size_t n, size_t from, size_t *length) {
    while (from < n && file[from] != '\n') from++;
    from = from < n ? from + 1 : n;
    for (*length = 0; from + *length < n && file[from + *length] != '\n'; ++*length) {}
    *length += from + *length < n;
    return from;
}

/* Mostly behind the banner: a damaged banner hides all else. */
size_t damage_file(uint8_t *file, size_t n) {
    static const char bytes[] = "0123456789 \t\r\n%+-.aZ\v";
    if (n == 0 || n > LONGEST_MADE - 2000) return n;
    size_t banner = n > 49 && !chance(12) ? 49 : 0, at = banner + (size_t)below((int)(n - banner)), length;
    size_t line = line_behind(file, n, at, &length);
    switch (below(9)) {
    case 0: return cut(file, n, line, length);
    case 1: return repeat(file, n, line, length);
    case 2: return cut(file, n, at, 1);
    case 3: return chance(8) ? cut(file, n, at, n) : cut(file, n, at, 1 + (size_t)below(4));
    case 4: n = repeat(file, n, at, 1); break;
    case 5: return chance(6) ? lengthen(file, n) : n;
    case 6: file[at] ^= (uint8_t)(1 << below(8)); return n;
    default: break;
    }
    file[at] = (uint8_t)bytes[below(sizeof bytes)];
    return n;
}
