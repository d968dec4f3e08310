/* Changes of inputs: of one piece, its bytes, blocks, lines and numbers, words of the formats, and what another input has in the same place; of the words of
 * a command also their order and number. A change is made of some of these. */
#include "rim.h"
#include <stdio.h>
#include <string.h>

/* A change in so many goes to a piece beside the one that a target is about. */
#define BESIDE 8
/* And one in so many makes a long line or a long file. */
#define LONG 64

static uint64_t state;

void set_seed(uint64_t seed) { state = seed; }

uint64_t state_of_numbers(void) { return state; }

/* Splitmix64. */
static uint64_t any(void) {
    uint64_t z = state += 0x9e3779b97f4a7c15u;
    z = (z ^ z >> 30) * 0xbf58476d1ce4e5b9u;
    z = (z ^ z >> 27) * 0x94d049bb133111ebu;
    return z ^ z >> 31;
}

size_t below(size_t n) { return n ? (size_t)(any() % n) : 0; }

/* A block of a piece: mostly a short one. */
static size_t block_at(const Piece *piece, size_t *length) {
    size_t at = below(piece->length), left = piece->length - at;
    *length = left ? 1 + below(below(4) ? (left < 16 ? left : 16) : left) : 0;
    return at;
}

/* --- changes of one piece */

static void change_bit(Piece *piece) {
    if (piece->length) piece->bytes[below(piece->length)] ^= (uint8_t)(1 << below(8));
}

static void change_byte(Piece *piece) {
    static const char likely[] = "0123456789 \n\r\t%,/-:=+.eEx\xff\xef\x80";
    uint8_t byte = (uint8_t)(below(4) ? likely[below(sizeof likely)] : (int)below(256));
    if (piece->length) piece->bytes[below(piece->length)] = byte;
}

static void add_byte(Piece *piece) {
    uint8_t byte = (uint8_t)any();
    replace(piece, below(piece->length + 1), 0, &byte, 1);
}

static void drop_block(Piece *piece) {
    size_t length, at = block_at(piece, &length);
    replace(piece, at, length, "", 0);
}

static void copy_block(Piece *piece) {
    size_t length, at = block_at(piece, &length), to = below(piece->length + 1);
    replace(piece, to, 0, piece->bytes + at, length);
}

static void copy_over(Piece *piece) {
    size_t length, at = block_at(piece, &length), to = below(piece->length + 1), left = piece->length - to;
    replace(piece, to, left < length ? left : length, piece->bytes + at, length);
}

static void cut_end(Piece *piece) {
    size_t at = below(piece->length + 1);
    replace(piece, at, piece->length - at, "", 0);
}

static void put_token(Piece *piece) {
    const char *token = tokens[below(token_count)];
    size_t at = below(piece->length + 1), left = piece->length - at, length = strlen(token), cut = below(2) ? 0 : length;
    replace(piece, at, cut < left ? cut : left, token, length);
}

static bool is_digit(uint8_t byte) { return byte >= '0' && byte <= '9'; }

/* The number at some place or behind it becomes another one: one more or less, or a number of the tokens. */
static void change_number(Piece *piece) {
    size_t at = below(piece->length), end;
    char text[32];
    unsigned long long value = 0;
    while (at < piece->length && !is_digit(piece->bytes[at])) at++;
    for (end = at; end < piece->length && is_digit(piece->bytes[end]) && end - at < 19; end++) value = value * 10 + (unsigned)(piece->bytes[end] - '0');
    if (end == at) return;
    const char *token = tokens[below(token_count)];
    snprintf(text, sizeof text, "%llu", below(2) ? value + 1 : value - (value > 0));
    if (below(4) == 0 && is_digit((uint8_t)token[0])) replace(piece, at, end - at, token, strlen(token));
    else replace(piece, at, end - at, text, strlen(text));
}

/* A line, with its end: where it starts, and how long it is. */
static size_t line_at(const Piece *piece, size_t *length) {
    size_t at = below(piece->length), end = at;
    while (at && piece->bytes[at - 1] != '\n') at--;
    while (end < piece->length && piece->bytes[end++] != '\n') {}
    *length = end - at;
    return at;
}

static void drop_line(Piece *piece) {
    size_t length, at = line_at(piece, &length);
    replace(piece, at, length, "", 0);
}

/* A line once more, ahead of some line. */
static void copy_line(Piece *piece) {
    size_t length, ignored, at = line_at(piece, &length), to = line_at(piece, &ignored);
    replace(piece, to, 0, piece->bytes + at, length);
}

/* A line ahead of another one, in place of where it was. */
static void move_line(Piece *piece) {
    size_t length, ignored, at = line_at(piece, &length), to = line_at(piece, &ignored), before = piece->length;
    replace(piece, to, 0, piece->bytes + at, length);
    if (piece->length == before + length) replace(piece, at + (to <= at ? length : 0), length, "", 0);
}

/* A block so often that a line or a file comes to some bound, or beyond it. */
static void make_long(Piece *piece) {
    static const size_t bounds[] = {64, 256, 512, 1024, 1025, 4096, 65536, 65537, 70000, 131072};
    static uint8_t made[131072 + 16];
    size_t most = bounds[below(sizeof bounds / sizeof bounds[0])] + below(16) - 8, length, at = block_at(piece, &length), filled = 0;
    if (!length || below(LONG)) return;
    while (filled < most) made[filled] = piece->bytes[at + filled % length], filled++;
    replace(piece, at, 0, made, filled);
}

static void (*const changes[])(Piece *) = {change_bit, change_byte, add_byte, drop_block, copy_block, copy_over, cut_end, put_token, put_token,
                                           change_number, change_number, change_number, drop_line, copy_line, move_line, make_long};

/* --- what another input has */

static void take_from_other(Piece *piece, const Piece *other) {
    size_t length, from = block_at(other, &length), at = below(piece->length + 1), left = piece->length - at;
    if (below(2)) replace(piece, at, left, other->bytes + from, other->length - from);
    else replace(piece, at, below(2) ? 0 : (left < length ? left : length), other->bytes + from, length);
}

static void change_piece(Piece *piece, const Piece *other) {
    if (other && !below(8)) take_from_other(piece, other);
    else changes[below(sizeof changes / sizeof changes[0])](piece);
}

/* --- the words of a command */

static void change_words(Input *input, const Input *other) {
    size_t at = below(input->words), to = below(input->words + 1);
    const char *token = tokens[below(token_count)];
    const Piece *from = other->words ? &other->piece[below(other->words)] : NULL;
    switch (below(8)) {
    case 0: add_piece(input, to, "", token, strlen(token)); break;
    case 1: if (from) add_piece(input, to, "", from->bytes, from->length); break;
    case 2: if (input->words > 1) drop_piece(input, at); break;
    case 3: if (input->words) add_piece(input, to, "", input->piece[at].bytes, input->piece[at].length); break;
    case 4: if (input->words) set_bytes(&input->piece[at], token, strlen(token)); break;
    case 5: if (input->words && from) set_bytes(&input->piece[at], from->bytes, from->length); break;
    default: if (input->words) change_piece(&input->piece[at], from);
    }
}

/* --- which piece */

/* The word behind an option; the number of pieces where there is none. */
static size_t word_behind(const Input *input, const char *option) {
    for (size_t i = 0; i + 1 < input->words; i++)
        if (input->piece[i].length == strlen(option) && !memcmp(input->piece[i].bytes, option, strlen(option))) return i + 1;
    return input->count;
}

/* Some file, mostly one that is not the table, where the target is about others. */
static size_t some_file(const Input *input, bool tables) {
    size_t files = input->count - input->words, at = input->words + below(files);
    for (int tries = 0; tries < 4 && !tables && !strcmp(input->piece[at].name, "table") && below(BESIDE); tries++) at = input->words + below(files);
    return at;
}

/* The piece that is changed. A target is about the words, `*`; about the word behind an option; about the files that are not the table; or about all files,
 * `table`. */
static size_t piece_of(const Input *input, const char *focus) {
    size_t word = focus[0] == '-' && below(BESIDE) ? word_behind(input, focus) : input->count;
    if (word < input->count) return word;
    return input->words < input->count ? some_file(input, focus[0] != 0) : below(input->words);
}

void change_input(Input *input, const Input *other, const char *focus) {
    for (size_t left = 1 + below(1 + below(6)); left; left--) {
        if (focus[0] == '*' && below(BESIDE)) {
            change_words(input, other);
            continue;
        }
        size_t at = piece_of(input, focus);
        if (at >= input->count) return;
        const Piece *piece = &input->piece[at], *same = piece->name[0] ? piece_named(other, piece->name) : NULL;
        if (!piece->name[0] && at < other->words) same = &other->piece[at];
        change_piece(&input->piece[at], same);
    }
    clean_words(input);
}
