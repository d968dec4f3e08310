/* Inputs: pieces of bytes, their file, and what changes are made of. See rim.h. */
#include "rim.h"
#include <stdio.h>
#include <stdlib.h>
#include <string.h>

#define HEAD "--- "

static uint8_t *room_for(size_t length) {
    uint8_t *bytes = malloc(length ? length : 1);
    if (bytes) return bytes;
    fputs("fuzz-command: no memory\n", stderr);
    exit(2);
}

/* The bytes may be some of the piece itself. */
void set_bytes(Piece *piece, const void *bytes, size_t length) {
    uint8_t *copy = room_for(length);
    if (length) memcpy(copy, bytes, length);
    free(piece->bytes);
    piece->bytes = copy;
    piece->length = length;
}

/* Puts other bytes in the place of some; nothing where the piece would become too long. */
void replace(Piece *piece, size_t at, size_t cut, const void *bytes, size_t length) {
    size_t left = piece->length - cut;
    if (left + length > MOST_BYTES) return;
    uint8_t *made = room_for(left + length);
    if (at) memcpy(made, piece->bytes, at);
    if (length) memcpy(made + at, bytes, length);
    if (left > at) memcpy(made + at + length, piece->bytes + at + cut, left - at);
    free(piece->bytes);
    piece->bytes = made;
    piece->length = left + length;
}

/* A word where the name is empty; null where there are too many pieces. */
Piece *add_piece(Input *input, size_t at, const char *name, const void *bytes, size_t length) {
    Piece *piece = &input->piece[at];
    if (input->count == MOST_PIECES || length > MOST_BYTES) return NULL;
    memmove(piece + 1, piece, (input->count - at) * sizeof *piece);
    *piece = (Piece){.length = 0};
    snprintf(piece->name, sizeof piece->name, "%s", name);
    set_bytes(piece, bytes, length);
    input->count++;
    input->words += !name[0];
    return piece;
}

void drop_piece(Input *input, size_t at) {
    Piece *piece = &input->piece[at];
    input->words -= !piece->name[0];
    free(piece->bytes);
    input->count--;
    memmove(piece, piece + 1, (input->count - at) * sizeof *piece);
}

Piece *piece_named(const Input *input, const char *name) {
    for (size_t i = input->words; i < input->count; i++)
        if (!strcmp(input->piece[i].name, name)) return (Piece *)&input->piece[i];
    return NULL;
}

/* A word is a line of the file, and an argument: it has no line end, no end mark, and does not begin like a file's line. */
void clean_words(Input *input) {
    for (size_t i = 0; i < input->words; i++) {
        Piece *word = &input->piece[i];
        for (size_t j = 0; j < word->length; j++)
            if (word->bytes[j] == '\n' || !word->bytes[j]) word->bytes[j] = ' ';
        if (word->length >= strlen(HEAD) && !memcmp(word->bytes, HEAD, strlen(HEAD))) word->bytes[0] = '+';
    }
}

/* A name is of letters, digits and points, or `-`: no file is made outside the folder, or in it beside the names. */
static bool is_name(const char *name) {
    if (!strcmp(name, "-")) return true;
    return name[0] && name[0] != '.' && strspn(name, "abcdefghijklmnopqrstuvwxyz0123456789.") == strlen(name);
}

/* A file of an input, behind the line that has its name and its length. */
static bool take_file(const char *line, const uint8_t **at, const uint8_t *end, Input *input) {
    char name[NAME_ROOM];
    size_t length;
    if (sscanf(line, HEAD "%15s %zu", name, &length) != 2 || !is_name(name)) return false;
    if ((size_t)(end - *at) < length + 1 || (*at)[length] != '\n' || !add_piece(input, input->count, name, *at, length)) return false;
    *at += length + 1;
    return true;
}

bool parse_input(const uint8_t *bytes, size_t length, Input *input) {
    const uint8_t *at = bytes, *end = bytes + length, *stop;
    char line[64];
    *input = (Input){.count = 0};
    while (at < end && (stop = memchr(at, '\n', (size_t)(end - at)))) {
        size_t size = (size_t)(stop - at);
        bool head = size >= strlen(HEAD) && !memcmp(at, HEAD, strlen(HEAD));
        if (!head && (input->words < input->count || !add_piece(input, input->count, "", at, size))) return false;
        snprintf(line, sizeof line, "%.*s", (int)(size < sizeof line ? size : sizeof line - 1), (const char *)at);
        at = stop + 1;
        if (head && !take_file(line, &at, end, input)) return false;
    }
    return at == end;
}

static void append(Piece *text, size_t *at, const void *bytes, size_t length) {
    if (length) memcpy(text->bytes + *at, bytes, length);
    *at += length;
}

void text_of_input(const Input *input, Piece *text) {
    size_t length = 0, at = 0;
    char line[64];
    for (size_t i = 0; i < input->count; i++) length += input->piece[i].length + sizeof line;
    free(text->bytes);
    text->bytes = room_for(length);
    for (size_t i = 0; i < input->count; i++) {
        const Piece *piece = &input->piece[i];
        int head = piece->name[0] ? snprintf(line, sizeof line, HEAD "%s %zu\n", piece->name, piece->length) : 0;
        append(text, &at, line, (size_t)head);
        append(text, &at, piece->bytes, piece->length);
        append(text, &at, "\n", 1);
    }
    text->length = at;
}

void copy_input(const Input *from, Input *to) {
    *to = (Input){.count = 0};
    for (size_t i = 0; i < from->count; i++) add_piece(to, i, from->piece[i].name, from->piece[i].bytes, from->piece[i].length);
}

void free_input(Input *input) {
    for (size_t i = 0; i < input->count; i++) free(input->piece[i].bytes);
    *input = (Input){.count = 0};
}
