/* A list that some lister wrote, entry by entry: files one after another, or lines of picks. It is read in pieces of fixed size, so that it may be of any
 * length, and once more from its front where it was not in order. What an entry is, is judged in entry.c.
 *
 * A line that begins with %%MatrixMarket, in any capitals, begins a file. So a comment that begins like this is taken for a new file, whose forerunner then
 * has no size line: such a list is not found complete. */
#define _POSIX_C_SOURCE 200809L /* fileno, fseeko, ftello, fstat, strncasecmp */
#include "planner.h"
#include <stdio.h>
#include <stdlib.h>
#include <string.h>
#include <strings.h>
#include <sys/stat.h>

#define MARK "%%MatrixMarket"
#define BYTE_ORDER_MARK "\xef\xbb\xbf"

/* The front of a list that is no file, and so cannot be read twice, is held: where it is the whole list, it is read again from there. */
#ifndef HELD
#define HELD ((size_t)64 << 20)
#endif
#define FIRST_HELD ((size_t)1 << 16)

static void hold_front(List *list) {
    size_t room = FIRST_HELD;
    do {
        room *= 2;
        list->held = realloc(list->held, room);
        if (!list->held) fail("planner", "no memory");
        list->held_length += fread(list->held + list->held_length, 1, room - list->held_length, list->in);
    } while (list->held_length == room && room < HELD);
    if (ferror(list->in)) fail(list->name, "reading failed");
    list->again = list->held_length < room;
}

/* Opens a list by its word; of a file its bytes are known, which tell ahead how many entries it may have. */
void open_list(List *list, const char *word, bool picks) {
    struct stat about;
    *list = (List){.name = name_of(word), .picks = picks, .in = open_word(word)};
    list->start = fstat(fileno(list->in), &about) || !S_ISREG(about.st_mode) ? -1 : (int64_t)ftello(list->in);
    if (list->start < 0) {
        hold_front(list);
        return;
    }
    list->again = true;
    list->size = (uint64_t)(about.st_size - list->start);
}

/* To the front of the list again; false where that cannot be done. */
bool rewind_list(List *list) {
    if (!list->again || (list->start >= 0 && fseeko(list->in, (off_t)list->start, SEEK_SET))) return false;
    list->held_at = list->at = list->end = 0;
    list->passed = list->line = list->number = 0;
    list->over = list->within = false;
    return true;
}

void close_list(List *list) {
    free(list->held);
    if (list->in && list->in != stdin) fclose(list->in);
}

/* Fills the buffer from what is held, then from the file. */
static void fill(List *list) {
    memmove(list->buffer, list->buffer + list->at, list->end - list->at);
    list->end -= list->at;
    list->at = 0;
    size_t room = sizeof list->buffer - list->end, held = list->held_length - list->held_at;
    if (held > room) held = room;
    if (held) memcpy(list->buffer + list->end, list->held + list->held_at, held);
    list->held_at += held;
    list->end += held;
    if (held || !list->in) {
        list->over = !held;
        return;
    }
    size_t got = fread(list->buffer + list->end, 1, room, list->in);
    if (ferror(list->in)) fail(list->name, "reading failed");
    list->end += got;
    list->over = got == 0;
}

/* The length of the next piece: a line with its end, the last one, or as much of a long one as the buffer holds; 0 at the end of the list. */
static size_t piece(List *list) {
    for (;;) {
        const uint8_t *from = list->buffer + list->at, *end = memchr(from, '\n', list->end - list->at);
        if (end) return (size_t)(end - from) + 1;
        if (list->over || (list->at == 0 && list->end == sizeof list->buffer)) return list->end - list->at;
        fill(list);
    }
}

/* Passes a piece, which may be the rest of a line or not yet its end. */
static void pass(List *list, size_t length) {
    if (!list->within) list->line++;
    list->within = list->buffer[list->at + length - 1] != '\n';
    list->at += length;
    list->passed += length;
}

/* Whether a piece is a whole line, and blank. */
static bool is_blank(const List *list, size_t length) {
    const uint8_t *at = list->buffer + list->at;
    for (size_t i = 0; i < length; i++)
        if (!memchr(" \t\r\n", at[i], 4)) return false;
    return !list->within && (at[length - 1] == '\n' || list->over);
}

/* Whether a piece begins a file; a byte-order mark may stand ahead of it, which is refused in words. */
static bool begins_file(const List *list, size_t length) {
    const char *at = (const char *)list->buffer + list->at;
    size_t mark = strlen(BYTE_ORDER_MARK);
    if (list->within) return false;
    if (length > mark && !memcmp(at, BYTE_ORDER_MARK, mark)) {
        at += mark;
        length -= mark;
    }
    return length >= strlen(MARK) && !strncasecmp(at, MARK, strlen(MARK));
}

/* Takes a piece into the entry. One byte more than the longest file is kept, so that a longer one is seen to be longer. */
static void take_piece(List *list, size_t length, Entry *entry) {
    size_t room = sizeof entry->bytes - entry->length, kept = length < room ? length : room;
    memcpy(entry->bytes + entry->length, list->buffer + list->at, kept);
    entry->length += kept;
    pass(list, length);
}

/* Whether a piece is the last line of a part's output. What it says of the part is not looked at here. A comment of a file is no such line, unless somebody
 * made it one: then the file ends there, and is unreadable. */
static bool is_whole(const List *list, size_t length) {
    Text line = {(const char *)list->buffer + list->at, length};
    Whole whole;
    return !list->within && line.text[0] == '%' && read_whole(line, &whole);
}

/* Whether a piece stands between entries: the last line of a part, and a blank line ahead of the first file or behind such a line; among picks a blank line
 * or a comment anywhere. */
static bool is_between(const List *list, size_t length) {
    if (!list->picks) return is_blank(list, length) || is_whole(list, length);
    return is_blank(list, length) || (list->within ? list->comment : list->buffer[list->at] == '%');
}

/* The next entry; false at the end of the list. */
bool next_entry(List *list, Entry *entry) {
    size_t length = piece(list);
    entry->length = 0;
    while (length && is_between(list, length)) {
        list->comment = list->within ? list->comment : list->buffer[list->at] == '%';
        pass(list, length);
        length = piece(list);
    }
    if (!length) return false;
    entry->line = list->line + 1;
    entry->number = ++list->number;
    do {
        take_piece(list, length, entry);
        length = piece(list);
    } while (length && (list->within || (!list->picks && !begins_file(list, length) && !is_whole(list, length))));
    return true;
}
