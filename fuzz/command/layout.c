/* The files that a run finds: they are laid out in a folder, which is the current one; and what it reads from standard input. */
#define _GNU_SOURCE /* F_SETPIPE_SZ, pipe2 */
#include "rim.h"
#include <dirent.h>
#include <fcntl.h>
#include <stdio.h>
#include <stdlib.h>
#include <string.h>
#include <unistd.h>

#define PIPE_BYTES (1 << 18)

static bool touched = true;       /* the folder may have files that are of no input */
static Piece laid[MOST_PIECES];   /* the files that are there */
static size_t laid_count;

static void stop(const char *what) {
    fprintf(stderr, "fuzz-command: %s failed\n", what);
    exit(2);
}

/* The folder becomes the current one. */
void begin_layout(const char *folder) {
    if (chdir(folder)) stop("changing to the folder of the runs");
}

/* Another process laid out files there. */
void distrust_layout(void) { touched = true; }

/* Whether some word asks for a saved run: then a file is written by the command. */
static bool asks_to_save(const Piece *word) { return word->length >= 6 && !memcmp(word->bytes, "--save", 6); }

static bool saves(const Input *input) {
    for (size_t i = 0; i < input->words; i++)
        if (asks_to_save(&input->piece[i])) return true;
    return false;
}

/* Whether it would be written outside the folder. Such an input is not run. */
bool saves_elsewhere(const Input *input) {
    for (size_t i = 0; i < input->words; i++) {
        const Piece *word = &input->piece[i], *next = i + 1 < input->words ? word + 1 : word;
        if (asks_to_save(word) && (memchr(word->bytes, '/', word->length) || memchr(next->bytes, '/', next->length))) return true;
    }
    return false;
}

static void empty_folder(void) {
    DIR *folder = opendir(".");
    if (!folder) stop("reading the folder of the runs");
    for (struct dirent *entry; (entry = readdir(folder));)
        if (strcmp(entry->d_name, ".") && strcmp(entry->d_name, "..")) unlink(entry->d_name);
    closedir(folder);
}

/* A file is cut behind it is written, and not ahead: some disks take a file that was emptied for one that has to be safe at once. */
static void lay_out(const Piece *file) {
    int out = open(file->name, O_WRONLY | O_CREAT | O_CLOEXEC, 0600);
    bool written = out >= 0 && write(out, file->bytes, file->length) == (ssize_t)file->length && !ftruncate(out, (off_t)file->length);
    if (!written || close(out)) stop("writing a file of an input");
}

static bool same_names(const Piece *file, size_t files) {
    bool same = laid_count == files;
    for (size_t i = 0; same && i < files; i++) same = !strcmp(file[i].name, laid[i].name);
    return same;
}

static bool same_bytes(const Piece *a, const Piece *b) { return a->length == b->length && !memcmp(a->bytes, b->bytes, a->length); }

/* What one input left is none of the next one's files; what both have stays as it is. */
void lay_out_all(const Input *input) {
    const Piece *file = input->piece + input->words;
    size_t files = input->count - input->words;
    bool anew = touched || !same_names(file, files);
    if (anew) empty_folder();
    for (size_t i = 0; i < files; i++) {
        if (!strcmp(file[i].name, "-") || (!anew && same_bytes(&file[i], &laid[i]))) continue;
        lay_out(&file[i]);
        set_bytes(&laid[i], file[i].bytes, file[i].length);
    }
    for (size_t i = 0; anew && i < files; i++) memcpy(laid[i].name, file[i].name, NAME_ROOM);
    laid_count = files;
    touched = saves(input);
}

/* A pipe with the bytes of `-`, which is large enough to hold a whole piece; what there is else where an input has none. */
int input_of(const Input *input, int nothing_to_read) {
    const Piece *piece = piece_named(input, "-");
    int ends[2];
    if (!piece) return nothing_to_read;
    if (pipe2(ends, O_CLOEXEC) || fcntl(ends[1], F_SETPIPE_SZ, PIPE_BYTES) < 0) return -1;
    if (write(ends[1], piece->bytes, piece->length) != (ssize_t)piece->length || close(ends[1])) return -1;
    return ends[0];
}
