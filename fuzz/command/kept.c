/* The inputs that are kept, in memory and in a folder. */
#define _POSIX_C_SOURCE 200809L /* scandir */
#include "rim.h"
#include <dirent.h>
#include <inttypes.h>
#include <stdio.h>
#include <stdlib.h>
#include <string.h>

#define MOST_PATH 4096

static void stop(const char *path, const char *what) {
    fprintf(stderr, "fuzz-command: %s: %s\n", path, what);
    exit(2);
}

void read_input(const char *path, Input *input) {
    FILE *in = fopen(path, "rb");
    long size = in && !fseek(in, 0, SEEK_END) ? ftell(in) : -1;
    uint8_t *bytes = size < 0 ? NULL : malloc((size_t)size + 1);
    if (!bytes) stop(path, "cannot be read");
    rewind(in);
    size_t length = fread(bytes, 1, (size_t)size, in);
    fclose(in);
    if (!parse_input(bytes, length, input)) stop(path, "is no input");
    free(bytes);
}

static int is_seed(const struct dirent *entry) { return entry->d_name[0] != '.'; }

/* Each input of a folder, by the order of their names; false where there is no such folder. */
bool each_file(const char *folder, Take take, void *with) {
    struct dirent **entries;
    int count = scandir(folder, &entries, is_seed, alphasort);
    for (int i = 0; i < count; i++) {
        char path[MOST_PATH];
        Input input;
        snprintf(path, sizeof path, "%s/%s", folder, entries[i]->d_name);
        read_input(path, &input);
        take(path, &input, with);
        free_input(&input);
        free(entries[i]);
    }
    if (count >= 0) free(entries);
    return count >= 0;
}

void keep(Kept *kept, const Input *input, uint64_t cost) {
    if (kept->count == kept->room) {
        kept->room = kept->room ? 2 * kept->room : 64;
        kept->inputs = realloc(kept->inputs, kept->room * sizeof *kept->inputs);
        if (!kept->inputs) stop("kept inputs", "no memory");
    }
    copy_input(input, &kept->inputs[kept->count]);
    kept->inputs[kept->count++].cost = cost;
}

void let_go(Kept *kept) {
    for (size_t i = 0; i < kept->count; i++) free_input(&kept->inputs[i]);
    free(kept->inputs);
    *kept = (Kept){.count = 0};
}

/* Under a name that begins like this and goes on with a sum, so that an input has one name. */
void store(const char *folder, const char *front, const Input *input) {
    char path[MOST_PATH];
    Piece text = {.length = 0};
    text_of_input(input, &text);
    snprintf(path, sizeof path, "%s/%s%016" PRIx64, folder, front, sum_of(text.bytes, text.length));
    FILE *out = fopen(path, "wb");
    if (!out || fwrite(text.bytes, 1, text.length, out) != text.length || fclose(out)) stop(path, "cannot be written");
    free(text.bytes);
}
