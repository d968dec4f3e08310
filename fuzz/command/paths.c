/* The edges of the command that a run passes. The compiler puts a mark at each edge; a mark counts in memory that the run shares with the process that started
 * it. A path is new where it passes some edge for the first time, or one so often as no path before: once, twice, three times, 4, 8, 16, 32 or 128
 * times and more. Without marks, as other compilers than clang leave them out, there are none, and no path is new. */
#define _DEFAULT_SOURCE /* MAP_ANONYMOUS */
#include "rim.h"
#include <stdio.h>
#include <string.h>
#include <sys/mman.h>

void __sanitizer_cov_trace_pc_guard_init(uint32_t *start, uint32_t *stop);
void __sanitizer_cov_trace_pc_guard(uint32_t *guard);
void __sanitizer_cov_pcs_init(const uintptr_t *start, const uintptr_t *stop);
void __sanitizer_symbolize_pc(void *pc, const char *format, char *room, size_t length) __attribute__((weak));

static uint8_t *hits;   /* of this run, by edge */
static uint64_t *passed; /* and of all edges, which are more than are counted by edge */
static uint8_t often[UINT8_MAX + 1]; /* the bit of each count */
static size_t edges;
static const uintptr_t *places; /* where each edge is in the program, and whether a function begins there */

static void make_often(void) {
    static const uint8_t least[] = {1, 2, 3, 4, 8, 16, 32, 128};
    for (int i = 1, bit = 0; i <= UINT8_MAX; i++) {
        while (bit < 7 && i >= least[bit + 1]) bit++;
        often[i] = (uint8_t)(1 << bit);
    }
}

/* Called ahead of main, for each file of the command that has marks. */
void __sanitizer_cov_trace_pc_guard_init(uint32_t *start, uint32_t *stop) {
    if (start == stop || *start) return;
    if (!hits) make_often();
    if (!hits) hits = mmap(NULL, MOST_EDGES + sizeof *passed, PROT_READ | PROT_WRITE, MAP_SHARED | MAP_ANONYMOUS, -1, 0);
    if (hits == MAP_FAILED) hits = NULL;
    else passed = (uint64_t *)(void *)(hits + MOST_EDGES);
    for (uint32_t *mark = start; hits && mark < stop && edges + 1 < MOST_EDGES; mark++) *mark = (uint32_t)++edges;
}

void __sanitizer_cov_trace_pc_guard(uint32_t *guard) {
    if (!*guard) return;
    ++*passed;
    if (hits[*guard] < UINT8_MAX) hits[*guard]++;
}

void __sanitizer_cov_pcs_init(const uintptr_t *start, const uintptr_t *stop) {
    if (start != stop) places = start;
}

void clear_path(void) {
    if (!hits) return;
    memset(hits, 0, edges + 1);
    *passed = 0;
}

/* Whether the last run went a way that a map does not have. */
New new_path(const uint8_t *seen) {
    New found = NOTHING_NEW;
    for (size_t i = 1; hits && i <= edges; i++) {
        if (!(often[hits[i]] & ~seen[i])) continue;
        if (!seen[i]) return NEW_EDGE;
        found = NEW_COUNT;
    }
    return found;
}

/* From now on the map has it. */
void add_path(uint8_t *seen) {
    for (size_t i = 1; hits && i <= edges; i++) seen[i] |= often[hits[i]];
}

/* How many edges it passed, one as often as it did. */
uint64_t path_length(void) { return hits ? *passed : 0; }

static size_t count(const uint8_t *reached, size_t from, size_t end) {
    size_t found = 0;
    for (size_t i = from; i < end; i++) found += reached[i] != 0;
    return found;
}

size_t edges_reached(const uint8_t *seen) { return count(seen, 1, edges + 1); }

size_t edges_in_all(void) { return edges; }

/* The functions with edges that a map does not have: how many of how many. A place is looked up as one behind a call is, by the byte ahead of it. */
void name_unreached(const uint8_t *seen) {
    char name[256];
    for (size_t from = 1, end; places && from <= edges; from = end) {
        for (end = from + 1; end <= edges && !(places[2 * (end - 1) + 1] & 1); end++) {}
        size_t reached = count(seen, from, end);
        if (reached == end - from || !__sanitizer_symbolize_pc) continue;
        __sanitizer_symbolize_pc((void *)(places[2 * (from - 1)] + 1), "%f, %s", name, sizeof name);
        const char *file = strrchr(name, '/');
        printf("%.*s %s: %zu of %zu edges\n", (int)strcspn(name, ","), name, file ? file + 1 : "", reached, end - from);
    }
}
