/* The values of the command that live as long as it does, put back to what they were at the start. tools/fuzz-command gives the sections that have them
 * names of their own in the command's objects; the linker gives their bounds. What has no value at the start is the larger part by far, most of it never
 * touched: its pages are given back, and come again with zeros. Where the sections have no such names, values cannot be put back. */
#define _DEFAULT_SOURCE /* madvise, MAP_ANONYMOUS */
#include "rim.h"
#include <stdio.h>
#include <stdlib.h>
#include <sys/mman.h>
#include <unistd.h>

extern uint8_t __start_command_data[] __attribute__((weak)), __stop_command_data[] __attribute__((weak));
extern uint8_t __start_command_bss[] __attribute__((weak)), __stop_command_bss[] __attribute__((weak));

static uint8_t *values;               /* of the first section, at the start */
static uint8_t *whole_from, *whole_to; /* the whole pages of the second one */

/* The memory between two variables is closed to functions that the address sanitizer watches, memcpy and memset among them. */
#ifdef __clang__
#define UNWATCHED __attribute__((no_sanitize("address", "undefined"), no_builtin, noinline))
#else
#define UNWATCHED __attribute__((no_sanitize("address", "undefined"), noinline))
#endif

UNWATCHED static void copy_bytes(uint8_t *to, const uint8_t *from, size_t length) {
    for (size_t i = 0; i < length; i++) to[i] = from[i];
}

UNWATCHED static void clear_bytes(uint8_t *from, const uint8_t *to) {
    while (from < to) *from++ = 0;
}

UNWATCHED static bool are_clear(const uint8_t *from, const uint8_t *to) {
    while (from < to && !*from) from++;
    return from >= to;
}

/* The pages that lie wholly within the section. */
static void find_pages(void) {
    uintptr_t page = (uintptr_t)sysconf(_SC_PAGESIZE), from = (uintptr_t)__start_command_bss, to = (uintptr_t)__stop_command_bss;
    whole_from = __start_command_bss + (page - from % page) % page;
    whole_to = __stop_command_bss - to % page;
    if (whole_from > whole_to) whole_from = whole_to = __stop_command_bss;
}

/* At the start, ahead of any run in this process; whether values can be put back. */
bool take_statics(void) {
    if (!__start_command_data || !__start_command_bss || !are_clear(__start_command_bss, __stop_command_bss)) return false;
    size_t length = (size_t)(__stop_command_data - __start_command_data);
    values = mmap(NULL, length, PROT_READ | PROT_WRITE, MAP_PRIVATE | MAP_ANONYMOUS, -1, 0);
    if (values == MAP_FAILED) return false;
    copy_bytes(values, __start_command_data, length);
    find_pages();
    return true;
}

void put_statics_back(void) {
    copy_bytes(__start_command_data, values, (size_t)(__stop_command_data - __start_command_data));
    clear_bytes(__start_command_bss, whole_from);
    clear_bytes(whole_to, __stop_command_bss);
    if (whole_from < whole_to && madvise(whole_from, (size_t)(whole_to - whole_from), MADV_DONTNEED)) _exit(99);
}
