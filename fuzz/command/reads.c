/* Behind what was read from a file nothing may be looked at. The command reads into buffers of the greatest size, so that a look too far would stay within one
 * and be seen by nobody; here the rest of the buffer is closed to it behind each read, and opened again ahead of the next. The linker puts these in the place
 * of fread, of rewind_list, behind which a buffer is filled from memory, and of realloc and free (--wrap). */
#include "../../command/planner.h"
#include "rim.h"

void __asan_poison_memory_region(const volatile void *bytes, size_t length);
void __asan_unpoison_memory_region(const volatile void *bytes, size_t length);
size_t __real_fread(void *bytes, size_t size, size_t count, FILE *in);
size_t __wrap_fread(void *bytes, size_t size, size_t count, FILE *in);
void *__real_realloc(void *bytes, size_t length);
void *__wrap_realloc(void *bytes, size_t length);
void __real_free(void *bytes);
void __wrap_free(void *bytes);
size_t __sanitizer_get_allocated_size(const volatile void *bytes);
bool __real_rewind_list(List *list);
bool __wrap_rewind_list(List *list);

/* What is closed: where, and how much. Of more pieces than there is room for the rest stays open. */
#define MOST_CLOSED 64
static struct {
    uint8_t *bytes;
    size_t length;
} closed[MOST_CLOSED];
static size_t closed_count;

/* Opens what is closed in a piece of memory. */
static void open_piece(const uint8_t *bytes, size_t length) {
    for (size_t i = closed_count; i--;) {
        if (closed[i].bytes + closed[i].length <= bytes || closed[i].bytes >= bytes + length) continue;
        __asan_unpoison_memory_region(closed[i].bytes, closed[i].length);
        closed[i] = closed[--closed_count];
    }
}

static void close_piece(uint8_t *bytes, size_t length) {
    if (!length || closed_count == MOST_CLOSED) return;
    __asan_poison_memory_region(bytes, length);
    closed[closed_count].bytes = bytes;
    closed[closed_count++].length = length;
}

/* Ahead of another input in the same process. */
void open_reads(void) {
    while (closed_count) __asan_unpoison_memory_region(closed[closed_count - 1].bytes, closed[closed_count - 1].length), closed_count--;
}

size_t __wrap_fread(void *bytes, size_t size, size_t count, FILE *in) {
    open_piece(bytes, size * count);
    size_t got = __real_fread(bytes, size, count, in);
    close_piece((uint8_t *)bytes + size * got, size * (count - got));
    return got;
}

/* Memory that is given back is no buffer any more. */
void *__wrap_realloc(void *bytes, size_t length) {
    if (bytes && closed_count) open_piece(bytes, __sanitizer_get_allocated_size(bytes));
    return __real_realloc(bytes, length);
}

void __wrap_free(void *bytes) {
    if (bytes && closed_count) open_piece(bytes, __sanitizer_get_allocated_size(bytes));
    __real_free(bytes);
}

bool __wrap_rewind_list(List *list) {
    open_piece(list->buffer, sizeof list->buffer);
    return __real_rewind_list(list);
}
