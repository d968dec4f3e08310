/* What is written to standard output. A write that fails ends the command: nothing is left out silently. The output of a list is gathered in gather.c. */
#define _POSIX_C_SOURCE 200809L /* isatty */
#include "planner.h"
#include <errno.h>
#include <stdarg.h>
#include <stdio.h>
#include <stdlib.h>
#include <string.h>
#include <unistd.h>

/* Nobody reads any more: what was asked for is given, and nothing is said. */
void write_failed(int error) {
    if (error == EPIPE) _Exit(STATUS_FAILED);
    fputs("planner: writing failed, the output is not complete\n", stderr);
    _Exit(STATUS_FAILED);
}

/* A list goes out in larger pieces than a pipe gets by itself; a terminal gets its lines one by one. */
void start_output(void) {
    static char buffer[1 << 16];
    if (!isatty(STDOUT_FILENO)) setvbuf(stdout, buffer, _IOFBF, sizeof buffer);
}

void put(const void *bytes, size_t length) {
    if (!gather(bytes, length) && fwrite(bytes, 1, length, stdout) != length) write_failed(errno);
}

void put_text(const char *format, ...) {
    va_list values;
    va_start(values, format);
    int written = vfprintf(stdout, format, values);
    va_end(values);
    if (written < 0) write_failed(errno);
}

size_t file_of_table(const uint64_t *table, uint8_t *bytes) {
    uint64_t length[RG_ONE_WORDS];
    accept("planner", rg_write(table, RG_TABLE_WORDS, bytes, RG_TABLE_BYTES, length, RG_ONE_WORDS));
    return (size_t)length[0];
}

void put_table(const uint64_t *table) {
    static uint8_t bytes[RG_TABLE_BYTES];
    put(bytes, file_of_table(table, bytes));
}

/* A chain is written as the file of a table of the same shape with the chain's pairs. */
void table_of_chain(const uint64_t *chain, uint64_t cases, uint64_t *table) {
    table[RG_TABLE_GAUGES] = chain[RG_CHAIN_COUNT];
    table[RG_TABLE_CASES] = cases;
    memcpy(table + RG_TABLE_ROWS, chain + RG_CHAIN_ROWS, RG_ROWS * sizeof *table);
}

/* The other way round; the file's L says nothing, since a pair that the table lacks is refused by its case. */
void chain_of_table(const uint64_t *table, uint64_t *chain) {
    chain[RG_CHAIN_COUNT] = table[RG_TABLE_GAUGES];
    memcpy(chain + RG_CHAIN_ROWS, table + RG_TABLE_ROWS, RG_ROWS * sizeof *chain);
}

void put_chain(const uint64_t *chain, uint64_t cases) {
    uint64_t table[RG_TABLE_WORDS];
    table_of_chain(chain, cases, table);
    put_table(table);
}

/* Some disks say only where a file is closed that they were full. An output that was never open had nothing to write. */
void finish_output(void) {
    if (fflush(stdout)) write_failed(errno);
    if (close(STDOUT_FILENO) && errno != EBADF) write_failed(errno);
}
