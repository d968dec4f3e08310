/* Numbers, pairs and preferences as they are typed. Their form is a matter of usage, their value is left to the library: a number above all words is the
 * greatest word, which every bound refuses. */
#include "planner.h"
#include <string.h>

bool read_number(const char *text, size_t length, uint64_t *number) {
    *number = 0;
    for (size_t i = 0; i < length; i++) {
        if (text[i] < '0' || text[i] > '9') return false;
        uint64_t digit = (uint64_t)(text[i] - '0');
        *number = *number > (UINT64_MAX - digit) / 10 ? UINT64_MAX : *number * 10 + digit;
    }
    return length > 0;
}

uint64_t number_of(const char *what, const char *text) {
    uint64_t number;
    if (!read_number(text, strlen(text), &number)) wrong_usage(what, text);
    return number;
}

/* Numbers with commas between them, up to 64; of more only the count is kept. */
bool read_numbers(const char *text, size_t length, uint64_t *numbers, size_t *count) {
    size_t start = 0;
    *count = 0;
    for (size_t end = 0; end <= length; end++) {
        uint64_t number;
        if (end < length && text[end] != ',') continue;
        if (!read_number(text + start, end - start, &number)) return false;
        if (*count < RG_ORDER_WORDS) numbers[*count] = number;
        ++*count;
        start = end + 1;
    }
    return true;
}

void pair_of(const char *text, uint64_t *gauge, uint64_t *gauge_case) {
    const char *colon = strchr(text, ':');
    if (!colon || !read_number(text, (size_t)(colon - text), gauge) || !read_number(colon + 1, strlen(colon + 1), gauge_case))
        wrong_usage("a pair is gauge:case, as 3:1, not '%s'", text);
}

uint64_t budget_of(const Request *request) {
    const char *text = request->option[BUDGET];
    return text ? number_of("--budget wants a number, not '%s'", text) : RG_BUDGET;
}

void plain_order(uint64_t n, uint64_t *order) {
    for (uint64_t i = 0; i < RG_ORDER_WORDS; i++) order[i] = i < n ? i + 1 : 0;
}

/* The preference of `--prefer`, else 1, 2, 3 and on up to n. More than 64 numbers arrange nothing: a number that no arrangement has stands for them. */
void order_of(const Request *request, uint64_t n, uint64_t *order) {
    const char *text = request->option[PREFER];
    size_t count;
    plain_order(n, order);
    if (!text) return;
    memset(order, 0, RG_ORDER_WORDS * sizeof *order);
    if (!read_numbers(text, strlen(text), order, &count)) wrong_usage("--prefer wants numbers with commas between them, as 3,1,2, not '%s'", text);
    if (count > RG_ORDER_WORDS) order[0] = RG_MOST + 1;
}
