/* make: a sample table. comments: the comment lines of a file, or one of them. convert: a file of either kind as the writer has it, or at a cutoff. equal:
 * whether two recorded tests are. */
#include "planner.h"

int answer_make(const Request *request) {
    uint64_t number[4], table[RG_TABLE_WORDS];
    for (int i = 0; i < 4; i++) number[i] = number_of("a number is wanted, not '%s'", request->word[i]);
    uint64_t why = rg_sample(number[0], number[1], number[2], number[3], table, RG_TABLE_WORDS);
    accept("planner make", why);
    put_table(table);
    return STATUS_DONE;
}

static void put_line(const File *file, const uint64_t *span) {
    put(file->bytes + span[RG_SPAN_START], (size_t)span[RG_SPAN_LENGTH]);
    put("\n", 1);
}

int answer_comments(const Request *request) {
    static File file;
    uint64_t span[RG_SPAN_WORDS], why = RG_ACCEPTED, only = 0;
    bool one = request->words == 2;
    if (one) only = number_of("a comment is wanted by number, not by '%s'", request->word[1]);
    read_file(request->word[0], &file);
    for (uint64_t k = one ? only : 1; !why; k++) {
        why = rg_comment(file.bytes, file.length, k, span, RG_SPAN_WORDS);
        if (!why) put_line(&file, span);
        if (one) break;
    }
    /* Without a number the first comment that is not there is the end of them. */
    if (one && why == RG_NO_COMMENT) refuse(request->word[1], why);
    if (why != RG_NO_COMMENT) accept_file(&file, why, EITHER_KIND);
    return STATUS_DONE;
}

/* A recorded test, from a file of either kind: every cutoff reads the same one. */
typedef struct {
    uint64_t test[RG_TEST_WORDS];
    int32_t readings[RG_READINGS];
} Recorded;

static void read_recorded(const char *word, Recorded *recorded) {
    static File file;
    uint64_t table[RG_TABLE_WORDS];
    read_file(word, &file);
    accept_file(&file, rg_read_test(file.bytes, file.length, 1, recorded->test, RG_TEST_WORDS, recorded->readings, RG_READINGS, table, RG_TABLE_WORDS),
                EITHER_KIND);
}

int answer_convert(const Request *request) {
    static Recorded recorded;
    static uint8_t bytes[RG_TEST_BYTES];
    uint64_t table[RG_TABLE_WORDS], length[RG_ONE_WORDS];
    if (request->option[CUTOFF]) {
        read_table(request, table);
        put_table(table);
        return STATUS_DONE;
    }
    read_recorded(request->word[0], &recorded);
    accept("planner", rg_write_test(recorded.test, RG_TEST_WORDS, recorded.readings, RG_READINGS, bytes, RG_TEST_BYTES, length, RG_ONE_WORDS));
    put(bytes, (size_t)length[0]);
    return STATUS_DONE;
}

int answer_equal(const Request *request) {
    static Recorded a, b;
    uint64_t answer[RG_ONE_WORDS];
    read_recorded(request->word[0], &a);
    read_recorded(request->word[1], &b);
    accept("planner", rg_equal(a.test, RG_TEST_WORDS, a.readings, RG_READINGS, b.test, RG_TEST_WORDS, b.readings, RG_READINGS, answer, RG_ONE_WORDS));
    put_text("%s\n", answer[0] == RG_YES ? "equal" : "not equal");
    return answer[0] == RG_YES ? STATUS_DONE : STATUS_NO;
}
