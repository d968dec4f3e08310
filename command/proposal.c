/* The file of a trial: what `planner trial` writes and `planner commit` takes back.
 *
 *     ragymolev proposal
 *     verdict still a ladder          (or: only a chain; no longer within the table)
 *     place 3:1
 *     table
 *     ..                              a file of pairs, the table
 *     ladder
 *     ..                              a file of pairs, the ladder
 *
 * It is read strictly: anything else is no proposal. Whether it is the right one, the library says. */
#include "planner.h"
#include <inttypes.h>
#include <stdio.h>
#include <string.h>

#define HEAD "ragymolev proposal\n"

static const char *const verdicts[] = {
    [RG_STILL_LADDER] = "still a ladder", [RG_ONLY_CHAIN] = "only a chain", [RG_NOT_WITHIN] = "no longer within the table"};

#define MOST_TEXT (2 * RG_TABLE_BYTES + 256)

/* The file of a proposal; its length. */
static size_t text_of(const uint64_t *proposal, uint8_t *text) {
    uint64_t ladder[RG_TABLE_WORDS];
    size_t length = (size_t)sprintf((char *)text, HEAD "verdict %s\nplace %" PRIu64 ":%" PRIu64 "\ntable\n", verdicts[proposal[RG_PROPOSAL_EFFECT]],
                                    proposal[RG_PROPOSAL_GAUGE], proposal[RG_PROPOSAL_CASE]);
    length += file_of_table(proposal + RG_PROPOSAL_TABLE, text + length);
    length += (size_t)sprintf((char *)text + length, "ladder\n");
    table_of_chain(proposal + RG_PROPOSAL_CHAIN, proposal[RG_PROPOSAL_TABLE + RG_TABLE_CASES], ladder);
    return length + file_of_table(ladder, text + length);
}

void put_proposal(const uint64_t *proposal) {
    static uint8_t text[MOST_TEXT];
    put(text, text_of(proposal, text));
}

/* What is left to read. */
typedef struct {
    const char *at, *end;
} Rest;

/* Takes these words from the front, where they stand there. */
static bool take(Rest *rest, const char *words) {
    size_t length = strlen(words);
    if ((size_t)(rest->end - rest->at) < length || memcmp(rest->at, words, length)) return false;
    rest->at += length;
    return true;
}

/* Takes digits up to a byte that ends them. */
static bool take_number(Rest *rest, char ends, uint64_t *number) {
    const char *stop = memchr(rest->at, ends, (size_t)(rest->end - rest->at));
    if (!stop || !read_number(rest->at, (size_t)(stop - rest->at), number)) return false;
    rest->at = stop + 1;
    return true;
}

static bool take_verdict(Rest *rest, uint64_t *effect) {
    for (*effect = RG_STILL_LADDER; *effect <= RG_NOT_WITHIN; ++*effect)
        if (take(rest, verdicts[*effect])) return take(rest, "\n");
    return false;
}

/* Where the line `ladder` starts; no line of a file of pairs is like it. */
static const char *ladder_line(const Rest *rest) {
    static const char line[] = "\nladder\n";
    size_t length = sizeof line - 1;
    for (const char *at = rest->at; (size_t)(rest->end - at) >= length; at++)
        if (!memcmp(at, line, length)) return at + 1;
    return NULL;
}

static bool take_table(Rest *rest, const char *end, uint64_t *table) {
    uint64_t why = rg_read((const uint8_t *)rest->at, (size_t)(end - rest->at), table, RG_TABLE_WORDS);
    rest->at = end;
    return why == RG_ACCEPTED;
}

/* Its table and ladder may stand in a file of pairs in more ways than one; the one that `trial` writes is taken. */
bool read_proposal(const File *file, uint64_t *proposal) {
    static uint8_t text[MOST_TEXT];
    Rest rest = {(const char *)file->bytes, (const char *)file->bytes + file->length};
    uint64_t ladder[RG_TABLE_WORDS], *table = proposal + RG_PROPOSAL_TABLE;
    if (!take(&rest, HEAD "verdict ") || !take_verdict(&rest, &proposal[RG_PROPOSAL_EFFECT])) return false;
    if (!take(&rest, "place ") || !take_number(&rest, ':', &proposal[RG_PROPOSAL_GAUGE])) return false;
    if (!take_number(&rest, '\n', &proposal[RG_PROPOSAL_CASE]) || !take(&rest, "table\n")) return false;
    const char *line = ladder_line(&rest);
    if (!line || !take_table(&rest, line, table) || !take(&rest, "ladder\n") || !take_table(&rest, rest.end, ladder)) return false;
    if (ladder[RG_TABLE_CASES] != table[RG_TABLE_CASES]) return false;
    proposal[RG_PROPOSAL_CHAIN + RG_CHAIN_COUNT] = ladder[RG_TABLE_GAUGES];
    memcpy(proposal + RG_PROPOSAL_CHAIN + RG_CHAIN_ROWS, ladder + RG_TABLE_ROWS, RG_ROWS * sizeof *proposal);
    return text_of(proposal, text) == file->length && !memcmp(text, file->bytes, file->length);
}
