/* trial: what flipping one entry would do to a ladder, as a proposal. commit: the table with the entry flipped. */
#include "planner.h"

int answer_trial(const Request *request) {
    uint64_t table[RG_TABLE_WORDS], ladder[RG_CHAIN_WORDS], proposal[RG_PROPOSAL_WORDS], g, c;
    pair_of(request->word[2], &g, &c);
    read_table(request, table);
    read_chain(request->word[1], ladder);
    uint64_t why = rg_trial(table, RG_TABLE_WORDS, ladder, RG_CHAIN_WORDS, g, c, proposal, RG_PROPOSAL_WORDS);
    if (why == RG_PLACE) refuse(request->word[2], why);
    accept_set(name_of(request->word[1]), why, table, ladder);
    put_proposal(proposal);
    return STATUS_DONE;
}

/* A file that is no proposal is none that a trial on the current table gives. */
int answer_commit(const Request *request) {
    static File file;
    uint64_t table[RG_TABLE_WORDS], flipped[RG_TABLE_WORDS], proposal[RG_PROPOSAL_WORDS];
    read_table(request, table);
    read_file(request->word[1], &file);
    if (!read_proposal(&file, proposal)) refuse(file.name, RG_OTHER_PROPOSAL);
    accept(file.name, rg_commit(proposal, RG_PROPOSAL_WORDS, table, RG_TABLE_WORDS, flipped, RG_TABLE_WORDS));
    put_table(flipped);
    return STATUS_DONE;
}
