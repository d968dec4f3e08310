/* list: every ladder of a table, or of one part of its list, written or counted, in rounds: some calls of the run, then one write of what they handed out.
 * So it is known after each round to which byte the list is written and where its run stands; what stops it in between is in stop.c. How a list is split is
 * in splitting.c. */
#include "planner.h"
#include <errno.h>
#include <inttypes.h>
#include <stdio.h>
#include <string.h>

/* The options of a run stand in the line of a part, and are not given twice. */
void check_part_options(const Request *request) {
    if (request->option[BY_CASES]) wrong_usage("the part's line says %s", "whether it goes by cases");
    if (request->option[NEEDED]) wrong_usage("the part's line says %s", "which ladders are needed");
    if (request->option[PREFER]) wrong_usage("the part's line says %s", "what is preferred");
}

/* And all of them, with what is written, in a saved run. */
static void check_resume_options(const Request *request) {
    if (request->option[BY_CASES]) wrong_usage("the saved run says %s", "whether it goes by cases");
    if (request->option[NEEDED]) wrong_usage("the saved run says %s", "which ladders are needed");
    if (request->option[PREFER]) wrong_usage("the saved run says %s", "what is preferred");
    if (request->option[PART]) wrong_usage("the saved run says %s", "which part it lists");
    if (request->option[PICKS]) wrong_usage("the saved run says %s", "whether picks are written");
}

/* A run is saved beside what is written, and under a name. */
static void check_save_option(const Request *request) {
    const char *name = request->option[SAVE];
    if (name && (!name[0] || !strcmp(name, "-"))) wrong_usage("--save wants the name of a file, not '%s'", name);
}

/* The ladders and moves of a round: few at first, and twice as many in each next one, so that little is walked through behind the end of a short part. */
#define FIRST_LADDERS 8
#define LADDERS 256
#define FIRST_MOVES 1000

/* A listing: whether its ladders are written or counted alone; the moves that its budget has left; the sizes of a round; where it stands, and where it stood
 * when all that it had handed out was written. */
typedef struct {
    const Request *request;
    bool writes, sums;
    uint64_t table[RG_TABLE_WORDS];
    uint64_t left, ladders, moves;
    Paused now, written;
    int error;
    bool taken_back;
} Listing;

static void put_batch(const uint64_t *batch, uint64_t count, const uint64_t *table) {
    uint64_t chain[RG_CHAIN_WORDS] = {table[RG_TABLE_GAUGES]}, gauges = table[RG_TABLE_GAUGES];
    for (uint64_t i = 0; i < count; i++) {
        memcpy(chain + RG_CHAIN_ROWS, batch + RG_BATCH_WORDS + i * gauges, (size_t)gauges * sizeof *chain);
        put_chain(chain, table[RG_TABLE_CASES]);
    }
}

/* How many ladders of a batch are of the part, where the run has left it: they are the first ones, by their pick sequences. */
static uint64_t count_within(const Paused *now, const uint64_t *batch, const uint64_t *table) {
    uint64_t chain[RG_CHAIN_WORDS] = {table[RG_TABLE_GAUGES]}, gauges = table[RG_TABLE_GAUGES], picks[RG_NUMBERS_WORDS], i;
    for (i = 0; i < batch[RG_BATCH_LADDERS]; i++) {
        memcpy(chain + RG_CHAIN_ROWS, batch + RG_BATCH_WORDS + i * gauges, (size_t)gauges * sizeof *chain);
        accept("planner", sequence_of(&now->run, chain, picks));
        if (!starts_with(picks, &now->part)) break;
    }
    return i;
}

/* The budget of a call within a round that has so many moves left. */
static void allow(Listing *list, uint64_t moves) { list->now.run.budget = list->left < moves ? list->left : moves; }

/* A round in one batch. Whether the part goes on: the end closes it, and so does a run that has left it. */
static bool list_ladders(Listing *list) {
    static uint64_t batch[RG_BATCH_WORDS + LADDERS * RG_ROWS];
    Paused *now = &list->now;
    allow(list, list->moves);
    uint64_t outcome = call_batch(list->request, &now->run, batch, RG_BATCH_WORDS + (size_t)(list->ladders * list->table[RG_TABLE_GAUGES]));
    bool within = within_part(&now->run, &now->part);
    uint64_t count = within ? batch[RG_BATCH_LADDERS] : count_within(now, batch, list->table);
    list->left -= batch[RG_BATCH_MOVES];
    if (list->writes) put_batch(batch, count, list->table);
    now->ladders += count;
    return outcome != RG_END && within;
}

/* A round of picks, one call a ladder, since no batch has them. */
static bool list_picks(Listing *list) {
    Paused *now = &list->now;
    uint64_t outcome = RG_HANDED_OUT, moves = list->moves;
    for (uint64_t i = 0; i < list->ladders && outcome == RG_HANDED_OUT; i++) {
        allow(list, moves);
        outcome = call_run(list->request, &now->run);
        moves -= now->run.step[RG_STEP_MOVES];
        list->left -= now->run.step[RG_STEP_MOVES];
        if (outcome == RG_END || !within_part(&now->run, &now->part)) return false;
        if (outcome == RG_HANDED_OUT) put_picks(now->run.step + RG_STEP_PICKS);
        now->ladders += outcome == RG_HANDED_OUT;
    }
    return true;
}

/* The last line of a part's output: that it is whole, how many ladders it has, and the number and the sum of the bytes ahead of this line. */
static void put_whole(const Paused *now) {
    char line[PART_LINE], text[2 * PART_LINE];
    part_line(line, &now->run, now->prefers, &now->part);
    int length = snprintf(text, sizeof text, "%% whole %s %s %" PRIu64 " bytes %" PRIu64 " sum %016" PRIx64 "\n", line, now->picks ? "picks" : "ladders",
                          now->ladders, now->bytes, now->sum);
    put(text, (size_t)length);
}

/* Counts and writes what a round has handed out; false where that fails. */
static bool write_round(Listing *list, bool last) {
    list->now.bytes += gathered_bytes();
    if (list->sums) list->now.sum = add_gathered(list->now.sum);
    if (last && list->writes && list->now.of_part) put_whole(&list->now);
    list->error = write_gathered(&list->taken_back);
    if (!list->error) list->written = list->now;
    return !list->error;
}

/* One round; whether there is another one. */
static bool list_round(Listing *list, Stop *stop) {
    bool more = list->now.picks ? list_picks(list) : list_ladders(list);
    if (!write_round(list, !more)) *stop = BY_WRITE;
    else if (more && signal_came()) *stop = BY_SIGNAL;
    else if (more && list->left == 0) *stop = BY_BUDGET;
    return more && *stop == GOES_ON;
}

static uint64_t twice(uint64_t size, uint64_t most) { return 2 * size < most ? 2 * size : most; }

/* The ladders of the part, from where the run stands. A round has as many as there is room for, whatever their pairs: none has more than the table. */
static Stop list_part(Listing *list) {
    static uint8_t bytes[RG_TABLE_BYTES];
    Progress progress;
    Stop stop = list->left ? GOES_ON : BY_BUDGET;
    uint64_t room = GATHERED / 2 / file_of_table(list->table, bytes), most = room < LADDERS ? room : LADDERS;
    bool whole = !list->now.of_part && !list->now.run.words[RG_RUN_OMIT];
    begin_progress(&progress);
    progress.before = list->now.ladders;
    list->written = list->now;
    list->ladders = FIRST_LADDERS;
    list->moves = FIRST_MOVES;
    while (!stop && list_round(list, &stop)) {
        list->ladders = twice(list->ladders, most);
        list->moves = twice(list->moves, RG_BUDGET);
        progress.ladders = list->now.ladders;
        show_progress(&progress, list->table, whole);
    }
    progress.ladders = list->written.ladders;
    end_progress(&progress);
    return stop;
}

/* The run that is asked for, that of the part, or the one that was saved. */
static void start_listing(Listing *list) {
    const Request *request = list->request;
    const char *line = request->option[PART], *saved = request->option[RESUME];
    if (saved) check_resume_options(request);
    if (line) check_part_options(request);
    read_table(request, list->table);
    list->now = (Paused){.of_part = line, .picks = request->option[PICKS], .sum = EMPTY_SUM};
    list->now.prefers = line ? line_prefers(line) : request->option[PREFER] != NULL;
    if (saved) read_saved(saved, list->table, &list->now);
    else if (line) start_part(line, list->table, &list->now.part, &list->now.run);
    else start_run(request, list->table, &list->now.run);
    list->left = request->option[BUDGET] ? budget_of(request) : UINT64_MAX;
}

int answer_list(const Request *request) {
    static Listing list;
    check_save_option(request);
    list = (Listing){.request = request, .writes = true, .taken_back = true};
    start_listing(&list);
    list.sums = list.now.of_part || request->option[SAVE];
    begin_gathering();
    take_room(request);
    watch_signals();
    Stop stop = list_part(&list);
    if (stop) return end_stopped(request, stop, &list.written, list.error, list.taken_back);
    if (request->option[SAVE] && !sync_output()) write_failed(errno); /* ahead of the saved run's end */
    end_saving();
    return STATUS_DONE;
}

/* count of a part: how many ladders `list` of it writes. */
uint64_t count_part(const Request *request) {
    static Listing list;
    list = (Listing){.request = request};
    start_listing(&list);
    if (list_part(&list)) spent(option_text(request, BUDGET), "counting the part takes more moves");
    return list.now.ladders;
}

/* The ladders of a part, from its value on. */
uint64_t ladders_of(const Request *request, const uint64_t *table, const Part *part, const Run *run) {
    static Listing list;
    list = (Listing){.request = request, .left = UINT64_MAX, .now = {.of_part = true, .part = *part, .run = *run}};
    memcpy(list.table, table, sizeof list.table);
    list_part(&list);
    return list.now.ladders;
}
