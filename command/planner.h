/* planner: the questions of the core from a shell. It reads its words, calls the library of include/ragymolev.h, and writes what that answers. Which
 * ladders there are, what a set of pairs is and where a file fails is the library's answer, which is proved; how a list is split, compared, sorted, saved
 * and joined is decided here, which is tested.
 *
 * Here: what the files share, file by file. words.c has how the command ends and says so; request.c its words and options; numbers.c numbers, pairs and
 * preferences as they are typed; files.c what is read, output.c what is written; reasons.c and banner.c why a file was refused, witness.c why a set of
 * pairs; runs.c runs of either side; parts.c parts of a list and their lines, weights.c how large they are; gather.c the output of a list, round by round,
 * stop.c what stops one and save.c the file that it is saved in; progress.c the line on a terminal; proposal.c the file of a trial; decimal.c readings with
 * a point. Of a list that is checked entries.c has the entries, entry.c what one is, course.c the run beside them, sorting.c their order. Of parts that are
 * joined splits.c has their lines, outputs.c what was listed of them.
 * The subcommands are in list.c (list), splitting.c (parts), join.c, picks.c (ladder), check.c, ask.c (count, judge, grow, rivals, cover, order), counts.c
 * (count part by part), explain.c, show.c, trial.c (trial, commit), tables.c (make, comments, convert, equal) and import.c; main.c has their table. */
#ifndef PLANNER_H
#define PLANNER_H

#include "../include/ragymolev.h"
#include <stdbool.h>
#include <stddef.h>
#include <stdint.h>
#include <stdio.h>

/* Exit statuses: those of ./ladders, one for a budget that was used up before the answer, and one for an answer that is no. */
enum { STATUS_DONE = 0, STATUS_FAILED = 1, STATUS_USAGE = 2, STATUS_REFUSED = 3, STATUS_SPENT = 4, STATUS_NO = 5 };

/* The command's own refusals, above those of the library. */
enum { NO_PART_LINE = 101, OTHER_TABLE = 102, NO_SUCH_LADDER = 103, NO_PICKS_LINE = 104, NO_WHOLE_PICKS = 105 };

/* A file is read into one byte more than the longest, so that a longer one is seen to be longer. */
typedef struct {
    const char *name;
    size_t length;
    uint8_t bytes[RG_FILE_BYTES + 1];
} File;

/* Options; a subcommand takes a set of them. */
typedef enum { BY_CASES, NEEDED, PREFER, CUTOFF, BUDGET, PART, PICKS, SAVE, RESUME, PARTS, AGAIN, OPTIONS } Option;
#define SET(option) (1u << (option))

typedef struct Request Request;

/* A subcommand: `words` arguments, the first of them a file where `reads` says so, which may be left out for standard input; up to `more` behind. */
#define ANY_MORE 1000000000
typedef struct {
    const char *name;
    const char *arguments;
    int words, more;
    bool reads;
    unsigned options;
    int (*answer)(const Request *); /* its exit status */
} Command;

/* What was asked: words and options as they were typed, null where an option was not given. */
struct Request {
    const Command *command;
    int words;
    const char **word;
    const char *option[OPTIONS];
};

/* words.c: each of these ends the command. */
_Noreturn void fail(const char *subject, const char *what);
_Noreturn void wrong_usage(const char *format, const char *what);
_Noreturn void refuse(const char *subject, uint64_t why);
_Noreturn void spent(const char *subject, const char *what);
void accept(const char *subject, uint64_t why);
_Noreturn void refuse_because(const char *subject, uint64_t why, const char *words, const char *reason);
void usage_of(const Command *command);
const char *words_of(uint64_t why);
const char *place_in(const char *name, uint64_t line);

/* request.c */
int subcommand_at(int argc, char **argv);
void read_request(Request *request, const Command *command, int argc, char **argv);
void print_options(unsigned options);
const char *option_text(const Request *request, Option option);
const char *subject_of(const Request *request, uint64_t why, const char *otherwise);

/* reasons.c, banner.c: why a file was refused, and in which line; what the file is read for. */
typedef enum { TABLE_OF_PAIRS, EITHER_KIND, SET_OF_PAIRS } Use;
typedef struct {
    const char *text;
    size_t length;
} Text;
#define REASON 256    /* bytes for a reason */
#define QUOTED 24     /* bytes of a file's word that are shown */
#define MOST_FIELDS 6 /* fields of a line that are looked at */
const char *words_of_file(const uint8_t *file, size_t length, uint64_t why);
uint64_t reason_of(const uint8_t *file, size_t length, uint64_t why, Use use, char *reason);
void say_banner(char *reason, const uint8_t *file, size_t length, Use use);
bool cut_line(Text *rest, Text *line);
size_t fields_in(Text line, Text *fields, size_t most);
const char *quoted(Text text, char *room);
bool is_integer(const uint8_t *file, size_t length);

/* numbers.c */
bool read_number(const char *text, size_t length, uint64_t *number);
uint64_t number_of(const char *what, const char *text);
bool read_numbers(const char *text, size_t length, uint64_t *numbers, size_t *count);
void pair_of(const char *text, uint64_t *gauge, uint64_t *gauge_case);
uint64_t budget_of(const Request *request);
void order_of(const Request *request, uint64_t n, uint64_t *order);
void plain_order(uint64_t n, uint64_t *order);

/* files.c */
FILE *open_word(const char *word);
void read_file(const char *word, File *file);
void read_table(const Request *request, uint64_t *table);
void accept_file(const File *file, uint64_t why, Use use);
void accept_set(const char *name, uint64_t why, const uint64_t *table, const uint64_t *chain);
void read_chain(const char *word, uint64_t *chain);
const char *name_of(const char *word);

/* output.c */
_Noreturn void write_failed(int error);
void start_output(void);
void put(const void *bytes, size_t length);
void put_text(const char *format, ...);
void put_table(const uint64_t *table);
void put_chain(const uint64_t *chain, uint64_t cases);
size_t file_of_table(const uint64_t *table, uint8_t *bytes);
void table_of_chain(const uint64_t *chain, uint64_t cases, uint64_t *table);
void chain_of_table(const uint64_t *table, uint64_t *chain);
void finish_output(void);

/* runs.c: a run of either side, the budget of its calls, and what the last call came to. */
typedef struct {
    bool by_cases;
    uint64_t budget;
    uint64_t words[RG_RUN_WORDS];
    uint64_t step[RG_STEP_WORDS];
} Run;
void start_run(const Request *request, const uint64_t *table, Run *run);
uint64_t start_with(const uint64_t *table, const uint64_t *order, bool by_cases, bool needed, Run *run);
uint64_t call_run(const Request *request, Run *run);
uint64_t call_batch(const Request *request, Run *run, uint64_t *batch, size_t words);
bool next_ladder(const Request *request, Run *run);
uint64_t side_count(const uint64_t *table, bool by_cases);
uint64_t sequence_of(const Run *run, const uint64_t *ladder, uint64_t *picks);

/* parts.c: a part by the numbers of its picks. */
typedef struct {
    uint8_t count;
    uint8_t picks[RG_MOST];
} Part;
uint64_t try_part(const Run *fresh, const Part *part, Run *run);
void part_value(const char *subject, const Run *fresh, const Part *part, Run *run);
void candidates_of(const Run *run, uint64_t *numbers);
void places_of(const Run *run, uint8_t *place);
int compare_parts(const uint8_t *place, const Part *a, const Part *b);
bool starts_with(const uint64_t *picks, const Part *part);
bool within_part(const Run *run, const Part *part);
void put_part(const Request *request, const Run *fresh, const Part *part);
uint64_t read_part(const char *line, const uint64_t *table, Part *part, Run *fresh);
void start_part(const char *line, const uint64_t *table, Part *part, Run *run);
bool line_prefers(const char *line);
#define PART_LINE 512 /* bytes that are enough for the line of a part */
void part_line(char *room, const Run *run, bool prefers, const Part *part);
/* What the last line of a part's output says of it: the part's line; ladders, or picks; how many; the bytes ahead of it and their sum. */
typedef struct {
    Text line;
    bool picks;
    uint64_t ladders, bytes, sum;
} Whole;
bool read_whole(Text line, Whole *whole);
bool read_sum(const char *text, size_t length, uint64_t *sum);
#define EMPTY_SUM 0xcbf29ce484222325u
uint64_t add_to_sum(uint64_t sum, const void *bytes, size_t length);

/* weights.c: how many ladders a part has, or about how many, for a split that is even. */
typedef struct {
    uint64_t set; /* what is left behind some picks */
    double ladders;
} Weight;

typedef struct {
    uint64_t rows[RG_MOST], count, all; /* of the side that is picked from; all of the other side */
    Weight *slot;
    size_t slots, used;
    bool spent;                         /* there were too many sets, so that ladders are estimated, by so many ways */
    uint64_t ways;
} Weights;
void begin_weights(Weights *weights, const Run *fresh, uint64_t parts);
double weight_of(const Weights *weights, const Part *part);
void end_weights(Weights *weights);

/* splitting.c: the parts so far, in order: each knows the one behind it, so that one can be replaced by several. */
typedef struct {
    Part part;
    size_t next;
    double weight;
} Node;

#define LAST_PART ((size_t)-1)
typedef struct {
    Node *nodes;
    size_t *heap; /* those that can be split, the next one first */
    size_t used, room, count, waiting;
    double sum; /* of the weights */
    uint8_t place[RG_MOST + 1];
    Weights weights;
} Parts;
uint64_t parts_of(const char *text);
void split_list(Parts *parts, const Run *fresh, uint64_t enough);
void end_parts(Parts *parts);

/* counts.c */
void put_counts(const Request *request);

/* splits.c: the parts that a file of lines has. */
#define NO_OUTPUT ((size_t)-1)
typedef struct {
    Part part;
    bool named;      /* some fault has named it */
    uint64_t number; /* of its line */
    size_t output;   /* which output is its own */
} SplitPart;

typedef struct {
    const char *name;
    Run fresh;       /* of the list that is split */
    bool prefers;
    uint8_t place[RG_MOST + 1];
    SplitPart *parts;
    size_t count, room, kept, faults;
} Split;
void read_split(Split *split, const char *word, const uint64_t *table);
bool same_list(const Split *split, const Run *fresh);
bool check_split(Split *split);
size_t find_part(const Split *split, const Part *part);

/* outputs.c: a file with outputs of parts, and what lies ahead of a last line in it. */
#define WHOLE_LINE 1024 /* bytes that are enough for the last line of an output */
typedef struct {
    const char *name;
    FILE *in;
    uint8_t buffer[1 << 16];
    size_t at, end;
    bool over, within; /* nothing is left to read; within a line */
    uint64_t passed;
} Output;

typedef struct {
    uint64_t start, bytes, sum, ladders, lines;
} Listed;
void open_output(Output *output, const char *name);
void close_output(Output *output);
bool next_whole(Output *output, Listed *found, Text *line);
bool take_whole(Text line, Whole *whole, char *part);
void copy_output(Output *output, uint64_t start, uint64_t bytes, uint64_t sum);

/* join.c: behind the table and the parts come the outputs. */
#define FIRST_OUTPUT 2

/* entries.c: a list that some lister wrote. */
typedef struct {
    const char *name;
    FILE *in;
    bool picks;              /* lines of picks, else files one after another */
    bool again;              /* whether it can be read again, from its start or from what is held */
    int64_t start;           /* of a file, else negative */
    uint64_t size;           /* of a file, from there */
    uint8_t *held;
    size_t held_length, held_at;
    uint8_t buffer[1 << 16];
    size_t at, end;
    bool over, within, comment; /* nothing is left to read; within a line; within a comment */
    uint64_t passed, line, number; /* bytes, lines and entries */
} List;

/* An entry: its number and its first line, from 1. */
typedef struct {
    uint64_t number, line;
    size_t length;
    uint8_t bytes[RG_FILE_BYTES + 1];
} Entry;
void open_list(List *list, const char *word, bool picks);
bool next_entry(List *list, Entry *entry);
bool rewind_list(List *list);
void close_list(List *list);

/* picks.c: pick sequences as they are typed and written, and the ladder of one. */
bool read_picks(const char *text, size_t length, Part *part);
size_t picks_text(const uint64_t *picks, char *text);
#define PICKS_TEXT (3 * RG_NUMBERS_WORDS)
void accept_picks(const char *subject, uint64_t why);
void put_picks(const uint64_t *picks);
bool picks_of_entry(const Entry *entry, Part *part);
uint64_t ladder_of_picks(const Run *fresh, const Part *part, Run *run);

/* gather.c: the output of a list. */
#define GATHERED ((size_t)1 << 20) /* bytes of a round at most */
void begin_gathering(void);
bool gather(const void *bytes, size_t length);
uint64_t add_gathered(uint64_t sum);
size_t gathered_bytes(void);
int write_gathered(bool *taken_back);
bool sync_output(void);

/* save.c: a listing that is paused after a whole ladder: what is listed, where its run stands, and what was written, from the first byte on. */
typedef struct {
    bool of_part, picks, prefers; /* a part was asked for; its ladders by their picks; a preference was given, and stands in the part's line */
    Part part;                    /* the whole list is the part of no picks */
    Run run;
    uint64_t ladders, bytes, sum; /* the sum is that of the bytes */
} Paused;
void read_saved(const char *name, const uint64_t *table, Paused *paused);
void take_room(const Request *request);
bool save_run(const Paused *paused);
void end_saving(void);

/* stop.c: what stops a list ahead of its end, and how it ends then. */
typedef enum { GOES_ON, BY_SIGNAL, BY_BUDGET, BY_WRITE } Stop;
void watch_signals(void);
bool signal_came(void);
int end_stopped(const Request *request, Stop stop, const Paused *paused, int error, bool taken_back);

/* progress.c */
typedef struct {
    bool shown, started, counted;
    int64_t next, began;
    uint64_t ladders, before, all; /* so far; of them before this listing began; of the whole list */
    int width;
} Progress;
void begin_progress(Progress *progress);
void show_progress(Progress *progress, const uint64_t *table, bool whole);
void end_progress(Progress *progress);

/* witness.c */
typedef struct {
    uint64_t gauge, gauge_case;
} Pair;
bool foreign_pair(const uint64_t *table, const uint64_t *chain, Pair *pair);
bool clashing_pairs(const uint64_t *chain, Pair *two);
bool pair_to_add(const uint64_t *table, const uint64_t *chain, Pair *pair);
void reason_of_set(uint64_t why, const uint64_t *table, const uint64_t *chain, char *reason);

/* entry.c: what is wrong with an entry of a list. The last two are said of ladders. That one comes behind a later one, or that the run stopped, is no fault. */
typedef enum { NO_FAULT, UNREADABLE, NOT_OF_TABLE, NO_CHAIN, ONLY_CHAIN, REPEATED, NOT_LISTED, FAULTS, DESCENDS, STOPPED } Fault;

/* What an entry holds: the set of a file, or the picks of a line; its refusal; a pick that may follow; of a ladder its pick sequence. */
typedef struct {
    uint64_t chain[RG_CHAIN_WORDS];
    Part part;
    uint64_t why, next;
    uint64_t picks[RG_NUMBERS_WORDS];
} Found;
Fault read_entry(const Entry *entry, bool picks, Found *found);
Fault judge_entry(const Run *fresh, bool picks, Found *found);
void put_fault(const char *name, const uint64_t *table, bool picks, const Entry *entry, const Found *found, Fault fault);
const char *fault_words(Fault fault);

/* course.c: a run beside the ladders of a list. */
#define FIRST_MISSING 10
typedef struct {
    const Request *request;
    bool picks, whole;                /* the list has picks in place of files; the list of all ladders is asked for */
    Part part;
    Run fresh, from, run;             /* a run of all ladders, which judges; from where the list begins; where the run stands */
    uint8_t place[RG_MOST + 1];
    bool over, stopped;               /* the run has come to its end; too many ladders were missing to go on to it */
    uint64_t handed, matched, missing;
    uint64_t first[FIRST_MISSING][RG_STEP_WORDS];
    struct {
        uint64_t number, line, picks[RG_NUMBERS_WORDS];
    } last;                           /* the last ladder that was taken */
    Progress progress;
} Course;
void prepare_course(Course *course);
void start_course(const Request *request, Course *course);
void begin_course(Course *course);
bool take_next(Course *course, const Found *found, uint64_t number, uint64_t line);
Fault take_ladder(Course *course, const uint64_t *picks, uint64_t number, uint64_t line);
void end_course(Course *course);

/* check.c */
int check_list(Course *course, List *list);

/* sorting.c */
typedef struct {
    uint8_t *bytes;
    size_t count, room, width, numbers;
} Records;
void begin_records(Records *records, uint64_t numbers);
bool records_fit(const Records *records, uint64_t count);
bool add_record(Records *records, const Course *course, const uint64_t *picks, const Entry *entry);
void sort_records(Records *records);
void record_at(const Records *records, size_t at, const uint64_t *order, uint64_t *picks, uint64_t *number, uint64_t *line);
void end_records(Records *records);

/* proposal.c */
void put_proposal(const uint64_t *proposal);
bool read_proposal(const File *file, uint64_t *proposal);

/* decimal.c */
bool cut_decimal(Text text, int64_t *value);

/* explain.c */
void start_at_ladder(const Request *request, const char *word, const uint64_t *table, const char *pair, Run *run);

/* The subcommands. */
int answer_list(const Request *request);
uint64_t count_part(const Request *request);
uint64_t ladders_of(const Request *request, const uint64_t *table, const Part *part, const Run *run);
void check_part_options(const Request *request);
int answer_parts(const Request *request);
int answer_join(const Request *request);
int answer_ladder(const Request *request);
int answer_check(const Request *request);
int answer_count(const Request *request);
int answer_judge(const Request *request);
int answer_grow(const Request *request);
int answer_rivals(const Request *request);
int answer_explain(const Request *request);
int answer_cover(const Request *request);
int answer_order(const Request *request);
int answer_trial(const Request *request);
int answer_commit(const Request *request);
int answer_make(const Request *request);
int answer_comments(const Request *request);
int answer_convert(const Request *request);
int answer_import(const Request *request);
int answer_equal(const Request *request);
int answer_show(const Request *request);

#endif
