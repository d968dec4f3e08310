/* tools/fuzz-command: inputs for the command `planner`, made from inputs that are there by changes that are kept where they lead the command to a new path.
 * The command is compiled with the address and undefined-behaviour sanitizers and with marks at its edges, its main under another name. It ends by exit in
 * many places and has values that live as long as it does. So an input is run alone, in a fork of its own, where its end counts; and many are run one after
 * the other in one fork, where exit comes back and those values are put back, to find the few that are worth a run alone.
 *
 * Here: what the files share. input.c has what an input is and its file; change.c and tokens.c how one is changed, sums.c the checksums that are put right
 * behind a change; reads.c closes what lies behind the bytes that were read; paths.c has the edges that were reached; layout.c the files that a run finds;
 * once.c a run alone and what is wrong with how it ended; within.c a run among many, statics.c the values that it starts with, batch.c the many; compare.c
 * whether both go the same ways; kept.c the inputs that are kept; tries.c those that are tried; rounds.c the targets and their turns, report.c what is said
 * of them, and rounds.h what these three share; seeds.c the seeds run once each; main.c the words. */
#ifndef RIM_H
#define RIM_H

#include <signal.h>
#include <stdbool.h>
#include <stddef.h>
#include <stdint.h>

/* input.c: the words of a command, and behind them the files that it finds, each by its name. The file of an input is
 *
 *     WORD                    a line for each word
 *     --- NAME LENGTH         then so many bytes, and a line end that is none of them
 *
 * and again for each file. The file named `-` is standard input, through a pipe; where there is none, standard input is empty. */
#define NAME_ROOM 16
#define MOST_PIECES 40
#define MOST_BYTES ((size_t)140000) /* of a piece: twice what a file may have, and more */

typedef struct {
    char name[NAME_ROOM]; /* empty for a word */
    size_t length;
    uint8_t *bytes;
} Piece;

typedef struct {
    size_t words, count; /* the words come first, the files behind them */
    uint64_t cost;       /* of one that is kept, how many edges its run passed */
    Piece piece[MOST_PIECES];
} Input;

void set_bytes(Piece *piece, const void *bytes, size_t length);
void replace(Piece *piece, size_t at, size_t cut, const void *bytes, size_t length);
Piece *add_piece(Input *input, size_t at, const char *name, const void *bytes, size_t length);
void drop_piece(Input *input, size_t at);
Piece *piece_named(const Input *input, const char *name);
void clean_words(Input *input);
bool parse_input(const uint8_t *bytes, size_t length, Input *input);
void text_of_input(const Input *input, Piece *text);
void copy_input(const Input *from, Input *to);
void free_input(Input *input);

/* tokens.c: words and numbers of the formats. */
extern const char *const tokens[];
extern const size_t token_count;

/* change.c. From a state of the random numbers on they are always the same. */
void set_seed(uint64_t seed);
uint64_t state_of_numbers(void);
size_t below(size_t n);
void change_input(Input *input, const Input *other, const char *focus);

/* sums.c */
uint64_t sum_of(const uint8_t *bytes, size_t length);
void mend_sums(Input *input, const Input *before);

/* reads.c */
void open_reads(void);

/* paths.c: a map has a byte for each edge, with a bit for each count. */
#define MOST_EDGES 65536
typedef enum { NOTHING_NEW, NEW_COUNT, NEW_EDGE } New;
void clear_path(void);
New new_path(const uint8_t *seen);
void add_path(uint8_t *seen);
uint64_t path_length(void);
size_t edges_reached(const uint8_t *seen);
size_t edges_in_all(void);
void name_unreached(const uint8_t *seen);

/* layout.c */
void begin_layout(const char *folder);
bool saves_elsewhere(const Input *input);
void lay_out_all(const Input *input);
void distrust_layout(void);
int input_of(const Input *input, int nothing);

/* once.c: how a run of the command ended. */
#define MOST_STATUS 5
#define STATUSES (MOST_STATUS + 1)
typedef struct {
    int status;        /* its exit status, else negative */
    bool left_out;     /* it would write outside its folder, and was not run */
    bool slow;         /* it took longer than an input may */
    const char *wrong; /* what is wrong with that, null where nothing is */
} Outcome;
int planner_main(int argc, char **argv);
void begin_running(const char *folder);
Outcome run_once(const Input *input);
size_t said_of_it(char *room, size_t length);
const char *wrong_status(int status, bool silent);

/* What a run starts with, alone or among many. */
extern int said, nothing;               /* descriptors: where standard error goes, and /dev/null */
extern volatile sig_atomic_t continued; /* this process was, by SIGCONT */
bool stood_still(int ended);
size_t words_of_input(const Input *input, char **words);
void bound_process(void);
void bound_run(void);
void default_signals(void);

/* statics.c */
bool take_statics(void);
void put_statics_back(void);

/* within.c */
void begin_within(void);
Outcome run_within(const Input *input);

/* batch.c: why a batch of inputs ended. But for the first, the input that is made from the state of the random numbers is to be run alone. */
typedef enum { AT_ITS_END, A_NEW_PATH, SOMETHING_WRONG, BY_DEATH } End;
typedef void (*Make)(Input *input, void *with);
typedef struct {
    End end;
    bool stood_still; /* the death was by the clock, while all of it was stopped */
    uint64_t state, inputs, ended[STATUSES];
} Batch;
void begin_batches(void);
Batch run_batch(Make make, void *with, const uint8_t *seen, const volatile sig_atomic_t *stopped);

/* kept.c */
typedef struct {
    Input *inputs;
    size_t count, room;
} Kept;
typedef void (*Take)(const char *path, const Input *input, void *with);
void read_input(const char *path, Input *input);
bool each_file(const char *folder, Take take, void *with);
void keep(Kept *kept, const Input *input, uint64_t cost);
void let_go(Kept *kept);
void store(const char *folder, const char *front, const Input *input);

/* rounds.c: a target, and what it is about, for which see piece_of in change.c. */
typedef struct {
    const char *name, *focus;
} Target;
#define TARGETS ((size_t)9)
extern const Target targets[TARGETS];
const Target *target_at(char **names, size_t named, size_t i);
void name_wrong(const char *name, const char *wrong);
int fuzz(char **words, int count);
int unreached(char **words, int count);

/* seeds.c */
int replay(char **words, int count);
int show(char **words);

/* compare.c */
int compare(char **words, int count);

#endif
