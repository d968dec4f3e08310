/* ragymolev.h: the planner core for C and C++, and for whatever can call C.
 *
 * From top to bottom: how every entry is called; the layouts of what is lent to it, with their sizes and offsets and as structs; how a struct is lent; the
 * refusals; then the entries, in the order in which a planner meets them: the library, files, tables, judging, runs, parts of a list, counting and
 * growing, pairs, covers, orders, trials, recorded tests; at the end, that the structs are the layouts.
 * docs/MANUAL.md tells what a table, a chain, a ladder and a run are.
 *
 * PLATFORM AND LINKING
 *
 * `tools/library` writes the library, target/staticlib/libragymolev.a. It is for x86-64 Linux (ELF, the System V calling convention), and for
 * every such processor. Of the C library it needs memcpy, memmove and memset, and of any other library nothing. Its code is position independent, so that
 * it can be part of a shared object too. The archive comes after the sources that call it:
 *
 *     cc -Iinclude -o program program.c target/staticlib/libragymolev.a
 *
 * Where it is installed (`./install --prefix DIR`) a program is linked with the shared library, which shows the entries below alone, by
 *
 *     cc -o program program.c $(pkg-config --cflags --libs ragymolev)
 *
 * Its soname has the first number of the version, which goes up where an entry or a layout is no longer what it was. C++ is linked with c++ in place of cc.
 * The header needs C99 or C++; from C11 and C++11 on the compiler checks that the structs are the layouts.
 *
 * HOW EVERY ENTRY IS CALLED
 *
 * Lent memory. An entry gets memory as a pointer and, right behind it, its length in elements: words (uint64_t), bytes (uint8_t) or readings
 * (int32_t). It reads and writes nothing outside of that, keeps no pointer, allocates nothing and has no state of its own, so calls on different
 * memory may run at the same time. A pointer is aligned as its type is, and may be null where its length is 0. Memory that an entry writes must
 * not overlap any other memory lent to the same call.
 *
 * Stack. A call takes less than 64 KB of it, one of rg_read_test, rg_write_test and rg_equal less than 128 KB, as measured and not proved. But rg_cover
 * calls itself once for each ladder that it passes, up to 8 times 1,024 deep at some 200 bytes: more than 300 KB were measured, and a thread that calls
 * it should have 2 MB.
 *
 * The answer. Every entry but rg_version returns 0 where it accepts, else the number of its refusal. The refusals of an entry are checked in the order
 * that its comment gives, and the first one that holds is returned. RG_SHORT comes before all others, in every entry: some lent memory is shorter than
 * its layout. Bytes out have no layout, but for WORDS; where they are too few the answer is RG_BUFFER, at its place in the order.
 *
 * What a refusal leaves. Everything lent is then exactly as it was, byte for byte.
 *
 * What an acceptance leaves. Each "out" has the words of its layout; what is lent behind the layout stays as it was, and so do bytes without a layout
 * behind the length that is reported. All else is only read.
 *
 * Words are unsigned 64-bit numbers in the byte order of the machine. No word is out of bounds for an entry: one that no value has is refused as
 * the layouts below say.
 */
#ifndef RAGYMOLEV_H
#define RAGYMOLEV_H

#include <stddef.h>
#include <stdint.h>

/* The release of this header: major * 10,000 + minor * 100 + patch, so that a later one has the greater number. rg_version says that of the library. */
#define RG_VERSION 10000

/* LAYOUTS: words from offset 0. In every set of rows, gauge g has row g - 1, and bit c - 1 of it stands for case c.
 *
 * Each layout is there twice: as offsets, for languages without structs, and as a struct of the same words. The struct has the name of the layout, and a
 * member the name of its offset, in small letters: word RG_RUN_PHASE of a RUN is run.phase of an rg_run. Two structs are called otherwise, since the entries
 * rg_count and rg_cover have their names: rg_count_answer and rg_cover_answer; and one member, proposal.gauge_case, since `case` is a word of C. */

#define RG_MOST 64            /* the most gauges, and the most cases, that a table has */
#define RG_ROWS 64            /* rows in every set of rows; those past the last gauge are zero */
#define RG_BUDGET 1000000     /* the greatest budget of a call */
#define RG_FILE_BYTES 65536   /* the longest file that is read */
#define RG_TABLE_BYTES 23484  /* bytes that are enough for every file of rg_write */
#define RG_TEST_BYTES 60348   /* bytes that are enough for every file of rg_write_test */
#define RG_PAIR_BYTES 8192    /* bytes that are enough for every order of rg_wiring */

/* TABLE: G gauges and L cases, each 1..64; bits L and above, and rows past G, are zero. */
#define RG_TABLE_GAUGES 0
#define RG_TABLE_CASES 1
#define RG_TABLE_ROWS 2
#define RG_TABLE_WORDS 66
typedef struct rg_table {
    uint64_t gauges, cases, rows[RG_ROWS];
} rg_table;

/* CHAIN: a set of pairs of a table, a ladder too; the row count is the table's G. */
#define RG_CHAIN_COUNT 0
#define RG_CHAIN_ROWS 1
#define RG_CHAIN_WORDS 65
typedef struct rg_chain {
    uint64_t count, rows[RG_ROWS];
} rg_chain;

/* ORDER: a preference. Each of 1..G once (1..L for the cases), the most trusted first, padded with zeros. A word above 255 is no number: it gets
 * RG_PREFERENCE as any other wrong one does. */
#define RG_ORDER_WORDS 64
typedef struct rg_order {
    uint64_t numbers[RG_MOST];
} rg_order;

/* PAIRS: rows of pairs that need not be a chain. */
#define RG_PAIRS_WORDS 64
typedef struct rg_pairs {
    uint64_t rows[RG_ROWS];
} rg_pairs;

/* NUMBERS: gauges or cases by number, padded with zeros. */
#define RG_NUMBERS_WORDS 64
typedef struct rg_numbers {
    uint64_t numbers[RG_MOST];
} rg_numbers;

/* RUN: a paused run. A start makes one, and a run call puts the next one in its place. It can be stored and copied as it is.
 *
 * What changed words get: RG_SHAPE (10) or RG_STRAY_BITS (11) where those of its TABLE are no table any more; then RG_PREFERENCE (27) where those of its
 * ORDER are no order of the entry's side; else RG_PAUSED (15). But where some moves from a fresh start lead to the changed value, it is a RUN as any other,
 * and is taken.
 *
 * How a stored RUN is told from a later layout: by word 0. In this layout, the first one, it is RG_SIDE_GAUGES or RG_SIDE_CASES, and in a later one it will
 * be another number. An entry takes the number of its own side alone: any other gets RG_PAUSED (15), unless what is at the places of TABLE and ORDER
 * gets 10, 11 or 27 before. */
#define RG_RUN_SIDE 0         /* RG_SIDE_GAUGES or RG_SIDE_CASES */
#define RG_RUN_TABLE 1        /* TABLE */
#define RG_RUN_ORDER 67       /* ORDER */
#define RG_RUN_PICKS 131      /* 64 picks by number, in the order they were made, padded with zeros */
#define RG_RUN_COUNT 195      /* how many there are */
#define RG_RUN_PHASE 196      /* RG_PHASE_DOWN, RG_PHASE_HANDED, RG_PHASE_BACK or RG_PHASE_ENDED */
#define RG_RUN_FROM 197       /* the number that the run is back from, in phase RG_PHASE_BACK; else 0 */
#define RG_RUN_OMIT 198       /* 1 where the run omits the ladders that hold no deciding pair, else 0 */
#define RG_RUN_WORDS 199
typedef struct rg_run {
    uint64_t side;
    rg_table table;
    rg_order order;
    uint64_t picks[RG_MOST], count, phase, from, omit;
} rg_run;
#define RG_SIDE_GAUGES 1
#define RG_SIDE_CASES 2
#define RG_PHASE_DOWN 0
#define RG_PHASE_HANDED 1
#define RG_PHASE_BACK 2
#define RG_PHASE_ENDED 3

/* STEP: what a run call gave. */
#define RG_STEP_OUTCOME 0     /* RG_HANDED_OUT, RG_SPENT or RG_END */
#define RG_STEP_MOVES 1       /* the moves made */
#define RG_STEP_CHAIN 2       /* CHAIN: the ladder by gauge rows, on both sides; zeros unless handed out */
#define RG_STEP_PICKS 67      /* its pick sequence: gauges of a gauge run, cases of a case run, padded with zeros; zeros unless handed out */
#define RG_STEP_WORDS 131
typedef struct rg_step {
    uint64_t outcome, moves;
    rg_chain chain;
    uint64_t picks[RG_MOST];
} rg_step;
#define RG_HANDED_OUT 1
#define RG_SPENT 2
#define RG_END 3

/* BATCH: what a batch of run calls gave: these words, and after them its ladders, G words each, by gauge rows, one after the other. A BATCH of
 * RG_BATCH_WORDS + k * G words has room for k ladders; words that are too few for one ladder more have no use. With room for no ladder no move is made, and
 * the outcome is RG_HANDED_OUT: a loop of such batches has no end.
 * rg_batch is the words ahead of the ladders, for a struct of the caller's own that goes on with their rows. rg_batch_64 has room for 64 ladders of any
 * table; gauge g of ladder i, from 0, has rows[i * G + g - 1]. */
#define RG_BATCH_OUTCOME 0    /* RG_HANDED_OUT: as many ladders as have room; RG_SPENT or RG_END */
#define RG_BATCH_LADDERS 1    /* how many ladders */
#define RG_BATCH_MOVES 2      /* the moves made */
#define RG_BATCH_WORDS 3      /* where the first ladder is; the fewest words of a BATCH */
typedef struct rg_batch {
    uint64_t outcome, ladders, moves;
} rg_batch;
typedef struct rg_batch_64 {
    uint64_t outcome, ladders, moves, rows[64 * RG_ROWS];
} rg_batch_64;

/* COUNT: how many ladders. */
#define RG_COUNT_OUTCOME 0    /* 1 counted, or RG_SPENT */
#define RG_COUNT_LADDERS 1    /* 0 where spent */
#define RG_COUNT_CALLS 2      /* the calls that counting took; where spent, the budget */
#define RG_COUNT_WORDS 3
typedef struct rg_count_answer {
    uint64_t outcome, ladders, calls;
} rg_count_answer;
#define RG_COUNTED 1

/* COVER: the fewest ladders that hold every pair. */
#define RG_COVER_OUTCOME 0    /* 1 covered, or RG_SPENT */
#define RG_COVER_NUMBER 1     /* how many ladders; 0 where spent */
#define RG_COVER_TRIED 2      /* the ladders tried; where spent, the budget */
#define RG_COVER_CHAINS 3     /* 8 CHAINs, so many as the number says, padded with zeros */
#define RG_COVER_WORDS 523
typedef struct rg_cover_answer {
    uint64_t outcome, number, tried;
    rg_chain chains[8];
} rg_cover_answer;
#define RG_COVERED 1

/* PROPOSAL: what a trial gives and a commit takes. */
#define RG_PROPOSAL_TABLE 0   /* TABLE */
#define RG_PROPOSAL_CHAIN 66  /* CHAIN: the ladder */
#define RG_PROPOSAL_GAUGE 131 /* the place of the entry */
#define RG_PROPOSAL_CASE 132
#define RG_PROPOSAL_EFFECT 133
#define RG_PROPOSAL_WORDS 134
typedef struct rg_proposal {
    rg_table table;
    rg_chain chain;
    uint64_t gauge, gauge_case, effect;
} rg_proposal;
#define RG_STILL_LADDER 1     /* of the table with the entry flipped it is a ladder, */
#define RG_ONLY_CHAIN 2       /* a chain and no ladder, */
#define RG_NOT_WITHIN 3       /* or it has a pair that the table lacks */

/* TEST, and READINGS beside it: a recorded test. */
#define RG_TEST_KIND 0        /* RG_PATTERN or RG_INTEGER */
#define RG_TEST_GAUGES 1
#define RG_TEST_CASES 2
#define RG_TEST_ROWS 3        /* 64 rows: the entries */
#define RG_TEST_WORDS 67
typedef struct rg_test {
    uint64_t kind, gauges, cases, rows[RG_ROWS];
} rg_test;
#define RG_PATTERN 1
#define RG_INTEGER 2
#define RG_READINGS 4096      /* int32_t: gauge g, case c at (g - 1) * 64 + (c - 1); 0 where there is no entry, and everywhere in a pattern test */
typedef struct rg_readings {
    int32_t at[RG_ROWS][RG_MOST]; /* gauge g, case c: at[g - 1][c - 1] */
} rg_readings;

/* SPAN: a part of the caller's file. */
#define RG_SPAN_START 0       /* bytes ahead of it */
#define RG_SPAN_LENGTH 1
#define RG_SPAN_WORDS 2
typedef struct rg_span {
    uint64_t start, length;
} rg_span;

/* ONE: an answer, a length, a count or a number. It needs no struct: a uint64_t is one. */
#define RG_ONE_WORDS 1
#define RG_NO 0
#define RG_YES 1

/* WORDS: a refusal in words. Bytes of ASCII, fewer than the layout has, padded with zeros: a text as C has it. */
#define RG_WORDS_BYTES 80

/* LENDING A STRUCT. RG_LEND makes the two arguments of a struct that is lent, its words and how many there are:
 *
 *     rg_run_gauges(RG_LEND(run), RG_BUDGET, RG_LEND(step))
 *
 * It takes the value and no pointer to it: where run is a pointer, RG_LEND(*run), since RG_LEND(run) would lend the pointer. A uint64_t and an array of
 * them are lent in the same way, but not an array that is a parameter of a function: that is a pointer too. RG_LEND_CONST lends what is const, to be read;
 * RG_LEND_READINGS and RG_LEND_CONST_READINGS lend readings, and RG_LEND_BATCH of an rg_batch_64 the room for so many ladders, up to 64, of a table with so
 * many gauges.
 *
 * Why the words of a struct may be lent: each of them is an object of type uint64_t, of a reading int32_t, and the entries read and write them as that, so
 * nothing is accessed as another type than its own (strict aliasing). The pointer is that of the whole struct, with no padding in it, so all of its words
 * are within reach. And an entry is machine code that no compiler of the caller's looks into: it must take any of them to be read and written there. */
#ifdef __cplusplus
#define RG_FIRST_OF(type, any, value) static_cast<type *>(static_cast<any *>(&(value)))
#else /* the choice is none: it is there for -Wstrict-aliasing=2 of gcc, which warns of every address that is cast at once */
#define RG_FIRST_OF(type, any, value) ((type *)(1 ? &(value) : (any *)0))
#endif
#define RG_LEND(value) RG_FIRST_OF(uint64_t, void, value), (sizeof(value) / sizeof(uint64_t))
#define RG_LEND_CONST(value) RG_FIRST_OF(const uint64_t, const void, value), (sizeof(value) / sizeof(uint64_t))
#define RG_LEND_READINGS(value) RG_FIRST_OF(int32_t, void, value), (sizeof(value) / sizeof(int32_t))
#define RG_LEND_CONST_READINGS(value) RG_FIRST_OF(const int32_t, const void, value), (sizeof(value) / sizeof(int32_t))
#define RG_LEND_BATCH(value, room, gauges) RG_FIRST_OF(uint64_t, void, value), (RG_BATCH_WORDS + (room) * (gauges))

/* REFUSALS. In a file the first failing line decides, from the top. rg_words says each in words; docs/MANUAL.md, section 7, what to do about
 * it. */
#define RG_ACCEPTED 0
#define RG_LONG_FILE 1        /* file longer than 65,536 bytes */
#define RG_BANNER 2           /* first line is not the banner */
#define RG_LONG_LINE 3        /* line longer than 1,024 bytes */
#define RG_SIZE_LINE 4        /* size line absent or not three fields */
#define RG_SIZE 5             /* G or L of a file not in 1..64 */
#define RG_ENTRY_LINE 6       /* pair line not two fields; in an integer file not three */
#define RG_PLACE 7            /* g or c outside 1..G, 1..L */
#define RG_REPEATED 8         /* pair repeated */
#define RG_NUMBER_OF_PAIRS 9  /* more or fewer than N pairs */
#define RG_SHAPE 10           /* G or L of a table not in 1..64 */
#define RG_STRAY_BITS 11      /* a bit at L or above, or a row past G not zero */
#define RG_ROW_COUNT 12       /* row count of a chain not G */
#define RG_NOT_IN_TABLE 13    /* a pair of a chain not in the table */
#define RG_NO_CHAIN 14        /* not a chain */
#define RG_PAUSED 15          /* a paused run that no moves from a fresh start lead to */
#define RG_BUFFER 16          /* bytes out are too few */
#define RG_NO_COMMENT 17      /* no such comment */
#define RG_OVER_BUDGET 18     /* budget above 1,000,000 */
#define RG_NO_PAIR 19         /* the pair named is not in the table */
#define RG_BAD_READING 20     /* reading outside -1,000,000..1,000,000 */
#define RG_CUTOFF 21          /* cutoff not in 1..1,000,000 */
#define RG_IN_LADDER 22       /* the pair is in the ladder */
#define RG_ABOVE_EIGHT 23     /* G or L above 8 */
#define RG_MANY_LADDERS 24    /* more than 1,024 ladders */
#define RG_NO_LADDER 25       /* not a ladder of the table; for rg_wiring also one that lacks a pair of the chain */
#define RG_OTHER_PROPOSAL 26  /* the proposal is not what the trial on the current table gives */
#define RG_PREFERENCE 27      /* the preference is no arrangement */
#define RG_GENERATOR 28       /* the start is zero or the density above 256 */
#define RG_SHORT 100          /* lent memory is shorter than its layout: before all others, in every entry */

#ifdef __cplusplus
extern "C" {
#endif

/* THE LIBRARY */

/* The number of the release, as RG_VERSION has it in the header of that release. It is returned, nothing is lent, and nothing is refused. */
uint64_t rg_version(void);

/* A number that an entry returned in words: the words of docs/MANUAL.md, section 7; "accepted" for 0, and for a number that no entry returns "a number
 * without words".
 * Reads number. Writes words: WORDS; length: ONE, how many bytes the words have, without the zeros.
 * Refused: 100. */
uint64_t rg_words(uint64_t number, uint8_t *words, size_t words_length, uint64_t *length, size_t length_length);

/* FILES */

/* Reads a file of pairs.
 * Reads file. Writes table: TABLE.
 * Refused: 100; 1; 2; of each line from the top 3, then 4, 5 or 6, 7, 8, 9; at the end of the file 4 or 9. */
uint64_t rg_read(const uint8_t *file, size_t file_length, uint64_t *table, size_t table_length);

/* Finds the line that decides: the first failing one, for which rg_read, or rg_read_test with any cutoff, refuses the file.
 * Reads file, either: 0 as rg_read reads it, else as rg_read_test does. Writes line: ONE, the number of the line, from 1; one past the last where the end
 * of the file decides; 0 where the file is accepted or longer than 65,536 bytes.
 * Refused: 100. */
uint64_t rg_locate(const uint8_t *file, size_t file_length, uint64_t either, uint64_t *line, size_t line_length);

/* Finds comment line k, from 1, of a file of either kind. It is never empty.
 * Reads file, k. Writes span: SPAN, the bytes of the comment within file, without the end of the line.
 * Refused: 100; as rg_read, with 20 between 7 and 8; 17. */
uint64_t rg_comment(const uint8_t *file, size_t file_length, uint64_t k, uint64_t *span, size_t span_length);

/* Writes a table as a file of pairs.
 * Reads table: TABLE. Writes the front of bytes: the file; length: ONE, how many bytes it has.
 * Refused: 100 (of table and length); 10; 11; 16. */
uint64_t rg_write(const uint64_t *table, size_t table_length, uint8_t *bytes, size_t bytes_length, uint64_t *length, size_t length_length);

/* TABLES */

/* Makes a sample table, the same for everybody who gives the same four numbers.
 * Reads gauges, cases, start (not zero), density 0..256: of 256 places so many have a pair, on average.
 * Writes table: TABLE.
 * Refused: 100; 10; 28. */
uint64_t rg_sample(uint64_t gauges, uint64_t cases, uint64_t start, uint64_t density, uint64_t *table, size_t table_length);

/* JUDGING */

/* Whether a set of pairs of a table is a chain.
 * Reads table: TABLE; chain: CHAIN. Writes answer: ONE, RG_YES or RG_NO.
 * Refused: 100; 10; 11; 12; 13. */
uint64_t rg_judge_chain(const uint64_t *table, size_t table_length, const uint64_t *chain, size_t chain_length,
                        uint64_t *answer, size_t answer_length);

/* Whether a set of pairs of a table is a ladder: a chain that no other chain of the table contains.
 * Reads, writes and refuses as rg_judge_chain. */
uint64_t rg_judge_ladder(const uint64_t *table, size_t table_length, const uint64_t *chain, size_t chain_length,
                         uint64_t *answer, size_t answer_length);

/* RUNS: a start, then run calls on the same RUN until one answers RG_END. The ladders handed out are all ladders of the table, each once; of a run that
 * omits, all that hold a deciding pair, each once. A budget of 0 makes no move, and the answer is RG_SPENT; of a RUN that has ended, and a budget above 0, it
 * is RG_END again. */

/* The plain order of a table with n gauges, or with n cases: 1, 2, 3, .., padded with zeros.
 * Reads n, 1..64. Writes order: ORDER.
 * Refused: 100; 10. */
uint64_t rg_plain_order(uint64_t n, uint64_t *order, size_t order_length);

/* Starts a gauge run.
 * Reads table: TABLE; order: ORDER of the gauges; omit: 0 for every ladder, any other number for those that hold a deciding pair.
 * Writes run: RUN, the fresh one.
 * Refused: 100; 10; 11; 27. */
uint64_t rg_start_gauges(const uint64_t *table, size_t table_length, const uint64_t *order, size_t order_length, uint64_t omit,
                         uint64_t *run, size_t run_length);

/* Starts a case run. As rg_start_gauges, with an ORDER of the cases. */
uint64_t rg_start_cases(const uint64_t *table, size_t table_length, const uint64_t *order, size_t order_length, uint64_t omit,
                        uint64_t *run, size_t run_length);

/* Makes up to budget moves of a gauge run, and stops after the first that hands a ladder out or ends the run.
 * Reads run: RUN; budget 0..1,000,000. Writes run: the next RUN in place of this one; step: STEP.
 * Refused: 100; 10 and 11 of its table; 27 of its order; 15; 18. */
uint64_t rg_run_gauges(uint64_t *run, size_t run_length, uint64_t budget, uint64_t *step, size_t step_length);

/* The same of a case run. A RUN of the other side is refused by either entry: with 27 where its order is none of this side, else with 15. */
uint64_t rg_run_cases(uint64_t *run, size_t run_length, uint64_t budget, uint64_t *step, size_t step_length);

/* Makes up to budget moves of a gauge run, and stops after as many hand-outs as the batch has room for, or the end. It is one call in place of so many of
 * rg_run_gauges, the first with the budget and each next with what is left of it: the ladders, the moves and the next RUN are the same, and calls of both
 * may follow one another on one RUN in any turn. Pick sequences are given by rg_run_gauges, and by rg_sequence_gauges for each ladder.
 * Reads run: RUN; budget 0..1,000,000. Writes run: the next RUN in place of this one; batch: BATCH. Words behind its ladders stay as they were.
 * Refused: 100; 10 and 11 of its table; 27 of its order; 15; 18. */
uint64_t rg_list_gauges(uint64_t *run, size_t run_length, uint64_t budget, uint64_t *batch, size_t batch_length);

/* The same of a case run; its ladders are by gauge rows too. */
uint64_t rg_list_cases(uint64_t *run, size_t run_length, uint64_t budget, uint64_t *batch, size_t batch_length);

/* Why a pair of the table is left out of the ladder at which a gauge run is paused (phase RG_PHASE_HANDED): by the first picked gauge that does not respond
 * under the pair's case.
 * Reads run: RUN; gauge and gauge_case: the pair. Writes pick: ONE, that gauge.
 * Refused: 100; 10; 11; 27; 15, for another phase too; 19; 22. */
uint64_t rg_explain_gauge(const uint64_t *run, size_t run_length, uint64_t gauge, uint64_t gauge_case, uint64_t *pick, size_t pick_length);

/* The same of a case run: by the first picked case that the pair's gauge does not respond under.
 * Writes pick: ONE, that case. */
uint64_t rg_explain_case(const uint64_t *run, size_t run_length, uint64_t gauge, uint64_t gauge_case, uint64_t *pick, size_t pick_length);

/* The pick sequence of a ladder by gauges, from the ladder alone and without a run: of those not yet taken the one with most cases there, the first in the
 * order on a tie. It is what a gauge run under this order carries with the ladder (RG_STEP_PICKS), and the list of that run ascends by it, place by place.
 * Reads table: TABLE; order: ORDER of the gauges; ladder: CHAIN. Writes numbers: NUMBERS, the gauges that have a case in the ladder.
 * Refused: 100; 10; 11; 27; 12; 13; 25. */
uint64_t rg_sequence_gauges(const uint64_t *table, size_t table_length, const uint64_t *order, size_t order_length,
                            const uint64_t *ladder, size_t ladder_length, uint64_t *numbers, size_t numbers_length);

/* The same by cases, with an ORDER of the cases. */
uint64_t rg_sequence_cases(const uint64_t *table, size_t table_length, const uint64_t *order, size_t order_length,
                           const uint64_t *ladder, size_t ladder_length, uint64_t *numbers, size_t numbers_length);

/* PARTS OF A LIST: a RUN in phase RG_PHASE_DOWN is a part, that of the ladders of its list whose pick sequence begins with its picks; a fresh one is the
 * whole list. Run calls from it hand these ladders out. The part is closed, and nothing of it comes later, by the first ladder whose sequence begins
 * otherwise, which is not of it; by RG_END; and by RG_SPENT where the first RG_RUN_COUNT of the RUN's picks no longer begin with the part's, which a run that
 * omits reaches long before its next ladder. As long as they do begin so, every ladder handed out so far is of the part, those of batches too. The parts of
 * its candidates, where it has some, one after the other, are the part. */

/* The gauges that a gauge run can pick next, each of which makes a part of this one. Where there is none, the picks are the sequence of one ladder: the part
 * is this ladder alone, and of a run that omits nothing where it holds no deciding pair.
 * Reads run: RUN. Writes numbers: NUMBERS, the candidates in the order of the run's preference.
 * Refused: 100; 10; 11; 27; 15, for another phase than RG_PHASE_DOWN too. */
uint64_t rg_candidates_gauges(const uint64_t *run, size_t run_length, uint64_t *numbers, size_t numbers_length);

/* The same of a case run: cases. */
uint64_t rg_candidates_cases(const uint64_t *run, size_t run_length, uint64_t *numbers, size_t numbers_length);

/* The part of a gauge run that has one candidate as a pick more.
 * Reads run: RUN; number: the candidate. Writes part: RUN, in phase RG_PHASE_DOWN.
 * Refused: 100; 10; 11; 27; 15, for another phase than RG_PHASE_DOWN and for a number that is no candidate too. */
uint64_t rg_part_gauges(const uint64_t *run, size_t run_length, uint64_t number, uint64_t *part, size_t part_length);

/* The same of a case run. */
uint64_t rg_part_cases(const uint64_t *run, size_t run_length, uint64_t number, uint64_t *part, size_t part_length);

/* COUNTING AND GROWING */

/* How many ladders a table has, by one call for each pick sequence that a gauge run can reach.
 * Reads table: TABLE; order: ORDER of the gauges; budget 0..1,000,000 calls. Writes count: COUNT.
 * Refused: 100; 10; 11; 27; 18. */
uint64_t rg_count(const uint64_t *table, size_t table_length, const uint64_t *order, size_t order_length, uint64_t budget,
                  uint64_t *count, size_t count_length);

/* Grows a chain to the first ladder, in gauge order under a preference, that contains it.
 * Reads table: TABLE; order: ORDER of the gauges; chain: CHAIN. Writes ladder: CHAIN.
 * Refused: 100; 10; 11; 27; 12; 13; 14. */
uint64_t rg_grow(const uint64_t *table, size_t table_length, const uint64_t *order, size_t order_length,
                 const uint64_t *chain, size_t chain_length, uint64_t *ladder, size_t ladder_length);

/* PAIRS */

/* The rivals of a pair g:c: the pairs h:d of the table such that it has neither g:d nor h:c. No ladder holds a pair and a rival of it.
 * Reads table: TABLE; gauge and gauge_case: the pair. Writes pairs: PAIRS.
 * Refused: 100; 10; 11; 19. */
uint64_t rg_rivals(const uint64_t *table, size_t table_length, uint64_t gauge, uint64_t gauge_case, uint64_t *pairs, size_t pairs_length);

/* Whether a pair is deciding: no other pair's rivals strictly contain its own.
 * Reads table: TABLE; gauge and gauge_case: the pair. Writes answer: ONE, RG_YES or RG_NO.
 * Refused: 100; 10; 11; 19. */
uint64_t rg_decides(const uint64_t *table, size_t table_length, uint64_t gauge, uint64_t gauge_case, uint64_t *answer, size_t answer_length);

/* COVERS */

/* The fewest ladders that together hold every pair of a table up to 8 by 8.
 * Reads table: TABLE; budget 0..1,000,000 ladders to try. Writes cover: COVER.
 * Refused: 100; 10; 11; 18; 23; 24. */
uint64_t rg_cover(const uint64_t *table, size_t table_length, uint64_t budget, uint64_t *cover, size_t cover_length);

/* ORDERS OF WIRING */

/* An order of the pairs that a chain lacks of a ladder such that after each of them the set is still a chain.
 * Reads table: TABLE; chain, ladder: CHAIN. Writes the front of bytes: two bytes a pair, gauge then case; count: ONE, how many pairs.
 * Refused: 100 (of all but bytes); 10; 11; of the chain 12, 13, 14; of the ladder 12, 13; 25; 16. */
uint64_t rg_wiring(const uint64_t *table, size_t table_length, const uint64_t *chain, size_t chain_length,
                   const uint64_t *ladder, size_t ladder_length, uint8_t *bytes, size_t bytes_length, uint64_t *count, size_t count_length);

/* TRIALS */

/* What flipping one entry of a table would do to a ladder of it.
 * Reads table: TABLE; ladder: CHAIN; gauge and gauge_case: the place of the entry. Writes proposal: PROPOSAL.
 * Refused: 100; 10; 11; 7; 12; 13; 25. */
uint64_t rg_trial(const uint64_t *table, size_t table_length, const uint64_t *ladder, size_t ladder_length, uint64_t gauge, uint64_t gauge_case,
                  uint64_t *proposal, size_t proposal_length);

/* Flips the entry of a proposal in the current table.
 * Reads proposal: PROPOSAL, any words; table: TABLE, the current one. Writes flipped: TABLE.
 * Refused: 100; 10 and 11 of the current table; 26, where the proposal is not, word for word, what its trial on the current table gives. */
uint64_t rg_commit(const uint64_t *proposal, size_t proposal_length, const uint64_t *table, size_t table_length,
                   uint64_t *flipped, size_t flipped_length);

/* RECORDED TESTS: what rg_read_test leaves is what rg_write_test and rg_equal take. */

/* Reads a file of either kind, pairs or readings, with a cutoff: a pair exists where the magnitude of the reading reaches it.
 * Reads file, cutoff 1..1,000,000. Writes test: TEST; readings: READINGS; table: TABLE, the pairs at the cutoff.
 * Refused: 100; 21; then as rg_read, with 20 between 7 and 8. */
uint64_t rg_read_test(const uint8_t *file, size_t file_length, uint64_t cutoff, uint64_t *test, size_t test_length,
                      int32_t *readings, size_t readings_length, uint64_t *table, size_t table_length);

/* Writes a recorded test as a file of its kind.
 * Reads test: TEST; readings: READINGS. Writes the front of bytes: the file; length: ONE, how many bytes it has.
 * Refused: 100 (of test, readings and length); 10; 11, for a kind that is none, an entry outside G by L, or a reading that is not zero at an absent
 * entry or in a pattern test; 20; 16. */
uint64_t rg_write_test(const uint64_t *test, size_t test_length, const int32_t *readings, size_t readings_length,
                       uint8_t *bytes, size_t bytes_length, uint64_t *length, size_t length_length);

/* Whether two recorded tests are equal: of one kind and shape, with the same entries and the same readings.
 * Reads test_a, test_b: TEST; readings_a, readings_b: READINGS. Writes answer: ONE, RG_YES or RG_NO.
 * Refused: 100; 10, 11, 20 of the first, as in rg_write_test; then of the second. */
uint64_t rg_equal(const uint64_t *test_a, size_t test_a_length, const int32_t *readings_a, size_t readings_a_length,
                  const uint64_t *test_b, size_t test_b_length, const int32_t *readings_b, size_t readings_b_length,
                  uint64_t *answer, size_t answer_length);

#ifdef __cplusplus
}
#endif

/* THE STRUCTS ARE THE LAYOUTS: so many words, and each member at its offset. C99 cannot say so; for it tests/layout.c does. */
#if defined(__cplusplus) && __cplusplus >= 201103L
#define RG_HOLDS(claim) static_assert(claim, #claim)
#elif !defined(__cplusplus) && defined(__STDC_VERSION__) && __STDC_VERSION__ >= 201112L
#define RG_HOLDS(claim) _Static_assert(claim, #claim)
#endif
#ifdef RG_HOLDS
#define RG_FILLS(type, words) RG_HOLDS(sizeof(type) == sizeof(uint64_t) * (words))
#define RG_STANDS(type, member, offset) RG_HOLDS(offsetof(type, member) == sizeof(uint64_t) * (offset))
RG_FILLS(rg_table, RG_TABLE_WORDS);
RG_STANDS(rg_table, gauges, RG_TABLE_GAUGES);
RG_STANDS(rg_table, cases, RG_TABLE_CASES);
RG_STANDS(rg_table, rows, RG_TABLE_ROWS);
RG_FILLS(rg_chain, RG_CHAIN_WORDS);
RG_STANDS(rg_chain, count, RG_CHAIN_COUNT);
RG_STANDS(rg_chain, rows, RG_CHAIN_ROWS);
RG_FILLS(rg_order, RG_ORDER_WORDS);
RG_FILLS(rg_pairs, RG_PAIRS_WORDS);
RG_FILLS(rg_numbers, RG_NUMBERS_WORDS);
RG_FILLS(rg_run, RG_RUN_WORDS);
RG_STANDS(rg_run, side, RG_RUN_SIDE);
RG_STANDS(rg_run, table, RG_RUN_TABLE);
RG_STANDS(rg_run, order, RG_RUN_ORDER);
RG_STANDS(rg_run, picks, RG_RUN_PICKS);
RG_STANDS(rg_run, count, RG_RUN_COUNT);
RG_STANDS(rg_run, phase, RG_RUN_PHASE);
RG_STANDS(rg_run, from, RG_RUN_FROM);
RG_STANDS(rg_run, omit, RG_RUN_OMIT);
RG_FILLS(rg_step, RG_STEP_WORDS);
RG_STANDS(rg_step, outcome, RG_STEP_OUTCOME);
RG_STANDS(rg_step, moves, RG_STEP_MOVES);
RG_STANDS(rg_step, chain, RG_STEP_CHAIN);
RG_STANDS(rg_step, picks, RG_STEP_PICKS);
RG_FILLS(rg_batch, RG_BATCH_WORDS);
RG_STANDS(rg_batch, outcome, RG_BATCH_OUTCOME);
RG_STANDS(rg_batch, ladders, RG_BATCH_LADDERS);
RG_STANDS(rg_batch, moves, RG_BATCH_MOVES);
RG_FILLS(rg_batch_64, RG_BATCH_WORDS + 64 * RG_ROWS);
RG_STANDS(rg_batch_64, outcome, RG_BATCH_OUTCOME);
RG_STANDS(rg_batch_64, ladders, RG_BATCH_LADDERS);
RG_STANDS(rg_batch_64, moves, RG_BATCH_MOVES);
RG_STANDS(rg_batch_64, rows, RG_BATCH_WORDS);
RG_FILLS(rg_count_answer, RG_COUNT_WORDS);
RG_STANDS(rg_count_answer, outcome, RG_COUNT_OUTCOME);
RG_STANDS(rg_count_answer, ladders, RG_COUNT_LADDERS);
RG_STANDS(rg_count_answer, calls, RG_COUNT_CALLS);
RG_FILLS(rg_cover_answer, RG_COVER_WORDS);
RG_STANDS(rg_cover_answer, outcome, RG_COVER_OUTCOME);
RG_STANDS(rg_cover_answer, number, RG_COVER_NUMBER);
RG_STANDS(rg_cover_answer, tried, RG_COVER_TRIED);
RG_STANDS(rg_cover_answer, chains, RG_COVER_CHAINS);
RG_FILLS(rg_proposal, RG_PROPOSAL_WORDS);
RG_STANDS(rg_proposal, table, RG_PROPOSAL_TABLE);
RG_STANDS(rg_proposal, chain, RG_PROPOSAL_CHAIN);
RG_STANDS(rg_proposal, gauge, RG_PROPOSAL_GAUGE);
RG_STANDS(rg_proposal, gauge_case, RG_PROPOSAL_CASE);
RG_STANDS(rg_proposal, effect, RG_PROPOSAL_EFFECT);
RG_FILLS(rg_test, RG_TEST_WORDS);
RG_STANDS(rg_test, kind, RG_TEST_KIND);
RG_STANDS(rg_test, gauges, RG_TEST_GAUGES);
RG_STANDS(rg_test, cases, RG_TEST_CASES);
RG_STANDS(rg_test, rows, RG_TEST_ROWS);
RG_FILLS(rg_span, RG_SPAN_WORDS);
RG_STANDS(rg_span, start, RG_SPAN_START);
RG_STANDS(rg_span, length, RG_SPAN_LENGTH);
RG_HOLDS(sizeof(rg_readings) == sizeof(int32_t) * RG_READINGS);
#undef RG_STANDS
#undef RG_FILLS
#undef RG_HOLDS
#endif

#endif
