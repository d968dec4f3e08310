"""Sizes, offsets, refusals and entries of the library.

Made by tools/python-layout from include/ragymolev.h, and not changed by hand."""

from typing import Dict, Tuple

RG_VERSION = 10000
RG_MOST = 64
RG_ROWS = 64
RG_BUDGET = 1000000
RG_FILE_BYTES = 65536
RG_TABLE_BYTES = 23484
RG_TEST_BYTES = 60348
RG_PAIR_BYTES = 8192
RG_TABLE_GAUGES = 0
RG_TABLE_CASES = 1
RG_TABLE_ROWS = 2
RG_TABLE_WORDS = 66
RG_CHAIN_COUNT = 0
RG_CHAIN_ROWS = 1
RG_CHAIN_WORDS = 65
RG_ORDER_WORDS = 64
RG_PAIRS_WORDS = 64
RG_NUMBERS_WORDS = 64
RG_RUN_SIDE = 0
RG_RUN_TABLE = 1
RG_RUN_ORDER = 67
RG_RUN_PICKS = 131
RG_RUN_COUNT = 195
RG_RUN_PHASE = 196
RG_RUN_FROM = 197
RG_RUN_OMIT = 198
RG_RUN_WORDS = 199
RG_SIDE_GAUGES = 1
RG_SIDE_CASES = 2
RG_PHASE_DOWN = 0
RG_PHASE_HANDED = 1
RG_PHASE_BACK = 2
RG_PHASE_ENDED = 3
RG_STEP_OUTCOME = 0
RG_STEP_MOVES = 1
RG_STEP_CHAIN = 2
RG_STEP_PICKS = 67
RG_STEP_WORDS = 131
RG_HANDED_OUT = 1
RG_SPENT = 2
RG_END = 3
RG_BATCH_OUTCOME = 0
RG_BATCH_LADDERS = 1
RG_BATCH_MOVES = 2
RG_BATCH_WORDS = 3
RG_COUNT_OUTCOME = 0
RG_COUNT_LADDERS = 1
RG_COUNT_CALLS = 2
RG_COUNT_WORDS = 3
RG_COUNTED = 1
RG_COVER_OUTCOME = 0
RG_COVER_NUMBER = 1
RG_COVER_TRIED = 2
RG_COVER_CHAINS = 3
RG_COVER_WORDS = 523
RG_COVERED = 1
RG_PROPOSAL_TABLE = 0
RG_PROPOSAL_CHAIN = 66
RG_PROPOSAL_GAUGE = 131
RG_PROPOSAL_CASE = 132
RG_PROPOSAL_EFFECT = 133
RG_PROPOSAL_WORDS = 134
RG_STILL_LADDER = 1
RG_ONLY_CHAIN = 2
RG_NOT_WITHIN = 3
RG_TEST_KIND = 0
RG_TEST_GAUGES = 1
RG_TEST_CASES = 2
RG_TEST_ROWS = 3
RG_TEST_WORDS = 67
RG_PATTERN = 1
RG_INTEGER = 2
RG_READINGS = 4096
RG_SPAN_START = 0
RG_SPAN_LENGTH = 1
RG_SPAN_WORDS = 2
RG_ONE_WORDS = 1
RG_NO = 0
RG_YES = 1
RG_WORDS_BYTES = 80
RG_ACCEPTED = 0
RG_LONG_FILE = 1
RG_BANNER = 2
RG_LONG_LINE = 3
RG_SIZE_LINE = 4
RG_SIZE = 5
RG_ENTRY_LINE = 6
RG_PLACE = 7
RG_REPEATED = 8
RG_NUMBER_OF_PAIRS = 9
RG_SHAPE = 10
RG_STRAY_BITS = 11
RG_ROW_COUNT = 12
RG_NOT_IN_TABLE = 13
RG_NO_CHAIN = 14
RG_PAUSED = 15
RG_BUFFER = 16
RG_NO_COMMENT = 17
RG_OVER_BUDGET = 18
RG_NO_PAIR = 19
RG_BAD_READING = 20
RG_CUTOFF = 21
RG_IN_LADDER = 22
RG_ABOVE_EIGHT = 23
RG_MANY_LADDERS = 24
RG_NO_LADDER = 25
RG_OTHER_PROPOSAL = 26
RG_PREFERENCE = 27
RG_GENERATOR = 28
RG_SHORT = 100

# What each entry is given: a number, or lent memory, which goes as a pointer and its length; `out` is written.
ENTRIES: Dict[str, Tuple[str, ...]] = {
    "rg_version": (),
    "rg_words": ("number", "bytes out", "words out"),
    "rg_read": ("bytes", "words out"),
    "rg_locate": ("bytes", "number", "words out"),
    "rg_comment": ("bytes", "number", "words out"),
    "rg_write": ("words", "bytes out", "words out"),
    "rg_sample": ("number", "number", "number", "number", "words out"),
    "rg_judge_chain": ("words", "words", "words out"),
    "rg_judge_ladder": ("words", "words", "words out"),
    "rg_plain_order": ("number", "words out"),
    "rg_start_gauges": ("words", "words", "number", "words out"),
    "rg_start_cases": ("words", "words", "number", "words out"),
    "rg_run_gauges": ("words out", "number", "words out"),
    "rg_run_cases": ("words out", "number", "words out"),
    "rg_list_gauges": ("words out", "number", "words out"),
    "rg_list_cases": ("words out", "number", "words out"),
    "rg_explain_gauge": ("words", "number", "number", "words out"),
    "rg_explain_case": ("words", "number", "number", "words out"),
    "rg_sequence_gauges": ("words", "words", "words", "words out"),
    "rg_sequence_cases": ("words", "words", "words", "words out"),
    "rg_candidates_gauges": ("words", "words out"),
    "rg_candidates_cases": ("words", "words out"),
    "rg_part_gauges": ("words", "number", "words out"),
    "rg_part_cases": ("words", "number", "words out"),
    "rg_count": ("words", "words", "number", "words out"),
    "rg_grow": ("words", "words", "words", "words out"),
    "rg_rivals": ("words", "number", "number", "words out"),
    "rg_decides": ("words", "number", "number", "words out"),
    "rg_cover": ("words", "number", "words out"),
    "rg_wiring": ("words", "words", "words", "bytes out", "words out"),
    "rg_trial": ("words", "words", "number", "number", "words out"),
    "rg_commit": ("words", "words", "words out"),
    "rg_read_test": ("bytes", "number", "words out", "readings out", "words out"),
    "rg_write_test": ("words", "readings", "bytes out", "words out"),
    "rg_equal": ("words", "readings", "words", "readings", "words out"),
}
