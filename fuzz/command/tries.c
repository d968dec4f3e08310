/* Inputs of a target that are tried: one alone, and many in one process. Where there is something to the last of these it is run alone, and only that counts.
 * An input is made from random numbers and from what is kept, and from nothing else, so that it can be made again. */
#include "rounds.h"
#include <stdio.h>

#define MOST_STORED 20 /* inputs of a target that are stored because something is wrong, or slow, or did not come again */
#define ALONE 16       /* inputs between two looks at the time, where each is run alone */

/* --- one input */

static void store_fault(const Round *round, const char *kind, const Input *input) {
    char front[NAME_ROOM * 4];
    snprintf(front, sizeof front, "%s-%s-", kind, round->target->name);
    store(round->all->faults, front, input);
}

/* An input that something is wrong with, or that is slow: the first ones are stored. */
static void take_fault(Round *round, const Input *input, const Outcome *outcome) {
    uint64_t number = outcome->slow ? ++round->slow : ++round->wrong;
    if (number > MOST_STORED) return;
    store_fault(round, outcome->slow ? "slow" : "wrong", input);
    if (outcome->wrong) name_wrong(round->target->name, outcome->wrong);
}

/* Something ended many inputs in one process, and did not come again when the last of them was run alone. */
static void take_not_again(Round *round, const Input *input, const char *what) {
    if (++round->not_again > MOST_STORED) return;
    store_fault(round, "notagain", input);
    printf("%s: %s among many inputs, and not alone\n", round->target->name, what);
    fflush(stdout);
}

/* For the target, and for the command where no target has gone that way before. */
static void note_new(Round *round, New own, New anywhere) {
    double now = seconds();
    Last *all = &round->all->last;
    *(own == NEW_EDGE ? &round->last.edge : &round->last.count) = round->spent + now - round->from;
    if (anywhere) *(anywhere == NEW_EDGE ? &all->edge : &all->count) = now;
}

/* Runs an input alone, and keeps it where it goes a new way. A signal that stops the rounds stops the command too, and says nothing of the input. */
Worth try_input(Round *round, const Input *input, bool stored) {
    Outcome outcome = run_once(input);
    if (stopped || outcome.left_out) return NOT_TRIED;
    round->inputs++;
    if (outcome.slow || outcome.wrong) {
        take_fault(round, input, &outcome);
        return A_FAULT;
    }
    round->ended[outcome.status]++;
    New new = new_path(round->seen), anywhere = new_path(round->all->seen);
    if (!new) return NOTHING_TO_IT;
    add_path(round->seen);
    add_path(round->all->seen);
    keep(&round->kept, input, path_length());
    if (!stored) note_new(round, new, anywhere);
    if (!stored) store(round->folder, "", input);
    return A_NEW_WAY;
}

/* One of those that are kept, the newer half as often as all. */
static const Input *any_of(const Kept *kept) {
    size_t half = kept->count / 2;
    return &kept->inputs[below(2) ? below(kept->count) : half + below(kept->count - half)];
}

/* Mostly the shorter run of two, so that long ones do not take most of the time. */
static const Input *one_of(const Kept *kept) {
    const Input *one = any_of(kept), *other = any_of(kept);
    return other->cost < one->cost && below(4) ? other : one;
}

/* The next input, from the random numbers and from what is kept alone. */
static void make_next(Input *input, void *with) {
    const Round *round = with;
    const Input *before = one_of(&round->kept);
    copy_input(before, input);
    change_input(input, one_of(&round->kept), round->target->focus);
    if (below(4)) mend_sums(input, before);
}

/* --- many inputs */

void change_alone(Round *round) {
    for (int i = 0; i < ALONE && !stopped; i++) {
        Input input;
        make_next(&input, round);
        try_input(round, &input, false);
        free_input(&input);
    }
}

/* The last input of a batch is run alone where there is something to it, and only that run counts. */
void change_many(Round *round) {
    Input input;
    Batch batch = run_batch(make_next, round, round->seen, &stopped);
    round->inputs += batch.inputs;
    for (int i = 0; i < STATUSES; i++) round->ended[i] += batch.ended[i];
    set_seed(batch.state);
    if (stopped || batch.end == AT_ITS_END) return;
    make_next(&input, round);
    Worth worth = try_input(round, &input, false);
    bool same = worth == A_FAULT || worth == NOT_TRIED || batch.stood_still;
    if (batch.end == A_NEW_PATH) round->passing += worth == NOTHING_TO_IT;
    else if (!same) take_not_again(round, &input, batch.end == BY_DEATH ? "an end by a signal or a report" : "an exit status that is wrong");
    free_input(&input);
}
