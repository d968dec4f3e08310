/* A paused listing in a file of its own: ten lines of text, the last of which is a sum of the others.
 *
 *     ragymolev run 1
 *     part LINE                          as `planner parts` writes it; the whole list is the part of no picks
 *     of part                            or `list`, where no part was asked for
 *     writes ladders                     or `picks`
 *     phase handed                       or `down`, `back N`, `ended`: where the run stands, N the number that it is back from
 *     picks 1,3                          of the run, or `-`
 *     ladders 2                          so far, and the bytes written for them, and the sum of these
 *     bytes 140
 *     sum 16 hexadecimal digits
 *     check 16 hexadecimal digits
 *
 * It is written whole or not at all: into a file beside it, for which the room is taken before anything is listed, so that it is there when the disk is full,
 * and which then gets its name. It is read strictly: what is not, byte for byte, what is written here is refused with 15; whether the run is one that moves
 * from a fresh start lead to, the library says. */
#define _POSIX_C_SOURCE 200809L /* fcntl, fsync, ftruncate, pwrite, stat */
#include "planner.h"
#include <errno.h>
#include <fcntl.h>
#include <inttypes.h>
#include <stdio.h>
#include <stdlib.h>
#include <string.h>
#include <sys/stat.h>
#include <unistd.h>

#define ROOM 2048 /* bytes that are enough for every saved run */
#define MARK "ragymolev "

enum { HEAD, PART_OF, OF, WRITES, PHASE, PICKED, LADDERS, BYTES, SUM, CHECK, LINES };
static const char *const words[LINES] = {"ragymolev run", "part", "of", "writes", "phase", "picks", "ladders", "bytes", "sum", "check"};
static const char *const phases[] = {[RG_PHASE_DOWN] = "down", [RG_PHASE_HANDED] = "handed", [RG_PHASE_BACK] = "back ", [RG_PHASE_ENDED] = "ended"};

/* --- the text */

static size_t text_of(const Paused *paused, char *text) {
    char line[PART_LINE], picks[PICKS_TEXT + 1], from[24] = "";
    const uint64_t *run = paused->run.words;
    part_line(line, &paused->run, paused->prefers, &paused->part);
    picks[picks_text(run + RG_RUN_PICKS, picks)] = 0;
    if (run[RG_RUN_PHASE] == RG_PHASE_BACK) snprintf(from, sizeof from, "%" PRIu64, run[RG_RUN_FROM]);
    int length = snprintf(text, ROOM, "ragymolev run 1\npart %s\nof %s\nwrites %s\nphase %s%s\npicks %s\n"
                          "ladders %" PRIu64 "\nbytes %" PRIu64 "\nsum %016" PRIx64 "\n",
                          line, paused->of_part ? "part" : "list", paused->picks ? "picks" : "ladders", phases[run[RG_RUN_PHASE]], from, picks,
                          paused->ladders, paused->bytes, paused->sum);
    uint64_t check = add_to_sum(EMPTY_SUM, text, (size_t)length);
    return (size_t)(length + snprintf(text + length, ROOM - (size_t)length, "check %016" PRIx64 "\n", check));
}

/* What stands behind the word of a line. */
static bool cut_value(Text *rest, const char *word, Text *value) {
    size_t ahead = strlen(word);
    const char *end = memchr(rest->text, '\n', rest->length);
    if (!end || (size_t)(end - rest->text) <= ahead || memcmp(rest->text, word, ahead) || rest->text[ahead] != ' ') return false;
    *value = (Text){rest->text + ahead + 1, (size_t)(end - rest->text) - ahead - 1};
    *rest = (Text){end + 1, rest->length - (size_t)(end + 1 - rest->text)};
    return true;
}

/* The ten lines and nothing else, and the sum of nine of them in the last. */
static bool cut_values(const File *file, Text *value) {
    Text rest = {(const char *)file->bytes, file->length};
    uint64_t check;
    for (int i = 0; i < LINES; i++)
        if (!cut_value(&rest, words[i], &value[i])) return false;
    size_t ahead = (size_t)(value[CHECK].text - (const char *)file->bytes) - strlen("check ");
    return rest.length == 0 && read_sum(value[CHECK].text, value[CHECK].length, &check) && check == add_to_sum(EMPTY_SUM, file->bytes, ahead);
}

static bool is(Text value, const char *text) { return value.length == strlen(text) && !memcmp(value.text, text, value.length); }

/* One of two words; which it is. */
static bool one_of(Text value, const char *no, const char *yes, bool *which) {
    *which = is(value, yes);
    return *which || is(value, no);
}

/* A phase as it is written, with the number that the run is back from. */
static bool read_phase(Text value, uint64_t *run) {
    size_t back = strlen(phases[RG_PHASE_BACK]);
    for (run[RG_RUN_PHASE] = RG_PHASE_DOWN; run[RG_RUN_PHASE] <= RG_PHASE_ENDED; run[RG_RUN_PHASE]++)
        if (run[RG_RUN_PHASE] != RG_PHASE_BACK && is(value, phases[run[RG_RUN_PHASE]])) return true;
    run[RG_RUN_PHASE] = RG_PHASE_BACK;
    return value.length > back && !memcmp(value.text, phases[RG_PHASE_BACK], back) && read_number(value.text + back, value.length - back, &run[RG_RUN_FROM]);
}

/* All but the part's line: false for what has another form. What is not just as it is written is seen when it is written again. */
static bool read_rest(const Text *value, Paused *paused) {
    uint64_t *run = paused->run.words;
    Part picks;
    if (!read_phase(value[PHASE], run) || !read_picks(value[PICKED].text, value[PICKED].length, &picks)) return false;
    run[RG_RUN_COUNT] = picks.count;
    for (int i = 0; i < picks.count; i++) run[RG_RUN_PICKS + i] = picks.picks[i];
    return one_of(value[OF], "list", "part", &paused->of_part) && one_of(value[WRITES], "ladders", "picks", &paused->picks) &&
           read_number(value[LADDERS].text, value[LADDERS].length, &paused->ladders) &&
           read_number(value[BYTES].text, value[BYTES].length, &paused->bytes) && read_sum(value[SUM].text, value[SUM].length, &paused->sum);
}

/* --- reading */

static void accept_saved(const char *name, bool accepted) {
    if (!accepted) refuse_because(name, RG_PAUSED, words_of(RG_PAUSED), "it is not as planner list --save wrote it");
}

static bool same_text(const File *file, const Paused *paused) {
    char text[ROOM];
    return text_of(paused, text) == file->length && !memcmp(text, file->bytes, file->length);
}

/* A call without a move says whether moves lead to the value. A run that is saved stands within its part. */
static void accept_value(const char *name, Paused *paused) {
    Run run = paused->run;
    uint64_t why = (run.by_cases ? rg_run_cases : rg_run_gauges)(run.words, RG_RUN_WORDS, 0, run.step, RG_STEP_WORDS);
    accept(name, why);
    accept_saved(name, within_part(&run, &paused->part));
}

static bool take_line(Text value, char *line) {
    snprintf(line, PART_LINE, "%.*s", (int)(value.length < PART_LINE ? value.length : PART_LINE), value.text);
    return strlen(line) == value.length;
}

/* The listing that a file has: 15 for its form, 102, 27 by the library, 15 for what is not as it was written, and 15 by the library. The form is looked at
 * on the way through the values; they are taken again once the part has made a fresh run. */
void read_saved(const char *word, const uint64_t *table, Paused *paused) {
    static File file;
    Text value[LINES];
    char line[PART_LINE];
    const char *name = name_of(word);
    read_file(word, &file);
    accept_saved(name, cut_values(&file, value) && take_line(value[PART_OF], line) && read_rest(value, paused));
    uint64_t why = read_part(line, table, &paused->part, &paused->run);
    accept_saved(name, why != NO_PART_LINE);
    accept(name, why);
    paused->prefers = line_prefers(line);
    accept_saved(name, read_rest(value, paused) && same_text(&file, paused));
    accept_value(name, paused);
}

/* --- writing */

/* Of `--save` the file, the one beside it, and where that is open; nothing where it was not given. */
static struct {
    const char *file;
    char *beside;
    int room;
} place;

/* What is there already is no run of ours to write over, unless it is the one that is resumed. */
static void expect_none(const char *file, const char *resumed) {
    struct stat there, other;
    if (lstat(file, &there)) return;
    if (resumed && !stat(file, &there) && !stat(resumed, &other) && there.st_dev == other.st_dev && there.st_ino == other.st_ino) return;
    fail(file, "is there already, and no saved run is written over");
}

static char *name_beside(const char *file) {
    size_t room = strlen(file) + sizeof ".new";
    char *name = malloc(room);
    if (!name) fail("planner", "no memory");
    snprintf(name, room, "%s.new", file);
    return name;
}

/* Never in the place of one of the three that every program has, where one of them is closed. */
static int open_above(const char *name) {
    int low = open(name, O_RDWR | O_CREAT, 0666), high = low < 0 ? -1 : fcntl(low, F_DUPFD, STDERR_FILENO + 1);
    if (low >= 0) close(low);
    if (high < 0) fail(name, "cannot be written");
    return high;
}

/* Whether it is new, or left there by a listing that was killed; and no other listing has it. */
static void expect_ours(const char *name, int room) {
    struct flock lock = {.l_type = F_WRLCK, .l_whence = SEEK_SET};
    char front[sizeof MARK - 1];
    ssize_t length = pread(room, front, sizeof front, 0);
    if (length && (length != sizeof front || memcmp(front, MARK, sizeof front))) fail(name, "is there already, and is not written over");
    if (fcntl(room, F_SETLK, &lock) && (errno == EACCES || errno == EAGAIN)) fail(name, "is being written by another listing");
}

static bool write_whole(const char *text, size_t length) {
    return pwrite(place.room, text, length, 0) == (ssize_t)length && !ftruncate(place.room, (off_t)length) && !fsync(place.room);
}

void take_room(const Request *request) {
    char text[ROOM];
    const char *file = request->option[SAVE];
    if (!file) return;
    expect_none(file, request->option[RESUME]);
    place.beside = name_beside(file);
    place.room = open_above(place.beside);
    expect_ours(place.beside, place.room);
    place.file = file;
    memset(text, '.', sizeof text);
    memcpy(text, MARK "room", strlen(MARK "room"));
    if (write_whole(text, sizeof text)) return;
    unlink(place.beside);
    fail(place.beside, "cannot be written: there is no room for a saved run");
}

/* Whether the run is saved. */
bool save_run(const Paused *paused) {
    char text[ROOM];
    size_t length = text_of(paused, text);
    bool saved = write_whole(text, length) && !rename(place.beside, place.file);
    if (!saved) unlink(place.beside);
    return saved;
}

/* The list is complete: there is nothing to resume. */
void end_saving(void) {
    if (!place.file) return;
    unlink(place.beside);
    if (unlink(place.file) && errno != ENOENT) fail(place.file, "cannot be removed; the list is complete");
}
