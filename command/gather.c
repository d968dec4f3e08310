/* The output of a list, gathered round by round and written past stdio: after a write that succeeds it is known to the byte what was written, and what a
 * write that fails has left is taken back where that can be done. So a list, wherever it is stopped, ends with a whole ladder. What is gathered is made in
 * list.c, and what becomes of a list that is stopped is in stop.c. */
#define _POSIX_C_SOURCE 200809L /* fcntl, fstat, fsync, ftruncate, poll, write */
#include "planner.h"
#include <errno.h>
#include <fcntl.h>
#include <poll.h>
#include <string.h>
#include <sys/stat.h>
#include <unistd.h>

static bool gathering;
static uint8_t gathered[GATHERED];
static size_t length;

/* From here on `put` gathers. Without an output nothing else may be opened, since it would get the output's place. */
void begin_gathering(void) {
    gathering = true;
    if (fcntl(STDOUT_FILENO, F_GETFD) < 0) write_failed(errno);
}

/* False where nothing is gathered: then the bytes go where all others go. */
bool gather(const void *bytes, size_t count) {
    if (!gathering) return false;
    if (count > sizeof gathered - length) fail("planner", "a round of the list is too long");
    memcpy(gathered + length, bytes, count);
    length += count;
    return true;
}

size_t gathered_bytes(void) { return length; }

uint64_t add_gathered(uint64_t sum) { return add_to_sum(sum, gathered, length); }

/* Where the next byte goes in a file; negative where the output is none. */
static off_t place_in_file(void) {
    struct stat about;
    int flags = fcntl(STDOUT_FILENO, F_GETFL);
    if (fstat(STDOUT_FILENO, &about) || !S_ISREG(about.st_mode)) return -1;
    return flags >= 0 && (flags & O_APPEND) ? about.st_size : lseek(STDOUT_FILENO, 0, SEEK_CUR);
}

/* Whether a write that failed can be made again: a signal was caught, or the output takes nothing for now, which is waited for. */
static bool may_go_on(int error) {
    struct pollfd output = {.fd = STDOUT_FILENO, .events = POLLOUT};
    return error == EINTR || (error == EAGAIN && (poll(&output, 1, -1) > 0 || errno == EINTR));
}

/* A signal that is caught does not cut a round. */
static size_t write_all(int *error) {
    size_t done = 0;
    *error = 0;
    while (done < length && !*error) {
        ssize_t wrote = write(STDOUT_FILENO, gathered + done, length - done);
        if (wrote > 0) done += (size_t)wrote;
        else if (wrote == 0 || !may_go_on(errno)) *error = wrote ? errno : EIO;
    }
    return done;
}

/* Of a file its end is cut off, unless something stands behind what was written here. */
static bool take_back(off_t place, size_t done) {
    struct stat about;
    if (done == 0) return true;
    if (place < 0 || fstat(STDOUT_FILENO, &about) || about.st_size != place + (off_t)done) return false;
    return !ftruncate(STDOUT_FILENO, place) && lseek(STDOUT_FILENO, place, SEEK_SET) == place;
}

/* Writes what is gathered; the error where that fails, and then whether nothing of it is left in the output. */
int write_gathered(bool *taken_back) {
    int error;
    off_t place = length ? place_in_file() : -1;
    size_t done = write_all(&error);
    *taken_back = !error || take_back(place, done);
    length = 0;
    return error;
}

/* Whether what was written is on the disk: one that is full may say so only now, on a drive of another machine. A pipe and a terminal have none. */
bool sync_output(void) { return !fsync(STDOUT_FILENO) || (errno != EIO && errno != ENOSPC && errno != EDQUOT); }
