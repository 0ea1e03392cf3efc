/* Calls in the place of the system's, for tests/launcher, tests/narrations and tests/rescue: a library that a
 * program gets by LD_PRELOAD. They do what the system's do, but as three variables say.
 *
 * TNS_READS says how much of what is there one `read` gives:
 *
 *   whole    as much as is asked for
 *   single   one byte
 *   short    as much as is asked for or less, by a sequence that is the same in each run, so that reads come
 *            short between whole ones, and cut records and blocks anywhere
 *
 * TNS_FAILS says what fails, with EIO, and does nothing else, except that a descriptor is closed:
 *
 *   0              nothing
 *   a number       the read of that number, the first being 1
 *   fsync.file     each `fsync` of a file
 *   fsync.folder   each `fsync` of a folder
 *   close.file     each `close` of a file
 *   close.folder   each `close` of a folder
 *
 * TNS_CLOCK says how often `clock_gettime` is asked in one second of its own: at each so many calls it comes a second
 * further, however long they take. Where it is 0 the seconds are the system's.
 *
 * At the end of the program the file `calls.told` of the folder that it runs in has seven numbers in a line: how
 * many reads there were, how many of them were made short by what TNS_READS says, how many bytes all gave, the
 * number of the first that gave the end, or 0, how many bytes the last gave that gave some, how often something
 * failed by what TNS_FAILS says, and how many seconds of TNS_CLOCK went by. So the tests know that the library was
 * there. To the file `calls.kept` a line is added for each `fsync`, whether or not it succeeds, and for each `rename`
 * that does, in their turn, with the device and the number of the file or folder:
 *
 *   fsync DEVICE NUMBER
 *   rename DEVICE NUMBER
 *
 * Status 125, and no run, if a variable has something else. Assumes Linux, a program that calls these of a C library
 * that is not part of it, in one thread, and that it ends by itself. Made for the programs' machine.
 */
#define _GNU_SOURCE
#include <errno.h>
#include <stdio.h>
#include <stdlib.h>
#include <string.h>
#include <sys/stat.h>
#include <sys/syscall.h>
#include <time.h>
#include <unistd.h>

enum { WHOLE, SINGLE, SHORT };

/* What the reads of `short` give at most, in turn; 0 is as much as is asked for. */
static const size_t most[] = {7, 1000, 0, 1, 513, 19, 0, 4096, 5, 0, 511, 512, 25, 0, 0, 61439, 2, 15999, 23, 7000, 0};

static int how;
static const char *fails;
static long long reads, cuts, bytes, first_end, last_bytes, failures, failing, looks, looks_a_second;

/* The place of a variable's word among these, which end with NULL; or that of the end. */
static int place_of(const char *word, const char *const *words) {
    int place = 0;
    while (words[place] != NULL && (word == NULL || strcmp(word, words[place]) != 0)) place++;
    return place;
}

/* A number from 0 on, or -1 if the word is none. */
static long long number_of(const char *word) {
    if (word == NULL || *word == '\0' || word[strspn(word, "0123456789")] != '\0') return -1;
    return atoll(word);
}

static void end(const char *why) {
    fprintf(stderr, "calls: %s\n", why);
    _exit(125);
}

__attribute__((constructor)) static void begin(void) {
    static const char *const ways[] = {"whole", "single", "short", NULL};
    static const char *const calls[] = {"fsync.file", "fsync.folder", "close.file", "close.folder", NULL};
    how = place_of(getenv("TNS_READS"), ways);
    if (ways[how] == NULL) end("TNS_READS has no word of tests/calls.c");
    fails = getenv("TNS_FAILS");
    failing = number_of(fails);
    if (failing < 0 && calls[place_of(fails, calls)] == NULL) end("TNS_FAILS has no word of tests/calls.c");
    looks_a_second = number_of(getenv("TNS_CLOCK"));
    if (looks_a_second < 0) end("TNS_CLOCK has no number");
}

__attribute__((destructor)) static void tell(void) {
    FILE *told = fopen("calls.told", "w");
    long long seconds = looks_a_second > 0 && looks > 0 ? (looks - 1) / looks_a_second : 0;
    if (told == NULL) return;
    fprintf(told, "%lld %lld %lld %lld ", reads, cuts, bytes, first_end);
    fprintf(told, "%lld %lld %lld\n", last_bytes, failures, seconds);
    fclose(told);
}

static int fail(void) {
    failures++;
    errno = EIO;
    return -1;
}

/* What the next read gives at most of what it asks for. */
static size_t limit(size_t asked) {
    size_t turn = most[reads % (long long)(sizeof most / sizeof most[0])];
    if (how == SINGLE && asked > 1) return 1;
    if (how == SHORT && turn > 0 && asked > turn) return turn;
    return asked;
}

ssize_t read(int descriptor, void *piece, size_t asked) {
    size_t size = limit(asked);
    reads++;
    if (reads == failing) return fail();
    if (size < asked) cuts++;
    ssize_t got = syscall(SYS_read, descriptor, piece, size);
    if (got > 0) {
        last_bytes = got;
        bytes += got;
    }
    if (got == 0 && first_end == 0) first_end = reads;
    return got;
}

/* Whether a call fails of what a descriptor is. */
static int is_failing(const char *of_file, const char *of_folder, int descriptor) {
    struct stat known;
    if (fstat(descriptor, &known) != 0) return 0;
    return !strcmp(fails, S_ISDIR(known.st_mode) ? of_folder : of_file);
}

static void keep(const char *call, const struct stat *known) {
    FILE *kept = fopen("calls.kept", "ae");
    if (kept == NULL) return;
    fprintf(kept, "%s %llu %llu\n", call, (unsigned long long)known->st_dev, (unsigned long long)known->st_ino);
    fclose(kept);
}

int fsync(int descriptor) {
    struct stat known;
    if (fstat(descriptor, &known) == 0) keep("fsync", &known);
    if (is_failing("fsync.file", "fsync.folder", descriptor)) return fail();
    return (int)syscall(SYS_fsync, descriptor);
}

int close(int descriptor) {
    int is_to_fail = is_failing("close.file", "close.folder", descriptor);
    int answer = (int)syscall(SYS_close, descriptor);
    return is_to_fail ? fail() : answer;
}

int rename(const char *from, const char *to) {
    struct stat known;
    int answer = (int)syscall(SYS_rename, from, to);
    if (answer == 0 && stat(to, &known) == 0) keep("rename", &known);
    return answer;
}

int clock_gettime(clockid_t clock, struct timespec *now) {
    if (clock != CLOCK_REALTIME || looks_a_second == 0) return (int)syscall(SYS_clock_gettime, clock, now);
    now->tv_sec = 1000000 + (time_t)(looks++ / looks_a_second);
    now->tv_nsec = 0;
    return 0;
}
