/* Times the index choice of builds of the library by turns, and compares what they give.
 *
 *   index random > COEFFICIENTS
 *   index BUILD.so.. : WHAT=COEFFICIENTS..
 *   index BUILD.so COEFFICIENTS one|eight FILTERS
 *
 * A build has `index_of_one` and `indices_of_eight` (bench/index_calls); where one has no `indices_of_eight`, only
 * the other is timed. COEFFICIENTS is a file of f32, eight to a filter, of at most 16,384 filters. The first form makes
 * such a file of 4,096 times eight numbers between -1 and 1, all as likely.
 *
 * The second form prints a line for each file and for each of the two functions: the time in ns that each build takes
 * for the eight numbers of a filter, and its ratio to the first build's. A time is the best of many rounds. In a round
 * each build goes once through the whole file, one build after the other; which is first changes from round to
 * round. A file of thousands of filters is too long for a processor to learn its signs and sizes by heart. Status 1
 * if the builds, or the two functions, do not give the same indices.
 *
 * The third form times nothing: it makes the calls for so many filters, from the file's start again where it ends, for
 * valgrind to count.
 *
 * Assumes Linux, x86-64 and an idle machine.
 */
#define _POSIX_C_SOURCE 200809L
#include <dlfcn.h>
#include <stdbool.h>
#include <stdint.h>
#include <stdio.h>
#include <stdlib.h>
#include <string.h>
#include <time.h>

enum { BUILDS = 16, FILTERS = 16384, ROUNDS = 400 };

typedef struct {
    uint8_t index[8], order;
} eight;

static struct build {
    uint8_t (*one)(float);
    eight (*all)(float, float, float, float, float, float, float, float);
} builds[BUILDS];

static float given[FILTERS][8];
static eight got[BUILDS][FILTERS];

static void fail(const char *why)
{
    fprintf(stderr, "index: %s\n", why);
    exit(1);
}

static double now(void)
{
    struct timespec t;
    clock_gettime(CLOCK_MONOTONIC, &t);
    return (double)t.tv_sec * 1e9 + (double)t.tv_nsec;
}

static void load(struct build *build, const char *path)
{
    void *library = dlopen(path, RTLD_NOW | RTLD_LOCAL);
    if (!library) fail(dlerror());
    *(void **)&build->one = dlsym(library, "index_of_one");
    *(void **)&build->all = dlsym(library, "indices_of_eight");
    if (!build->one) fail("no index_of_one");
}

/* How many filters the file has. */
static size_t fill(const char *path)
{
    FILE *file = fopen(path, "rb");
    if (!file) fail("cannot read the coefficients");
    size_t filters = fread(given, sizeof given[0], FILTERS, file);
    if (!filters || getc(file) != EOF) fail("no coefficients, not eight to a filter, or too many");
    fclose(file);
    return filters;
}

static void one_by_one(struct build build, size_t filters, eight *to)
{
    for (size_t f = 0; f < filters; f++)
        for (int k = 0; k < 8; k++) to[f].index[k] = build.one(given[f][k]);
}

static void all_eight(struct build build, size_t filters, eight *to)
{
    for (size_t f = 0; f < filters; f++) {
        const float *x = given[f];
        to[f] = build.all(x[0], x[1], x[2], x[3], x[4], x[5], x[6], x[7]);
    }
}

typedef void calls(struct build, size_t, eight *);

static void time_calls(const char *what, const char *how, calls *calls, int count, size_t filters)
{
    double best[BUILDS];
    char line[64];
    for (int b = 0; b < count; b++) best[b] = 1e18;
    memset(got, 0, sizeof got);
    for (int round = 0; round < ROUNDS; round++) {
        for (int turn = 0; turn < count; turn++) {
            int b = (round + turn) % count;
            double began = now();
            calls(builds[b], filters, got[b]);
            double taken = (now() - began) / (double)filters;
            if (taken < best[b]) best[b] = taken;
        }
    }
    snprintf(line, sizeof line, "%s, %s at a time", what, how);
    printf("%-34s", line);
    for (int b = 0; b < count; b++) {
        if (memcmp(got[b], got[0], sizeof got[0])) fail("the builds' indices differ");
        printf(b ? " %7.1f %6.3f" : " %7.1f", best[b], best[b] / best[0]);
    }
    putchar('\n');
    for (size_t f = 0; f < filters; f++)
        for (int k = 0; k < 8; k++)
            if (got[0][f].index[k] != builds[0].one(given[f][k])) fail("eight indices are not those of one at a time");
}

static void write_random(void)
{
    uint64_t state = 88172645463325252u;
    for (int n = 0; n < 8 * 4096; n++) {
        state ^= state << 13;
        state ^= state >> 7;
        state ^= state << 17;
        float x = (float)(int32_t)(state >> 32) / 2147483648.0f;
        if (fwrite(&x, sizeof x, 1, stdout) != 1) fail("cannot write");
    }
}

int main(int count, char **words)
{
    static const char usage[] =
        "usage: index random | index BUILD.so.. : WHAT=COEFFICIENTS.. | index BUILD.so COEFFICIENTS one|eight FILTERS";
    int last = 1;
    if (count == 2 && !strcmp(words[1], "random")) {
        write_random();
        return fflush(stdout) ? 1 : 0;
    }
    while (last < count && strcmp(words[last], ":")) last++;
    if (count == 5 && last == count) {
        bool one = !strcmp(words[3], "one");
        if (!one && strcmp(words[3], "eight")) fail(usage);
        load(&builds[0], words[1]);
        if (!one && !builds[0].all) fail("no indices_of_eight");
        size_t filters = fill(words[2]);
        for (long left = atol(words[4]); left > 0; left -= (long)filters)
            (one ? one_by_one : all_eight)(builds[0], (size_t)left < filters ? (size_t)left : filters, got[0]);
        return 0;
    }
    if (last < 2 || last - 1 > BUILDS || last + 1 >= count) fail(usage);
    bool has_all = true;
    for (int b = 0; b < last - 1; b++) {
        load(&builds[b], words[b + 1]);
        has_all = has_all && builds[b].all;
    }
    for (int w = last + 1; w < count; w++) {
        char *file = strchr(words[w], '=');
        if (!file) fail(usage);
        *file++ = 0;
        size_t filters = fill(file);
        time_calls(words[w], "one", one_by_one, last - 1, filters);
        if (has_all) time_calls(words[w], "eight", all_eight, last - 1, filters);
    }
    return 0;
}
