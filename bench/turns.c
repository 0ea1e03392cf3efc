/* Times the cost call and the encoder of builds of the library by turns, and compares what they give.
 *
 *   turns BEFORE.so AFTER.so
 *   turns BEFORE.so AFTER.so BUILD KIND CALLS
 *   turns encoders BUILD.so..
 *   turns parts BUILD.so
 *
 * Each line has a kind of call, the time of one call in ns by each build, and the second time in parts of
 * the first. A time is the best of many rounds. In a round each build makes the same calls, one build after
 * the other; which is first changes from round to round. Copying the lines that an encoder call is given is
 * not timed. An encoder call is timed over 12 frames, which a processor's branch predictor learns by heart,
 * and with filters on also over 1,024 ("fresh"), which it cannot learn, as it cannot those of a stream.
 *
 * The second form times nothing: it makes so many cost calls by the first build (BUILD is 0) or the second (1), of the
 * first kind of side data (KIND is 0) or another (1 to 3), for valgrind to count.
 *
 * The third form times the encoder of up to 16 builds, at 10 ms and bandwidths 0 and 4 alone, with a tenth of the
 * rounds. A line has the kind of call without spaces, and the ratio of each build's time to the first build's.
 *
 * The fourth form times tns_cost and tns_cost_2048ths of one build by turns, in the columns of the first form.
 *
 * Status 0, or 1 if the words are wrong, a build cannot be loaded, or the builds do not give the same: bits of the cost
 * calls, and answers, lines, side data, coefficients and gains of the encoder calls; gains only where both builds give
 * them, which one before C-18 does not. The second form compares nothing.
 *
 * Assumes Linux, x86-64 and an idle machine.
 */
#define _POSIX_C_SOURCE 200809L
#include "../include/tns.h"
#include <dlfcn.h>
#include <stdio.h>
#include <stdlib.h>
#include <string.h>
#include <time.h>

enum { BUILDS = 16, SIDES = 256, FEW = 12, MANY = 1024, ROUNDS = 20000, LINES = 400 };

typedef tns_answer cost_call(uint8_t, uint8_t, const uint8_t *, size_t, const uint8_t *, size_t);
typedef tns_answer parts_call(uint8_t, uint8_t, const uint8_t *, size_t, const uint8_t *, size_t, uint32_t[2]);
typedef tns_answer encode_call(uint8_t, uint8_t, uint64_t, bool, float *, size_t, uint8_t *, float *, float *, uint8_t *);

static struct {
    cost_call *cost;
    parts_call *parts; /* or null: a build before C-15 has none */
    encode_call *encode; /* a build before C-18 never looks at the last two arguments, which lie on the stack */
} builds[BUILDS];

static struct {
    uint8_t weighting, filters, orders[2], indices[16];
} sides[SIDES];

static float given[MANY][LINES];

/* What an encoder call leaves, by build. */
static struct left {
    float lines[LINES], coefficients[16];
    uint8_t side[20];
    tns_answer answer;
} left[BUILDS][MANY];

/* The gains beside it. A damping of 0 is no call's: it stays where a build before C-18 writes none. */
static struct gained {
    float gains[4];
    uint8_t on[2];
} gained[BUILDS][MANY];

static uint32_t state = 1;

static uint32_t below(uint32_t limit)
{
    state = state * 1664525u + 1013904223u;
    return (uint32_t)((uint64_t)state * limit >> 32);
}

static double now(void)
{
    struct timespec t;
    clock_gettime(CLOCK_MONOTONIC, &t);
    return (double)t.tv_sec * 1e9 + (double)t.tv_nsec;
}

static void fail(const char *why)
{
    fprintf(stderr, "turns: %s\n", why);
    exit(1);
}

static void load(int build, const char *path, bool needs_cost)
{
    void *library = dlopen(path, RTLD_NOW | RTLD_LOCAL);
    if (!library) fail(dlerror());
    *(void **)&builds[build].cost = dlsym(library, "tns_cost");
    *(void **)&builds[build].parts = dlsym(library, "tns_cost_2048ths");
    *(void **)&builds[build].encode = dlsym(library, "tns_encode");
    if (!builds[build].encode || (needs_cost && !builds[build].cost)) fail("a call is missing");
}

static void told(const char *what, const double best[2])
{
    printf("%-51s %9.1f %9.1f %8.3f\n", what, best[0], best[1], best[1] / best[0]);
}

/* Kinds of side data: so many filters, of orders from one to another. */
static const struct kind {
    const char *what;
    uint8_t filters, from, to;
} kinds[] = {
    {"cost, two filters of orders 5 to 8", 2, 5, 8},
    {"cost, two filters of orders 0 to 8", 2, 0, 8},
    {"cost, one filter of orders 1 to 8", 1, 1, 8},
    {"cost, two filters of order 0", 2, 0, 0},
};

static void draw_sides(struct kind kind)
{
    for (int s = 0; s < SIDES; s++) {
        sides[s].weighting = (uint8_t)below(2);
        sides[s].filters = kind.filters;
        for (int f = 0; f < 2; f++) sides[s].orders[f] = (uint8_t)(kind.from + below((uint32_t)(kind.to - kind.from) + 1));
        for (int i = 0; i < 16; i++) sides[s].indices[i] = (uint8_t)below(17);
    }
}

/* The bits of so many cost calls, mixed into one number. */
static uint32_t costs(int build, int calls)
{
    uint32_t sum = 0;
    for (int c = 0; c < calls; c++) {
        int s = c % SIDES;
        sum = 31 * sum + builds[build].cost(sides[s].weighting, sides[s].filters, sides[s].orders, 2, sides[s].indices, 16).bits;
    }
    return sum;
}

static void time_cost(struct kind kind)
{
    double best[2] = {1e18, 1e18};
    uint32_t sums[2] = {0, 0};
    draw_sides(kind);
    for (int round = 0; round < ROUNDS; round++) {
        for (int turn = 0; turn < 2; turn++) {
            int build = (round + turn) % 2;
            double began = now();
            sums[build] = costs(build, SIDES);
            double taken = (now() - began) / SIDES;
            if (taken < best[build]) best[build] = taken;
        }
    }
    if (sums[0] != sums[1]) fail("costs differ");
    told(kind.what, best);
}

/* The same by so many calls that also tell the parts. */
static uint32_t costs_in_parts(int build, int calls)
{
    uint32_t sum = 0, parts[2];
    for (int c = 0; c < calls; c++) {
        int s = c % SIDES;
        sum = 31 * sum + builds[build].parts(sides[s].weighting, sides[s].filters, sides[s].orders, 2, sides[s].indices, 16, parts).bits;
    }
    return sum;
}

/* Both cost calls of a build by turns. */
static void time_parts(int build, struct kind kind)
{
    double best[2] = {1e18, 1e18};
    uint32_t sums[2] = {0, 0};
    draw_sides(kind);
    for (int round = 0; round < ROUNDS; round++) {
        for (int turn = 0; turn < 2; turn++) {
            int call = (round + turn) % 2;
            double began = now();
            sums[call] = call ? costs_in_parts(build, SIDES) : costs(build, SIDES);
            double taken = (now() - began) / SIDES;
            if (taken < best[call]) best[call] = taken;
        }
    }
    if (sums[0] != sums[1]) fail("the two cost calls differ");
    told(kind.what, best);
}

/* The best time of an encoder call by each build, over so many rounds of the few frames. */
static void time_encode(uint8_t duration, uint8_t bandwidth, const char *input, int count, int rounds, double *best)
{
    static const size_t lengths[2][5] = {{80, 160, 240, 320, 400}, {60, 120, 180, 240, 300}};
    size_t length = lengths[duration][bandwidth];
    bool flag = !strcmp(input, "flag"), silent = !strcmp(input, "silence"), fresh = !strcmp(input, "on, fresh");
    int frames = fresh ? MANY : FEW;
    /* Lines that resemble their neighbours, such that every band gets a filter if it may. */
    for (int f = 0; f < frames; f++) {
        struct left *its = &left[0][f];
        do {
            float line = 0;
            for (size_t n = 0; n < LINES; n++) {
                line = 0.9f * line + (float)below(2000) - 1000.0f;
                given[f][n] = line;
            }
            memcpy(its->lines, given[f], sizeof given[f]);
            builds[0].encode(duration, bandwidth, 320, false, its->lines, length, its->side, its->coefficients,
                             gained[0][f].gains, gained[0][f].on);
        } while (!its->side[2] || (its->side[1] == 2 && !its->side[3]));
        if (silent) memset(given[f], 0, sizeof given[f]);
    }
    for (int build = 0; build < count; build++) best[build] = 1e18;
    for (int round = 0; round < rounds * FEW / frames; round++) {
        for (int turn = 0; turn < count; turn++) {
            int build = (round + turn) % count;
            struct left *its = left[build];
            for (int f = 0; f < frames; f++) memcpy(its[f].lines, given[f], sizeof given[f]);
            double began = now();
            for (int f = 0; f < frames; f++)
                its[f].answer = builds[build].encode(duration, bandwidth, 320, flag, its[f].lines, length, its[f].side,
                                                     its[f].coefficients, gained[build][f].gains, gained[build][f].on);
            double taken = (now() - began) / frames;
            if (taken < best[build]) best[build] = taken;
        }
    }
    for (int build = 1; build < count; build++) {
        bool both = gained[0][0].gains[1] != 0 && gained[build][0].gains[1] != 0;
        if (memcmp(left[0], left[build], (size_t)frames * sizeof left[0][0])) fail("encoder results differ");
        if (both && memcmp(gained[0], gained[build], (size_t)frames * sizeof gained[0][0])) fail("gains differ");
    }
}

static void time_rows(void)
{
    static const char *const inputs[] = {"on", "on, fresh", "flag", "silence"};
    for (int input = 0; input < 4; input++)
        for (uint8_t duration = 0; duration < 2; duration++)
            for (uint8_t bandwidth = 0; bandwidth < 5; bandwidth++) {
                double best[2];
                char what[64];
                time_encode(duration, bandwidth, inputs[input], 2, ROUNDS, best);
                snprintf(what, sizeof what, "encode %s ms bandwidth %d, %s", duration ? "7.5" : "10", bandwidth, inputs[input]);
                told(what, best);
            }
}

static void time_encoders(int count)
{
    static const char *const inputs[] = {"on", "on, fresh", "flag"}, *const names[] = {"on", "fresh", "flag"};
    for (uint8_t bandwidth = 0; bandwidth < 5; bandwidth += 4)
        for (int input = 0; input < 3; input++) {
            double best[BUILDS];
            time_encode(0, bandwidth, inputs[input], count, ROUNDS / 10, best);
            printf("%s%d", names[input], bandwidth);
            for (int build = 0; build < count; build++) printf(" %.3f", best[build] / best[0]);
            putchar('\n');
        }
}

int main(int count, char **words)
{
    if (count > 2 && count - 2 <= BUILDS && !strcmp(words[1], "encoders")) {
        for (int build = 0; build < count - 2; build++) load(build, words[build + 2], false);
        time_encoders(count - 2);
        return 0;
    }
    if (count == 3 && !strcmp(words[1], "parts")) {
        load(0, words[2], true);
        if (!builds[0].parts) fail("a call is missing");
        printf("%-51s %9s %9s %8s\n", "a call of the tree after, in ns", "cost", "2048ths", "ratio");
        for (int kind = 0; kind < 4; kind++) time_parts(0, kinds[kind]);
        return 0;
    }
    if (count != 3 && count != 6)
        fail("usage: turns BEFORE.so AFTER.so [BUILD KIND CALLS] | turns encoders BUILD.so.. | turns parts BUILD.so");
    load(0, words[1], true);
    load(1, words[2], true);
    if (count == 6) {
        draw_sides(kinds[atoi(words[4]) % 4]);
        printf("%u\n", (unsigned)costs(atoi(words[3]) % 2, atoi(words[5])));
        return 0;
    }
    printf("%-51s %9s %9s %8s\n", "a call, in ns", "before", "after", "ratio");
    for (int kind = 0; kind < 4; kind++) time_cost(kinds[kind]);
    time_rows();
    return 0;
}
