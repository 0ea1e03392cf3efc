/* The guard of include/tns.h in a program that may be linked with -ffast-math. tests/fast_math builds and runs it:
 *
 *     fast_math NAME
 *
 * The flag makes a program start with flush-to-zero and denormals-are-zero. The program checks tns_encode, tns_decode,
 * tns_decode_save and tns_decode_restart:
 *
 * - A guarded call gives the same bits as in the default float environment, and the caller's environment is back
 *   afterwards. It tries the environment that the program starts in, there and in a thread, and 128 others: four
 *   rounding modes, flush-to-zero and denormals-are-zero off and on, and no exception unmasked, one of six or all;
 *   each with the status flags clear and set.
 * - A nested guard works.
 * - An unguarded call gives other bits for at least one spectrum, in each of the 15 environments that differ from the
 *   default with all exceptions masked. So the spectra can show a guard that does nothing.
 *
 * The flag also changes float arithmetic, so the program does none. It makes lines from whole numbers, compares bits,
 * and gets the expected bits after it has set the default by itself, without the guard.
 *
 * Built with the flag by gcc, it must start with flush-to-zero and denormals-are-zero; with another compiler it may
 * start otherwise, and the output says how. Built without the flag, it must start in the default. It prints its first
 * ten faults, a line each, and then one line with NAME. Status 1 if there is a fault. Assumes x86-64 and POSIX threads.
 */
#include <pthread.h>
#include <stdio.h>
#include <string.h>

#include "tns.h"

/* The control word MXCSR. CONTROL is all but the status flags. */
enum { DEFAULT = 0x1f80, CONTROL = 0xffc0, FLAGS = 0x003f, MASKS = 0x1f80, FIRST_MASK = 0x0080 };
enum { FLUSH_TO_ZERO = 0x8000, DENORMALS_ARE_ZERO = 0x0040, FLUSHING = FLUSH_TO_ZERO | DENORMALS_ARE_ZERO };

enum { ENCODE, DECODE, SAVE, RESTART, CALLS };
static const char *const names[CALLS] = {"tns_encode", "tns_decode", "tns_decode_save", "tns_decode_restart"};

/* 10 ms at bandwidth 1 (WB). Line N is inside the band, and before large lines overflow. */
enum { LINES = 160, N = 14, SIZE = 320 };
static const uint8_t orders[2] = {8, 0}, indices[16] = {11, 7, 10, 8, 9, 7, 9, 7, 8, 8, 8, 8, 8, 8, 8, 8};

enum { ORDINARY, SUBNORMAL, EDGE_ON, EDGE_OFF, LARGE, INFINITE, SPECTRA };
static uint32_t spectra[SPECTRA][LINES];
static float saved[SPECTRA][8]; /* the states before line N, for a restart */

/* What a call leaves, as whole numbers. */
typedef struct {
    uint16_t answer[4];
    uint8_t side[20], on[2];
    uint32_t coefficients[16], gains[4], states[8], lines[LINES];
} outcome;

/* The outcome of each call in the default environment, and the flags that it raises there. */
static outcome expected[CALLS][SPECTRA];
static uint32_t raised[CALLS][SPECTRA];

static const char *name = "";
static int wrong, guarded_calls;

static void fault(const char *what, int which, int spectrum, uint32_t word)
{
    if (wrong++ < 10)
        printf("fast_math: %s: %s: %s; spectrum %d, MXCSR 0x%04x\n", name, names[which], what, spectrum,
               (unsigned)word);
}

/* The program's own way to read and set the word, apart from the header's. */
static uint32_t word_now(void)
{
    uint32_t word;
    __asm__ __volatile__("stmxcsr %0" : "=m"(word) : : "memory");
    return word;
}

static void set_word(uint32_t word)
{
    __asm__ __volatile__("ldmxcsr %0" : : "m"(word) : "memory");
}

static tns_answer plain(int which, float *lines, float *output, outcome *left, float *coefficients, float *gains,
                        float *states)
{
    switch (which) {
    case ENCODE:
        return tns_encode(0, 1, SIZE, false, lines, LINES, left->side, coefficients, gains, left->on);
    case DECODE:
        return tns_decode(0, 1, 1, orders, 2, indices, 16, lines, LINES);
    case SAVE:
        return tns_decode_save(0, 1, 1, orders, 2, indices, 16, lines, LINES, output, LINES, N, states);
    default:
        return tns_decode_restart(0, 1, 1, orders, 2, indices, 16, lines, LINES, output, LINES, N, states);
    }
}

/* Makes a call with this word set. Gives the word afterwards and sets the default. */
static uint32_t make_call(int which, int spectrum, uint32_t word, int is_guarded, outcome *left)
{
    float lines[LINES], output[LINES], coefficients[16], gains[4], states[8];
    tns_answer a;
    memset(left, 0, sizeof *left);
    memset(output, 0, sizeof output);
    memset(coefficients, 0, sizeof coefficients);
    memset(gains, 0, sizeof gains);
    memcpy(lines, spectra[spectrum], sizeof lines);
    memcpy(states, saved[spectrum], sizeof states);

    set_word(word);
    if (is_guarded) {
        uint32_t callers = tns_float_enter();
        a = plain(which, lines, output, left, coefficients, gains, states);
        tns_float_leave(callers);
    } else {
        a = plain(which, lines, output, left, coefficients, gains, states);
    }
    uint32_t after = word_now();
    set_word(DEFAULT);

    const uint16_t answer[4] = {a.refusal, a.place, a.found, a.bits};
    memcpy(left->answer, answer, sizeof answer);
    memcpy(left->coefficients, coefficients, sizeof coefficients);
    memcpy(left->gains, gains, sizeof gains);
    memcpy(left->states, states, sizeof states);
    memcpy(left->lines, which == ENCODE || which == DECODE ? lines : output, sizeof lines);
    return after;
}

/* Whether a guarded call left the right word: the same one, plus the call's flags if that was the default. */
static int is_word_back(int which, int spectrum, uint32_t word, uint32_t after)
{
    return after == ((word & CONTROL) == DEFAULT ? word | raised[which][spectrum] : word);
}

static void check_guarded(int which, int spectrum, uint32_t word)
{
    outcome left;
    uint32_t after = make_call(which, spectrum, word, 1, &left);
    guarded_calls++;
    if (memcmp(&left, &expected[which][spectrum], sizeof left) != 0)
        fault("the guarded call gives other bits", which, spectrum, word);
    if (!is_word_back(which, spectrum, word, after))
        fault("the guard leaves another word", which, spectrum, word);
}

static void check_all_guarded(uint32_t word)
{
    for (int which = 0; which < CALLS; which++)
        for (int spectrum = 0; spectrum < SPECTRA; spectrum++)
            check_guarded(which, spectrum, word);
}

/* How many lines of a call without the guard differ from those that are expected, and whether anything does. */
static int count_unguarded(int which, int spectrum, uint32_t word, int *is_other)
{
    outcome left;
    int count = 0;
    make_call(which, spectrum, word, 0, &left);
    for (int i = 0; i < LINES; i++)
        count += left.lines[i] != expected[which][spectrum].lines[i];
    *is_other |= memcmp(&left, &expected[which][spectrum], sizeof left) != 0;
    return count;
}

/* A pair around a call that has a pair of its own: after the inner pair the default still holds. */
static void check_nested(uint32_t word)
{
    float lines[LINES];
    memcpy(lines, spectra[SUBNORMAL], sizeof lines);
    set_word(word);
    uint32_t outer = tns_float_enter();
    uint32_t inner = tns_float_enter();
    plain(DECODE, lines, NULL, NULL, NULL, NULL, NULL);
    tns_float_leave(inner);
    uint32_t between = word_now();
    tns_float_leave(outer);
    uint32_t after = word_now();
    set_word(DEFAULT);
    if (memcmp(lines, expected[DECODE][SUBNORMAL].lines, sizeof lines) != 0)
        fault("the call in nested guards gives other bits", DECODE, SUBNORMAL, word);
    if ((between & CONTROL) != DEFAULT || !is_word_back(DECODE, SUBNORMAL, word, after))
        fault("nested guards leave another word", DECODE, SUBNORMAL, word);
}

/* Lines that fall by a twentieth each, from one with these bits on. They stay normal. */
static void make_falling(uint32_t loudest, uint32_t *lines)
{
    uint32_t exponent = loudest >> 23, fraction = (loudest & 0x7fffff) | 0x800000;
    for (int i = 0; i < LINES; i++) {
        lines[i] = exponent << 23 | (fraction & 0x7fffff);
        fraction = fraction / 20 * 19 + fraction % 20 * 19 / 20;
        if (fraction < 0x800000) {
            fraction *= 2;
            exponent--;
        }
    }
}

/* Whether the encoder filters the falling lines from here on, in the default environment. */
static int is_filtered(uint32_t loudest)
{
    outcome left;
    make_falling(loudest, spectra[EDGE_ON]);
    make_call(ENCODE, EDGE_ON, DEFAULT, 0, &left);
    return left.side[2] != 0;
}

/* Ordinary lines; some of them subnormal; the quietest falling lines that the encoder filters, and the next quieter,
 * where a rounding decides about every number that it gives; large lines; one that is infinite. */
static void make_spectra(void)
{
    const uint32_t thousand = 0x447a0000, subnormal = 0x00000b8e, large = 0x7f61b1e6, infinity = 0x7f800000;
    uint32_t off = 0x2b800000 /* 2^-40 */, on = 0x3f800000 /* 1 */;
    if (!is_filtered(on) || is_filtered(off))
        fault("the falling spectra do not enclose the edge", ENCODE, EDGE_ON, DEFAULT);
    while (on - off > 1) {
        uint32_t middle = off + (on - off) / 2;
        if (is_filtered(middle))
            on = middle;
        else
            off = middle;
    }
    make_falling(on, spectra[EDGE_ON]);
    make_falling(off, spectra[EDGE_OFF]);
    make_falling(thousand, spectra[ORDINARY]);
    make_falling(thousand, spectra[SUBNORMAL]);
    make_falling(thousand, spectra[INFINITE]);
    for (int i = 0; i < 30; i++)
        spectra[SUBNORMAL][i] = subnormal;
    spectra[INFINITE][30] = infinity;
    for (int i = 0; i < LINES; i++)
        spectra[LARGE][i] = large | (i % 3 == 0 ? 0x80000000 : 0);
}

static void make_expected(void)
{
    for (int spectrum = 0; spectrum < SPECTRA; spectrum++) {
        outcome save;
        make_call(SAVE, spectrum, DEFAULT, 0, &save);
        memcpy(saved[spectrum], save.states, sizeof saved[spectrum]);
        for (int which = 0; which < CALLS; which++) {
            outcome *left = &expected[which][spectrum];
            raised[which][spectrum] = make_call(which, spectrum, DEFAULT, 0, left) & FLAGS;
            if (left->answer[0] != TNS_ACCEPTED)
                fault("refused", which, spectrum, DEFAULT);
        }
    }
}

/* A new thread has the word of the thread that started it. */
static void *in_thread(void *of_starter)
{
    uint32_t word = word_now(), wanted;
    memcpy(&wanted, of_starter, sizeof wanted);
    if ((word & CONTROL) != (wanted & CONTROL))
        fault("a thread starts with another word", DECODE, 0, word);
    check_all_guarded(word);
    return NULL;
}

static void check_thread(uint32_t word)
{
    pthread_t thread;
    set_word(word);
    int is_started = pthread_create(&thread, NULL, in_thread, &word) == 0;
    set_word(DEFAULT);
    if (!is_started || pthread_join(thread, NULL) != 0)
        fault("no thread", DECODE, 0, word);
}

int main(int count, char **given)
{
    uint32_t start = word_now() & CONTROL;
    int is_flushing = (start & FLUSHING) == FLUSHING, is_other = 0;
    set_word(DEFAULT);
    if (count > 1)
        name = given[1];
    setvbuf(stdout, NULL, _IOLBF, BUFSIZ); /* an exception that is not masked would end the program */
    make_spectra();
    make_expected();

    int lines = count_unguarded(DECODE, SUBNORMAL, start, &is_other);
#ifdef __FAST_MATH__
#ifndef __clang__
    if (!is_flushing)
        fault("the program starts without flush-to-zero", DECODE, SUBNORMAL, start);
#endif
#else
    if (start != DEFAULT)
        fault("the program starts in another environment than the default", DECODE, SUBNORMAL, start);
#endif
    if (is_flushing && lines == 0)
        fault("the unguarded call gives the same lines", DECODE, SUBNORMAL, start);
    check_all_guarded(start);
    check_thread(start);

    for (uint32_t k = 0; k < 16; k++) {
        uint32_t masked = MASKS | (k & 3) << 13 | (k & 4 ? FLUSH_TO_ZERO : 0) | (k & 8 ? DENORMALS_ARE_ZERO : 0);
        for (int which = 0; which < CALLS; which++) {
            is_other = 0;
            for (int spectrum = 0; spectrum < SPECTRA; spectrum++)
                count_unguarded(which, spectrum, masked, &is_other);
            if (is_other != (masked != DEFAULT))
                fault("the spectra do not show the environment", which, 0, masked);
        }
        for (uint32_t unmasked = 0; unmasked < 8; unmasked++) {
            uint32_t mask = unmasked == 7 ? MASKS : unmasked == 0 ? 0 : (uint32_t)FIRST_MASK << (unmasked - 1);
            uint32_t word = masked & ~mask;
            check_all_guarded(word);
            check_all_guarded(word | FLAGS);
            check_nested(word);
            check_nested(word | FLAGS);
        }
    }
    printf("fast_math: %s: starts with MXCSR 0x%04x, where %d of %d lines of an unguarded call are wrong; ", name,
           (unsigned)start, lines, LINES);
    printf("%d guarded calls, %d faults\n", guarded_calls, wrong);
    return wrong != 0;
}
