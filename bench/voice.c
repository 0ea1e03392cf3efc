/* Writes the reflection coefficients of a voice's frames, as the encoder gets them before it chooses indices.
 *
 *   voice LIBRARY.so [SAMPLES] > COEFFICIENTS
 *
 * SAMPLES is a file of 16-bit samples, lowest byte first, one channel at 32 kHz. Without it the voice is made here, 40
 * seconds of it: a pulse train of gliding pitch through four resonators, whose frequencies change with every sound,
 * and noise for other sounds, with pauses between words. A plain MDCT with a sine window makes frames of 10 ms and
 * 320 lines (bandwidth 3, two filters). The coefficients are worked out by docs/RULES.md, "Analysis", in its order of
 * f32 operations, for 320 bits. Those of the filters that are on are written, eight f32 each.
 *
 * LIBRARY.so has `tns_encode`, which encodes each frame. The program ends with status 1 if the encoder tells that a
 * filter is on which is off here, or the other way round, or if one of its indices is not that of the coefficient here,
 * by the thresholds one after the other, or not 8 where the filter is off.
 * Standard error gets how many frames and filters there were.
 *
 * Assumes Linux, x86-64, and a compiler that fuses no products and sums (-ffp-contract=off).
 */
#define _POSIX_C_SOURCE 200809L
#include "../include/tns.h"
#include <dlfcn.h>
#include <math.h>
#include <stdio.h>
#include <stdlib.h>
#include <string.h>

enum { RATE = 32000, SECONDS = 40, LINES = 320, MADE = RATE * SECONDS };

typedef tns_answer encode_call(uint8_t, uint8_t, uint64_t, bool, float *, size_t, uint8_t *, float *, float *, uint8_t *);

static const double pi = 3.14159265358979323846;

static void fail(const char *why)
{
    fprintf(stderr, "voice: %s\n", why);
    exit(1);
}

/* ---- a voice */

static uint32_t state = 1;

/* From 0 to 1. */
static double drawn(void)
{
    state = state * 1664525u + 1013904223u;
    return (double)(state >> 8) / 16777216.0;
}

struct resonator {
    double a, b, before, last;
};

static void tune(struct resonator *r, double frequency, double width)
{
    double radius = exp(-pi * width / RATE);
    r->a = 2 * radius * cos(2 * pi * frequency / RATE);
    r->b = -radius * radius;
}

static double rung(struct resonator *r, double x)
{
    double y = x + r->a * r->last + r->b * r->before;
    r->before = r->last;
    r->last = y;
    return y;
}

static void make_voice(float *samples)
{
    /* Resonances of six vowels, in Hz. */
    static const double vowels[6][4] = {{730, 1090, 2440, 3500}, {270, 2290, 3010, 3700}, {300, 870, 2240, 3300},
                                        {530, 1840, 2480, 3600}, {570, 840, 2410, 3300}, {440, 1020, 2240, 3400}};
    struct resonator mouth[4] = {{0, 0, 0, 0}}, hiss = {0, 0, 0, 0};
    double phase = 0, pitch = 120, aim = 120;
    int left = 0, sound = 0;
    for (int n = 0; n < MADE; n++) {
        if (left-- == 0) {
            double kind = drawn();
            sound = kind < 0.6 ? 1 : kind < 0.85 ? 2 : 0; /* a vowel, a hiss, a pause */
            left = (int)(RATE * (sound == 1 ? 0.08 + 0.2 * drawn() : 0.03 + 0.1 * drawn()));
            const double *vowel = vowels[(int)(6 * drawn())];
            for (int k = 0; k < 4; k++) tune(&mouth[k], vowel[k], 60 + 40 * k);
            tune(&hiss, 2500 + 6000 * drawn(), 1500);
            aim = 85 + 130 * drawn();
        }
        pitch += (aim - pitch) / (0.05 * RATE);
        phase += pitch * (1 + 0.02 * (drawn() - 0.5)) / RATE;
        double pulse = 0, noise = drawn() - 0.5;
        if (phase >= 1) {
            phase -= 1;
            pulse = 1;
        }
        double x = sound == 1 ? pulse + 0.003 * noise : 0, y = 0;
        for (int k = 0; k < 4; k++) y += rung(&mouth[k], x) / (1 << k);
        y = 4000 * y + 800 * rung(&hiss, sound == 2 ? noise : 0) + noise;
        samples[n] = (float)y;
    }
}

static size_t read_samples(const char *path, float **samples)
{
    FILE *file = fopen(path, "rb");
    size_t room = 1 << 20, count = 0;
    unsigned char pair[2];
    *samples = malloc(room * sizeof **samples);
    if (!file || !*samples) fail("cannot read the samples");
    while (fread(pair, 1, 2, file) == 2) {
        if (count == room) *samples = realloc(*samples, (room *= 2) * sizeof **samples);
        if (!*samples) fail("no room for the samples");
        (*samples)[count++] = (float)(int16_t)(pair[0] | pair[1] << 8);
    }
    fclose(file);
    return count;
}

/* ---- its lines */

static void mdct(const float *samples, float *lines)
{
    static double turns[8 * LINES], window[2 * LINES];
    double part[2 * LINES];
    if (turns[0] == 0) {
        for (int t = 0; t < 8 * LINES; t++) turns[t] = cos(2 * pi * t / (8 * LINES));
        for (int n = 0; n < 2 * LINES; n++) window[n] = sin(pi * (n + 0.5) / (2 * LINES)) * sqrt(2.0 / LINES);
    }
    for (int n = 0; n < 2 * LINES; n++) part[n] = window[n] * samples[n];
    for (int k = 0; k < LINES; k++) {
        double sum = 0;
        for (int n = 0; n < 2 * LINES; n++) sum += part[n] * turns[(2 * n + 1 + LINES) * (2 * k + 1) % (8 * LINES)];
        lines[k] = (float)sum;
    }
}

/* ---- their reflection coefficients, by docs/RULES.md, "Analysis" */

/* Whether the filter is on. */
static bool reflected(const float *lines, const int *cuts, float *coefficients)
{
    static const uint32_t window[9] = {0x3f800000, 0x3f7f7ec4, 0x3f7dfc96, 0x3f7b7e04, 0x3f780a8a,
                                       0x3f73ac6e, 0x3f6e708e, 0x3f68661f, 0x3f619e65};
    float sums[3][9], r[9], a[9] = {1}, next[9], error, gain, damping = 1;
    for (int s = 0; s < 3; s++)
        for (int k = 0; k < 9; k++) {
            sums[s][k] = 0;
            for (int n = cuts[s]; n + k < cuts[s + 1]; n++) sums[s][k] += lines[n] * lines[n + k];
        }
    for (int k = 0; k < 9; k++) {
        float w;
        memcpy(&w, &window[k], sizeof w);
        if (sums[0][0] * sums[1][0] * sums[2][0] == 0)
            r[k] = k == 0 ? 3 : 0;
        else
            r[k] = 0 + sums[0][k] / sums[0][0] + sums[1][k] / sums[1][0] + sums[2][k] / sums[2][0];
        r[k] *= w;
    }
    error = r[0];
    for (int k = 1; k < 9; k++) {
        float c = 0, rc;
        for (int n = 0; n < k; n++) c -= a[n] * r[k - n];
        rc = error != 0 ? c / error : c;
        memset(next, 0, sizeof next);
        next[0] = 1;
        for (int n = 1; n < k; n++) next[n] = a[n] + rc * a[k - n];
        next[k] = rc;
        error *= 1 - rc * rc;
        memcpy(a, next, sizeof a);
    }
    gain = error != 0 ? r[0] / error : r[0];
    if (!(gain > 1.5f)) return false;
    if (gain < 2) damping = 1 - (1 - 0.85f) * (2 - gain) / 0.5f;
    for (int k = 0; k < 9; k++) {
        float power = 1, square = damping;
        for (int bits = k; bits; bits /= 2, square *= square)
            if (bits % 2) power *= square;
        a[k] *= power;
    }
    for (int k = 8; k > 0; k--) {
        float rc = coefficients[k - 1] = a[k], one = 1 - rc * rc;
        for (int n = 1; n < k; n++) next[n] = (a[n] - rc * a[k - n]) / one;
        memcpy(a + 1, next + 1, 7 * sizeof *a);
    }
    return true;
}

/* The index by the thresholds, one after the other. */
static int walked(float x)
{
    static const float thresholds[8] = {0.09226835f, 0.27366298f, 0.44573835f, 0.6026346f,
                                        0.7390089f,  0.8502171f,  0.9324722f,  0.98297316f};
    int count = 0;
    for (int k = 0; k < 8; k++) count += thresholds[k] <= fabsf(x) && fabsf(x) <= 1;
    return x < 0 ? 8 - count : 8 + count;
}

int main(int count, char **words)
{
    static const int cuts[2][4] = {{12, 61, 110, 160}, {160, 213, 266, 320}};
    float *samples;
    size_t length = MADE, frames = 0, filters = 0;
    if (count != 2 && count != 3) fail("usage: voice LIBRARY.so [SAMPLES]");
    void *library = dlopen(words[1], RTLD_NOW | RTLD_LOCAL);
    encode_call *encode;
    *(void **)&encode = library ? dlsym(library, "tns_encode") : NULL;
    if (!encode) fail("no tns_encode");
    if (count == 3) {
        length = read_samples(words[2], &samples);
    } else {
        samples = malloc(length * sizeof *samples);
        if (!samples) fail("no room for the samples");
        make_voice(samples);
    }
    for (size_t start = 0; start + 2 * LINES <= length; start += LINES) {
        float lines[LINES], filtered[LINES], coefficients[8], quantized[16], gains[4];
        uint8_t side[20], told_on[2];
        mdct(samples + start, lines);
        memcpy(filtered, lines, sizeof lines);
        if (encode(0, 3, 320, false, filtered, LINES, side, quantized, gains, told_on).refusal) fail("a frame is refused");
        frames++;
        for (int f = 0; f < 2; f++) {
            bool on = reflected(lines, cuts[f], coefficients);
            if (told_on[f] != on) fail("a filter is not on where the encoder tells so");
            for (int k = 0; k < 8; k++)
                if (side[4 + 8 * f + k] != (on ? walked(coefficients[k]) : 8)) fail("an index is not the encoder's");
            if (on && fwrite(coefficients, sizeof coefficients, 1, stdout) != 1) fail("cannot write");
            filters += on;
        }
    }
    if (fflush(stdout)) fail("cannot write");
    fprintf(stderr, "%zu frames, %zu filters on, every index the encoder's\n", frames, filters);
    return 0;
}
