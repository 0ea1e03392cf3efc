/* Why a filter is off: what tns_encode tells about each filter.
 *
 *     gains                frames that the program makes: on, damped, and each reason for off
 *     gains FILE [BITS]    the frames of a file, as comma-separated lines
 *
 * FILE, or - for standard input, holds frames of 320 lines (10 ms, bandwidth 3, two filters). Each line is
 * an f32, lowest byte first, as x86-64 keeps it in memory. BITS is the frame's size, 320 if left out. Gain
 * and damping get nine digits, enough to read the same f32 back. The status is 1 if an answer is not as it
 * must be, if the file cannot be read or if it ends inside a frame, and 2 for wrong words. */
#include <errno.h>
#include <stdio.h>
#include <stdlib.h>
#include <string.h>

#include "tns.h"

enum { DURATION = 0, NB = 0, SWB = 3, NB_LINES = 80, LINES = 320 };

/* The gain's bits tell: a program built with -ffast-math takes isnan for false. */
static bool is_nan(float x)
{
    uint32_t bits;
    memcpy(&bits, &x, sizeof bits);
    return (bits & 0x7fffffff) > 0x7f800000;
}

/* Why filter 0 or 1 is off, or "-" if it is on. filters is side[1]; gain and on are what the call wrote for
 * this filter. If several reasons hold, the first one stands. */
static const char *why_off(int filter, int filters, float gain, int on)
{
    if (on)
        return "-";
    if (filter >= filters)
        return "no such band";
    if (is_nan(gain))
        return "gain is not a number";
    return gain > 1.5f ? "near-Nyquist flag" : "gain is not over 1.5";
}

/* A gain in text. A NaN may have a sign, which printf would show. */
static const char *printed(const char *form, float gain)
{
    static char text[32];
    snprintf(text, sizeof text, form, (double)gain);
    return is_nan(gain) ? "nan" : text;
}

/* Each line is a part of the line below it, plus noise. A burst within a frame makes lines like these: the
 * larger the part, the better a line can be predicted from those below, and the higher is the gain. */
static void make_lines(float part, float lines[LINES])
{
    uint32_t drawn = 1;
    float line = 0;
    for (int n = 0; n < LINES; n++) {
        drawn = drawn * 1664525u + 1013904223u;
        line = part * line + (float)(drawn >> 16) - 32768;
        lines[n] = line;
    }
}

/* The frames that the program makes, and what the call must tell about them. */
static const struct {
    const char *name, *why[2];
    float part;
    uint8_t bandwidth;
    uint64_t bits;
    bool near_nyquist, has_nan, damped;
} made[] = {
    {"burst", {"-", "-"}, 0.95f, SWB, 320, false, false, false},
    {"weak burst, 479 bits", {"-", "-"}, 0.62f, SWB, 479, false, false, true},
    {"weak burst, 480 bits", {"-", "-"}, 0.62f, SWB, 480, false, false, false},
    {"noise", {"gain is not over 1.5", "gain is not over 1.5"}, 0, SWB, 320, false, false, false},
    {"burst, a line is NaN", {"gain is not a number", "-"}, 0.95f, SWB, 320, false, true, false},
    {"burst, flag set", {"near-Nyquist flag", "near-Nyquist flag"}, 0.95f, SWB, 320, true, false, false},
    {"burst, narrow band", {"-", "no such band"}, 0.95f, NB, 320, false, false, false},
};

static int show_made(void)
{
    const uint32_t nan_bits = 0x7fc00000;
    float lines[LINES], coefficients[16], gains[4];
    uint8_t side[20], on[2];
    int wrong = 0;
    printf("%-22sfilter    gain  damping\n", "frame");
    for (size_t i = 0; i < sizeof made / sizeof *made; i++) {
        make_lines(made[i].part, lines);
        if (made[i].has_nan)
            memcpy(&lines[50], &nan_bits, sizeof nan_bits); /* in the first band */
        tns_answer a = tns_encode(DURATION, made[i].bandwidth, made[i].bits, made[i].near_nyquist, lines,
                                  made[i].bandwidth == NB ? NB_LINES : LINES, side, coefficients,
                                  gains, on);
        wrong += a.refusal != TNS_ACCEPTED;
        for (int f = 0; f < 2; f++) {
            float gain = gains[2 * f], damping = gains[2 * f + 1];
            const char *why = why_off(f, side[1], gain, on[f]);
            printf("%-22s%6d%8s%9.3f  %s%s\n", made[i].name, f, printed("%.3f", gain), (double)damping,
                   on[f] ? "on" : "off: ", !on[f] ? why : damping < 1 ? ", damped" : "");
            wrong += strcmp(why, made[i].why[f]) != 0 || on[f] != (*why == '-');
            wrong += made[i].damped ? !(0.85f < damping && damping < 1) : damping != 1;
        }
    }

    /* There is no third duration. The refused call leaves both lists as they were. */
    const float gains_before[4] = {1, 2, 3, 4};
    const uint8_t on_before[2] = {5, 6};
    memcpy(gains, gains_before, sizeof gains);
    memcpy(on, on_before, sizeof on);
    tns_answer a = tns_encode(2, SWB, 320, false, lines, LINES, side, coefficients, gains, on);
    bool kept = !memcmp(gains, gains_before, sizeof gains) && !memcmp(on, on_before, sizeof on);
    printf("refusal %d: gains and on are %s\n", a.refusal, kept ? "as they were" : "changed");
    return wrong != 0 || a.refusal != TNS_DURATION || !kept;
}

static int show_file(FILE *file, uint64_t bits)
{
    float lines[LINES], coefficients[16], gains[4];
    uint8_t side[20], on[2];
    size_t bytes;
    printf("frame,filter,gain,damping,on,why\n");
    for (long frame = 0; (bytes = fread(lines, 1, sizeof lines, file)) == sizeof lines; frame++) {
        if (tns_encode(DURATION, SWB, bits, false, lines, LINES, side, coefficients, gains, on).refusal)
            return 1;
        for (int f = 0; f < 2; f++)
            printf("%ld,%d,%s,%.9g,%d,%s\n", frame, f, printed("%.9g", gains[2 * f]),
                   (double)gains[2 * f + 1], on[f], why_off(f, side[1], gains[2 * f], on[f]));
    }
    if (ferror(file))
        perror("gains: cannot read");
    else if (bytes > 0)
        fprintf(stderr, "gains: the last frame has %d bytes of %d\n", (int)bytes, (int)sizeof lines);
    return ferror(file) || bytes > 0;
}

int main(int count, char **words)
{
    uint64_t bits = 320;
    errno = 0;
    if (count == 3)
        bits = strtoull(words[2], NULL, 10);
    if (count > 3 || errno || (count == 3 && (!*words[2] || words[2][strspn(words[2], "0123456789")]))) {
        fprintf(stderr, "usage: gains [FILE [BITS]]\n");
        return 2;
    }
    FILE *file = count < 2 || strcmp(words[1], "-") == 0 ? stdin : fopen(words[1], "rb");
    if (!file) {
        perror(words[1]);
        return 1;
    }
    int status = count < 2 ? show_made() : show_file(file, bits);
    if (fflush(stdout) || ferror(stdout)) {
        perror("gains: cannot write");
        return 1;
    }
    return status;
}
