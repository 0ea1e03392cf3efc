/* A rate planner's sum: what the side data of many frames cost together. The program encodes 1,000 frames
 * and adds up their bits, which are rounded up for each filter. It also adds up the same costs before they
 * are rounded, and rounds that sum once. It checks that each frame's bits, from the encoder and from the
 * cost call, are one bit and the part rounded up, for each filter, and that a refused call leaves the
 * parts as they were. */
#include <stdio.h>

#include "tns.h"

enum { DURATION = 0, BANDWIDTH = 4, LINES = 400, BITS = 320, FRAMES = 1000 };

/* A spectrum that falls by another factor in each of 97 frames; every third to seventh line is negative. */
static void make_lines(int f, float lines[LINES])
{
    float line = 1000, falls = 0.9f + 0.09f * (float)(f % 97) / 97;
    for (int n = 0; n < LINES; n++) {
        lines[n] = n % (3 + f % 5) == 0 ? -line : line;
        line *= falls;
    }
}

int main(void)
{
    float lines[LINES], coefficients[16], gains[4];
    uint8_t side[20], on[2]; /* side: weighting, filter count, two orders, sixteen indices */
    uint64_t filters = 0, rounded = 0, parts_sum = 0;
    int wrong = 0;
    for (int f = 0; f < FRAMES; f++) {
        uint32_t parts[2] = {0, 0};
        make_lines(f, lines);
        tns_answer e = tns_encode(DURATION, BANDWIDTH, BITS, false, lines, LINES, side, coefficients,
                                  gains, on);
        tns_answer a = tns_cost_2048ths(side[0], side[1], side + 2, 2, side + 4, 16, parts);
        uint32_t bits = 0;
        for (int i = 0; i < side[1]; i++) {
            bits += 1 + (parts[i] + 2047) / 2048;
            parts_sum += parts[i];
        }
        wrong += a.refusal != TNS_ACCEPTED || a.bits != bits || e.bits != bits;
        filters += side[1];
        rounded += a.bits;
    }
    uint64_t once = filters + (parts_sum + 2047) / 2048;
    printf("%d frames, %d filters: %d bits, rounded for each filter\n", FRAMES, (int)filters,
           (int)rounded);
    printf("%.2f bits before rounding, %d bits rounded once: %d fewer\n",
           (double)filters + (double)parts_sum / 2048, (int)once, (int)(rounded - once));

    uint32_t kept[2] = {1, 2};
    side[2] = 9; /* the first order; 8 is the highest */
    tns_answer refused = tns_cost_2048ths(side[0], side[1], side + 2, 2, side + 4, 16, kept);
    return wrong != 0 || once > rounded || refused.refusal != TNS_ORDER || kept[0] != 1 || kept[1] != 2;
}
