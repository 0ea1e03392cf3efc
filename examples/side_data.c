/* The side data that an encoder sends with the lines, and what they cost in bits. The program encodes a
 * spectrum and computes the cost of its side data again. Then it passes an index over 16, which is refused.
 * It prints every number of each answer. */
#include <stdio.h>

#include "tns.h"

enum { DURATION = 1, BANDWIDTH = 4, LINES = 300, BITS = 320 };

static void print_answer(const char *call, tns_answer a)
{
    printf("%s: refusal %d at place %d, found %d; %d bits\n", call, a.refusal, a.place, a.found,
           a.bits);
}

static tns_answer cost(const uint8_t side[20])
{
    return tns_cost(side[0], side[1], side + 2, 2, side + 4, 16);
}

int main(void)
{
    float lines[LINES], coefficients[16], gains[4];
    uint8_t side[20], on[2];
    lines[0] = 1000;
    for (int i = 1; i < LINES; i++)
        lines[i] = 0.95f * lines[i - 1];

    tns_answer a = tns_encode(DURATION, BANDWIDTH, BITS, false, lines, LINES, side, coefficients, gains,
                              on);
    print_answer("encode", a);
    printf("weighting %d, filters %d, orders %d and %d\n", side[0], side[1], side[2], side[3]);
    /* Index 8 means coefficient 0; a higher index means a positive one, a lower index a negative one. */
    int agree = 1;
    for (int i = 0; i < 16; i++) {
        int index = side[4 + i];
        agree &= (index > 8) == (coefficients[i] > 0) && (index < 8) == (coefficients[i] < 0);
        if (index != 8)
            printf("index %d is %d: %.4f\n", i, index, (double)coefficients[i]);
    }

    tns_answer b = cost(side);
    print_answer("cost", b);
    side[4 + 11] = 17;
    tns_answer c = cost(side);
    print_answer("cost", c);
    return !(agree && a.refusal == TNS_ACCEPTED && b.refusal == TNS_ACCEPTED && a.bits == b.bits &&
             c.refusal == TNS_INDEX && c.place == 11 && c.found == 17 && c.bits == 0);
}
