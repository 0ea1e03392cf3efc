/* A frame with order 9, where a filter has room for eight states. The decoder of lc3-codec 0.2.0 panics on
 * it. Here the call is refused with error code 6 and leaves the spectrum unchanged. The next frame, of
 * order 8, is decoded. */
#include <stdio.h>
#include <string.h>

#include "tns.h"

enum { LINES = 400 };

static tns_answer decode(uint8_t order, float *lines)
{
    const uint8_t orders[2] = {order, 0};
    const uint8_t indices[16] = {9, 7, 9, 7, 9, 7, 9, 7, 8, 8, 8, 8, 8, 8, 8, 8};
    return tns_decode(0, 4, 1, orders, 2, indices, 16, lines, LINES);
}

int main(void)
{
    float before[LINES], lines[LINES];
    for (int i = 0; i < LINES; i++)
        before[i] = (float)(i % 7 - 3);
    memcpy(lines, before, sizeof lines);

    tns_answer a = decode(9, lines);
    printf("order 9: refusal %d at place %d, found %d; the spectrum is %s\n", a.refusal, a.place,
           a.found, memcmp(lines, before, sizeof lines) ? "changed" : "as it was");

    tns_answer b = decode(8, lines);
    int changed = 0;
    for (int i = 0; i < LINES; i++)
        changed += lines[i] != before[i];
    printf("order 8: refusal %d; %d lines changed\n", b.refusal, changed);
    return !(a.refusal == TNS_ORDER && a.place == 0 && a.found == 9 && b.refusal == TNS_ACCEPTED);
}
