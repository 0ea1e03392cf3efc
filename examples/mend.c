/* Mending the upper half of a frame. The program decodes the frame once and saves the states before the
 * second band. Then it gives the upper half other lines and another filter and decodes only that half. The
 * output equals a decode of the whole mended frame. */
#include <stdio.h>
#include <string.h>

#include "tns.h"

/* 10 ms at full band. The second band starts at line 200. */
enum { DURATION = 0, BANDWIDTH = 4, FILTERS = 2, LINES = 400, SECOND = 200 };

typedef struct {
    uint8_t orders[2], indices[16];
    float spectrum[LINES];
} frame;

static tns_answer save(const frame *f, float *output, size_t n, float states[8])
{
    return tns_decode_save(DURATION, BANDWIDTH, FILTERS, f->orders, 2, f->indices, 16, f->spectrum,
                           LINES, output, LINES, n, states);
}

static tns_answer restart(const frame *f, float *output, size_t output_len, const float states[8])
{
    return tns_decode_restart(DURATION, BANDWIDTH, FILTERS, f->orders, 2, f->indices, 16,
                              f->spectrum, LINES, output, output_len, SECOND, states);
}

static tns_answer decode_anew(const frame *f, float *lines)
{
    memcpy(lines, f->spectrum, sizeof f->spectrum);
    return tns_decode(DURATION, BANDWIDTH, FILTERS, f->orders, 2, f->indices, 16, lines, LINES);
}

/* How many lines differ, from one line up to another. */
static int differ(const float *a, const float *b, int from, int to)
{
    int count = 0;
    for (int i = from; i < to; i++)
        count += a[i] != b[i];
    return count;
}

int main(void)
{
    frame f = {{8, 2}, {9, 7, 9, 7, 9, 7, 9, 7, 7, 9, 8, 8, 8, 8, 8, 8}, {0}};
    float output[LINES], states[8];
    for (int i = 0; i < LINES; i++)
        f.spectrum[i] = (float)(i % 7 - 3);
    tns_answer a = save(&f, output, SECOND, states);
    printf("save before line %d: refusal %d\n", SECOND, a.refusal);

    /* Mend the upper half, its lines and its filter. The output has the lower half already. */
    for (int i = SECOND; i < LINES; i++)
        f.spectrum[i] = (float)(i % 5 - 2);
    f.orders[1] = 4;
    memset(f.indices + 8, 10, 8);
    tns_answer b = restart(&f, output, LINES, states);
    float anew[LINES];
    tns_answer whole = decode_anew(&f, anew);
    int wrong = differ(output, anew, 0, LINES);
    printf("restart there: refusal %d; %d lines differ from the mended frame decoded anew\n",
           b.refusal, wrong);

    /* A restart writes nothing below its line: marks there stay. */
    float marks[LINES];
    for (int i = 0; i < LINES; i++)
        marks[i] = 1000 + (float)i;
    memcpy(output, marks, sizeof output);
    restart(&f, output, LINES, states);
    int below = differ(output, marks, 0, SECOND), above = differ(output, marks, SECOND, LINES);
    printf("lines written: %d below, %d from there on\n", below, above);

    /* The second filter continues from the states that the first one leaves, not from zeros. */
    const float zeros[8] = {0};
    restart(&f, output, LINES, zeros);
    int without = differ(output, anew, SECOND, LINES);
    printf("restart from zeros: %d lines differ\n", without);

    tns_answer c = save(&f, output, 11, states);
    tns_answer d = restart(&f, output, LINES - 1, states);
    printf("line 11: refusal %d; an output of 399 lines: refusal %d\n", c.refusal, d.refusal);
    return !(a.refusal == TNS_ACCEPTED && b.refusal == TNS_ACCEPTED &&
             whole.refusal == TNS_ACCEPTED && wrong == 0 && below == 0 && above == LINES - SECOND &&
             without > 0 && c.refusal == TNS_LINE && d.refusal == TNS_OUTPUT_LENGTH);
}
