/* Calling from a thread that flushes subnormals, as audio threads and programs linked with -ffast-math do.
 * There a call without a guard gives other lines than the library promises. With the guard of tns.h around
 * it, the call gives the promised lines, and the thread's own float environment is back afterwards. */
#include <stdio.h>
#include <string.h>
#include <xmmintrin.h>

#include "tns.h"

enum { LINES = 400, FIRST = 12 /* line of the filter */ };

/* The control word MXCSR: the default, and two bits that an audio thread sets. */
enum { DEFAULT = 0x1f80, FLUSH_TO_ZERO = 0x8000, DENORMALS_ARE_ZERO = 0x0040 };

static tns_answer decode(float *lines)
{
    const uint8_t orders[2] = {2, 0};
    const uint8_t indices[16] = {9, 7, 8, 8, 8, 8, 8, 8, 8, 8, 8, 8, 8, 8, 8, 8};
    return tns_decode(0, 4, 1, orders, 2, indices, 16, lines, LINES);
}

static tns_answer decode_guarded(float *lines)
{
    uint32_t callers = tns_float_enter();
    tns_answer answer = decode(lines);
    tns_float_leave(callers);
    return answer;
}

/* Makes a call on subnormal lines. Gives the bits of the first filtered line. */
static uint32_t first_line(tns_answer (*call)(float *lines))
{
    const uint32_t subnormal = 0x00000b8e;
    uint32_t bits[LINES];
    float lines[LINES];
    for (int i = 0; i < LINES; i++)
        bits[i] = subnormal;
    memcpy(lines, bits, sizeof lines);
    call(lines);
    memcpy(bits, lines, sizeof bits);
    return bits[FIRST];
}

int main(void)
{
    unsigned int before = _mm_getcsr();
    _mm_setcsr(DEFAULT);
    uint32_t expected = first_line(decode);

    unsigned int audio = DEFAULT | FLUSH_TO_ZERO | DENORMALS_ARE_ZERO;
    _mm_setcsr(audio);
    uint32_t unguarded = first_line(decode);
    _mm_setcsr(audio);
    uint32_t guarded = first_line(decode_guarded);
    unsigned int after = _mm_getcsr();
    _mm_setcsr(before);

    printf("float environment: line 0x%08x by default\n", (unsigned)expected);
    printf("flush-to-zero and denormals-are-zero: line 0x%08x, with the guard 0x%08x\n",
           (unsigned)unguarded, (unsigned)guarded);
    printf("the thread's word after the guard: 0x%04x\n", after);
    return !(guarded == expected && unguarded != expected && after == audio);
}
