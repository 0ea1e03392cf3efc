/* Temporal noise shaping (TNS) of the LC3 audio codec: the nine functions of libtns.a. The archive is
 * for x86-64; `tools/build library` proves and builds it.
 *
 * Every call returns an answer, whatever numbers and list lengths it gets. In an answer, refusal 0 means
 * accepted; any other number is the error code (refusal number). A refused call leaves every list as it
 * was. Calls share no state, so several threads may call at the same time. docs/CONTRACTS.md has the
 * promises, docs/RULES.md the rules.
 *
 * This is version 0.2.0. One thing changed since the last 0.1.0 (C-15): tns_encode has two more parameters
 * at its end, gains and on (C-18). Build the archive anew, and compile every file that calls tns_encode
 * again. C does not notice a mix of old and new, which links. An older object file with this archive passes
 * two pointers too few, and the call writes to wherever they seem to point. A newer one with an older
 * archive gets no gains.
 *
 * Three things C cannot check, so the caller must:
 *
 * - Each pointer is valid for its length and aligned for its type. It is not null, even at length 0.
 * - No two lists of a call overlap. A spectrum is neither the output nor a part of it.
 * - The thread's float environment is the default: rounding to nearest, no flush-to-zero, no
 *   denormals-are-zero, all exceptions masked.
 *
 * -ffast-math breaks the third rule. A program that gcc or clang links with -ffast-math, -Ofast or
 * -funsafe-math-optimizations starts with flush-to-zero and denormals-are-zero in its main thread, and
 * each thread inherits them from the thread that starts it. Loading a shared library that gcc 12 or older
 * linked so sets them too. Audio frameworks often set them on purpose. Then every call that computes with
 * floats can give other results without any error: tns_decode and tns_decode_restart other lines,
 * tns_decode_save other lines and states, tns_encode other lines, side data, coefficients, gains and
 * bits. An exception that is not masked can end the process. Put the guard around these four calls:
 *
 *     uint32_t callers = tns_float_enter();
 *     tns_answer answer = tns_decode(...);
 *     tns_float_leave(callers);
 *
 * Refusals, the two cost calls and the three block calls use whole numbers alone and need no guard. The
 * Rust crate guards each of its calls by itself.
 */
#ifndef TNS_H
#define TNS_H

#include <stdbool.h>
#include <stddef.h>
#include <stdint.h>

#ifdef __cplusplus
extern "C" {
#endif

/* Error codes (refusal numbers). If several apply, a call gives the lowest; tns_block_rescue has one
 * exception, which its comment explains. The block calls give 9 to 12 and no others. No call of this
 * header gives 13 to 15. A row is a duration with a bandwidth: docs/RULES.md, "Refusal numbers" and "Band
 * rows". */
enum {
    TNS_ACCEPTED = 0,
    TNS_DURATION = 1,        /* neither 0 (10 ms) nor 1 (7.5 ms) */
    TNS_BANDWIDTH = 2,       /* over 4; 0 to 4 are NB, WB, SSWB, SWB, FB */
    TNS_SPECTRUM_LENGTH = 3, /* ends before the last band does, or over 400 lines (7.5 ms: 300) */
    TNS_LIST_LENGTH = 4,     /* not two orders, or not sixteen indices */
    TNS_FILTER_COUNT = 5,    /* over 2 */
    TNS_ORDER = 6,           /* an order over 8; its place is 0 or 1 */
    TNS_INDEX = 7,           /* an index over 16; its place is 0 to 15 */
    TNS_WEIGHTING = 8,       /* over 1 */
    TNS_BLOCK_LENGTH = 9,    /* a block cut short, or a block number over 65535 */
    TNS_BLOCK_SUMS = 10,     /* a checksum (one of the two sums) is wrong */
    TNS_BLOCK_LAYOUT = 11,   /* wrong header, padding (fill) not zero, or, in a read, another number */
    TNS_BLOCK_RECORD = 12,   /* a record out of range or cut short, or its bits are not its cost */
    TNS_LINE = 16,           /* below the row's first start, or over its last stop */
    TNS_OUTPUT_LENGTH = 17   /* not the spectrum's */
};

typedef struct {
    uint16_t refusal; /* 0: accepted */
    uint16_t place;   /* refusals 6 and 7: the lowest bad place; else 0 */
    uint16_t found;   /* refusals 6 and 7: the number at that place; else 0 */
    uint16_t bits;    /* an accepted encode or cost call: the bits, at most 168; else 0 */
} tns_answer;

#if defined __x86_64__ && (defined __cplusplus || !defined __STRICT_ANSI__ || \
                           (defined __STDC_VERSION__ && __STDC_VERSION__ >= 199901L))
/* The guard of the float environment. tns_float_enter returns the caller's control word (MXCSR) and, if
 * the environment is not the default, sets the default. tns_float_leave takes that word and restores it.
 * If the caller's environment is the default, the pair only reads the word and compares it. Pairs may be
 * nested, and a pair may hold several calls.
 *
 * Inside the pair, do no float arithmetic of your own, which the compiler may move across either end, and
 * do not change the environment.
 *
 * If the guard changed the word, tns_float_leave also restores the six status flags, so the exceptions
 * that the call raised are not seen. If not, they stay set, as after any float operation.
 *
 * The guard is assembly for the sake of its memory clobber: the compiler must assume that it reads and
 * writes any memory, as a call of the library may. So no such call crosses either end, nor does a load or
 * store of its lists. _mm_setcsr is no such barrier: gcc moves loads across it. Other processors than
 * x86-64 have no archive and no guard, and strict C90 (-std=c90), which lacks inline, has no guard; the
 * rest of the header compiles there. */
static inline uint32_t tns_float_enter(void)
{
    const uint32_t standard = 0x1f80u; /* to nearest, subnormals kept, exceptions masked, no flag set */
    uint32_t callers;
    __asm__ __volatile__("stmxcsr %0" : "=m"(callers));
    if ((callers & 0xffc0u) != standard) /* all bits but the flags */
        __asm__ __volatile__("ldmxcsr %0" : : "m"(standard) : "memory");
    return callers;
}

static inline void tns_float_leave(uint32_t callers)
{
    if ((callers & 0xffc0u) != 0x1f80u) /* then tns_float_enter set the default */
        __asm__ __volatile__("ldmxcsr %0" : : "m"(callers) : "memory");
}
#endif

/* Analyses a spectrum and filters it in place. bits is the frame's size; near_nyquist turns every filter
 * off. Writes the side data (weighting, filter count, two orders, sixteen indices: 20 bytes) and the
 * sixteen quantized reflection coefficients, one for each index. Refusals 1 to 3.
 *
 * gains and on show why a filter is on or off. gains gets gain and damping of the first filter, then of
 * the second; on gets 1 for a filter that is on, else 0. A filter is on exactly if its gain is over 1.5 and
 * near_nyquist is false. To find out why a filter is off, ask in this order:
 *
 *     1. the second filter, and the filter count is 1 (bandwidths 0 to 2): the row has no band for it.
 *        Then the gain is 0 and the damping 1.
 *     2. the gain is not a number, for instance because a line of the band is NaN or infinite, or so
 *        large that its square is infinite. (With -ffast-math isnan is always false: look at the bits.)
 *     3. the gain is not over 1.5.
 *     4. else it is near_nyquist.
 *
 * The damping is below 1 only if the filter is on, the weighting is 1 and the gain is below 2: it falls
 * from 1 at gain 2 to 0.85 just over gain 1.5. A filter that is off has damping 1 and order 0. One that is
 * on can have order 0 too, if all its coefficients are quantized to 0. A refused call leaves gains and on
 * as they were. examples/gains.c prints gains with the reasons. docs/RULES.md, "Gains (C-18)".
 *
 * If every line is finite and at most 2^m in absolute value, for a whole m from -126 to 119, then each
 * filtered line is within 2^(m-13) of what the same filter gives without rounding. */
tns_answer tns_encode(uint8_t duration, uint8_t bandwidth, uint64_t bits, bool near_nyquist,
                      float *lines, size_t lines_len, uint8_t side[20], float coefficients[16],
                      float gains[4], uint8_t on[2]);

/* Decodes a spectrum in place. An index means the coefficient that tns_encode writes for it: index 8 is
 * 0, index 0 is -0.99573416. Refusals 1 to 7. */
tns_answer tns_decode(uint8_t duration, uint8_t bandwidth, uint8_t filters, const uint8_t *orders,
                      size_t orders_len, const uint8_t *indices, size_t indices_len, float *lines,
                      size_t lines_len);

/* Decodes a spectrum into an output of the same length and leaves the spectrum unchanged. The output gets
 * what tns_decode leaves in place. Also writes the eight states of the lattice before line n, from which
 * tns_decode_restart can continue. Refusals 1 to 7, 16 and 17. Line n may be any from the row's first
 * start to its last stop, both included. The bands of each row, from start to stop (the line after the
 * last), for bandwidth 0 to 4:
 *
 *     10 ms:  12-80, 12-160, 12-240, 12-160 and 160-320, 12-200 and 200-400
 *     7.5 ms: 9-60, 9-120, 9-180, 9-120 and 120-240, 9-150 and 150-300
 */
tns_answer tns_decode_save(uint8_t duration, uint8_t bandwidth, uint8_t filters,
                           const uint8_t *orders, size_t orders_len, const uint8_t *indices,
                           size_t indices_len, const float *spectrum, size_t spectrum_len,
                           float *output, size_t output_len, size_t n, float states[8]);

/* Decodes a spectrum from line n on and leaves the spectrum unchanged. The output's lines below n are not
 * written. The lattice continues from the states, and each filter works on the part of its band from n
 * on. Lines outside the bands are copied. Refusals as for tns_decode_save.
 *
 * The lines from n on are the same as in a decode of the whole spectrum if tns_decode_save wrote the
 * states for the same n, in a frame that agrees with this one on:
 *
 * - the spectrum's length, the duration, the bandwidth and the filter count;
 * - every line below n;
 * - order and indices of each filter that has a line below n in its band.
 *
 * Any other eight states are accepted too, NaN and infinities included; the lattice then continues from
 * those. examples/mend.c mends the upper half of a frame. docs/RULES.md, "Restart at a line (C-22)". */
tns_answer tns_decode_restart(uint8_t duration, uint8_t bandwidth, uint8_t filters,
                              const uint8_t *orders, size_t orders_len, const uint8_t *indices,
                              size_t indices_len, const float *spectrum, size_t spectrum_len,
                              float *output, size_t output_len, size_t n, const float states[8]);

/* The bits that side data cost. Refusals 4 to 8. */
tns_answer tns_cost(uint8_t weighting, uint8_t filters, const uint8_t *orders, size_t orders_len,
                    const uint8_t *indices, size_t indices_len);

/* The same bits, and what each filter costs before it is rounded. Answers what tns_cost does. An accepted
 * call also writes to parts, for each counted filter (the first `filters` of the two), its cost in 2048ths
 * of a bit, without the one bit that every counted filter takes. The part of a filter that is not counted
 * is 0, and so is that of order 0. A part is at most 83 * 2048 = 169984. A refused call leaves both parts
 * as they were. Refusals 4 to 8.
 *
 * The bits are 1 + (part + 2047) / 2048 for each counted filter, added up: each filter is rounded up on
 * its own. To plan over many frames, add up the parts and the filter counts of all, and round once:
 * together their side data cost filters + (parts + 2047) / 2048 bits, where filters and parts are these
 * sums. A uint64_t has room for the parts of 2^45 frames. examples/planner.c does this. docs/RULES.md,
 * "Cost before rounding (C-15)". */
tns_answer tns_cost_2048ths(uint8_t weighting, uint8_t filters, const uint8_t *orders,
                            size_t orders_len, const uint8_t *indices, size_t indices_len,
                            uint32_t parts[2]);

/* A narration is a file with the side data of many frames, in blocks. docs/FORMAT.md describes it byte by
 * byte. A record holds one frame in 24 bytes, in memory as in the file:
 *
 *     0      duration, 0 or 1
 *     1      bandwidth, 0 to 4
 *     2      filter count, 0 to 2
 *     3      weighting, 0 or 1
 *     4-5    two orders, 0 to 8
 *     6-21   sixteen indices, 0 to 16
 *     22-23  the bits that tns_cost gives for them, low byte first
 *
 * A record is sound if each number is in its range, used or not, and the bits are the cost. A block has
 * 512 bytes:
 *
 *     0-1      the block's number, low byte first
 *     2        how many records it has, 1 to 20
 *     3        the format's version (edition), 1
 *     4-7      zeros
 *     8-507    the records, then padding (fill): zeros
 *     508-509  checksum: the sum of bytes 0 to 507, modulo 65521, low byte first
 *     510-511  checksum: the sum of (508 - place) * byte over these bytes, modulo 65521, low byte first
 *
 * A block in which one byte has changed, whichever it is, is always refused. Blocks are numbered from 0,
 * and a file has at most 65536. A file without records has no bytes. A writer fills every block but the
 * last; a reader accepts 1 to 20 records in any block. Both work through a file one block at a time and
 * stop at the first refused block; the blocks before it remain valid. examples/narration.c does both. */
enum {
    TNS_RECORD_SIZE = 24,    /* bytes of a record */
    TNS_BLOCK_SIZE = 512,    /* bytes of a block */
    TNS_BLOCK_CAPACITY = 20  /* records of a full block: 480 bytes */
};

typedef struct {
    uint16_t refusal; /* 0: accepted */
    uint16_t records; /* an accepted call: how many records the block has; else 0 */
} tns_block_answer;

/* Writes the block of this number from the first 20 records of a list, or from all if there are fewer.
 * The length is in bytes; the call reads at most 480. Refusals 9 (the number is over 65535) and 12 (one
 * of these records is not sound, or the last is cut short). An accepted call writes all 512 bytes and
 * answers how many records it took. An empty list makes no block: the call accepts it with 0 records,
 * whatever the number, and writes nothing. */
tns_block_answer tns_block_write(uint64_t number, const uint8_t *records, size_t records_len,
                                 uint8_t block[512]);

/* Checks the block of this number and gives its records. The call reads at most 512 bytes. Refusals 9
 * (fewer than 512 bytes, or the number is over 65535), then 10 to 12. An accepted call writes 24 bytes
 * for each record, from the start of the list, and leaves the rest of the 480 unchanged. A length of 0 is
 * the end of a file: the call accepts it with 0 records, whatever the number, and writes nothing. */
tns_block_answer tns_block_read(uint64_t number, const uint8_t *block, size_t block_len,
                                uint8_t records[480]);

typedef struct {
    uint16_t refusal; /* 0: accepted */
    uint16_t number;  /* an accepted call: the block number in the bytes; else 0 */
} tns_rescue_answer;

/* Rescues one block of a damaged file. Checks the bytes as tns_block_read does, except that they may have
 * any block number. The call reads at most 512 bytes. An accepted call writes all 512 bytes of the block:
 * the number of the call, bytes 2 to 507 unchanged, and new checksums. The order of its refusals:
 *
 *     9         fewer than 512 bytes, also at length 0
 *     10 to 12  the first fault in the bytes
 *     9         no fault in the bytes, and the number of the call is over 65535
 *
 * To rescue a whole file, go over its blocks twice. Fewer than 512 bytes at its end are stray bytes, not
 * a block.
 *
 *     1. Call for each block with number 0 and count the accepted ones; ignore what the calls write. If
 *        there are more than 65536, refuse the file with 9 and make no mended file.
 *     2. Call for each block again. Its number is the count of blocks that this pass has accepted so far:
 *        0, 1, 2 and so on. Write each accepted block to the mended file and drop each refused one. No
 *        call gives 9 now unless the file has changed meanwhile.
 *
 * The mended file has the kept blocks in their old order, and a reader accepts all of it. A sound file
 * comes out unchanged. The second pass can also report for each dropped block its place in the damaged
 * file and the refusal, for each kept block with a new number its place and both numbers, and how many
 * bytes are stray. examples/rescue.c does all of this. docs/RULES.md, "Rescue (C-16)". */
tns_rescue_answer tns_block_rescue(uint64_t number, const uint8_t *bytes, size_t bytes_len,
                                   uint8_t block[512]);

#ifdef __cplusplus
}
#endif

#endif
