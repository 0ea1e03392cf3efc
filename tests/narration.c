/* The gate's model of block files: makes, damages, reads, writes and rescues them, for tests/narrations,
 * tests/rescue, the tests of rust/ and bench/narrations. It is plain C, written from docs/RULES.md, "Block files
 * (C-11)" and "Rescue (C-16)". It shares nothing with the library, nor with the only other model, the oracle's
 * (oracle/blocks.py).
 *
 *   narration records N [SEED]     writes N sound records, of every kind
 *   narration heavy N [SEED]       writes N sound records, most with two filters of orders 5 to 8
 *   narration record NUMBER..      writes one record of the 22 numbers given, its bits being its cost
 *   narration write [COUNT..]      reads records and writes a block file; the blocks hold as many as the
 *                                  counts say, in turn, and 20 without any; nothing is refused
 *   narration change SIZE CHANGE.. reads bytes in units of SIZE and writes them changed: U.P=V sets byte P
 *                                  of unit U to V, U.P+V adds V to it, and U.sums makes the two sums of a
 *                                  block right; changes are made in turn
 *   narration rescue MENDED        reads a damaged block file, writes what is kept of it to the file MENDED,
 *                                  the report to standard output, and, if a block or stray bytes were
 *                                  dropped, how much was kept to standard error; of more than 65,536 blocks
 *                                  to keep it writes nothing, and its status is 9
 *   narration plain read|write     does what the proved programs do, with their checks and nothing proved,
 *                                  in pieces of 64 KiB; reports refusals and failures as they do, by a line
 *                                  on standard error, and 1 or 2 on descriptor 3
 *   narration answer               answers questions one after the other: see there
 *
 * Status 0, or 1 if it cannot write, or 2 if it is called wrongly, or 9 as under `rescue`. Numbers come
 * from xorshift (13, 7, 17), so the same call writes the same bytes. Assumes C99 and POSIX; `write`, `change`
 * and `rescue` hold all that they read.
 */
#define _POSIX_C_SOURCE 200809L
#include <stdint.h>
#include <stdio.h>
#include <stdlib.h>
#include <string.h>
#include <unistd.h>

#include "costs.h"

enum { RECORD = 24, BLOCK = 512, SUMMED = 508, MOST = 20, RECORDS = MOST * RECORD };
enum { BLOCKS = 65536, PIECE = 65536 };

static void wrong(void) {
    fprintf(stderr, "narration: called wrongly\n");
    exit(2);
}

static long whole(const char *text) {
    char *end;
    long value = strtol(text, &end, 10);
    if (end == text || *end != 0 || value < 0) wrong();
    return value;
}

/* Nobody may read on: that is for the tests to see. */
static void put(const void *bytes, size_t count) {
    if (fwrite(bytes, 1, count, stdout) != count) exit(1);
}

static unsigned u16_at(const uint8_t *at) {
    return at[0] | at[1] << 8;
}

static void put_u16(uint8_t *at, unsigned value) {
    at[0] = (uint8_t)value;
    at[1] = (uint8_t)(value >> 8);
}

/* All of standard input. */
static uint8_t *taken(size_t *length) {
    size_t room = 4 << 20, held = 0, got;
    uint8_t *bytes = malloc(room);
    while (bytes != NULL && (got = fread(bytes + held, 1, room - held, stdin)) > 0) {
        held += got;
        if (held == room) bytes = realloc(bytes, room *= 2);
    }
    if (bytes == NULL) exit(1);
    *length = held;
    return bytes;
}

/* Records. */

static int is_within_limits(const uint8_t *r) {
    unsigned over = 0;
    if (r[0] > 1 || r[1] > 4 || r[2] > 2 || r[3] > 1 || r[4] > 8 || r[5] > 8) return 0;
    for (int k = 6; k < 22; k++) over |= r[k] > 16;
    return !over;
}

/* The cost of a record's counted filters: each a bit and its order's and indices' costs, rounded up. */
static inline unsigned cost(const uint8_t *r) {
    unsigned bits = 0;
    for (int f = 0; f < r[2]; f++) {
        const uint8_t *index = r + 6 + 8 * f;
        unsigned parts = 0;
        if (r[4 + f] > 0) {
            parts = ORDER_COST[r[3]][r[4 + f] - 1];
            for (int k = 0; k < r[4 + f]; k++) parts += INDEX_COST[k][index[k]];
        }
        bits += 1 + (parts + 2047) / 2048;
    }
    return bits;
}

static int are_sound(const uint8_t *records, unsigned count) {
    for (const uint8_t *r = records; r < records + RECORD * count; r += RECORD)
        if (!is_within_limits(r) || cost(r) != u16_at(r + 22)) return 0;
    return 1;
}

/* Blocks. */

/* The two sums of a block, the first in the low half. The second is the sum of all running sums; it stays
 * below 508 * 508 * 255. */
static uint32_t sums(const uint8_t *block) {
    uint32_t sum = 0, weighted = 0;
    for (int place = 0; place < SUMMED; place++) {
        sum += block[place];
        weighted += sum;
    }
    return sum % 65521 | weighted % 65521 << 16;
}

static void put_sums(uint8_t *block) {
    uint32_t both = sums(block);
    put_u16(block + 508, both & 65535);
    put_u16(block + 510, both >> 16);
}

/* The block of at most 20 records, sound or not. */
static void make_block(uint64_t number, const uint8_t *records, size_t length, uint8_t *block) {
    memset(block, 0, BLOCK);
    put_u16(block, (unsigned)(number % BLOCKS));
    block[2] = (uint8_t)(length / RECORD);
    block[3] = 1;
    memcpy(block + 8, records, length);
    put_sums(block);
}

/* Block `number` of the first 20 records: its refusal, or 0 and the block, if there are records. */
static unsigned write_block(uint64_t number, const uint8_t *records, size_t length, uint8_t *block) {
    if (length > RECORDS) length = RECORDS;
    if (length == 0) return 0;
    if (number >= BLOCKS) return 9;
    if (length % RECORD != 0 || !are_sound(records, (unsigned)(length / RECORD))) return 12;
    make_block(number, records, length, block);
    return 0;
}

/* The refusal of block `number`, or 0; then the block holds block[2] records from byte 8 on. */
static unsigned check_block(uint64_t number, const uint8_t *block, size_t length) {
    if (length < BLOCK || number >= BLOCKS) return 9;
    if (sums(block) != (u16_at(block + 508) | (uint32_t)u16_at(block + 510) << 16)) return 10;
    unsigned count = block[2];
    if (u16_at(block) != number || count < 1 || count > MOST || block[3] != 1) return 11;
    if (block[4] | block[5] | block[6] | block[7]) return 11;
    for (unsigned place = 8 + RECORD * count; place < SUMMED; place++)
        if (block[place] != 0) return 11;
    return are_sound(block + 8, count) ? 0 : 12;
}

/* What is kept of a block, as block `number`: its refusal, or 0 and the block. It is kept if it is sound as
 * the block of the number that stands in it. */
static unsigned rescue_block(uint64_t number, const uint8_t *bytes, size_t length, uint8_t *block) {
    if (length < BLOCK) return 9;
    unsigned fault = check_block(u16_at(bytes), bytes, BLOCK);
    if (fault != 0) return fault;
    if (number >= BLOCKS) return 9;
    memmove(block, bytes, BLOCK);
    put_u16(block, (unsigned)number);
    put_sums(block);
    return 0;
}

/* What makes files. */

static uint64_t state;

static unsigned below(unsigned limit) {
    state ^= state << 13;
    state ^= state >> 7;
    state ^= state << 17;
    return (unsigned)((state >> 32) % limit);
}

static void put_records(long count, unsigned long seed, int is_heavy) {
    uint8_t r[RECORD];
    state = 0x9E3779B97F4A7C15u ^ (uint64_t)seed << 17;
    while (count-- > 0) {
        int is_large = is_heavy && below(8) > 0;
        r[0] = below(2);
        r[1] = is_large ? 3 + below(2) : below(5);
        r[2] = is_large ? 2 : below(3);
        r[3] = below(2);
        for (int f = 0; f < 2; f++) r[4 + f] = is_large ? 5 + below(4) : below(9);
        for (int k = 0; k < 16; k++) r[6 + k] = below(17);
        put_u16(r + 22, cost(r));
        put(r, RECORD);
    }
}

static void put_record(char **numbers, int count) {
    uint8_t r[RECORD];
    if (count != 22) wrong();
    for (int k = 0; k < count; k++) {
        long number = whole(numbers[k]);
        r[k] = (uint8_t)(number > 255 ? 255 : number);
    }
    if (!is_within_limits(r)) wrong();
    put_u16(r + 22, cost(r));
    put(r, RECORD);
}

/* The blocks of whole records, sound or not, from a number on; they hold as many as the counts say, in turn,
 * and 20 without any. */
static void put_blocks(uint64_t number, const uint8_t *records, size_t length, char **counts, int given) {
    uint8_t block[BLOCK];
    for (int k = 0; length >= RECORD; k++) {
        long most = given == 0 ? MOST : whole(counts[k % given]);
        if (most < 1 || most > MOST) wrong();
        size_t taken = RECORD * (size_t)most;
        if (taken > length) taken = length / RECORD * RECORD;
        make_block(number + k, records, taken, block);
        put(block, BLOCK);
        records += taken;
        length -= taken;
    }
}

static void put_changed(uint8_t *bytes, long length, long size, char **changes, int count) {
    for (int k = 0; k < count; k++) {
        long unit, place;
        unsigned value;
        char how, end;
        if (sscanf(changes[k], "%ld.%ld%c%u%c", &unit, &place, &how, &value, &end) == 4) {
            long at = unit * size + place;
            if (unit < 0 || place < 0 || place >= size || at >= length || value > 255) wrong();
            if (how != '=' && how != '+') wrong();
            bytes[at] = (uint8_t)(how == '=' ? value : bytes[at] + value);
        } else if (sscanf(changes[k], "%ld.sum%c%c", &unit, &how, &end) == 2 && how == 's') {
            if (size != BLOCK || unit < 0 || (unit + 1) * size > length) wrong();
            put_sums(bytes + unit * size);
        } else {
            wrong();
        }
    }
    put(bytes, (size_t)length);
}

/* Keeps what is sound of a file's blocks, at the start of its bytes, and reports; how many blocks that is. Of
 * more than there may be nothing is kept or reported. */
static size_t rescue_file(uint8_t *bytes, size_t length, FILE *report) {
    size_t blocks = length / BLOCK, kept = 0;
    for (size_t place = 0; place < blocks; place++) {
        const uint8_t *block = bytes + BLOCK * place;
        kept += check_block(u16_at(block), block, BLOCK) == 0;
    }
    if (kept > BLOCKS) return kept;
    kept = 0;
    for (size_t place = 0; place < blocks; place++) {
        const uint8_t *block = bytes + BLOCK * place;
        size_t old = u16_at(block);
        unsigned fault = rescue_block(kept, block, BLOCK, bytes + BLOCK * kept);
        if (fault != 0) {
            fprintf(report, "block %zu dropped %u\n", place, fault);
            continue;
        }
        if (old != kept) fprintf(report, "block %zu renumbered %zu to %zu\n", place, old, kept);
        kept++;
    }
    if (length % BLOCK > 0) fprintf(report, "%zu stray bytes\n", length % BLOCK);
    return kept;
}

static void rescue(uint8_t *bytes, size_t length, const char *mended) {
    size_t kept = rescue_file(bytes, length, stdout);
    if (kept > BLOCKS) exit(9);
    FILE *out = fopen(mended, "wb");
    if (out == NULL || fwrite(bytes, BLOCK, kept, out) != kept || fclose(out) != 0) exit(1);
    if (BLOCK * kept == length) return;
    size_t records = 0;
    for (size_t place = 0; place < kept; place++) records += bytes[BLOCK * place + 2];
    fprintf(stderr, "kept %zu of %zu blocks, %zu records\n", kept, length / BLOCK, records);
}

/* Questions and answers, for tests that ask thousands of times. A question is a letter, a number of 8 bytes, a
 * length of 4 and so many bytes:
 *
 *   n  nothing    so many sound records, of every kind
 *   c  a record   with the bits that it costs
 *   s  a block    with its sums made right
 *   b  records    the blocks that they are, sound or not, from this number on and with 20 in each
 *   w  records, r  a block, m  a block
 *                 what tns.h's tns_block_write, tns_block_read and tns_block_rescue must answer and write
 *   f  a file     what is kept of it, or the refusal
 *   l  a file     the report on it
 *
 * An answer is a refusal or 0, how many records were taken or which number there was, 2 bytes each, a length
 * of 4 and so many bytes. Numbers have their low byte first. */

static void say(unsigned refusal, size_t told, const void *bytes, size_t length) {
    uint8_t head[8];
    put_u16(head, refusal);
    put_u16(head + 2, (unsigned)told);
    put_u16(head + 4, (unsigned)length);
    put_u16(head + 6, (unsigned)(length >> 16));
    put(head, 8);
    if (bytes != NULL) put(bytes, length);
}

static void rescue_told(int is_report, uint8_t *bytes, size_t length) {
    char *lines;
    size_t told;
    FILE *report = open_memstream(&lines, &told);
    if (report == NULL) exit(1);
    size_t kept = rescue_file(bytes, length, report);
    if (fclose(report) != 0) exit(1);
    if (is_report) {
        say(0, 0, lines, told);
    } else {
        say(kept > BLOCKS ? 9 : 0, 0, bytes, kept > BLOCKS ? 0 : BLOCK * kept);
    }
    free(lines);
}

static void answer_one(int letter, uint64_t number, uint8_t *bytes, size_t length) {
    uint8_t block[BLOCK];
    unsigned refusal = 0;
    if (letter == 'n') {
        say(0, 0, NULL, RECORD * number);
        put_records((long)number, 0, 0);
    } else if (letter == 'c' && length == RECORD && is_within_limits(bytes)) {
        put_u16(bytes + 22, cost(bytes));
        say(0, 0, bytes, RECORD);
    } else if (letter == 's' && length == BLOCK) {
        put_sums(bytes);
        say(0, 0, bytes, BLOCK);
    } else if (letter == 'b' && length % RECORD == 0) {
        say(0, 0, NULL, (length + RECORDS - 1) / RECORDS * BLOCK);
        put_blocks(number, bytes, length, NULL, 0);
    } else if (letter == 'w') {
        refusal = write_block(number, bytes, length, block);
        size_t taken = refusal != 0 ? 0 : length < RECORDS ? length : RECORDS;
        say(refusal, taken / RECORD, block, taken > 0 ? BLOCK : 0);
    } else if (letter == 'r') {
        if (length > 0) refusal = check_block(number, bytes, length);
        size_t count = refusal != 0 || length == 0 ? 0 : bytes[2];
        say(refusal, count, count > 0 ? bytes + 8 : NULL, RECORD * count);
    } else if (letter == 'm') {
        refusal = rescue_block(number, bytes, length, block);
        say(refusal, refusal != 0 ? 0 : u16_at(bytes), block, refusal != 0 ? 0 : BLOCK);
    } else if (letter == 'f' || letter == 'l') {
        rescue_told(letter == 'l', bytes, length);
    } else {
        wrong();
    }
}

static void answer(void) {
    uint8_t head[13], *bytes = NULL;
    while (fread(head, 1, sizeof head, stdin) == sizeof head) {
        uint64_t number = 0;
        for (int k = 8; k > 0; k--) number = number << 8 | head[k];
        size_t length = u16_at(head + 9) | (size_t)u16_at(head + 11) << 16;
        bytes = realloc(bytes, length + 1);
        if (bytes == NULL || fread(bytes, 1, length, stdin) != length) exit(1);
        answer_one(head[0], number, bytes, length);
        if (fflush(stdout) != 0) exit(1);
    }
    free(bytes);
}

/* A plain reader and writer. */

static uint8_t input[PIECE], output[PIECE];
static size_t filled;
static int output_failed;

static void tell(const char *what) {
    ssize_t told = write(3, what, 1);
    (void)told;
}

static void fail(const char *what) {
    perror(what);
    tell("2");
}

static void flush(void) {
    for (size_t at = 0; at < filled && !output_failed;) {
        ssize_t count = write(1, output + at, filled - at);
        if (count < 0) {
            fail("tns: standard output");
            output_failed = 1;
        } else {
            at += (size_t)count;
        }
    }
    filled = 0;
}

static uint8_t *room_for(size_t count) {
    if (filled + count > PIECE) flush();
    return output + filled;
}

/* Takes one block of input, the last perhaps cut short: its refusal or 0. */
static unsigned take(int is_read, uint64_t number, const uint8_t *bytes, size_t length) {
    unsigned refusal;
    if (is_read) {
        refusal = check_block(number, bytes, length);
        if (refusal != 0) return refusal;
        size_t count = (size_t)RECORD * bytes[2];
        memcpy(room_for(count), bytes + 8, count);
        filled += count;
    } else {
        refusal = write_block(number, bytes, length, room_for(BLOCK));
        if (refusal != 0) return refusal;
        filled += BLOCK;
    }
    return 0;
}

/* Reads to the end, a failure or a refusal. Where input fails, the writer still has whole records. */
static void plain(int is_read) {
    size_t size = is_read ? BLOCK : RECORDS, held = 0;
    unsigned refusal = 0;
    uint64_t number = 0;
    while (refusal == 0 && !output_failed) {
        ssize_t got = read(0, input + held, PIECE - held);
        size_t at = 0;
        if (got < 0) {
            fail("tns: standard input");
            held = is_read ? 0 : held / RECORD * RECORD;
        }
        if (got <= 0) {
            if (held > 0) refusal = take(is_read, number, input, held);
            break;
        }
        held += (size_t)got;
        while (held - at >= size && refusal == 0) {
            refusal = take(is_read, number, input + at, size);
            at += size;
            number += refusal == 0;
        }
        held -= at;
        memmove(input, input + at, held);
    }
    flush();
    if (refusal != 0) {
        fprintf(stderr, "refused %u at block %llu\n", refusal, (unsigned long long)number);
        tell("1");
    }
}

int main(int count, char **given) {
    const char *word = count > 1 ? given[1] : "", *next = count > 2 ? given[2] : "";
    uint8_t *bytes = NULL;
    size_t length;
    if (!strcmp(word, "records") || !strcmp(word, "heavy")) {
        if (count < 3 || count > 4) wrong();
        put_records(whole(next), count == 4 ? whole(given[3]) : 0, *word == 'h');
    } else if (!strcmp(word, "record")) {
        put_record(given + 2, count - 2);
    } else if (!strcmp(word, "write")) {
        bytes = taken(&length);
        put_blocks(0, bytes, length, given + 2, count - 2);
    } else if (!strcmp(word, "change") && count > 2) {
        if (whole(next) == 0) wrong();
        bytes = taken(&length);
        put_changed(bytes, (long)length, whole(next), given + 3, count - 3);
    } else if (!strcmp(word, "rescue") && count == 3) {
        bytes = taken(&length);
        rescue(bytes, length, next);
    } else if (!strcmp(word, "plain") && count == 3 && (!strcmp(next, "read") || !strcmp(next, "write"))) {
        plain(*next == 'r');
    } else if (!strcmp(word, "answer") && count == 2) {
        answer();
    } else {
        wrong();
    }
    free(bytes);
    return fflush(stdout) == 0 ? 0 : 1;
}
