/* Rescuing a narration of 125 frames from a failing card; here the file is an array. One byte of the file
 * has changed, one block is all zeros, one record has order 9 under a correct checksum, and the end of the
 * file is missing. The program rescues the sound blocks one at a time, and the reader accepts the mended
 * file. A second rescue changes nothing. Last, one block too many is refused. */
#include <stdio.h>
#include <string.h>

#include "tns.h"

enum { FRAMES = 125, BLOCKS = 7, STRAY = 17, MOST_BLOCKS = 65536 };
enum { FULL = TNS_BLOCK_CAPACITY * TNS_RECORD_SIZE }; /* the bytes of a full block's records */

/* The record of one filter of order 1 with this index, weighted, at 10 ms and full band. */
static void make_record(uint8_t index, uint8_t record[TNS_RECORD_SIZE])
{
    const uint8_t side[] = {0, 4, 1, 1, 1, 0, index, 8, 8, 8, 8, 8, 8, 8, 8, 8, 8, 8, 8, 8, 8, 8};
    memcpy(record, side, sizeof side);
    tns_answer cost = tns_cost(record[3], record[2], record + 4, 2, record + 6, 16);
    record[22] = (uint8_t)cost.bits;
    record[23] = (uint8_t)(cost.bits >> 8);
}

/* Writes the correct checksum of a block, whatever it holds, as a faulty script could. */
static void seal(uint8_t block[TNS_BLOCK_SIZE])
{
    uint32_t plain = 0, weighted = 0; /* at most 508 * 255 and 508 * 509 / 2 * 255 */
    for (uint32_t place = 0; place < 508; place++) {
        plain += block[place];
        weighted += (508 - place) * block[place];
    }
    plain %= 65521;
    weighted %= 65521;
    block[508] = (uint8_t)plain;
    block[509] = (uint8_t)(plain >> 8);
    block[510] = (uint8_t)weighted;
    block[511] = (uint8_t)(weighted >> 8);
}

/* Rescues a file into a mended one, which has room for as many blocks, and prints the report. Gives the
 * mended file's length and the number of lines in the report. Refuses too many blocks to keep before it
 * writes or prints anything. */
static size_t rescue_file(const uint8_t *file, size_t len, uint8_t *mended, int *lines, int *refusal)
{
    size_t whole = len - len % TNS_BLOCK_SIZE, to_keep = 0, kept = 0;
    *lines = 0;
    *refusal = TNS_ACCEPTED;
    for (size_t at = 0; at < whole; at += TNS_BLOCK_SIZE) {
        uint8_t block[TNS_BLOCK_SIZE];
        if (tns_block_rescue(0, file + at, TNS_BLOCK_SIZE, block).refusal == TNS_ACCEPTED)
            to_keep++;
    }
    if (to_keep > MOST_BLOCKS) {
        *refusal = TNS_BLOCK_LENGTH;
        return 0;
    }
    for (size_t at = 0; at < whole; at += TNS_BLOCK_SIZE) {
        int place = (int)(at / TNS_BLOCK_SIZE);
        uint8_t *block = mended + kept * TNS_BLOCK_SIZE;
        tns_rescue_answer a = tns_block_rescue(kept, file + at, TNS_BLOCK_SIZE, block);
        if (a.refusal) {
            printf("block %d dropped %d\n", place, a.refusal);
            ++*lines;
            continue;
        }
        if (a.number != kept) {
            printf("block %d renumbered %d to %d\n", place, a.number, (int)kept);
            ++*lines;
        }
        kept++;
    }
    if (len > whole) {
        printf("%d stray bytes\n", (int)(len - whole));
        ++*lines;
    }
    return kept * TNS_BLOCK_SIZE;
}

/* Reads a file to its end, or to the first refused block. Gives how many records it read. The list has
 * room for the records of one more full block. */
static int read_file(const uint8_t *file, size_t len, uint8_t *records, int *refusal)
{
    int count = 0;
    for (uint64_t number = 0;; number++) {
        tns_block_answer a = tns_block_read(number, file, len, records + count * TNS_RECORD_SIZE);
        *refusal = a.refusal;
        if (a.records == 0) /* refused, or the end */
            return count;
        count += a.records;
        file += TNS_BLOCK_SIZE;
        len -= TNS_BLOCK_SIZE;
    }
}

int main(void)
{
    uint8_t records[FRAMES * TNS_RECORD_SIZE], found[(BLOCKS + 1) * FULL];
    uint8_t file[BLOCKS * TNS_BLOCK_SIZE], mended[sizeof file], again[sizeof file];
    int lines, refusal, count, bad = 0;
    for (int i = 0; i < FRAMES; i++)
        make_record((uint8_t)(i % 17), records + i * TNS_RECORD_SIZE);
    for (size_t n = 0; n < BLOCKS; n++) {
        uint8_t *block = file + n * TNS_BLOCK_SIZE;
        bad += tns_block_write(n, records + n * FULL, sizeof records - n * FULL, block).refusal != 0;
    }

    file[1 * TNS_BLOCK_SIZE + 100] ^= 1;                  /* block 1: a byte changes */
    memset(file + 3 * TNS_BLOCK_SIZE, 0, TNS_BLOCK_SIZE); /* block 3: a hole */
    file[4 * TNS_BLOCK_SIZE + 8 + 4] = 9;                 /* block 4: order 9 in its first record */
    seal(file + 4 * TNS_BLOCK_SIZE);
    const size_t len = 6 * TNS_BLOCK_SIZE + STRAY;        /* block 6: only its first bytes are left */
    count = read_file(file, len, found, &refusal);
    printf("damaged: %d records read, then refused %d\n", count, refusal);
    bad += count != 20 || refusal != TNS_BLOCK_SUMS;

    size_t mended_len = rescue_file(file, len, mended, &lines, &refusal);
    bad += refusal != TNS_ACCEPTED || lines != 6 || mended_len != 3 * TNS_BLOCK_SIZE;

    const size_t kept[] = {0, 2, 5};
    int wrong = 0;
    count = read_file(mended, mended_len, found, &refusal);
    for (size_t i = 0; i < 3 * TNS_BLOCK_CAPACITY; i++) {
        size_t frame = kept[i / TNS_BLOCK_CAPACITY] * TNS_BLOCK_CAPACITY + i % TNS_BLOCK_CAPACITY;
        wrong += memcmp(found + i * TNS_RECORD_SIZE, records + frame * TNS_RECORD_SIZE,
                        TNS_RECORD_SIZE) != 0;
    }
    printf("mended: %d records read, %d of them changed\n", count, wrong);
    bad += refusal != TNS_ACCEPTED || count != 60 || wrong != 0;

    size_t again_len = rescue_file(mended, mended_len, again, &lines, &refusal);
    int changed = again_len != mended_len || memcmp(again, mended, mended_len) != 0;
    printf("rescued again: %d entries; the file %s\n", lines, changed ? "changes" : "stays as it is");
    bad += refusal != TNS_ACCEPTED || lines != 0 || changed;

    tns_rescue_answer a = tns_block_rescue(MOST_BLOCKS, mended, mended_len, again);
    printf("a block too many: refused %d\n", a.refusal);
    bad += a.refusal != TNS_BLOCK_LENGTH;
    return bad != 0;
}
