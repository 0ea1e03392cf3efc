/* A narration of 41 frames in a file of blocks; here the file is an array. The program writes it and reads
 * it back, one block at a time. Then it changes one byte, and the reader names the damaged block. Then it
 * cuts the file short. Last, one record claims one bit too many, and its block is not written. */
#include <stdio.h>
#include <string.h>

#include "tns.h"

enum { FRAMES = 41, BLOCKS = 3 };

/* The record of one filter of order 1 with this index, weighted, at 10 ms and full band. */
static void make_record(uint8_t index, uint8_t record[TNS_RECORD_SIZE])
{
    const uint8_t side[] = {0, 4, 1, 1, 1, 0, index, 8, 8, 8, 8, 8, 8, 8, 8, 8, 8, 8, 8, 8, 8, 8};
    memcpy(record, side, sizeof side);
    tns_answer cost = tns_cost(record[3], record[2], record + 4, 2, record + 6, 16);
    record[22] = (uint8_t)cost.bits;
    record[23] = (uint8_t)(cost.bits >> 8);
}

/* Writes all records, or those before the first refused block. Gives the file's length. */
static size_t write_file(const uint8_t *records, size_t len, uint8_t *file, int *refusal)
{
    size_t number = 0;
    *refusal = TNS_ACCEPTED;
    for (; len > 0; number++) {
        tns_block_answer a = tns_block_write(number, records, len, file + number * TNS_BLOCK_SIZE);
        if (a.refusal) {
            printf("refused %d at block %d; ", a.refusal, (int)number);
            *refusal = a.refusal;
            break;
        }
        records += a.records * TNS_RECORD_SIZE;
        len -= (size_t)a.records * TNS_RECORD_SIZE;
    }
    return number * TNS_BLOCK_SIZE;
}

/* Reads a file to its end, or to the first refused block. Gives how many records it read, and counts those
 * that differ from what was written. */
static int read_file(const uint8_t *file, size_t len, const uint8_t *records, int *refusal, int *wrong)
{
    uint8_t found[TNS_BLOCK_CAPACITY * TNS_RECORD_SIZE];
    int count = 0;
    *wrong = 0;
    for (uint64_t number = 0;; number++) {
        tns_block_answer a = tns_block_read(number, file, len, found);
        *refusal = a.refusal;
        if (a.refusal)
            printf("refused %d at block %d; ", a.refusal, (int)number);
        if (a.records == 0) { /* refused, or the end */
            printf("%d records read, %d of them changed\n", count, *wrong);
            return count;
        }
        for (int i = 0; i < a.records; i++, count++)
            *wrong += memcmp(found + i * TNS_RECORD_SIZE, records + count * TNS_RECORD_SIZE,
                             TNS_RECORD_SIZE) != 0;
        file += TNS_BLOCK_SIZE;
        len -= TNS_BLOCK_SIZE;
    }
}

int main(void)
{
    uint8_t records[FRAMES * TNS_RECORD_SIZE], file[BLOCKS * TNS_BLOCK_SIZE];
    int refusal, wrong, bad = 0;
    for (int i = 0; i < FRAMES; i++)
        make_record((uint8_t)(i % 17), records + i * TNS_RECORD_SIZE);

    size_t len = write_file(records, sizeof records, file, &refusal);
    bad += refusal != TNS_ACCEPTED || len != sizeof file;
    printf("%d records take %d bytes\n", FRAMES, (int)len);
    int count = read_file(file, len, records, &refusal, &wrong);
    bad += refusal != TNS_ACCEPTED || count != FRAMES || wrong != 0;

    uint8_t *byte = file + TNS_BLOCK_SIZE + 100; /* of the second block */
    *byte ^= 1;
    count = read_file(file, len, records, &refusal, &wrong);
    bad += refusal != TNS_BLOCK_SUMS || count != 20 || wrong != 0;
    *byte ^= 1;

    count = read_file(file, len - 1, records, &refusal, &wrong);
    bad += refusal != TNS_BLOCK_LENGTH || count != 40 || wrong != 0;

    records[sizeof records - 2]++; /* the last record's bits */
    len = write_file(records, sizeof records, file, &refusal);
    printf("%d bytes written\n", (int)len);
    bad += refusal != TNS_BLOCK_RECORD || len != 2 * TNS_BLOCK_SIZE;
    return bad != 0;
}
