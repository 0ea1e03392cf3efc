/* Calls the port's three functions on blocks (docs/RULES.md, "Block files (C-11)" and "Rescue (C-16)") for
 * port.py, one call for each request on standard input, and writes an answer for each to standard output:
 *
 *   request  a byte, r to read, w to write or m to rescue; the number, 8 bytes; a length, 4 bytes; as many
 *            bytes
 *   answer   the refusal, and how many records or after m the old number, 2 bytes each; a byte that is 0 if
 *            nothing was written but what is lent; the lent buffer as it is afterwards, of 480 bytes after r
 *            and of 512 else
 *
 * Numbers have their low byte first. Before a call byte i of what is lent is 7i + 165, modulo 256. Input
 * ends where the memory that can be read ends, so that a call that reads on is ended by a signal.
 *
 * Assumes Linux, a machine of the low byte first, and the port's static library. Status 0, or 1 if a
 * request is cut short, there is no memory or an answer cannot be written.
 */
#define _DEFAULT_SOURCE
#include <stdint.h>
#include <stdio.h>
#include <stdlib.h>
#include <string.h>
#include <sys/mman.h>

#include "tns.h"

enum { LARGEST = 16384, GUARDS = 17, BEYOND = 0xA5 };

static uint8_t request[LARGEST], lent[GUARDS + 512 + GUARDS];

static void end(const char *why) {
    fprintf(stderr, "blocks: %s\n", why);
    exit(1);
}

static void take(void *bytes, size_t count) {
    if (fread(bytes, 1, count, stdin) != count) end("a request is cut short");
}

int main(void) {
    /* A page that nobody may read follows the input. */
    uint8_t *memory = mmap(NULL, 2 * LARGEST, PROT_READ | PROT_WRITE, MAP_PRIVATE | MAP_ANONYMOUS, -1, 0);
    if (memory == MAP_FAILED || mprotect(memory + LARGEST, LARGEST, PROT_NONE) != 0) end("no memory");
    for (int word; (word = getchar()) != EOF;) {
        uint64_t number;
        uint32_t length;
        uint16_t refusal, told;
        size_t size = word == 'r' ? 480 : 512;
        take(&number, sizeof number);
        take(&length, sizeof length);
        if (length > LARGEST) end("a request is too long");
        take(request, length);
        uint8_t *input = memory + LARGEST - length;
        memcpy(input, request, length);
        memset(lent, BEYOND, sizeof lent);
        for (size_t i = 0; i < size; i++) lent[GUARDS + i] = (uint8_t)(7 * i + 165);
        if (word == 'm') {
            tns_rescue_answer answer = tns_block_rescue(number, input, length, lent + GUARDS);
            refusal = answer.refusal, told = answer.number;
        } else {
            tns_block_answer answer = word == 'r' ? tns_block_read(number, input, length, lent + GUARDS)
                                                  : tns_block_write(number, input, length, lent + GUARDS);
            refusal = answer.refusal, told = answer.records;
        }
        uint8_t wrote = memcmp(input, request, length) != 0;
        for (size_t i = 0; i < GUARDS; i++)
            wrote |= lent[i] != BEYOND || lent[GUARDS + size + i] != BEYOND;
        fwrite(&refusal, 2, 1, stdout);
        fwrite(&told, 2, 1, stdout);
        fwrite(&wrote, 1, 1, stdout);
        fwrite(lent + GUARDS, 1, size, stdout);
    }
    /* A write that failed before may leave nothing to flush. */
    if (fflush(stdout) != 0 || ferror(stdout)) end("cannot write");
    return 0;
}
