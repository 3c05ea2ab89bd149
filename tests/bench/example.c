/*
 * A complete use of the bench function: the sample node (RULES 5.12, 6.11).
 *
 * Build: gcc -std=c11 -I include tests/bench/example.c LIB_DIR/librun.a
 */
#include "bench.h"

#include <stdio.h>

/* A call's record of 6 bytes; A and B have the high byte first. */
#define CALL(kind, right, a, b) \
    (kind), (right), (a) >> 8, (a) & 0xFF, (b) >> 8, (b) & 0xFF

static const uint8_t input[] = {
    0x00, 0x2C, /* the image has 44 bytes */

    /* Table of contents: kind, zero, offset, length. */
    0x01, 0x00, 0x00, 0x12, 0x00, 0x04, 0x02, 0x00, 0x00, 0x16, 0x00, 0x0C,
    0x03, 0x00, 0x00, 0x22, 0x00, 0x0A,
    /* Shape: 3 pages of 2 to the 8 bytes, 2 programs. */
    0x03, 0x08, 0x02, 0x00,
    /* Pages: READ and WRITE fields of each. */
    0x00, 0x09, 0x00, 0x00, 0x00, 0x0A, 0x00, 0x02, 0x00, 0x0C, 0x00, 0x04,
    /* Programs: global context, mask, mode. */
    0x00, 0x07, 0x00, 0x03, 0x00, 0x00, 0x08, 0xFF, 0xFF, 0x00,

    /* Calls 1 to 8: two reads, a mask command, a turn of program 1 with a read
       and a write. */
    CALL(BENCH_KIND_ACCESS, BENCH_RIGHT_READ, 0, 0x0010),
    CALL(BENCH_KIND_ACCESS, BENCH_RIGHT_READ, 0, 0x0200),
    CALL(BENCH_KIND_MASK, 0, 0, 0x0007),
    CALL(BENCH_KIND_ENTRY, 0, 0, 0),
    CALL(BENCH_KIND_SWITCH, 0, 0, 1),
    CALL(BENCH_KIND_RETURN, 0, 0, 0),
    CALL(BENCH_KIND_ACCESS, BENCH_RIGHT_READ, 0, 0x0200),
    CALL(BENCH_KIND_ACCESS, BENCH_RIGHT_WRITE, 0, 0x0000),
};

int main(void)
{
    uint8_t answers[BENCH_ANSWERS_MOST];
    size_t count = bench_run(input, sizeof input, answers, sizeof answers);

    if (count == 0) {
        fputs("the input is too long or the buffer too short\n", stderr);
        return 1;
    }
    printf("load %u\n", (unsigned)answers[0]);
    for (size_t i = 1; i < count; i++)
        printf("%zu %u\n", i, (unsigned)answers[i]);
    return 0;
}
