/*
 * How much stack a call of the bench function takes.
 *
 * The call is made on a stack of its own that holds one byte everywhere; what
 * was taken reaches from the caller's frame down to the last byte that has
 * changed. It is made twice, since in the first call the system may look up
 * memcpy and memset on the same stack. This program calls neither before.
 *
 * Input: what the function is to run. Output: the bytes of both calls. The exit
 * status is 1 if one took more than BENCH_STACK_ENOUGH.
 *
 * Build: gcc -std=c11 -O2 -I include tests/bench/stack.c LIB_DIR/librun.a
 *
 * A memory checker would take the look at a stack that is no longer in use for
 * a fault, so this is not part of bench_test.c.
 */
#define _XOPEN_SOURCE 700

#include "bench.h"

#include <stdio.h>
#include <stdlib.h>
#include <ucontext.h>

enum { STACK_BYTES = 65536, FILLING = 0xA5 };

/* Volatile, so that no compiler makes a call of memset of the filling. */
static volatile uint8_t stack[STACK_BYTES];
static uint8_t input[BENCH_INPUT_MOST];
static uint8_t answers[BENCH_ANSWERS_MOST];
static size_t input_len, count;
static uint8_t *caller;
static ucontext_t before, measured;

static void call(void)
{
    caller = __builtin_frame_address(0);
    count = bench_run(input, input_len, answers, sizeof answers);
}

static size_t taken(void)
{
    for (size_t i = 0; i < STACK_BYTES; i++)
        stack[i] = FILLING;
    getcontext(&measured);
    measured.uc_stack.ss_sp = (uint8_t *)stack;
    measured.uc_stack.ss_size = STACK_BYTES;
    measured.uc_link = &before;
    makecontext(&measured, call, 0);
    if (swapcontext(&before, &measured) != 0)
        exit(2);
    size_t last = 0;
    while (last < STACK_BYTES && stack[last] == FILLING)
        last++;
    return (size_t)(caller - (uint8_t *)stack) - last;
}

int main(void)
{
    input_len = fread(input, 1, sizeof input, stdin);
    size_t first = taken();
    size_t second = taken();
    printf("stack: %zu bytes in the first call, %zu in the second; "
           "%zu answers\n", first, second, count);
    return first > BENCH_STACK_ENOUGH || second > BENCH_STACK_ENOUGH;
}
