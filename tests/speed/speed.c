/*
 * Compares the speed of the bench function with a plain C version of it.
 *
 *   speed                               check both, time both, print a table
 *   speed names                         the names of the inputs, one a line
 *   speed only plain|bench NAME REPS    run one of them REPS times on an input
 *                                       and print the calls in one run
 *
 * The last form is for counting instructions: two runs that differ only in
 * REPS have the same set-up, so their difference is the calls alone.
 */
#define _POSIX_C_SOURCE 199309L

#include "bench.h"
#include "plain.h"

#include <errno.h>
#include <float.h>
#include <stdbool.h>
#include <stdio.h>
#include <stdlib.h>
#include <string.h>
#include <time.h>

enum {
    PAGES = 16,
    EXPONENT = 8,
    MEMORY = PAGES << EXPONENT,
    PROGRAMS = 4,
};

enum kind {
    ACCESS = 1,
    GRANT = 2,
    REVOKE = 3,
    MASK_COMMAND = 4,
    ENTRY = 5,
    RETURN = 6,
    SWITCH = 7,
    STORE_FIELD = 8,
    STORE_CONTEXT = 9,
    STORE_MASK = 10,
    STORE_MODE = 11,
    ASK_VIOLATION = 12,
    ACCESS_TWO = 13,
};

struct input {
    uint8_t bytes[BENCH_INPUT_MOST];
    size_t length;
    size_t calls;
};

/* xorshift, with a fixed seed: every run of this program has the same calls. */
static uint32_t generator;

static uint32_t below(uint32_t limit)
{
    generator ^= generator << 13;
    generator ^= generator >> 17;
    generator ^= generator << 5;
    return (generator >> 8) % limit;
}

static void put_byte(struct input *in, unsigned byte)
{
    in->bytes[in->length++] = (uint8_t)byte;
}

static void put_16(struct input *in, unsigned number)
{
    put_byte(in, number >> 8 & 0xFF);
    put_byte(in, number & 0xFF);
}

static void put_entry(struct input *in, unsigned kind, unsigned offset,
                      unsigned length)
{
    put_byte(in, kind);
    put_byte(in, 0);
    put_16(in, offset);
    put_16(in, length);
}

static bool has_room(const struct input *in)
{
    return in->length + 6 <= sizeof in->bytes;
}

/* A call that no longer fits is left out. */
static void put_call(struct input *in, unsigned kind, unsigned right,
                     unsigned a, unsigned b)
{
    if (!has_room(in))
        return;
    put_byte(in, kind);
    put_byte(in, right);
    put_16(in, a);
    put_16(in, b);
    in->calls++;
}

/* The domain that prevails on both rights to a page. */
static unsigned prevailing(unsigned page)
{
    return page % 4;
}

/*
 * Program 0 holds all prevailing domains, so whatever it asks is accepted.
 * Programs 1 and 2 hold some. Program 3 is stored in privileged mode.
 */
static void put_image(struct input *in, bool first_privileged)
{
    static const unsigned contexts[PROGRAMS] = {0x00FF, 0x0F0F, 0x0303, 0x000F};
    unsigned programs_offset = 22 + 4 * PAGES;

    in->length = 0;
    in->calls = 0;
    put_16(in, programs_offset + 5 * PROGRAMS);
    put_entry(in, 1, 18, 4);
    put_entry(in, 2, 22, 4 * PAGES);
    put_entry(in, 3, programs_offset, 5 * PROGRAMS);
    put_byte(in, PAGES);
    put_byte(in, EXPONENT);
    put_byte(in, PROGRAMS);
    put_byte(in, 0);
    for (unsigned page = 0; page < PAGES; page++) {
        put_16(in, 1u << prevailing(page) | 0x0F00);
        put_16(in, 1u << prevailing(page) | 0x0100);
    }
    for (unsigned program = 0; program < PROGRAMS; program++) {
        put_16(in, contexts[program]);
        put_16(in, 0xFFFF);
        put_byte(in, program == 0 ? first_privileged : program == 3);
    }
}

static void put_access(struct input *in)
{
    unsigned right = below(2); /* READ or WRITE */
    put_call(in, ACCESS, right, 0, below(MEMORY));
}

/* The last byte of memory has none after it. */
static void put_access_two(struct input *in)
{
    unsigned right = below(2);
    put_call(in, ACCESS_TWO, right, 0, below(MEMORY - 1));
}

static void put_command(struct input *in, unsigned kind)
{
    unsigned right = below(2);
    unsigned page = below(PAGES);
    put_call(in, kind, right, page, 4 + below(12));
}

static void put_field_store(struct input *in)
{
    unsigned right = below(2);
    unsigned page = below(PAGES);
    put_call(in, STORE_FIELD, right, page,
             1u << prevailing(page) | (below(0x1000) << 4));
}

/* The last byte of a page and the first of the next. */
static void put_access_across(struct input *in)
{
    unsigned right = below(2);
    unsigned page = 1 + below(PAGES - 1);
    put_call(in, ACCESS_TWO, right, 0, (page << EXPONENT) - 1);
}

/* User accesses; the last quarter, after one entry, privileged ones. */
static void build_accesses(struct input *in, void (*put)(struct input *in))
{
    put_image(in, false);
    while (in->length < sizeof in->bytes * 3 / 4)
        put(in);
    put_call(in, ENTRY, 0, 0, 0);
    while (has_room(in))
        put(in);
}

static void build_access(struct input *in)
{
    build_accesses(in, put_access);
}

/* About one in 256 is across an edge. */
static void build_access_two(struct input *in)
{
    build_accesses(in, put_access_two);
}

/* In turn, so that the time is the calls' own and not of wrong guesses. */
static void build_grant(struct input *in)
{
    put_image(in, false);
    while (has_room(in)) {
        put_command(in, GRANT);
        put_command(in, REVOKE);
    }
}

/* Masks with domain 0, which program 0's global context has. */
static void build_mask(struct input *in)
{
    put_image(in, false);
    while (has_room(in))
        put_call(in, MASK_COMMAND, 0, 0, below(0x10000) | 1);
}

static void build_entry(struct input *in)
{
    put_image(in, false);
    while (has_room(in)) {
        put_call(in, ENTRY, 0, 0, 0);
        put_call(in, RETURN, 0, 0, 0);
    }
}

static void build_switch(struct input *in)
{
    put_image(in, false);
    while (has_room(in)) {
        put_call(in, ENTRY, 0, 0, 0);
        put_call(in, SWITCH, 0, 0, below(PROGRAMS));
        put_call(in, RETURN, 0, 0, 0);
    }
}

/* The mode store keeps the mode, since the other stores need it. */
static void build_store(struct input *in)
{
    put_image(in, true);
    while (has_room(in)) {
        put_field_store(in);
        put_call(in, STORE_CONTEXT, 0, 0, below(0x10000));
        put_call(in, STORE_MASK, 0, 0, below(0x10000));
        put_call(in, STORE_MODE, 0, 0, 1);
    }
}

/* A call with nearly any arguments; most are refused. */
static void put_stray(struct input *in)
{
    unsigned kind = below(ACCESS_TWO + 1);
    unsigned right = below(3);
    unsigned a = below(PAGES + 4);
    unsigned b = below(20);
    /* User mode above depth 0 has no way back: it would end the mix. */
    if (kind == STORE_MODE && b == 0)
        b = 1;
    put_call(in, kind, right, a, b);
}

static void put_user_call(struct input *in)
{
    switch (below(12)) {
    case 0:
    case 1:
        put_command(in, GRANT);
        break;
    case 2:
    case 3:
        put_command(in, REVOKE);
        break;
    case 4:
        put_call(in, MASK_COMMAND, 0, 0, below(0x1000) << 4 | 0x000F);
        break;
    case 5:
        put_access_two(in);
        break;
    case 6:
        put_access_across(in);
        break;
    default:
        put_access(in);
        break;
    }
}

static void put_kernel_call(struct input *in)
{
    switch (below(6)) {
    case 0:
        put_field_store(in);
        break;
    case 1:
        put_call(in, STORE_CONTEXT, 0, 0, below(0x1000) << 4 | 0x000F);
        break;
    case 2:
        put_call(in, STORE_MASK, 0, 0, below(0x1000) << 4 | 0x000F);
        break;
    case 3:
        put_call(in, STORE_MODE, 0, 0, 1);
        break;
    default:
        put_access(in);
        break;
    }
}

/* Turns, with kernel calls between entry and return, and stray calls. */
static void build_mix(struct input *in)
{
    put_image(in, false);
    while (has_room(in)) {
        for (unsigned n = 2 + below(8); n > 0; n--)
            put_user_call(in);
        if (below(3) == 0)
            put_stray(in);
        if (below(50) == 0) {
            for (unsigned n = 0; n < 9; n++)
                put_call(in, ENTRY, 0, 0, 0);
            for (unsigned n = 0; n < 8; n++)
                put_call(in, RETURN, 0, 0, 0);
        }
        put_call(in, ENTRY, 0, 0, 0);
        for (unsigned n = below(4); n > 0; n--)
            put_kernel_call(in);
        put_call(in, SWITCH, 0, 0, below(PROGRAMS));
        put_call(in, RETURN, 0, 0, 0);
    }
}

struct workload {
    const char *name;
    void (*build)(struct input *in);
    bool all_accepted;
};

static const struct workload workloads[] = {
    {"access", build_access, true},
    {"access2", build_access_two, true},
    {"grant", build_grant, true},
    {"mask", build_mask, true},
    {"entry", build_entry, true},
    {"switch", build_switch, true},
    {"store", build_store, true},
    {"mix", build_mix, false},
};

enum { WORKLOADS = sizeof workloads / sizeof workloads[0] };

typedef size_t run_function(const uint8_t *, size_t, uint8_t *, size_t);

static struct input input;

/* Fills the input to the most bytes allowed; the last few are a remainder. */
static void build(const struct workload *w)
{
    generator = 20240229;
    w->build(&input);
    while (input.length < sizeof input.bytes)
        put_byte(&input, 0);
}

/* Both must agree, and the input must be of the kind its name says. */
static bool check(const struct workload *w)
{
    static uint8_t from_plain[BENCH_ANSWERS_MOST];
    static uint8_t from_bench[BENCH_ANSWERS_MOST];
    memset(from_plain, 0xA5, sizeof from_plain);
    memset(from_bench, 0xA5, sizeof from_bench);
    size_t plain_count = plain_run(input.bytes, input.length, from_plain,
                                   sizeof from_plain);
    size_t bench_count = bench_run(input.bytes, input.length, from_bench,
                                   sizeof from_bench);
    if (plain_count != bench_count) {
        printf("%s: plain counts %zu answers, bench %zu\n", w->name,
               plain_count, bench_count);
        return false;
    }
    for (size_t i = 0; i < sizeof from_plain; i++) {
        if (from_plain[i] != from_bench[i]) {
            printf("%s: answer %zu: plain %u, bench %u\n", w->name, i,
                   (unsigned)from_plain[i], (unsigned)from_bench[i]);
            return false;
        }
    }

    size_t accepted = 0;
    unsigned different = 0;
    bool seen[256] = {false};
    for (size_t i = 1; i < plain_count; i++) {
        accepted += from_plain[i] == 0;
        different += !seen[from_plain[i]];
        seen[from_plain[i]] = true;
    }
    bool as_named = plain_count == input.calls + 1
        && (w->all_accepted ? accepted == input.calls
                            : accepted > input.calls * 2 / 3 && different > 9);
    if (!as_named)
        printf("%s: not the input it is meant to be: %zu of %zu accepted, "
               "%u different answers\n", w->name, accepted, input.calls,
               different);
    else if (!w->all_accepted)
        printf("%s: %zu of %zu calls accepted, %u different answers\n\n",
               w->name, accepted, input.calls, different);
    return as_named;
}

static double seconds_now(void)
{
    struct timespec now;
    clock_gettime(CLOCK_MONOTONIC, &now);
    return (double)now.tv_sec + (double)now.tv_nsec * 1e-9;
}

static double seconds_for(run_function *run, unsigned long reps)
{
    static uint8_t answers[BENCH_ANSWERS_MOST];
    double start = seconds_now();
    for (unsigned long i = 0; i < reps; i++)
        run(input.bytes, input.length, answers, sizeof answers);
    return seconds_now() - start;
}

static const double ROUND_SECONDS = 0.04;
static const double WORKLOAD_SECONDS = 2.0;
enum { ROUNDS_LEAST = 3, ROUNDS_MOST = 20 };

/* As many repetitions as make one round long enough to be timed well. */
static unsigned long reps_for(run_function *run)
{
    unsigned long reps = 1;
    for (;;) {
        double seconds = seconds_for(run, reps);
        if (seconds >= ROUND_SECONDS / 4) {
            double wanted = (double)reps * ROUND_SECONDS / seconds;
            return wanted < 1 ? 1 : (unsigned long)wanted;
        }
        reps *= 2;
    }
}

/* The best of several rounds, the two in turn, in nanoseconds for a call. */
static void time_both(double *plain, double *bench)
{
    unsigned long plain_reps = reps_for(plain_run);
    unsigned long bench_reps = reps_for(bench_run);
    double start = seconds_now();
    *plain = DBL_MAX;
    *bench = DBL_MAX;
    for (int round = 0; round < ROUNDS_MOST; round++) {
        /* Each goes first in every other round. */
        for (int i = 0; i < 2; i++) {
            bool is_plain = (round + i) % 2 == 0;
            unsigned long reps = is_plain ? plain_reps : bench_reps;
            double *best = is_plain ? plain : bench;
            double once = seconds_for(is_plain ? plain_run : bench_run, reps)
                / (double)reps;
            if (once < *best)
                *best = once;
        }
        if (round + 1 >= ROUNDS_LEAST
            && seconds_now() - start > WORKLOAD_SECONDS)
            break;
    }
    *plain *= 1e9 / (double)input.calls;
    *bench *= 1e9 / (double)input.calls;
}

static int compare(void)
{
    for (size_t i = 0; i < WORKLOADS; i++) {
        build(&workloads[i]);
        if (!check(&workloads[i]))
            return 1;
    }
    printf("%-8s %6s %14s %14s %7s\n", "input", "calls", "plain ns/call",
           "bench ns/call", "ratio");
    for (size_t i = 0; i < WORKLOADS; i++) {
        double plain, bench;
        build(&workloads[i]);
        time_both(&plain, &bench);
        printf("%-8s %6zu %14.2f %14.2f %7.2f\n", workloads[i].name,
               input.calls, plain, bench, bench / plain);
        fflush(stdout);
    }
    return 0;
}

static int usage(void)
{
    fputs("usage: speed | speed names | speed only plain|bench NAME REPS\n",
          stderr);
    return 2;
}

static int run_only(const char *which, const char *name, const char *reps_text)
{
    run_function *run;
    if (strcmp(which, "plain") == 0)
        run = plain_run;
    else if (strcmp(which, "bench") == 0)
        run = bench_run;
    else
        return usage();

    char *end;
    errno = 0;
    unsigned long reps = strtoul(reps_text, &end, 10);
    if (end == reps_text || *end != '\0' || errno != 0)
        return usage();

    for (size_t i = 0; i < WORKLOADS; i++) {
        if (strcmp(workloads[i].name, name) == 0) {
            build(&workloads[i]);
            seconds_for(run, reps);
            printf("%zu\n", input.calls);
            return 0;
        }
    }
    return usage();
}

int main(int argc, char **argv)
{
    if (argc == 1)
        return compare();
    if (argc == 2 && strcmp(argv[1], "names") == 0) {
        for (size_t i = 0; i < WORKLOADS; i++)
            puts(workloads[i].name);
        return 0;
    }
    if (argc == 5 && strcmp(argv[1], "only") == 0)
        return run_only(argv[2], argv[3], argv[4]);
    return usage();
}
