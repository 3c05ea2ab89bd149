/*
 * Compares the speed of the writer of images with a plain C version of it, on
 * an image of 574 bytes: 128 pages and eight programs.
 *
 *   write                               check both, time both, print a line
 *   write only plain|core TIMES REPS    so often: load the image, then write
 *                                       it TIMES times
 *
 * One writing is what a load with one writing takes more than a load with none,
 * so that no work is shared between two writings. The last form is for counting
 * instructions in the same way.
 */
#define _POSIX_C_SOURCE 199309L

#include "plain_write.h"

#include <float.h>
#include <stdio.h>
#include <stdlib.h>
#include <string.h>
#include <time.h>

enum { IMAGE = 574, PAGES = 128, PROGRAMS = 8, ROOM = 600, FILL = 0xA5 };

/* The core's writer, in the same form; tests/speed/write.sh builds it. */
uint32_t core_write_times(const uint8_t *image, size_t image_len, uint8_t *out,
                          size_t room, uint32_t times, size_t field);

static uint8_t image[IMAGE];
static uint8_t out[ROOM];

/* The contents and the shape by hand, then bytes that all differ from their neighbours. */
static void build(void)
{
    static const uint8_t front[] = {
        1, 0, 0, 18, 0, 4, 2, 0, 0, 22, 2, 0, 3, 0, 2, 22, 0, 40,
        PAGES, 9, PROGRAMS, 0,
    };
    memcpy(image, front, sizeof front);
    for (size_t i = sizeof front; i < IMAGE; i++)
        image[i] = (uint8_t)(i * 37 + i / 256);
    for (size_t i = 0; i < PROGRAMS; i++)
        image[22 + 4 * PAGES + 5 * i + 4] = i % 2;
}

typedef void write_function(uint32_t times);

static void write_plain(uint32_t times)
{
    size_t count;
    plain_write_times(image, IMAGE, out, ROOM, times, &count);
}

static void write_core(uint32_t times)
{
    core_write_times(image, IMAGE, out, ROOM, times, times);
}

/* A loaded machine is written as the image that it was loaded from. */
static int writes(const char *which, write_function *write)
{
    memset(out, FILL, ROOM);
    write(1);
    int same = memcmp(out, image, IMAGE) == 0;
    for (size_t i = IMAGE; i < ROOM; i++)
        same = same && out[i] == FILL;
    if (!same)
        fprintf(stderr, "%s: other bytes than the image's\n", which);
    return same;
}

static double seconds_for(write_function *write, uint32_t times)
{
    enum { REPS = 50000 };
    struct timespec from, to;
    clock_gettime(CLOCK_MONOTONIC, &from);
    for (int i = 0; i < REPS; i++)
        write(times);
    clock_gettime(CLOCK_MONOTONIC, &to);
    return ((double)(to.tv_sec - from.tv_sec)
            + (double)(to.tv_nsec - from.tv_nsec) * 1e-9) / REPS;
}

static double lesser(double a, double b)
{
    return a < b ? a : b;
}

static int compare(void)
{
    enum { ROUNDS = 40 };
    if (!writes("plain", write_plain) || !writes("core", write_core))
        return 1;
    /* The best of several rounds, each of the four in turn. */
    double plain[2] = {DBL_MAX, DBL_MAX}, core[2] = {DBL_MAX, DBL_MAX};
    for (int round = 0; round < ROUNDS; round++) {
        for (uint32_t times = 0; times < 2; times++) {
            plain[times] = lesser(plain[times], seconds_for(write_plain, times));
            core[times] = lesser(core[times], seconds_for(write_core, times));
        }
    }
    double plain_once = plain[1] - plain[0], core_once = core[1] - core[0];
    printf("%-8s %6s %14s %14s %7s\n", "writer", "bytes", "plain ns",
           "core ns", "ratio");
    printf("%-8s %6d %14.1f %14.1f %7.2f\n", "image", IMAGE, plain_once * 1e9,
           core_once * 1e9, core_once / plain_once);
    return 0;
}

int main(int argc, char **argv)
{
    build();
    if (argc == 1)
        return compare();
    if (argc == 5 && strcmp(argv[1], "only") == 0) {
        write_function *write = NULL;
        if (strcmp(argv[2], "plain") == 0)
            write = write_plain;
        else if (strcmp(argv[2], "core") == 0)
            write = write_core;
        uint32_t times = (uint32_t)strtoul(argv[3], NULL, 10);
        unsigned long reps = strtoul(argv[4], NULL, 10);
        if (write != NULL) {
            for (unsigned long i = 0; i < reps; i++)
                write(times);
            return 0;
        }
    }
    fputs("usage: write | write only plain|core TIMES REPS\n", stderr);
    return 2;
}
