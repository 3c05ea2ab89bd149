/*
 * Compares the speed of the rights over a site with a plain C version.
 *
 *   rights                               check both, time both, print a line
 *                                        for each sort of site
 *   rights names                         the sorts
 *   rights only plain|core|none SORT     make the site and count it so many
 *                                        times, or not at all, for counting
 *                                        instructions; prints bytes and times
 */
#define _POSIX_C_SOURCE 199309L

#include "plain_rights.h"

#include <float.h>
#include <stdio.h>
#include <stdlib.h>
#include <string.h>
#include <time.h>

/* The core's, in the same form; tests/speed/rights.sh builds it. */
uint32_t core_count_rights(const uint8_t *input, size_t length, uint32_t *sums,
                           size_t places);

enum { MOST = 32768, ROUNDS = 20, TIMES = 8 };

static uint8_t input[MOST];
static size_t length;
static uint32_t state;

/* Numbers that are the same in every run. */
static uint32_t next_word(void)
{
    state = state * 1664525u + 1013904223u;
    return state >> 16;
}

static void put_word(size_t at, unsigned number)
{
    input[at] = (uint8_t)(number >> 8);
    input[at + 1] = (uint8_t)number;
}

/* One more image of so many pages and one program, its fields at random. */
static int put_image(unsigned pages)
{
    static const uint8_t front[] = {1, 0, 0, 18, 0, 4, 2, 0, 0, 22, 0, 0, 3, 0, 0, 0, 0, 5};
    size_t size = 22 + 4 * pages + 5, at = length + 2;
    if (at + size > MOST)
        return 0;
    put_word(length, (unsigned)size);
    memset(input + at, 0, size);
    memcpy(input + at, front, sizeof front);
    put_word(at + 10, 4 * pages);
    put_word(at + 14, 22 + 4 * pages);
    input[at + 18] = (uint8_t)pages;
    input[at + 19] = 5;
    input[at + 20] = 1;
    for (unsigned place = 0; place < 2 * pages; place++)
        put_word(at + 22 + 2 * place, next_word() & 0xffff);
    length = at + size;
    return 1;
}

static const char *const sorts[] = {"three", "large", "small", "refused"};
enum { SORTS = sizeof sorts / sizeof sorts[0] };

/* An image of three pages; as many images of 128 pages as there is room for, or of one page; empty images. */
static void make(const char *sort)
{
    state = 1;
    length = 0;
    if (strcmp(sort, "three") == 0)
        put_image(3);
    else if (strcmp(sort, "large") == 0)
        while (put_image(128))
            ;
    else if (strcmp(sort, "small") == 0)
        while (put_image(1))
            ;
    else {
        memset(input, 0, MOST);
        length = MOST;
    }
}

static uint32_t count(const char *which, uint32_t *sums)
{
    if (strcmp(which, "plain") == 0)
        return plain_count_rights(input, length, sums);
    return core_count_rights(input, length, sums, 2 * COLUMN);
}

static double timed(const char *which, int times)
{
    uint32_t sums[2 * COLUMN];
    double best = DBL_MAX;
    for (int round = 0; round < ROUNDS; round++) {
        struct timespec from, to;
        clock_gettime(CLOCK_MONOTONIC, &from);
        for (int i = 0; i < times; i++)
            count(which, sums);
        clock_gettime(CLOCK_MONOTONIC, &to);
        double ns = (to.tv_sec - from.tv_sec) * 1e9 + (to.tv_nsec - from.tv_nsec);
        if (ns < best)
            best = ns;
    }
    return best / times;
}

static void agree(const char *sort)
{
    uint32_t plain[2 * COLUMN], core[2 * COLUMN];
    if (count("plain", plain) != count("core", core) || memcmp(plain, core, sizeof plain) != 0) {
        fprintf(stderr, "the two differ on the site '%s'\n", sort);
        exit(1);
    }
}

int main(int argc, char **argv)
{
    if (argc == 2 && strcmp(argv[1], "names") == 0) {
        for (int i = 0; i < SORTS; i++)
            puts(sorts[i]);
        return 0;
    }
    if (argc == 4 && strcmp(argv[1], "only") == 0) {
        uint32_t sums[2 * COLUMN];
        make(argv[3]);
        for (int i = 0; strcmp(argv[2], "none") != 0 && i < TIMES; i++)
            count(argv[2], sums);
        printf("%zu %d\n", length, TIMES);
        return 0;
    }
    printf("%-8s %6s %12s %12s %7s\n", "rights", "bytes", "plain ns", "core ns", "ratio");
    for (int i = 0; i < SORTS; i++) {
        make(sorts[i]);
        agree(sorts[i]);
        int times = length < 1000 ? 10000 : 100;
        double plain = timed("plain", times), core = timed("core", times);
        printf("%-8s %6zu %12.1f %12.1f %7.3f\n", sorts[i], length, plain, core, core / plain);
    }
    return 0;
}
