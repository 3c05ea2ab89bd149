/*
 * Compares the speed of the least mask with a plain C version of it.
 *
 *   mask                                check both, time both, print a line
 *                                       for each sort of list
 *   mask names                          the sorts
 *   mask only plain|core SORT none|all  load the sort's image and ask for no
 *                                       list or for all, for counting
 *                                       instructions; prints how many pairs a
 *                                       list has, and how many lists
 *
 * What one list takes is what a load with all lists takes more than a load with
 * none, divided by the lists.
 */
#define _POSIX_C_SOURCE 199309L

#include "plain_mask.h"

#include <float.h>
#include <stdio.h>
#include <stdlib.h>
#include <string.h>
#include <time.h>

/* The core's, in the same form; tests/speed/mask.sh builds them. */
void core_least_masks(const uint8_t *image, size_t image_len,
                      const uint32_t *lists, size_t lists_len, size_t count,
                      uint32_t *answers, size_t asked);
uint32_t core_least_mask(const uint8_t *image, size_t image_len,
                         const uint32_t *pairs, size_t count);

enum {
    LISTS = 256,
    PAGES_OFFSET = 22,
    PROGRAM_BYTES = 5,
    IMAGE_MOST = 574,
    PLACES_MOST = 256,
    ALL_DOMAINS = 0xffff,
};

static uint8_t image[IMAGE_MOST];
static size_t image_length;
static uint32_t lists[LISTS * PAIRS_MOST];
static size_t places, count, asked;
static uint32_t state;

/* Numbers that are the same in every run. */
static uint32_t below(uint32_t bound)
{
    state = state * 1664525u + 1013904223u;
    return (state >> 16) % bound;
}

/* So many domains below a bound. */
static uint16_t domains(int wanted, uint32_t bound)
{
    uint16_t set = 0;
    while (wanted > 0) {
        uint16_t bit = (uint16_t)(1u << below(bound));
        wanted -= (set & bit) == 0;
        set |= bit;
    }
    return set;
}

static void put_high_first(uint8_t *bytes, size_t number)
{
    bytes[0] = (uint8_t)(number >> 8);
    bytes[1] = (uint8_t)number;
}

static void put_field(size_t place, uint16_t bits)
{
    put_high_first(image + PAGES_OFFSET + 2 * place, bits);
}

/* An image with all fields empty, and one program in user mode. */
static void start_image(size_t pages, uint16_t context)
{
    static const uint8_t front[PAGES_OFFSET] = {
        1, 0, 0, 18, 0, 4, 2, 0, 0, 22, 0, 0, 3, 0, 0, 0, 0, PROGRAM_BYTES,
        0, 5, 1, 0,
    };
    size_t program = PAGES_OFFSET + 4 * pages;
    places = 2 * pages;
    image_length = program + PROGRAM_BYTES;
    memset(image, 0, sizeof image);
    memcpy(image, front, sizeof front);
    put_high_first(image + 10, 4 * pages);
    put_high_first(image + 14, program);
    image[18] = (uint8_t)pages;
    put_high_first(image + program, context);
    put_high_first(image + program + 2, ALL_DOMAINS);
}

static uint32_t pair_at(size_t place)
{
    return (uint32_t)(place % 2 << 16 | place / 2);
}

/* Each list has the rights of the first pages, in their order. */
static void lists_in_order(void)
{
    for (size_t i = 0; i < asked * count; i++)
        lists[i] = pair_at(i % count);
}

/* Each list has other rights, of any pages. */
static void lists_of_any(void)
{
    for (size_t i = 0; i < asked * count; i++)
        lists[i] = pair_at(below((uint32_t)places));
}

/* The sample node of docs/IMAGES.md: what its program 0 may do of its pages. */
static void make_sample(void)
{
    static const uint8_t sample[] = {
        1, 0, 0, 18, 0, 4, 2, 0, 0, 22, 0, 12, 3, 0, 0, 34, 0, 10,
        3, 8, 2, 0,
        0, 9, 0, 0, 0, 10, 0, 2, 0, 12, 0, 4,
        0, 7, 0, 3, 0, 0, 8, 255, 255, 0,
    };
    static const uint32_t pairs[] = {0x00000, 0x00001, 0x10001};
    memcpy(image, sample, sizeof sample);
    image_length = sizeof sample;
    for (size_t i = 0; i < asked * count; i++)
        lists[i] = pairs[i % count];
}

static void make_few(void)
{
    start_image(128, 0x000f);
    for (size_t i = 0; i < places; i++)
        put_field(i, domains(2, 4));
    lists_of_any();
}

/* Of all lists of 64 pairs that a search found, this one costs the core most:
   20,595 turns of its recursion. One of 63 pairs can cost more, since these do
   not fill the last of the places that are asked at once. */
static void make_worst_core(void)
{
    static const uint16_t fields[PAIRS_MOST] = {
        0x28ec, 0x3c44, 0xa130, 0xbcac, 0x3244, 0x85e4, 0x6104, 0xdc08,
        0x68d0, 0x9e28, 0x0a84, 0x2368, 0x3a48, 0xf350, 0xae14, 0x7e0c,
        0x33a8, 0xaaf8, 0x15c8, 0x89c0, 0x8d28, 0x5160, 0xcc64, 0x7e60,
        0x8c68, 0xd384, 0xcb14, 0xd8a0, 0x2d38, 0x912c, 0xa680, 0xf510,
        0x8274, 0x1318, 0xa158, 0xca58, 0x2f60, 0x44a8, 0x26f0, 0x42b8,
        0xfb90, 0x0001, 0x0494, 0x303c, 0x39b0, 0x7458, 0x0790, 0xc04c,
        0xf2b4, 0x483c, 0x1898, 0x0e4c, 0x9650, 0xb070, 0x3a48, 0xf824,
        0xe208, 0x94e4, 0x4630, 0x26f0, 0x0002, 0x6f00, 0x1d04, 0xed98,
    };
    start_image(32, ALL_DOMAINS);
    for (size_t i = 0; i < places; i++)
        put_field(i, fields[i]);
    lists_in_order();
}

/* Of those that a search found, the dearest for plain C: nearly every mask
   meets all needs but the last few, and the first mask that will do is among
   the last ones. */
static void make_worst_plain(void)
{
    enum { LAST = 6 };
    start_image(32, ALL_DOMAINS);
    for (size_t i = 0; i < places; i++)
        put_field(i, i < places - LAST
                  ? ALL_DOMAINS
                  : (uint16_t)(0x8000 >> (i - (places - LAST))));
    lists_in_order();
}

static void make_random(void)
{
    start_image(128, ALL_DOMAINS);
    for (size_t i = 0; i < places; i++)
        put_field(i, domains(3, 16));
    lists_of_any();
}

/* No mask will do, as the last pair shows. */
static void make_refused(void)
{
    start_image(32, ALL_DOMAINS);
    for (size_t i = 0; i < places - 1; i++)
        put_field(i, domains(3, 16));
    lists_in_order();
}

static void make_empty(void)
{
    start_image(32, ALL_DOMAINS);
}

/* The dear sorts have few lists, the cheap ones are repeated. */
static const struct {
    const char *name;
    size_t count, lists;
    int reps;
    void (*make)(void);
} sorts[] = {
    {"sample", 3, LISTS, 100, make_sample},
    {"few", 8, LISTS, 100, make_few},
    {"random", PAIRS_MOST, LISTS, 1, make_random},
    {"worst-core", PAIRS_MOST, 16, 1, make_worst_core},
    {"worst-plain", PAIRS_MOST, 16, 1, make_worst_plain},
    {"refused", PAIRS_MOST, LISTS, 100, make_refused},
    {"empty", 0, LISTS, 100, make_empty},
};
enum { SORTS = sizeof sorts / sizeof *sorts };

static void make(size_t sort)
{
    state = 1;
    count = sorts[sort].count;
    asked = sorts[sort].lists;
    sorts[sort].make();
}

typedef void ask_function(size_t lists_asked, uint32_t *answers);

static void ask_plain(size_t lists_asked, uint32_t *answers)
{
    plain_least_masks(image, image_length, lists, count, answers, lists_asked);
}

static void ask_core(size_t lists_asked, uint32_t *answers)
{
    core_least_masks(image, image_length, lists, asked * count, count, answers,
                     lists_asked);
}

static int agree(size_t sort)
{
    uint32_t plain[LISTS] = {0}, core[LISTS] = {0};
    ask_plain(asked, plain);
    ask_core(asked, core);
    for (size_t i = 0; i < asked; i++) {
        uint32_t alone = core_least_mask(image, image_length, lists + i * count,
                                         count);
        if (plain[i] != core[i] || alone != core[i]) {
            fprintf(stderr, "%s: the two differ on list %zu\n",
                    sorts[sort].name, i);
            return 0;
        }
    }
    return 1;
}

/* The numbers that no sort has: not sound, too many pairs, bad pairs. */
static int refuse_alike(void)
{
    static const uint32_t bad[][2] = {
        {0x20000, 0x00003}, {0x00003, 0x20000}, {0x20003, 0}, {0, 0x1ffff},
    };
    static const uint32_t long_list[PAIRS_MOST + 1] = {0x20000};
    uint32_t plain;
    make(0);
    for (size_t i = 0; i < sizeof bad / sizeof *bad; i++) {
        plain_least_masks(image, image_length, bad[i], 2, &plain, 1);
        if (plain != core_least_mask(image, image_length, bad[i], 2))
            return 0;
    }
    for (size_t cut = 0; cut < 2; cut++) {
        plain_least_masks(image, image_length - cut, long_list, PAIRS_MOST + 1,
                          &plain, 1);
        if (plain != core_least_mask(image, image_length - cut, long_list,
                                     PAIRS_MOST + 1))
            return 0;
    }
    return 1;
}

static volatile uint32_t seen;

static double seconds_for(ask_function *ask, size_t lists_asked, int reps)
{
    uint32_t answers[LISTS] = {0};
    struct timespec from, to;
    clock_gettime(CLOCK_MONOTONIC, &from);
    for (int i = 0; i < reps; i++) {
        ask(lists_asked, answers);
        seen = answers[i % LISTS];
    }
    clock_gettime(CLOCK_MONOTONIC, &to);
    return ((double)(to.tv_sec - from.tv_sec)
            + (double)(to.tv_nsec - from.tv_nsec) * 1e-9) / reps;
}

static double lesser(double a, double b)
{
    return a < b ? a : b;
}

static int compare(void)
{
    enum { ROUNDS = 20 };
    if (!refuse_alike()) {
        fputs("the two refuse with other numbers\n", stderr);
        return 1;
    }
    printf("%-11s %5s %14s %14s %7s\n", "mask", "pairs", "plain ns", "core ns",
           "ratio");
    for (size_t sort = 0; sort < SORTS; sort++) {
        make(sort);
        if (!agree(sort))
            return 1;
        /* With no list and with all, each of the four in turn. */
        double plain[2] = {DBL_MAX, DBL_MAX}, core[2] = {DBL_MAX, DBL_MAX};
        for (int round = 0; round < ROUNDS; round++) {
            for (size_t all = 0; all < 2; all++) {
                size_t n = all * asked;
                int reps = sorts[sort].reps;
                plain[all] = lesser(plain[all],
                                    seconds_for(ask_plain, n, reps));
                core[all] = lesser(core[all], seconds_for(ask_core, n, reps));
            }
        }
        double plain_each = (plain[1] - plain[0]) / (double)asked;
        double core_each = (core[1] - core[0]) / (double)asked;
        printf("%-11s %5zu %14.1f %14.1f %7.4f\n", sorts[sort].name, count,
               plain_each * 1e9, core_each * 1e9, core_each / plain_each);
        fflush(stdout);
    }
    return 0;
}

/* The answers are used, so that neither side leaves out a load. */
static int only(ask_function *ask, size_t sort, size_t lists_asked)
{
    static uint32_t answers[LISTS];
    make(sort);
    ask(lists_asked, answers);
    seen = answers[0];
    printf("%zu %zu\n", count, asked);
    return 0;
}

int main(int argc, char **argv)
{
    if (argc == 1)
        return compare();
    if (argc == 2 && strcmp(argv[1], "names") == 0) {
        for (size_t sort = 0; sort < SORTS; sort++)
            puts(sorts[sort].name);
        return 0;
    }
    if (argc == 5 && strcmp(argv[1], "only") == 0) {
        int core = strcmp(argv[2], "core") == 0;
        int all = strcmp(argv[4], "all") == 0;
        if ((core || strcmp(argv[2], "plain") == 0)
            && (all || strcmp(argv[4], "none") == 0))
            for (size_t sort = 0; sort < SORTS; sort++)
                if (strcmp(argv[3], sorts[sort].name) == 0)
                    return only(core ? ask_core : ask_plain, sort,
                                all ? sorts[sort].lists : 0);
    }
    fputs("usage: mask | mask names | mask only plain|core SORT none|all\n",
          stderr);
    return 2;
}
