/*
 * Compares the speed of the planner of contexts with a plain C version of it.
 *
 *   plan                            check both, time both, print a line for
 *                                   each sort of list
 *   plan names                      the sorts
 *   plan only plain|core SORT REPS  plan every list of a sort so often, for
 *                                   counting instructions; prints how many
 *                                   contexts a list has, and how many lists
 */
#define _POSIX_C_SOURCE 199309L

#include "plain_plan.h"

#include <float.h>
#include <stdio.h>
#include <stdlib.h>
#include <string.h>
#include <time.h>

/* The core's planner, in the same form; tests/speed/plan.sh builds it. */
uint8_t core_plan(const uint8_t *parents, size_t count, uint16_t *contexts,
                  size_t places);

enum { LISTS = 256 };

static uint8_t lists[LISTS][PLACES];
static size_t count;
static uint32_t state;

/* Numbers that are the same in every run. */
static uint32_t below(uint32_t bound)
{
    state = state * 1664525u + 1013904223u;
    return (state >> 16) % bound;
}

/* Each context, in an order that differs from list to list, has a parent that
   was placed before it, or none. */
static void forests(uint8_t *list)
{
    uint8_t order[PLACES] = {0};
    for (size_t i = 0; i < count; i++) {
        size_t at = below((uint32_t)i + 1);
        order[i] = order[at];
        order[at] = (uint8_t)i;
    }
    for (size_t i = 0; i < count; i++)
        list[order[i]] = i == 0 || below(8) == 0
            ? NO_PARENT
            : order[below((uint32_t)i)];
}

static void rings(uint8_t *list)
{
    for (size_t i = 0; i < count; i++)
        list[i] = i + 1 == count ? NO_PARENT : (uint8_t)(i + 1);
}

/* A forest in which the last two contexts are each other's parents. */
static void cycles(uint8_t *list)
{
    forests(list);
    list[count - 1] = (uint8_t)(count - 2);
    list[count - 2] = (uint8_t)(count - 1);
}

static const struct {
    const char *name;
    size_t count;
    void (*make)(uint8_t *list);
} sorts[] = {
    {"three", 3, rings},
    {"ring", PLACES, rings},
    {"forests", PLACES, forests},
    {"cycles", PLACES, cycles},
};
enum { SORTS = sizeof sorts / sizeof *sorts };

static void make(size_t sort)
{
    state = 1;
    count = sorts[sort].count;
    for (size_t i = 0; i < LISTS; i++)
        sorts[sort].make(lists[i]);
}

typedef uint8_t plan_function(const uint8_t *parents, uint16_t *contexts);

static uint8_t with_plain(const uint8_t *parents, uint16_t *contexts)
{
    return plain_plan(parents, count, contexts);
}

static uint8_t with_core(const uint8_t *parents, uint16_t *contexts)
{
    return core_plan(parents, count, contexts, PLACES);
}

static int agree(size_t sort)
{
    for (size_t i = 0; i < LISTS; i++) {
        uint16_t plain[PLACES], core[PLACES];
        if (with_plain(lists[i], plain) != with_core(lists[i], core)
            || memcmp(plain, core, sizeof plain) != 0) {
            fprintf(stderr, "%s: the two differ on list %zu\n",
                    sorts[sort].name, i);
            return 0;
        }
    }
    return 1;
}

static volatile uint16_t seen;

static void plan_all(plan_function *plan)
{
    uint16_t contexts[PLACES];
    for (size_t i = 0; i < LISTS; i++) {
        uint8_t number = plan(lists[i], contexts);
        seen = (uint16_t)(number + contexts[i % PLACES]);
    }
}

static double seconds_for(plan_function *plan)
{
    enum { REPS = 200 };
    struct timespec from, to;
    clock_gettime(CLOCK_MONOTONIC, &from);
    for (int i = 0; i < REPS; i++)
        plan_all(plan);
    clock_gettime(CLOCK_MONOTONIC, &to);
    return ((double)(to.tv_sec - from.tv_sec)
            + (double)(to.tv_nsec - from.tv_nsec) * 1e-9) / REPS / LISTS;
}

static double lesser(double a, double b)
{
    return a < b ? a : b;
}

static int compare(void)
{
    enum { ROUNDS = 20 };
    printf("%-8s %8s %14s %14s %7s\n", "planner", "contexts", "plain ns",
           "core ns", "ratio");
    for (size_t sort = 0; sort < SORTS; sort++) {
        make(sort);
        if (!agree(sort))
            return 1;
        double plain = DBL_MAX, core = DBL_MAX;
        for (int round = 0; round < ROUNDS; round++) {
            plain = lesser(plain, seconds_for(with_plain));
            core = lesser(core, seconds_for(with_core));
        }
        printf("%-8s %8zu %14.1f %14.1f %7.2f\n", sorts[sort].name, count,
               plain * 1e9, core * 1e9, core / plain);
    }
    return 0;
}

int main(int argc, char **argv)
{
    if (argc == 1)
        return compare();
    if (argc == 2 && strcmp(argv[1], "names") == 0) {
        for (size_t sort = 0; sort < SORTS; sort++)
            puts(sorts[sort].name);
        return 0;
    }
    if (argc == 5 && strcmp(argv[1], "only") == 0) {
        plan_function *plan = NULL;
        if (strcmp(argv[2], "plain") == 0)
            plan = with_plain;
        else if (strcmp(argv[2], "core") == 0)
            plan = with_core;
        unsigned long reps = strtoul(argv[4], NULL, 10);
        for (size_t sort = 0; plan != NULL && sort < SORTS; sort++) {
            if (strcmp(argv[3], sorts[sort].name) != 0)
                continue;
            make(sort);
            for (unsigned long i = 0; i < reps; i++)
                plan_all(plan);
            printf("%zu %d\n", count, LISTS);
            return 0;
        }
    }
    fputs("usage: plan | plan names | plan only plain|core SORT REPS\n", stderr);
    return 2;
}
