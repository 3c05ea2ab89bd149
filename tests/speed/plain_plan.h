/*
 * A plain C version of the planner of contexts, the baseline that the speed of
 * the product's is compared with.
 */
#ifndef PLAIN_PLAN_H
#define PLAIN_PLAN_H

#include <stddef.h>
#include <stdint.h>

enum { PLACES = 16, NO_PARENT = 255 };

/* The number of the plan; all sixteen places are written. */
uint8_t plain_plan(const uint8_t *parents, size_t count, uint16_t *contexts);

#endif
