/* The planner in plain C: from each context the way up, parent by parent. */
#include "plain_plan.h"

#include <string.h>

uint8_t plain_plan(const uint8_t *parents, size_t count, uint16_t *contexts)
{
    memset(contexts, 0, PLACES * sizeof *contexts);
    if (count == 0 || count > PLACES)
        return 30;
    for (size_t k = 0; k < count; k++)
        if (parents[k] != NO_PARENT && parents[k] >= count)
            return 31;
    for (size_t k = 0; k < count; k++) {
        uint16_t bit = (uint16_t)(1u << k);
        size_t at = k;
        for (size_t steps = 0; at != NO_PARENT; steps++) {
            /* A way that is longer than the list comes to some context again. */
            if (steps == count) {
                memset(contexts, 0, PLACES * sizeof *contexts);
                return 32;
            }
            contexts[at] |= bit;
            at = parents[at];
        }
    }
    return 0;
}
