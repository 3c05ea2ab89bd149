/*
 * The least mask in plain C: what each pair needs of the context, then all
 * masks within the context. The plain machine and its load are taken in as
 * text, as plain_write.c does it.
 */
#include "plain.c"
#include "plain_mask.h"

enum {
    TOO_MANY_PAIRS = 33,
    NO_MASK_WILL_DO = 34,
};

/* By hand: the builtin is a call of the compiler's library, and slower, where
   the processor may have no instruction for it. */
static inline unsigned ones(uint16_t bits)
{
    unsigned sums = bits - (bits >> 1 & 0x5555u);
    sums = (sums & 0x3333) + (sums >> 2 & 0x3333);
    sums = (sums + (sums >> 4)) & 0x0f0f;
    return (sums + (sums >> 8)) & 0x1f;
}

static inline bool meets_all(const uint16_t *needs, size_t count, uint16_t mask)
{
    for (size_t i = 0; i < count; i++)
        if ((needs[i] & mask) == 0)
            return false;
    return true;
}

/* It stays a call of its own, so that nothing is shared between two lists. */
__attribute__((noinline)) uint8_t
plain_least_mask(const struct machine *m, const uint32_t *pairs, size_t count,
                 uint16_t *mask)
{
    *mask = 0;
    if (!sound(m))
        return NOT_SOUND;
    if (count > PAIRS_MOST)
        return TOO_MANY_PAIRS;
    for (size_t i = 0; i < count; i++) {
        if (pairs[i] >> 16 > 1)
            return BAD_RIGHT;
        if ((pairs[i] & 0xffff) >= m->page_count)
            return BAD_PAGE;
    }
    uint16_t context = m->context;
    uint16_t needs[PAIRS_MOST];
    for (size_t i = 0; i < count; i++) {
        needs[i] = m->fields[pairs[i] & 0xffff][pairs[i] >> 16] & context;
        /* The whole context will do but where a need is empty. */
        if (needs[i] == 0)
            return NO_MASK_WILL_DO;
    }
    /* By ascending number, so that of masks with as many domains the first
       stays. None comes after 0 that has fewer than one. */
    uint16_t best = 0, next = 0;
    unsigned fewest = DOMAINS + 1;
    do {
        unsigned domains = ones(next);
        if (domains < fewest && meets_all(needs, count, next)) {
            best = next;
            fewest = domains;
            if (fewest <= 1)
                break;
        }
        next = (uint16_t)((next - context) & context);
    } while (next != 0);
    *mask = best;
    return DONE;
}

void plain_least_masks(const uint8_t *image, size_t image_len,
                       const uint32_t *lists, size_t count,
                       uint32_t *answers, size_t asked)
{
    struct machine m = {0};
    machine_load(&m, image, image_len);
    for (size_t i = 0; i < asked; i++) {
        uint16_t mask;
        uint8_t number = plain_least_mask(&m, lists + i * count, count, &mask);
        answers[i] = (uint32_t)number << 16 | mask;
    }
}
