/*
 * A plain C version of the least mask, the baseline that the speed of the
 * product's is compared with.
 */
#ifndef PLAIN_MASK_H
#define PLAIN_MASK_H

#include <stddef.h>
#include <stdint.h>

enum { PAIRS_MOST = 64 };

struct machine;

/* The number for a list of pairs, each right * 65536 + page, and its mask. */
uint8_t plain_least_mask(const struct machine *m, const uint32_t *pairs,
                         size_t count, uint16_t *mask);

/*
 * Loads an image, then asks for the least mask of so many lists that stand one
 * behind the other, each of count pairs. An answer is number * 65536 + mask. A
 * refused load leaves a machine that is not sound.
 */
void plain_least_masks(const uint8_t *image, size_t image_len,
                       const uint32_t *lists, size_t count,
                       uint32_t *answers, size_t asked);

#endif
