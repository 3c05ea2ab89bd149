/*
 * A plain C version of the writer of images, the baseline that the speed of the
 * product's is compared with.
 */
#ifndef PLAIN_WRITE_H
#define PLAIN_WRITE_H

#include <stddef.h>
#include <stdint.h>

/*
 * Loads an image and writes the loaded machine into a buffer, so many times. The
 * answer is the number of the last writing, or the load's where that is refused;
 * count is what the last one wrote.
 */
uint8_t plain_write_times(const uint8_t *image, size_t image_len,
                          uint8_t *out, size_t room, uint32_t times,
                          size_t *count);

#endif
