/*
 * A plain C version of the bench function, the baseline that the speed of the
 * product is compared with. It keeps the contract of bench.h.
 */
#ifndef PLAIN_H
#define PLAIN_H

#include <stddef.h>
#include <stdint.h>

size_t plain_run(const uint8_t *input, size_t input_len,
                 uint8_t *answers, size_t answers_len);

#endif
