/* The rights over a site in plain C, by the rules of docs/RULES.md, section 13. */
#ifndef PLAIN_RIGHTS_H
#define PLAIN_RIGHTS_H

#include <stddef.h>
#include <stdint.h>

enum { DOMAINS = 16, COLUMN = 17 };

/*
 * For each right the rights of domain s at place s and the total at place 16,
 * READ's column first. Gives the number of images that are refused. The input
 * has at most 32,768 bytes.
 */
uint32_t plain_count_rights(const uint8_t *input, size_t length,
                            uint32_t sums[2 * COLUMN]);

#endif
