#include "plain_rights.h"

#include <stdbool.h>
#include <string.h>

static unsigned word(const uint8_t *bytes)
{
    return (unsigned)bytes[0] << 8 | bytes[1];
}

/* Whether an image loads, with its page count (RULES 5.8). */
static bool loads(const uint8_t *s, size_t length, unsigned *page_count)
{
    if (length < 31 || length > 574)
        return false;
    if (s[0] != 1 || s[1] != 0 || s[6] != 2 || s[7] != 0 || s[12] != 3 || s[13] != 0)
        return false;
    if (word(s + 2) != 18 || word(s + 4) != 4)
        return false;
    unsigned pages = s[18], exponent = s[19], programs = s[20];
    if (pages < 1 || pages > 128 || exponent < 5 || exponent > 12 || programs < 1 || programs > 8 || s[21] != 0)
        return false;
    if (pages << exponent > 65536)
        return false;
    unsigned programs_at = 22 + 4 * pages;
    if (word(s + 8) != 22 || word(s + 10) != 4 * pages || word(s + 14) != programs_at || word(s + 16) != 5 * programs)
        return false;
    if (length != programs_at + 5 * programs)
        return false;
    for (unsigned program = 0; program < programs; program++)
        if (s[programs_at + 5 * program + 4] > 1)
            return false;
    *page_count = pages;
    return true;
}

static void add_field(uint32_t *column, unsigned field)
{
    for (unsigned s = 0; s < DOMAINS; s++)
        column[s] += field >> s & 1;
    column[DOMAINS] += (uint32_t)__builtin_popcount(field);
}

uint32_t plain_count_rights(const uint8_t *input, size_t length, uint32_t sums[2 * COLUMN])
{
    uint32_t refused = 0;
    size_t at = 0;
    memset(sums, 0, 2 * COLUMN * sizeof sums[0]);
    while (at < length) {
        unsigned pages;
        if (length - at < 2)
            return refused + 1;
        size_t size = word(input + at);
        const uint8_t *image = input + at + 2;
        if (length - at - 2 < size)
            return refused + 1;
        if (loads(image, size, &pages))
            for (unsigned page = 0; page < pages; page++) {
                add_field(sums, word(image + 22 + 4 * page));
                add_field(sums + COLUMN, word(image + 24 + 4 * page));
            }
        else
            refused++;
        at += 2 + size;
    }
    return refused;
}
