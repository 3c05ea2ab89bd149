/*
 * A plain C version of the writer of images, beside the plain machine and its
 * load. It takes them in as text: with the writer in plain.c, the compiler
 * would put the run together in another way and make it slower.
 */
#include "plain.c"
#include "plain_write.h"

enum {
    NOT_AT_REST = 26,
    BUFFER_SHORT = 27,
};

static inline void put_high_first(uint8_t *bytes, unsigned number)
{
    bytes[0] = (uint8_t)(number >> 8);
    bytes[1] = (uint8_t)number;
}

static inline void put_entry(uint8_t *bytes, unsigned kind, unsigned offset,
                             unsigned length)
{
    bytes[0] = (uint8_t)kind;
    bytes[1] = 0;
    put_high_first(bytes + 2, offset);
    put_high_first(bytes + 4, length);
}

static inline void put_program(uint8_t *bytes, uint16_t context, uint16_t mask,
                               bool privileged)
{
    put_high_first(bytes, context);
    put_high_first(bytes + 2, mask);
    bytes[4] = privileged;
}

/*
 * The image that starts the machine (RULES 5.14 to 5.16). The buffer is no part
 * of the machine, which the compiler may use. It stays a call of its own, so that
 * the load before it is the same with and without it.
 */
static __attribute__((noinline)) uint8_t
machine_write(const struct machine *m, uint8_t *restrict out, size_t room,
              size_t *count)
{
    *count = 0;
    if (!sound(m))
        return NOT_SOUND;
    if (m->current != 0 || m->depth != 0 || m->pending)
        return NOT_AT_REST;
    unsigned pages_length = PAGE_BYTES * m->page_count;
    unsigned programs_offset = PAGES_OFFSET + pages_length;
    unsigned programs_length = PROGRAM_BYTES * m->program_count;
    if (room < programs_offset + programs_length)
        return BUFFER_SHORT;

    put_entry(out, 1, SHAPE_OFFSET, SHAPE_LENGTH);
    put_entry(out + 6, 2, PAGES_OFFSET, pages_length);
    put_entry(out + 12, 3, programs_offset, programs_length);
    out[18] = m->page_count;
    out[19] = m->exponent;
    out[20] = m->program_count;
    out[21] = 0;
    uint8_t *page = out + PAGES_OFFSET;
    for (unsigned i = 0; i < m->page_count; i++, page += PAGE_BYTES) {
        put_high_first(page, m->fields[i][0]);
        put_high_first(page + 2, m->fields[i][1]);
    }
    uint8_t *program = out + programs_offset;
    put_program(program, m->context, m->mask, m->privileged);
    for (unsigned i = 1; i < m->program_count; i++) {
        const struct program *stored = &m->programs[i];
        put_program(program + PROGRAM_BYTES * i, stored->context, stored->mask,
                    stored->privileged);
    }
    *count = programs_offset + programs_length;
    return DONE;
}

uint8_t plain_write_times(const uint8_t *image, size_t image_len,
                          uint8_t *out, size_t room, uint32_t times,
                          size_t *count)
{
    struct machine m = {0};
    uint8_t answer = machine_load(&m, image, image_len);
    if (answer != DONE)
        return answer;
    for (uint32_t i = 0; i < times; i++)
        answer = machine_write(&m, out, room, count);
    return answer;
}
