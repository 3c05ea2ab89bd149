/*
 * A plain C version of the bench function: one machine in a struct, changed in
 * place by the calls. Each call refuses in the order of RULES, section 3.
 */
#include "plain.h"

#include <stdbool.h>

enum {
    DOMAINS = 16,
    PAGES_MOST = 128,
    PROGRAMS_MOST = 8,
    DEPTH_MOST = 8,
    EXPONENT_LEAST = 5,
    EXPONENT_MOST = 12,
    MEMORY_MOST = 65536,
};

/* Places in the image and in the input. */
enum {
    SHAPE_OFFSET = 18,
    SHAPE_LENGTH = 4,
    PAGES_OFFSET = 22,
    PAGE_BYTES = 4,
    PROGRAM_BYTES = 5,
    IMAGE_LEAST = 31,
    IMAGE_MOST = 574,
    INPUT_MOST = 32768,
    RECORD_BYTES = 6,
};

enum {
    DONE = 0,
    NOT_SOUND = 1,
    BAD_RIGHT = 2,
    BAD_ADDRESS = 3,
    BAD_PAGE = 4,
    BAD_DOMAIN = 5,
    IN_PRIVILEGED_MODE = 6,
    IN_USER_MODE = 7,
    IS_PENDING = 8,
    VIOLATION = 9,
    NOT_PREVAILING = 11,
    NOT_BELOW_PREVAILING = 12,
    STACK_FULL = 13,
    STACK_EMPTY = 14,
    DEPTH_NOT_ONE = 15,
    BAD_PROGRAM = 16,
    BAD_MODE = 17,
    NOT_A_CALL = 18,
    EMPTY_MASK = 19,
    BAD_IMAGE_LENGTH = 20,
    BAD_ENTRY = 21,
    BAD_SHAPE_PLACE = 22,
    BAD_SHAPE = 23,
    BAD_BODY_PLACE = 24,
    BAD_MODE_BYTE = 25,
};

struct program {
    uint16_t context;
    uint16_t mask;
    bool privileged;
};

/* Which program was denied what, where that is known. */
struct violation {
    bool known;
    uint8_t program;
    uint8_t right;
    uint32_t address;
};

struct machine {
    uint8_t page_count;
    uint8_t exponent;
    uint8_t program_count;
    uint8_t current;
    uint8_t depth;
    bool pending;
    bool privileged;
    uint16_t context;
    uint16_t mask;
    bool saved[DEPTH_MOST]; /* saved modes, true for privileged */
    struct program programs[PROGRAMS_MOST];
    struct violation last;
    uint16_t fields[PAGES_MOST][2]; /* READ and WRITE of each page */
};

static inline uint16_t high_first(const uint8_t *bytes)
{
    return (uint16_t)(bytes[0] << 8 | bytes[1]);
}

static inline uint32_t memory_bytes(const struct machine *m)
{
    return (uint32_t)m->page_count << m->exponent;
}

static inline uint16_t local_context(const struct machine *m)
{
    return m->context & m->mask;
}

/* Every call asks this first, so it is worth having in line. */
static inline bool sound(const struct machine *m)
{
    return m->page_count >= 1 && m->page_count <= PAGES_MOST
        && m->exponent >= EXPONENT_LEAST && m->exponent <= EXPONENT_MOST
        && memory_bytes(m) <= MEMORY_MOST
        && m->program_count >= 1 && m->program_count <= PROGRAMS_MOST
        && m->current < m->program_count
        && m->depth <= DEPTH_MOST
        && !(m->pending && m->privileged)
        && (!m->last.known
            || (m->last.program < m->program_count && m->last.right <= 1
                && m->last.address < memory_bytes(m)));
}

static inline bool page_gives(const struct machine *m, uint8_t right,
                              uint32_t address)
{
    return (m->fields[address >> m->exponent][right] & local_context(m)) != 0;
}

static uint8_t violation(struct machine *m, uint8_t right, uint32_t address)
{
    m->pending = true;
    m->last = (struct violation){true, m->current, right, address};
    return VIOLATION;
}

static uint8_t machine_access(struct machine *m, uint8_t right,
                              uint32_t address)
{
    if (!sound(m))
        return NOT_SOUND;
    if (right > 1)
        return BAD_RIGHT;
    if (address >= memory_bytes(m))
        return BAD_ADDRESS;
    if (m->privileged)
        return DONE;
    if (m->pending)
        return IS_PENDING;
    if (!page_gives(m, right, address))
        return violation(m, right, address);
    return DONE;
}

/* Written out beside the other: with the width as an argument of one function
   gcc made an access of one byte ten instructions dearer. */
static uint8_t machine_access_two(struct machine *m, uint8_t right,
                                  uint32_t address)
{
    if (!sound(m))
        return NOT_SOUND;
    if (right > 1)
        return BAD_RIGHT;
    if ((uint64_t)address + 1 >= memory_bytes(m))
        return BAD_ADDRESS;
    if (m->privileged)
        return DONE;
    if (m->pending)
        return IS_PENDING;
    if (!page_gives(m, right, address) || !page_gives(m, right, address + 1))
        return violation(m, right, address);
    return DONE;
}

/* What grant and revoke refuse is the same, in the same order. */
static inline uint8_t may_pass_on(const struct machine *m, uint8_t right,
                                  uint16_t page, uint16_t domain)
{
    if (!sound(m))
        return NOT_SOUND;
    if (right > 1)
        return BAD_RIGHT;
    if (page >= m->page_count)
        return BAD_PAGE;
    if (domain >= DOMAINS)
        return BAD_DOMAIN;
    if (m->privileged)
        return IN_PRIVILEGED_MODE;
    if (m->pending)
        return IS_PENDING;

    /* The prevailing domain comes from the whole field. */
    uint16_t field = m->fields[page][right];
    if (field == 0)
        return NOT_PREVAILING;
    unsigned prevailing = (unsigned)__builtin_ctz(field);
    if ((local_context(m) >> prevailing & 1) == 0)
        return NOT_PREVAILING;
    if (domain <= prevailing)
        return NOT_BELOW_PREVAILING;
    return DONE;
}

static uint8_t machine_grant(struct machine *m, uint8_t right, uint16_t page,
                             uint16_t domain)
{
    uint8_t answer = may_pass_on(m, right, page, domain);
    if (answer == DONE)
        m->fields[page][right] |= (uint16_t)(1u << domain);
    return answer;
}

static uint8_t machine_revoke(struct machine *m, uint8_t right, uint16_t page,
                              uint16_t domain)
{
    uint8_t answer = may_pass_on(m, right, page, domain);
    if (answer == DONE)
        m->fields[page][right] &= (uint16_t)~(1u << domain);
    return answer;
}

static uint8_t machine_mask(struct machine *m, uint16_t mask)
{
    if (!sound(m))
        return NOT_SOUND;
    if (m->privileged)
        return IN_PRIVILEGED_MODE;
    if (m->pending)
        return IS_PENDING;
    if ((mask & m->context) == 0)
        return EMPTY_MASK;
    m->mask = mask;
    return DONE;
}

static uint8_t machine_entry(struct machine *m)
{
    if (!sound(m))
        return NOT_SOUND;
    if (m->depth == DEPTH_MOST)
        return STACK_FULL;
    m->saved[m->depth++] = m->privileged;
    m->privileged = true;
    m->pending = false;
    return DONE;
}

static uint8_t machine_return(struct machine *m)
{
    if (!sound(m))
        return NOT_SOUND;
    if (!m->privileged)
        return IN_USER_MODE;
    if (m->depth == 0)
        return STACK_EMPTY;
    m->depth--;
    m->privileged = m->saved[m->depth];
    m->saved[m->depth] = false;
    return DONE;
}

static uint8_t machine_switch(struct machine *m, uint16_t program)
{
    if (!sound(m))
        return NOT_SOUND;
    if (!m->privileged)
        return IN_USER_MODE;
    if (m->depth != 1)
        return DEPTH_NOT_ONE;
    if (program >= m->program_count)
        return BAD_PROGRAM;

    struct program *from = &m->programs[m->current];
    from->context = m->context;
    from->mask = m->mask;
    from->privileged = m->saved[0];

    /* Read after the write, so a program switched to itself keeps all. */
    const struct program *to = &m->programs[program];
    m->context = to->context;
    m->mask = to->mask;
    m->saved[0] = to->privileged;
    m->current = (uint8_t)program;
    return DONE;
}

static uint8_t machine_store_field(struct machine *m, uint8_t right,
                                   uint16_t page, uint16_t bits)
{
    if (!sound(m))
        return NOT_SOUND;
    if (right > 1)
        return BAD_RIGHT;
    if (page >= m->page_count)
        return BAD_PAGE;
    if (!m->privileged)
        return IN_USER_MODE;
    m->fields[page][right] = bits;
    return DONE;
}

static uint8_t machine_store_context(struct machine *m, uint16_t context)
{
    if (!sound(m))
        return NOT_SOUND;
    if (!m->privileged)
        return IN_USER_MODE;
    m->context = context;
    return DONE;
}

static uint8_t machine_store_mask(struct machine *m, uint16_t mask)
{
    if (!sound(m))
        return NOT_SOUND;
    if (!m->privileged)
        return IN_USER_MODE;
    m->mask = mask;
    return DONE;
}

static uint8_t machine_store_mode(struct machine *m, uint16_t mode)
{
    if (!sound(m))
        return NOT_SOUND;
    if (mode > 1)
        return BAD_MODE;
    if (!m->privileged)
        return IN_USER_MODE;
    m->privileged = mode == 1;
    return DONE;
}

/* Hands out the last violation; a run has no use for it. */
static uint8_t machine_ask_violation(const struct machine *m,
                                     struct violation *last)
{
    *last = (struct violation){0};
    if (!sound(m))
        return NOT_SOUND;
    if (!m->privileged)
        return IN_USER_MODE;
    *last = m->last;
    return DONE;
}

/* Fills a machine that is all zero; after a refusal it still is. */
static uint8_t machine_load(struct machine *m, const uint8_t *image,
                            size_t length)
{
    if (length < IMAGE_LEAST || length > IMAGE_MOST)
        return BAD_IMAGE_LENGTH;

    for (unsigned i = 0; i < 3; i++) {
        if (image[6 * i] != i + 1 || image[6 * i + 1] != 0)
            return BAD_ENTRY;
    }
    if (high_first(image + 2) != SHAPE_OFFSET
        || high_first(image + 4) != SHAPE_LENGTH)
        return BAD_SHAPE_PLACE;

    const uint8_t *shape = image + SHAPE_OFFSET;
    unsigned page_count = shape[0];
    unsigned exponent = shape[1];
    unsigned program_count = shape[2];
    if (page_count < 1 || page_count > PAGES_MOST
        || exponent < EXPONENT_LEAST || exponent > EXPONENT_MOST
        || program_count < 1 || program_count > PROGRAMS_MOST
        || shape[3] != 0
        || page_count << exponent > MEMORY_MOST)
        return BAD_SHAPE;

    unsigned programs_offset = PAGES_OFFSET + PAGE_BYTES * page_count;
    unsigned end = programs_offset + PROGRAM_BYTES * program_count;
    if (high_first(image + 8) != PAGES_OFFSET
        || high_first(image + 10) != PAGE_BYTES * page_count
        || high_first(image + 14) != programs_offset
        || high_first(image + 16) != PROGRAM_BYTES * program_count
        || length != end)
        return BAD_BODY_PLACE;

    for (unsigned i = 0; i < program_count; i++) {
        if (image[programs_offset + PROGRAM_BYTES * i + 4] > 1)
            return BAD_MODE_BYTE;
    }

    m->page_count = (uint8_t)page_count;
    m->exponent = (uint8_t)exponent;
    m->program_count = (uint8_t)program_count;
    for (unsigned i = 0; i < page_count; i++) {
        const uint8_t *page = image + PAGES_OFFSET + PAGE_BYTES * i;
        m->fields[i][0] = high_first(page);
        m->fields[i][1] = high_first(page + 2);
    }
    for (unsigned i = 0; i < program_count; i++) {
        const uint8_t *program = image + programs_offset + PROGRAM_BYTES * i;
        m->programs[i].context = high_first(program);
        m->programs[i].mask = high_first(program + 2);
        m->programs[i].privileged = program[4] == 1;
    }
    m->context = m->programs[0].context;
    m->mask = m->programs[0].mask;
    m->privileged = m->programs[0].privileged;
    return DONE;
}

static uint8_t make_call(struct machine *m, const uint8_t *record)
{
    uint8_t right = record[1];
    uint16_t a = high_first(record + 2);
    uint16_t b = high_first(record + 4);

    switch (record[0]) {
    case 1:
        return machine_access(m, right, (uint32_t)a << 16 | b);
    case 2:
        return machine_grant(m, right, a, b);
    case 3:
        return machine_revoke(m, right, a, b);
    case 4:
        return machine_mask(m, b);
    case 5:
        return machine_entry(m);
    case 6:
        return machine_return(m);
    case 7:
        return machine_switch(m, b);
    case 8:
        return machine_store_field(m, right, a, b);
    case 9:
        return machine_store_context(m, b);
    case 10:
        return machine_store_mask(m, b);
    case 11:
        return machine_store_mode(m, b);
    case 12: {
        struct violation last;
        return machine_ask_violation(m, &last);
    }
    case 13:
        return machine_access_two(m, right, (uint32_t)a << 16 | b);
    default:
        return NOT_A_CALL;
    }
}

size_t plain_run(const uint8_t *input, size_t input_len,
                 uint8_t *answers, size_t answers_len)
{
    if (input_len > INPUT_MOST)
        return 0;

    const uint8_t *image = input;
    size_t image_len = 0;
    size_t calls_len = 0;
    if (input_len >= 2) {
        image = input + 2;
        image_len = high_first(input);
        if (image_len > input_len - 2)
            image_len = input_len - 2;
        calls_len = input_len - 2 - image_len;
    }

    struct machine m = {0};
    uint8_t load_answer = machine_load(&m, image, image_len);
    size_t count = 1;
    if (load_answer == DONE)
        count += calls_len / RECORD_BYTES;
    if (answers_len < count)
        return 0;

    answers[0] = load_answer;
    const uint8_t *record = image + image_len;
    for (size_t i = 1; i < count; i++) {
        answers[i] = make_call(&m, record);
        record += RECORD_BYTES;
    }
    return count;
}
