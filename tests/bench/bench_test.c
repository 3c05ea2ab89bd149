/*
 * Tests of the bench function through its C header.
 *
 * The answers below are written down by hand from the rules. Every input is
 * run with buffers that are too short, just long enough and longer than
 * needed, with guard bytes around the input and around the answers.
 *
 * Output: a line for each failed check, then `bench: N passed, M failed`. The
 * exit status is 1 if a check failed.
 */
#include "bench.h"

#include <ctype.h>
#include <stdarg.h>
#include <stdbool.h>
#include <stdio.h>
#include <stdlib.h>
#include <string.h>

enum {
    GUARD = 64,           /* guard bytes on each side of a buffer */
    SHORT_COUNT = 64,     /* up to this many answers, every room is tried */
    CASES_MOST = 512,
    TEXT_INPUT_MOST = 1024,
};

/* The sample node's image, 44 bytes, in the parts of RULES 5.12. */
#define SAMPLE_TABLE "01 00 00 12 00 04  02 00 00 16 00 0C  03 00 00 22 00 0A "
#define SAMPLE_PAGES "00 09 00 00  00 0A 00 02  00 0C 00 04 "
#define SAMPLE_IMAGE SAMPLE_TABLE "03 08 02 00 " SAMPLE_PAGES \
                     "00 07 00 03 00  00 08 FF FF 00 "
#define SAMPLE "00 2C " SAMPLE_IMAGE

#define SAMPLE_CALLS \
    "01 00 00 00 00 10  01 00 00 00 02 00  04 00 00 00 00 07 " \
    "05 00 00 00 00 00  07 00 00 00 00 01  06 00 00 00 00 00 " \
    "01 00 00 00 02 00  01 01 00 00 00 00 "
#define SAMPLE_ANSWERS "0  0 9 8 0 0 0 0 9 "

/* The sample node with program 0, or program 1, in privileged mode. */
#define FIRST_PRIVILEGED "00 2C " SAMPLE_TABLE "03 08 02 00 " SAMPLE_PAGES \
                         "00 07 00 03 01  00 08 FF FF 00 "
#define SECOND_PRIVILEGED "00 2C " SAMPLE_TABLE "03 08 02 00 " SAMPLE_PAGES \
                          "00 07 00 03 00  00 08 FF FF 01 "

/*
 * The shortest image, 31 bytes: one page of 32 bytes, READ for domain 8, WRITE
 * for domain 15; one program with domains 8 and 15. All its bits are in high
 * bytes, so a wrong byte order shows.
 */
#define SHORTEST_TABLE \
    "01 00 00 12 00 04  02 00 00 16 00 04  03 00 00 1A 00 05 "
#define SHORTEST_IMAGE \
    SHORTEST_TABLE "01 05 01 00  01 00 80 00  81 00 FF FF 00 "
#define SHORTEST "00 1F " SHORTEST_IMAGE

/* Single calls; the page is one of 256 bytes. */
#define ENTRY " 05 00 00 00 00 00 "
#define RETURN " 06 00 00 00 00 00 "
#define SWITCH_TO(p) " 07 00 00 00 00 " p " "
#define TURN_OF(p) ENTRY SWITCH_TO(p) RETURN
#define READ_PAGE(p) " 01 00 00 00 " p " 00 "
#define WRITE_PAGE(p) " 01 01 00 00 " p " 00 "
#define MASK(bits) " 04 00 00 00 " bits " "
#define QUESTION " 0C 00 00 00 00 00 "
#define READ_TWO(address) " 0D 00 00 00 " address " "
#define WRITE_TWO(address) " 0D 01 00 00 " address " "

struct text_case {
    const char *name;
    const char *input;   /* bytes in hexadecimal */
    const char *answers; /* decimal, the load's first */
};

static const struct text_case text_cases[] = {
    {"sample node", SAMPLE SAMPLE_CALLS, SAMPLE_ANSWERS},
    {"sample node, no call", SAMPLE, "0"},

    /* A remainder is passed over, whatever call it looks like. */
    {"remainder of 1", SAMPLE SAMPLE_CALLS "05", SAMPLE_ANSWERS},
    {"remainder of 2", SAMPLE SAMPLE_CALLS "05 00", SAMPLE_ANSWERS},
    {"remainder of 3", SAMPLE SAMPLE_CALLS "05 00 00", SAMPLE_ANSWERS},
    {"remainder of 4", SAMPLE SAMPLE_CALLS "05 00 00 00", SAMPLE_ANSWERS},
    {"remainder of 5", SAMPLE SAMPLE_CALLS "05 00 00 00 00", SAMPLE_ANSWERS},
    {"no remainder", SAMPLE SAMPLE_CALLS ENTRY, SAMPLE_ANSWERS "0"},
    {"no call, remainder of 1", SAMPLE "05", "0"},
    {"no call, remainder of 5", SAMPLE "05 00 00 00 00", "0"},

    /* Under 2 bytes, and images that are not there. */
    {"empty input", "", "20"},
    {"1 byte, zero", "00", "20"},
    {"1 byte, 1F", "1F", "20"},
    {"2 bytes, length 0", "00 00", "20"},
    {"2 bytes, length 44", "00 2C", "20"},
    {"2 bytes, length 65535", "FF FF", "20"},
    {"3 bytes", "00 2C 01", "20"},
    {"length 0 before an image", "00 00 " SAMPLE_IMAGE SAMPLE_CALLS, "20"},

    /* A declared length above what is there: what is there is the image. */
    {"length 45, 44 there", "00 2D " SAMPLE_IMAGE, "0"},
    {"length 574, 44 there", "02 3E " SAMPLE_IMAGE, "0"},
    {"length 575, 44 there", "02 3F " SAMPLE_IMAGE, "0"},
    {"length 65535, 44 there", "FF FF " SAMPLE_IMAGE, "0"},
    {"length 65535, 50 there", "FF FF " SAMPLE_IMAGE ENTRY, "24"},
    {"length 44, 43 there",
     "00 2C " SAMPLE_TABLE "03 08 02 00 " SAMPLE_PAGES
     "00 07 00 03 00  00 08 FF FF", "24"},
    {"length low byte first", "2C 00 " SAMPLE_IMAGE SAMPLE_CALLS, "24"},

    /* The image's own length. */
    {"length 43, a mode byte too few", "00 2B " SAMPLE_IMAGE SAMPLE_CALLS,
     "24"},
    {"length 45, a byte too many", "00 2D " SAMPLE_IMAGE "00 " SAMPLE_CALLS,
     "24"},
    {"shortest image, length 30", "00 1E " SHORTEST_IMAGE ENTRY, "20"},
    {"shortest image", SHORTEST ENTRY, "0 0"},

    /* The first fault in the order of RULES 5.8 decides. */
    {"20 before 21", "00 03 FF FF FF", "20"},
    {"21 before 22", "00 1F " "01 00 00 13 00 04  02 00 00 16 00 04 "
     "03 01 00 1A 00 05  01 05 01 00  01 00 80 00  81 00 FF FF 00", "21"},
    {"22 before 23", "00 1F " "01 00 00 12 00 05  02 00 00 16 00 04 "
     "03 00 00 1A 00 05  00 05 01 00  01 00 80 00  81 00 FF FF 00", "22"},
    {"23 before 24", "00 1F " "01 00 00 12 00 04  02 00 00 17 00 04 "
     "03 00 00 1A 00 05  01 05 01 01  01 00 80 00  81 00 FF FF 00", "23"},
    {"24 before 25", "00 1F " "01 00 00 12 00 04  02 00 00 16 00 04 "
     "03 00 00 1A 00 06  01 05 01 00  01 00 80 00  81 00 FF FF 02", "24"},
    {"memory of 65536 bytes is in range", "00 1F " SHORTEST_TABLE
     "10 0C 01 00  01 00 80 00  81 00 FF FF 00", "24"},
    {"memory of 69632 bytes", "00 1F " SHORTEST_TABLE
     "11 0C 01 00  01 00 80 00  81 00 FF FF 00", "23"},
    {"memory of 128 pages of 4096 bytes", "00 1F " SHORTEST_TABLE
     "80 0C 01 00  01 00 80 00  81 00 FF FF 00", "23"},

    /* The starred cases: the twelve of RULES 5.13. */
    {"* read page 1", SAMPLE READ_PAGE("01"), "0 0"},
    {"* write page 1", SAMPLE WRITE_PAGE("01"), "0 0"},
    {"* write page 0", SAMPLE WRITE_PAGE("00"), "0 9"},
    {"* read address 767", SAMPLE "01 00 00 00 02 FF", "0 9"},
    {"* read address 768", SAMPLE "01 00 00 00 03 00", "0 3"},
    {"* grant READ, page 0, domain 0", SAMPLE "02 00 00 00 00 00", "0 12"},
    {"* grant WRITE, page 0, domain 3", SAMPLE "02 01 00 00 00 03", "0 11"},
    {"* revoke READ, page 0, domain 3, seen by program 1",
     SAMPLE "03 00 00 00 00 03" TURN_OF("01") READ_PAGE("00"), "0 0 0 0 0 9"},
    {"* grant READ, page 2, domain 3", SAMPLE "02 00 00 02 00 03", "0 11"},
    {"* the same after mask 0x0007",
     SAMPLE MASK("00 07") "02 00 00 02 00 03", "0 0 0"},
    {"* grant READ, page 0, domain 16", SAMPLE "02 00 00 00 00 10", "0 5"},
    {"* return", SAMPLE RETURN, "0 7"},

    /* What the calls do. */
    {"read page 0 by program 1", SAMPLE TURN_OF("01") READ_PAGE("00"),
     "0 0 0 0 0"},
    {"write page 1 by program 1", SAMPLE TURN_OF("01") WRITE_PAGE("01"),
     "0 0 0 0 9"},
    {"the same after a grant",
     SAMPLE "02 01 00 01 00 03" TURN_OF("01") WRITE_PAGE("01"), "0 0 0 0 0 0"},
    {"the same after two grants",
     SAMPLE "02 01 00 01 00 03  02 01 00 01 00 03" TURN_OF("01")
     WRITE_PAGE("01"), "0 0 0 0 0 0 0"},
    {"the same after two grants and two revocations",
     SAMPLE "02 01 00 01 00 03  02 01 00 01 00 03  03 01 00 01 00 03 "
     "03 01 00 01 00 03" TURN_OF("01") WRITE_PAGE("01"), "0 0 0 0 0 0 0 0 9"},
    {"a lower copy may not be passed on",
     SAMPLE TURN_OF("01") "02 00 00 02 00 04  03 00 00 02 00 04",
     "0 0 0 0 11 11"},
    {"a refused grant or revocation changes no field",
     SAMPLE "02 01 00 00 00 03  02 00 00 02 00 00  03 00 00 00 00 00"
     TURN_OF("01") WRITE_PAGE("00") TURN_OF("00") READ_PAGE("00"),
     "0 11 11 12 0 0 0 9 0 0 0 0"},
    {"the mask keeps bits outside the global context",
     SAMPLE MASK("FF FF") ENTRY "09 00 00 00 00 0F  08 00 00 00 00 08" RETURN
     READ_PAGE("00"), "0 0 0 0 0 0 0"},
    {"the kernel's mask keeps bits outside the global context",
     SAMPLE ENTRY "0A 00 00 00 FF FF  09 00 00 00 00 0F  08 00 00 00 00 08"
     RETURN READ_PAGE("00"), "0 0 0 0 0 0 0"},
    {"the mask goes along with its program",
     SAMPLE MASK("00 07") TURN_OF("01") TURN_OF("00") READ_PAGE("02"),
     "0 0 0 0 0 0 0 0 0"},
    {"the global context goes along with its program",
     SAMPLE ENTRY "09 00 00 00 00 04" SWITCH_TO("01") RETURN TURN_OF("00")
     MASK("FF FF") READ_PAGE("00"), "0 0 0 0 0 0 0 0 0 9"},
    {"a switch to the current program changes only its entry",
     SAMPLE MASK("00 01") TURN_OF("00") READ_PAGE("01"), "0 0 0 0 0 9"},
    {"kernel stores of context, mask and field",
     SAMPLE ENTRY "09 00 00 00 40 00  0A 00 00 00 C0 00  08 01 00 00 40 00"
     RETURN WRITE_PAGE("00") READ_PAGE("00") READ_PAGE("00"),
     "0 0 0 0 0 0 0 9 8"},
    {"only bits in high bytes",
     SHORTEST READ_PAGE("00") "01 01 00 00 00 1F  01 00 00 00 00 20 "
     "02 00 00 00 00 08  02 00 00 00 00 09  02 01 00 00 00 0F "
     "03 01 00 00 00 0E" MASK("01 00") WRITE_PAGE("00") "02 00 00 00 00 0A",
     "0 0 0 3 12 0 12 12 0 9 8"},

    /* Empty masks: they share no domain with the live global context, which in
       the sample is 0007 for program 0 and 0008 for program 1. */
    {"an empty mask is refused, and the one before stays",
     SAMPLE MASK("00 00") MASK("00 08") MASK("FF F8") READ_PAGE("00")
     READ_PAGE("01") MASK("FF FC") READ_PAGE("02") READ_PAGE("01"),
     "0 19 19 19 0 0 0 0 9"},
    {"an empty mask with the flag set, and in privileged mode",
     SAMPLE READ_PAGE("02") MASK("00 00") ENTRY MASK("00 00") RETURN
     MASK("00 00") MASK("00 04") READ_PAGE("02"), "0 9 8 0 6 0 19 0 0"},
    {"the mask before is not asked",
     SAMPLE MASK("00 04") MASK("00 03") MASK("FF F9") MASK("FF F0")
     READ_PAGE("00") READ_PAGE("01"), "0 0 0 0 19 0 9"},
    {"the live global context is asked, and an empty one lets no mask in",
     SAMPLE ENTRY "09 00 00 00 00 08" RETURN MASK("00 07") MASK("00 08")
     READ_PAGE("02") ENTRY "09 00 00 00 00 00" RETURN MASK("FF FF")
     MASK("00 00"), "0 0 0 0 19 0 0 0 0 0 19 19"},
    {"the kernel may store an empty mask, and a switch brings it back",
     SAMPLE ENTRY "0A 00 00 00 00 08" RETURN READ_PAGE("00") ENTRY
     "0A 00 00 00 00 00" SWITCH_TO("01") RETURN MASK("00 07") READ_PAGE("02")
     TURN_OF("00") MASK("00 08") READ_PAGE("00"),
     "0 0 0 0 9 0 0 0 0 19 0 0 0 0 19 9"},
    {"an image may hold empty masks",
     "00 2C " SAMPLE_TABLE "03 08 02 00 " SAMPLE_PAGES
     "00 07 00 08 00  00 08 00 00 00 " READ_PAGE("00") ENTRY RETURN
     MASK("00 08") MASK("00 01") READ_PAGE("00") TURN_OF("01")
     READ_PAGE("02"), "0 9 0 0 19 0 0 0 0 0 9"},
    {"empty masks in high bytes",
     SHORTEST MASK("00 FF") MASK("7E FF") WRITE_PAGE("00") MASK("80 00")
     MASK("01 00") READ_PAGE("00") WRITE_PAGE("00"), "0 19 19 0 0 0 0 9"},
    {"unused parts are ignored",
     SAMPLE "04 FF FF FF 00 07  05 FF FF FF FF FF  07 FF FF FF 00 00 "
     "09 FF FF FF 00 07  0A FF FF FF 00 07  0B FF FF FF 00 01 "
     "0C FF FF FF FF FF  06 FF FF FF FF FF", "0 0 0 0 0 0 0 0 0"},

    /* What each call refuses, and in which order. */
    {"right, address, page and domain in user mode",
     SAMPLE "01 02 00 00 00 00  01 02 FF FF FF FF  01 00 00 01 00 00 "
     "01 01 FF FF FF FF  02 00 00 03 00 03  02 01 01 00 00 03 "
     "02 00 00 00 01 00  02 02 00 03 00 10  02 00 00 03 00 10 "
     "03 FF 00 03 00 10  03 01 00 03 00 10  03 00 00 00 00 10",
     "0 2 2 3 3 4 4 5 2 4 2 4 5"},
    {"kernel calls in user mode",
     SAMPLE RETURN SWITCH_TO("00") SWITCH_TO("09") "08 00 00 00 00 01 "
     "08 02 00 03 00 01  08 00 00 03 00 01  09 00 00 00 00 0F "
     "0A 00 00 00 00 0F  0B 00 00 00 00 01  0B 00 00 00 00 00 "
     "0B 00 00 00 00 02  0B 00 00 00 01 00" READ_PAGE("02"),
     "0 7 7 7 7 2 4 7 7 7 7 17 17 9"},
    {"after a violation",
     SAMPLE READ_PAGE("02") READ_PAGE("00") "01 00 00 00 03 00 "
     "01 02 00 00 00 00  02 00 00 00 00 03  02 00 00 00 00 00 "
     "03 00 00 00 00 10  03 00 00 00 00 03" MASK("00 07") RETURN
     "00 00 00 00 00 00" ENTRY RETURN READ_PAGE("00") READ_PAGE("02"),
     "0 9 8 3 2 8 8 5 8 8 7 18 0 0 0 9"},
    {"commands in privileged mode",
     SAMPLE ENTRY WRITE_PAGE("00") "01 02 00 00 00 00  01 00 00 00 03 00 "
     "02 00 00 00 00 03  02 00 00 00 00 10  03 01 00 00 00 03 "
     "03 00 00 03 00 03" MASK("00 07") SWITCH_TO("02")
     "07 00 00 00 01 00  0B 00 00 00 00 02  08 02 00 00 00 00 "
     "08 00 00 03 00 00" RETURN READ_PAGE("02"),
     "0 0 0 2 3 6 5 6 4 6 16 16 17 2 4 0 9"},
    {"records that are no call",
     SAMPLE "00 00 00 00 00 00  0E 00 00 00 00 00  FF FF FF FF FF FF"
     READ_PAGE("00") "80 00 00 00 00 00  81 00 00 00 00 00",
     "0 18 18 18 0 18 18"},

    /* The question for the last violation, which leaves all as it was. */
    {"the question in user mode, with the flag clear and set",
     SAMPLE QUESTION READ_PAGE("00") READ_PAGE("02") QUESTION READ_PAGE("00"),
     "0 7 0 9 7 8"},
    {"the question within an interrupt, asked again, and after a switch",
     SAMPLE READ_PAGE("02") ENTRY QUESTION QUESTION SWITCH_TO("01") QUESTION
     ENTRY QUESTION RETURN RETURN QUESTION READ_PAGE("02"),
     "0 9 0 0 0 0 0 0 0 0 0 7 0"},
    {"the question at a start in privileged mode",
     FIRST_PRIVILEGED QUESTION WRITE_PAGE("00") QUESTION, "0 0 0 0"},

    /* Accesses of two bytes. READ of pages 0 and 1 is given to program 0
       through domains 0 and 1, of page 2 not; WRITE of page 1 alone. */
    {"two bytes on one page and on two",
     SAMPLE READ_TWO("00 00") READ_TWO("00 FE") READ_TWO("00 FF")
     READ_TWO("01 00") READ_TWO("01 FE") READ_TWO("01 FF"),
     "0 0 0 0 0 0 9"},
    {"two bytes, the first page denies alone",
     SAMPLE WRITE_TWO("00 FF") READ_TWO("00 00"), "0 9 8"},
    {"two bytes, the second page denies alone",
     SAMPLE WRITE_TWO("01 FE") WRITE_TWO("01 FF"), "0 0 9"},
    {"two bytes, both pages deny",
     SAMPLE MASK("00 04") READ_TWO("00 FF"), "0 0 9"},
    {"two bytes about the end of memory and of the addresses",
     SAMPLE READ_TWO("02 FF") READ_TWO("03 00") "0D 00 FF FF FF FE "
     "0D 01 FF FF FF FF" READ_TWO("02 FE"), "0 3 3 3 3 9"},
    {"two bytes in privileged mode",
     SAMPLE ENTRY WRITE_TWO("00 FF") READ_TWO("01 FF") READ_TWO("02 FE")
     READ_TWO("02 FF") "0D 00 FF FF FF FF  0D 02 00 00 00 00",
     "0 0 0 0 0 3 3 2"},
    {"two bytes in the order of one",
     SAMPLE "0D 02 00 00 02 FF  0D FF FF FF FF FF" READ_TWO("02 00")
     "0D 02 00 00 00 00" READ_TWO("02 FF") READ_TWO("00 00"),
     "0 2 2 9 2 3 8"},
    {"two bytes across an edge, after a grant of the first page, of both",
     SAMPLE MASK("00 07") "02 01 00 01 00 03" TURN_OF("01")
     WRITE_TWO("01 FF") TURN_OF("00") "02 01 00 02 00 03" TURN_OF("01")
     WRITE_TWO("01 FF"),
     "0 0 0 0 0 0 9 0 0 0 0 0 0 0 0"},

    /* The stack of saved modes. */
    {"nine entries and nine returns",
     SAMPLE ENTRY ENTRY ENTRY ENTRY ENTRY ENTRY ENTRY ENTRY ENTRY
     SWITCH_TO("01") RETURN RETURN RETURN RETURN RETURN RETURN RETURN
     SWITCH_TO("01") RETURN RETURN,
     "0 0 0 0 0 0 0 0 0 13 15 0 0 0 0 0 0 0 0 0 7"},
    {"a start in privileged mode",
     FIRST_PRIVILEGED RETURN SWITCH_TO("01") SWITCH_TO("02") MASK("00 00")
     WRITE_PAGE("00") ENTRY ENTRY SWITCH_TO("01") RETURN RETURN RETURN
     "0B 00 00 00 00 00  0B 00 00 00 00 01" WRITE_PAGE("00"),
     "0 14 15 15 6 0 0 0 15 0 0 14 0 7 9"},
    {"the saved mode goes along with its program",
     SECOND_PRIVILEGED MASK("00 03") TURN_OF("01") MASK("00 03") RETURN
     TURN_OF("00") MASK("00 03") TURN_OF("01") MASK("00 03"),
     "0 0 0 0 0 6 14 0 0 0 0 0 0 0 6"},
    {"a mode that was stored goes along with its program",
     FIRST_PRIVILEGED "0B 00 00 00 00 00" TURN_OF("01") TURN_OF("00")
     MASK("00 03"), "0 0 0 0 0 0 0 0 0"},
    {"the mode store leaves saved modes alone",
     FIRST_PRIVILEGED ENTRY "0B 00 00 00 00 00" MASK("00 03") ENTRY RETURN
     MASK("00 03") RETURN, "0 0 0 0 0 0 0 7"},
    {"a mode store, then a return to user mode",
     SAMPLE ENTRY "0B 00 00 00 00 01" RETURN MASK("00 03") RETURN,
     "0 0 0 0 0 7"},
    {"a full stack in user mode keeps the flag",
     SAMPLE ENTRY ENTRY ENTRY ENTRY ENTRY ENTRY ENTRY ENTRY
     "0B 00 00 00 00 00" READ_PAGE("02") ENTRY READ_PAGE("00"),
     "0 0 0 0 0 0 0 0 0 0 9 13 8"},
};

/* The sample image with one byte changed. */
struct changed_byte {
    unsigned offset;
    uint8_t value;
    uint8_t answer;
};

static const struct changed_byte changed_bytes[] = {
    /* kind and zero byte of each entry */
    {0, 0x00, 21}, {0, 0x02, 21}, {1, 0x01, 21},
    {6, 0x01, 21}, {7, 0x80, 21}, {12, 0x02, 21}, {13, 0x01, 21},
    /* offset and length of the shape */
    {2, 0x12, 22}, {3, 0x13, 22}, {4, 0x01, 22}, {5, 0x05, 22}, {5, 0x00, 22},
    /* page count, exponent, program count, zero */
    {18, 0x00, 23}, {18, 0x81, 23}, {18, 0xFF, 23},
    {19, 0x00, 23}, {19, 0x04, 23}, {19, 0x0D, 23}, {19, 0xFF, 23},
    {20, 0x00, 23}, {20, 0x09, 23}, {20, 0xFF, 23}, {21, 0x01, 23},
    {19, 0x05, 0}, {19, 0x0C, 0},
    /* the bodies of pages and programs, and where the image ends */
    {8, 0x01, 24}, {9, 0x17, 24}, {10, 0x01, 24}, {11, 0x0D, 24},
    {14, 0x01, 24}, {15, 0x23, 24}, {16, 0x01, 24}, {17, 0x0B, 24},
    {18, 0x02, 24}, {18, 0x04, 24}, {18, 0x80, 24},
    {20, 0x01, 24}, {20, 0x03, 24}, {20, 0x08, 24},
    /* mode bytes */
    {38, 0x02, 25}, {38, 0xFF, 25}, {43, 0x02, 25}, {43, 0x80, 25},
    {38, 0x01, 0}, {43, 0x01, 0},
};

struct bench_case {
    char name[64];
    uint8_t *input;
    size_t input_len;
    uint8_t *answers;
    size_t count; /* answers with room enough; 0 for an input too long */
};

static struct bench_case cases[CASES_MOST];
static size_t case_count;
static unsigned long passed, failed;

static void check(bool ok, const char *format, ...)
{
    if (ok) {
        passed++;
        return;
    }
    failed++;
    va_list arguments;
    va_start(arguments, format);
    fputs("FAILED ", stdout);
    vprintf(format, arguments);
    putchar('\n');
    va_end(arguments);
}

/* A mistake in this file, or no memory: not a result about the function. */
static void give_up(const char *why, const char *name)
{
    fprintf(stderr, "bench_test: %s: %s\n", why, name);
    exit(2);
}

static void *room_for(size_t bytes)
{
    void *room = malloc(bytes);
    if (room == NULL)
        give_up("no memory", "");
    return room;
}

/* A copy that lasts, of at least one byte so that it is never null. */
static uint8_t *copy_of(const uint8_t *bytes, size_t length)
{
    uint8_t *copy = room_for(length + 1);
    memcpy(copy, bytes, length);
    return copy;
}

static void add_case(const char *name, const uint8_t *input, size_t input_len,
                     const uint8_t *answers, size_t count)
{
    if (case_count == CASES_MOST)
        give_up("too many cases", name);
    struct bench_case *c = &cases[case_count++];
    snprintf(c->name, sizeof c->name, "%s", name);
    c->input = copy_of(input, input_len);
    c->input_len = input_len;
    c->answers = copy_of(answers, count);
    c->count = count;
}

/* Reads numbers in the given base and gives back how many there were. */
static size_t numbers(const char *text, int base, uint8_t *out, size_t most)
{
    size_t count = 0;
    for (;;) {
        while (isspace((unsigned char)*text))
            text++;
        if (*text == '\0')
            return count;
        char *end;
        unsigned long number = strtoul(text, &end, base);
        bool separate = *end == '\0' || isspace((unsigned char)*end);
        if (end == text || !separate || number > 255 || count == most)
            give_up("bad text", text);
        out[count++] = (uint8_t)number;
        text = end;
    }
}

static void add_text_cases(void)
{
    uint8_t input[TEXT_INPUT_MOST];
    uint8_t answers[TEXT_INPUT_MOST];
    for (size_t i = 0; i < sizeof text_cases / sizeof text_cases[0]; i++) {
        const struct text_case *t = &text_cases[i];
        size_t input_len = numbers(t->input, 16, input, sizeof input);
        size_t count = numbers(t->answers, 10, answers, sizeof answers);
        add_case(t->name, input, input_len, answers, count);
    }
}

/* Calls follow each image: after a refused load they have no answers. */
static void add_changed_bytes(void)
{
    size_t changes = sizeof changed_bytes / sizeof changed_bytes[0];
    for (size_t i = 0; i < changes; i++) {
        const struct changed_byte *c = &changed_bytes[i];
        uint8_t input[TEXT_INPUT_MOST];
        size_t input_len = numbers(SAMPLE "00 00 00 00 00 00 0E 00 00 00 00 00",
                                   16, input, sizeof input);
        const uint8_t answers[] = {c->answer, BENCH_ANSWER_BAD_KIND,
                                   BENCH_ANSWER_BAD_KIND};
        bool loads = c->answer == BENCH_ANSWER_DONE;
        input[2 + c->offset] = c->value;

        char name[64];
        snprintf(name, sizeof name, "sample image, byte %u is %02X", c->offset,
                 (unsigned)c->value);
        add_case(name, input, input_len, answers, loads ? 3 : 1);
    }
}

/*
 * The longest image, 574 bytes: 128 pages of 512 bytes, 8 programs. The bodies
 * are zero but for the last page, READ for domain 2, and for domain 2 in the
 * contexts and masks of programs 0 and 7. Returns the input's length.
 */
static size_t longest_image(uint8_t *input)
{
    memset(input, 0, 2 + 574);
    size_t head = numbers("02 3E  01 00 00 12 00 04  02 00 00 16 02 00 "
                          "03 00 02 16 00 28  80 09 08 00", 16, input, 24);
    uint8_t *pages = input + head;
    uint8_t *programs = pages + 4 * 128;
    pages[4 * 127 + 1] = 0x04;
    programs[1] = programs[3] = 0x04;
    programs[5 * 7 + 1] = programs[5 * 7 + 3] = 0x04;
    return 2 + 574;
}

static void add_longest_image(void)
{
    uint8_t input[TEXT_INPUT_MOST];
    uint8_t answers[TEXT_INPUT_MOST];
    size_t image_end = longest_image(input);
    size_t calls = numbers(
        "01 00 00 00 FF FF  01 00 00 01 00 00  02 00 00 7F 00 03 "
        "02 00 00 80 00 03  02 00 00 7E 00 03" ENTRY SWITCH_TO("08")
        SWITCH_TO("07") RETURN "01 00 00 00 FE 00  01 00 00 00 FD FF",
        16, input + image_end, sizeof input - image_end);
    size_t count = numbers("0  0 3 0 4 11 0 16 0 0 0 9", 10, answers,
                           sizeof answers);
    add_case("longest image", input, image_end + calls, answers, count);

    /* The same image with one byte more is refused for its length alone. */
    static const uint8_t refused[] = {BENCH_ANSWER_IMAGE_LENGTH};
    input[1] = 0x3F;
    add_case("an image of 575 bytes", input, image_end + calls, refused, 1);
    input[0] = 0xFF;
    add_case("an image of 575 bytes, declared longer", input, image_end + 1,
             refused, 1);
}

/*
 * The input with the most answers: the shortest image, 5,455 calls and a
 * remainder of 5 bytes, 2 + 31 + 32,730 + 5 = 32,768. Seven calls come over
 * and over. Their answers are the same in every round: of those that are
 * accepted, the mask command stores the mask of the image, and the grant sets
 * a bit that may be set already.
 */
static void add_full_input(void)
{
    enum { ROUND = 7, CALLS = 5455 };
    static uint8_t input[BENCH_INPUT_MOST + 1];
    static uint8_t answers[1 + CALLS];
    static const uint8_t round_answers[ROUND] = {0, 3, 0, 12, 7, 18, 0};
    uint8_t round_calls[6 * ROUND];
    numbers("01 00 00 00 00 00  01 00 00 01 00 00  04 00 00 00 FF FF "
            "02 00 00 00 00 08  06 00 00 00 00 00  00 00 00 00 00 00 "
            "02 00 00 00 00 09", 16, round_calls, sizeof round_calls);

    size_t image_end = numbers(SHORTEST, 16, input, sizeof input);
    for (size_t i = image_end; i < sizeof input; i++)
        input[i] = round_calls[(i - image_end) % sizeof round_calls];
    answers[0] = BENCH_ANSWER_DONE;
    for (size_t i = 0; i < CALLS; i++)
        answers[1 + i] = round_answers[i % ROUND];

    add_case("5,455 calls in 32,768 bytes", input, 32768, answers, 1 + CALLS);
    add_case("5,455 calls in 32,763 bytes", input, 32763, answers, 1 + CALLS);
    add_case("5,454 calls in 32,762 bytes", input, 32762, answers, CALLS);
    add_case("5,455 calls and more in 32,769 bytes", input, 32769, answers, 0);
}

/* Whether a page gives a right: of any four pages in a row two do, so that a
   shift by 0 to 3 brings each of the four pairs to each edge. */
static bool page_gives(unsigned page, unsigned right, unsigned shift)
{
    return ((page + right + shift) & 2) != 0;
}

/* What an access of so many bytes gets in user mode with the flag clear. */
static uint8_t edge_answer(uint64_t first, unsigned width, unsigned right,
                           unsigned exponent, unsigned pages, unsigned shift)
{
    for (uint64_t byte = first; byte < first + width; byte++) {
        if (byte >> exponent >= pages)
            return BENCH_ANSWER_BAD_ADDRESS;
    }
    for (uint64_t byte = first; byte < first + width; byte++) {
        if (!page_gives((unsigned)(byte >> exponent), right, shift))
            return BENCH_ANSWER_VIOLATION;
    }
    return BENCH_ANSWER_DONE;
}

static size_t put_call(uint8_t *at, unsigned kind, unsigned right,
                       uint64_t address)
{
    at[0] = (uint8_t)kind;
    at[1] = (uint8_t)right;
    at[2] = (uint8_t)(address >> 24);
    at[3] = (uint8_t)(address >> 16);
    at[4] = (uint8_t)(address >> 8);
    at[5] = (uint8_t)address;
    return 6;
}

/*
 * Both sides of every page edge, the end of memory among them, by accesses of
 * one byte and of two, for a page size and a right: in user mode, and after an
 * entry in privileged mode, where only memory's end counts. A page that gives
 * a right does so through domain page % 3, so that neighbours differ; one that
 * does not holds every domain that the program has not.
 */
static void add_page_edges(unsigned exponent, unsigned right, unsigned shift)
{
    static uint8_t input[BENCH_INPUT_MOST];
    static uint8_t answers[BENCH_ANSWERS_MOST];
    unsigned pages = 65536u >> exponent < 128 ? 65536u >> exponent : 128;
    unsigned programs_offset = 22 + 4 * pages;
    const uint8_t head[] = {
        (uint8_t)((programs_offset + 5) >> 8), (uint8_t)(programs_offset + 5),
        1, 0, 0, 18, 0, 4,
        2, 0, 0, 22, (uint8_t)(4 * pages >> 8), (uint8_t)(4 * pages),
        3, 0, (uint8_t)(programs_offset >> 8), (uint8_t)programs_offset, 0, 5,
        (uint8_t)pages, (uint8_t)exponent, 1, 0,
    };
    memcpy(input, head, sizeof head);
    size_t length = sizeof head;
    for (unsigned page = 0; page < pages; page++) {
        for (unsigned r = 0; r < 2; r++) {
            bool gives = page_gives(page, r, shift);
            input[length++] = gives ? 0x00 : 0xFF;
            input[length++] = gives ? (uint8_t)(1u << page % 3) : 0xF8;
        }
    }
    length += numbers("00 07 FF FF 00", 16, input + length, 5);

    size_t count = 0;
    answers[count++] = BENCH_ANSWER_DONE;
    for (uint64_t edge = 1; edge <= pages; edge++) {
        for (unsigned back = 3; back > 0; back--) {
            uint64_t address = (edge << exponent) + 1 - back;
            for (unsigned width = 1; width <= 2; width++) {
                unsigned kind = width == 1 ? BENCH_KIND_ACCESS
                                           : BENCH_KIND_ACCESS_TWO;
                uint8_t answer = edge_answer(address, width, right, exponent,
                                             pages, shift);
                length += put_call(input + length, kind, right, address);
                answers[count++] = answer;
                if (answer != BENCH_ANSWER_VIOLATION)
                    continue;
                length += put_call(input + length, BENCH_KIND_ENTRY, 0, 0);
                length += put_call(input + length, kind, right, address);
                length += put_call(input + length, BENCH_KIND_RETURN, 0, 0);
                memset(answers + count, BENCH_ANSWER_DONE, 3);
                count += 3;
            }
        }
    }
    static const uint64_t far[] = {0xFFFE, 0xFFFF, 0x10000, 0xFFFFFFFE,
                                   0xFFFFFFFF};
    length += put_call(input + length, BENCH_KIND_ENTRY, 0, 0);
    answers[count++] = BENCH_ANSWER_DONE;
    for (size_t i = 0; i < sizeof far / sizeof far[0]; i++) {
        for (unsigned width = 1; width <= 2; width++) {
            unsigned kind = width == 1 ? BENCH_KIND_ACCESS
                                       : BENCH_KIND_ACCESS_TWO;
            length += put_call(input + length, kind, right, far[i]);
            bool outside = (far[i] + width - 1) >> exponent >= pages;
            answers[count++] = outside ? BENCH_ANSWER_BAD_ADDRESS
                                       : BENCH_ANSWER_DONE;
        }
    }

    char name[64];
    snprintf(name, sizeof name, "edges of pages of %u bytes, right %u, shift %u",
             1u << exponent, right, shift);
    add_case(name, input, length, answers, count);
}

static void add_every_page_edge(void)
{
    for (unsigned exponent = 5; exponent <= 12; exponent++) {
        for (unsigned shift = 0; shift < 4; shift++) {
            add_page_edges(exponent, BENCH_RIGHT_READ, shift);
            add_page_edges(exponent, BENCH_RIGHT_WRITE, shift);
        }
    }
}

/* The sample's input filled up with zeros; a record of zeros is no call. */
static void add_long_inputs(void)
{
    enum { TWICE_16_BITS = 131072 + 94 };
    static uint8_t input[TWICE_16_BITS];
    static uint8_t answers[1 + 5453];
    numbers(SAMPLE SAMPLE_CALLS, 16, input, sizeof input);
    memset(answers, BENCH_ANSWER_BAD_KIND, sizeof answers);
    numbers(SAMPLE_ANSWERS, 10, answers, sizeof answers);

    add_case("sample node in 32,768 bytes", input, BENCH_INPUT_MOST, answers,
             sizeof answers);
    add_case("sample node in 32,769 bytes", input, BENCH_INPUT_MOST + 1,
             answers, 0);
    add_case("sample node in 32,770 bytes", input, BENCH_INPUT_MOST + 2,
             answers, 0);

    /* The sample's input has 94 bytes: a length cut to 16 bits would fit. */
    add_case("sample node in 65,630 bytes", input, 65536 + 94, answers, 0);
    add_case("sample node in 131,166 bytes", input, TWICE_16_BITS, answers, 0);

    static const uint8_t refused[] = {BENCH_ANSWER_IMAGE_LENGTH};
    input[0] = 0xFF;
    input[1] = 0xFF;
    add_case("one image in 32,768 bytes", input, BENCH_INPUT_MOST, refused, 1);
    add_case("one image in 32,769 bytes", input, BENCH_INPUT_MOST + 1, refused,
             0);
    memset(input, 0, 2);
    add_case("zeros in 32,768 bytes", input, BENCH_INPUT_MOST, refused, 1);
}

/* The first place where the two differ, or the length. */
static size_t first_difference(const uint8_t *left, const uint8_t *right,
                               size_t length)
{
    size_t i = 0;
    while (i < length && left[i] == right[i])
        i++;
    return i;
}

/* The first place that does not hold the byte, or the length. */
static size_t first_not(const uint8_t *bytes, uint8_t byte, size_t length)
{
    size_t i = 0;
    while (i < length && bytes[i] == byte)
        i++;
    return i;
}

static void check_filled(const struct bench_case *c, size_t room,
                         const char *what, const uint8_t *bytes,
                         size_t length, uint8_t filling)
{
    size_t at = first_not(bytes, filling, length);
    check(at == length,
          "%s, room %zu: %s, place %zu: expected %u still, found %u",
          c->name, room, what, at, (unsigned)filling,
          at < length ? (unsigned)bytes[at] : 0u);
}

/* Runs the case once with so much room, everything around it guarded. */
static void check_guarded(const struct bench_case *c, size_t room,
                          uint8_t filling)
{
    uint8_t *input_area = room_for(GUARD + c->input_len + GUARD);
    uint8_t *answer_area = room_for(GUARD + room + GUARD);
    uint8_t *input = input_area + GUARD;
    uint8_t *answers = answer_area + GUARD;
    uint8_t around_input = (uint8_t)~filling;
    memset(input_area, around_input, GUARD + c->input_len + GUARD);
    memcpy(input, c->input, c->input_len);
    memset(answer_area, filling, GUARD + room + GUARD);

    size_t expected = room < c->count ? 0 : c->count;
    size_t count = bench_run(input, c->input_len, answers, room);

    check(count == expected, "%s, room %zu: expected the count %zu, found %zu",
          c->name, room, expected, count);
    size_t at = first_difference(answers, c->answers, expected);
    check(at == expected,
          "%s, room %zu: answer %zu: expected %u, found %u", c->name, room, at,
          at < expected ? (unsigned)c->answers[at] : 0u,
          at < expected ? (unsigned)answers[at] : 0u);
    check_filled(c, room, "bytes past the count", answers + expected,
                 room - expected, filling);
    check_filled(c, room, "guard before the answers", answer_area, GUARD,
                 filling);
    check_filled(c, room, "guard after the answers", answers + room, GUARD,
                 filling);
    at = first_difference(input, c->input, c->input_len);
    check(at == c->input_len,
          "%s, room %zu: input byte %zu: expected %u still, found %u",
          c->name, room, at,
          at < c->input_len ? (unsigned)c->input[at] : 0u,
          at < c->input_len ? (unsigned)input[at] : 0u);
    check_filled(c, room, "guard before the input", input_area, GUARD,
                 around_input);
    check_filled(c, room, "guard after the input", input + c->input_len,
                 GUARD, around_input);

    free(input_area);
    free(answer_area);
}

/*
 * Runs the case with both buffers ending where their allocations end, so that
 * a memory checker sees any read or write past them. The first byte of each
 * allocation is left out: a buffer of no bytes then still has an address.
 */
static void check_flush(const struct bench_case *c, size_t room)
{
    uint8_t *input = room_for(1 + c->input_len);
    uint8_t *answers = room_for(1 + room);
    memcpy(input + 1, c->input, c->input_len);

    size_t expected = room < c->count ? 0 : c->count;
    size_t count = bench_run(input + 1, c->input_len, answers + 1, room);
    check(count == expected,
          "%s, room %zu, nothing around: expected the count %zu, found %zu",
          c->name, room, expected, count);
    check(count == expected
              && memcmp(answers + 1, c->answers, expected) == 0,
          "%s, room %zu, nothing around: expected the same %zu answers",
          c->name, room, expected);

    free(input);
    free(answers);
}

/* Twice with each filling, so that anything kept from before would show. */
static void check_room(const struct bench_case *c, size_t room)
{
    static const uint8_t fillings[] = {0x5A, 0xA5};
    for (int i = 0; i < 4; i++)
        check_guarded(c, room, fillings[i % 2]);
}

/* Every room up to one more than needed, or some where that is too many. */
static void check_case(const struct bench_case *c)
{
    if (c->count == 0) {
        static const size_t rooms[] = {0, 1, 9, 10, 5454, BENCH_ANSWERS_MOST,
                                       BENCH_ANSWERS_MOST + 1, 40000};
        for (size_t i = 0; i < sizeof rooms / sizeof rooms[0]; i++)
            check_room(c, rooms[i]);
    } else if (c->count <= SHORT_COUNT) {
        for (size_t room = 0; room <= c->count + 1; room++)
            check_room(c, room);
        check_room(c, 1 + c->input_len / 6);
        check_room(c, BENCH_ANSWERS_MOST);
    } else {
        const size_t rooms[] = {0, 1, 2, c->count / 2, c->count - 1, c->count,
                                c->count + 1, 1 + c->input_len / 6,
                                BENCH_ANSWERS_MOST, 40000};
        for (size_t i = 0; i < sizeof rooms / sizeof rooms[0]; i++)
            check_room(c, rooms[i]);
    }
}

/* The header's names, in the order of their numbers (RULES 6.5, 9.1). */
static void check_constants(void)
{
    static const int kinds[] = {
        BENCH_KIND_ACCESS, BENCH_KIND_GRANT, BENCH_KIND_REVOKE,
        BENCH_KIND_MASK, BENCH_KIND_ENTRY, BENCH_KIND_RETURN,
        BENCH_KIND_SWITCH, BENCH_KIND_STORE_FIELD, BENCH_KIND_STORE_CONTEXT,
        BENCH_KIND_STORE_MASK, BENCH_KIND_STORE_MODE,
        BENCH_KIND_ASK_VIOLATION, BENCH_KIND_ACCESS_TWO,
    };
    static const int answers[] = {
        BENCH_ANSWER_DONE, BENCH_ANSWER_NOT_SOUND, BENCH_ANSWER_BAD_RIGHT,
        BENCH_ANSWER_BAD_ADDRESS, BENCH_ANSWER_BAD_PAGE,
        BENCH_ANSWER_BAD_DOMAIN, BENCH_ANSWER_IN_PRIVILEGED,
        BENCH_ANSWER_IN_USER, BENCH_ANSWER_PENDING, BENCH_ANSWER_VIOLATION,
    };
    /* 10 has no name (RULES 9.2). */
    static const int past_ten[] = {
        BENCH_ANSWER_NOT_PREVAILING, BENCH_ANSWER_NOT_LOWER,
        BENCH_ANSWER_STACK_FULL, BENCH_ANSWER_STACK_EMPTY,
        BENCH_ANSWER_DEPTH_NOT_ONE, BENCH_ANSWER_NO_PROGRAM,
        BENCH_ANSWER_BAD_MODE, BENCH_ANSWER_BAD_KIND, BENCH_ANSWER_EMPTY_MASK,
    };
    static const int refused[] = {
        BENCH_ANSWER_IMAGE_LENGTH, BENCH_ANSWER_IMAGE_KIND,
        BENCH_ANSWER_IMAGE_SHAPE_ENTRY, BENCH_ANSWER_IMAGE_SHAPE,
        BENCH_ANSWER_IMAGE_BODY_ENTRY, BENCH_ANSWER_IMAGE_MODE,
    };
    for (int i = 0; i < 13; i++)
        check(kinds[i] == 1 + i, "kind %d is %d in bench.h", 1 + i, kinds[i]);
    for (int i = 0; i < 10; i++)
        check(answers[i] == i, "answer %d is %d in bench.h", i, answers[i]);
    for (int i = 0; i < 9; i++)
        check(past_ten[i] == 11 + i, "answer %d is %d in bench.h", 11 + i,
              past_ten[i]);
    for (int i = 0; i < 6; i++)
        check(refused[i] == 20 + i, "answer %d is %d in bench.h", 20 + i,
              refused[i]);
    check(BENCH_RIGHT_READ == 0 && BENCH_RIGHT_WRITE == 1, "rights: 0 and 1");
    check(BENCH_MODE_USER == 0 && BENCH_MODE_PRIVILEGED == 1,
          "modes: 0 and 1");
    check(BENCH_INPUT_MOST == 32768, "BENCH_INPUT_MOST: expected 32768");
    check(BENCH_ANSWERS_MOST == 1 + 5455, "BENCH_ANSWERS_MOST: expected 5456");
}

int main(void)
{
    add_text_cases();
    add_changed_bytes();
    add_longest_image();
    add_full_input();
    add_long_inputs();
    add_every_page_edge();

    check_constants();

    /* Forwards and backwards, so that each case has other neighbours. */
    for (size_t i = 0; i < case_count; i++)
        check_case(&cases[i]);
    for (size_t i = case_count; i > 0; i--)
        check_case(&cases[i - 1]);

    /* Without guards, a function that writes where it must not would harm
       this program itself, so these come last and only after no failure. */
    for (size_t i = 0; i < case_count && failed == 0; i++) {
        check_flush(&cases[i], 0);
        if (cases[i].count > 0)
            check_flush(&cases[i], cases[i].count - 1);
        check_flush(&cases[i], cases[i].count);
        check_flush(&cases[i], cases[i].count + 1);
    }

    for (size_t i = 0; i < case_count; i++) {
        free(cases[i].input);
        free(cases[i].answers);
    }
    printf("bench: %lu passed, %lu failed\n", passed, failed);
    return failed > 0;
}
