/*
 * The protection core's run for a test bench in C.
 *
 * bench_run loads an image, makes the calls that follow it on the loaded
 * machine, one after the other, and hands back one answer for each.
 *
 * THE INPUT, all 16-bit numbers with the high byte first:
 *
 *   2 bytes   the image length
 *   the image, that many bytes; fewer if the input ends before
 *   6 bytes for each call: kind, right, A (2 bytes), B (2 bytes)
 *
 *   The BENCH_KIND_.. constants below say what each kind makes of the right, A
 *   and B; parts that a kind does not use are ignored. A remainder of 1 to 5
 *   bytes after the last whole record is passed over. Where the image length
 *   is more than the input still holds, the bytes that are there are the image
 *   (it may load), and no call follows. With fewer than 2 bytes the image is
 *   empty, and refused with 20.
 *
 * THE IMAGE, as a picture; docs/RULES.md, section 5, has it in full. A node
 * has P pages of 2 to the e bytes and N programs; P is 1 to 128, e 5 to 12,
 * N 1 to 8, and the whole memory at most 65,536 bytes.
 *
 *   from byte   what                                        sizes in bytes
 *
 *           0   contents   kind 1, 0, offset 18, length 4          1 1 2 2
 *           6              kind 2, 0, offset 22, length 4*P        1 1 2 2
 *          12              kind 3, 0, offset 22+4*P, length 5*N    1 1 2 2
 *          18   shape      P, e, N, 0                              1 1 1 1
 *          22   pages      READ field, WRITE field                     2 2
 *                          .. these two for each page
 *      22+4*P   programs   global context, mask, mode                2 2 1
 *                          .. these three for each program
 *  22+4*P+5*N   the image ends here
 *
 *   Bit s of a field, a context or a mask is domain s. The mode is 0 for user
 *   and 1 for privileged. A loaded machine runs program 0.
 *
 * THE ANSWERS are bytes, first the load's, then each call's in turn. They are
 * the BENCH_ANSWER_.. constants below: a call has one of 0 to 19, and the load
 * has 0 or one of 20 to 25. 1 does not occur in a run: a loaded machine is
 * sound, and every call leaves it so. 10 is given by nothing, and is not used
 * again. 26 and 27 are given by the writer of images alone, 30 to 32 by the
 * planner of contexts, and 33 and 34 by the least mask; a run calls none of
 * them (docs/RULES.md, 5.15, 9.2, 11.4, 12.4).
 *
 * HOW MANY ANSWERS an input of n bytes has:
 *
 *   n above BENCH_INPUT_MOST      none
 *   the load is refused           1, the load's; the calls are not made
 *   the load answers 0            1 + (n - 2 - image bytes) / 6, rounded down
 *
 *   1 + n / 6 (rounded down) bytes of room are enough for an input of n
 *   bytes, and BENCH_ANSWERS_MOST bytes are enough for every input.
 *
 * WHAT COMES BACK. If the input is above BENCH_INPUT_MOST bytes, or
 * answers_len is less than the number of answers, the result is 0 and the
 * whole answer buffer keeps its bytes. Otherwise the result is the number of
 * answers, at least 1; they stand in answers[0] up to answers[result - 1], and
 * every byte of the buffer from answers[result] on keeps its contents. The
 * input is never changed. The function returns for every input. It allocates
 * nothing and keeps nothing between calls, so the same input always gets the
 * same answers.
 *
 * WHAT THE CALLER OWES. input points to input_len bytes that may be read,
 * answers to answers_len bytes that may be read and written. The two do not
 * overlap. A length of 0 is fine: nothing is then read or written through that
 * pointer, but it must not be null, so pass the address of any byte. Until the
 * function returns, no other thread writes either buffer or reads the answer
 * buffer. Threads that each have buffers of their own may call at one time.
 * The stack has BENCH_STACK_ENOUGH bytes left.
 *
 * THE LIBRARY, target/staticlib/librun.a, is for x86-64 Linux. It defines
 * bench_run and nothing else, and takes two functions from whoever links it,
 * memcpy and memset (nm lists no other undefined symbol). Every C library has
 * them; a program without one has to bring its own.
 */
#ifndef BENCH_H
#define BENCH_H

#include <stddef.h>
#include <stdint.h>

/*
 * The version of this header, so that a program can ask which one it is
 * compiled with. The major number grows where a program that was right may
 * have to change: other answers to the calls listed here, another image,
 * another duty of the caller, a constant that is gone. The minor number grows
 * where something is only added: a record that was answered by 18 becomes a
 * call, or there is one more function or constant. The library carries no
 * number, so take the two from the same checkout.
 *
 * From 2.0 on an access of two bytes is presented by kind 13. Kind 1 asks for
 * one byte alone; before, the first byte's page decided for both.
 *
 * From 3.0 on a mask command whose mask shares no domain with the live global
 * context is refused, with 19; before, it was accepted.
 *
 * From 4.0 on 10 has no constant: BENCH_ANSWER_NO_TABLE_ENTRY is gone. No run
 * ever gave it, so that a program that leaves it out gets the same answers.
 */
#define BENCH_VERSION_MAJOR 4
#define BENCH_VERSION_MINOR 0

/* The longest input that is taken, in bytes. */
#define BENCH_INPUT_MOST 32768

/*
 * The most answers an input can have: the load's, and one for each whole
 * record after the 2 length bytes and the shortest image that loads, 31 bytes:
 * 1 + (32,768 - 2 - 31) / 6, rounded down.
 */
#define BENCH_ANSWERS_MOST 5456

/*
 * How much stack a call of bench_run should find free, in bytes. It is more
 * than one and a half times the most that was measured, in November 2026 with
 * rattle-kit-13f:
 *
 * The function itself took 1,360: the return address, six registers and 1,304
 * bytes of locals, as its disassembly showed (objdump -d). It calls memcpy,
 * memset, and the load of an image, which took 720 more in the same way and
 * calls the same two; they put 8 more there and what they take. On a stack
 * filled with a pattern a call took 2,088, with glibc 2.36. Where a program is
 * linked so that memcpy and memset are looked up when they are first called,
 * the first call took 5,288: the system's loader then works on the same stack
 * and saves vector registers there, more on a processor with wider ones.
 * tests/bench/stack.c measures both calls again.
 */
#define BENCH_STACK_ENOUGH 8192

/* The right of a record: what the access is for, or which field is meant. */
enum {
    BENCH_RIGHT_READ = 0,
    BENCH_RIGHT_WRITE = 1
};

/* The mode of a program in an image, and of a kernel store of the mode. */
enum {
    BENCH_MODE_USER = 0,
    BENCH_MODE_PRIVILEGED = 1
};

/* The kinds of call, and what each makes of the record's right, A and B. */
enum {
    /* access for the right to one byte, address A * 65,536 + B */
    BENCH_KIND_ACCESS = 1,
    /* grant the right to page A to domain B */
    BENCH_KIND_GRANT = 2,
    /* revoke the right to page A from domain B */
    BENCH_KIND_REVOKE = 3,
    /* mask command: the mask becomes B, which must share a domain with the
       live global context */
    BENCH_KIND_MASK = 4,
    /* interrupt entry */
    BENCH_KIND_ENTRY = 5,
    /* return from an interrupt */
    BENCH_KIND_RETURN = 6,
    /* switch to program B */
    BENCH_KIND_SWITCH = 7,
    /* kernel store: the field of the right to page A becomes B */
    BENCH_KIND_STORE_FIELD = 8,
    /* kernel store: the global context becomes B */
    BENCH_KIND_STORE_CONTEXT = 9,
    /* kernel store: the mask becomes B, whatever the global context is */
    BENCH_KIND_STORE_MASK = 10,
    /* kernel store: the mode becomes B, a BENCH_MODE_.. */
    BENCH_KIND_STORE_MODE = 11,
    /* the kernel's question for the last violation: who was denied what; a run
       gives its number alone, not what it hands out */
    BENCH_KIND_ASK_VIOLATION = 12,
    /* access for the right to two bytes, address A * 65,536 + B and the next;
       the page of each must give the right */
    BENCH_KIND_ACCESS_TWO = 13
};

/* The answers. */
enum {
    /* done; an access: allowed */
    BENCH_ANSWER_DONE = 0,

    /* A call is refused, or an access is a violation. */

    /* the machine is not sound; not in a run */
    BENCH_ANSWER_NOT_SOUND = 1,
    /* the right is above 1 */
    BENCH_ANSWER_BAD_RIGHT = 2,
    /* the address is outside memory, which has page count * page size bytes,
       or that of the second byte is; nothing wraps */
    BENCH_ANSWER_BAD_ADDRESS = 3,
    /* there is no such page: the page count or above */
    BENCH_ANSWER_BAD_PAGE = 4,
    /* the domain is above 15 */
    BENCH_ANSWER_BAD_DOMAIN = 5,
    /* grant, revoke or mask command in privileged mode */
    BENCH_ANSWER_IN_PRIVILEGED = 6,
    /* return, switch, kernel store or question for the last violation in user
       mode */
    BENCH_ANSWER_IN_USER = 7,
    /* an interrupt is pending: no access and no command before its entry */
    BENCH_ANSWER_PENDING = 8,
    /* violation: the field of the right to the page of a byte that is touched
       and the local context, which is global context AND mask, share no
       domain; an interrupt is now pending, and the machine keeps program,
       right and address, of two bytes the first one's, as the last violation */
    BENCH_ANSWER_VIOLATION = 9,
    /* the field has no prevailing domain, or the local context lacks it */
    BENCH_ANSWER_NOT_PREVAILING = 11,
    /* the domain is not of lower level (a greater number) than the
       prevailing domain */
    BENCH_ANSWER_NOT_LOWER = 12,
    /* interrupt entry at depth 8: no room for another saved mode */
    BENCH_ANSWER_STACK_FULL = 13,
    /* return at depth 0: no saved mode */
    BENCH_ANSWER_STACK_EMPTY = 14,
    /* switch at a depth other than 1 */
    BENCH_ANSWER_DEPTH_NOT_ONE = 15,
    /* switch: there is no such program: the program count or above */
    BENCH_ANSWER_NO_PROGRAM = 16,
    /* kernel store: the mode is neither 0 nor 1 */
    BENCH_ANSWER_BAD_MODE = 17,
    /* the record is of no kind listed above */
    BENCH_ANSWER_BAD_KIND = 18,
    /* mask command: the mask and the live global context share no domain; the
       mask before stays */
    BENCH_ANSWER_EMPTY_MASK = 19,

    /* The image is refused. */

    /* it is shorter than 31 or longer than 574 bytes */
    BENCH_ANSWER_IMAGE_LENGTH = 20,
    /* contents: the kind or the zero byte of an entry is wrong */
    BENCH_ANSWER_IMAGE_KIND = 21,
    /* contents: the shape's offset is not 18 or its length is not 4 */
    BENCH_ANSWER_IMAGE_SHAPE_ENTRY = 22,
    /* shape: P, e, N or the zero byte is out of range, or there is too much
       memory, above 65,536 bytes */
    BENCH_ANSWER_IMAGE_SHAPE = 23,
    /* contents: offset or length of pages or programs is wrong, or the image
       does not stop after the last program */
    BENCH_ANSWER_IMAGE_BODY_ENTRY = 24,
    /* a program's mode is neither 0 nor 1 */
    BENCH_ANSWER_IMAGE_MODE = 25
};

#ifdef __cplusplus
extern "C" {
#endif

/* Runs the input and gives back the count of answers; see above. */
size_t bench_run(const uint8_t *input, size_t input_len,
                 uint8_t *answers, size_t answers_len);

#ifdef __cplusplus
}
#endif

#endif
