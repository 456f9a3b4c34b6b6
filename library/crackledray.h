/* One audio parameter, proved: its scheduling calls, its block renderer, and a schedule file written and read.
 *
 * The caller owns all memory: a state of 399 numbers and a curve store of 4,096 floats, both for one parameter. Neither is
 * allocated, kept or freed here; a state can be copied, stored and compared like any array of numbers. Its first number is the
 * version of its layout: one that was stored under another version gets 100, and so does an array of zeros.
 *
 * Every function but crackledray_version answers 0, or why it is refused: a number of document 01 or, of a file, of 02, or 100 and up
 * (enum crackledray_answer). Where a call is refused nothing changes; the exceptions are the state of crackledray_make and
 * crackledray_make_under, crackledray_block's steps, current and one, and at of a file's calls, as their comments say. No number that
 * is passed is out of bounds for a function: each is answered or refused.
 *
 * 100: the state has not 399 numbers, or they fail the test that is made of them at every call (README.md beside this file, "The
 * state", lists it: the version is 3, the rate word is 0 or 1, the edition 1 or 2, at most 64 events wait, in order of time, values
 * are finite, times are not below 0, the last block's end is not before its time, ..). The test is the parameter's invariant. Every
 * state that these calls leave passes it; a state that passes it need not have been left by calls, and is answered as what stands
 * in it.
 *
 * For firmware:
 * - There is no allocation and no data that is written to but the caller's: constants alone. From outside the archive wants memcpy
 *   and memset, and nothing else. So every function is reentrant, and calls on different states and stores may run at the same time
 *   on different threads; two on the same state or store may not.
 * - No function waits, calls itself, or calls the caller back. All of them are proved to end.
 * - Stack: enum crackledray_stack has the most that each call takes.
 * - The output is crackledray_block's own until it returns: while a block is computed, values stand there that are not yet mixed with
 *   the input and not yet limited to the range. Hand it to a converter, a DMA or another thread only behind the call.
 * - Everything that a pointer leads to is initialised by the caller, whatever to, also what is only written: the state that is made,
 *   the output, the store, and steps, current and one (false or true) of a block.
 *
 * Assumed, and not tested: an x86-64 program; floats rounded to nearest, ties to even, with subnormals on (MXCSR as a program
 * starts with it: no flush to zero, no denormals are zero); each pointer is good for as many numbers as the length behind it
 * says, and not null where that is 0; what is written (no const) overlaps nothing else that is passed.
 */
#ifndef CRACKLEDRAY_H
#define CRACKLEDRAY_H

#include <stdbool.h>
#include <stddef.h>
#include <stdint.h>

/* A length is 64 bits, as a number of a state. */
#if defined(__cplusplus) && __cplusplus >= 201103L
static_assert(sizeof(size_t) == 8, "crackledray is for 64 bits");
#elif !defined(__cplusplus) && defined(__STDC_VERSION__) && __STDC_VERSION__ >= 201112L
_Static_assert(sizeof(size_t) == 8, "crackledray is for 64 bits");
#else
typedef char crackledray_is_for_64_bits[sizeof(size_t) == 8 ? 1 : -1];
#endif

#ifdef __cplusplus
extern "C" {
#endif

/* Major, minor and patch, 8 bits each. */
#define CRACKLEDRAY_VERSION 0x000800u

/* The same number, of the archive: not this one where header and archive do not belong together. */
uint32_t crackledray_version(void);

enum {
    CRACKLEDRAY_STATE = 399,           /* numbers of a state */
    CRACKLEDRAY_STATE_VERSION = 3,     /* the first of them: which layout it has */
    CRACKLEDRAY_STORE = 4096,          /* floats of a curve store, and of all waiting curves */
    CRACKLEDRAY_EVENTS = 64,           /* events that can wait */
    CRACKLEDRAY_COUNT = 128,           /* samples of a block, at most: under the first edition .. */
    CRACKLEDRAY_LONG_COUNT = 1024,     /* .. and under the second */
    CRACKLEDRAY_FILE_LENGTH = 17867,   /* bytes of a schedule file that is written, at most */
    CRACKLEDRAY_CARD_LENGTH = 408,     /* numbers that keep a reader between two parts: 9, then those of a state */
    CRACKLEDRAY_CARD_VERSION = 1,      /* the first of them: which layout they have */
    CRACKLEDRAY_WINDOW_LENGTH = 65538, /* bytes of a reader's window, in which a field is put together */
    CRACKLEDRAY_PART_LENGTH = 65536    /* bytes of a part, at most */
};

/* What a parameter is made under, and keeps. The editions differ in how many samples a block can have, and in nothing else. */
enum crackledray_edition {
    CRACKLEDRAY_FIRST_EDITION = 1, /* Web Audio API 1.0: 1 to 128 */
    CRACKLEDRAY_SECOND_EDITION = 2 /* Web Audio API 1.1: 1 to 1,024 */
};

/* Bytes of stack that a call takes at most in the x86-64 archive, its return address counted, memcpy's and memset's own not.
 * library/stack reads the exact numbers out of an archive; library/test holds them to these. */
enum crackledray_stack {
    CRACKLEDRAY_STACK_MAKE = 16384, /* crackledray_make, crackledray_make_under */
    CRACKLEDRAY_STACK_HOLD = 65536, /* crackledray_hold */
    CRACKLEDRAY_STACK_CARD = 98304, /* crackledray_card_part, crackledray_card_end */
    CRACKLEDRAY_STACK_CALL = 49152  /* each of the others */
};

/* What a call answers. Where several apply, 100 is given, else the lowest, 11 counting as between 6 and 7; of a field of a file 20 to 28
 * come before document 01's, and of a file the first field that is refused. The other numbers are given by no function. */
enum crackledray_answer {
    CRACKLEDRAY_ANSWERED = 0,         /* done */
    CRACKLEDRAY_BOUNDS = 1,           /* a bound or the default is not finite, or not min <= default <= max */
    CRACKLEDRAY_NOT_FINITE = 2,       /* a value, time, time constant, duration or curve number is not finite */
    CRACKLEDRAY_BEFORE_ZERO = 3,      /* a scheduled or cancel time is below 0 */
    CRACKLEDRAY_NOT_ABOVE = 4,        /* a time constant below 0, or a duration not above 0 */
    CRACKLEDRAY_ZERO_TARGET = 5,      /* an exponential ramp to 0 */
    CRACKLEDRAY_SHORT_CURVE = 6,      /* a curve of fewer than 2 numbers */
    CRACKLEDRAY_QUEUE_FULL = 7,       /* 64 events wait */
    CRACKLEDRAY_STORE_FULL = 8,       /* the waiting curves and this one have more than 4,096 numbers */
    CRACKLEDRAY_BAD_BLOCK = 9,        /* block time, sample period, count (by the edition), or the lengths of input and output */
    CRACKLEDRAY_OUT_OF_ORDER = 10,    /* a block before the last answered one */
    CRACKLEDRAY_INSIDE = 11,          /* inside a waiting curve, or a curve with a waiting event's time inside */
    CRACKLEDRAY_UNKNOWN_EDITION = 12, /* an edition that is neither 1 nor 2 */
    CRACKLEDRAY_BAD_STORE = 14,       /* the curve store has not 4,096 floats */
    CRACKLEDRAY_UNKNOWN_TAG = 20,     /* a field's tag is not 1 to 6 */
    CRACKLEDRAY_WRONG_LENGTH = 21,    /* a field's length is not that of its tag */
    CRACKLEDRAY_MISPLACED = 22,       /* an event before the range, a second range, or none by the end */
    CRACKLEDRAY_CUT_SHORT = 23,       /* the file ends inside a field */
    CRACKLEDRAY_UNWRITABLE = 24,      /* in writing: a held event, a block already answered, or a curve number that is not finite */
    CRACKLEDRAY_OUT_OF_TURN = 28,     /* an event earlier than the one before it, a time of -0, or a time constant of 0 */
    CRACKLEDRAY_BAD_STATE = 100,      /* the state's length, or the test of a state or of a reader's array (not document 01's) */
    CRACKLEDRAY_NO_ROOM = 101,        /* in writing: the slice is shorter than the file */
    CRACKLEDRAY_LONG_PART = 102       /* a part of more than 65,536 bytes */
};

/* Makes a parameter of the first edition; K-rate where k_rate, else A-rate. The state may hold anything before. Refused by 1 the
 * state IS written: it is that of an A-rate parameter of the first edition with all numbers 0 (the version is 3 and the edition 1),
 * which other calls accept. Refused by 100 it stays as it is. The curve store of a new parameter may hold anything. */
uint32_t crackledray_make(uint64_t *state, size_t state_length, float min, float default_value, float max, bool k_rate);

/* The same under an edition, 1 or 2; any other number is refused by 12, where the bounds are not by 1. Refused by 1 or 12 the state
 * IS written: it is the one above, of the first edition. */
uint32_t crackledray_make_under(uint64_t *state, size_t state_length, float min, float default_value, float max, bool k_rate,
                                uint64_t edition);

/* An immediate set: a step at time 0. */
uint32_t crackledray_set(uint64_t *state, size_t state_length, float value);

/* A step to the value at the time. */
uint32_t crackledray_step(uint64_t *state, size_t state_length, float value, double time);

/* A ramp that reaches the value at the time. */
uint32_t crackledray_linear(uint64_t *state, size_t state_length, float value, double time);
uint32_t crackledray_exponential(uint64_t *state, size_t state_length, float value, double time);

/* From the time on, towards the value, with a time constant; 0 makes it a step. */
uint32_t crackledray_target(uint64_t *state, size_t state_length, float value, double time, double constant);

/* From the time on, over the duration, through the numbers, with straight lines between them. They are copied. */
uint32_t crackledray_curve(uint64_t *state, size_t state_length, const float *values, size_t values_length, double time,
                           double duration, float *store, size_t store_length);

/* Removes every event at the time or later, and every curve that ends then or later (at start + duration, or at its hold time). If
 * the first event is among them, and is a ramp, or a curve that had started by the end of the last answered block, the value
 * returns to that of the last finished event, where there is one. */
uint32_t crackledray_cancel(uint64_t *state, size_t state_length, double time, float *store, size_t store_length);

/* Removes every event later than the time, and holds what leads there at its level at the time: the curve that runs then, else a
 * ramp, if the first of those events is one (it stays), else the target that runs. A curve that starts later than the time goes, and
 * the value returns, as by a cancel. */
uint32_t crackledray_hold(uint64_t *state, size_t state_length, double time, float *store, size_t store_length);

/* One block: count samples (1 to 128, under the second edition 1 to 1,024) from the time on, a sample period apart, into the first
 * places of the output; the other places stay. The input is mixed in: count numbers, or none for silence. steps: events walked, at
 * most 129. current: the value before the block. one: all samples are one value. Refused, these are 0, 0 and false, and by 100 they
 * stay as they are; so the caller initialises them. */
uint32_t crackledray_block(uint64_t *state, size_t state_length, double time, double period, size_t count, const float *input,
                           size_t input_length, float *output, size_t output_length, float *store, size_t store_length,
                           size_t *steps, float *current, bool *one);

/* ---- A schedule file for the memory card (document 02, C-11): a run of fields, each one byte tag, two bytes length, low byte first,
 * then that many bytes. The range is first; what is written is read back event for event, and to the same bytes. */

/* Writes the schedule of a parameter before its first block, with no held event, into the slice, and nothing behind it. at: how many
 * bytes the file has. Refused, nothing is written; at is by 24 the place of the event, from 0 in queue order (0 of a block already
 * answered), by 14 it is 0, by 101 how many bytes the file has; by 100 it stays. 14 is given before 24, and 24 before 101. */
uint32_t crackledray_card_write(const uint64_t *state, size_t state_length, const float *store, size_t store_length, uint8_t *out,
                                size_t out_length, size_t *at);

/* A reader before the first part, of a parameter that is to be made K-rate where k_rate, else A-rate, under an edition. What is kept of
 * a reader between two calls stands in card (408 numbers) and numbers (4,096 floats), which may hold anything before, and from the
 * first part on in the window (65,538 bytes). The caller lends the same three to every call of one file and writes to none of them; a
 * card can be copied and stored with the other two. 100: a length. An unknown edition is refused at the range, by 12. */
uint32_t crackledray_card_open(uint64_t *card, size_t card_length, float *numbers, size_t numbers_length, bool k_rate,
                               uint64_t edition);

/* The next part of the file, of at most 65,536 bytes, cut anywhere. A field that is refused is not said here but at the end: card[1] has
 * its number, card[2] its offset, and behind it parts are answered by 0 and not read. 102: a longer part, of which nothing is read.
 * 100: a length, or the test of the card, as of a state (README.md, "The card"). */
uint32_t crackledray_card_part(uint64_t *card, size_t card_length, uint8_t *window, size_t window_length, float *numbers,
                               size_t numbers_length, const uint8_t *part, size_t part_length);

/* The end of the file: its parameter is written over the state, which may hold anything before, and its numbers over the store. at: how
 * many bytes the file has. Refused by a field's number, at is the byte offset of that field, by 14 (the store's length, given first) it is
 * 0, and state and store stay as they are; by 100 at stays too. Behind the end the numbers hold anything: a reader is opened anew. */
uint32_t crackledray_card_end(const uint64_t *card, size_t card_length, const uint8_t *window, size_t window_length, float *numbers,
                              size_t numbers_length, uint64_t *state, size_t state_length, float *store, size_t store_length,
                              size_t *at);

#ifdef __cplusplus
}
#endif

#endif
