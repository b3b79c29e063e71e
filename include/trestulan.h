/* Trestulan: checks guards. Link with libtrestulan.a (x86-64 Linux), as `pkg-config --cflags --libs trestulan` says.
 *
 * A guard is a text of bytes, given by its first byte and its length; no byte after it is read, and it needs no
 * zero at its end. Codes are made of A-Z a-z 0-9 _ and the dot; from loosest to tightest bind = > | & !, with
 * ( ) and #0, #1 for false and true; spaces may stand between them. Flags are numbered 1 to n by first appearance.
 * A state is a number below 2^n: the first flag is its highest bit, the last its lowest.
 *
 * Each entry answers one number, kind x 2^32 + payload. Kind 3 is a refusal in every entry, with the payload
 * number x 2^16 + place. No entry keeps a pointer, allocates, or has a state of its own; several threads may call
 * at once. Nothing outside the lent memory is read or written, and a refusal leaves lent memory as it was.
 * A pointer is never null, not even with the length 0; memory that is written does not overlap the text.
 *
 * Before version 1.0 these stay as they are: the entries' names and parameters, kinds and payloads, the numbers of refusals and what each
 * means. Further entries, kinds and refusals may come, ceilings may rise, and a refusal may come to say more in the payload's bits from 24
 * up: take an answer apart by the functions below, and treat a kind or a number that you do not know as not covered.
 *
 * An entry takes at most so much of the calling thread's stack as its constant TRESTULAN_STACK_.. names, whatever the text and the number;
 * TRESTULAN_STACK is enough for every entry.
 */
#ifndef TRESTULAN_H
#define TRESTULAN_H

#include <stddef.h>
#include <stdint.h>

#ifdef __cplusplus
extern "C" {
#endif

/* Kinds of check's answer. */
#define TRESTULAN_COVERED 0u   /* true in every state; payload 0 */
#define TRESTULAN_GAP 1u       /* payload: the first state that makes the guard false */
#define TRESTULAN_UNDECIDED 2u /* not decided at this depth; payload 0 */

/* Kinds of list's answer. */
#define TRESTULAN_DONE 0u /* payload: how many states were written, and there are no more */
#define TRESTULAN_MORE 1u /* payload: the next gap; the slice is full */

/* The kind of what read and name answer where they do not refuse. */
#define TRESTULAN_FOUND 0u

/* The kind of a refusal, in every entry. */
#define TRESTULAN_REFUSED 3u

/* Numbers of refusals, with the place that each has. */
#define TRESTULAN_TEXT_TOO_LONG 1u      /* text over 4,096 bytes: at 4096 */
#define TRESTULAN_DEPTH_TOO_LARGE 2u    /* depth over 24: at 0 */
#define TRESTULAN_STRAY_BYTE 3u         /* a byte of no token, or # without 0 or 1: at that byte */
#define TRESTULAN_CODE_TOO_LONG 4u      /* code over 12 bytes: at its first byte */
#define TRESTULAN_MISPLACED 5u          /* a token that cannot stand there: at its first byte; text ends too early: at its length */
#define TRESTULAN_TOO_MANY_BRACKETS 6u  /* a 33rd bracket open at once: at that bracket */
#define TRESTULAN_TOO_MANY_FLAGS 7u     /* a 25th flag: at its code */
#define TRESTULAN_TOO_MANY_SIGNS 8u     /* a 256th two-sided connective: at that sign */
#define TRESTULAN_NO_SUCH_STATE 9u      /* state or start not below 2^n: at 0 */
#define TRESTULAN_ROOM_TOO_SMALL 10u    /* read: room under 3 numbers a triplet: at 0 */
#define TRESTULAN_NO_SUCH_FLAG 11u      /* name: flag number 0 or over n: at 0 */

/* The version of this header and of the archive that it came with. */
#define TRESTULAN_VERSION "0.1.0"

/* Bytes of stack that each entry keeps within, for every text and number; measured on the worst texts known. */
#define TRESTULAN_STACK_READ 40960u
#define TRESTULAN_STACK_NAME 49152u
#define TRESTULAN_STACK_EVALUATE 49152u
#define TRESTULAN_STACK_CHECK_2 49152u /* check at depths 0 to 2 */
#define TRESTULAN_STACK_CHECK 122880u  /* check at every depth */
#define TRESTULAN_STACK_LIST 122880u
#define TRESTULAN_STACK TRESTULAN_STACK_CHECK

/* Ceilings. */
#define TRESTULAN_MAX_TEXT 4096u
#define TRESTULAN_MAX_DEPTH 24u
#define TRESTULAN_MAX_CODE 12u
#define TRESTULAN_MAX_BRACKETS 32u
#define TRESTULAN_MAX_FLAGS 24u
#define TRESTULAN_MAX_TRIPLETS 255u
#define TRESTULAN_MAX_ROOM (3u * TRESTULAN_MAX_TRIPLETS) /* room that read never finds too small */

/* Checks a guard at a depth of 0 to 24. A greater depth decides no guard less; a depth not below the number of flags decides every
 * guard. It does not always take longer: from the number of flags up the first gap is looked for directly, which is the cheapest on most
 * guards, while depths just below that number are the dearest. Kinds: COVERED, GAP, UNDECIDED, REFUSED. Stack: TRESTULAN_STACK_CHECK; at
 * depths 0 to 2 TRESTULAN_STACK_CHECK_2. */
uint64_t trestulan_check(const void *text, size_t length, uint64_t depth);

/* Evaluates a guard in a state: 0 false, 1 true, or a refusal. Stack: TRESTULAN_STACK_EVALUATE. */
uint64_t trestulan_evaluate(const void *text, size_t length, uint64_t state);

/* Writes the gaps from start on, ascending, as many as there is room for; entries behind them are unchanged.
 * Kinds: DONE, MORE, REFUSED. With room 0 nothing is written, and the answer is still true. Stack: TRESTULAN_STACK_LIST. */
uint64_t trestulan_list(const void *text, size_t length, uint64_t start, uint32_t *out, size_t room);

/* Writes kind, y and z of each triplet from the start of the room; the rest is unchanged.
 * Kinds: FOUND (payload flags x 2^24 + triplets x 2^16 + root literal), REFUSED.
 * To learn n, the number of flags, lend TRESTULAN_MAX_ROOM numbers and take trestulan_read_flags of the answer; or ask name for 1, 2 and
 * so on until it refuses with NO_SUCH_FLAG. Stack: TRESTULAN_STACK_READ. */
uint64_t trestulan_read(const void *text, size_t length, uint16_t *out, size_t room);

/* Where flag i, counted from 1, first stands in the text.
 * Kinds: FOUND (payload start x 2^16 + length of its code), REFUSED. Stack: TRESTULAN_STACK_NAME. */
uint64_t trestulan_name(const void *text, size_t length, uint64_t i);

/* ---- taking an answer apart */

/* The kind of an answer. Evaluate's true and false are both of kind 0: look for a refusal, then at the number. */
static inline uint32_t trestulan_kind(uint64_t answer) { return (uint32_t)(answer >> 32); }

static inline uint32_t trestulan_payload(uint64_t answer) { return (uint32_t)(answer & UINT64_C(0xffffffff)); }

static inline int trestulan_is_refused(uint64_t answer) { return trestulan_kind(answer) == TRESTULAN_REFUSED; }

/* Of a refusal: its number, and the place in the text, counted in bytes from 0. */
static inline uint32_t trestulan_refusal_number(uint64_t answer) { return (trestulan_payload(answer) >> 16) & 0xffu; }

static inline uint32_t trestulan_refusal_place(uint64_t answer) { return trestulan_payload(answer) & 0xffffu; }

/* The value, 0 or 1, of flag i in a state of so many flags; i is one of 1 to flags. */
static inline uint32_t trestulan_flag_value(uint64_t state, uint32_t flags, uint32_t i) {
    return (uint32_t)(state >> (flags - i)) & 1u;
}

/* How many states list wrote into a slice with this room. */
static inline size_t trestulan_list_written(uint64_t answer, size_t room) {
    if (trestulan_is_refused(answer)) {
        return 0;
    }
    return trestulan_kind(answer) == TRESTULAN_MORE ? room : (size_t)trestulan_payload(answer);
}

/* Of what read found. */
static inline uint32_t trestulan_read_flags(uint64_t answer) { return trestulan_payload(answer) >> 24; }

static inline uint32_t trestulan_read_triplets(uint64_t answer) { return (trestulan_payload(answer) >> 16) & 0xffu; }

static inline uint32_t trestulan_read_root(uint64_t answer) { return trestulan_payload(answer) & 0xffffu; }

/* Of what name found. */
static inline uint32_t trestulan_name_start(uint64_t answer) { return trestulan_payload(answer) >> 16; }

static inline uint32_t trestulan_name_length(uint64_t answer) { return trestulan_payload(answer) & 0xffffu; }

#ifdef __cplusplus
}
#endif

#endif
