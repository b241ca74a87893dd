/* The controller for a C main loop, C99 and later. It keeps nothing between calls, allocates nothing and has no globals: the state lies in
 * the caller's 288 bytes, the settings in the caller's 128, and docs/IMAGES.md says what stands where. Calls on different states may run at
 * the same time. Every call is proved to answer and to write what crates/board/specs says, for all bytes of all buffers.
 *
 * A buffer is a pointer and its length, in elements. The pointer is never NULL, also where the length is 0, is aligned for its elements, and
 * no two buffers of a call overlap; that much, and that the elements are there, is all that is asked of a caller.
 *
 * A tick is done in the state's own buffer, step by step, so that a call needs little stack (docs/COST.md has each call's). While a call runs,
 * the buffer is between two states: what is to outlast a power cut is copied between calls.
 *
 * Each call answers 0 or the number of a refusal; the first that applies is given:
 *   20  a settings, state or earlier image of a wrong length
 *   21  an impossible image: a field out of its range, an unused byte that is not 0, a day that does not balance, a tracked sum past the
 *       allowance
 *   10  settings outside the outline's table
 *   14  an answer buffer of fewer than PRESSGULLY_ANSWER bytes (a tick or a line)
 *   15  a block of more than PRESSGULLY_BLOCK counts
 * After these no byte of any buffer has changed and no tick was run. Any other answer is that of a tick that was run; so is a line's 14 with
 * an answer buffer that is long enough: its reply buffer was too short. */
#ifndef PRESSGULLY_H
#define PRESSGULLY_H

#include <stdbool.h>
#include <stddef.h>
#include <stdint.h>

#ifdef __cplusplus
extern "C" {
#endif

#define PRESSGULLY_SETTINGS 128 /* bytes of a settings image */
#define PRESSGULLY_STATE 288    /* bytes of a state image */
#define PRESSGULLY_STATE_A3 256  /* bytes of a state image before setpoints could wait */
#define PRESSGULLY_ANSWER 64    /* bytes of an answer */
#define PRESSGULLY_POINTS 7     /* setpoints of a write */
#define PRESSGULLY_BLOCK 4096   /* counts of a block */
#define PRESSGULLY_REPLY 64     /* no reply is longer, CR LF with it */

/* What a tick may be asked. */
enum {
    PRESSGULLY_NOTHING = 0,
    PRESSGULLY_ZERO = 1,
    PRESSGULLY_TARE = 2,
    PRESSGULLY_TARE_CLEAR = 3,
    PRESSGULLY_START = 4,
    PRESSGULLY_STOP = 5,
    PRESSGULLY_SET = 6, /* with its seven numbers; outside stage 0 they wait, and are in use when the stage is 0 again */
    PRESSGULLY_TOTAL_CLEAR = 7,
    PRESSGULLY_UNDO = 8,
    PRESSGULLY_SHOW_GROSS = 9,
    PRESSGULLY_SHOW_NET = 10,
    PRESSGULLY_DAY_CLOSE = 11,
    PRESSGULLY_DISCHARGE = 12
};

/* The opening: fills the state image. 0, 20, 21 (settings alone) or 10. What the state's bytes were is not asked. */
uint32_t pressgully_open(const uint8_t *settings, size_t settings_len, uint8_t *state, size_t state_len);

/* After a change of the program: makes the present state image of an earlier one, of PRESSGULLY_STATE_A3 bytes, with no setpoints waiting. 0,
 * 20, 21 or 10; the state is filled where it answers 0. What its bytes were is not asked. The earlier image stands in a buffer of its own; its
 * 20 is also for an image of the present length. */
uint32_t pressgully_grow(const uint8_t *settings, size_t settings_len, const uint8_t *earlier, size_t earlier_len, uint8_t *state,
                         size_t state_len);

/* One tick. `points` are the seven setpoints of a PRESSGULLY_SET, and not looked at otherwise. A request that is none of the above, or a
 * PRESSGULLY_SET with more or fewer than seven points, answers 13, and the tick runs as one that is asked nothing. Else it answers 0 or the
 * outline's refusal of the request, 1 to 9. */
uint32_t pressgully_tick(const uint8_t *settings, size_t settings_len, uint8_t *state, size_t state_len, int32_t count, bool contact,
                         uint32_t request, const uint32_t *points, size_t points_len, uint8_t *answer, size_t answer_len);

/* One tick with a receive buffer, whose first line it obeys. The reply goes to the start of the reply buffer, and its length stands in byte
 * 15 of the answer. Answers what the line is told: 0, a refusal 1 to 9, or 11 to 14. */
uint32_t pressgully_line(const uint8_t *settings, size_t settings_len, uint8_t *state, size_t state_len, int32_t count, bool contact,
                         const uint8_t *receive, size_t receive_len, uint8_t *reply, size_t reply_len, uint8_t *answer, size_t answer_len);

/* A block of counts, one tick each, with one contact and no requests. 0, 20, 21, 10 or 15. */
uint32_t pressgully_block(const uint8_t *settings, size_t settings_len, uint8_t *state, size_t state_len, const int32_t *counts,
                          size_t counts_len, bool contact);

#ifdef __cplusplus
}
#endif

#endif
