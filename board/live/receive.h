/* The receive buffer as firmware has it: bytes come in as they come, and at each tick at most one line goes out, to pressgully_line.
 *
 * Where the buffer has a CR LF, the whole buffer is lent to the call, which obeys its first line; then the bytes up to and with that CR LF
 * leave, and the rest stays for the next tick. Where the buffer is full and has none, no CR LF can come any more: it is lent once, so that
 * the controller tells 11, and is then emptied but for a last CR, and what follows up to the next CR LF is dropped: it is the rest of that
 * line and no command. */
#ifndef PRESSGULLY_RECEIVE_H
#define PRESSGULLY_RECEIVE_H

#include <stdbool.h>
#include <stddef.h>
#include <stdint.h>

enum { RECEIVE_ROOM = 256 }; /* bytes; a line of 64 with its CR LF fits three times */

struct receive {
    uint8_t bytes[RECEIVE_ROOM];
    size_t length;
    size_t leaving; /* bytes that leave when the tick is done */
    bool dropping;  /* up to the next CR LF: the rest of a line that filled the buffer */
};

/* How many bytes there is room for. */
size_t receive_room(const struct receive *r);

/* Bytes that have come, at most as many as there is room for. */
void receive_put(struct receive *r, const uint8_t *bytes, size_t length);

/* Whether this tick has a line; then the whole buffer is lent to the call, and `line` is how many bytes stand before the first CR LF, or
 * all of a full buffer without one. */
bool receive_line(struct receive *r, size_t *line);

/* After the call: the line leaves the buffer. */
void receive_done(struct receive *r);

/* The request that a log has for a line of this many bytes at the buffer's start, and its length, 1 to COMMAND_LIMIT: the line, or where a
 * log can't hold it one that is answered in the same way. docs/LIVE.md has which and why. */
size_t receive_logged(const struct receive *r, size_t line, uint8_t *request);

#endif
