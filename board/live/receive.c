/* What receive.h says. */
#include "receive.h"

#include "reading.h"

#include <string.h>

size_t receive_room(const struct receive *r)
{
    return RECEIVE_ROOM - r->length;
}

void receive_put(struct receive *r, const uint8_t *bytes, size_t length)
{
    memcpy(r->bytes + r->length, bytes, length);
    r->length += length;
}

/* The place of the first CR LF; the buffer's length where there is none. */
static size_t first_end(const struct receive *r)
{
    size_t at;

    for (at = 0; at + 1 < r->length; at++)
        if (r->bytes[at] == '\r' && r->bytes[at + 1] == '\n')
            return at;
    return r->length;
}

static void leave(struct receive *r, size_t count)
{
    r->length -= count;
    memmove(r->bytes, r->bytes + count, r->length);
}

/* All but a last CR, whose LF may be still to come. */
static size_t all_but_cr(const struct receive *r)
{
    return r->length > 0 && r->bytes[r->length - 1] == '\r' ? r->length - 1 : r->length;
}

bool receive_line(struct receive *r, size_t *line)
{
    size_t end = first_end(r);

    if (r->dropping) {
        r->dropping = end == r->length;
        leave(r, r->dropping ? all_but_cr(r) : end + 2);
        end = first_end(r);
    }
    if (end < r->length)
        r->leaving = end + 2;
    else if (r->length == RECEIVE_ROOM) {
        r->leaving = all_but_cr(r);
        r->dropping = true;
    } else
        return false;
    *line = end;
    return true;
}

void receive_done(struct receive *r)
{
    leave(r, r->leaving);
    r->leaving = 0;
}

size_t receive_logged(const struct receive *r, size_t line, uint8_t *request)
{
    const size_t length = line < COMMAND_LIMIT ? line : COMMAND_LIMIT; /* over 64 bytes all are alike: 11 and no reply */
    size_t i;

    if (length == 0) { /* answered as one byte that is no prefix: 11, or 12 where there is an address */
        request[0] = '?';
        return 1;
    }
    for (i = 0; i < length; i++) /* LF would end the log's line; neither is a letter, a digit or @ */
        request[i] = r->bytes[i] == '\n' ? '?' : r->bytes[i];
    if (length == 2 && memcmp(request, "--", 2) == 0) /* a log's word for no request; both are unknown commands */
        request[1] = '?';
    return length;
}
