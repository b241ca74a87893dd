/* The serial line's end at the desk: a pseudo-terminal that any serial client can open, and the pace of a line of some baud. Nothing here
 * waits: what has not come is not taken in, and what can't go out stays in the queue for the next tick. */
#ifndef PRESSGULLY_TERMINAL_H
#define PRESSGULLY_TERMINAL_H

#include <stdbool.h>
#include <stddef.h>
#include <stdint.h>

enum {
    SEND_ROOM = 256,        /* bytes of replies that wait to go out */
    TERMINAL_PATH = 128,    /* bytes of the terminal's path */
    BAUD_DEFAULT = 9600,
    BAUD_LEAST = 110,       /* or 0: bytes go as fast as they can */
    BAUD_MOST = 4000000,
    BAUD_PER_BYTE = 1000    /* baud that bring one byte a tick: 10 bits a byte, 100 ticks a second */
};

struct terminal {
    int ours, theirs;       /* `theirs` is the client's side, kept open so that clients may come and go */
    char path[TERMINAL_PATH];
    const char *link;       /* the name of a symbolic link to the path, or NULL */
    bool ready;             /* the link has its name */
    uint32_t baud;
    uint32_t take_credit, give_credit; /* parts of a byte, in baud: what the ticks so far allow beyond whole bytes */
    uint8_t send[SEND_ROOM];
    size_t sending;
};

/* False where the system gave none, or where the link can't be made: it says so in one line. The link is made under another name. */
bool terminal_open(struct terminal *t, uint32_t baud, const char *link);

/* The link gets its name: who waits for it finds a controller that has begun. */
bool terminal_ready(struct terminal *t);

/* Bytes that have come at this tick: at most as many as there is room for and as the baud lets through. */
size_t terminal_take(struct terminal *t, uint8_t *bytes, size_t room);

/* A reply joins the queue; one that has no room is dropped whole. */
bool terminal_reply(struct terminal *t, const uint8_t *reply, size_t length);

/* Sends of the queue what the baud lets through at this tick and the terminal has room for. */
void terminal_give(struct terminal *t);

/* Removes the link. */
void terminal_close(struct terminal *t);

#endif
