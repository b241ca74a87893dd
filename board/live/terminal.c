/* What terminal.h says, with POSIX's pseudo-terminals. */
#define _DEFAULT_SOURCE
#define _XOPEN_SOURCE 600

#include "terminal.h"

#include "tell.h"

#include <errno.h>
#include <fcntl.h>
#include <stdio.h>
#include <stdlib.h>
#include <string.h>
#include <sys/stat.h>
#include <termios.h>
#include <unistd.h>

#define TERMINALS "/dev/pts/" /* where the system has its pseudo-terminals */

enum { LINK_ROOM = 4096 };   /* bytes of a link's name */

/* A byte is a byte on both sides: no echo, no line editing, no CR or LF made of the other. */
static bool make_raw(int terminal)
{
    struct termios t;

    if (tcgetattr(terminal, &t) != 0)
        return false;
    cfmakeraw(&t);
    return tcsetattr(terminal, TCSANOW, &t) == 0;
}

/* A link to one of the system's pseudo-terminals: most likely one of ours that a power cut left, so it may be replaced. Another program may
 * still be at work on that terminal, or have got it since; this can't be told from the link, and such a program only loses the name. */
static bool is_left_over(const char *link)
{
    char to[TERMINAL_PATH];
    const ssize_t length = readlink(link, to, sizeof to);

    return length > (ssize_t)strlen(TERMINALS) && memcmp(to, TERMINALS, strlen(TERMINALS)) == 0;
}

/* The name of a link that is not ready yet. */
static void early_name(const struct terminal *t, char name[LINK_ROOM])
{
    snprintf(name, LINK_ROOM, "%s.new", t->link);
}

static bool link_failed(const struct terminal *t, int why)
{
    complain("the link %s can't be made: %s", t->link, strerror(why));
    return false;
}

static bool make_link(struct terminal *t)
{
    char early[LINK_ROOM];
    struct stat s;

    if (strlen(t->link) > LINK_ROOM - sizeof ".new")
        return link_failed(t, ENAMETOOLONG);
    if (lstat(t->link, &s) == 0 && !is_left_over(t->link))
        return link_failed(t, EEXIST);
    early_name(t, early);
    if (is_left_over(early))
        unlink(early);
    return symlink(t->path, early) == 0 || link_failed(t, errno);
}

bool terminal_ready(struct terminal *t)
{
    char early[LINK_ROOM];

    if (t->link == NULL)
        return true;
    early_name(t, early);
    t->ready = rename(early, t->link) == 0;
    return t->ready || link_failed(t, errno);
}

bool terminal_open(struct terminal *t, uint32_t baud, const char *link)
{
    const char *path;

    memset(t, 0, sizeof *t);
    t->baud = baud;
    t->theirs = -1;
    t->ours = posix_openpt(O_RDWR | O_NOCTTY);
    if (t->ours >= 0 && grantpt(t->ours) == 0 && unlockpt(t->ours) == 0 && (path = ptsname(t->ours)) != NULL &&
        strlen(path) < sizeof t->path) {
        strcpy(t->path, path);
        t->theirs = open(t->path, O_RDWR | O_NOCTTY);
    }
    if (t->theirs < 0 || !make_raw(t->theirs) || fcntl(t->ours, F_SETFL, O_NONBLOCK) != 0) {
        complain("there is no pseudo-terminal: %s", strerror(errno));
        return false;
    }
    t->link = link;
    return link == NULL || make_link(t);
}

/* How many bytes a tick more lets through, at most `most`. */
static size_t allowed(uint32_t *credit, uint32_t baud, size_t most)
{
    size_t whole;

    if (baud == 0)
        return most;
    *credit += baud;
    whole = *credit / BAUD_PER_BYTE;
    return whole < most ? whole : most;
}

/* Of what was allowed the part of a byte stays, as long as the line is busy; a line that was idle begins anew with its next byte. */
static void spend(uint32_t *credit, bool busy)
{
    *credit = busy ? *credit % BAUD_PER_BYTE : 0;
}

size_t terminal_take(struct terminal *t, uint8_t *bytes, size_t room)
{
    const size_t most = allowed(&t->take_credit, t->baud, room);
    ssize_t came;

    if (most == 0)
        return 0;
    came = read(t->ours, bytes, most);
    if (came < 0)
        came = 0;
    spend(&t->take_credit, (size_t)came == most);
    return (size_t)came;
}

bool terminal_reply(struct terminal *t, const uint8_t *reply, size_t length)
{
    if (length > SEND_ROOM - t->sending)
        return false;
    memcpy(t->send + t->sending, reply, length);
    t->sending += length;
    return true;
}

void terminal_give(struct terminal *t)
{
    size_t most;
    ssize_t went;

    if (t->sending == 0) {
        t->give_credit = 0;
        return;
    }
    most = allowed(&t->give_credit, t->baud, t->sending);
    if (most == 0)
        return;
    went = write(t->ours, t->send, most);
    if (went < 0)
        went = 0;
    spend(&t->give_credit, (size_t)went == most);
    t->sending -= (size_t)went;
    memmove(t->send, t->send + went, t->sending);
}

void terminal_close(struct terminal *t)
{
    char early[LINK_ROOM];
    const char *name = t->link;
    char to[TERMINAL_PATH];
    ssize_t length;

    if (name == NULL)
        return;
    if (!t->ready) {
        early_name(t, early);
        name = early;
    }
    length = readlink(name, to, sizeof to);
    if (length == (ssize_t)strlen(t->path) && memcmp(to, t->path, (size_t)length) == 0)
        unlink(name);
}
