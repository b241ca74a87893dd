/* replay: a recorded log run under given settings, every output of every tick shown.
 *
 *   replay [length of the reply buffer, 0..64] < log
 *
 * First line: 25 whole numbers, the settings.  Then `count contact request` lines.
 * Exit status: 0; 2 with a bad argument, 3 when reading or writing failed. */
#include "controller.h"

#include <stdio.h>
#include <stdlib.h>
#include <string.h>

enum {
    PIECE = 1 << 20,             /* bytes read and written at once */
    TICK_TEXT = 1024,            /* more than the longest line written */
    REPLY_ROOM = 64,
    COMMAND_LIMIT = 100
};

/* ---- Reading by large pieces ---------------------------------------------- */

struct reader {
    size_t start, end;           /* bytes not yet taken */
    bool at_end;                 /* of the input */
    bool failed;
    uint8_t bytes[PIECE];
};

static void read_more(struct reader *in)
{
    size_t got;

    memmove(in->bytes, in->bytes + in->start, in->end - in->start);
    in->end -= in->start;
    in->start = 0;
    got = fread(in->bytes + in->end, 1, PIECE - in->end, stdin);
    if (got < PIECE - in->end) {
        in->at_end = true;
        in->failed = ferror(stdin) != 0;
    }
    in->end += got;
}

/* The next line without its LF; false when there is none.  A last line without LF
 * counts.  A line longer than a piece comes as its first piece, which is longer
 * than any line that can be read, so that it is refused. */
static bool next_line(struct reader *in, const uint8_t **line, size_t *length)
{
    for (;;) {
        const uint8_t *at = in->bytes + in->start;
        const size_t left = in->end - in->start;
        const uint8_t *lf = left == 0 ? NULL : memchr(at, '\n', left);

        if (lf != NULL) {
            *line = at;
            *length = (size_t)(lf - at);
            in->start += *length + 1;
            return true;
        }
        if (in->at_end || left == PIECE) {
            *line = at;
            *length = left;
            in->start = in->end;
            return left != 0;
        }
        read_more(in);
    }
}

/* An optional minus and 1 to 9 digits, taken from *at on. */
static bool take_number(const uint8_t **at, const uint8_t *end, int32_t *value)
{
    const uint8_t *p = *at;
    bool minus = false;
    int32_t number = 0;
    int digits = 0;

    if (p != end && *p == '-') {
        minus = true;
        p++;
    }
    for (; p != end && *p >= '0' && *p <= '9'; p++) {
        if (++digits > 9)
            return false;
        number = 10 * number + (*p - '0');
    }
    if (digits == 0)
        return false;
    *value = minus ? -number : number;
    *at = p;
    return true;
}

static bool take_space(const uint8_t **at, const uint8_t *end)
{
    if (*at == end || **at != ' ')
        return false;
    ++*at;
    return true;
}

/* 25 whole numbers separated by single spaces. */
static bool read_settings(const uint8_t *line, size_t length, struct given *g)
{
    const uint8_t *at = line, *end = line + length;

    for (int i = 0; i < SETTING_NUMBERS; i++) {
        if (i > 0 && !take_space(&at, end))
            return false;
        if (!take_number(&at, end, &g->value[i]))
            return false;
    }
    return at == end;
}

struct tick_line {
    int32_t count;
    bool contact;
    const uint8_t *command;      /* 1 to 100 bytes, running to the line's end */
    size_t length;
};

/* count contact request */
static bool read_tick(const uint8_t *line, size_t length, struct tick_line *t)
{
    const uint8_t *at = line, *end = line + length;

    if (!take_number(&at, end, &t->count) || !take_space(&at, end))
        return false;
    if (at == end || (*at != '0' && *at != '1'))
        return false;
    t->contact = *at++ == '1';
    if (!take_space(&at, end))
        return false;
    t->command = at;
    t->length = (size_t)(end - at);
    return t->length >= 1 && t->length <= COMMAND_LIMIT;
}

/* ---- Writing by large pieces ---------------------------------------------- */

struct writer {
    size_t used;
    bool failed;
    char bytes[PIECE];
};

static void flush(struct writer *w)
{
    if (fwrite(w->bytes, 1, w->used, stdout) != w->used)
        w->failed = true;
    w->used = 0;
}

static char *put_text(char *at, const char *text, size_t n)
{
    memcpy(at, text, n);
    return at + n;
}

#define PUT(at, literal) put_text(at, literal, sizeof literal - 1)

static char *put_number(char *at, int64_t value)
{
    char digits[20];
    int n = 0;
    uint64_t left = value < 0 ? 0 - (uint64_t)value : (uint64_t)value;

    if (value < 0)
        *at++ = '-';
    do {
        digits[n++] = (char)('0' + left % 10);
        left /= 10;
    } while (left != 0);
    while (n > 0)
        *at++ = digits[--n];
    return at;
}

static char *put_bit(char *at, bool bit)
{
    *at++ = bit ? '1' : '0';
    return at;
}

static char *put_hex(char *at, uint8_t byte)
{
    static const char hex[] = "0123456789abcdef";

    *at++ = hex[byte >> 4];
    *at++ = hex[byte & 15];
    return at;
}

static char *put_analog(char *at, const struct outputs *out)
{
    uint64_t bits;

    if (out->analog_kind == ANALOG_NONE) {
        *at++ = '-';
        return at;
    }
    memcpy(&bits, &out->analog, sizeof bits);
    for (int shift = 56; shift >= 0; shift -= 8)
        at = put_hex(at, (uint8_t)(bits >> shift));
    return at;
}

static char *put_judgement(char *at, int judgement)
{
    switch (judgement) {
    case JUDGEMENT_OK: return PUT(at, "ok");
    case JUDGEMENT_OVER: return PUT(at, "over");
    case JUDGEMENT_UNDER: return PUT(at, "under");
    default: return PUT(at, "none");
    }
}

static char *put_setpoints(char *at, const struct setpoints *p)
{
    at = put_number(at, p->final);
    *at++ = ',';
    at = put_number(at, p->free_fall);
    *at++ = ',';
    at = put_number(at, p->preliminary);
    *at++ = ',';
    at = put_number(at, p->optional);
    *at++ = ',';
    at = put_number(at, p->over);
    *at++ = ',';
    at = put_number(at, p->under);
    *at++ = ',';
    return put_number(at, p->near_zero);
}

static void write_tick(struct writer *w, int answer, const uint8_t *reply, size_t replied,
                       const struct outputs *out, const struct state *st)
{
    char *at;

    if (w->used > PIECE - TICK_TEXT)
        flush(w);
    at = w->bytes + w->used;

    at = PUT(at, "answer=");
    at = put_number(at, answer);
    at = PUT(at, " reply=");
    if (replied == 0)
        *at++ = '-';
    for (size_t i = 0; i < replied; i++)
        at = put_hex(at, reply[i]);
    at = PUT(at, " good=");
    at = put_bit(at, out->good);
    at = PUT(at, " gross=");
    at = put_number(at, out->gross);
    at = PUT(at, " net=");
    at = put_number(at, out->net);
    at = PUT(at, " overload=");
    at = put_bit(at, out->overload);
    at = PUT(at, " stable=");
    at = put_bit(at, out->stable);
    at = PUT(at, " stage=");
    *at++ = (char)('0' + out->stage / 10);
    *at++ = (char)('0' + out->stage % 10);
    at = PUT(at, " gates=");
    *at++ = out->large ? 'L' : '-';
    *at++ = out->medium ? 'M' : '-';
    *at++ = out->small ? 'S' : '-';
    *at++ = out->discharge ? 'D' : '-';
    at = PUT(at, " judgement=");
    at = put_judgement(at, out->judgement);
    at = PUT(at, " error=");
    at = put_number(at, out->error);
    at = PUT(at, " nearzero=");
    at = put_bit(at, out->near_zero);
    at = PUT(at, " full=");
    at = put_bit(at, out->full);
    at = PUT(at, " analog=");
    at = put_analog(at, out);
    at = PUT(at, " zero=");
    at = put_number(at, st->zero);
    at = PUT(at, " tracked=");
    at = put_number(at, st->tracked);
    at = PUT(at, " tare=");
    at = put_number(at, st->tare);
    at = PUT(at, " opening=");
    at = put_number(at, st->opening);
    at = PUT(at, " refilled=");
    at = put_number(at, st->refilled);
    at = PUT(at, " used=");
    at = put_number(at, st->used);
    at = PUT(at, " unbooked=");
    at = put_number(at, st->unbooked);
    at = PUT(at, " last=");
    at = put_number(at, st->last);
    at = PUT(at, " total=");
    at = put_number(at, st->total);
    at = PUT(at, " batches=");
    at = put_number(at, st->batches);
    at = PUT(at, " setpoints=");
    at = put_setpoints(at, &st->setpoints);
    at = PUT(at, " waiting=");
    if (st->waiting)
        at = put_setpoints(at, &st->waiting_set);
    else
        *at++ = '-';
    *at++ = '\n';

    w->used = (size_t)(at - w->bytes);
}

/* key=number and LF, a line of its own. */
static void write_number(struct writer *w, const char *key, int64_t number)
{
    char *at;

    if (w->used > PIECE - TICK_TEXT)
        flush(w);
    at = put_text(w->bytes + w->used, key, strlen(key));
    at = put_number(at, number);
    *at++ = '\n';
    w->used = (size_t)(at - w->bytes);
}

/* ---- The program ----------------------------------------------------------- */

/* The tick of one line: without a request, or with its command and CR LF. */
static void run_tick(struct writer *w, const struct settings *s, struct state *st,
                     const struct tick_line *t, size_t room)
{
    struct outputs out;
    uint8_t reply[REPLY_ROOM];
    size_t replied = 0;
    int answer;

    if (t->length == 2 && t->command[0] == '-' && t->command[1] == '-') {
        struct request none = { .kind = REQUEST_NONE };
        struct outcome outcome;

        tick(s, st, t->count, t->contact, none, &outcome, &out);
        answer = outcome.number;
    } else {
        uint8_t receive[COMMAND_LIMIT + 2];

        memcpy(receive, t->command, t->length);
        receive[t->length] = '\r';
        receive[t->length + 1] = '\n';
        answer = line_tick(s, st, t->count, t->contact, receive, t->length + 2,
                           reply, room, &replied, &out);
    }
    write_tick(w, answer, reply, replied, &out, st);
}

static void replay(struct reader *in, struct writer *w, size_t room)
{
    const uint8_t *line;
    size_t length;
    struct given g;
    struct settings s;
    struct state st;
    int answer;

    if (!next_line(in, &line, &length) || !read_settings(line, length, &g)) {
        write_number(w, "refused=", 1);
        return;
    }
    answer = open_controller(&g, &s, &st);
    write_number(w, "answer=", answer);
    if (answer != ANSWER_DONE)
        return;
    for (int64_t number = 2; next_line(in, &line, &length); number++) {
        struct tick_line t;

        if (!read_tick(line, length, &t)) {
            write_number(w, "refused=", number);
            return;
        }
        run_tick(w, &s, &st, &t, room);
    }
}

/* 0 to 64, one or two digits. */
static bool read_room(const char *text, size_t *room)
{
    size_t number = 0;
    size_t digits = 0;

    for (; text[digits] >= '0' && text[digits] <= '9' && digits < 3; digits++)
        number = 10 * number + (size_t)(text[digits] - '0');
    if (digits < 1 || digits > 2 || text[digits] != '\0' || number > REPLY_ROOM)
        return false;
    *room = number;
    return true;
}

int main(int argc, char **argv)
{
    static struct reader in;
    static struct writer w;
    size_t room = REPLY_ROOM;

    if (argc > 2 || (argc == 2 && !read_room(argv[1], &room))) {
        fputs("usage: replay [reply buffer length, 0 to 64] < log\n", stderr);
        return 2;
    }
    setvbuf(stdin, NULL, _IONBF, 0);
    setvbuf(stdout, NULL, _IONBF, 0);
    replay(&in, &w, room);
    flush(&w);
    if (in.failed || w.failed || fflush(stdout) != 0) {
        fputs("replay: reading or writing failed\n", stderr);
        return 3;
    }
    return 0;
}
