/* Drawing, settings, and a scenario's log with the peer's controller running along. */
#include "scenario.h"

#include <inttypes.h>
#include <stdlib.h>
#include <string.h>

/* ---- Drawing (splitmix64) ---- */

static uint64_t drawn;

void seed(uint64_t number)
{
    drawn = number;
}

static uint64_t draw(void)
{
    uint64_t z = drawn += 0x9e3779b97f4a7c15u;

    z = (z ^ z >> 30) * 0xbf58476d1ce4e5b9u;
    z = (z ^ z >> 27) * 0x94d049bb133111ebu;
    return z ^ z >> 31;
}

int32_t between(int32_t low, int32_t high)
{
    if (high <= low)
        return low;
    return (int32_t)(low + (int64_t)(draw() % (uint64_t)((int64_t)high - low + 1)));
}

bool once_in(int32_t n)
{
    return n > 0 && between(1, n) == 1;
}

int32_t pick(const int32_t *from, size_t n)
{
    return from[between(0, (int32_t)n - 1)];
}

/* ---- Settings ---- */

int usual_mode(void)
{
    return once_in(2) ? MODE_NORMAL : MODE_LOSS_IN_WEIGHT;
}

/* The reply buffer: mostly the whole one, one time in three another with room for NG behind a prefix, in turn. */
int32_t usual_room(void)
{
    static int32_t turn;

    turn++;
    return turn % 3 == 0 ? 9 + turn / 3 % 56 : WHOLE_REPLY;
}

/* In a stage most scenarios have no setpoints but stray ones; in some they come in most batches, in some a few times in each. */
int32_t usual_writes(void)
{
    return once_in(3) ? ONE_OF(4, 12, 50) : 0;
}

/* Zero and span: counts for a tenth whole and broken, and few enough for an overload of either sign to be a good count mostly. */
static void draw_calibration(int32_t *v)
{
    v[SPAN_WEIGHT] = ONE_OF(1, 7, 20, 100, 100, 300, 1000, 3000, 10000, 16000);
    v[CAPACITY] = v[SPAN_WEIGHT];
    if (once_in(2))
        v[CAPACITY] = between(v[SPAN_WEIGHT], least(3 * v[SPAN_WEIGHT], 16000));
    if (once_in(10))
        v[CAPACITY] = 16000;
    int32_t ratio = between(10, once_in(3) ? 60 : 1900000 / (v[CAPACITY] + 60));
    ratio = least(ratio, 1900000 / (v[CAPACITY] + 60));
    if (!once_in(3))
        ratio = ratio / 10 * 10;
    int32_t reach = (v[CAPACITY] + 50) * ratio;
    v[ZERO_COUNT] = once_in(3) ? 0 : between(reach - COUNT_LIMIT, COUNT_LIMIT - reach);
    int32_t span = v[SPAN_WEIGHT] * ratio;
    if (once_in(4))
        span += between(0, 9);
    if (once_in(12))
        v[ZERO_COUNT] = once_in(2) ? -COUNT_LIMIT : COUNT_LIMIT - span;
    v[SPAN_COUNT] = v[ZERO_COUNT] + span;
}

static void draw_ends(int32_t *v)
{
    int32_t top = v[CAPACITY] * v[DIVISION];
    int32_t low = once_in(8) ? ONE_OF(-999999, 999999) : between(-top / 4, top / 2);
    int32_t high = once_in(8) ? ONE_OF(-999998, 999998) : between(low < 0 ? 0 : low / 2, top);
    bool falling = once_in(4);

    if (high == low)
        high += 1;
    v[LOW_END] = falling ? high : low;
    v[HIGH_END] = falling ? low : high;
}

struct given settings_of(int mode)
{
    static int32_t turn;                        /* every address comes */
    struct given g;
    int32_t *v = g.value;

    draw_calibration(v);
    v[DIVISION] = ONE_OF(1, 1, 2, 5, 10, 20, 50);
    v[ZERO_RANGE] = once_in(3) ? ONE_OF(1, 2, 30) : between(1, 30);
    v[TRACKING_TIME] = ONE_OF(0, 1, 2, 5, 10, 40, 100, 500);
    v[TRACKING_WIDTH] = ONE_OF(0, 1, 5, 10, 45);
    v[ALLOWANCE] = ONE_OF(0, 1, 20, 60, 500, 10000);
    v[STABLE_TIME] = once_in(40) ? 500 : ONE_OF(10, 10, 11, 15, 30);
    v[STABLE_WIDTH] = between(0, 9);
    v[MODE] = mode;
    for (int i = START_DELAY; i <= JUDGE_DELAY; i++)
        v[i] = ONE_OF(0, 0, 0, 1, 1, 2, 3, 8, 20);
    v[FLOW_LIMIT] = once_in(6) ? between(1, 100) : ONE_OF(300, 600, 1500, 60000);
    v[ADDRESS] = once_in(2) ? 0 : 1 + turn++ % 99;
    v[BOARD] = between(0, 2);
    draw_ends(v);
    v[DISCHARGE_START] = ONE_OF(0, 0, 0, 1, 1, 2, 3, 8, 20);
    v[DISCHARGE_END] = ONE_OF(0, 0, 0, 1, 1, 2, 3, 8, 20);
    v[DISCHARGE_LIMIT] = once_in(4) ? between(1, 60) : ONE_OF(60, 100, 150, 400, 60000);
    return g;
}

/* ---- The log ---- */

static const char *folder;
static int number;                              /* of the scenario */

void into_folder(const char *name)
{
    folder = name;
}

static void fail(const char *what)
{
    perror(what);
    exit(2);
}

static FILE *create(const char *ending)
{
    char name[4096];

    snprintf(name, sizeof name, "%s/%04d.%s", folder, number, ending);
    FILE *file = fopen(name, "w");
    if (file == NULL)
        fail(name);
    return file;
}

/* A line's end is written before the next line, so that the last one can be left out. */
void begin_unread(struct scenario *s, const char *settings)
{
    memset(s, 0, sizeof *s);
    number++;
    s->log = create("in");
    s->room = 64;
    fputs(settings, s->log);
}

bool begin(struct scenario *s, const struct given *given, int32_t room, int32_t ticks)
{
    begin_unread(s, "");
    s->given = *given;
    s->wanted = ticks;
    if (room != WHOLE_REPLY) {
        FILE *words = create("args");
        fprintf(words, "%" PRId32 "\n", room);
        if (fclose(words) != 0)
            fail(folder);
        s->room = (size_t)room;
    }
    for (int i = 0; i < SETTINGS; i++)
        fprintf(s->log, i == 0 ? "%" PRId32 : once_in(50) ? " %05" PRId32 : " %" PRId32, given->value[i]);
    return open_controller(given, &s->settings, &s->state) == ANSWER_DONE;
}

/* Whether the stage returns to 00 in this tick, if nothing is asked. */
static bool returns(const struct scenario *s, int32_t count, bool contact)
{
    struct state after = s->state;
    struct outcome outcome;
    struct outputs out;

    tick(&s->settings, &after, count, contact, (struct request){.kind = REQUEST_NONE}, &outcome, &out);
    return out.stage == 0;
}

/* Somebody who does not wait for the finish, and whose moment is often the very tick of it, or that of an error. */
static struct line at_panel(const struct scenario *s, int32_t count, bool contact)
{
    if (s->writes == 0 || s->state.stage == 0)
        return NONE;
    return once_in(returns(s, count, contact) ? 2 : s->writes) ? panel(s) : NONE;
}

void step(struct scenario *s, int32_t count, bool contact, struct line request)
{
    uint8_t receive[sizeof request.bytes + 2], reply[64];
    size_t length, replied;

    if (request.length == 0)
        request = at_panel(s, count, contact);
    length = request.length;
    memcpy(receive, request.bytes, length);
    if (length == 0) {
        memcpy(receive, "--", 2);
        length = 2;
    }
    if (s->cr) {                                /* is the command's last byte then */
        length = length < sizeof request.bytes ? length : sizeof request.bytes - 1;
        receive[length++] = '\r';
    }
    fprintf(s->log, once_in(50) ? "\n%08" PRId32 " %d " : "\n%" PRId32 " %d ", count, contact);
    fwrite(receive, 1, length, s->log);
    if (length == 2 && memcmp(receive, "--", 2) == 0) {
        struct outcome outcome;
        tick(&s->settings, &s->state, count, contact, (struct request){.kind = REQUEST_NONE}, &outcome, &s->out);
    } else {
        memcpy(receive + length, "\r\n", 2);
        line_tick(&s->settings, &s->state, count, contact, receive, length + 2, reply, s->room, &replied, &s->out);
    }
    if (++s->ticks > 10000000) {
        fputs("scenarios: a scenario does not end\n", stderr);
        exit(2);
    }
}

bool more(const struct scenario *s)
{
    return s->ticks < s->wanted;
}

/* A line that can't be read: each form in turn. */
static void write_unreadable(FILE *log)
{
    static const char *const forms[] = {
        "", "0 0", "0 0 ", "0", "-", "--", "0 ", "0  0 --", " 0 0 --", "0\t0 --", "0 0\t--", "+5 0 --", "- 0 --", "--5 0 --", "5- 0 --",
        "1234567890 0 --", "-1234567890 0 --", "0000000000 0 --", "0 2 --", "0 00 --", "0 -1 --", "0 a --", "1.5 0 --", "0x1 0 --", "0,0,--",
        "\r", "0 0\r", "RW"
    };
    static size_t turn;
    size_t form = turn++ % (LENGTH(forms) + 2);

    if (form < LENGTH(forms)) {
        fputs(forms[form], log);
        return;
    }
    fputs("0 0 ", log);                         /* a byte more than a request may have, and very many more */
    for (int i = 0; i < (form == LENGTH(forms) ? 101 : 10000); i++)
        fputc('R', log);
}

int32_t end_here(struct scenario *s, const char *kind)
{
    if (fclose(s->log) != 0)
        fail(folder);
    printf("%04d %s %" PRId32 "\n", number, kind, s->ticks);
    return s->ticks;
}

/* Now and then a line that can't be read, and behind it one that must not be run; now and then no last LF. */
int32_t end(struct scenario *s, const char *kind)
{
    if (s->ticks > 0 && once_in(4)) {
        fputc('\n', s->log);
        write_unreadable(s->log);
        if (!once_in(3))
            fputs("\n0 0 DC", s->log);
    }
    if (!once_in(6))
        fputc('\n', s->log);
    return end_here(s, kind);
}
