/* The calls of board/pressgully.h over the peer's controller: images in, a tick or a
 * block of them by controller.c, images out.  docs/IMAGES.md has the places; the
 * ranges are those of the outline, the requests A1 to A3, A5 and A6 and READINGS.md.
 *
 * Nothing is written before the last test has passed, so a refused call leaves every
 * byte of every buffer. */
#include "../board/pressgully.h"
#include "controller.h"

#include <string.h>

/* The refusals of an image; controller.h has the others. */
enum { ANSWER_LENGTH = 20, ANSWER_IMPOSSIBLE = 21 };

enum {
    RAW_LIMIT = 2 * COUNT_LIMIT,     /* |count - Z| is within it, and 10 W within S - Z */
    CHANGE_LIMIT = 2 * RAW_LIMIT     /* of raw, from one good tick to the next */
};

/* What the changes of all booked ticks of a day come to at most. */
#define BOOKED_LIMIT ((int64_t)CHANGE_LIMIT * DAY_TICKS)

/* ---- Numbers in bytes, big-endian ---------------------------------------- */

/* One or two bytes are read without a sign, four or eight with one.  A field of four
 * or eight that has no sign does not reach its top bit, so what is read as negative
 * there is out of its range either way. */
static inline int64_t get_1(const uint8_t *at)
{
    return at[0];
}

static inline int64_t get_2(const uint8_t *at)
{
    return at[0] << 8 | at[1];
}

static inline int64_t get_4(const uint8_t *at)
{
    return (int32_t)((uint32_t)at[0] << 24 | (uint32_t)at[1] << 16 | (uint32_t)at[2] << 8
                     | (uint32_t)at[3]);
}

static inline int64_t get_8(const uint8_t *at)
{
    return (int64_t)((uint64_t)at[0] << 56 | (uint64_t)at[1] << 48 | (uint64_t)at[2] << 40
                     | (uint64_t)at[3] << 32 | (uint64_t)at[4] << 24 | (uint64_t)at[5] << 16
                     | (uint64_t)at[6] << 8 | (uint64_t)at[7]);
}

static inline void put_1(uint8_t *at, int64_t number)
{
    at[0] = (uint8_t)number;
}

static inline void put_2(uint8_t *at, int64_t number)
{
    const uint16_t bits = (uint16_t)number;

    at[0] = (uint8_t)(bits >> 8);
    at[1] = (uint8_t)bits;
}

static inline void put_4(uint8_t *at, int64_t number)
{
    const uint32_t bits = (uint32_t)number;

    at[0] = (uint8_t)(bits >> 24);
    at[1] = (uint8_t)(bits >> 16);
    at[2] = (uint8_t)(bits >> 8);
    at[3] = (uint8_t)bits;
}

static inline void put_8(uint8_t *at, int64_t number)
{
    const uint64_t bits = (uint64_t)number;

    at[0] = (uint8_t)(bits >> 56);
    at[1] = (uint8_t)(bits >> 48);
    at[2] = (uint8_t)(bits >> 40);
    at[3] = (uint8_t)(bits >> 32);
    at[4] = (uint8_t)(bits >> 24);
    at[5] = (uint8_t)(bits >> 16);
    at[6] = (uint8_t)(bits >> 8);
    at[7] = (uint8_t)bits;
}

/* By eights as far as they go: most of a state image is unused. */
static inline bool all_zero(const uint8_t *bytes, size_t n)
{
    uint64_t any = 0, eight;
    size_t i = 0;

    for (; i + sizeof eight <= n; i += sizeof eight) {
        memcpy(&eight, bytes + i, sizeof eight);
        any |= eight;
    }
    for (; i < n; i++)
        any |= bytes[i];
    return any == 0;
}

static inline bool between(int64_t x, int64_t least, int64_t most)
{
    return least <= x && x <= most;
}

static inline int64_t magnitude(int64_t x)
{
    return x < 0 ? -x : x;
}

/* ---- The settings image -------------------------------------------------- */

/* Those numbers of struct given that bound a state. */
enum {
    GIVEN_CAPACITY = 2,
    GIVEN_DIVISION = 4,
    GIVEN_ZERO_RANGE = 5,
    GIVEN_TRACKING_TIME = 6,
    GIVEN_TRACKING_WIDTH = 7,
    GIVEN_ALLOWANCE = 8,
    GIVEN_STABILITY_TIME = 9,
    GIVEN_MODE = 11,
    GIVEN_START = 12,
    GIVEN_LARGE = 13,
    GIVEN_MEDIUM = 14,
    GIVEN_SMALL = 15,
    GIVEN_JUDGE = 16,
    GIVEN_FLOW_LIMIT = 17,
    GIVEN_DISCHARGE_START = 22,
    GIVEN_DISCHARGE_END = 23,
    GIVEN_DISCHARGE_LIMIT = 24
};

/* The numbers as they are given; false where an unused byte is not 0.  A number
 * outside its range is the opening's matter, not the image's. */
static bool read_settings(const uint8_t *image, struct given *g)
{
    const size_t used = 4 * SETTING_NUMBERS;

    for (size_t i = 0; i < SETTING_NUMBERS; i++)
        g->value[i] = (int32_t)get_4(image + 4 * i);
    return all_zero(image + used, PRESSGULLY_SETTINGS - used);
}

/* A state is judged before the settings are checked (21 comes before 10), so a number
 * may be any here.  It counts without its sign: so the zeros of an opening are within
 * every bound, and bad settings beside them are told as such. */
static inline int64_t setting(const struct given *g, int which)
{
    return magnitude(g->value[which]);
}

static int32_t mode_of(const struct given *g)
{
    return g->value[GIVEN_MODE] == MODE_NORMAL ? MODE_NORMAL : MODE_LOSS_IN_WEIGHT;
}

/* ---- The state image: its rows ------------------------------------------- */

/* Every byte of the image: place, bytes, field, and the range that it has under all
 * settings.  At 90 the image has the ticks that a timed stage has lasted, where the
 * controller has those left: see turn_timer. */
#define STATE_ROWS(ROW, UNUSED)                                   \
    ROW(0, 4, opening, -RAW_LIMIT, RAW_LIMIT)                     \
    ROW(4, 4, last, -RAW_LIMIT, RAW_LIMIT)                        \
    ROW(8, 8, refilled, -BOOKED_LIMIT, BOOKED_LIMIT)              \
    ROW(16, 8, used, -BOOKED_LIMIT, BOOKED_LIMIT)                 \
    ROW(24, 8, unbooked, -CHANGE_LIMIT, CHANGE_LIMIT)             \
    ROW(32, 4, day_ticks, 0, DAY_TICKS)                           \
    ROW(36, 1, any_good, false, true)                             \
    ROW(37, 1, last_contact, false, true)                         \
    UNUSED(38, 2)                                                 \
    ROW(40, 1, last_good, false, true)                            \
    UNUSED(41, 1)                                                 \
    ROW(42, 2, run, 0, UINT16_MAX)                                \
    ROW(44, 4, zero, INT32_MIN, INT32_MAX)                        \
    ROW(48, 4, tracked, INT32_MIN, INT32_MAX)                     \
    ROW(52, 4, tare, 0, INT32_MAX)                                \
    ROW(56, 2, tracking_count, 0, UINT16_MAX)                     \
    ROW(58, 1, show_net, false, true)                             \
    UNUSED(59, 1)                                                 \
    ROW(60, 4, setpoints.final, 0, SETPOINT_LIMIT)                \
    ROW(64, 4, setpoints.free_fall, 0, SETPOINT_LIMIT)            \
    ROW(68, 4, setpoints.preliminary, 0, SETPOINT_LIMIT)          \
    ROW(72, 4, setpoints.optional, 0, SETPOINT_LIMIT)             \
    ROW(76, 4, setpoints.over, 0, SETPOINT_LIMIT)                 \
    ROW(80, 4, setpoints.under, 0, SETPOINT_LIMIT)                \
    ROW(84, 4, setpoints.near_zero, 0, SETPOINT_LIMIT)            \
    ROW(88, 1, stage, 0, 16)                                      \
    UNUSED(89, 1)                                                 \
    ROW(90, 2, timer, 0, UINT16_MAX)                              \
    ROW(92, 2, flow_clock, 0, UINT16_MAX)                         \
    ROW(94, 1, error, 0, 10)                                      \
    ROW(95, 1, judgement, JUDGEMENT_NONE, JUDGEMENT_UNDER)        \
    ROW(96, 8, total, 0, TOTAL_LIMIT)                             \
    ROW(104, 4, batches, 0, TOTAL_LIMIT)                          \
    ROW(108, 1, undo, false, true)                                \
    UNUSED(109, 3)                                                \
    ROW(112, 8, undo_weight, 0, TOTAL_LIMIT)                      \
    UNUSED(120, 136)                                              \
    ROW(256, 1, waiting, false, true)                             \
    UNUSED(257, 3)                                                \
    ROW(260, 4, waiting_set.final, 0, SETPOINT_LIMIT)             \
    ROW(264, 4, waiting_set.free_fall, 0, SETPOINT_LIMIT)         \
    ROW(268, 4, waiting_set.preliminary, 0, SETPOINT_LIMIT)       \
    ROW(272, 4, waiting_set.optional, 0, SETPOINT_LIMIT)          \
    ROW(276, 4, waiting_set.over, 0, SETPOINT_LIMIT)              \
    ROW(280, 4, waiting_set.under, 0, SETPOINT_LIMIT)             \
    ROW(284, 4, waiting_set.near_zero, 0, SETPOINT_LIMIT)

/* The rows follow each other without a gap, from the first byte to the last. */
struct state_layout {
#define LAID_ROW(place, width, field, least, most) uint8_t at_##place[width];
#define LAID_UNUSED(place, width) uint8_t at_##place[width];
    STATE_ROWS(LAID_ROW, LAID_UNUSED)
};
#define PLACED_ROW(place, width, field, least, most) \
    _Static_assert(offsetof(struct state_layout, at_##place) == place, "a row's place");
#define PLACED_UNUSED(place, width) PLACED_ROW(place, width, , , )
STATE_ROWS(PLACED_ROW, PLACED_UNUSED)
_Static_assert(sizeof(struct state_layout) == PRESSGULLY_STATE, "the rows fill the image");

/* False where a field is outside its row's range or an unused byte is not 0. */
static bool read_rows(const uint8_t *image, struct state *st)
{
    int64_t number;

#define READ_ROW(place, width, field, least, most) \
    number = get_##width(image + (place));         \
    if (!between(number, least, most))             \
        return false;                              \
    st->field = number;
#define READ_UNUSED(place, width)                  \
    if (!all_zero(image + (place), width))         \
        return false;
    STATE_ROWS(READ_ROW, READ_UNUSED)
    return true;
}

static void write_rows(const struct state *st, uint8_t *image)
{
#define WRITE_ROW(place, width, field, least, most) put_##width(image + (place), st->field);
#define WRITE_UNUSED(place, width) memset(image + (place), 0, width);
    STATE_ROWS(WRITE_ROW, WRITE_UNUSED)
}

/* ---- The state image: what is possible under the settings ------------------ */

/* Before any good tick nothing is known.  A booked change is within CHANGE_LIMIT and
 * each tick books one at most; nothing is unbooked before the day is over, and what
 * is, is the fall from the raw at which booking ended. */
static bool possible_day(const struct state *st)
{
    if (!st->any_good
        && (st->opening != 0 || st->last != 0 || st->refilled != 0 || st->used != 0
            || st->unbooked != 0 || st->last_contact))
        return false;
    if (magnitude(st->refilled) + magnitude(st->used) > (int64_t)CHANGE_LIMIT * st->day_ticks)
        return false;
    if (st->day_ticks < DAY_TICKS && st->unbooked != 0)
        return false;
    if (!between(st->unbooked + st->last, -RAW_LIMIT, RAW_LIMIT))
        return false;
    return st->opening + st->refilled - st->used - st->unbooked == st->last;
}

/* A bad tick has no run, and ends every stage: by a stop, or by error 9.  Before any
 * tick the last one was not good. */
static bool possible_stability(const struct given *g, const struct state *st)
{
    if (!st->last_good)
        return st->run == 0 && st->stage == 0;
    return st->any_good && st->run <= setting(g, GIVEN_STABILITY_TIME);
}

/* Zero less tracked is the raw of the last accepted zero (or 0), and tracking moves
 * the zero alone: both were in the zero range. */
static bool possible_zero(const struct given *g, const struct state *st)
{
    const int64_t C = setting(g, GIVEN_CAPACITY);
    const int64_t range = C * setting(g, GIVEN_ZERO_RANGE);

    if (10 * magnitude(st->zero) > range)
        return false;
    if (10 * magnitude((int64_t)st->zero - st->tracked) > range)
        return false;
    return st->tare <= C * setting(g, GIVEN_DIVISION);
}

/* Tracking is off if q or w is 0: then nothing is counted, and nothing ever moved.
 * Only a good tick in stage 00 is counted, and step 6 does not lead out of that.  The
 * contact is not asked: closed ticks were counted before request A6, and what was
 * written then stays readable. */
static bool possible_tracking(const struct given *g, const struct state *st)
{
    const int64_t q = setting(g, GIVEN_TRACKING_TIME), w = setting(g, GIVEN_TRACKING_WIDTH);

    if (q == 0 || w == 0)
        return st->tracked == 0 && st->tracking_count == 0;
    if (magnitude(st->tracked) > setting(g, GIVEN_ALLOWANCE))
        return false;
    if (st->stage != 0 || !st->last_good)
        return st->tracking_count == 0;
    return st->tracking_count < q;
}

/* The setpoints in use do not change outside stage 00, so a batch is in a stage to which
 * they lead, whatever waits beside them.  By their rules F is not 0 where P is not, nor
 * where OP is not in mode 1. */
static bool possible_stage(const struct given *g, const struct state *st)
{
    const struct setpoints *p = &st->setpoints;
    const bool normal = mode_of(g) == MODE_NORMAL;

    switch (st->stage) {
    case 0: case 3:
        return true;
    case 4: case 5:
        return normal && p->optional != 0;
    case 6: case 7:
        return p->preliminary != 0;
    case 8: case 9: case 10: case 11:
        return p->final != 0;
    case 14: case 15: case 16:
        return normal;
    default:
        return false;
    }
}

/* A set that waits was tested as it was written, and none is left in stage 00.  Where
 * none waits its numbers are 0, so that there is one image for the state. */
static bool possible_waiting(const struct given *g, const struct state *st)
{
    const struct setpoints *p = &st->waiting_set;

    if (st->waiting)
        return st->stage != 0 && setpoint_rules(mode_of(g), p);
    return p->final == 0 && p->free_fall == 0 && p->preliminary == 0 && p->optional == 0
        && p->over == 0 && p->under == 0 && p->near_zero == 0;
}

/* The ticks that a timed stage lasts, at least 1; 0 of a stage that is not timed. */
static int64_t timed_ticks(const struct given *g, int32_t stage)
{
    static const uint8_t timed_by[] = {
        [3] = GIVEN_START, [4] = GIVEN_LARGE, [6] = GIVEN_MEDIUM, [8] = GIVEN_SMALL,
        [10] = GIVEN_JUDGE, [14] = GIVEN_DISCHARGE_START, [16] = GIVEN_DISCHARGE_END
    };
    int64_t n;

    if (timed_by[stage] == 0)
        return 0;
    n = setting(g, timed_by[stage]);
    return n < 1 ? 1 : n;
}

/* The limit of the clock that runs in a stage, or 0 where none does. */
static int64_t clock_limit(const struct given *g, int32_t stage)
{
    if (between(stage, 4, 11))
        return setting(g, GIVEN_FLOW_LIMIT);
    return stage >= 15 ? setting(g, GIVEN_DISCHARGE_LIMIT) : 0;
}

/* The timer is here what a timed stage has lasted. */
static bool possible_sequence(const struct given *g, const struct state *st)
{
    const int32_t stage = st->stage, error = st->error;
    const int64_t ticks = timed_ticks(g, stage);

    if (ticks == 0 ? st->timer != 0 : st->timer >= ticks)
        return false;
    if (st->flow_clock > clock_limit(g, stage))
        return false;
    if (error == 3 || error == 5)
        return false;
    if (between(error, 7, 8) && mode_of(g) != MODE_NORMAL)
        return false;
    if (stage != 0 && error != 0)
        return false;
    return !between(stage, 3, 11) || st->judgement == JUDGEMENT_NONE;
}

static bool possible_totals(const struct state *st)
{
    if (!st->undo)
        return st->undo_weight == 0;
    return st->batches >= 1 && st->undo_weight <= st->total;
}

/* Makes of the ticks that a timed stage has lasted those that are left, and the
 * reverse: both together are the ticks that it lasts. */
static void turn_timer(const struct given *g, struct state *st)
{
    const int64_t ticks = timed_ticks(g, st->stage);

    if (ticks != 0)
        st->timer = (int32_t)(ticks - st->timer);
}

static bool read_state(const uint8_t *image, const struct given *g, struct state *st)
{
    return read_rows(image, st) && possible_day(st) && possible_stability(g, st)
        && possible_zero(g, st) && possible_tracking(g, st)
        && setpoint_rules(mode_of(g), &st->setpoints) && possible_stage(g, st)
        && possible_waiting(g, st) && possible_sequence(g, st) && possible_totals(st);
}

/* ---- The calls ------------------------------------------------------------- */

/* A controller for the length of one call. */
struct called {
    struct given given;
    struct settings s;
    struct state st;
};

/* Opens the settings and puts the state of the image in the opening's place: 0, or
 * the first of 20, 21 and 10. */
static int wake(const uint8_t *settings, size_t settings_len, const uint8_t *state,
                size_t state_len, struct called *c)
{
    struct state opening;

    if (settings_len != PRESSGULLY_SETTINGS || state_len != PRESSGULLY_STATE)
        return ANSWER_LENGTH;
    if (!read_settings(settings, &c->given) || !read_state(state, &c->given, &c->st))
        return ANSWER_IMPOSSIBLE;
    if (open_controller(&c->given, &c->s, &opening) != ANSWER_DONE)
        return ANSWER_SETTINGS;
    turn_timer(&c->given, &c->st);
    return ANSWER_DONE;
}

static void rest(struct called *c, uint8_t *state)
{
    turn_timer(&c->given, &c->st);
    write_rows(&c->st, state);
}

static void write_answer(int number, size_t replied, const struct outputs *out, uint8_t *answer)
{
    const struct day none = { .opening = 0 };
    const struct day *day = out->day_closed ? &out->day : &none;
    int64_t analog;

    memcpy(&analog, &out->analog, sizeof analog);
    put_1(answer, number);
    put_1(answer + 1, out->good);
    put_1(answer + 2, out->overload);
    put_1(answer + 3, out->stable);
    put_1(answer + 4, out->stage);
    put_1(answer + 5, out->large);
    put_1(answer + 6, out->medium);
    put_1(answer + 7, out->small);
    put_1(answer + 8, out->discharge);
    put_1(answer + 9, out->judgement);
    put_1(answer + 10, out->error);
    put_1(answer + 11, out->near_zero);
    put_1(answer + 12, out->full);
    put_1(answer + 13, out->analog_kind);
    put_1(answer + 14, out->day_closed);
    put_1(answer + 15, (int64_t)replied);
    put_4(answer + 16, out->gross);
    put_4(answer + 20, out->net);
    put_4(answer + 24, day->opening);
    put_4(answer + 28, day->closing);
    put_8(answer + 32, day->refilled);
    put_8(answer + 40, day->used);
    put_8(answer + 48, day->unbooked);
    put_8(answer + 56, analog);  /* +0.0, all bits 0, where there is no value */
}

/* A number that no setpoint may have stays one: 6, whatever else is asked. */
static int32_t setpoint_of(uint32_t point)
{
    return point > SETPOINT_LIMIT ? SETPOINT_LIMIT + 1 : (int32_t)point;
}

/* 0, or 13 and no request where the number is of none. */
static int read_request(uint32_t number, const uint32_t *points, size_t points_len,
                        struct request *r)
{
    static const uint8_t kinds[] = {
        [PRESSGULLY_NOTHING] = REQUEST_NONE,
        [PRESSGULLY_ZERO] = REQUEST_ZERO,
        [PRESSGULLY_TARE] = REQUEST_TARE,
        [PRESSGULLY_TARE_CLEAR] = REQUEST_TARE_CLEAR,
        [PRESSGULLY_START] = REQUEST_START,
        [PRESSGULLY_STOP] = REQUEST_STOP,
        [PRESSGULLY_SET] = REQUEST_SETPOINTS,
        [PRESSGULLY_TOTAL_CLEAR] = REQUEST_TOTAL_CLEAR,
        [PRESSGULLY_UNDO] = REQUEST_UNDO,
        [PRESSGULLY_SHOW_GROSS] = REQUEST_SHOW_GROSS,
        [PRESSGULLY_SHOW_NET] = REQUEST_SHOW_NET,
        [PRESSGULLY_DAY_CLOSE] = REQUEST_DAY_CLOSE,
        [PRESSGULLY_DISCHARGE] = REQUEST_DISCHARGE
    };

    *r = (struct request){ .kind = REQUEST_NONE };
    if (number >= sizeof kinds / sizeof kinds[0])
        return ANSWER_UNKNOWN;
    if (number == PRESSGULLY_SET) {
        if (points_len != PRESSGULLY_POINTS)
            return ANSWER_UNKNOWN;
        r->setpoints = (struct setpoints){
            .final = setpoint_of(points[0]),
            .free_fall = setpoint_of(points[1]),
            .preliminary = setpoint_of(points[2]),
            .optional = setpoint_of(points[3]),
            .over = setpoint_of(points[4]),
            .under = setpoint_of(points[5]),
            .near_zero = setpoint_of(points[6]),
        };
    }
    r->kind = (enum request_kind)kinds[number];
    return ANSWER_DONE;
}

uint32_t pressgully_open(const uint8_t *settings, size_t settings_len, uint8_t *state,
                         size_t state_len)
{
    struct called c;

    if (settings_len != PRESSGULLY_SETTINGS || state_len != PRESSGULLY_STATE)
        return ANSWER_LENGTH;
    if (!read_settings(settings, &c.given))
        return ANSWER_IMPOSSIBLE;
    if (open_controller(&c.given, &c.s, &c.st) != ANSWER_DONE)
        return ANSWER_SETTINGS;
    rest(&c, state);
    return ANSWER_DONE;
}

/* The earlier image, with 0 in the places that it did not have yet, is judged as what it
 * is to become: there is one image for a state, so these very bytes are the new one. */
uint32_t pressgully_grow(const uint8_t *settings, size_t settings_len, const uint8_t *earlier,
                         size_t earlier_len, uint8_t *state, size_t state_len)
{
    uint8_t grown[PRESSGULLY_STATE] = { 0 };
    struct called c;
    int number;

    if (earlier_len != PRESSGULLY_STATE_A3)
        return ANSWER_LENGTH;
    memcpy(grown, earlier, PRESSGULLY_STATE_A3);
    number = wake(settings, settings_len, grown, state_len, &c);
    if (number == ANSWER_DONE)
        memcpy(state, grown, sizeof grown);
    return (uint32_t)number;
}

uint32_t pressgully_tick(const uint8_t *settings, size_t settings_len, uint8_t *state,
                         size_t state_len, int32_t count, bool contact, uint32_t request,
                         const uint32_t *points, size_t points_len, uint8_t *answer,
                         size_t answer_len)
{
    struct called c;
    struct request r;
    struct outcome o;
    struct outputs out;
    int number = wake(settings, settings_len, state, state_len, &c);

    if (number != ANSWER_DONE)
        return (uint32_t)number;
    if (answer_len < PRESSGULLY_ANSWER)
        return ANSWER_ROOM;
    number = read_request(request, points, points_len, &r);
    tick(&c.s, &c.st, count, contact, r, &o, &out);
    if (number == ANSWER_DONE)
        number = o.number;
    rest(&c, state);
    write_answer(number, 0, &out, answer);
    return (uint32_t)number;
}

uint32_t pressgully_line(const uint8_t *settings, size_t settings_len, uint8_t *state,
                         size_t state_len, int32_t count, bool contact,
                         const uint8_t *receive, size_t receive_len, uint8_t *reply,
                         size_t reply_len, uint8_t *answer, size_t answer_len)
{
    struct called c;
    struct outputs out;
    size_t replied;
    int number = wake(settings, settings_len, state, state_len, &c);

    if (number != ANSWER_DONE)
        return (uint32_t)number;
    if (answer_len < PRESSGULLY_ANSWER)
        return ANSWER_ROOM;
    number = line_tick(&c.s, &c.st, count, contact, receive, receive_len, reply, reply_len,
                       &replied, &out);
    rest(&c, state);
    write_answer(number, replied, &out, answer);
    return (uint32_t)number;
}

uint32_t pressgully_block(const uint8_t *settings, size_t settings_len, uint8_t *state,
                          size_t state_len, const int32_t *counts, size_t counts_len,
                          bool contact)
{
    struct called c;
    int number = wake(settings, settings_len, state, state_len, &c);

    if (number == ANSWER_DONE)
        number = run_block(&c.s, &c.st, counts, counts_len, contact);
    if (number == ANSWER_DONE)
        rest(&c, state);
    return (uint32_t)number;
}
