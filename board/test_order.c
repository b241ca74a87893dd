/* Which refusal is given where several apply, and what a refused call leaves; the settings' rows at their ends; requests by number; buffers
 * of every length. */
#include "test.h"

#include <stdio.h>
#include <string.h>

static const uint8_t opened[PRESSGULLY_STATE]; /* every byte of an opening's state is 0 */

static int32_t zeros[PRESSGULLY_BLOCK + 1];

static void lend_a(struct lent *l)
{
    uint8_t settings[PRESSGULLY_SETTINGS];

    put_settings(settings, settings_a);
    lend(l, settings, opened);
}

static struct call any_call(struct lent *l, enum kind kind)
{
    switch (kind) {
    case OPEN: return open_call();
    case GROW: return grow_call();
    case TICK: return tick_call(0, false, PRESSGULLY_NOTHING);
    case LINE: return line_call(l, 0, false, "RW");
    default: return block_call(zeros, 1, false);
    }
}

/* ---- The order ---- */

/* Every choice of faults: the first in the order is told. An opening does not ask what the state's bytes are, nor does a growth, which asks
 * the earlier image's. */
static void faults(void)
{
    enum {
        SETTINGS_LENGTH = 1, EARLIER_LENGTH = 2, STATE_LENGTH = 4, SETTINGS_BYTE = 8, STATE_FIELD = 16, SETTING = 32, ROOM = 64, CHOICES = 128
    };
    int kind;
    unsigned chosen;

    for (kind = OPEN; kind < KINDS; kind++)
        for (chosen = 0; chosen < CHOICES; chosen++) {
            struct lent l;
            struct call c;
            struct outcome o;
            uint32_t due = 0;

            lend_a(&l);
            c = any_call(&l, (enum kind)kind);
            if (chosen & ROOM && kind >= TICK) { /* of the answer, or a block too long */
                due = kind == BLOCK ? 15 : 14;
                c.answer_len = PRESSGULLY_ANSWER - 1;
                c.counts_len = PRESSGULLY_BLOCK + 1;
            }
            if (chosen & SETTING) {
                due = 10;
                put_setting(l.settings, SETTING_DIVISION, 3);
            }
            if (chosen & STATE_FIELD) {
                due = kind == OPEN ? due : 21;
                put_state(kind == GROW ? l.earlier : l.state, STATE_TARE, -1);
            }
            if (chosen & SETTINGS_BYTE) {
                due = 21;
                l.settings[127] = 1;
            }
            if (chosen & STATE_LENGTH) {
                due = 20;
                c.state_len = PRESSGULLY_STATE - 1;
            }
            if (chosen & EARLIER_LENGTH) { /* that of a present image */
                due = kind == GROW ? 20 : due;
                c.earlier_len = PRESSGULLY_STATE;
            }
            if (chosen & SETTINGS_LENGTH) {
                due = 20;
                c.settings_len = PRESSGULLY_SETTINGS + 1;
            }
            o = run(&l, &c);
            check(o.kept && o.told == due, "order: call %d with faults %02x is told %u instead of %u", kind, chosen, (unsigned)o.told,
                  (unsigned)due);
        }
}

static void lengths(void)
{
    static const size_t settings_lens[] = {0, 1, 99, 100, 127, 129, 144, 160}, state_lens[] = {0, 1, 128, 255, 256, 287, 289, 320};
    int kind;
    unsigned i;

    for (kind = OPEN; kind < KINDS; kind++)
        for (i = 0; i < 8; i++) {
            struct lent l;
            struct call c;
            struct outcome o;

            lend_a(&l);
            c = any_call(&l, (enum kind)kind);
            c.settings_len = settings_lens[i];
            o = run(&l, &c);
            check(o.kept && o.told == 20, "order: call %d with settings of %u bytes", kind, (unsigned)settings_lens[i]);
            c = any_call(&l, (enum kind)kind);
            c.state_len = state_lens[i];
            o = run(&l, &c);
            check(o.kept && o.told == 20, "order: call %d with a state of %u bytes", kind, (unsigned)state_lens[i]);
        }
}

/* ---- Settings ---- */

/* All calls on these settings and an opening's state, and an opening and a growth over bytes of any kind. */
static void expect_settings(const uint8_t *settings, uint32_t due, const char *what)
{
    bool held = true;
    int kind;

    for (kind = OPEN; kind < KINDS; kind++) {
        struct lent l;
        struct call c;
        struct outcome o;

        lend(&l, settings, opened);
        if (kind == OPEN || kind == GROW)
            memset(l.state, 0x5a, PRESSGULLY_STATE);
        c = any_call(&l, (enum kind)kind);
        o = run(&l, &c);
        held = held && o.kept && (due == 0 ? !o.refused : o.told == due);
        if ((kind == OPEN || kind == GROW) && due == 0)
            held = held && memcmp(l.state, opened, PRESSGULLY_STATE) == 0;
    }
    check(held, "order: %s: not told %u by every call", what, (unsigned)due);
}

static void expect_setting(const int32_t *numbers, enum setting s, int32_t number, uint32_t due)
{
    uint8_t settings[PRESSGULLY_SETTINGS];
    char what[60];

    put_settings(settings, numbers);
    put_setting(settings, s, number);
    sprintf(what, "setting %d is %ld", (int)s, (long)number);
    expect_settings(settings, due, what);
}

static void setting_ends(const int32_t *numbers, enum setting s, int32_t least, int32_t most)
{
    expect_setting(numbers, s, least - 1, 10);
    expect_setting(numbers, s, least, 0);
    expect_setting(numbers, s, most, 0);
    expect_setting(numbers, s, most + 1, 10);
    expect_setting(numbers, s, INT32_MIN, 10);
    expect_setting(numbers, s, INT32_MAX, 10);
}

static void settings_rows(void)
{
    static const int32_t small[SETTINGS] = {0, 1000, 100, 1, 1, 2, 0, 0, 0, 10, 0, 2, 0, 0, 0, 0, 0, 1, 0, 0, -1, 1, 0, 0, 1};
    static const uint8_t delays[] = {SETTING_START_DELAY, SETTING_LARGE_DISABLE, SETTING_MEDIUM_DISABLE, SETTING_SMALL_DISABLE,
                                     SETTING_JUDGE_DELAY, SETTING_DISCHARGE_START, SETTING_DISCHARGE_END};
    uint8_t settings[PRESSGULLY_SETTINGS];
    int n;
    unsigned i;

    setting_ends(small, SETTING_ZERO_COUNT, -2000000, 990); /* S - Z is at least 10·W */
    setting_ends(small, SETTING_SPAN_COUNT, 10, 2000000);
    setting_ends(small, SETTING_CAPACITY, 1, 16000);
    setting_ends(small, SETTING_SPAN_WEIGHT, 1, 100);
    setting_ends(settings_a, SETTING_CAPACITY, 10000, 16000); /* W is at most C */
    expect_setting(settings_a, SETTING_SPAN_COUNT, 99999, 10);
    expect_setting(settings_large, SETTING_ZERO_COUNT, -2000000, 0);
    expect_setting(settings_large, SETTING_ZERO_COUNT, -2000001, 10);
    for (n = -1; n <= 51; n++)
        expect_setting(small, SETTING_DIVISION, n, n == 1 || n == 2 || n == 5 || n == 10 || n == 20 || n == 50 ? 0 : 10);
    setting_ends(small, SETTING_ZERO_RANGE, 1, 30);
    setting_ends(small, SETTING_TRACKING_TIME, 0, 500);
    setting_ends(small, SETTING_TRACKING_WIDTH, 0, 45);
    setting_ends(small, SETTING_ALLOWANCE, 0, 10000);
    setting_ends(small, SETTING_STABILITY_TIME, 10, 500);
    setting_ends(small, SETTING_STABILITY_WIDTH, 0, 9);
    setting_ends(small, SETTING_MODE, 1, 2);
    for (i = 0; i < sizeof delays; i++) {
        setting_ends(small, (enum setting)delays[i], 0, 9999);
        setting_ends(settings_large, (enum setting)delays[i], 0, 9999);
    }
    setting_ends(small, SETTING_FLOW_LIMIT, 1, 60000);
    setting_ends(small, SETTING_ADDRESS, 0, 99);
    setting_ends(small, SETTING_BOARD, 0, 2);
    setting_ends(small, SETTING_LOW_END, -999999, 999999);
    setting_ends(small, SETTING_HIGH_END, -999999, 999999);
    expect_setting(small, SETTING_HIGH_END, -1, 10); /* the low end's */
    setting_ends(small, SETTING_DISCHARGE_LIMIT, 1, 60000);
    for (i = 100; i < PRESSGULLY_SETTINGS; i++) {
        char what[40];

        put_settings(settings, settings_a);
        settings[i] = i % 2 ? 1 : 255;
        sprintf(what, "unused byte %u of the settings", i);
        expect_settings(settings, 21, what);
    }
}

/* A state after a good tick, with setpoints that have every flow. */
static void put_stage(struct lent *l, int stage)
{
    put_state(l->state, STATE_BEGUN, 1);
    put_state(l->state, STATE_LAST_GOOD, 1);
    put_state(l->state, STATE_FINAL, 1000);
    put_state(l->state, STATE_PRELIMINARY, 100);
    put_state(l->state, STATE_OPTIONAL, 300);
    put_state(l->state, STATE_STAGE, stage);
}

/* The widest bounds that settings can give: C·p and C·d are 2^62, and every zero, tracked sum and tare is within them. */
static void wide_bounds(void)
{
    static const uint8_t widest[] = {SETTING_CAPACITY, SETTING_DIVISION, SETTING_ZERO_RANGE, SETTING_ALLOWANCE};
    static const int32_t numbers[][3] = {{INT32_MIN, INT32_MAX, INT32_MAX}, {INT32_MAX, INT32_MIN, INT32_MAX}, {INT32_MIN, INT32_MIN, 0}};
    unsigned i, n;

    for (n = 0; n < 4; n++) {
        struct lent l;
        struct call c = block_call(zeros, 1, false);
        struct outcome o;

        lend_a(&l);
        for (i = 0; i < sizeof widest; i++)
            put_setting(l.settings, (enum setting)widest[i], INT32_MIN);
        if (n == 3) {
            put_state(l.state, STATE_TARE, -1);
        } else {
            put_state(l.state, STATE_ZERO, numbers[n][0]);
            put_state(l.state, STATE_TRACKED, numbers[n][1]);
            put_state(l.state, STATE_TARE, numbers[n][2]);
        }
        o = run(&l, &c);
        check(o.kept && o.told == (n == 3 ? 21 : 10), "order: under the widest settings, state %u: told %u", n, (unsigned)o.told);
    }
}

/* 21 comes before 10, so a state is judged under settings that will be refused: under the numbers as given, without their signs. */
static void judged_as_given(void)
{
    static const struct {
        enum setting s;
        int32_t number;
        int stage;
        enum state_field f;
        int32_t most; /* of the field; one more is 21 */
    } cases[] = {
        {SETTING_STABILITY_TIME, -100, 0, STATE_RUN, 100}, {SETTING_STABILITY_TIME, 600, 0, STATE_RUN, 600},
        {SETTING_STABILITY_TIME, 0, 0, STATE_RUN, 0}, {SETTING_STABILITY_TIME, 40000, 0, STATE_RUN, 40000},
        {SETTING_CAPACITY, -10000, 0, STATE_TARE, 10000}, {SETTING_CAPACITY, 0, 0, STATE_TARE, 0},
        {SETTING_DIVISION, -3, 0, STATE_TARE, 30000}, {SETTING_DIVISION, 20000, 0, STATE_TARE, 200000000},
        {SETTING_ZERO_RANGE, -2, 0, STATE_ZERO, 2000}, {SETTING_ZERO_RANGE, 31, 0, STATE_ZERO, 31000},
        {SETTING_ALLOWANCE, -20, 0, STATE_TRACKED, 20}, {SETTING_ALLOWANCE, INT32_MIN, 0, STATE_TRACKED, 2000},
        {SETTING_TRACKING_TIME, -7, 0, STATE_COUNTER, 6}, {SETTING_TRACKING_TIME, 501, 0, STATE_COUNTER, 500},
        {SETTING_TRACKING_TIME, -1, 0, STATE_TRACKED, 20}, {SETTING_TRACKING_WIDTH, -1, 0, STATE_TRACKED, 20},
        {SETTING_TRACKING_WIDTH, 46, 0, STATE_COUNTER, 99}, {SETTING_TRACKING_WIDTH, INT32_MIN, 0, STATE_COUNTER, 99},
        {SETTING_START_DELAY, -9, 3, STATE_LASTED, 8}, {SETTING_LARGE_DISABLE, 10000, 4, STATE_LASTED, 9999},
        {SETTING_MEDIUM_DISABLE, -2, 6, STATE_LASTED, 1}, {SETTING_SMALL_DISABLE, 10001, 8, STATE_LASTED, 10000},
        {SETTING_JUDGE_DELAY, -1, 10, STATE_LASTED, 0}, {SETTING_DISCHARGE_START, -5, 14, STATE_LASTED, 4},
        {SETTING_DISCHARGE_END, 12345, 16, STATE_LASTED, 12344}, {SETTING_FLOW_LIMIT, -44, 5, STATE_CLOCK, 44},
        {SETTING_FLOW_LIMIT, 60001, 11, STATE_CLOCK, 60001}, {SETTING_FLOW_LIMIT, 0, 7, STATE_CLOCK, 0},
        {SETTING_DISCHARGE_LIMIT, -70, 15, STATE_CLOCK, 70}, {SETTING_MODE, 0, 0, STATE_STAGE, 0},
        {SETTING_MODE, -1, 11, STATE_JUDGEMENT, 0}, {SETTING_MODE, 3, 0, STATE_ERROR, 6},
    };
    unsigned i;
    int more, stage;

    for (i = 0; i < sizeof cases / sizeof cases[0]; i++)
        for (more = 0; more <= 1; more++) {
            struct lent l;
            struct call c = block_call(zeros, 1, false);
            struct outcome o;

            lend_a(&l);
            put_setting(l.settings, cases[i].s, cases[i].number);
            put_stage(&l, cases[i].stage);
            put_state(l.state, cases[i].f, cases[i].most + more);
            o = run(&l, &c);
            check(o.kept && o.told == (more ? 21 : 10), "order: setting %d is %ld, %s %ld: told %u", (int)cases[i].s, (long)cases[i].number,
                  state_names[cases[i].f], (long)cases[i].most + more, (unsigned)o.told);
        }
    wide_bounds();
    /* a mode that is not 1 is mode 2 */
    for (more = 0; more <= 4; more++) {
        struct lent l;
        struct call c = block_call(zeros, 1, false);
        struct outcome o;

        for (stage = 4; stage <= 14; stage += 10) {
            lend_a(&l);
            put_setting(l.settings, SETTING_MODE, more);
            put_stage(&l, stage);
            o = run(&l, &c);
            check(o.kept && o.told == (more == 1 ? 0 : 21), "order: stage %d in mode %d: told %u", stage, more, (unsigned)o.told);
        }
        lend_a(&l);
        put_setting(l.settings, SETTING_MODE, more);
        put_state(l.state, STATE_OPTIONAL, 1); /* full, with a final of 0 */
        o = run(&l, &c);
        check(o.kept && o.told == (more == 1 ? 21 : more == 2 ? 0 : 10), "order: full in mode %d: told %u", more, (unsigned)o.told);
        lend_a(&l);
        put_setting(l.settings, SETTING_MODE, more);
        put_stage(&l, 3);
        put_state(l.state, STATE_WAITS, 1);
        put_state(l.state, STATE_WAITING_OPTIONAL, 1);
        o = run(&l, &c);
        check(o.kept && o.told == (more == 1 ? 21 : more == 2 ? 0 : 10), "order: full waits in mode %d: told %u", more, (unsigned)o.told);
    }
}

/* ---- Requests ---- */

/* What is no request is told 13, and does what a tick does that is asked nothing. */
static void expect_no_request(uint32_t request, size_t points)
{
    struct lent l, nothing;
    struct call c = tick_call(777, true, request), none = tick_call(777, true, PRESSGULLY_NOTHING);
    struct outcome o, asked_nothing;

    lend_a(&l);
    nothing = l;
    c.points_len = points;
    memset(l.points, 0, sizeof l.points); /* setpoints that would be accepted */
    memset(nothing.points, 0, sizeof nothing.points);
    o = run(&l, &c);
    asked_nothing = run(&nothing, &none);
    check(o.kept && asked_nothing.kept && o.told == 13 && asked_nothing.told == 0 && memcmp(l.state, nothing.state, PRESSGULLY_STATE) == 0
              && memcmp(l.answer + 1, nothing.answer + 1, PRESSGULLY_ANSWER - 1) == 0,
          "order: request %lu with %u points: told %u", (unsigned long)request, (unsigned)points, (unsigned)o.told);
}

/* Written in stage 0, where they are in use at once, and in a start delay of two ticks, where they wait. */
static void expect_points(const uint32_t *points, int stage, uint32_t due)
{
    struct lent l, before;
    struct call c = tick_call(0, false, PRESSGULLY_SET);
    struct outcome o;
    const char *fault;

    lend_a(&l);
    put_setting(l.settings, SETTING_START_DELAY, 2);
    put_stage(&l, stage);
    memcpy(l.points, points, PRESSGULLY_POINTS * sizeof points[0]);
    before = l;
    o = run(&l, &c);
    fault = astray(&before, &l, due == 0 ? points : NULL);
    check(o.kept && o.told == due && l.state[88] == stage && fault == NULL, "order: setpoints %lu, .., %lu in stage %d: told %u, %s",
          (unsigned long)points[0], (unsigned long)points[6], stage, (unsigned)o.told, fault == NULL ? "as it is due" : fault);
}

static void requests(void)
{
    static const uint32_t points[][PRESSGULLY_POINTS] = {
        {1000, 20, 100, 300, 5, 6, 7}, {999999, 0, 1, 2, 999999, 999999, 999999}, {1000, 20, 20, 0, 0, 0, 0}, {1000000, 0, 0, 0, 0, 0, 0},
        {UINT32_MAX, 0, 0, 0, 0, 0, 0}, {0, 0, 0, 0, UINT32_MAX, 0, 0}, {0, 0, 0, 0, 0, 1000000, 0}, {0, 0, 0, 0, 0, 0, 0x80000001u},
    };
    static const size_t lens[] = {0, 1, 6, 8};
    unsigned i;

    for (i = 0; i < 4; i++)
        expect_no_request(PRESSGULLY_SET, lens[i]);
    for (i = 13; i < 34; i++)
        expect_no_request(i, i % 9);
    expect_no_request(255, 0);
    expect_no_request(256 + PRESSGULLY_START, 0);
    expect_no_request(0x80000000u, 7);
    expect_no_request(UINT32_MAX, 7);
    for (i = 0; i < 8; i++) {
        expect_points(points[i], 0, i < 2 ? 0 : 6);
        expect_points(points[i], 3, i < 2 ? 0 : 6);
    }
    for (i = 0; i <= PRESSGULLY_POINTS + 1; i++) { /* no other request looks at its points */
        struct lent l;
        struct call c = tick_call(0, false, PRESSGULLY_START);
        struct outcome o;

        lend_a(&l);
        c.points_len = i;
        o = run(&l, &c);
        check(o.kept && o.told == 0 && l.state[88] == 3, "order: a start with %u points: told %u", i, (unsigned)o.told);
    }
}

/* Every choice of what a zero, a tare and a tare clear are refused for: a zero with the contact closed is told 8 after 3 and before 4, the
 * others never. What is refused is a tick that is asked nothing. */
static void zeros_and_tares(void)
{
    enum { BAD = 1, OVERLOAD = 2, STAGE = 4, CLOSED = 8, UNSTABLE = 16, OUTSIDE = 32, CHOICES = 64 };
    uint32_t request;
    unsigned chosen;

    for (request = PRESSGULLY_ZERO; request <= PRESSGULLY_TARE_CLEAR; request++)
        for (chosen = 0; chosen < CHOICES; chosen++) {
            const bool weighs = request != PRESSGULLY_TARE_CLEAR, closed = (chosen & CLOSED) != 0;
            const int32_t raw = chosen & OVERLOAD ? 100085 : chosen & OUTSIDE ? -2005 : 1000, count = chosen & BAD ? 2000001 : raw;
            struct lent l, nothing;
            struct call c = tick_call(count, closed, request), none = tick_call(count, closed, PRESSGULLY_NOTHING);
            struct outcome o, asked_nothing;
            uint32_t due = 0;
            bool held;

            lend_a(&l);
            put_stage(&l, chosen & STAGE ? 3 : 0);
            put_state(l.state, STATE_OPENING, raw); /* the raw of the tick before, and so no change in this one */
            put_state(l.state, STATE_LAST, raw);
            put_state(l.state, STATE_RUN, chosen & UNSTABLE ? 98 : 99);
            put_state(l.state, STATE_CONTACT, !closed);
            if (weighs && chosen & OUTSIDE)
                due = 5;
            if (weighs && chosen & UNSTABLE)
                due = 4;
            if (request == PRESSGULLY_ZERO && closed)
                due = 8;
            if (chosen & STAGE)
                due = 3;
            if (weighs && chosen & OVERLOAD && !(chosen & BAD)) /* a bad tick has none */
                due = 2;
            if (weighs && chosen & BAD)
                due = 1;
            nothing = l;
            o = run(&l, &c);
            asked_nothing = run(&nothing, &none);
            held = o.kept && asked_nothing.kept && o.told == due && l.answer[0] == due && asked_nothing.told == 0;
            if (due == 0 && request == PRESSGULLY_ZERO)
                held = held && state_number(l.state, STATE_ZERO) == 1000;
            if (due == 0 && request == PRESSGULLY_TARE)
                held = held && state_number(l.state, STATE_TARE) == 100;
            if (due != 0)
                held = held && memcmp(l.state, nothing.state, PRESSGULLY_STATE) == 0
                    && memcmp(l.answer + 1, nothing.answer + 1, PRESSGULLY_ANSWER - 1) == 0;
            check(held, "order: request %u with faults %02x is told %u instead of %u", (unsigned)request, chosen, (unsigned)o.told,
                  (unsigned)due);
        }
}

/* ---- Buffers ---- */

static void answer_buffers(void)
{
    static const size_t lens[] = {0, 1, 63, 64, 65, 96};
    unsigned i;
    int kind;

    for (kind = TICK; kind <= LINE; kind++)
        for (i = 0; i < 6; i++) {
            struct lent l;
            struct call c;
            struct outcome o;

            lend_a(&l);
            c = any_call(&l, (enum kind)kind);
            c.answer_len = lens[i];
            o = run(&l, &c);
            check(o.kept && o.told == (lens[i] < PRESSGULLY_ANSWER ? 14 : 0) && o.refused == (lens[i] < PRESSGULLY_ANSWER),
                  "order: call %d with an answer buffer of %u bytes: told %u", kind, (unsigned)lens[i], (unsigned)o.told);
        }
}

/* The line with a reply buffer of every length: the reply, or told 14 and a tick that was asked nothing. */
static void reply_buffers_at(bool contact, const char *line, uint32_t told, const char *reply)
{
    const size_t due = strlen(reply);
    size_t room;

    for (room = 0; room <= 96; room++) {
        struct lent l, nothing;
        struct call c, none = tick_call(0, contact, PRESSGULLY_NOTHING);
        struct outcome o;
        bool held;

        lend_a(&l);
        nothing = l;
        run(&nothing, &none);
        c = line_call(&l, 0, contact, line);
        c.reply_len = room;
        o = run(&l, &c);
        held = o.kept && o.told == (room < due ? 14 : told) && answer_number(l.answer, ANSWER_REPLIED) == (int64_t)(room < due ? 0 : due);
        if (room < due)
            held = held && memcmp(l.state, nothing.state, PRESSGULLY_STATE) == 0
                && memcmp(l.answer + 1, nothing.answer + 1, PRESSGULLY_ANSWER - 1) == 0;
        else
            held = held && memcmp(l.reply, reply, due) == 0;
        check(held, "order: line %s with a reply buffer of %u bytes: told %u", line, (unsigned)room, (unsigned)o.told);
    }
}

static void reply_buffers(const char *line, uint32_t told, const char *reply)
{
    reply_buffers_at(false, line, told, reply);
}

static void blocks(void)
{
    static const size_t lens[] = {0, 1, 4095, 4096, 4097};
    unsigned i;

    for (i = 0; i < 5; i++) {
        struct lent l;
        struct call c = block_call(zeros, lens[i], true);
        struct outcome o;

        lend_a(&l);
        o = run(&l, &c);
        check(o.kept && o.told == (lens[i] > 4096 ? 15 : 0) && state_number(l.state, STATE_TICKS) == (lens[i] > 4096 ? 0 : (int64_t)lens[i]),
              "order: a block of %u counts: told %u", (unsigned)lens[i], (unsigned)o.told);
    }
}

void test_order(void)
{
    faults();
    lengths();
    settings_rows();
    judged_as_given();
    requests();
    zeros_and_tares();
    answer_buffers();
    reply_buffers("BB", 0, "BB\r\n");
    reply_buffers("MZ", 4, "NG04\r\n");
    reply_buffers_at(true, "MZ", 8, "NG08\r\n");
    reply_buffers_at(true, "MT", 4, "NG04\r\n");
    reply_buffers_at(true, "CT", 0, "CT\r\n");
    reply_buffers("RW", 0, "US,GS,+0000000kg\r\n");
    reply_buffers("RT", 0, "00000000,00000000\r\n");
    reply_buffers("RS", 0, "000000000000000000000000000000000000000000\r\n");
    reply_buffers("XX", 13, "NG13\r\n");
    reply_buffers("", 11, "NG11\r\n");
    blocks();
}
