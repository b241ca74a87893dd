/* Every row of the state image's table at its ends: the least and the most is taken, one below and one above refused with 21. The numbers
 * are those of docs/IMAGES.md under the settings at hand. Where fields hang together, the others are chosen so that one rule alone breaks. */
#include "test.h"

#include <stdio.h>
#include <string.h>

struct image {
    uint8_t settings[PRESSGULLY_SETTINGS], state[PRESSGULLY_STATE];
};

static const int64_t DAY = 8640000;

/* The image as a tick, a line and a block read it: possible, or refused with 21 and nothing changed. An empty block leaves a possible one as
 * it is. */
static bool is_taken(const struct image *m, bool possible)
{
    static const int32_t no_counts[1];
    bool held = true;
    int kind;

    for (kind = TICK; kind < KINDS; kind++) {
        struct lent l;
        struct call c;
        struct outcome o;

        lend(&l, m->settings, m->state);
        c = kind == TICK ? tick_call(0, false, PRESSGULLY_NOTHING) : kind == LINE ? line_call(&l, 0, false, "RW") : block_call(no_counts, 0, false);
        o = run(&l, &c);
        held = held && o.kept && (possible ? !o.refused : o.told == 21); /* with an address the line is told 12 */
        held = held && (kind != BLOCK || memcmp(l.state, m->state, PRESSGULLY_STATE) == 0);
    }
    return held;
}

/* Its first 256 bytes as an earlier image, of which it is made again. */
static bool is_grown(const struct image *m, bool possible)
{
    struct lent l;
    struct call c = grow_call();
    struct outcome o;

    lend(&l, m->settings, m->state);
    memset(l.state, 0x5a, PRESSGULLY_STATE);
    o = run(&l, &c);
    return o.kept && o.told == (possible ? 0 : 21) && (!possible || memcmp(l.state, m->state, PRESSGULLY_STATE) == 0);
}

/* An image with nothing but 0 behind the 256th byte is what an earlier one becomes: as possible as that. */
static void expect(const struct image *m, bool possible, const char *what)
{
    uint8_t grown[PRESSGULLY_STATE];
    bool held = is_taken(m, possible);

    put_grown(grown, m->state);
    if (memcmp(grown, m->state, sizeof grown) == 0)
        held = held && is_grown(m, possible);
    check(held, "fields: %s: %s", what, possible ? "possible, but not taken as it stands" : "impossible, but not refused with 21");
}

/* The field with this number, all else as in the image. */
static void expect_number(const struct image *m, enum state_field f, int64_t number, bool possible)
{
    struct image n = *m;
    char what[80];

    put_state(n.state, f, number);
    sprintf(what, "%s %lld in stage %d", state_names[f], (long long)number, m->state[88]);
    expect(&n, possible, what);
}

/* The ends of a range, and its neighbours. Below 0 a field without a sign has its greatest number. */
static void ends(const struct image *m, enum state_field f, int64_t least, int64_t most)
{
    expect_number(m, f, least - 1, false);
    expect_number(m, f, least, true);
    expect_number(m, f, most, true);
    expect_number(m, f, most + 1, false);
}

/* An image in which hardly a field is 0. */
static struct image usual(const int32_t *settings)
{
    static const struct {
        enum state_field f;
        int32_t number;
    } fields[] = {
        {STATE_OPENING, 5000}, {STATE_REFILLED, 300}, {STATE_USED, 100}, {STATE_LAST, 5200}, {STATE_TICKS, 1000}, {STATE_BEGUN, 1},
        {STATE_CONTACT, 1}, {STATE_LAST_GOOD, 1}, {STATE_RUN, 7}, {STATE_ZERO, 150}, {STATE_TRACKED, -3}, {STATE_TARE, 20},
        {STATE_COUNTER, 9}, {STATE_SHOWS_NET, 1}, {STATE_FINAL, 1000}, {STATE_FREE_FALL, 20}, {STATE_PRELIMINARY, 100},
        {STATE_OPTIONAL, 300}, {STATE_OVER, 5}, {STATE_UNDER, 6}, {STATE_NEAR_ZERO, 50}, {STATE_ERROR, 6}, {STATE_JUDGEMENT, 2},
        {STATE_TOTAL, 5000}, {STATE_BATCHES, 7}, {STATE_UNDO, 1}, {STATE_UNDO_WEIGHT, 990},
    };
    struct image m;
    unsigned i;

    memset(&m, 0, sizeof m);
    put_settings(m.settings, settings);
    for (i = 0; i < sizeof fields / sizeof fields[0]; i++)
        put_state(m.state, fields[i].f, fields[i].number);
    return m;
}

/* The same in a stage, where nothing is tracked. */
static struct image in_stage(const int32_t *settings, int stage)
{
    struct image m = usual(settings);

    put_state(m.state, STATE_STAGE, stage);
    put_state(m.state, STATE_COUNTER, 0);
    put_state(m.state, STATE_ERROR, 0);
    put_state(m.state, STATE_JUDGEMENT, 0);
    return m;
}

/* The same with other setpoints waiting. */
static struct image with_waiting(const int32_t *settings, int stage)
{
    static const int32_t points[PRESSGULLY_POINTS] = {2000, 30, 200, 500, 7, 8, 90};
    struct image m = in_stage(settings, stage);
    int i;

    put_state(m.state, STATE_WAITS, 1);
    for (i = 0; i < PRESSGULLY_POINTS; i++)
        put_state(m.state, (enum state_field)(STATE_WAITING_FINAL + i), points[i]);
    return m;
}

static void unused_bytes(void)
{
    const struct image m = usual(settings_timed), waiting = with_waiting(settings_timed, 8);
    unsigned place, unused = 0;

    expect(&m, true, "the image that the others come from");
    expect(&waiting, true, "the image with setpoints waiting");
    for (place = 0; place < PRESSGULLY_STATE; place++) {
        struct image n = m;
        char what[40];

        if (!is_unused(place))
            continue;
        unused++;
        sprintf(what, "unused byte %u", place);
        n.state[place] = 1;
        expect(&n, false, what);
        n.state[place] = 128;
        expect(&n, false, what);
        if (place > 120 && place < 256) { /* two that a sum would cancel */
            n.state[120 + (place - 120) % 8] = 128;
            expect(&n, false, what);
        }
        n = waiting;
        n.state[place] = 1;
        expect(&n, false, what);
    }
    check(unused == 147, "fields: %u unused bytes instead of 147", unused); /* 38, 39, 41, 59, 89, 109 to 111, 120 to 255, 257 to 259 */
}

/* ---- The day ---- */

static struct image day(int64_t opening, int64_t refilled, int64_t used, int64_t unbooked, int64_t last, int64_t ticks)
{
    struct image m = usual(settings_timed);

    put_state(m.state, STATE_OPENING, opening);
    put_state(m.state, STATE_REFILLED, refilled);
    put_state(m.state, STATE_USED, used);
    put_state(m.state, STATE_UNBOOKED, unbooked);
    put_state(m.state, STATE_LAST, last);
    put_state(m.state, STATE_TICKS, ticks);
    return m;
}

static void expect_day(int64_t opening, int64_t refilled, int64_t used, int64_t unbooked, int64_t last, int64_t ticks, bool possible)
{
    const struct image m = day(opening, refilled, used, unbooked, last, ticks);
    char what[200];

    sprintf(what, "opening %lld, refilled %lld, used %lld, unbooked %lld, last %lld, ticks %lld", (long long)opening, (long long)refilled,
            (long long)used, (long long)unbooked, (long long)last, (long long)ticks);
    expect(&m, possible, what);
}

static void day_ranges(void)
{
    static const int64_t R = 4000000;
    const struct image first = day(0, 0, 0, 0, 0, 0);
    int sign;

    for (sign = -1; sign <= 1; sign += 2) {
        const int64_t most = sign * R, more = sign * (R + 1);

        expect_day(most, 0, most, 0, 0, 9, true); /* opening */
        expect_day(more, 0, more, 0, 0, 9, false);
        expect_day(0, most, 0, 0, most, 9, true); /* last */
        expect_day(0, most, 0, -sign, more, DAY, false);
        expect_day(0, 3 * most, 3 * most, 0, 0, 3, true); /* refilled and used: 24,000,000 in three ticks */
        expect_day(0, 3 * most + sign, 3 * most, 0, sign, 3, false);
        expect_day(0, 3 * most, 3 * most + sign, 0, -sign, 3, false);
        expect_day(-most, most, -most, 0, most, 1, true); /* with different signs they add up as well */
        expect_day(-most, most + sign, -most + sign, 0, most, 1, true);
        expect_day(0, sign, 0, 0, sign, 0, false); /* nothing is booked in no tick */
        expect_day(0, 0, sign, 0, -sign, 0, false);
        expect_day(0, sign, -sign, 0, 2 * sign, 0, false);
        expect_day(0, DAY * most, DAY * most, 0, 0, DAY, true);
        expect_day(0, DAY * most + sign, DAY * most + sign, 0, 0, DAY, false);
        expect_day(0, DAY * most, DAY * most, 0, 0, DAY - 1, false);
        expect_day(most, 0, 0, 2 * most, -most, DAY, true); /* unbooked: the sum with last is what was booked last */
        expect_day(most, sign, 0, 2 * most, -most + sign, DAY, false);
        expect_day(most, sign, 0, sign, most, DAY, false);
        expect_day(0, 0, 0, sign, -sign, DAY, true);
        expect_day(0, 0, 0, sign, -sign, DAY - 1, false);
        expect_day(most, 0, 0, 0, most, 0, true);
    }
    expect_day(0, INT64_MIN, INT64_MIN, 0, 0, DAY, false); /* their sum without signs is 0 in 64 bits, and the balance holds */
    expect_day(0, INT64_MAX, INT64_MAX, 0, 0, DAY, false);
    expect_day(0, INT64_MIN, INT64_MAX, 0, 1, DAY, false);
    expect_day(0, INT64_MIN, 0, INT64_MIN, 0, DAY, false);
    ends(&first, STATE_TICKS, 0, DAY);
    expect_number(&first, STATE_TICKS, (int64_t)UINT32_MAX / 2 + 1, false);
}

/* The day is broken by one in each of its five. */
static void balance(void)
{
    static const enum state_field parts[] = {STATE_OPENING, STATE_REFILLED, STATE_USED, STATE_UNBOOKED, STATE_LAST};
    const struct image m = day(100, 20, 30, 40, 50, DAY);
    unsigned i;

    expect(&m, true, "a day that balances");
    for (i = 0; i < 5; i++) {
        expect_number(&m, parts[i], state_number(m.state, parts[i]) + 1, false);
        expect_number(&m, parts[i], state_number(m.state, parts[i]) - 1, false);
    }
}

/* Before the first good tick there is no day, though ticks may be counted, and none of them was good. */
static void no_good_tick(void)
{
    struct image m = day(0, 0, 0, 0, 0, DAY), n;

    put_state(m.state, STATE_RUN, 0);
    put_state(m.state, STATE_COUNTER, 0);
    expect(&m, true, "a good tick, at 0");
    put_state(m.state, STATE_BEGUN, 0);
    put_state(m.state, STATE_CONTACT, 0);
    expect(&m, false, "no good tick, but the last was");
    put_state(m.state, STATE_LAST_GOOD, 0);
    expect(&m, true, "no good tick yet");
    ends(&m, STATE_LAST_GOOD, 0, 0);
    ends(&m, STATE_CONTACT, 0, 0);
    n = m;
    put_state(n.state, STATE_OPENING, 1);
    put_state(n.state, STATE_LAST, 1);
    expect(&n, false, "no good tick, but an opening and a last raw");
    n = m;
    put_state(n.state, STATE_REFILLED, 1);
    put_state(n.state, STATE_USED, 1);
    expect(&n, false, "no good tick, but refilled and used");
    n = m;
    put_state(n.state, STATE_OPENING, 1);
    put_state(n.state, STATE_UNBOOKED, 1);
    expect(&n, false, "no good tick, but an opening and unbooked");
    m = usual(settings_timed);
    ends(&m, STATE_CONTACT, 0, 1);
    expect_number(&m, STATE_BEGUN, 0, false);
    expect_number(&m, STATE_BEGUN, 2, false);
}

/* ---- Weight ---- */

static void weighing(void)
{
    struct image m = usual(settings_timed);
    const struct image large = usual(settings_large);

    ends(&m, STATE_RUN, 0, 100);
    ends(&large, STATE_RUN, 0, 500);
    ends(&m, STATE_COUNTER, 0, 99);
    ends(&large, STATE_COUNTER, 0, 499);
    ends(&m, STATE_TARE, 0, 10000);
    ends(&large, STATE_TARE, 0, 800000);
    ends(&large, STATE_SHOWS_NET, 0, 1);
    put_state(m.state, STATE_COUNTER, 0);
    expect_number(&m, STATE_LAST_GOOD, 0, false); /* with a run */
    put_state(m.state, STATE_RUN, 0);
    put_state(m.state, STATE_COUNTER, 1);
    expect_number(&m, STATE_LAST_GOOD, 0, false); /* with a counter */
    put_state(m.state, STATE_COUNTER, 0);
    ends(&m, STATE_LAST_GOOD, 0, 1);
    put_state(m.state, STATE_LAST_GOOD, 0);
    ends(&m, STATE_RUN, 0, 0);
    ends(&m, STATE_COUNTER, 0, 0);
}

/* The last tick of a batch or a discharge was good, and it tracked nothing. */
static void last_tick_in_stages(void)
{
    static const uint8_t stages[] = {3, 4, 5, 6, 7, 8, 9, 10, 11, 14, 15, 16};
    unsigned i;

    for (i = 0; i < sizeof stages; i++) {
        struct image m = in_stage(settings_timed, stages[i]), n;

        ends(&m, STATE_COUNTER, 0, 0);
        ends(&m, STATE_RUN, 0, 100);
        put_state(m.state, STATE_RUN, 0);
        ends(&m, STATE_LAST_GOOD, 1, 1);
        n = m; /* at 0 since the opening: a batch before the first good tick, but for one byte */
        memset(n.state, 0, 32);
        put_state(n.state, STATE_CONTACT, 0);
        ends(&n, STATE_BEGUN, 1, 1);
        put_state(n.state, STATE_LAST_GOOD, 0);
        expect_number(&n, STATE_BEGUN, 0, false);
    }
}

/* The setting with this number, all else as in the image. */
static void expect_under(const struct image *m, enum setting s, int64_t number, bool possible, const char *what)
{
    struct image n = *m;
    char words[100];

    put_setting(n.settings, s, number);
    sprintf(words, "setting %d is %lld, %s", (int)s, (long long)number, what);
    expect(&n, possible, words);
}

/* Where the time or the width is 0 nothing is counted and nothing was tracked; each is enough, and 1 of each tracks. */
static void tracking_off(void)
{
    static const enum setting offs[] = {SETTING_TRACKING_TIME, SETTING_TRACKING_WIDTH};
    struct image m = usual(settings_timed), n;
    unsigned i;

    for (i = 0; i < 2; i++) {
        m = usual(settings_timed);
        put_state(m.state, STATE_COUNTER, 0);
        expect_under(&m, offs[i], 1, true, "with a tracked sum");
        expect_under(&m, offs[i], 0, false, "with a tracked sum");
        n = m;
        put_setting(n.settings, offs[i], 0);
        put_state(n.state, STATE_TRACKED, 0);
        ends(&n, STATE_TRACKED, 0, 0);
        ends(&n, STATE_COUNTER, 0, 0);
        ends(&n, STATE_ZERO, -2000, 2000);
        put_state(n.state, STATE_STAGE, 8); /* in a stage as well */
        put_state(n.state, STATE_ERROR, 0);
        put_state(n.state, STATE_JUDGEMENT, 0);
        ends(&n, STATE_TRACKED, 0, 0);
        n = m;
        put_setting(n.settings, offs[i], 1);
        ends(&n, STATE_TRACKED, -20, 20);
        ends(&n, STATE_COUNTER, 0, offs[i] == SETTING_TRACKING_TIME ? 0 : 99); /* 0..q - 1 */
    }
    put_state(m.state, STATE_TRACKED, 0);
    put_state(m.state, STATE_COUNTER, 1);
    expect_under(&m, SETTING_TRACKING_TIME, 2, true, "with a counter of 1");
    expect_under(&m, SETTING_TRACKING_TIME, 1, false, "with a counter of 1");
    expect_under(&m, SETTING_TRACKING_TIME, 0, false, "with a counter of 1");
    expect_under(&m, SETTING_TRACKING_WIDTH, 1, true, "with a counter of 1");
    expect_under(&m, SETTING_TRACKING_WIDTH, 0, false, "with a counter of 1");
    put_state(m.state, STATE_COUNTER, 0);
    put_setting(m.settings, SETTING_TRACKING_TIME, 0);
    put_setting(m.settings, SETTING_TRACKING_WIDTH, 0);
    ends(&m, STATE_TRACKED, 0, 0);
    ends(&m, STATE_COUNTER, 0, 0);
}

static void expect_zero(int64_t zero, int64_t tracked, const int32_t *settings, bool possible)
{
    struct image m = usual(settings);
    char what[60];

    put_state(m.state, STATE_ZERO, zero);
    put_state(m.state, STATE_TRACKED, tracked);
    sprintf(what, "zero %lld, tracked %lld", (long long)zero, (long long)tracked);
    expect(&m, possible, what);
}

static void zeros(void)
{
    int32_t odd[SETTINGS], tight[SETTINGS];
    int sign;

    memcpy(odd, settings_timed, sizeof odd); /* C·p is 3009: a zero of 300.9 */
    odd[SETTING_CAPACITY] = odd[SETTING_SPAN_WEIGHT] = 1003;
    odd[SETTING_ZERO_RANGE] = 3;
    memcpy(tight, settings_timed, sizeof tight); /* nothing may be tracked, and the zero is 0 */
    tight[SETTING_CAPACITY] = tight[SETTING_SPAN_WEIGHT] = 400;
    tight[SETTING_ZERO_RANGE] = 1;
    tight[SETTING_ALLOWANCE] = 0;
    for (sign = -1; sign <= 1; sign += 2) {
        expect_zero(sign * 2000, 0, settings_timed, true);
        expect_zero(sign * 2001, 0, settings_timed, false);
        expect_zero(sign * 2001, sign, settings_timed, false);
        expect_zero(sign * 2000, sign * 20, settings_timed, true);
        expect_zero(sign * 2000, -sign, settings_timed, false); /* the keyed zero, zero - tracked, was out of range */
        expect_zero(sign * 1980, -sign * 20, settings_timed, true);
        expect_zero(sign * 1981, -sign * 20, settings_timed, false);
        expect_zero(0, sign * 20, settings_timed, true);
        expect_zero(0, sign * 21, settings_timed, false);
        expect_zero(sign * 300, 0, odd, true);
        expect_zero(sign * 301, 0, odd, false);
        expect_zero(sign * 40, 0, tight, true);
        expect_zero(sign * 41, 0, tight, false);
        expect_zero(0, sign, tight, false);
        expect_zero(sign * 48000, sign * 10000, settings_large, true);
        expect_zero(sign * 48000, sign * 10001, settings_large, false);
        expect_zero(sign * 48001, sign * 10000, settings_large, false);
        expect_zero(sign * 38000, -sign * 10000, settings_large, true);
        expect_zero(sign * 38001, -sign * 10000, settings_large, false);
    }
    expect_zero(INT32_MIN, INT32_MIN, settings_large, false);
}

/* ---- Setpoints ---- */

/* In use, and waiting beside others. */
static void expect_points(const int32_t *settings, const int32_t *points, bool possible)
{
    struct image m = usual(settings), waiting = with_waiting(settings, 11);
    char what[100] = "setpoints";
    int i;

    for (i = 0; i < PRESSGULLY_POINTS; i++) {
        put_state(m.state, (enum state_field)(STATE_FINAL + i), points[i]);
        put_state(waiting.state, (enum state_field)(STATE_WAITING_FINAL + i), points[i]);
        sprintf(what + strlen(what), " %ld", (long)points[i]);
    }
    expect(&m, possible, what);
    strcat(what, " waiting");
    expect(&waiting, possible, what);
}

static void setpoints(void)
{
    static const struct {
        int32_t points[PRESSGULLY_POINTS];
        bool possible, in_mode_2; /* there OP is full, of which nothing is asked */
    } cases[] = {
        {{0, 0, 0, 0, 0, 0, 0}, true, true},
        {{999999, 999999, 0, 0, 999999, 999999, 999999}, true, true},
        {{999999, 0, 999998, 999999, 0, 0, 0}, true, true},
        {{1000000, 0, 0, 0, 0, 0, 0}, false, false},
        {{1000, 1000, 0, 0, 0, 0, 0}, true, true},
        {{1000, 1001, 0, 0, 0, 0, 0}, false, false},
        {{1000, 20, 20, 0, 0, 0, 0}, false, false},
        {{1000, 20, 21, 0, 0, 0, 0}, true, true},
        {{1000, 20, 1000, 0, 0, 0, 0}, true, true},
        {{1000, 20, 1001, 0, 0, 0, 0}, false, false},
        {{1000, 20, 19, 0, 0, 0, 0}, false, false},
        {{1000, 20, 0, 300, 0, 0, 0}, true, true},
        {{1000, 20, 0, 20, 0, 0, 0}, false, true},
        {{1000, 20, 0, 21, 0, 0, 0}, true, true},
        {{1000, 20, 100, 100, 0, 0, 0}, false, true},
        {{1000, 20, 100, 101, 0, 0, 0}, true, true},
        {{1000, 20, 100, 1000, 0, 0, 0}, true, true},
        {{1000, 20, 100, 1001, 0, 0, 0}, false, true},
        {{1000, 20, 100, 999999, 0, 0, 0}, false, true},
        {{1000, 20, 100, 1000000, 0, 0, 0}, false, false},
        {{0, 0, 0, 1, 0, 0, 0}, false, true},
        {{0, 0, 1, 0, 0, 0, 0}, false, false},
        {{0, 1, 0, 0, 0, 0, 0}, false, false},
        {{0, 0, 0, 0, 1000000, 0, 0}, false, false},
        {{0, 0, 0, 0, 0, 1000000, 0}, false, false},
        {{0, 0, 0, 0, 0, 0, 1000000}, false, false},
        {{0, 0, 0, 0, 0, 0, -1}, false, false},
    };
    int32_t mode_2[SETTINGS];
    unsigned i;

    memcpy(mode_2, settings_timed, sizeof mode_2);
    mode_2[SETTING_MODE] = 2;
    for (i = 0; i < sizeof cases / sizeof cases[0]; i++) {
        expect_points(settings_timed, cases[i].points, cases[i].possible);
        expect_points(mode_2, cases[i].points, cases[i].in_mode_2);
    }
}

/* ---- Stages, timers, clocks, errors, judgements ---- */

/* With setpoints of all three flows, of which mode 2 has two. */
static bool is_stage(int n, int mode)
{
    return n == 0 || n == 3 || (n >= 6 && n <= 11) || (mode == 1 && (n == 4 || n == 5 || (n >= 14 && n <= 16)));
}

/* In every stage but 0 setpoints may wait, also such as would not lead to that stage; where none wait their numbers are 0. */
static void waiting_in(int mode, int stage)
{
    struct image m = with_waiting(settings_timed, stage), none = in_stage(settings_timed, stage);
    int i;

    put_setting(m.settings, SETTING_MODE, mode);
    put_setting(none.settings, SETTING_MODE, mode);
    expect_number(&m, STATE_WAITS, 0, false); /* numbers, but of none */
    expect_number(&m, STATE_WAITS, 1, stage != 0);
    for (i = 1; i < 8; i++)
        expect_number(&m, STATE_WAITS, 1 << i, false);
    ends(&none, STATE_WAITS, 0, stage == 0 ? 0 : 1); /* seven times 0 are setpoints as well */
    expect_number(&none, STATE_WAITS, 255, false);
    for (i = STATE_WAITING_FINAL; i <= STATE_WAITING_NEAR_ZERO; i++) {
        ends(&none, (enum state_field)i, 0, 0);
        expect_number(&none, (enum state_field)i, 0x1000000, false);
    }
    if (stage == 0)
        return;
    for (i = STATE_WAITING_OVER; i <= STATE_WAITING_NEAR_ZERO; i++)
        ends(&m, (enum state_field)i, 0, 999999);
    ends(&m, STATE_WAITING_FINAL, mode == 1 ? 500 : 200, 999999); /* at least OP in mode 1, at least P in mode 2 */
    ends(&m, STATE_WAITING_FREE_FALL, 0, 199);
    ends(&m, STATE_WAITING_OPTIONAL, mode == 1 ? 201 : 0, mode == 1 ? 2000 : 999999);
    put_state(m.state, STATE_WAITING_OPTIONAL, 0);
    ends(&m, STATE_WAITING_PRELIMINARY, 31, 2000);
}

static void waiting(void)
{
    static const struct {
        int stage;
        enum state_field in_use, waiting; /* what the stage needs in use is not there where it waits */
    } needs[] = {
        {4, STATE_OPTIONAL, STATE_WAITING_OPTIONAL}, {5, STATE_OPTIONAL, STATE_WAITING_OPTIONAL},
        {6, STATE_PRELIMINARY, STATE_WAITING_PRELIMINARY}, {7, STATE_PRELIMINARY, STATE_WAITING_PRELIMINARY},
    };
    unsigned i;
    int mode, stage;

    for (mode = 1; mode <= 2; mode++)
        for (stage = 0; stage <= 16; stage++)
            if (is_stage(stage, mode))
                waiting_in(mode, stage);
    for (i = 0; i < 4; i++) {
        struct image m = with_waiting(settings_timed, needs[i].stage);

        expect_number(&m, needs[i].waiting, 0, true);
        expect_number(&m, needs[i].in_use, 0, false);
    }
    for (stage = 8; stage <= 11; stage++) {
        struct image m = with_waiting(settings_timed, stage);
        int f;

        for (f = STATE_FREE_FALL; f <= STATE_OPTIONAL; f++)
            put_state(m.state, (enum state_field)f, 0);
        expect(&m, true, "F alone, and others waiting");
        expect_number(&m, STATE_FINAL, 0, false);
    }
}

/* The stages that setpoints have, as characters, stage by stage: + possible. */
static void flow_stages(void)
{
    static const struct {
        int32_t F, FF, P, OP;
        const char *stages[2]; /* in mode 1, in mode 2 */
    } cases[] = { /*                 01234567890123456789    01234567890123456789 */
        {1000, 20, 100, 300,       {"+--+++++++++--+++---", "+--+--++++++--------"}},
        {1000, 20, 100, 0,         {"+--+--++++++--+++---", "+--+--++++++--------"}},
        {1000, 20, 0, 300,         {"+--+++--++++--+++---", "+--+----++++--------"}},
        {1000, 20, 0, 0,           {"+--+----++++--+++---", "+--+----++++--------"}},
        {1, 0, 0, 1,               {"+--+++--++++--+++---", "+--+----++++--------"}}, /* one is enough */
        {1, 0, 1, 0,               {"+--+--++++++--+++---", "+--+--++++++--------"}},
        {1, 1, 0, 0,               {"+--+----++++--+++---", "+--+----++++--------"}},
        {999999, 0, 999998, 999999, {"+--+++++++++--+++---", "+--+--++++++--------"}},
        {0, 0, 0, 0,               {"+--+----------+++---", "+--+----------------"}},
        {0, 0, 0, 400,             {NULL, "+--+----------------"}}, /* full in mode 2; no setpoints of mode 1 */
        {0, 0, 0, 999999,          {NULL, "+--+----------------"}},
    };
    unsigned i;
    int mode, stage;

    for (i = 0; i < sizeof cases / sizeof cases[0]; i++)
        for (mode = 1; mode <= 2; mode++) {
            struct image m = in_stage(settings_timed, 0);

            if (cases[i].stages[mode - 1] == NULL)
                continue;
            put_setting(m.settings, SETTING_MODE, mode);
            put_state(m.state, STATE_FINAL, cases[i].F);
            put_state(m.state, STATE_FREE_FALL, cases[i].FF);
            put_state(m.state, STATE_PRELIMINARY, cases[i].P);
            put_state(m.state, STATE_OPTIONAL, cases[i].OP);
            for (stage = 0; stage < 20; stage++)
                expect_number(&m, STATE_STAGE, stage, cases[i].stages[mode - 1][stage] == '+');
        }
}

static void stages(void)
{
    static const int delays[17] = {0, 0, 0, 11, 12, 0, 13, 0, 14, 0, 15, 0, 0, 0, 16, 0, 17}; /* of settings_timed */
    static const int clocks[17] = {0, 0, 0, 0, 6000, 6000, 6000, 6000, 6000, 6000, 6000, 6000, 0, 0, 0, 300, 300};
    int32_t mode_2[SETTINGS], at_once[SETTINGS];
    int n, stage;

    memcpy(mode_2, settings_timed, sizeof mode_2);
    mode_2[SETTING_MODE] = 2;
    memcpy(at_once, settings_timed, sizeof at_once);
    for (n = SETTING_START_DELAY; n <= SETTING_JUDGE_DELAY; n++)
        at_once[n] = 1;
    at_once[SETTING_DISCHARGE_START] = at_once[SETTING_DISCHARGE_END] = 1;
    for (n = 0; n < 20; n++) {
        struct image m = in_stage(settings_timed, 0);

        expect_number(&m, STATE_STAGE, n, is_stage(n, 1));
        put_setting(m.settings, SETTING_MODE, 2);
        expect_number(&m, STATE_STAGE, n, is_stage(n, 2));
    }
    for (stage = 0; stage <= 16; stage++) {
        struct image m = in_stage(settings_timed, stage);
        const struct image none = in_stage(settings_a, stage), one = in_stage(at_once, stage), large = in_stage(settings_large, stage);

        if (!is_stage(stage, 1))
            continue;
        ends(&m, STATE_LASTED, 0, delays[stage] == 0 ? 0 : delays[stage] - 1);
        ends(&none, STATE_LASTED, 0, 0);
        ends(&one, STATE_LASTED, 0, 0);
        ends(&large, STATE_LASTED, 0, delays[stage] == 0 ? 0 : 9998);
        ends(&m, STATE_CLOCK, 0, clocks[stage]);
        ends(&large, STATE_CLOCK, 0, clocks[stage] == 0 ? 0 : 60000);
        ends(&m, STATE_JUDGEMENT, 0, stage >= 3 && stage <= 11 ? 0 : 3);
        for (n = 1; n <= 10; n++)
            expect_number(&m, STATE_ERROR, n, stage == 0 && n != 3 && n != 5);
        if (is_stage(stage, 2)) {
            put_setting(m.settings, SETTING_MODE, 2);
            ends(&m, STATE_CLOCK, 0, clocks[stage]);
        }
    }
    for (n = 0; n < 20; n++) {
        const struct image m = in_stage(settings_timed, 0), loss = in_stage(mode_2, 0);
        const bool known = n <= 10 && n != 3 && n != 5;

        expect_number(&m, STATE_ERROR, n, known);
        expect_number(&loss, STATE_ERROR, n, known && n != 7 && n != 8);
    }
}

/* ---- Totals ---- */

static void totals(void)
{
    struct image m = usual(settings_timed);

    ends(&m, STATE_UNDO_WEIGHT, 0, 5000);
    put_state(m.state, STATE_UNDO_WEIGHT, 0);
    ends(&m, STATE_TOTAL, 0, 99999999);
    ends(&m, STATE_BATCHES, 1, 99999999);
    expect_number(&m, STATE_UNDO, 2, false);
    put_state(m.state, STATE_UNDO, 0);
    ends(&m, STATE_BATCHES, 0, 99999999);
    ends(&m, STATE_UNDO_WEIGHT, 0, 0);
    ends(&m, STATE_UNDO, 0, 1);
}

void test_fields(void)
{
    unused_bytes();
    day_ranges();
    balance();
    no_good_tick();
    weighing();
    last_tick_in_stages();
    tracking_off();
    zeros();
    setpoints();
    stages();
    flow_stages();
    waiting();
    totals();
}
