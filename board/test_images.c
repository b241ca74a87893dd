/* Images at random, whole ones and altered ones. Each is told what the table says. A refused one changes nothing; a possible one comes
 * back from an empty block as it is, has a bad tick with any request worked out byte for byte, and goes on for some ticks, in which what
 * stays true stays true. */
#include "test.h"

#include <stdio.h>
#include <string.h>

enum { PER_CHECK = 1000, TICKS = 20, COUNTS = 24 };

static struct {
    unsigned long all, altered, taken, altered_taken, impossible, outside, ticks, waited, came;
} seen;

/* ---- A bad tick, worked out from the outline ---- */

static void put_points(uint8_t *state, enum state_field first, const int64_t *points)
{
    int i;

    for (i = 0; i < PRESSGULLY_POINTS; i++)
        put_state(state, (enum state_field)(first + i), points[i]);
}

/* Where setpoints wait they come into use. */
static void put_no_batch(uint8_t *state, int error)
{
    if (state[256] == 1) {
        memcpy(state + 60, state + 260, 4 * PRESSGULLY_POINTS);
        memset(state + 256, 0, 32);
    }
    put_state(state, STATE_STAGE, 0);
    put_state(state, STATE_LASTED, 0);
    put_state(state, STATE_CLOCK, 0);
    put_state(state, STATE_ERROR, error);
}

static void put_totals(uint8_t *state, int64_t total, int64_t batches)
{
    put_state(state, STATE_TOTAL, total);
    put_state(state, STATE_BATCHES, batches);
    put_state(state, STATE_UNDO, 0);
    put_state(state, STATE_UNDO_WEIGHT, 0);
}

static uint32_t ask_set(const uint8_t *settings, uint8_t *state, const uint32_t *points)
{
    int64_t numbers[PRESSGULLY_POINTS];
    int i;

    for (i = 0; i < PRESSGULLY_POINTS; i++)
        numbers[i] = points[i];
    if (!setpoints_fit((int)setting(settings, SETTING_MODE), numbers))
        return 6;
    put_points(state, state[88] == 0 ? STATE_FINAL : STATE_WAITING_FINAL, numbers);
    put_state(state, STATE_WAITS, state[88] != 0);
    return 0;
}

/* Step 4 in a bad tick. */
static uint32_t ask(const uint8_t *settings, uint8_t *state, uint32_t request, const uint32_t *points)
{
    switch (request) {
    case PRESSGULLY_NOTHING:
        return 0;
    case PRESSGULLY_ZERO: case PRESSGULLY_TARE: case PRESSGULLY_START: case PRESSGULLY_DAY_CLOSE: case PRESSGULLY_DISCHARGE:
        return 1;
    case PRESSGULLY_TARE_CLEAR:
        if (state[88] != 0)
            return 3;
        put_state(state, STATE_TARE, 0);
        return 0;
    case PRESSGULLY_STOP:
        if (state[88] != 0)
            put_no_batch(state, state[88] < 14 ? 4 : 7);
        return 0;
    case PRESSGULLY_SET:
        return ask_set(settings, state, points);
    case PRESSGULLY_TOTAL_CLEAR:
        put_totals(state, 0, 0);
        return 0;
    case PRESSGULLY_UNDO:
        if (state[108] == 0)
            return 7;
        put_totals(state, state_number(state, STATE_TOTAL) - state_number(state, STATE_UNDO_WEIGHT), state_number(state, STATE_BATCHES) - 1);
        return 0;
    case PRESSGULLY_SHOW_GROSS: case PRESSGULLY_SHOW_NET:
        put_state(state, STATE_SHOWS_NET, request == PRESSGULLY_SHOW_NET);
        return 0;
    default:
        return 13;
    }
}

/* The state and the answer that a bad tick leaves. It counts for the day, makes run and tracking counter 0, and ends a batch or a discharge
 * with error 9, but for a stop's own. */
static void bad_tick(const uint8_t *settings, uint8_t *state, uint8_t *answer, uint32_t request, const uint32_t *points)
{
    const int64_t ticks = state_number(state, STATE_TICKS);

    memset(answer, 0, PRESSGULLY_ANSWER);
    put_state(state, STATE_TICKS, ticks < 8640000 ? ticks + 1 : ticks);
    put_state(state, STATE_LAST_GOOD, 0);
    put_state(state, STATE_RUN, 0);
    answer[0] = (uint8_t)ask(settings, state, request, points);
    put_state(state, STATE_COUNTER, 0);
    if (state[88] != 0)
        put_no_batch(state, 9);
    answer[9] = state[95];
    answer[10] = state[94];
}

static bool bad_tick_is_due(const struct lent *from)
{
    struct lent l = *from;
    struct call c = tick_call(one_in(2) ? 2000001 : -2000001, one_in(2), (uint32_t)(draw() % 14));
    uint8_t state[PRESSGULLY_STATE], answer[PRESSGULLY_ANSWER];
    struct outcome o;
    int i;

    for (i = 0; i < PRESSGULLY_POINTS; i++)
        l.points[i] = one_in(2) ? (uint32_t)draw_from(0, 1000001) : 0;
    if (one_in(2)) { /* as they are in force, which is accepted */
        for (i = 0; i < PRESSGULLY_POINTS; i++)
            l.points[i] = (uint32_t)state_number(l.state, (enum state_field)(STATE_FINAL + i));
        l.points[4] = (uint32_t)draw_from(0, 999999);
    }
    memcpy(state, l.state, sizeof state);
    bad_tick(l.settings, state, answer, c.request, l.points);
    o = run(&l, &c);
    return o.kept && memcmp(l.state, state, sizeof state) == 0 && memcmp(l.answer, answer, sizeof answer) == 0;
}

/* ---- One image ---- */

static const char *goes_on(struct lent *l)
{
    static int32_t counts[COUNTS];
    int i;

    for (i = 0; i < COUNTS; i++)
        counts[i] = (int32_t)draw_from(setting(l->settings, SETTING_ZERO_COUNT), setting(l->settings, SETTING_SPAN_COUNT));
    for (i = 0; i < TICKS; i++) {
        const struct lent before = *l;
        const struct call c = draw_call(l, counts, COUNTS);
        const struct outcome o = run(l, &c);
        const char *fault;

        seen.ticks++;
        seen.waited += l->state[256];
        seen.came += before.state[256] == 1 && l->state[256] == 0;
        if (o.refused)
            return "refused an image that it wrote";
        if (!o.kept)
            return "changed what it may not";
        fault = displaced(&before, l, &c);
        if (fault != NULL)
            return fault;
        if (c.kind == BLOCK) { /* has no answer */
            if (!is_possible(l->settings, l->state))
                return "a field is out of its range after a block";
            continue;
        }
        fault = untrue(l->settings, l->state, l->answer);
        if (fault == NULL && c.kind == TICK)
            fault = astray(&before, l, c.request == PRESSGULLY_SET && o.told == 0 ? l->points : NULL);
        if (fault != NULL)
            return fault;
    }
    return NULL;
}

static const char *one_image(void)
{
    static const int32_t no_counts[1];
    uint8_t settings[PRESSGULLY_SETTINGS], state[PRESSGULLY_STATE];
    const bool altered = one_in(2);
    const struct call empty = block_call(no_counts, 0, false);
    struct lent l;
    struct call c;
    struct outcome o;
    uint32_t due;

    draw_settings(settings);
    draw_state(settings, state);
    if (altered)
        alter(settings, state);
    due = told_of(settings, state);
    seen.all++;
    seen.altered += altered;
    seen.taken += due == 0;
    seen.altered_taken += altered && due == 0;
    seen.impossible += due == 21;
    seen.outside += due == 10;
    if (!altered && due != 0)
        return "the test drew an impossible image";
    lend(&l, settings, state);
    if (due != 0) {
        c = draw_call(&l, no_counts, 1);
        o = run(&l, &c);
        return o.kept && o.told == due ? NULL : "an impossible image, but not refused as the page says";
    }
    o = run(&l, &empty);
    if (!o.kept || o.told != 0 || memcmp(l.state, state, sizeof state) != 0)
        return "an empty block does not leave a possible image as it is";
    if (!bad_tick_is_due(&l))
        return "a bad tick is not what the outline says";
    return goes_on(&l);
}

void test_images(uint64_t images)
{
    uint64_t i = 0;

    while (i < images) {
        const uint64_t first = i;
        const char *fault = NULL;

        for (; i < images && i < first + PER_CHECK && fault == NULL; i++) {
            sow(i);
            fault = one_image();
        }
        check(fault == NULL, "images: image %llu: %s", (unsigned long long)(i - 1), fault == NULL ? "" : fault);
        i = first + PER_CHECK;
    }
    /* an alteration that is refused at sight tries little of what follows */
    check(seen.altered < 100 || 10 * seen.altered_taken >= seen.altered, "images: %lu of %lu altered images are possible", seen.altered_taken,
          seen.altered);
    check(seen.all < 100 || seen.came > 0, "images: no waiting setpoints came into use");
    printf("test: %lu images at random, %lu of them altered: %lu possible (%lu of the altered), %lu told 21, %lu told 10; %lu calls went on, "
           "after %lu setpoints waited, and in %lu they came into use\n",
           seen.all, seen.altered, seen.taken, seen.altered_taken, seen.impossible, seen.outside, seen.ticks, seen.waited, seen.came);
}
