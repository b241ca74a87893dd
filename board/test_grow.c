/* The growth of an earlier image, after a change of the program: its 256 bytes with 32 of 0 behind them. It is as possible as those 288 are:
 * test_fields.c has every row at its ends, test_order.c the order of refusals and the settings' rows. Here are the lengths, every byte
 * altered, what is taken from where, how a grown image goes on, and images at random. */
#include "test.h"

#include <stdio.h>
#include <string.h>

enum { PER_CHECK = 1000, CALLS = 4, COUNTS = 24 };

/* Setpoints of both modes, other than those of the batch below. */
static const int32_t points[PRESSGULLY_POINTS] = {2000, 30, 200, 500, 7, 8, 90};

static void put_waiting(uint8_t *state)
{
    int i;

    put_state(state, STATE_WAITS, 1);
    for (i = 0; i < PRESSGULLY_POINTS; i++)
        put_state(state, (enum state_field)(STATE_WAITING_FINAL + i), points[i]);
}

/* An image in mid-batch, ten ticks after the opening, with none waiting: 9,000 tenths came in with the contact open. Stage 0 has it too. */
static void put_batch(uint8_t *state, int stage)
{
    static const int32_t batch[PRESSGULLY_POINTS] = {1000, 20, 100, 300, 5, 6, 50};
    int i;

    memset(state, 0, PRESSGULLY_STATE);
    for (i = 0; i < PRESSGULLY_POINTS; i++)
        put_state(state, (enum state_field)(STATE_FINAL + i), batch[i]);
    put_state(state, STATE_USED, -9000);
    put_state(state, STATE_LAST, 9000);
    put_state(state, STATE_TICKS, 10);
    put_state(state, STATE_BEGUN, 1);
    put_state(state, STATE_LAST_GOOD, 1);
    put_state(state, STATE_STAGE, stage);
    put_state(state, STATE_CLOCK, stage == 0 ? 0 : 7);
}

/* Buffers with the earlier image of such a batch, the state's full of something else. */
static void lend_batch(struct lent *l, int stage)
{
    uint8_t settings[PRESSGULLY_SETTINGS], state[PRESSGULLY_STATE];

    put_settings(settings, settings_a);
    put_batch(state, stage);
    lend(l, settings, state);
    memset(l->state, 0x5a, PRESSGULLY_STATE);
}

/* Told what is due, nothing changed but the state, and that to the earlier bytes with 0 behind them. */
static bool is_due(struct lent *l, const struct call *c, uint32_t due)
{
    uint8_t grown[PRESSGULLY_STATE];
    struct outcome o;

    put_grown(grown, l->earlier);
    o = run(l, c);
    return o.kept && o.told == due && (due != 0 || memcmp(l->state, grown, sizeof grown) == 0);
}

/* ---- Lengths ---- */

/* 20 for each of the three, with bytes that would be taken at the right one. A present image is no earlier one. */
static void lengths(void)
{
    static const size_t settings_lens[] = {0, 1, 100, 127, 129, 160};
    static const size_t earlier_lens[] = {0, 1, 119, 120, 128, 255, 257, 260, 287, 288, 289, 320};
    static const size_t state_lens[] = {0, 1, 128, 255, 256, 257, 287, 289, 320};
    struct lent l;
    struct call c = grow_call();
    unsigned i;

    lend_batch(&l, 9);
    memset(l.earlier + PRESSGULLY_STATE_A3, 0, sizeof l.earlier - PRESSGULLY_STATE_A3);
    for (i = 0; i < sizeof settings_lens / sizeof settings_lens[0]; i++) {
        c = grow_call();
        c.settings_len = settings_lens[i];
        check(is_due(&l, &c, 20), "grow: settings of %u bytes", (unsigned)settings_lens[i]);
    }
    for (i = 0; i < sizeof earlier_lens / sizeof earlier_lens[0]; i++) {
        c = grow_call();
        c.earlier_len = earlier_lens[i];
        check(is_due(&l, &c, 20), "grow: an earlier image of %u bytes", (unsigned)earlier_lens[i]);
    }
    for (i = 0; i < sizeof state_lens / sizeof state_lens[0]; i++) {
        c = grow_call();
        c.state_len = state_lens[i];
        check(is_due(&l, &c, 20), "grow: a state of %u bytes", (unsigned)state_lens[i]);
    }
    put_waiting(l.earlier);
    c = grow_call();
    c.earlier_len = PRESSGULLY_STATE;
    check(is_due(&l, &c, 20), "grow: a present image with setpoints waiting in an earlier one's place");
    c = grow_call();
    check(is_due(&l, &c, 0), "grow: the right lengths");
}

/* ---- What is taken from where ---- */

/* Nothing makes setpoints wait: neither the bytes behind the earlier image, nor those that were in the state, nor a byte of it that was
 * never used. A state that is possible is no better than another. */
static void none_wait(int stage)
{
    struct lent l;
    const struct call c = grow_call();
    unsigned place;

    lend_batch(&l, stage);
    check(is_due(&l, &c, 0) && l.state[256] == 0, "grow: in stage %d", stage);
    check(is_due(&l, &c, 0), "grow: in stage %d, over the image that it gave", stage);
    put_waiting(l.earlier);
    check(is_due(&l, &c, 0), "grow: in stage %d, with setpoints behind the earlier image", stage);
    put_batch(l.state, 9);
    put_waiting(l.state);
    check(is_due(&l, &c, 0), "grow: in stage %d, with setpoints waiting in the state", stage);
    memset(l.state, 0xff, PRESSGULLY_STATE);
    check(is_due(&l, &c, 0), "grow: in stage %d, with every bit of the state", stage);
    for (place = 120; place < PRESSGULLY_STATE_A3; place++) {
        l.earlier[place] = 1;
        check(is_due(&l, &c, 21), "grow: in stage %d, with unused byte %u", stage, place);
        l.earlier[place] = 0;
    }
}

/* Every byte of the earlier image, and of the settings, with other values: told what the table says of the 288. */
static void altered_bytes(int stage)
{
    static const uint8_t others[] = {0x01, 0x02, 0x80, 0xff, 0x7f, 0x10};
    const struct call c = grow_call();
    unsigned place, i;

    for (place = 0; place < PRESSGULLY_SETTINGS + PRESSGULLY_STATE_A3; place++) {
        bool held = true;

        for (i = 0; i < sizeof others; i++) {
            struct lent l;
            uint8_t grown[PRESSGULLY_STATE];

            lend_batch(&l, stage);
            *(place < PRESSGULLY_SETTINGS ? l.settings + place : l.earlier + place - PRESSGULLY_SETTINGS) ^= others[i];
            put_grown(grown, l.earlier);
            held = held && is_due(&l, &c, told_of(l.settings, grown));
        }
        check(held, "grow: in stage %d, byte %u of settings and earlier image altered: not told what the table says", stage, place);
    }
}

/* ---- How it goes on ---- */

static void at_count(struct lent *l, int32_t count, uint32_t request, int stage)
{
    struct call c = tick_call(count, false, request);
    const struct outcome o = run(l, &c);

    check(o.kept && o.told == 0 && l->state[88] == stage, "grow: a tick at %ld: told %u, stage %d instead of %d", (long)count, (unsigned)o.told,
          l->state[88], stage);
}

/* The batch that an earlier program began ends by its own setpoints, and those written since come into use behind it. */
static void batch_goes_on(void)
{
    struct lent l;
    const struct call c = grow_call();
    int i;

    lend_batch(&l, 9);
    check(is_due(&l, &c, 0), "grow: in the small flow");
    for (i = 0; i < PRESSGULLY_POINTS; i++)
        l.points[i] = (uint32_t)points[i];
    at_count(&l, 9000, PRESSGULLY_SET, 9);
    check(l.state[256] == 1, "grow: setpoints do not wait in a grown image");
    at_count(&l, 9800, PRESSGULLY_NOTHING, 10); /* 980 is F - FF */
    at_count(&l, 10040, PRESSGULLY_NOTHING, 11);
    for (i = 1; i < 100; i++)
        at_count(&l, 10040, PRESSGULLY_NOTHING, 11);
    at_count(&l, 10040, PRESSGULLY_NOTHING, 0); /* stable */
    check(l.state[95] == 1 && state_number(l.state, STATE_TOTAL) == 1004, "grow: judgement %d, total %ld", l.state[95],
          (long)state_number(l.state, STATE_TOTAL));
    for (i = 0; i < PRESSGULLY_POINTS; i++)
        check(state_number(l.state, (enum state_field)(STATE_FINAL + i)) == points[i], "grow: setpoint %d did not come into use", i);
    check(l.state[256] == 0, "grow: setpoints wait in stage 0");
}

/* ---- At random ---- */

/* The same calls on the grown image and on a present one with the same bytes. */
static bool goes_on_alike(struct lent *grown)
{
    static const int32_t counts[COUNTS] = {1, 2, 3};
    struct lent present;
    int i;

    lend(&present, grown->settings, grown->state);
    for (i = 0; i < CALLS; i++) {
        const struct call c = draw_call(grown, counts, COUNTS);
        struct outcome a, b;

        memcpy(present.points, grown->points, sizeof present.points);
        memcpy(present.receive, grown->receive, sizeof present.receive);
        a = run(grown, &c);
        b = run(&present, &c);
        if (!a.kept || a.refused || a.told != b.told || memcmp(grown->state, present.state, PRESSGULLY_STATE) != 0
            || memcmp(grown->answer, present.answer, sizeof present.answer) != 0 || memcmp(grown->reply, present.reply, sizeof present.reply) != 0)
            return false;
    }
    return true;
}

/* Images whole and altered, of which those behind the 256th byte are not asked, over bytes of any kind. */
static const char *one_image(unsigned long *taken)
{
    uint8_t settings[PRESSGULLY_SETTINGS], state[PRESSGULLY_STATE];
    const struct call c = grow_call();
    struct lent l;
    uint32_t due;
    unsigned i;

    draw_settings(settings);
    draw_state(settings, state);
    if (one_in(2))
        alter(settings, state);
    lend(&l, settings, state);
    for (i = 0; i < PRESSGULLY_STATE; i++)
        l.state[i] = (uint8_t)draw();
    put_grown(state, l.earlier);
    due = told_of(settings, state);
    if (!is_due(&l, &c, due))
        return "not told what the table says, or not those bytes and 0";
    if (due != 0)
        return NULL;
    ++*taken;
    return goes_on_alike(&l) ? NULL : "does not go on as the present image does";
}

static void at_random(uint64_t images)
{
    unsigned long taken = 0;
    uint64_t i = 0;

    while (i < images) {
        const uint64_t first = i;
        const char *fault = NULL;

        for (; i < images && i < first + PER_CHECK && fault == NULL; i++) {
            sow(i + 66000000u);
            fault = one_image(&taken);
        }
        check(fault == NULL, "grow: image %llu: %s", (unsigned long long)(i - 1), fault == NULL ? "" : fault);
        i = first + PER_CHECK;
    }
    printf("test: %llu earlier images at random, of which %lu grew and went on\n", (unsigned long long)images, taken);
}

void test_grow(uint64_t images)
{
    lengths();
    none_wait(0);
    none_wait(9);
    altered_bytes(0);
    altered_bytes(9);
    batch_goes_on();
    at_random(images);
}
