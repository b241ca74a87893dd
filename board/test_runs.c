/* Runs from an opening: a plant whose weight answers the gates, asked by numbers and by lines. A tick with a request and the line that asks
 * the same are one, a block is its ticks, every image on the way is read by the next call, and setpoints wait for the end of a batch. Some
 * images are kept, and each of their bytes altered. */
#include "test.h"

#include <stdio.h>
#include <string.h>

enum { STAGES = 17, ERRORS = 11 };

struct image {
    uint8_t settings[PRESSGULLY_SETTINGS], state[PRESSGULLY_STATE];
};

/* One for each stage, each error, and each other thing worth altering, as the runs come by. */
static struct image kept[STAGES + ERRORS + 6];
static bool is_kept[STAGES + ERRORS + 6];

static void keep(int place, const struct lent *l)
{
    if (is_kept[place])
        return;
    is_kept[place] = true;
    memcpy(kept[place].settings, l->settings, PRESSGULLY_SETTINGS);
    memcpy(kept[place].state, l->state, PRESSGULLY_STATE);
}

static void keep_worth(const struct lent *l)
{
    const uint8_t *state = l->state;

    keep(state[88], l);
    keep(STAGES + state[94], l);
    if (state[37] == 1 && state_number(state, STATE_REFILLED) != 0)
        keep(STAGES + ERRORS, l);
    if (state[108] == 1)
        keep(STAGES + ERRORS + 1, l);
    if (state_number(state, STATE_TRACKED) != 0)
        keep(STAGES + ERRORS + 2, l);
    if (state_number(state, STATE_TARE) != 0)
        keep(STAGES + ERRORS + 3, l);
    if (state[256] == 1)
        keep(STAGES + ERRORS + (state[88] < 14 ? 4 : 5), l);
}

/* How setpoints came into use: by finish, each error and the end of a discharge, which has error 0 as a finish has. */
static bool came_by_finish, came_by_discharge, came_by_error[ERRORS];

static void note_return(const struct lent *before, const struct lent *after)
{
    if (before->state[256] == 0 || after->state[88] != 0)
        return;
    if (after->state[94] != 0)
        came_by_error[after->state[94]] = true;
    else if (before->state[88] == 16)
        came_by_discharge = true;
    else
        came_by_finish = true;
}

/* What the runs met of zeros and tracking with the contact closed: what zeros were told, and 8 at rest; a tare that was done; ticks
 * after one that was counted, and one of them that would have been the last of the tracking time. */
static bool zero_told[9], zero_told_at_rest, tare_done, counted_before, counted_to_last;

static void note_zero(const struct lent *before, const struct lent *after, const struct call *c)
{
    const int64_t counter = state_number(before->state, STATE_COUNTER), q = setting(before->settings, SETTING_TRACKING_TIME);
    const uint8_t told = after->answer[0];

    if (!c->contact)
        return;
    if (c->request == PRESSGULLY_ZERO && told < sizeof zero_told)
        zero_told[told] = true;
    zero_told_at_rest = zero_told_at_rest || (c->request == PRESSGULLY_ZERO && told == 8 && after->answer[3] == 1);
    tare_done = tare_done || (c->request == PRESSGULLY_TARE && told == 0);
    counted_before = counted_before || (counter > 0 && counter < q - 1);
    counted_to_last = counted_to_last || (counter > 0 && counter == q - 1);
}

/* The tick by number and by line, and, asked nothing, as a block of one: the same image, the same outputs. l goes on with the first. */
static bool is_one(struct lent *l, const struct call *c)
{
    struct lent by_line = *l, by_block = *l;
    const struct call line = as_line(&by_line, c), block = block_call(&c->count, 1, c->contact);
    const struct outcome o = run(l, c), lo = run(&by_line, &line);
    bool one = o.kept && lo.kept && !o.refused && o.told == lo.told && memcmp(l->state, by_line.state, PRESSGULLY_STATE) == 0;

    by_line.answer[15] = 0; /* the reply's length is the line's alone */
    one = one && memcmp(l->answer, by_line.answer, PRESSGULLY_ANSWER) == 0;
    if (c->request == PRESSGULLY_NOTHING) {
        const struct outcome bo = run(&by_block, &block);

        one = one && bo.kept && bo.told == 0 && memcmp(l->state, by_block.state, PRESSGULLY_STATE) == 0;
    }
    return one;
}

/* ---- Runs ---- */

static void plant_run(int number, int ticks)
{
    static const uint8_t any[PRESSGULLY_STATE] = {1, 2, 3};
    uint8_t settings[PRESSGULLY_SETTINGS];
    struct lent l;
    struct plant p;
    struct call c = open_call();
    const char *fault = NULL;
    bool held;
    int i;

    sow((uint64_t)number + 77000);
    plant_settings(settings);
    lend(&l, settings, any);
    draw_setpoints(&l);
    held = run(&l, &c).told == 0;
    memset(l.answer, 0, sizeof l.answer);
    p = plant_of(settings);
    for (i = 0; i < ticks && held && fault == NULL; i++) {
        struct lent before;

        c = plant_tick(&p, &l);
        before = l;
        held = is_one(&l, &c);
        fault = untrue(l.settings, l.state, l.answer);
        if (fault == NULL)
            fault = astray(&before, &l, c.request == PRESSGULLY_SET && l.answer[0] == 0 ? l.points : NULL);
        if (fault == NULL)
            fault = displaced(&before, &l, &c);
        note_return(&before, &l);
        note_zero(&before, &l, &c);
        keep_worth(&l);
    }
    check(held && fault == NULL, "runs: run %d differs at tick %d: %s", number, i, fault == NULL ? "by number and by line" : fault);
}

/* A block is its ticks, one after another. */
static void block_run(int number)
{
    static int32_t counts[PRESSGULLY_BLOCK];
    uint8_t settings[PRESSGULLY_SETTINGS], state[PRESSGULLY_STATE];
    const bool contact = number % 2 == 0;
    const size_t n = number == 0 ? PRESSGULLY_BLOCK : (size_t)(draw() % 200);
    struct lent together, single;
    struct call block = block_call(counts, n, contact);
    struct outcome o;
    bool held;
    size_t i;

    sow((uint64_t)number + 88000);
    draw_settings(settings);
    draw_state(settings, state);
    counts[0] = (int32_t)setting(settings, SETTING_ZERO_COUNT);
    for (i = 1; i < PRESSGULLY_BLOCK; i++)
        counts[i] = one_in(8) ? (int32_t)draw_from(-2000001, 2000001) : counts[i - 1] + (int32_t)(draw() % 5) - 2;
    lend(&together, settings, state);
    single = together;
    o = run(&together, &block);
    held = o.kept && o.told == 0;
    for (i = 0; i < n; i++) {
        const struct call c = tick_call(counts[i], contact, PRESSGULLY_NOTHING);

        o = run(&single, &c);
        held = held && o.kept && o.told == 0;
    }
    check(held && memcmp(together.state, single.state, PRESSGULLY_STATE) == 0, "runs: block %d of %u counts is not its ticks", number, (unsigned)n);
}

/* ---- Every byte altered ---- */

/* A byte of a kept image with several other values: told what the table says; a refused one changes nothing, a possible one goes on. */
static void alter_byte(const struct image *m, int image, unsigned place, unsigned long *taken, unsigned long *all)
{
    static const uint8_t others[] = {0x01, 0x02, 0x03, 0x80, 0xff, 0x7f, 0x10};
    const uint8_t was = m->state[place];
    const char *fault = NULL;
    bool held = true;
    unsigned i, t;

    for (i = 0; i < sizeof others + 2; i++) {
        struct lent l;
        struct call c;
        struct outcome o;
        uint32_t due;

        lend(&l, m->settings, m->state);
        l.state[place] = i < sizeof others ? was ^ others[i] : i == sizeof others ? (uint8_t)(was + 1) : (uint8_t)(was - 1);
        due = told_of(l.settings, l.state);
        ++*all;
        *taken += due == 0;
        for (t = 0; t < 4 && held && fault == NULL; t++) {
            c = tick_call((int32_t)(100 * t), t % 2 == 0, PRESSGULLY_NOTHING);
            o = run(&l, &c);
            held = o.kept && o.told == due;
            if (due == 0)
                fault = untrue(l.settings, l.state, l.answer);
        }
    }
    check(held && fault == NULL, "runs: image %d, byte %u altered: %s", image, place, fault == NULL ? "not told what the table says" : fault);
}

static void altered_bytes(void)
{
    static const uint8_t stages[] = {0, 3, 4, 5, 6, 7, 8, 9, 10, 11, 14, 15, 16}, errors[] = {0, 1, 2, 4, 6, 7, 8, 9};
    static const int altered[] = {5, 11, 15, STAGES + 6, STAGES + 8, STAGES + ERRORS, STAGES + ERRORS + 1, STAGES + ERRORS + 2,
                                  STAGES + ERRORS + 4, STAGES + ERRORS + 5};
    unsigned long taken = 0, all = 0;
    unsigned i, place;

    for (i = 0; i < sizeof stages; i++)
        check(is_kept[stages[i]], "runs: no run came through stage %d", stages[i]);
    for (i = 0; i < sizeof errors; i++)
        check(is_kept[STAGES + errors[i]], "runs: no run came to error %d", errors[i]);
    for (i = 1; i < sizeof errors; i++)
        check(came_by_error[errors[i]], "runs: no setpoints came into use by error %d", errors[i]);
    check(came_by_finish && came_by_discharge, "runs: no setpoints came into use by a finish, or by the end of a discharge");
    for (i = STAGES + ERRORS; i < STAGES + ERRORS + 6; i++)
        check(is_kept[i], "runs: no run had a refill, an undo, a tracked zero, a tare, or setpoints waiting in a batch or a discharge (%u)", i);
    check(zero_told[3] && zero_told[8] && zero_told_at_rest && tare_done && counted_before && counted_to_last,
          "runs: with the contact closed no zero was told 3, or 8 at rest, no tare was done, or no tick was counted before");
    for (i = 0; i < sizeof altered / sizeof altered[0]; i++)
        for (place = 0; place < PRESSGULLY_STATE; place++)
            alter_byte(&kept[altered[i]], altered[i], place, &taken, &all);
    printf("test: %lu altered bytes of images on the way, of which %lu are possible\n", all, taken);
}

void test_runs(void)
{
    int i;

    for (i = 0; i < 120; i++)
        plant_run(i, 3000);
    for (i = 0; i < 200; i++)
        block_run(i);
    altered_bytes();
}
