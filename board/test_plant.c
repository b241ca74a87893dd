/* A plant: a scale whose count follows the gates, is refilled, knocked and read wrong at times, and an operator who asks for this and that.
 * From an opening it comes through every stage. */
#include "test.h"

int32_t plant_count(struct plant *p, const struct lent *l)
{
    const int sign = setting(l->settings, SETTING_MODE) == 1 ? 1 : -1;
    const uint8_t *answer = l->answer;

    if (p->refill ? one_in(20) : one_in(300))
        p->refill = !p->refill;
    if (p->refill && p->count < setting(l->settings, SETTING_SPAN_COUNT))
        p->count += p->step / 2;
    if (answer[5] == 1)
        p->count += sign * p->step;
    else if (answer[6] == 1)
        p->count += sign * p->step / 4;
    else if (answer[7] == 1)
        p->count += sign * p->step / 16;
    if (answer[8] == 1 && p->count > setting(l->settings, SETTING_ZERO_COUNT))
        p->count -= p->step;
    if (one_in(400))
        p->count = draw_from(setting(l->settings, SETTING_ZERO_COUNT), setting(l->settings, SETTING_SPAN_COUNT));
    if (one_in(3000))
        return 2000001 + (int32_t)(draw() % 1000);
    if (one_in(3000))
        return (int32_t)draw_from(-2000000, 2000000);
    return (int32_t)p->count;
}

static uint32_t request_of(const struct lent *l)
{
    static const uint8_t idle[] = {PRESSGULLY_START, PRESSGULLY_START, PRESSGULLY_DISCHARGE, PRESSGULLY_SET, PRESSGULLY_ZERO, PRESSGULLY_TARE,
                                   PRESSGULLY_TARE_CLEAR, PRESSGULLY_UNDO, PRESSGULLY_DAY_CLOSE, PRESSGULLY_SHOW_NET, PRESSGULLY_SHOW_GROSS};

    if (l->state[88] == 0 && one_in(20))
        return idle[draw() % sizeof idle];
    if (l->state[88] != 0 && one_in(60))
        return PRESSGULLY_SET; /* for the next batch */
    return one_in(200) ? (uint32_t)(draw() % 13) : PRESSGULLY_NOTHING;
}

void draw_setpoints(struct lent *l)
{
    const int64_t most = setting(l->settings, SETTING_SPAN_WEIGHT) * setting(l->settings, SETTING_DIVISION);
    int i;

    for (i = 0; i <= PRESSGULLY_POINTS; i++)
        l->points[i] = (uint32_t)(most / 50);
    l->points[0] = (uint32_t)(most * draw_from(10, 90) / 100);
    l->points[2] = one_in(3) ? 0 : (uint32_t)(most / 25 + 1);
    l->points[3] = one_in(3) ? 0 : (uint32_t)(most / 10 + 2);
}

void plant_settings(uint8_t *settings)
{
    int i;

    draw_settings(settings);
    put_setting(settings, SETTING_STABILITY_TIME, 10);
    for (i = SETTING_START_DELAY; i <= SETTING_JUDGE_DELAY; i++)
        put_setting(settings, (enum setting)i, draw_from(0, 12));
    put_setting(settings, SETTING_DISCHARGE_START, draw_from(0, 12));
    put_setting(settings, SETTING_DISCHARGE_END, draw_from(0, 12));
    put_setting(settings, SETTING_FLOW_LIMIT, draw_from(20, 4000));
    put_setting(settings, SETTING_DISCHARGE_LIMIT, draw_from(5, 400));
    put_setting(settings, SETTING_TRACKING_TIME, draw_from(0, 6));
}

struct plant plant_of(const uint8_t *settings)
{
    struct plant p = {0, 0, false};

    p.count = setting(settings, SETTING_ZERO_COUNT);
    p.step = (setting(settings, SETTING_SPAN_COUNT) - p.count) / 60;
    return p;
}

/* Closed while the valve is open, and now and then by itself, as one that bounces. */
bool plant_contact(const struct plant *p)
{
    return one_in(3) ? one_in(2) : p->refill;
}

struct call plant_tick(struct plant *p, struct lent *l)
{
    const int32_t count = plant_count(p, l);
    const uint32_t request = request_of(l);

    if (request == PRESSGULLY_SET)
        draw_setpoints(l);
    return tick_call(count, plant_contact(p), request);
}
