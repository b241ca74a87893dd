/* Counts on purpose, and a plant whose weight answers the gates, with its operator and what disturbs them. */
#include "scenario.h"

#include <string.h>

/* ---- Counts ---- */

/* A count whose raw is this many tenths, as far as a log can carry it. */
int32_t count_of(const struct scenario *s, int64_t tenths)
{
    int64_t scaled = tenths * s->settings.span, half = s->settings.scale / 2;
    int64_t count = s->settings.zero_count + (scaled < 0 ? scaled - half : scaled + half) / s->settings.scale;

    return count > 999999999 ? 999999999 : count < -999999999 ? -999999999 : (int32_t)count;
}

/* Tenths that round to a gross of so many divisions: the first and the last of them often. */
int64_t tenths_of_divisions(const struct scenario *s, int32_t divisions)
{
    int32_t low = divisions > 0 ? -5 : -4, high = divisions < 0 ? 5 : 4;

    return s->state.zero + (int64_t)10 * divisions + (once_in(2) ? between(low, high) : ONE_OF(low, high));
}

/* Tenths at which the compared weight v is so many display digits. */
int64_t tenths_of_v(const struct scenario *s, int32_t v)
{
    int32_t net = s->settings.mode == MODE_NORMAL ? v : -v;

    return tenths_of_divisions(s, (net + s->state.tare) / s->settings.division);
}

int32_t full_scale(const struct scenario *s)
{
    return s->settings.capacity * s->settings.division;
}

int32_t bad_count(void)
{
    return once_in(3) ? between(COUNT_LIMIT + 1, 999999999)
                      : ONE_OF(COUNT_LIMIT + 1, -COUNT_LIMIT - 1, 999999999, -999999999, -COUNT_LIMIT - 2);
}

/* At overload's limit and far beyond, of both signs, and the last good counts. */
int32_t heavy_count(const struct scenario *s)
{
    int32_t limit = s->settings.overload, divisions = 0;

    switch (between(0, 3)) {
    case 0: return ONE_OF(COUNT_LIMIT, -COUNT_LIMIT);
    case 1: divisions = between(limit - 1, limit + 2); break;
    case 2: divisions = -between(limit - 1, limit + 2); break;
    default: divisions = limit + between(1, limit); break;
    }
    return count_of(s, tenths_of_divisions(s, divisions));
}

/* ---- The plant ---- */

/* With people and cables around it. */
struct plant usual_plant(void)
{
    struct plant p = {.contact = false};

    p.bounce = ONE_OF(0, 100, 10);
    p.bad = ONE_OF(0, 0, 1000, 200);
    p.heavy = ONE_OF(0, 0, 1000, 200);
    p.stray = ONE_OF(0, 300, 100, 20);
    return p;
}

/* What the open discharge gate lets out in a tick: the outflow, down to the bottom. */
static int64_t let_out(const struct plant *p)
{
    int64_t above = p->weight - p->bottom;

    return above <= 0 ? 0 : above < p->outflow ? above : p->outflow;
}

/* What the gates of the last tick let through comes to the scale some ticks later, or leaves it. */
static int64_t next_weight(const struct scenario *s, struct plant *p)
{
    int64_t flow = (s->out.large ? p->flow[0] : 0) + (s->out.medium ? p->flow[1] : 0) + (s->out.small ? p->flow[2] : 0);
    int64_t *slot = &p->in_flight[s->ticks % (p->fall + 1)];
    int64_t arrived = p->fall == 0 ? flow : *slot;

    *slot = flow;
    p->weight += (s->settings.mode == MODE_NORMAL ? arrived : -arrived) - p->leak;
    if (s->out.discharge)
        p->weight -= let_out(p);
    int64_t tenths = p->weight / 1000 + between(-p->noise, p->noise);
    return tenths + (s->ticks % 4 < 2 ? p->vibration : -p->vibration);
}

void pass(struct scenario *s, struct plant *p, struct line request)
{
    int32_t count = count_of(s, next_weight(s, p));
    bool contact = p->contact != once_in(p->bounce), disturbed = true;

    if (once_in(p->bad))
        count = bad_count();
    else if (once_in(p->heavy))
        count = heavy_count(s);
    else
        disturbed = false;
    if (request.length == 0 && disturbed && once_in(2))
        request = any_command(s);
    else if (request.length == 0 && once_in(p->stray))
        request = stray(s);
    step(s, count, contact, request);
}

void ask(struct scenario *s, struct plant *p, const char *letters)
{
    pass(s, p, command(s, letters));
}

void idle(struct scenario *s, struct plant *p, int32_t ticks)
{
    while (ticks-- > 0)
        pass(s, p, NONE);
}

void settle(struct scenario *s, struct plant *p)
{
    int32_t ticks = s->settings.stability_time + 5;

    do
        pass(s, p, NONE);
    while (!s->out.stable && ticks-- > 0);
}

void look(struct scenario *s, struct plant *p)
{
    static const char *const looks[] = {"RW", "RT", "RS", "MN", "MG", "CA", "DC"};

    for (int32_t i = between(0, 3); i > 0; i--)
        ask(s, p, looks[between(0, (int32_t)LENGTH(looks) - 1)]);
    if (once_in(8)) {
        ask(s, p, "CA");
        ask(s, p, "CA");
    }
    if (once_in(20)) {
        ask(s, p, "DT");
        ask(s, p, "CA");
    }
}

/* Bad ticks, often none: their contact says anything, and a day can't be closed in them. */
static void scale_fails(struct scenario *s)
{
    for (int32_t i = ONE_OF(0, 0, 0, 1, 2, 3); i > 0; i--) {
        bool contact = once_in(2), closing = once_in(6);
        step(s, bad_count(), contact, closing ? command(s, "DC") : NONE);
    }
}

/* The first tick has the contact closed, unless from is 1, the others open, and the weight still changes, up or down: the splash, and what
 * is used after it. The scale may fail between them, and the day be closed in any. */
static void swing(struct scenario *s, struct plant *p, int32_t from)
{
    const int32_t ticks = between(3, 5), closing = between(0, 5);

    for (int32_t i = from; i < ticks; i++) {
        p->contact = i == 0;
        p->weight += between(-9, 9) * (int64_t)1000;
        pass(s, p, i == closing ? command(s, "DC") : NONE);
        scale_fails(s);
    }
}

void shut_valve(struct scenario *s, struct plant *p)
{
    swing(s, p, 0);
}

/* The scale may fail at first; a tanker may be there then, and is gone soon. */
void warm_up(struct scenario *s, struct plant *p)
{
    scale_fails(s);
    swing(s, p, between(0, 1));
}

/* Gates whose flow takes some ticks from one setpoint to the next; should a discharge be going on, it empties the hopper. */
void fit_flow(const struct scenario *s, struct plant *p)
{
    const struct setpoints *set = &s->state.setpoints;
    const int64_t digit = 10000 / s->settings.division;
    int32_t still = s->settings.stability_width;

    p->flow[0] = (set->final - least(set->optional, set->final)) * digit / between(3, 40) + 1;
    p->flow[1] = set->final * digit / between(10, 60) + 1;
    p->flow[2] = (set->preliminary > 0 ? set->preliminary : set->final / 2) * digit / between(4, 40) + 1;
    p->outflow = s->settings.capacity * (int64_t)500 + 1;
    p->bottom = (s->state.zero - 10) * (int64_t)1000;
    p->fall = between(0, once_in(3) ? FALL_LIMIT - 1 : 3);
    memset(p->in_flight, 0, sizeof p->in_flight);
    p->noise = once_in(2) ? 0 : between(0, still / 2);
    p->vibration = once_in(4) ? between(0, 2 * still + 3) : 0;
}

/* A start, and ticks until the stage is 00 again: the plant calms down after some time, and a batch that hangs is stopped. */
void run_batch(struct scenario *s, struct plant *p)
{
    ask(s, p, "BB");
    for (int32_t n = 0; s->out.stage != 0; n++) {
        if (s->out.stage == 11 && once_in(40))
            p->vibration = p->noise = 0;
        pass(s, p, n > 800 ? command(s, "HB") : NONE);
    }
    p->vibration = p->noise = 0;
}

/* A discharge gate that brings the hopper to near zero, or a little below, in some ticks; now and then a blocked one. */
void fit_outflow(const struct scenario *s, struct plant *p)
{
    int32_t near_zero = least(s->state.setpoints.near_zero, full_scale(s)) / s->settings.division;
    int64_t level = (s->state.zero + (int64_t)10 * near_zero) * 1000;

    p->bottom = level - ONE_OF(0, 0, 4, 10, 30) * (int64_t)1000;
    p->outflow = (p->weight > level ? p->weight - level : 0) / between(1, 30) + 1;
    if (once_in(8))
        p->outflow = 0;
}

/* A discharge, and ticks until the stage is 00 again: one that hangs is stopped. */
void run_discharge(struct scenario *s, struct plant *p)
{
    ask(s, p, "BD");
    for (int32_t n = 0; s->out.stage != 0; n++)
        pass(s, p, n > 150 ? command(s, "HB") : NONE);
}
