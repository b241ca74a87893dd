/* What plant.h says. Whole numbers throughout, so that a seed gives the same run on every machine. */
#include "plant.h"

#include "fields.h"

#include <string.h>

enum {
    FINE = 16777216,             /* units of weight in a count */
    SHAKE = 256,                 /* units of shake in a count */
    COUNT_MOST = 2000000,        /* a count beyond is a bad tick */

    /* the gates' bits, and ticks in which each would fill the vessel, or empty it */
    LARGE = 1, MEDIUM = 2, SMALL = 4, DISCHARGE = 8,
    LARGE_TICKS = 4000, MEDIUM_TICKS = 12500, SMALL_TICKS = 20000, DISCHARGE_TICKS = 2500,

    /* the tank */
    PUMP_TICKS = 10800000,       /* in which the pump would empty it: it draws 8/10 of it in a day */
    POUR_TICKS = 60000,          /* in which a tanker would fill it */
    CONNECTED_TICKS = 3000,      /* from the contact's closing to the first pour: 30 s */
    SHUT_TICKS = 1000,           /* from the last pour to the contact's opening: 10 s */

    /* of a thousand of what the scale can carry */
    RESIDUE = 1, LOW_MARK = 300, FIRST_LEVEL = 303, HIGH_MARK = 900, DRAWN_LEVEL = 900, BRIM = 1060,

    REST_MOST = 3,               /* counts of noise at rest */
    SWING_LEAST = 2,             /* counts that a flow shakes the reading */
    SWING_PARTS = 25000,         /* or this part of what the scale can carry */
    SPLASH_PARTS = 2500,         /* and a tanker this part */
    CALM_TICKS = 32              /* in which a shake sinks to about a third */
};

/* Marsaglia's xorshift, with the shifts 13, 7 and 17. */
static uint64_t draw(struct plant *p)
{
    p->random ^= p->random << 13;
    p->random ^= p->random >> 7;
    p->random ^= p->random << 17;
    return p->random;
}

/* Evenly from -most to most. */
static int64_t draw_within(struct plant *p, int64_t most)
{
    return (int64_t)(draw(p) % (uint64_t)(2 * most + 1)) - most;
}

static int64_t smaller(int64_t a, int64_t b)
{
    return a < b ? a : b;
}

static int64_t larger(int64_t a, int64_t b)
{
    return a > b ? a : b;
}

struct rig rig_of(const uint8_t *settings)
{
    const int64_t span = setting(settings, SETTING_SPAN_COUNT) - setting(settings, SETTING_ZERO_COUNT);
    const int64_t weight = setting(settings, SETTING_SPAN_WEIGHT), capacity = setting(settings, SETTING_CAPACITY);
    struct rig rig;
    int64_t full;

    rig.zero = setting(settings, SETTING_ZERO_COUNT);
    /* a brimful vessel still has a good count */
    full = smaller(span * capacity / weight, (COUNT_MOST - rig.zero) * 1000 / BRIM);
    rig.full = full * FINE;
    rig.draws = setting(settings, SETTING_MODE) != 1;
    /* with a stability width of 0 a reading must keep its tenth: no noise at rest then, but for a knock now and then */
    rig.rest = smaller(REST_MOST, setting(settings, SETTING_STABILITY_WIDTH) * span / weight / 4) * SHAKE;
    rig.swing = larger(SWING_LEAST, full / SWING_PARTS) * SHAKE;
    rig.splash = larger(SWING_LEAST, full / SPLASH_PARTS) * SHAKE;
    rig.knock = 4 * setting(settings, SETTING_STABILITY_TIME) + 400;
    return rig;
}

static int64_t part(const struct rig *rig, int64_t thousandths)
{
    return rig->full / 1000 * thousandths;
}

struct plant plant_of(enum plant_kind kind, const struct rig *rig, uint64_t seed)
{
    struct plant p;

    memset(&p, 0, sizeof p);
    p.kind = kind;
    p.random = (seed + 1) * UINT64_C(0x9e3779b97f4a7c15); /* an odd factor spreads small seeds over all bits */
    if (p.random == 0)
        p.random = 1;
    p.weight = part(rig, kind == PLANT_TANK ? FIRST_LEVEL : rig->draws ? DRAWN_LEVEL : RESIDUE);
    return p;
}

static unsigned open_gates(const uint8_t *answer)
{
    return (answer_number(answer, ANSWER_LARGE) != 0 ? LARGE : 0u) | (answer_number(answer, ANSWER_MEDIUM) != 0 ? MEDIUM : 0u) |
           (answer_number(answer, ANSWER_SMALL) != 0 ? SMALL : 0u) | (answer_number(answer, ANSWER_DISCHARGE) != 0 ? DISCHARGE : 0u);
}

/* What these feeds bring in a tick. */
static int64_t feed(const struct rig *rig, unsigned gates)
{
    return (gates & LARGE ? rig->full / LARGE_TICKS : 0) + (gates & MEDIUM ? rig->full / MEDIUM_TICKS : 0) +
           (gates & SMALL ? rig->full / SMALL_TICKS : 0);
}

/* A flow is never quite even: an eighth more or less. */
static int64_t uneven(struct plant *p, int64_t flow)
{
    return flow + draw_within(p, flow / 8);
}

/* What comes and goes by the gates at this tick. */
static int64_t by_gates(struct plant *p, const struct rig *rig, unsigned gates)
{
    unsigned landing;

    if (rig->draws)
        return -uneven(p, feed(rig, gates));
    landing = p->fed[p->at];
    p->fed[p->at] = (uint8_t)(gates & (LARGE | MEDIUM | SMALL));
    p->at = (p->at + 1) % PLANT_LAG;
    return uneven(p, feed(rig, landing)) - (gates & DISCHARGE ? uneven(p, rig->full / DISCHARGE_TICKS) : 0);
}

static void tanker_next(struct plant *p, enum tanker next, int32_t wait)
{
    p->tanker = next;
    p->wait = wait;
}

/* What the tanker pours at this tick. */
static int64_t by_tanker(struct plant *p, const struct rig *rig)
{
    if (p->wait > 0) {
        p->wait--;
        return 0;
    }
    switch (p->tanker) {
    case TANKER_AWAY:
        if (p->weight < part(rig, LOW_MARK))
            tanker_next(p, TANKER_CONNECTED, CONNECTED_TICKS);
        return 0;
    case TANKER_CONNECTED:
        tanker_next(p, TANKER_POURING, 0);
        return 0;
    case TANKER_POURING:
        if (p->weight < part(rig, HIGH_MARK))
            return uneven(p, rig->full / POUR_TICKS);
        tanker_next(p, TANKER_SHUT, SHUT_TICKS);
        return 0;
    default:
        tanker_next(p, TANKER_AWAY, 0);
        return 0;
    }
}

/* What flows shakes the vessel, a tanker most; now and then somebody knocks at it; else it calms down. */
static int64_t noise(struct plant *p, const struct rig *rig, bool flows, bool pours)
{
    int64_t shake;

    p->shake -= larger(p->shake / CALM_TICKS, smaller(p->shake, 1));
    if (flows || draw(p) % (uint64_t)rig->knock == 0)
        p->shake = larger(p->shake, rig->swing);
    if (pours)
        p->shake = larger(p->shake, rig->splash);
    shake = draw_within(p, p->shake) + draw_within(p, rig->rest);
    return (shake + (shake < 0 ? -SHAKE / 2 : SHAKE / 2)) / SHAKE;
}

/* No vessel is emptier than empty, and a hopper keeps what sticks to it; past the brim it spills. */
static void settle(struct plant *p, const struct rig *rig)
{
    p->weight = larger(p->weight, p->kind == PLANT_HOPPER ? part(rig, RESIDUE) : 0);
    p->weight = smaller(p->weight, part(rig, BRIM));
}

struct reading plant_tick(struct plant *p, const struct rig *rig, const uint8_t *answer)
{
    const int64_t moved = by_gates(p, rig, open_gates(answer));
    int64_t poured = 0;
    struct reading reading;

    if (p->kind == PLANT_TANK) {
        poured = by_tanker(p, rig);
        p->weight -= rig->full / PUMP_TICKS;
    }
    p->weight += moved + poured;
    settle(p, rig);
    reading.count = (int32_t)(rig->zero + (p->weight + FINE / 2) / FINE + noise(p, rig, moved != 0, poured != 0));
    reading.contact = p->tanker != TANKER_AWAY;
    return reading;
}

void plant_power_back(struct plant *p, const struct rig *rig)
{
    int i;

    for (i = 0; i < PLANT_LAG; i++) {
        p->weight += feed(rig, p->fed[i]);
        p->fed[i] = 0;
    }
    settle(p, rig);
}

static struct field number_field(int n)
{
    struct field f = {0, 8, true};

    f.place = (uint16_t)(8 * n);
    return f;
}

void plant_write(const struct plant *p, uint8_t bytes[PLANT_BYTES])
{
    const int64_t numbers[PLANT_NUMBERS] = {p->kind, p->weight, (int64_t)p->random, p->shake, p->tanker, p->wait, p->at};
    int i;

    for (i = 0; i < PLANT_NUMBERS; i++)
        put_number(bytes, number_field(i), numbers[i]);
    memcpy(bytes + 8 * PLANT_NUMBERS, p->fed, PLANT_LAG);
}

bool plant_read(struct plant *p, const uint8_t bytes[PLANT_BYTES])
{
    int64_t numbers[PLANT_NUMBERS];
    int i;

    for (i = 0; i < PLANT_NUMBERS; i++)
        numbers[i] = number_at(bytes, number_field(i));
    p->kind = (enum plant_kind)numbers[0];
    p->weight = numbers[1];
    p->random = bits_at(bytes, number_field(2));
    p->shake = numbers[3];
    p->tanker = (enum tanker)numbers[4];
    p->wait = (int32_t)numbers[5];
    p->at = (int32_t)numbers[6];
    memcpy(p->fed, bytes + 8 * PLANT_NUMBERS, PLANT_LAG);
    return (numbers[0] == PLANT_HOPPER || numbers[0] == PLANT_TANK) && p->random != 0 && numbers[3] >= 0 && numbers[4] >= 0 &&
           numbers[4] <= TANKER_SHUT && numbers[5] >= 0 && numbers[6] >= 0 && numbers[6] < PLANT_LAG;
}
