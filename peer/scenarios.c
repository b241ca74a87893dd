/* Writes seeded scenarios for replay: settings and logs that lead a controller deep into its states.
 *
 *     scenarios SEED TICKS FOLDER    FOLDER/0001.in, 0002.in, .. until about TICKS ticks are written
 *     scenarios SEED day FOLDER      two scenarios longer than the day that the day book books
 *
 * NNNN.args holds the reply buffer's length where one is given. Standard output tells number, kind and ticks of each.
 *
 * A kind of scenario is a function here; kinds may be added to the tables before main and their numbers changed. Then run
 * `coverage`, which tells what the scenarios no longer reach, and `mutate`. */
#include "scenario.h"

#include <inttypes.h>
#include <stdlib.h>
#include <string.h>

/* ---- Settings ---- */

/* The outline's settings A; no discharge delays, and the flow limit for the discharge too. */
static const struct given settings_a = {
    {0, 100000, 10000, 10000, 1, 2, 100, 5, 20, 100, 2, 1, 0, 0, 0, 0, 0, 6000, 0, 0, 0, 10000, 0, 0, 6000}
};

static int32_t open_with(const char *kind, const struct given *given)
{
    struct scenario s;
    bool accepted = begin(&s, given, WHOLE_REPLY, 2);

    while (accepted && more(&s))
        step(&s, 45, false, command(&s, "RW"));
    if (!accepted)
        fputs("\n0 0 --", s.log);
    return end(&s, kind);
}

static int32_t open_a_with(const char *kind, enum setting which, int32_t value)
{
    struct given given = settings_a;

    given.value[which] = value;
    return open_with(kind, &given);
}

/* Settings that mode 2 does not use are checked there too. */
static int32_t unused_outside(void)
{
    static const struct { enum setting which; int32_t value; } outside[] = {
        {LARGE_DISABLE, 10000}, {DISCHARGE_START, 10000}, {DISCHARGE_START, -1}, {DISCHARGE_END, 10000}, {DISCHARGE_END, -1},
        {DISCHARGE_LIMIT, 60001}, {DISCHARGE_LIMIT, 0},
    };
    int32_t ticks = 0;

    for (size_t i = 0; i < LENGTH(outside); i++) {
        struct given given = settings_a;
        given.value[MODE] = MODE_LOSS_IN_WEIGHT;
        given.value[outside[i].which] = outside[i].value;
        ticks += open_with("outside, unused", &given);
    }
    return ticks;
}

/* One setting at a time just outside its range, and some far outside. */
static int32_t settings_outside(void)
{
    static const struct { enum setting which; int32_t low, high; } ranges[] = {
        {ZERO_COUNT, -2000000, 0}, {SPAN_COUNT, 100000, 2000000}, {CAPACITY, 10000, 16000}, {SPAN_WEIGHT, 1, 10000}, {ZERO_RANGE, 1, 30},
        {TRACKING_TIME, 0, 500}, {TRACKING_WIDTH, 0, 45}, {ALLOWANCE, 0, 10000}, {STABLE_TIME, 10, 500}, {STABLE_WIDTH, 0, 9}, {MODE, 1, 2},
        {START_DELAY, 0, 9999}, {LARGE_DISABLE, 0, 9999}, {MEDIUM_DISABLE, 0, 9999}, {SMALL_DISABLE, 0, 9999}, {JUDGE_DELAY, 0, 9999},
        {FLOW_LIMIT, 1, 60000}, {ADDRESS, 0, 99}, {BOARD, 0, 2}, {LOW_END, -999999, 999999}, {HIGH_END, -999999, 999999},
        {DISCHARGE_START, 0, 9999}, {DISCHARGE_END, 0, 9999}, {DISCHARGE_LIMIT, 1, 60000},
    };
    static const int32_t no_divisions[] = {0, 3, 4, 6, 11, 25, 51, 100, -1};
    int32_t ticks = 0;

    for (size_t i = 0; i < LENGTH(ranges); i++) {
        ticks += open_a_with("outside", ranges[i].which, ranges[i].low - 1);
        ticks += open_a_with("outside", ranges[i].which, ranges[i].high + 1);
    }
    for (size_t i = 0; i < LENGTH(no_divisions); i++)
        ticks += open_a_with("outside", DIVISION, no_divisions[i]);
    ticks += open_a_with("outside", LOW_END, settings_a.value[HIGH_END]);
    ticks += unused_outside();
    for (int i = 0; i < 6; i++) {
        enum setting which = (enum setting)between(0, SETTINGS - 1);
        ticks += open_a_with("far outside", which, ONE_OF(999999999, -999999999));
    }
    return ticks;
}

/* All settings at the low end, and all at the high one. */
static int32_t settings_at_ends(void)
{
    static const struct given ends[] = {
        {{-2000000, -1999990, 1, 1, 1, 1, 0, 0, 0, 10, 0, 1, 0, 0, 0, 0, 0, 1, 0, 0, -999999, 999999, 0, 0, 1}},
        {{1840000, 2000000, 16000, 16000, 50, 30, 500, 45, 10000, 500, 9, 2, 9999, 9999, 9999, 9999, 9999, 60000, 99, 2, 999999, -999999,
          9999, 9999, 60000}},
    };
    int32_t ticks = 0;

    for (size_t i = 0; i < LENGTH(ends); i++)
        ticks += open_with("at ends", &ends[i]);
    return ticks;
}

/* First lines that are not 25 numbers, and an empty log. */
static int32_t settings_unread(void)
{
    static const char *const forms[] = {
        "0 100000 10000 10000 1 2 100 5 20 100 2 1 0 0 0 0 0 6000 0 0 0 10000 0 0",
        "0 100000 10000 10000 1 2 100 5 20 100 2 1 0 0 0 0 0 6000 0 0 0 10000 0 0 6000 0",
        "0 100000 10000 10000 1 2 100 5 20 100 2 1 0 0 0 0 0 6000 0 0 0 10000",
        "0  100000 10000 10000 1 2 100 5 20 100 2 1 0 0 0 0 0 6000 0 0 0 10000 0 0 6000",
        " 0 100000 10000 10000 1 2 100 5 20 100 2 1 0 0 0 0 0 6000 0 0 0 10000 0 0 6000",
        "0 100000 10000 10000 1 2 100 5 20 100 2 1 0 0 0 0 0 6000 0 0 0 10000 0 0 6000 ",
        "0 100000 10000 10000 1 2 100 5 20 100 2 1 0 0 0 0 0 6000 0 0 0 10000 0 0 6000\r",
        "0 100000 10000 10000 1 2 100 5 20 100 2 1 0 0 0 0 0 6000 0 0 0 10000 0 0 +6000",
        "0 100000 10000 10000 1 2 100 5 20 100 2 1 0 0 0 0 0 6000 0 0 0 10000 0 0 0000006000",
        "- 100000 10000 10000 1 2 100 5 20 100 2 1 0 0 0 0 0 6000 0 0 0 10000 0 0 6000",
        "0 100000 10000 10000 1 2 100 5 20 100 2 1 0 0 0 0 0 6000 0 none 0 10000 0 0 6000",
        "0\t100000 10000 10000 1 2 100 5 20 100 2 1 0 0 0 0 0 6000 0 0 0 10000 0 0 6000",
        "\n0 100000 10000 10000 1 2 100 5 20 100 2 1 0 0 0 0 0 6000 0 0 0 10000 0 0 6000",
        "0 100000 10000 10000 1 2 100 5 20 100 2 1 0 0 0 0 0 6000 0 0 0 10000 0 0  6000",
        "0 100000 10000 10000 1 2 100 5 20 100 2 1 0 0 0 0 0 6000 0 0 0 10000 - 0 6000",
        "0 0 --",
    };
    struct scenario s;
    int32_t ticks = 0;

    for (size_t i = 0; i < LENGTH(forms); i++) {
        begin_unread(&s, forms[i]);
        fputs("\n0 0 --", s.log);
        ticks += end(&s, "unread settings");
    }
    begin_unread(&s, "");
    return ticks + end_here(&s, "empty log");
}

/* ---- Batches ---- */

/* Mode 1: a hopper, emptied by hand between batches. */
static void hopper(struct scenario *s)
{
    struct given g = settings_of(MODE_NORMAL);
    struct plant p = usual_plant();

    begin(s, &g, usual_room(), between(800, 3000));
    s->writes = usual_writes();
    warm_up(s, &p);
    while (more(s)) {
        p.weight = between(-3, 12) * (int64_t)1000;
        settle(s, &p);
        if (once_in(4))
            ask(s, &p, "MZ");
        if (once_in(3))                         /* a container is put on */
            p.weight += between(0, s->settings.capacity / 3) * (int64_t)10000;
        if (once_in(2)) {
            settle(s, &p);
            ask(s, &p, "MT");
        }
        if (s->state.setpoints.final == 0 || once_in(3)) {
            struct setpoints set = good_setpoints(s, full_scale(s) - s->state.tare);
            pass(s, &p, setpoints_command(s, &set));
        }
        fit_flow(s, &p);
        run_batch(s, &p);
        look(s, &p);
        if (once_in(4))
            ask(s, &p, "CT");
    }
}

/* Mode 2: a vessel that loses weight, refilled with the contact closed when it is low. */
static void vessel(struct scenario *s)
{
    struct given g = settings_of(MODE_LOSS_IN_WEIGHT);
    struct plant p = usual_plant();
    const int64_t division = 10000;

    begin(s, &g, usual_room(), between(800, 3000));
    s->writes = usual_writes();
    warm_up(s, &p);
    while (more(s)) {
        int64_t full = s->settings.capacity * division * 9 / 10;
        if (p.weight < full / 3) {
            int32_t ticks = between(5, 40);
            p.leak = -(int32_t)((full - p.weight) / ticks);
            p.contact = true;
            idle(s, &p, ticks);
            p.leak = 0;
            if (once_in(3)) {                   /* the pump is paused, and somebody keys zero */
                settle(s, &p);
                ask(s, &p, "MZ");
            }
            shut_valve(s, &p);
        }
        settle(s, &p);
        if (!once_in(6))
            ask(s, &p, "MT");
        if (s->state.setpoints.final == 0 || once_in(3)) {
            struct setpoints set = good_setpoints(s, full_scale(s) / ONE_OF(1, 2, 4));
            pass(s, &p, setpoints_command(s, &set));
        }
        fit_flow(s, &p);
        run_batch(s, &p);
        look(s, &p);
        if (once_in(5))                         /* which a vessel does not do */
            ask(s, &p, "BD");
    }
}

/* The comparison that ends this stage; in 10 and 11 one of the judgement's limits; in 14 to 16 near zero, which is one of gross. */
static int32_t comparison_of(const struct scenario *s)
{
    const struct setpoints *set = &s->state.setpoints;

    switch (s->state.stage) {
    case 4:
    case 5: return set->final - set->optional;
    case 6:
    case 7: return set->final - set->preliminary;
    case 10:
    case 11: return once_in(2) ? set->final + set->over : set->final - set->under;
    case 14:
    case 15:
    case 16: return set->near_zero - s->state.tare;
    default: return set->final - set->free_fall;
    }
}

/* Weights placed at each comparison: a division short of it for some ticks, then at it or a division beyond. */
static void comparisons(struct scenario *s)
{
    struct given g = settings_of(usual_mode());
    int64_t tenths = 0;
    int32_t rest = 0;                           /* ticks for which the weight stays */

    g.value[STABLE_TIME] = ONE_OF(10, 10, 12);
    g.value[FLOW_LIMIT] = once_in(3) ? between(10, 60) : 300;
    g.value[DISCHARGE_LIMIT] = once_in(3) ? between(2, 12) : 60;
    begin(s, &g, usual_room(), between(600, 1500));
    s->writes = usual_writes();
    while (more(s)) {
        struct line request = NONE;
        if (rest-- <= 0) {
            int32_t away = s->state.stage == 3 ? -!once_in(4) : between(-1, 1);
            tenths = tenths_of_v(s, comparison_of(s) + away * s->settings.division);
            bool judged = s->state.stage == 10 || s->state.stage == 11;
            rest = judged || once_in(40) ? s->settings.stability_time + between(0, 3) : 0;
        }
        if (s->state.stage != 0) {
            request = once_in(150) ? stray(s) : NONE;
        } else if (once_in(4)) {
            struct setpoints set = good_setpoints(s, full_scale(s) - s->state.tare);
            request = setpoints_command(s, &set);
        } else {
            static const char *const letters[] = {"BB", "BB", "BB", "BB", "BB", "BD", "BD", "MT", "CT", "CA", "RT", "MN"};
            request = command(s, letters[between(0, (int32_t)LENGTH(letters) - 1)]);
        }
        step(s, count_of(s, tenths), once_in(3), request);
    }
}

/* Every way to a sequence error. Errors 1 and 2: no final weight, the weight there at the start. In a chosen stage, error 4: the
 * operator stops, in a bad tick too; 9: the scale fails or is overloaded; 6: the feed is blocked, stopped as the flow clock passes its
 * limit, or the weight comes to rest about then. 10: the weight is taken out before it is judged (and to_the_limit, below). */
enum fault {
    NO_FINAL, THERE_AT_START, STOPPED, STOPPED_AS_IT_FAILS, SCALE_FAILS, OVERLOADED, BLOCKED, STOPPED_AT_LIMIT, LATE_REST, TAKEN_OUT, FAULTS
};

/* One tick of a batch with a fault; here: its moment has come. What is taken out leaves v so many divisions below 0. */
static void faulty_tick(struct scenario *s, struct plant *p, enum fault fault, bool here, int32_t below)
{
    const int32_t left = s->settings.flow_limit - s->state.flow_clock, d = s->settings.division;
    const bool judging = s->out.stage >= 10, blocked = fault == BLOCKED || fault == STOPPED_AT_LIMIT;
    struct line request = NONE;

    if ((fault == STOPPED || fault == STOPPED_AS_IT_FAILS) && here)
        request = command(s, "HB");
    if (fault == STOPPED_AT_LIMIT && left <= between(0, 1))
        request = command(s, "HB");
    if ((fault == SCALE_FAILS || fault == STOPPED_AS_IT_FAILS) && here) {
        step(s, bad_count(), false, request);
        return;
    }
    if (fault == OVERLOADED && here) {
        int32_t count = heavy_count(s);
        step(s, count, false, once_in(3) ? any_command(s) : NONE);
        return;
    }
    if (blocked && here)
        p->flow[0] = p->flow[1] = p->flow[2] = 0;
    if (judging) {
        p->noise = 0;
        p->vibration = blocked || (fault == LATE_REST && left > s->settings.stability_time + between(-1, 3)) ? 100 : 0;
    }
    if (judging && fault == TAKEN_OUT) {
        int32_t divisions = s->state.tare / d + (s->settings.mode == MODE_NORMAL ? -below : below);
        p->weight = (s->state.zero + 10 * divisions) * (int64_t)1000;
    }
    pass(s, p, request);
}

static void faults(struct scenario *s)
{
    static int turn;
    struct given g = settings_of(usual_mode());
    struct plant p = {.contact = false};

    g.value[STABLE_TIME] = ONE_OF(10, 10, 12, 20);
    g.value[FLOW_LIMIT] = between(60, 160);
    if (turn++ % 2 == 0) {                      /* a disable or judge delay about as long as the flow limit, in turn */
        int which = LARGE_DISABLE + turn / 2 % 4;
        g.value[FLOW_LIMIT] = between(5, 30);
        g.value[which] = g.value[FLOW_LIMIT] + between(which == LARGE_DISABLE ? 1 : -1, 2);
        if (which == LARGE_DISABLE)
            g.value[MODE] = MODE_NORMAL;
    }
    begin(s, &g, usual_room(), between(1500, 3000));
    s->writes = usual_writes();
    while (more(s)) {
        enum fault fault = once_in(6) ? STOPPED : (enum fault)between(0, FAULTS - 1);
        int stage = between(3, 11), after = between(0, 2), in_stage = 0;

        p.weight = s->settings.mode == MODE_NORMAL ? 0 : s->settings.capacity * (int64_t)9000;
        p.weight += s->state.zero * (int64_t)1000;
        settle(s, &p);
        ask(s, &p, "MT");
        struct setpoints set = good_setpoints(s, full_scale(s) / 2);
        if (fault == NO_FINAL)
            set = (struct setpoints){.over = 5};
        pass(s, &p, setpoints_command(s, &set));
        fit_flow(s, &p);
        if (fault == THERE_AT_START)
            p.weight = tenths_of_v(s, set.final - set.free_fall + s->settings.division * between(-1, 1)) * 1000;
        ask(s, &p, "BB");
        while (s->out.stage != 0) {
            int before = s->out.stage;
            faulty_tick(s, &p, fault, before == stage && in_stage >= after, after);
            in_stage = s->out.stage == before ? in_stage + 1 : 0;
        }
        p.vibration = p.noise = 0;
        look(s, &p);
    }
}

/* A timed stage as long as can be, the weight at each comparison as it comes. */
static void longest_delay(struct scenario *s)
{
    static int turn;
    struct given g = settings_of(MODE_NORMAL);

    for (int i = START_DELAY; i <= JUDGE_DELAY; i++)
        g.value[i] = 0;
    g.value[START_DELAY + turn++ % 5] = 9999;
    g.value[STABLE_TIME] = 10;
    g.value[FLOW_LIMIT] = 60000;
    begin(s, &g, WHOLE_REPLY, 0);
    int32_t unit = s->settings.division;
    struct setpoints set = {.final = 5 * unit, .free_fall = 1 * unit, .preliminary = 2 * unit, .optional = 3 * unit, .near_zero = unit};
    step(s, count_of(s, 0), false, setpoints_command(s, &set));
    step(s, count_of(s, 0), false, command(s, "BB"));
    while (s->out.stage != 0) {
        int32_t divisions = s->out.stage < 5 ? 0 : s->out.stage < 7 ? 2 : s->out.stage < 9 ? 3 : 4;
        step(s, count_of(s, s->state.zero + 10 * divisions), false, NONE);
    }
}

/* A blocked feed with the longest flow limit. */
static void longest_flow(struct scenario *s)
{
    struct given g = settings_of(MODE_LOSS_IN_WEIGHT);

    g.value[FLOW_LIMIT] = 60000;
    begin(s, &g, WHOLE_REPLY, 0);
    struct setpoints set = {.final = s->settings.division};
    step(s, count_of(s, 0), false, setpoints_command(s, &set));
    step(s, count_of(s, 0), false, command(s, "BB"));
    while (s->out.stage != 0)
        step(s, count_of(s, s->state.zero), false, NONE);
}

/* Shortest batches of the largest weight there is (a vessel tared full and drawn below empty) until the total is near its limit;
 * then up to it as exactly as the division allows, and beyond. */
static void to_the_limit(struct scenario *s, int32_t division)
{
    struct given g = settings_of(MODE_LOSS_IN_WEIGHT);
    struct plant p = {.contact = false};
    const int64_t full = 160000, largest = 32008 * division;
    int32_t tries = 20;

    memcpy(g.value, (const int32_t[]){0, 160000, 16000, 16000, division, 30, 0, 0, 0, 10, 9, MODE_LOSS_IN_WEIGHT, 0, 0, 0, 0, 0, 1000},
           18 * sizeof(int32_t));
    begin(s, &g, WHOLE_REPLY, 0);
    p.weight = full * 1000;
    idle(s, &p, 11);
    ask(s, &p, "MT");
    while (tries > 0) {
        int64_t left = TOTAL_LIMIT - s->state.total, batch = largest;
        if (left < largest) {
            batch = left - left % division + division * between(0, 1);
            tries--;
        }
        struct setpoints set = {.final = (int32_t)(batch < SETPOINT_LIMIT ? batch : SETPOINT_LIMIT), .over = SETPOINT_LIMIT};
        p.weight = (full - 10 * (set.final / division) + 10) * 1000;
        if (set.final != s->state.setpoints.final)
            pass(s, &p, setpoints_command(s, &set));
        ask(s, &p, "BB");
        idle(s, &p, 1);
        for (p.weight = (full - 10 * (batch / division)) * 1000; s->out.stage != 0;)
            pass(s, &p, NONE);
        if (left < 2 * largest) {
            ask(s, &p, "RT");
            if (once_in(2))
                ask(s, &p, "CA");
        }
    }
    look(s, &p);
}

static void large_total(struct scenario *s)
{
    to_the_limit(s, ONE_OF(20, 50, 50));
}

static void last_digit_of_total(struct scenario *s)
{
    to_the_limit(s, 1);
}

/* ---- Discharges ---- */

/* Mode 1: a hopper that is discharged after each batch; what is left in it is tared, or is there at the next start. */
static void emptied_hopper(struct scenario *s)
{
    struct given g = settings_of(MODE_NORMAL);
    struct plant p = usual_plant();

    begin(s, &g, usual_room(), between(800, 2500));
    s->writes = usual_writes();
    warm_up(s, &p);
    while (more(s)) {
        if (p.weight > s->settings.capacity * (int64_t)5000)    /* what a blocked gate left is taken out by hand */
            p.weight = between(-3, 12) * (int64_t)1000;
        settle(s, &p);
        if (once_in(4))
            ask(s, &p, "MZ");
        if (!once_in(3))
            ask(s, &p, "MT");
        if (s->state.setpoints.final == 0 || once_in(3)) {
            struct setpoints set = good_setpoints(s, full_scale(s) / 2);
            pass(s, &p, setpoints_command(s, &set));
        }
        fit_flow(s, &p);
        run_batch(s, &p);
        look(s, &p);
        for (int32_t i = once_in(6) ? 2 : 1; i > 0; i--) {
            fit_outflow(s, &p);
            run_discharge(s, &p);
        }
        if (once_in(3))
            ask(s, &p, "CA");
        look(s, &p);
    }
}

/* A batch with the weight at each comparison as it comes, judged at one of the judgement's limits or beside it. */
static void short_batch(struct scenario *s)
{
    int64_t tenths = tenths_of_v(s, 0);
    int stage = 0;

    step(s, count_of(s, tenths), false, command(s, "BB"));
    while (s->out.stage != 0) {
        if (s->out.stage != stage && s->out.stage != 11) {      /* in 11 it comes to rest where it was in 10 */
            int32_t away = s->out.stage == 3 ? -1 : s->out.stage == 10 ? between(-1, 1) : 0;
            tenths = tenths_of_v(s, comparison_of(s) + away * s->settings.division);
        }
        stage = s->out.stage;
        step(s, count_of(s, tenths), false, NONE);
    }
}

/* Every way through a discharge. In a chosen stage, error 7: the operator stops, in a bad or overloaded tick too, or as the clock
 * passes its limit; 9: the scale fails or is overloaded, about the limit too. 8: near zero comes too late. Or lines come all the time. */
enum mishap { NO_MISHAP, HALTED, HALTED_AS_IT_FAILS, HALTED_AT_LIMIT, FAILS, FAILS_AT_LIMIT, ASKED, MISHAPS };

/* Tenths of a gross about near zero. */
static int64_t about_near_zero(const struct scenario *s, bool above)
{
    int32_t divisions = least(s->state.setpoints.near_zero, full_scale(s)) / s->settings.division;

    divisions += above ? ONE_OF(1, 1, 1, 2) : ONE_OF(0, 0, 0, -1, -2);
    return tenths_of_divisions(s, divisions);
}

/* One tick of a discharge with a mishap; here: its moment has come. */
static void discharge_tick(struct scenario *s, enum mishap mishap, bool here, bool above)
{
    const int32_t left = s->settings.discharge_limit - s->state.flow_clock;
    const bool at_limit = s->out.stage >= 15 && left <= between(0, 1);
    int32_t count = count_of(s, about_near_zero(s, above));
    struct line request = NONE;

    if (((mishap == FAILS || mishap == HALTED_AS_IT_FAILS) && here) || (mishap == FAILS_AT_LIMIT && at_limit)) {
        count = once_in(2) ? bad_count() : heavy_count(s);
        request = once_in(3) ? NONE : once_in(2) ? command(s, "BD") : any_command(s);
    }
    if (((mishap == HALTED || mishap == HALTED_AS_IT_FAILS) && here) || (mishap == HALTED_AT_LIMIT && at_limit))
        request = command(s, "HB");
    if (mishap == ASKED && !once_in(3))
        request = once_in(6) ? command(s, "CA") : stray(s);
    step(s, count, once_in(4), request);
}

/* BD, and gross above near zero for so many of the ticks in which 15 compares it: for none, until the end delay ends about as the clock
 * passes its limit, or until it passes it in 15. In 14 and 16 gross does not matter. */
static void one_discharge(struct scenario *s)
{
    const int32_t limit = s->settings.discharge_limit, last = limit - s->settings.discharge_end_ticks;
    const enum mishap mishap = once_in(5) ? NO_MISHAP : once_in(5) ? ASKED : (enum mishap)between(0, MISHAPS - 1);
    const int stage = between(14, 16), after = ONE_OF(0, 0, 1, 2);
    int32_t above = ONE_OF(0, last - 2, last - 1, last - 1, last, last, last + 1, limit - 1, limit, limit + 1);
    int in_stage = 0;
    bool full = once_in(2);

    step(s, count_of(s, about_near_zero(s, full)), false, command(s, "BD"));
    while (s->out.stage >= 14) {
        const int before = s->out.stage;
        full = before == 15 ? above-- > 0 : once_in(2);
        discharge_tick(s, mishap, before == stage && in_stage >= after, full);
        in_stage = s->out.stage == before ? in_stage + 1 : 0;
    }
}

static void discharges(struct scenario *s)
{
    static const char *const between_them[] = {"CA", "CA", "RT", "RW", "RS", "MN", "MG", "DT", "DC", "HB", "CT", "BB"};
    struct given g = settings_of(MODE_NORMAL);

    g.value[STABLE_TIME] = 10;
    g.value[FLOW_LIMIT] = between(30, 100);
    g.value[DISCHARGE_START] = ONE_OF(0, 0, 1, 2, 3, 8);
    g.value[DISCHARGE_END] = ONE_OF(0, 0, 1, 2, 3, 8);
    g.value[DISCHARGE_LIMIT] = once_in(4) ? between(1, 4) : between(1, 25);
    begin(s, &g, usual_room(), between(800, 1600));
    s->writes = usual_writes();
    while (more(s)) {
        if (once_in(4)) {
            struct setpoints set = good_setpoints(s, full_scale(s) / 2);
            if (once_in(3))
                set.near_zero = 0;
            step(s, count_of(s, s->state.zero), false, setpoints_command(s, &set));
        }
        if (once_in(10)) {
            int64_t tenths = tenths_of_divisions(s, between(0, s->settings.capacity / 2));
            for (int32_t i = s->settings.stability_time; i >= 0; i--)
                step(s, count_of(s, tenths), false, i == 0 ? command(s, "MT") : NONE);
        }
        if (once_in(4))
            short_batch(s);
        for (int32_t i = between(0, 2); i > 0; i--) {
            bool full = once_in(2);
            const char *letters = between_them[between(0, (int32_t)LENGTH(between_them) - 1)];
            step(s, count_of(s, about_near_zero(s, full)), false, command(s, letters));
        }
        one_discharge(s);
    }
}

/* A delay of a discharge as long as can be, or a blocked gate with the longest limit, in turn. */
static void longest_discharge(struct scenario *s)
{
    static int turn;
    struct given g = settings_of(MODE_NORMAL);
    const bool blocked = turn % 3 == 2;

    g.value[DISCHARGE_START] = turn % 3 == 0 ? 9999 : 0;
    g.value[DISCHARGE_END] = turn % 3 == 1 ? 9999 : 0;
    g.value[DISCHARGE_LIMIT] = 60000;
    turn++;
    begin(s, &g, WHOLE_REPLY, 0);
    step(s, count_of(s, 0), false, command(s, "BD"));
    while (s->out.stage != 0)
        step(s, count_of(s, s->state.zero + (blocked ? 10 : 0)), false, NONE);
}

/* ---- Setpoints written in every stage ---- */

/* A batch with the weight at each comparison as it comes, that ends as it may, or in the way that the fault says. */
static void hasty_batch(struct scenario *s)
{
    const enum fault fault = (enum fault)ONE_OF(FAULTS, FAULTS, FAULTS, THERE_AT_START, TAKEN_OUT, STOPPED, SCALE_FAILS);
    const int32_t d = s->settings.division;
    const int last = between(3, 11);            /* the stage of a stop or of a scale that fails */
    int64_t tenths = tenths_of_v(s, 0);
    int stage = 0;

    step(s, count_of(s, tenths), false, command(s, "BB"));
    while (s->out.stage != 0) {
        const bool here = s->out.stage == last && once_in(2);
        if (s->out.stage != stage && s->out.stage != 11) {      /* in 11 it comes to rest where it was in 10 */
            int32_t away = s->out.stage == 3 && fault != THERE_AT_START ? -1 : s->out.stage == 10 ? between(-1, 1) : 0;
            tenths = tenths_of_v(s, s->out.stage == 10 && fault == TAKEN_OUT ? -d : comparison_of(s) + away * d);
        }
        stage = s->out.stage;
        int32_t count = here && fault == SCALE_FAILS ? bad_count() : count_of(s, tenths);
        step(s, count, false, here && fault == STOPPED ? command(s, "HB") : NONE);
    }
}

/* Somebody at the panel writes all the time, and what was written last serves the next batch or discharge; now and then there is no final
 * weight at its start. The reply buffer may have room for what is done, but not for NG. */
static void impatient(struct scenario *s)
{
    struct given g = settings_of(usual_mode());
    const int32_t least_room = g.value[ADDRESS] == 0 ? 4 : 7;

    g.value[STABLE_TIME] = 10;
    g.value[START_DELAY] = ONE_OF(0, 2, 3, 4);
    g.value[FLOW_LIMIT] = between(15, 60);
    g.value[DISCHARGE_START] = ONE_OF(0, 2, 3, 4);
    g.value[DISCHARGE_LIMIT] = between(2, 12);
    begin(s, &g, once_in(5) ? least_room : WHOLE_REPLY, between(800, 1600));
    s->writes = ONE_OF(2, 3, 6);
    while (more(s)) {
        if (once_in(6)) {
            struct setpoints set = {.near_zero = s->settings.division};
            step(s, count_of(s, s->state.zero), false, setpoints_command(s, &set));
        }
        if (once_in(20)) {
            int64_t tenths = tenths_of_divisions(s, between(0, s->settings.capacity / 2));
            for (int32_t i = s->settings.stability_time; i >= 0; i--)
                step(s, count_of(s, tenths), false, i == 0 ? command(s, "MT") : NONE);
        }
        if (s->settings.mode == MODE_NORMAL && once_in(3))
            one_discharge(s);
        else
            hasty_batch(s);
        for (int32_t i = between(0, 2); i > 0; i--)
            step(s, count_of(s, s->state.zero), false, command(s, once_in(2) ? "RS" : "RT"));
    }
}

/* ---- Weights ---- */

/* An idle tank under tracking: steps of the width and of a tenth more, held for the tracking time and a tick less or more, mostly
 * one way, up to the allowance or the zero range and beyond. A tanker is seldom connected, since nothing is tracked then. */
static void idle_tank(struct scenario *s)
{
    struct given g = settings_of(usual_mode());
    struct plant p = usual_plant();
    const int32_t q = once_in(12) ? 0 : once_in(20) ? 500 : ONE_OF(1, 2, 3, 5, 10, 20);
    const int32_t w = once_in(12) ? 0 : ONE_OF(1, 3, 5, 10, 45);
    int32_t back = ONE_OF(0, 0, 2, 3, 8), way = ONE_OF(-1, 1);

    g.value[TRACKING_TIME] = q;
    g.value[TRACKING_WIDTH] = w;
    g.value[ALLOWANCE] = once_in(3) ? 10000 : between(0, 12 * w);
    begin(s, &g, usual_room(), between(600, 2000));
    s->writes = usual_writes();
    warm_up(s, &p);
    p.stray = ONE_OF(0, 0, 60);
    p.bounce = ONE_OF(0, 0, 0, 60);
    while (more(s)) {
        int32_t change = once_in(3) ? between(0, w) : ONE_OF(w, w, w + 1);
        p.weight = (s->state.zero + way * change * (once_in(back) ? -1 : 1)) * (int64_t)1000;
        p.contact = once_in(8);
        idle(s, &p, q + ONE_OF(-1, 0, 0, 1));
        if (once_in(10))
            pass(s, &p, any_command(s));
        if (s->out.stage != 0)
            ask(s, &p, "HB");
        if (once_in(30)) {
            settle(s, &p);
            ask(s, &p, "MZ");
            way = ONE_OF(-1, 1);
        }
        if (once_in(20))
            ask(s, &p, "DC");
    }
}

/* A tank that feeds all day, refilled at times, its days closed at any time. */
static void feeding_tank(struct scenario *s)
{
    struct given g = settings_of(usual_mode());
    struct plant p = usual_plant();

    begin(s, &g, usual_room(), between(1000, 3000));
    const int64_t full = s->settings.capacity * (int64_t)9000;
    p.weight = full;
    warm_up(s, &p);
    while (more(s)) {
        bool low = p.weight < full / 4;
        int32_t rate = (int32_t)(full / ONE_OF(200, 500, 2000, 20000)) + 1;
        p.contact = low || once_in(10);
        p.leak = low ? -2 * rate : once_in(4) ? 0 : rate;
        p.noise = between(0, 2);
        idle(s, &p, between(20, 200));
        look(s, &p);
        ask(s, &p, once_in(2) ? "DC" : "RW");
        if (p.contact && !once_in(4))
            shut_valve(s, &p);
    }
}

/* Zero and tare at the ends of what is allowed, asked for when the weight has been at rest for k ticks, one less, one more. A tanker may be
 * connected while it comes to rest, in the very tick of the request, or both; a zero is then keyed once more as it is gone. */
static void zero_and_tare(struct scenario *s)
{
    static const char *const after[] = {"MN", "MG", "CT", "RW", "BB", "DC", "MZ", "MT"};
    struct given g = settings_of(usual_mode());

    g.value[STABLE_TIME] = ONE_OF(10, 10, 11, 20);
    begin(s, &g, usual_room(), between(500, 1200));
    s->writes = usual_writes();
    const int32_t width = s->settings.stability_width, range = s->settings.zero_range / 10, c = s->settings.capacity;
    while (more(s)) {
        const bool zero = once_in(2), before = once_in(4), now = once_in(3);
        int64_t tenths = ONE_OF(range, range, range + 1, range - 1, range / 2);
        if (!zero)
            tenths = tenths_of_divisions(s, ONE_OF(-1, 0, 0, 1, c, c, c + 1, c + 8, c + 9, -c - 8, -c - 9));
        else if (once_in(2))
            tenths = -tenths;
        /* at rest are steps of at most the width; one of a tenth more is not */
        int32_t ticks = s->settings.stability_time + between(-1, 2);
        int32_t broken = once_in(4) ? between(1, ticks) : 0;
        for (int32_t i = ticks; i > 0; i--) {
            int32_t away = i % 2 == 0 ? 0 : once_in(2) ? width : -width;
            step(s, count_of(s, tenths + away + (i == broken ? ONE_OF(-1, 1) : 0)), before, NONE);
        }
        int32_t count = once_in(15) ? bad_count() : count_of(s, tenths);
        step(s, count, now, command(s, zero ? "MZ" : "MT"));
        if (zero && now && once_in(2))
            step(s, count_of(s, tenths), false, command(s, "MZ"));
        for (int32_t i = between(0, 3); i > 0; i--) {
            bool contact = once_in(4);
            step(s, count_of(s, tenths), contact, command(s, after[between(0, (int32_t)LENGTH(after) - 1)]));
        }
        if (s->out.stage != 0)
            step(s, count_of(s, tenths), false, command(s, "HB"));
    }
}

/* Tenths for a while: within the tracking width of the zero mostly, else at an end of the zero range, a tenth beyond, or anything on the
 * scale. */
static int64_t paused_weight(const struct scenario *s)
{
    const int32_t width = s->settings.tracking_width, range = s->settings.zero_range / 10;

    if (once_in(6))
        return ONE_OF(range, range + 1, -range, -range - 1);
    if (once_in(6))
        return tenths_of_divisions(s, between(-1, s->settings.capacity));
    return s->state.zero + (once_in(3) ? ONE_OF(-width, width) : between(-width, width));
}

/* One tick at a paused refill: asked, as the contact turns or now and then, mostly for a zero. The scale may fail or be overloaded in it,
 * the contact saying anything. */
static void paused_tick(struct scenario *s, int64_t tenths, bool contact, bool turns)
{
    static const char *const letters[] = {"MZ", "MZ", "MZ", "MZ", "MZ", "MZ", "MT", "MT", "CT", "BB", "BD", "HB", "RW", "DC"};
    const bool fails = once_in(turns ? 10 : 40), asks = once_in(fails || s->out.stage != 0 ? 2 : turns ? 3 : 12);
    struct line request = asks ? command(s, letters[between(0, (int32_t)LENGTH(letters) - 1)]) : NONE;
    int32_t count = count_of(s, tenths);

    if (fails) {
        contact = once_in(2);
        count = once_in(2) ? bad_count() : heavy_count(s);
    }
    step(s, count, contact, request);
}

/* A tanker is connected to a tank that is calm, and gone again, for a tick or for some, at any tick of the tracking time and often at its
 * last. The reply buffer may have room for what is done, but not for NG. */
static void paused_refill(struct scenario *s)
{
    struct given g = settings_of(usual_mode());
    const int32_t q = once_in(12) ? 0 : ONE_OF(1, 2, 3, 3, 5, 8), w = once_in(12) ? 0 : ONE_OF(1, 5, 10, 45);
    const int32_t least_room = g.value[ADDRESS] == 0 ? 4 : 7;
    bool contact = once_in(2);

    g.value[TRACKING_TIME] = q;
    g.value[TRACKING_WIDTH] = w;
    g.value[ALLOWANCE] = once_in(2) ? ONE_OF(w, 3 * w, 12 * w) : 10000;
    g.value[STABLE_TIME] = ONE_OF(10, 10, 12);
    g.value[START_DELAY] = ONE_OF(0, 2, 5);
    g.value[DISCHARGE_START] = ONE_OF(0, 2, 5);
    g.value[DISCHARGE_LIMIT] = between(2, 8);
    begin(s, &g, once_in(6) ? least_room : usual_room(), between(800, 1600));
    while (more(s)) {
        const int64_t tenths = paused_weight(s);
        const int32_t stays = ONE_OF(1, 1, 2, 4, 12);           /* closed ticks, about */
        for (int32_t i = once_in(3) ? between(1, q + 2) : s->settings.stability_time + between(0, q + 4); i > 0; i--) {
            const bool last = q > 0 && s->state.tracking_count == q - 1;
            const bool turns = once_in(contact ? stays : last ? 3 : 8);
            contact = contact != turns;
            paused_tick(s, tenths, contact, turns);
        }
    }
}

/* Count after count, over the halves of tenths and divisions, around empty, overload and the ends of the analog value. */
static void sweep(struct scenario *s)
{
    struct given g = settings_of(usual_mode());

    begin(s, &g, usual_room(), between(400, 1000));
    const int32_t c = s->settings.capacity, limit = s->settings.overload;
    while (more(s)) {
        int32_t at = ONE_OF(0, 0, 1, -1, limit, -limit, c, g.value[LOW_END] / g.value[DIVISION], g.value[HIGH_END] / g.value[DIVISION]);
        int32_t divisions = once_in(4) ? between(-c, c) : least(most(at, -2 * c), 2 * c);
        int32_t count = count_of(s, tenths_of_divisions(s, divisions)), by = ONE_OF(1, 1, 2, -1, -3);
        for (int32_t i = between(5, 40); i > 0; i--) {
            bool contact = once_in(3);
            step(s, count, contact, once_in(8) ? any_command(s) : NONE);
            count += by;
        }
    }
}

/* ---- Lines ---- */

/* A cable that carries all sorts of lines. */
static void noisy_line(struct scenario *s)
{
    struct given g = settings_of(usual_mode());
    struct plant p = {.contact = false};

    begin(s, &g, usual_room(), between(400, 1000));
    s->writes = usual_writes();
    s->cr = once_in(8);
    while (more(s)) {
        p.weight = between(-20, s->settings.capacity * 5) * (int64_t)1000;
        for (int32_t i = between(1, 20); i > 0; i--)
            pass(s, &p, once_in(2) ? malformed(s) : stray(s));
        settle(s, &p);
        pass(s, &p, any_command(s));
    }
}

/* A reply buffer as long as a reply or a byte shorter, or of any length in turn: every command, and batches where they can start. */
static void short_reply(struct scenario *s)
{
    static int32_t turn;
    struct given g = settings_of(usual_mode());
    int32_t prefix = g.value[ADDRESS] == 0 ? 0 : 3;
    int32_t room = turn++ % 2 == 0 ? turn / 2 % 65 : prefix + ONE_OF(3, 4, 5, 6, 17, 18, 19, 43, 44);
    struct plant p = {.bad = 30, .heavy = 30};

    begin(s, &g, room, between(80, 250));
    s->writes = usual_writes();
    while (more(s)) {
        p.weight = 0;
        settle(s, &p);
        for (int32_t i = between(1, 10); i > 0; i--)
            pass(s, &p, once_in(4) ? malformed(s) : any_command(s));
        struct setpoints set = good_setpoints(s, full_scale(s));
        pass(s, &p, setpoints_command(s, &set));
        fit_flow(s, &p);
        p.stray = 4;
        run_batch(s, &p);
        p.stray = 0;
    }
}

/* Anything at any time: counts that jump as far as a log can tell, and any line. */
static void wild(struct scenario *s)
{
    struct given g = settings_of(usual_mode());
    int32_t count = bad_count();

    begin(s, &g, usual_room(), between(300, 800));
    s->writes = usual_writes();
    while (more(s)) {
        int32_t c = 2 * s->settings.capacity;
        switch (between(0, 9)) {
        case 0: count = between(-999999999, 999999999); break;
        case 1: count = between(-COUNT_LIMIT - 1, COUNT_LIMIT + 1); break;
        case 2: count = count_of(s, tenths_of_divisions(s, between(-c, c))); break;
        case 3: count = bad_count(); break;
        case 4: count = heavy_count(s); break;
        default: break;
        }
        bool contact = once_in(2);
        step(s, count, contact, once_in(2) ? NONE : stray(s));
    }
}

/* ---- The long day ---- */

/* Past the last tick that is booked, by some; the scale works from the start, or only after that tick. In the one a refill ends with that
 * tick, and its splash comes too late to be booked; the day is then closed with the contact open again, and what follows is used. In the
 * other it is closed with the contact closed, and the splash comes after bad ticks, in the next day. */
static int32_t long_day(bool fails)
{
    struct scenario s;

    begin(&s, &settings_a, WHOLE_REPLY, DAY_TICKS + 200);
    while (more(&s)) {
        bool bad = (fails && s.ticks < DAY_TICKS + 20) || once_in(1000);
        bool near = s.ticks % DAY_TICKS < 300 || s.ticks > DAY_TICKS - 300;
        int32_t count = bad ? bad_count() : between(0, 50000);
        bool contact = once_in(3);
        if (!fails && (s.ticks == DAY_TICKS - 1 || s.ticks == DAY_TICKS)) {
            contact = s.ticks == DAY_TICKS - 1; /* the last tick that is booked, and the first that is not */
            count = contact ? 20000 : 20500;
        }
        step(&s, count, contact, near && once_in(50) ? command(&s, s.ticks < DAY_TICKS - 300 ? "RW" : "RT") : NONE);
    }
    step(&s, 1200, true, NONE);
    step(&s, 1000, fails, command(&s, "DC"));
    for (int i = 0; fails && i < 2; i++)
        step(&s, bad_count(), false, NONE);
    step(&s, 900, false, NONE);
    step(&s, 1100, true, command(&s, "DC"));
    step(&s, 1150, false, NONE);
    return end(&s, "long day");
}

/* ---- The tables of kinds ---- */

struct kind {
    const char *name;
    void (*write)(struct scenario *s);
};

/* Once, at the beginning of a run. */
static const struct kind first[] = {
    {"last digit of total", last_digit_of_total}, {"longest delay", longest_delay},
};

/* By turns, until the ticks are written. */
static const struct kind turns[] = {
    {"hopper", hopper}, {"vessel", vessel}, {"comparisons", comparisons}, {"faults", faults}, {"short reply", short_reply},
    {"impatient", impatient}, {"idle tank", idle_tank}, {"feeding tank", feeding_tank}, {"zero and tare", zero_and_tare},
    {"paused refill", paused_refill}, {"sweep", sweep}, {"short reply", short_reply}, {"emptied hopper", emptied_hopper},
    {"discharges", discharges}, {"discharges", discharges}, {"noisy line", noisy_line}, {"large total", large_total}, {"wild", wild},
    {"impatient", impatient}, {"short reply", short_reply},
};

/* Only in a long run, once. */
static const struct kind seldom[] = {
    {"longest flow", longest_flow}, {"longest delay", longest_delay}, {"longest delay", longest_delay}, {"longest delay", longest_delay},
    {"longest delay", longest_delay}, {"longest discharge", longest_discharge}, {"longest discharge", longest_discharge},
    {"longest discharge", longest_discharge},
};

enum { LONG_RUN = 2000000 };

static int32_t write_kind(const struct kind *kind)
{
    struct scenario s;

    kind->write(&s);
    return end(&s, kind->name);
}

static void write_run(int64_t wanted)
{
    int64_t written = settings_outside() + settings_at_ends() + settings_unread();

    for (size_t i = 0; i < LENGTH(first); i++)
        written += write_kind(&first[i]);
    for (size_t i = 0; wanted >= LONG_RUN && i < LENGTH(seldom); i++)
        written += write_kind(&seldom[i]);
    for (size_t i = 0; written < wanted; i++)
        written += write_kind(&turns[i % LENGTH(turns)]);
}

static bool read_number(const char *text, int64_t *value)
{
    char *rest;

    *value = strtoll(text, &rest, 10);
    return *text >= '0' && *text <= '9' && *rest == '\0';
}

int main(int argc, char **argv)
{
    int64_t number, ticks;

    if (argc != 4 || !read_number(argv[1], &number) || (strcmp(argv[2], "day") != 0 && !read_number(argv[2], &ticks))) {
        fputs("usage: scenarios SEED TICKS|day FOLDER\n", stderr);
        return 2;
    }
    seed((uint64_t)number);
    into_folder(argv[3]);
    if (strcmp(argv[2], "day") == 0) {
        long_day(false);
        long_day(true);
    } else {
        write_run(ticks);
    }
    return 0;
}
