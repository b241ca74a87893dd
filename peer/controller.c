#include "controller.h"

#include <string.h>

/* ---- Settings, checked once at opening ---------------------------------- */

static bool within(int32_t x, int32_t low, int32_t high)
{
    return low <= x && x <= high;
}

static int32_t at_least_one(int32_t ticks)
{
    return ticks < 1 ? 1 : ticks;
}

/* Any value outside its range gives answer 10 and no state. */
int open_controller(const struct given *g, struct settings *s, struct state *st)
{
    const int32_t *v = g->value;
    const int32_t Z = v[0], S = v[1], C = v[2], W = v[3], d = v[4], p = v[5];
    const int32_t q = v[6], w = v[7], L = v[8], k = v[9], width = v[10], mode = v[11];
    const int32_t start = v[12], large = v[13], medium = v[14], small = v[15], judge = v[16];
    const int32_t Q = v[17], address = v[18], board = v[19], low = v[20], high = v[21];
    const int32_t discharge_start = v[22], discharge_end = v[23], discharge_limit = v[24];

    if (!within(Z, -COUNT_LIMIT, COUNT_LIMIT) || !within(S, -COUNT_LIMIT, COUNT_LIMIT))
        return ANSWER_SETTINGS;
    if (!within(C, 1, 16000) || !within(W, 1, C) || S - Z < 10 * W)
        return ANSWER_SETTINGS;
    if (d != 1 && d != 2 && d != 5 && d != 10 && d != 20 && d != 50)
        return ANSWER_SETTINGS;
    if (!within(p, 1, 30))
        return ANSWER_SETTINGS;
    if (!within(q, 0, 500) || !within(w, 0, 45) || !within(L, 0, 10000))
        return ANSWER_SETTINGS;
    if (!within(k, 10, 500) || !within(width, 0, 9))
        return ANSWER_SETTINGS;
    if (!within(mode, MODE_NORMAL, MODE_LOSS_IN_WEIGHT))
        return ANSWER_SETTINGS;
    if (!within(start, 0, 9999) || !within(large, 0, 9999) || !within(medium, 0, 9999)
        || !within(small, 0, 9999) || !within(judge, 0, 9999))
        return ANSWER_SETTINGS;
    if (!within(Q, 1, 60000) || !within(address, 0, 99))
        return ANSWER_SETTINGS;
    if (!within(board, ANALOG_NONE, ANALOG_VOLTAGE))
        return ANSWER_SETTINGS;
    if (!within(low, -999999, 999999) || !within(high, -999999, 999999) || low == high)
        return ANSWER_SETTINGS;
    if (!within(discharge_start, 0, 9999) || !within(discharge_end, 0, 9999))
        return ANSWER_SETTINGS;  /* in mode 2 too, though nothing there uses them */
    if (!within(discharge_limit, 1, 60000))
        return ANSWER_SETTINGS;

    s->zero_count = Z;
    s->span = S - Z;
    s->half_span = (S - Z) / 2;
    s->scale = 10 * W;
    s->capacity = C;
    s->overload = C + 8;
    s->division = d;
    s->zero_range = C * p;
    s->tracking_time = w == 0 ? 0 : q;      /* tracking is off if q or w is 0 */
    s->tracking_width = w;
    s->tracking_allowance = L;
    s->stability_time = k;
    s->stability_width = 10 * width;
    s->mode = mode;
    s->start_ticks = at_least_one(start);   /* a timed stage of n lasts max(n, 1) ticks */
    s->large_ticks = at_least_one(large);
    s->medium_ticks = at_least_one(medium);
    s->small_ticks = at_least_one(small);
    s->judge_ticks = at_least_one(judge);
    s->flow_limit = Q;
    s->discharge_start_ticks = at_least_one(discharge_start);
    s->discharge_end_ticks = at_least_one(discharge_end);
    s->discharge_limit = discharge_limit;
    s->address = address;
    s->board = board;
    s->low = (double)low;
    s->difference = (double)high - (double)low;

    /* zero, tare, totals, setpoints and error 0, stage 00, display gross, no
     * judgement, nothing to take back, no good tick yet */
    *st = (struct state){ .stage = 0, .judgement = JUDGEMENT_NONE };
    return ANSWER_DONE;
}

/* ---- From count to weight ------------------------------------------------ */

/* What one tick knows: its weight, and whether the tanker is connected. */
struct weighing {
    int32_t raw;         /* tenths; of a good tick */
    int32_t fine;        /* gross fine, tenths */
    int32_t divisions;   /* gross divisions */
    int32_t gross;       /* display digits */
    int32_t net;
    bool good;
    bool overload;
    bool stable;
    bool contact;        /* the refill contact is closed in this tick */
};

static inline int32_t magnitude(int32_t x)
{
    return x < 0 ? -x : x;
}

/* (count - Z) 10 W / (S - Z), rounded to nearest, halves away from zero. */
static inline int32_t raw_of(const struct settings *s, int32_t count)
{
    int64_t product = (int64_t)(count - s->zero_count) * s->scale;
    int32_t half = product < 0 ? -s->half_span : s->half_span;
    return (int32_t)((product + half) / s->span);
}

/* Tenths to divisions, rounded the same way. */
static inline int32_t divisions_of(int32_t tenths)
{
    return (tenths + (tenths < 0 ? -5 : 5)) / 10;
}

/* Gross, net and overload under the zero and tare in force. */
static inline void weigh(const struct settings *s, const struct state *st, struct weighing *w)
{
    if (!w->good) {              /* answered as 0, without overload */
        w->fine = 0;
        w->divisions = 0;
        w->gross = 0;
        w->net = 0;
        w->overload = false;
        return;
    }
    w->fine = w->raw - st->zero;
    w->divisions = divisions_of(w->fine);
    w->overload = magnitude(w->divisions) > s->overload;
    w->gross = w->divisions * s->division;
    w->net = w->gross - st->tare;
}

/* A good tick after a good tick whose raw changed by at most 10 s adds one to
 * the run, which stops at k; any other tick makes it 0.  Stable when it is k. */
static inline bool stability(const struct settings *s, struct state *st, bool good, int32_t change)
{
    if (good && st->last_good && magnitude(change) <= s->stability_width) {
        if (st->run < s->stability_time)
            st->run++;
    } else {
        st->run = 0;
    }
    st->last_good = good;
    return st->run == s->stability_time;
}

static int32_t displayed(const struct state *st, const struct weighing *w)
{
    return st->show_net ? w->net : w->gross;
}

/* ---- Day book ------------------------------------------------------------ */

/* Counts the tick; tells whether it is one of the day's first 8,640,000. */
static inline bool count_day_tick(struct state *st)
{
    if (st->day_ticks >= DAY_TICKS)
        return false;
    st->day_ticks++;
    return true;
}

/* The first good tick sets the opening raw; the change at each later one is
 * refilled or used, and past the limit unbooked, whatever the contact.  What still
 * splashes as the valve shuts, up or down, belongs to the refill: a change is
 * refilled where the contact is closed now or was at the last good tick.  So the
 * contact is noted in the first good tick and past the limit too, where nothing is
 * booked, but the next change may be.  Gives the change from the last good raw. */
static inline int32_t book_good_tick(struct state *st, int32_t raw, bool contact, bool in_day)
{
    const bool refill = contact || st->last_contact;
    int32_t change;

    st->last_contact = contact;
    if (!st->any_good) {
        st->any_good = true;
        st->opening = raw;
        st->last = raw;
        return 0;
    }
    change = raw - st->last;
    st->last = raw;
    if (!in_day)
        st->unbooked -= change;
    else if (refill)
        st->refilled += change;
    else
        st->used -= change;
    return change;
}

/* Ends the day; this tick's raw opens the next, its tick count at 0.  The contact
 * stays noted: the splash of a refill that was on at the close is the next day's. */
static void close_day(struct state *st, struct outputs *out)
{
    out->day_closed = true;
    out->day = (struct day){
        .opening = st->opening,
        .refilled = st->refilled,
        .used = st->used,
        .unbooked = st->unbooked,
        .closing = st->last,
    };
    st->opening = st->last;
    st->refilled = 0;
    st->used = 0;
    st->unbooked = 0;
    st->day_ticks = 0;
}

/* ---- Steps 1 to 3: count to raw; day book; gross, overload, stability ----- */

static inline void take_count(const struct settings *s, struct state *st, int32_t count, bool contact,
                       struct weighing *w)
{
    bool in_day;
    int32_t change = 0;

    w->good = within(count, -COUNT_LIMIT, COUNT_LIMIT);
    w->raw = w->good ? raw_of(s, count) : 0;
    w->contact = contact;

    in_day = count_day_tick(st);
    if (w->good)
        change = book_good_tick(st, w->raw, contact, in_day);

    weigh(s, st, w);
    w->stable = stability(s, st, w->good, change);
}

/* ---- Zero and tracking --------------------------------------------------- */

/* 10 |raw| is at most C p */
static inline bool in_zero_range(const struct settings *s, int32_t raw)
{
    return 10 * magnitude(raw) <= s->zero_range;
}

/* Step 5.  The counter adds one at a tick that is good, not overloaded, in stage
 * 00, without an accepted zero, with the contact open and |gross fine| at most w; any
 * other tick makes it 0.  At q it returns to 0, and the zero moves to raw if both rules
 * allow.  So no zero moves while the tanker is connected, and what was counted before
 * is not counted on after it: the next move comes q open ticks later at the earliest. */
static inline void track(const struct settings *s, struct state *st, const struct weighing *w,
                  bool zeroed)
{
    int32_t tracked;

    if (s->tracking_time == 0)
        return;
    if (!w->good || w->overload || st->stage != 0 || zeroed
        || w->contact || magnitude(w->fine) > s->tracking_width) {
        st->tracking_count = 0;
        return;
    }
    if (++st->tracking_count < s->tracking_time)
        return;
    st->tracking_count = 0;
    tracked = st->tracked + w->fine;
    if (in_zero_range(s, w->raw) && magnitude(tracked) <= s->tracking_allowance) {
        st->zero = w->raw;
        st->tracked = tracked;
    }
}

/* ---- Setpoints ----------------------------------------------------------- */

bool setpoint_rules(int32_t mode, const struct setpoints *p)
{
    if (!within(p->final, 0, SETPOINT_LIMIT) || !within(p->free_fall, 0, SETPOINT_LIMIT)
        || !within(p->preliminary, 0, SETPOINT_LIMIT) || !within(p->optional, 0, SETPOINT_LIMIT)
        || !within(p->over, 0, SETPOINT_LIMIT) || !within(p->under, 0, SETPOINT_LIMIT)
        || !within(p->near_zero, 0, SETPOINT_LIMIT))
        return false;
    if (p->free_fall > p->final)
        return false;
    /* P is 0, or more than FF and at most F */
    if (p->preliminary != 0
        && !(p->preliminary > p->free_fall && p->preliminary <= p->final))
        return false;
    /* in mode 1, OP is 0, or more than FF and P and at most F */
    if (mode == MODE_NORMAL && p->optional != 0
        && !(p->optional > p->free_fall && p->optional > p->preliminary
             && p->optional <= p->final))
        return false;
    return true;
}

/* There is no large flow if OP is 0 or in mode 2. */
static bool has_large_flow(const struct settings *s, const struct setpoints *p)
{
    return s->mode == MODE_NORMAL && p->optional != 0;
}

/* In stage 00 in use at once; in any other a set waits, in the place of one that may
 * be waiting already. */
static void write_setpoints(struct state *st, const struct setpoints *p)
{
    if (st->stage == 0) {
        st->setpoints = *p;
    } else {
        st->waiting_set = *p;
        st->waiting = true;
    }
}

/* What a read shows: the set that was written last. */
static const struct setpoints *last_written(const struct state *st)
{
    return st->waiting ? &st->waiting_set : &st->setpoints;
}

/* ---- Requests and their answers ------------------------------------------ */

/* The first refusal that applies, in numerical order, or 0.  8 alone is out of its
 * order: it stands between 3 and 4, so that a zero keyed with the tanker connected is
 * told that, also before the weight is at rest.  The contact asked is this tick's: the
 * first open tick may be zeroed, though its splash still belongs to the refill. */
static int refusal(const struct settings *s, const struct state *st, const struct weighing *w,
                   const struct request *r)
{
    switch (r->kind) {
    case REQUEST_ZERO:
    case REQUEST_TARE:
        if (!w->good)
            return ANSWER_BAD_TICK;
        if (w->overload)
            return ANSWER_OVERLOAD;
        if (st->stage != 0)
            return ANSWER_STAGE;
        if (r->kind == REQUEST_ZERO && w->contact)
            return ANSWER_CONTACT;
        if (!w->stable)
            return ANSWER_UNSTABLE;
        if (r->kind == REQUEST_ZERO ? !in_zero_range(s, w->raw)
                                    : !within(w->divisions, 0, s->capacity))
            return ANSWER_OUTSIDE;
        return ANSWER_DONE;
    case REQUEST_TARE_CLEAR:
        return st->stage != 0 ? ANSWER_STAGE : ANSWER_DONE;
    case REQUEST_START:
    case REQUEST_DISCHARGE:
        if (!w->good)
            return ANSWER_BAD_TICK;
        if (w->overload)
            return ANSWER_OVERLOAD;
        if (st->stage != 0)
            return ANSWER_STAGE;
        if (r->kind == REQUEST_DISCHARGE && s->mode == MODE_LOSS_IN_WEIGHT)
            return ANSWER_MODE;
        return ANSWER_DONE;
    case REQUEST_SETPOINTS:
        return setpoint_rules(s->mode, &r->setpoints) ? ANSWER_DONE : ANSWER_SETPOINTS;
    case REQUEST_UNDO:
        return st->undo ? ANSWER_DONE : ANSWER_NO_UNDO;
    case REQUEST_DAY_CLOSE:
        return w->good ? ANSWER_DONE : ANSWER_BAD_TICK;
    case REQUEST_NONE:
    case REQUEST_STOP:
    case REQUEST_TOTAL_CLEAR:
    case REQUEST_SHOW_GROSS:
    case REQUEST_SHOW_NET:
        break;
    }
    return ANSWER_DONE;          /* never refused */
}

/* Every way back to stage 00 ends here, in step 4 a stop, in step 6 the others: the
 * set that waits comes into use, and serves the outputs of this very tick.  What is to
 * be judged by the old set is judged before. */
static void return_to_00(struct state *st)
{
    st->stage = 0;
    st->timer = 0;
    st->flow_clock = 0;
    if (st->waiting) {
        st->setpoints = st->waiting_set;
        st->waiting_set = (struct setpoints){ .final = 0 };
        st->waiting = false;
    }
}

static void go_to_error(struct state *st, int32_t error)
{
    return_to_00(st);
    st->error = error;
}

/* An accepted request, done. */
static void do_request(const struct settings *s, struct state *st, struct weighing *w,
                       const struct request *r, struct outputs *out)
{
    switch (r->kind) {
    case REQUEST_NONE:
        break;
    case REQUEST_ZERO:
        st->zero = w->raw;
        st->tracked = 0;
        weigh(s, st, w);
        break;
    case REQUEST_TARE:
        st->tare = w->gross;
        weigh(s, st, w);
        break;
    case REQUEST_TARE_CLEAR:
        st->tare = 0;
        weigh(s, st, w);
        break;
    case REQUEST_START:
        st->error = 0;
        st->judgement = JUDGEMENT_NONE;
        st->stage = 3;
        st->timer = s->start_ticks;
        break;
    case REQUEST_DISCHARGE:      /* the judgement stays, and what can be taken back */
        st->error = 0;
        st->stage = 14;
        st->timer = s->discharge_start_ticks;
        break;
    case REQUEST_STOP:
        if (st->stage != 0)      /* in stage 00 it changes nothing */
            go_to_error(st, st->stage < 14 ? 4 : 7);
        break;
    case REQUEST_SETPOINTS:
        write_setpoints(st, &r->setpoints);
        break;
    case REQUEST_UNDO:           /* the last booked batch, once */
        st->total -= st->undo_weight;
        st->batches -= 1;
        st->undo = false;
        st->undo_weight = 0;
        break;
    case REQUEST_TOTAL_CLEAR:
        st->total = 0;
        st->batches = 0;
        st->undo = false;
        st->undo_weight = 0;
        break;
    case REQUEST_SHOW_GROSS:
        st->show_net = false;
        break;
    case REQUEST_SHOW_NET:
        st->show_net = true;
        break;
    case REQUEST_DAY_CLOSE:
        close_day(st, out);
        break;
    }
}

/* ---- Stages -------------------------------------------------------------- */

static void enter_timed(struct state *st, int32_t stage, int32_t ticks)
{
    st->stage = stage;
    st->timer = ticks;
}

/* One tick of a timed stage; tells its end. */
static bool timed_out(struct state *st)
{
    return --st->timer == 0;
}

/* 06 medium disable, or 08 small disable if P is 0. */
static void enter_medium_or_small(const struct settings *s, struct state *st)
{
    if (st->setpoints.preliminary != 0)
        enter_timed(st, 6, s->medium_ticks);
    else
        enter_timed(st, 8, s->small_ticks);
}

/* At the end of 03: F = 0 gives error 1; v at least F - FF gives error 2; else
 * the first flow stage, the flow clock at 0. */
static void end_start_delay(const struct settings *s, struct state *st, int32_t v)
{
    const struct setpoints *p = &st->setpoints;

    if (p->final == 0) {
        go_to_error(st, 1);
        return;
    }
    if (v >= p->final - p->free_fall) {
        go_to_error(st, 2);
        return;
    }
    st->flow_clock = 0;
    if (has_large_flow(s, p))
        enter_timed(st, 4, s->large_ticks);
    else
        enter_medium_or_small(s, st);
}

/* Over if v > F + over, under if v < F - under, else OK. */
static int32_t judge(const struct setpoints *p, int32_t v)
{
    if (v > p->final + p->over)
        return JUDGEMENT_OVER;
    if (v < p->final - p->under)
        return JUDGEMENT_UNDER;
    return JUDGEMENT_OK;
}

/* If v is 0 or more, and neither total nor count would pass 99,999,999, total
 * grows by v and count by 1.  Otherwise both stay and the error is 10. */
static void book_batch(struct state *st, int32_t v)
{
    if (v >= 0 && v <= TOTAL_LIMIT - st->total && st->batches < TOTAL_LIMIT) {
        st->total += v;
        st->batches += 1;
        st->undo = true;
        st->undo_weight = v;
    } else {
        st->error = 10;
    }
}

/* By the set that the batch ran with, one written in this tick or before it not yet. */
static void finish(struct state *st, int32_t v)
{
    st->judgement = judge(&st->setpoints, v);
    book_batch(st, v);
    return_to_00(st);
}

/* Step 6 in stages 14-16, which error 9 has not ended: tests error 8, then the
 * stage.  The clock rests in 14, is 0 in the tick that enters 15, and grows through
 * 16: 001 stops it at near zero. */
static void discharge(const struct settings *s, struct state *st, const struct weighing *w)
{
    if (st->stage >= 15 && ++st->flow_clock > s->discharge_limit) {
        go_to_error(st, 8);
        return;
    }
    switch (st->stage) {
    case 14:                     /* start delay, the gate shut */
        if (timed_out(st)) {
            st->flow_clock = 0;
            st->stage = 15;
        }
        break;
    case 15:                     /* gross, not net: the hopper is to be empty */
        if (w->gross <= st->setpoints.near_zero)
            enter_timed(st, 16, s->discharge_end_ticks);
        break;
    case 16:                     /* end delay */
        if (timed_out(st))
            return_to_00(st);
        break;
    }
}

/* Step 6 outside stage 00: tests error 9, then 6 in 03-11 or 8 in 14-16, then the
 * stage.  One move a tick. */
static void sequence(const struct settings *s, struct state *st, const struct weighing *w)
{
    const struct setpoints *p = &st->setpoints;
    int32_t v;

    if (!w->good || w->overload) {
        go_to_error(st, 9);
        return;
    }
    if (st->stage >= 14) {
        discharge(s, st, w);
        return;
    }
    if (st->stage >= 4 && ++st->flow_clock > s->flow_limit) {
        go_to_error(st, 6);
        return;
    }
    v = s->mode == MODE_LOSS_IN_WEIGHT ? -w->net : w->net;

    switch (st->stage) {
    case 3:                      /* start delay */
        if (timed_out(st))
            end_start_delay(s, st, v);
        break;
    case 4:                      /* large comparison disable */
        if (timed_out(st))
            st->stage = 5;
        break;
    case 5:
        if (v >= p->final - p->optional)
            enter_medium_or_small(s, st);
        break;
    case 6:                      /* medium comparison disable */
        if (timed_out(st))
            st->stage = 7;
        break;
    case 7:
        if (v >= p->final - p->preliminary)
            enter_timed(st, 8, s->small_ticks);
        break;
    case 8:                      /* small comparison disable */
        if (timed_out(st))
            st->stage = 9;
        break;
    case 9:
        if (v >= p->final - p->free_fall)
            enter_timed(st, 10, s->judge_ticks);
        break;
    case 10:                     /* judge delay */
        if (timed_out(st))
            st->stage = 11;
        break;
    case 11:
        if (w->stable)
            finish(st, v);
        break;
    }
}

/* ---- Analog value -------------------------------------------------------- */

/* x = displayed weight - low end, clipped to lie between 0 and D.  Current in mA
 * is 16 x / D + 4, volts are 10 x / D + 0, each operation rounded once. */
static double analog_value(const struct settings *s, int32_t weight)
{
    const double D = s->difference;
    double x = (double)weight - s->low;

    if (D > 0.0)
        x = x < 0.0 ? 0.0 : x > D ? D : x;
    else
        x = x > 0.0 ? 0.0 : x < D ? D : x;

    if (s->board == ANALOG_CURRENT) {
        x = 16.0 * x;
        x = x / D;
        return x + 4.0;
    }
    x = 10.0 * x;
    x = x / D;
    return x + 0.0;              /* -0.0 becomes +0.0 */
}

/* ---- The outputs of a tick ----------------------------------------------- */

static void show(const struct settings *s, const struct state *st, const struct weighing *w,
                 struct outputs *out)
{
    const bool valid = w->good && !w->overload;
    const int32_t stage = st->stage;

    out->good = w->good;
    out->gross = w->gross;
    out->net = w->net;
    out->overload = w->overload;
    out->stable = w->stable;
    out->stage = stage;
    /* 04-05 all three, 06-07 medium and small, 08-09 small; with P = 0 the
     * medium gate never opens; 15-16 the discharge gate, and no other */
    out->large = within(stage, 4, 5);
    out->medium = within(stage, 4, 7) && st->setpoints.preliminary != 0;
    out->small = within(stage, 4, 9);
    out->discharge = within(stage, 15, 16);
    out->judgement = st->judgement;
    out->error = st->error;
    out->near_zero = valid && w->gross <= st->setpoints.near_zero;
    out->full = valid && s->mode == MODE_LOSS_IN_WEIGHT && w->gross > st->setpoints.optional;
    if (valid && s->board != ANALOG_NONE) {
        out->analog_kind = s->board;
        out->analog = analog_value(s, displayed(st, w));
    } else {
        out->analog_kind = ANALOG_NONE;
        out->analog = 0.0;
    }
}

/* ---- One tick ------------------------------------------------------------ */

/* Steps 5 and 6, after a request that was done (or none).  Step 6 is passed over
 * in a tick with an accepted start or discharge, or a stop. */
static inline void end_tick(const struct settings *s, struct state *st, const struct weighing *w,
                     enum request_kind done)
{
    track(s, st, w, done == REQUEST_ZERO);
    if (st->stage != 0 && done != REQUEST_START && done != REQUEST_DISCHARGE
        && done != REQUEST_STOP)
        sequence(s, st, w);
}

void tick(const struct settings *s, struct state *st, int32_t count, bool contact,
          struct request r, struct outcome *o, struct outputs *out)
{
    struct weighing w;
    enum request_kind done = REQUEST_NONE;

    out->day_closed = false;
    take_count(s, st, count, contact, &w);
    o->number = refusal(s, st, &w, &r);
    if (o->number == ANSWER_DONE) {
        do_request(s, st, &w, &r, out);
        done = r.kind;
    }
    end_tick(s, st, &w, done);
    show(s, st, &w, out);
}

int run_block(const struct settings *s, struct state *st,
              const int32_t *counts, size_t n, bool contact)
{
    if (n > BLOCK_LIMIT)
        return ANSWER_BLOCK;
    for (size_t i = 0; i < n; i++) {
        struct weighing w;

        take_count(s, st, counts[i], contact, &w);
        end_tick(s, st, &w, REQUEST_NONE);
    }
    return ANSWER_DONE;
}

/* ---- Serial lines -------------------------------------------------------- */

/* A line is the bytes before the first CR LF, at most 64 of them. */
enum line_kind find_line(const uint8_t *receive, size_t received, size_t *length)
{
    *length = 0;
    for (size_t i = 0; i + 1 < received; i++) {
        if (receive[i] == '\r' && receive[i + 1] == '\n') {
            if (i > LINE_LIMIT)
                return LINE_LONG;
            *length = i;
            return i == 0 ? LINE_EMPTY : LINE_OTHER;
        }
    }
    return LINE_NONE;
}

static bool is_digit(uint8_t byte)
{
    return byte >= '0' && byte <= '9';
}

/* A field of six digits, read out of the middle of the line. */
static bool read_field(const uint8_t *field, int32_t *value)
{
    int32_t number = 0;

    for (int i = 0; i < 6; i++) {
        if (!is_digit(field[i]))
            return false;
        number = 10 * number + (field[i] - '0');
    }
    *value = number;
    return true;
}

enum { SETPOINT_FIELDS = 7, FIELD_DIGITS = 6 };

static bool read_setpoints(const uint8_t *fields, struct setpoints *p)
{
    return read_field(fields, &p->final)
        && read_field(fields + FIELD_DIGITS, &p->free_fall)
        && read_field(fields + 2 * FIELD_DIGITS, &p->preliminary)
        && read_field(fields + 3 * FIELD_DIGITS, &p->optional)
        && read_field(fields + 4 * FIELD_DIGITS, &p->over)
        && read_field(fields + 5 * FIELD_DIGITS, &p->under)
        && read_field(fields + 6 * FIELD_DIGITS, &p->near_zero);
}

/* What the two letters of a command ask for. */
enum command {
    COMMAND_UNKNOWN,
    COMMAND_READ_WEIGHT,
    COMMAND_READ_TOTAL,
    COMMAND_READ_SETPOINTS,
    COMMAND_REQUEST              /* of a kind of its own */
};

static enum command command_of(const uint8_t *letters, enum request_kind *kind)
{
    static const struct {
        char letters[3];
        uint8_t command;
        uint8_t kind;
    } commands[] = {
        { "RW", COMMAND_READ_WEIGHT, REQUEST_NONE },
        { "RT", COMMAND_READ_TOTAL, REQUEST_NONE },
        { "RS", COMMAND_READ_SETPOINTS, REQUEST_NONE },
        { "MZ", COMMAND_REQUEST, REQUEST_ZERO },
        { "MT", COMMAND_REQUEST, REQUEST_TARE },
        { "CT", COMMAND_REQUEST, REQUEST_TARE_CLEAR },
        { "MG", COMMAND_REQUEST, REQUEST_SHOW_GROSS },
        { "MN", COMMAND_REQUEST, REQUEST_SHOW_NET },
        { "BB", COMMAND_REQUEST, REQUEST_START },
        { "HB", COMMAND_REQUEST, REQUEST_STOP },
        { "DT", COMMAND_REQUEST, REQUEST_TOTAL_CLEAR },
        { "CA", COMMAND_REQUEST, REQUEST_UNDO },
        { "SS", COMMAND_REQUEST, REQUEST_SETPOINTS },
        { "DC", COMMAND_REQUEST, REQUEST_DAY_CLOSE },
        { "BD", COMMAND_REQUEST, REQUEST_DISCHARGE },
    };

    for (size_t i = 0; i < sizeof commands / sizeof commands[0]; i++) {
        if (letters[0] == (uint8_t)commands[i].letters[0]
            && letters[1] == (uint8_t)commands[i].letters[1]) {
            *kind = (enum request_kind)commands[i].kind;
            return (enum command)commands[i].command;
        }
    }
    return COMMAND_UNKNOWN;
}

/* Address 0 looks for no prefix; 1..99 needs "@" and two digits. */
static bool right_prefix(const struct settings *s, const uint8_t *line, size_t length)
{
    return length >= 3 && line[0] == '@'
        && line[1] == '0' + s->address / 10 && line[2] == '0' + s->address % 10;
}

/* What a receive buffer asks. */
struct asked {
    int number;                  /* 0, 11, 12 or 13 */
    bool silent;                 /* the reply is empty */
    size_t prefix;               /* bytes of prefix, before the letters: 0 or 3 */
    enum command command;
    struct request request;
};

/* The tests for no line and for 64 bytes come before 12; then 12, 11, 13. */
static void read_asked(const struct settings *s, const uint8_t *receive, size_t received,
                       struct asked *a)
{
    size_t length;
    enum line_kind kind = find_line(receive, received, &length);
    const uint8_t *letters;

    a->number = ANSWER_FORM;
    a->silent = true;
    a->prefix = s->address == 0 ? 0 : 3;
    a->command = COMMAND_UNKNOWN;
    a->request.kind = REQUEST_NONE;

    if (kind == LINE_NONE || kind == LINE_LONG)
        return;
    if (s->address != 0 && !right_prefix(s, receive, length)) {
        a->number = ANSWER_PREFIX;
        return;
    }
    a->silent = false;
    length -= a->prefix;
    if (length < 2)
        return;
    letters = receive + a->prefix;
    a->command = command_of(letters, &a->request.kind);
    if (a->command == COMMAND_UNKNOWN) {
        a->number = ANSWER_UNKNOWN;
        return;
    }
    if (a->request.kind == REQUEST_SETPOINTS) {
        if (length != 2 + SETPOINT_FIELDS * FIELD_DIGITS
            || !read_setpoints(letters + 2, &a->request.setpoints))
            return;
    } else if (length != 2) {
        return;
    }
    a->number = ANSWER_DONE;
}

static uint8_t *put_bytes(uint8_t *at, const char *bytes, size_t n)
{
    memcpy(at, bytes, n);
    return at + n;
}

static uint8_t *put_digits(uint8_t *at, int32_t value, int digits)
{
    for (int i = digits - 1; i >= 0; i--) {
        at[i] = (uint8_t)('0' + value % 10);
        value /= 10;
    }
    return at + digits;
}

/* ST,GS,+0004421kg */
static uint8_t *put_weight(uint8_t *at, const struct state *st, const struct weighing *w)
{
    const int32_t weight = displayed(st, w);
    const bool valid = w->good && !w->overload;

    at = put_bytes(at, !valid ? "OL," : w->stable ? "ST," : "US,", 3);
    at = put_bytes(at, st->show_net ? "NT," : "GS,", 3);
    if (valid) {
        *at++ = weight < 0 ? '-' : '+';
        at = put_digits(at, magnitude(weight), 7);
    } else {                     /* minus only for negative overload */
        *at++ = w->overload && w->gross < 0 ? '-' : '+';
        at = put_bytes(at, "       ", 7);
    }
    return put_bytes(at, "kg", 2);
}

static uint8_t *put_setpoints(uint8_t *at, const struct setpoints *p)
{
    at = put_digits(at, p->final, FIELD_DIGITS);
    at = put_digits(at, p->free_fall, FIELD_DIGITS);
    at = put_digits(at, p->preliminary, FIELD_DIGITS);
    at = put_digits(at, p->optional, FIELD_DIGITS);
    at = put_digits(at, p->over, FIELD_DIGITS);
    at = put_digits(at, p->under, FIELD_DIGITS);
    return put_digits(at, p->near_zero, FIELD_DIGITS);
}

/* The length of the reply due, prefix and CR LF too. */
static size_t reply_length(const struct asked *a, int number)
{
    size_t body = 2;             /* an accepted request: its two letters */

    if (number != ANSWER_DONE)
        body = 4;                /* NG and two digits */
    else if (a->command == COMMAND_READ_WEIGHT)
        body = 16;
    else if (a->command == COMMAND_READ_TOTAL)
        body = 17;
    else if (a->command == COMMAND_READ_SETPOINTS)
        body = SETPOINT_FIELDS * FIELD_DIGITS;
    return a->prefix + body + 2;
}

static void write_reply(const struct state *st, const struct weighing *w, const struct asked *a,
                        int number, const uint8_t *line, uint8_t *at)
{
    memcpy(at, line, a->prefix); /* prefixed as the command was */
    at += a->prefix;
    if (number != ANSWER_DONE) {
        at = put_bytes(at, "NG", 2);
        at = put_digits(at, number, 2);
    } else if (a->command == COMMAND_READ_WEIGHT) {
        at = put_weight(at, st, w);
    } else if (a->command == COMMAND_READ_TOTAL) {
        at = put_digits(at, st->total, 8);
        *at++ = ',';
        at = put_digits(at, st->batches, 8);
    } else if (a->command == COMMAND_READ_SETPOINTS) {
        at = put_setpoints(at, last_written(st));
    } else {
        *at++ = line[a->prefix];
        *at++ = line[a->prefix + 1];
    }
    put_bytes(at, "\r\n", 2);
}

int line_tick(const struct settings *s, struct state *st, int32_t count, bool contact,
              const uint8_t *receive, size_t received,
              uint8_t *reply, size_t room, size_t *replied, struct outputs *out)
{
    struct weighing w;
    struct asked a;
    int number;
    enum request_kind done = REQUEST_NONE;

    out->day_closed = false;
    *replied = 0;
    take_count(s, st, count, contact, &w);

    read_asked(s, receive, received, &a);
    number = a.number;
    if (number == ANSWER_DONE)
        number = refusal(s, st, &w, &a.request);
    if (!a.silent) {
        const size_t due = reply_length(&a, number);

        if (room < due) {        /* replaces any number; the request is not done */
            number = ANSWER_ROOM;
        } else {
            if (number == ANSWER_DONE) {
                do_request(s, st, &w, &a.request, out);
                done = a.request.kind;
            }
            write_reply(st, &w, &a, number, receive, reply);
            *replied = due;
        }
    }

    end_tick(s, st, &w, done);
    show(s, st, &w, out);
    return number;
}
