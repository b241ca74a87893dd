/* The outline's figures and some worked by hand, read at their places in the answer and in the state image. Images reach what no log can:
 * the end of a day's 8,640,000 ticks, and full totals. */
#include "test.h"

#include <stdio.h>
#include <string.h>

static struct lent on; /* the controller at work */

static void open_with(const int32_t *numbers)
{
    uint8_t settings[PRESSGULLY_SETTINGS], state[PRESSGULLY_STATE];
    struct call c = open_call();
    struct outcome o;

    put_settings(settings, numbers);
    memset(state, 1, sizeof state); /* yes to all that is yes or no, to setpoints that wait too */
    lend(&on, settings, state);
    o = run(&on, &c);
    check(o.kept && o.told == 0, "figures: the opening");
}

/* Settings A with one of them altered. */
static void open_a(enum setting s, int32_t number)
{
    int32_t numbers[SETTINGS];

    memcpy(numbers, settings_a, sizeof numbers);
    numbers[s] = number;
    open_with(numbers);
}

static void told(struct outcome o, uint32_t due, const char *what)
{
    check(o.kept && o.told == due, "figures: %s: told %u instead of %u", what, (unsigned)o.told, (unsigned)due);
}

static struct outcome tick(int32_t count, bool contact, uint32_t request)
{
    struct call c = tick_call(count, contact, request);

    return run(&on, &c);
}

/* So many ticks at this count, asked nothing. */
static void hold(int32_t count, int ticks)
{
    struct outcome o = {0, true, false};

    while (ticks-- > 0 && o.kept && o.told == 0)
        o = tick(count, false, PRESSGULLY_NOTHING);
    told(o, 0, "a tick asked nothing");
}

static void line(int32_t count, const char *command, uint32_t due, const char *reply)
{
    struct call c = line_call(&on, count, false, command);
    struct outcome o = run(&on, &c);
    const size_t length = strlen(reply);

    check(o.kept && o.told == due && on.answer[15] == length && memcmp(on.reply, reply, length) == 0,
          "figures: line %s: told %u, %d bytes replied instead of %s", command, (unsigned)o.told, on.answer[15], reply);
}

static void shows(enum answer_field f, int64_t due, const char *what)
{
    check(answer_number(on.answer, f) == due, "figures: %s: %lld instead of %lld", what, (long long)answer_number(on.answer, f),
          (long long)due);
}

static void keeps(enum state_field f, int64_t due)
{
    check(state_number(on.state, f) == due, "figures: %s is %lld instead of %lld", state_names[f], (long long)state_number(on.state, f),
          (long long)due);
}

static void weights(void)
{
    static const int32_t figures[][3] = {{44, 4, 0}, {45, 5, 0}, {-45, -5, 0}, {100084, 10008, 0}, {100085, 10009, 1}, {-100085, -10009, 1}};
    static const uint8_t minus_5[] = {0xff, 0xff, 0xff, 0xfb};
    unsigned i;

    open_with(settings_a);
    for (i = 0; i < 6; i++) {
        told(tick(figures[i][0], false, PRESSGULLY_NOTHING), 0, "a tick asked nothing");
        shows(ANSWER_GROSS, figures[i][1], "gross");
        shows(ANSWER_NET, figures[i][1], "net");
        shows(ANSWER_OVERLOAD, figures[i][2], "overload");
        shows(ANSWER_GOOD, 1, "good");
    }
    tick(-45, false, PRESSGULLY_NOTHING);
    check(memcmp(on.answer + 16, minus_5, 4) == 0 && memcmp(on.answer + 20, minus_5, 4) == 0, "figures: -5 in bytes");
    tick(2000001, false, PRESSGULLY_NOTHING);
    shows(ANSWER_GOOD, 0, "good in a bad tick");
    shows(ANSWER_GROSS, 0, "gross in a bad tick");
    keeps(STATE_LAST, -45);
    keeps(STATE_LAST_GOOD, 0);
    open_a(SETTING_DIVISION, 5);
    tick(45, false, PRESSGULLY_NOTHING);
    shows(ANSWER_GROSS, 25, "gross of 45 with d 5");
}

/* "zero at 2,000; 2,001, stable"; then a tare, which net loses. */
static void zero_and_tare(void)
{
    open_with(settings_a);
    hold(2001, 101);
    shows(ANSWER_STABLE, 1, "stable");
    keeps(STATE_RUN, 100);
    told(tick(2001, false, PRESSGULLY_ZERO), 5, "zero at 2,001");
    keeps(STATE_ZERO, 0);
    told(tick(2000, false, PRESSGULLY_ZERO), 0, "zero at 2,000");
    keeps(STATE_ZERO, 2000);
    shows(ANSWER_GROSS, 0, "gross after the zero");
    hold(46210, 101);
    line(46210, "RW", 0, "ST,GS,+0004421kg\r\n");
    told(tick(46210, false, PRESSGULLY_TARE), 0, "tare");
    keeps(STATE_TARE, 4421);
    shows(ANSWER_NET, 0, "net after the tare");
    told(tick(46210, false, PRESSGULLY_SHOW_NET), 0, "show net");
    keeps(STATE_SHOWS_NET, 1);
    line(2000, "RW", 0, "US,NT,-0004421kg\r\n");
    shows(ANSWER_NET, -4421, "net below 0");
    told(tick(2000, false, PRESSGULLY_TARE_CLEAR), 0, "tare clear");
    keeps(STATE_TARE, 0);
    told(tick(2000, false, PRESSGULLY_SHOW_GROSS), 0, "show gross");
    keeps(STATE_SHOWS_NET, 0);
}

/* "one tick at 0, five falls of 5, each held 100 ticks: zero -20, gross -1, used 25" */
static void tracking(void)
{
    int fall;

    open_with(settings_a);
    hold(0, 1);
    for (fall = 1; fall <= 5; fall++)
        hold(-5 * fall, 100);
    keeps(STATE_ZERO, -20);
    keeps(STATE_TRACKED, -20);
    keeps(STATE_USED, 25);
    keeps(STATE_LAST, -25);
    shows(ANSWER_GROSS, -1, "gross after five falls");
    hold(-22, 7);
    keeps(STATE_COUNTER, 8); /* at -20 at most: the tick at -25 that is not a move's counts as well */
}

/* ---- A tanker connected ---- */

/* So many ticks at this count with the contact closed, after each of which nothing is counted. */
static void hold_closed(int32_t count, int ticks)
{
    while (ticks-- > 0) {
        told(tick(count, true, PRESSGULLY_NOTHING), 0, "a closed tick asked nothing");
        keeps(STATE_COUNTER, 0);
    }
}

/* Zero keyed during a refill with the pump paused, and again as the tanker is gone. Tracking is off. */
static void zero_in_refill(void)
{
    open_a(SETTING_TRACKING_TIME, 0);
    hold(0, 1);
    hold_closed(1500, 101);
    shows(ANSWER_STABLE, 1, "stable");
    told(tick(1500, true, PRESSGULLY_ZERO), 8, "zero with the contact closed");
    keeps(STATE_ZERO, 0);
    shows(ANSWER_GROSS, 150, "gross after the zero told 8");
    told(tick(1500, true, PRESSGULLY_TARE), 0, "tare with the contact closed");
    keeps(STATE_TARE, 150);
    told(tick(1500, true, PRESSGULLY_ZERO), 8, "zero beside a tare");
    shows(ANSWER_NET, 0, "net after the zero told 8");
    told(tick(1500, true, PRESSGULLY_TARE_CLEAR), 0, "tare clear with the contact closed");
    keeps(STATE_TARE, 0);
    told(tick(1521, true, PRESSGULLY_ZERO), 8, "zero, closed and not at rest"); /* 21 is more than 10·s */
    shows(ANSWER_STABLE, 0, "stable after a change of 21");
    told(tick(1521, true, PRESSGULLY_TARE), 4, "tare, closed and not at rest");
    told(tick(1521, false, PRESSGULLY_ZERO), 4, "zero, open and not at rest");
    told(tick(2001, true, PRESSGULLY_ZERO), 8, "zero, closed, not at rest and at 2,001");
    hold_closed(2001, 100);
    told(tick(2001, true, PRESSGULLY_ZERO), 8, "zero, closed and at 2,001");
    told(tick(2001, false, PRESSGULLY_ZERO), 5, "zero, open and at 2,001");
    told(tick(2000, true, PRESSGULLY_ZERO), 8, "zero, closed and at 2,000");
    told(tick(2000, false, PRESSGULLY_ZERO), 0, "zero in the first open tick");
    keeps(STATE_ZERO, 2000);
    told(tick(1990, true, PRESSGULLY_ZERO), 8, "zero in the first closed tick");
    keeps(STATE_ZERO, 2000);
    keeps(STATE_CONTACT, 1);
    keeps(STATE_REFILLED, 1990); /* 2,001, then -1 in a closed tick, 0 in the splash's, -10 in a closed one */
    keeps(STATE_USED, 0);
    told(tick(100, true, PRESSGULLY_START), 0, "start with the contact closed");
    told(tick(100, true, PRESSGULLY_ZERO), 3, "zero in a stage, closed");
    told(tick(2000001, true, PRESSGULLY_ZERO), 1, "zero in a bad tick, closed");
    told(tick(102085, true, PRESSGULLY_ZERO), 2, "zero in overload, closed");
}

/* No other request is told 8. */
static void others_in_refill(void)
{
    uint32_t request;

    open_with(settings_a);
    memset(on.points, 0, sizeof on.points);
    for (request = PRESSGULLY_TARE_CLEAR; request <= PRESSGULLY_DISCHARGE; request++)
        told(tick(0, true, request), request == PRESSGULLY_UNDO ? 7 : 0, "a request with the contact closed");
    told(tick(0, true, PRESSGULLY_ZERO), 3, "zero in a discharge, closed");
    told(tick(0, true, PRESSGULLY_STOP), 0, "stop with the contact closed");
    told(tick(0, true, PRESSGULLY_ZERO), 8, "zero with the contact closed");
}

/* The counter after each tick: closed ones make it 0, and the zero moves at the 100th open tick after the last of them. */
static void counts_open_ticks(void)
{
    open_with(settings_a);
    hold(3, 99);
    keeps(STATE_COUNTER, 99);
    hold_closed(3, 1); /* which would have moved it */
    keeps(STATE_ZERO, 0);
    hold(3, 40);
    keeps(STATE_COUNTER, 40);
    told(tick(3, true, PRESSGULLY_ZERO), 8, "zero with the contact closed");
    keeps(STATE_COUNTER, 0);
    hold(3, 1);
    keeps(STATE_COUNTER, 1);
    hold(3, 98);
    keeps(STATE_COUNTER, 99);
    keeps(STATE_ZERO, 0);
    hold(3, 1);
    keeps(STATE_COUNTER, 0);
    keeps(STATE_ZERO, 3);
    keeps(STATE_TRACKED, 3);
    hold_closed(5, 250);
    keeps(STATE_ZERO, 3);
    keeps(STATE_TRACKED, 3);
    told(tick(5, true, PRESSGULLY_ZERO), 8, "zero with something tracked");
    keeps(STATE_ZERO, 3);
    keeps(STATE_TRACKED, 3);
    hold(5, 50);
    told(tick(2000001, true, PRESSGULLY_NOTHING), 0, "a bad closed tick");
    keeps(STATE_COUNTER, 0);
    hold(5, 99);
    keeps(STATE_ZERO, 3);
    hold(5, 1);
    keeps(STATE_ZERO, 5);
    keeps(STATE_TRACKED, 5);
}

/* Blocks are their ticks here too. An image with a counter and the contact closed is one from before request A6, and still one: it goes on
 * counting where the contact is open now. */
static void counts_in_blocks(void)
{
    static int32_t fours[250];
    struct call closed = block_call(fours, 250, true), open = block_call(fours, 99, false), none = block_call(fours, 0, true);
    int i;

    for (i = 0; i < 250; i++)
        fours[i] = 4;
    open_with(settings_a);
    told(run(&on, &closed), 0, "a closed block");
    keeps(STATE_COUNTER, 0);
    keeps(STATE_ZERO, 0);
    told(run(&on, &open), 0, "an open block");
    keeps(STATE_COUNTER, 99);
    told(run(&on, &none), 0, "an empty block");
    keeps(STATE_COUNTER, 99);
    closed.counts_len = 1;
    told(run(&on, &closed), 0, "a closed block of one");
    keeps(STATE_COUNTER, 0);
    keeps(STATE_ZERO, 0);
    put_state(on.state, STATE_COUNTER, 98); /* beside the contact closed */
    hold(4, 1);
    keeps(STATE_COUNTER, 99);
    keeps(STATE_ZERO, 0);
    hold(4, 1);
    keeps(STATE_ZERO, 4);
    hold_closed(4, 1);
    put_state(on.state, STATE_COUNTER, 99);
    hold_closed(6, 1);
    keeps(STATE_ZERO, 4);
}

static void connected(void)
{
    zero_in_refill();
    others_in_refill();
    counts_open_ticks();
    counts_in_blocks();
}

/* The outline's ticket, with the last splash of request A2. */
static void days(void)
{
    open_with(settings_a);
    tick(0, false, PRESSGULLY_NOTHING);
    tick(-30, false, PRESSGULLY_NOTHING);
    tick(100, true, PRESSGULLY_NOTHING);
    keeps(STATE_CONTACT, 1);
    told(tick(60, false, PRESSGULLY_DAY_CLOSE), 0, "day close");
    shows(ANSWER_DAY_CLOSED, 1, "a day closed");
    shows(ANSWER_OPENING, 0, "opening");
    shows(ANSWER_REFILLED, 90, "refilled");
    shows(ANSWER_USED, 30, "used");
    shows(ANSWER_UNBOOKED, 0, "unbooked");
    shows(ANSWER_CLOSING, 60, "closing");
    keeps(STATE_OPENING, 60);
    keeps(STATE_REFILLED, 0);
    keeps(STATE_USED, 0);
    keeps(STATE_TICKS, 0);
    tick(-40, false, PRESSGULLY_NOTHING);
    shows(ANSWER_DAY_CLOSED, 0, "no day closed");
    keeps(STATE_USED, 100);
    put_state(on.state, STATE_TICKS, 8639999); /* the last tick that is booked, and the first that is not */
    tick(-50, false, PRESSGULLY_NOTHING);
    keeps(STATE_TICKS, 8640000);
    keeps(STATE_USED, 110);
    keeps(STATE_UNBOOKED, 0);
    tick(1000, true, PRESSGULLY_NOTHING);
    keeps(STATE_TICKS, 8640000);
    keeps(STATE_REFILLED, 0);
    keeps(STATE_UNBOOKED, -1050);
    told(tick(-2000, false, PRESSGULLY_DAY_CLOSE), 0, "day close");
    shows(ANSWER_OPENING, 60, "opening");
    shows(ANSWER_USED, 110, "used");
    shows(ANSWER_UNBOOKED, 1950, "unbooked");
    shows(ANSWER_CLOSING, -2000, "closing");
}

static void write_set(int32_t count, const uint32_t *set, uint32_t due)
{
    memcpy(on.points, set, PRESSGULLY_POINTS * sizeof set[0]);
    told(tick(count, false, PRESSGULLY_SET), due, "setpoints");
}

static void write_points(uint32_t F, uint32_t FF, uint32_t P, uint32_t OP, uint32_t near_zero, uint32_t due)
{
    const uint32_t set[PRESSGULLY_POINTS] = {F, FF, P, OP, 5, 6, near_zero};

    write_set(0, set, due);
}

static void at_stage(int32_t count, int stage, const char *gates)
{
    char seen[5] = "----";
    int i;

    tick(count, false, PRESSGULLY_NOTHING);
    for (i = 0; i < 4; i++)
        if (on.answer[5 + i] == 1)
            seen[i] = "LMSD"[i];
    check(on.answer[4] == stage && on.state[88] == stage && strcmp(seen, gates) == 0, "figures: stage %d with %s instead of %d with %s",
          on.answer[4], seen, stage, gates);
}

/* A batch through all its stages, delays 0: each timed stage lasts a tick. */
static void batch(void)
{
    open_with(settings_a);
    write_points(1000, 20, 20, 0, 0, 6);
    write_points(1000, 20, 0, 300, 0, 0);
    write_points(1000, 20, 100, 300, 50, 0);
    line(0, "RS", 0, "001000000020000100000300000005000006000050\r\n");
    keeps(STATE_OPTIONAL, 300);
    keeps(STATE_NEAR_ZERO, 50);
    told(tick(0, false, PRESSGULLY_START), 0, "start");
    shows(ANSWER_STAGE, 3, "stage of a start");
    at_stage(0, 4, "LMS-");
    at_stage(0, 5, "LMS-");
    at_stage(6994, 5, "LMS-"); /* shows 699 */
    keeps(STATE_CLOCK, 2);
    at_stage(7000, 6, "-MS-");
    at_stage(7000, 7, "-MS-");
    at_stage(9000, 8, "--S-");
    at_stage(9000, 9, "--S-");
    at_stage(9800, 10, "----");
    at_stage(10040, 11, "----");
    hold(10040, 99);
    keeps(STATE_STAGE, 11);
    keeps(STATE_CLOCK, 107);
    at_stage(10040, 0, "----");
    shows(ANSWER_JUDGEMENT, 1, "judgement");
    keeps(STATE_TOTAL, 1004);
    keeps(STATE_BATCHES, 1);
    keeps(STATE_UNDO, 1);
    keeps(STATE_UNDO_WEIGHT, 1004);
    line(10040, "RT", 0, "00001004,00000001\r\n");
    told(tick(0, false, PRESSGULLY_UNDO), 0, "undo");
    keeps(STATE_TOTAL, 0);
    keeps(STATE_UNDO_WEIGHT, 0);
    told(tick(0, false, PRESSGULLY_UNDO), 7, "undo twice");
    told(tick(0, false, PRESSGULLY_START), 0, "start");
    told(tick(0, false, PRESSGULLY_STOP), 0, "stop");
    shows(ANSWER_ERROR, 4, "error of a stop");
    keeps(STATE_ERROR, 4);
}

/* Stable in stage 11, about to finish at 1,000: totals that are full give error 10, those one short of it do not. */
static void full_totals(int64_t total, int64_t batches, bool booked)
{
    open_with(settings_a);
    write_points(1000, 20, 100, 300, 50, 0);
    hold(10000, 1);
    put_state(on.state, STATE_RUN, 100);
    put_state(on.state, STATE_STAGE, 11);
    put_state(on.state, STATE_TOTAL, total);
    put_state(on.state, STATE_BATCHES, batches);
    at_stage(10000, 0, "----");
    keeps(STATE_ERROR, booked ? 0 : 10);
    keeps(STATE_TOTAL, booked ? total + 1000 : total);
    keeps(STATE_BATCHES, booked ? batches + 1 : batches);
    keeps(STATE_UNDO, booked);
    keeps(STATE_JUDGEMENT, 1);
}

static void discharge(void)
{
    open_a(SETTING_DISCHARGE_LIMIT, 3);
    write_points(0, 0, 0, 0, 50, 0);
    told(tick(5000, false, PRESSGULLY_DISCHARGE), 0, "discharge");
    at_stage(5000, 15, "---D");
    at_stage(400, 16, "---D");
    keeps(STATE_CLOCK, 1);
    at_stage(400, 0, "----");
    keeps(STATE_ERROR, 0);
    line(5000, "BD", 0, "BD\r\n");
    shows(ANSWER_STAGE, 14, "stage of a discharge");
    hold(5000, 4);
    keeps(STATE_CLOCK, 3);
    at_stage(5000, 0, "----");
    keeps(STATE_ERROR, 8);
    told(tick(5000, false, PRESSGULLY_DISCHARGE), 0, "discharge");
    told(tick(5000, false, PRESSGULLY_STOP), 0, "stop");
    keeps(STATE_ERROR, 7);
    open_a(SETTING_MODE, 2);
    told(tick(5000, false, PRESSGULLY_DISCHARGE), 9, "discharge in mode 2");
    write_points(1000, 0, 0, 400, 50, 0);
    tick(4004, false, PRESSGULLY_NOTHING);
    shows(ANSWER_FULL, 0, "full at 400");
    tick(4005, false, PRESSGULLY_NOTHING);
    shows(ANSWER_FULL, 1, "full at 401");
    shows(ANSWER_NEAR_ZERO, 0, "near zero at 401");
    tick(504, false, PRESSGULLY_NOTHING);
    shows(ANSWER_NEAR_ZERO, 1, "near zero at 50");
}

/* ---- Setpoints that wait ---- */

/* Of a batch of 1,000, which it is judged by, and of those that are written meanwhile: the first with P and OP, the second without. A near
 * zero of 2,000 is on at every weight here, one of 50 at hardly any. */
static const uint32_t batch_set[PRESSGULLY_POINTS] = {1000, 20, 100, 300, 5, 6, 50};
static const uint32_t next_set[PRESSGULLY_POINTS] = {600, 10, 60, 200, 1, 2, 2000};
static const uint32_t other_set[PRESSGULLY_POINTS] = {800, 10, 0, 0, 3, 4, 2000};
static const uint32_t broken_set[PRESSGULLY_POINTS] = {1000, 20, 20, 0, 5, 6, 50};
static const uint32_t empty_set[PRESSGULLY_POINTS];

static void has_set(enum state_field first, const uint32_t *due)
{
    int i;

    for (i = 0; i < PRESSGULLY_POINTS; i++)
        keeps((enum state_field)(first + i), due[i]);
}

static void in_use(const uint32_t *due)
{
    has_set(STATE_FINAL, due);
}

static void waits(const uint32_t *due)
{
    keeps(STATE_WAITS, 1);
    has_set(STATE_WAITING_FINAL, due);
}

static void none_wait(void)
{
    keeps(STATE_WAITS, 0);
    has_set(STATE_WAITING_FINAL, empty_set);
}

/* Returned to 00 with this error, and what waited is in use. */
static void ended(int error, const uint32_t *due)
{
    keeps(STATE_STAGE, 0);
    keeps(STATE_ERROR, error);
    in_use(due);
    none_wait();
}

/* A batch in its large flow, delays 0. */
static void begin_batch(void)
{
    open_with(settings_a);
    write_set(0, batch_set, 0);
    told(tick(0, false, PRESSGULLY_START), 0, "start");
    at_stage(0, 4, "LMS-");
    at_stage(0, 5, "LMS-");
}

static void rest_of_batch(void)
{
    at_stage(6994, 5, "LMS-"); /* 699: F - OP is 700 by the batch's own, 400 by the next */
    at_stage(7000, 6, "-MS-");
    at_stage(7000, 7, "-MS-");
    at_stage(8994, 7, "-MS-");
    at_stage(9000, 8, "--S-");
    at_stage(9000, 9, "--S-");
    at_stage(9794, 9, "--S-");
    at_stage(9800, 10, "----");
    at_stage(10040, 11, "----");
    hold(10040, 99); /* the tick after these is the 100th of one weight: stable */
    keeps(STATE_STAGE, 11);
}

/* 1,004 is ok by 1,000 and 5, and over by the sets that wait. */
static void finished(const uint32_t *due)
{
    shows(ANSWER_STAGE, 0, "stage of a finish");
    shows(ANSWER_JUDGEMENT, 1, "judgement by the batch's own setpoints");
    shows(ANSWER_NEAR_ZERO, due[6] >= 1004, "near zero by the setpoints in use after the finish");
    keeps(STATE_TOTAL, 1004);
    ended(0, due);
}

static void waits_for_finish(void)
{
    begin_batch();
    write_set(0, next_set, 0);
    in_use(batch_set);
    waits(next_set);
    line(0, "RS", 0, "000600000010000060000200000001000002002000\r\n");
    line(0, "SS000800000010000000000000000003000004002000", 0, "SS\r\n"); /* in the other's place */
    in_use(batch_set);
    waits(other_set);
    write_set(0, broken_set, 6);
    waits(other_set);
    told(tick(0, false, PRESSGULLY_TARE_CLEAR), 3, "tare clear in a batch");
    rest_of_batch();
    in_use(batch_set);
    waits(other_set);
    line(10040, "RS", 0, "000800000010000000000000000003000004002000\r\n"); /* in the finishing tick */
    finished(other_set);
    line(0, "RS", 0, "000800000010000000000000000003000004002000\r\n");
    told(tick(0, false, PRESSGULLY_START), 0, "start");
    line(0, "RS", 0, "000800000010000000000000000003000004002000\r\n");
    shows(ANSWER_STAGE, 8, "stage without P and OP");
    none_wait();
}

/* Neither a write in 00 nor one in a discharge takes the judgement away. */
static void judgement_stays(void)
{
    begin_batch();
    rest_of_batch();
    hold(10040, 1);
    finished(batch_set);
    write_set(10040, next_set, 0);
    keeps(STATE_JUDGEMENT, 1);
    in_use(next_set);
    none_wait();
    told(tick(30000, false, PRESSGULLY_DISCHARGE), 0, "discharge");
    write_set(30000, other_set, 0);
    keeps(STATE_STAGE, 15);
    keeps(STATE_JUDGEMENT, 1);
    told(tick(30000, false, PRESSGULLY_STOP), 0, "stop");
    keeps(STATE_JUDGEMENT, 1);
    ended(7, other_set);
}

/* A write in the tick that finishes: nothing, or others, waiting till then. */
static void written_in_finish(void)
{
    int i;

    for (i = 0; i < 3; i++) {
        begin_batch();
        if (i > 0)
            write_set(0, other_set, 0);
        rest_of_batch();
        write_set(10040, i < 2 ? next_set : broken_set, i < 2 ? 0 : 6);
        finished(i < 2 ? next_set : other_set);
    }
    begin_batch();
    rest_of_batch();
    write_set(10040, broken_set, 6);
    finished(batch_set);
}

/* In every stage of a batch, with delays, so that the write does not meet a stage's end. */
static void waits_in_every_stage(void)
{
    static const struct {
        int32_t count;
        int stage;
    } ways[] = {{0, 3}, {0, 4}, {0, 5}, {7000, 6}, {7000, 7}, {9000, 8}, {9000, 9}, {9800, 10}, {10040, 11}};
    unsigned i;
    int t;

    open_with(settings_timed);
    write_set(0, batch_set, 0);
    told(tick(0, false, PRESSGULLY_START), 0, "start");
    for (i = 0; i < sizeof ways / sizeof ways[0]; i++) {
        for (t = 0; t < 30 && on.state[88] != ways[i].stage; t++)
            tick(ways[i].count, false, PRESSGULLY_NOTHING);
        keeps(STATE_STAGE, ways[i].stage);
        write_set(ways[i].count, i % 2 ? next_set : other_set, 0);
        keeps(STATE_STAGE, ways[i].stage);
        in_use(batch_set);
        waits(i % 2 ? next_set : other_set);
    }
}

/* Each error of a batch but 4. Those that step 6 finds are by the old set, also in the tick of the write. */
static void waits_for_errors(void)
{
    open_with(settings_a);
    told(tick(0, false, PRESSGULLY_START), 0, "start without setpoints");
    write_set(0, batch_set, 0);
    ended(1, batch_set);
    told(tick(9800, false, PRESSGULLY_START), 0, "start at F - FF");
    write_set(9800, next_set, 0);
    ended(2, next_set);
    begin_batch();
    write_set(0, next_set, 0);
    at_stage(100085, 0, "----");
    ended(9, next_set);
    begin_batch();
    write_set(0, other_set, 0);
    write_set(2000001, next_set, 0); /* a write is not refused in a bad tick */
    ended(9, next_set);
    open_a(SETTING_FLOW_LIMIT, 3);
    write_set(0, batch_set, 0);
    told(tick(0, false, PRESSGULLY_START), 0, "start");
    write_set(0, other_set, 0);
    hold(0, 3);
    keeps(STATE_CLOCK, 3);
    waits(other_set);
    line(0, "RS", 0, "000800000010000000000000000003000004002000\r\n");
    ended(6, other_set);
    begin_batch();
    rest_of_batch();
    put_state(on.state, STATE_TOTAL, 99999999);
    write_set(10040, next_set, 0);
    keeps(STATE_JUDGEMENT, 1);
    keeps(STATE_TOTAL, 99999999);
    ended(10, next_set);
}

/* Near zero and full of the stop's own tick are by the new set. */
static void waits_for_stop(void)
{
    static const uint32_t full_400[PRESSGULLY_POINTS] = {1000, 0, 0, 400, 0, 0, 50}, full_300[PRESSGULLY_POINTS] = {900, 0, 0, 300, 0, 0, 60};

    begin_batch();
    write_set(4000, next_set, 0);
    shows(ANSWER_NEAR_ZERO, 0, "near zero at 400");
    told(tick(4000, false, PRESSGULLY_STOP), 0, "stop");
    shows(ANSWER_NEAR_ZERO, 1, "near zero in the stop's tick");
    ended(4, next_set);
    open_a(SETTING_MODE, 2);
    write_set(3500, full_400, 0);
    told(tick(3500, false, PRESSGULLY_START), 0, "start");
    write_set(3500, full_300, 0);
    shows(ANSWER_FULL, 0, "full at 350");
    waits(full_300);
    told(tick(3500, false, PRESSGULLY_STOP), 0, "stop");
    shows(ANSWER_FULL, 1, "full in the stop's tick");
    ended(4, full_300);
}

/* A discharge by the near zero of 50 in use, of which a set with 600 waits: it is not over at 500. */
static void begin_discharge(const uint32_t *waiting)
{
    open_a(SETTING_DISCHARGE_LIMIT, 3);
    write_points(0, 0, 0, 0, 50, 0);
    told(tick(5000, false, PRESSGULLY_DISCHARGE), 0, "discharge");
    write_set(5000, waiting, 0);
    keeps(STATE_STAGE, 15);
    waits(waiting);
    at_stage(5000, 15, "---D");
    shows(ANSWER_NEAR_ZERO, 0, "near zero at 500");
}

static void waits_for_discharge(void)
{
    static const uint32_t near_600[PRESSGULLY_POINTS] = {700, 0, 0, 0, 0, 0, 600};

    begin_discharge(near_600);
    at_stage(500, 16, "---D");
    line(5000, "RS", 0, "000700000000000000000000000000000000000600\r\n"); /* in the tick that ends it */
    shows(ANSWER_NEAR_ZERO, 1, "near zero at 500 after the discharge");
    ended(0, near_600);
    begin_discharge(near_600);
    at_stage(500, 16, "---D");
    write_set(500, next_set, 0);
    ended(0, next_set);
    begin_discharge(near_600);
    told(tick(5000, false, PRESSGULLY_STOP), 0, "stop");
    shows(ANSWER_NEAR_ZERO, 1, "near zero in the stop's tick");
    ended(7, near_600);
    begin_discharge(near_600);
    hold(5000, 2);
    waits(near_600);
    hold(5000, 1); /* the clock passes its limit */
    ended(8, near_600);
    begin_discharge(near_600);
    at_stage(-2000001, 0, "----");
    ended(9, near_600);
}

/* Setpoints that are accepted and some that are not, without room for what they are told: neither is done. */
static void written_without_room(void)
{
    static const char *const lines[] = {"SS000800000010000000000000000003000004002000", "SS001000000020000020000000000005000006000050"};
    struct call c;
    int i;

    for (i = 0; i < 2; i++) {
        c = line_call(&on, 0, false, lines[i]);
        c.reply_len = 3;
        told(run(&on, &c), 14, "setpoints without room for their reply");
        in_use(batch_set);
        none_wait();
    }
}

/* In 00 a write is in use at once, and a stop there brings nothing. */
static void waits_for_nothing(void)
{
    begin_batch();
    written_without_room();
    line(0, "RS", 0, "001000000020000100000300000005000006000050\r\n");
    told(tick(0, false, PRESSGULLY_STOP), 0, "stop with none waiting");
    ended(4, batch_set);
    write_set(0, next_set, 0);
    ended(4, next_set);
    told(tick(0, false, PRESSGULLY_STOP), 0, "stop in 00");
    ended(4, next_set);
}

/* The power goes after every tick of a batch with setpoints waiting: other buffers with the images alone go on as the first ones do. */
static void power_cuts(void)
{
    static const int32_t counts[] = {7000, 7000, 9000, 9000, 9800, 10040};
    struct lent other;
    unsigned t;

    begin_batch();
    write_set(0, next_set, 0);
    lend(&other, on.settings, on.state);
    for (t = 0; t < 106; t++) {
        uint8_t settings[PRESSGULLY_SETTINGS], state[PRESSGULLY_STATE];
        const struct call c = tick_call(counts[t < 6 ? t : 5], false, PRESSGULLY_NOTHING);
        const struct outcome o = run(&on, &c), again = run(&other, &c);

        check(o.kept && again.kept && o.told == 0 && again.told == 0 && memcmp(on.state, other.state, PRESSGULLY_STATE) == 0
                  && memcmp(on.answer, other.answer, PRESSGULLY_ANSWER) == 0,
              "figures: after a power cut tick %u differs", t);
        memcpy(settings, other.settings, sizeof settings);
        memcpy(state, other.state, sizeof state);
        lend(&other, settings, state);
        if (t < 105)
            waits(next_set);
    }
    finished(next_set);
}

static void waiting(void)
{
    waits_for_finish();
    written_in_finish();
    judgement_stays();
    waits_in_every_stage();
    waits_for_errors();
    waits_for_stop();
    waits_for_discharge();
    waits_for_nothing();
    power_cuts();
}

/* A board's value at a count, in the bits of its double. */
static void analog_at(int32_t count, int kind, uint64_t bits)
{
    tick(count, false, PRESSGULLY_NOTHING);
    check(on.answer[13] == kind && bits_at(on.answer, answer_fields[ANSWER_ANALOG]) == bits, "figures: analog at %ld: kind %d, bits %016llx",
          (long)count, on.answer[13], (unsigned long long)bits_at(on.answer, answer_fields[ANSWER_ANALOG]));
}

static void analog(void)
{
    int32_t numbers[SETTINGS];

    open_a(SETTING_BOARD, 1);
    analog_at(0, 1, 0x4010000000000000u);      /* 4 mA */
    analog_at(-500, 1, 0x4010000000000000u);
    analog_at(50000, 1, 0x4028000000000000u);  /* 12 mA */
    analog_at(100000, 1, 0x4034000000000000u); /* 20 mA */
    analog_at(100085, 0, 0);                   /* overload */
    analog_at(2000001, 0, 0);
    memcpy(numbers, settings_a, sizeof numbers);
    numbers[SETTING_BOARD] = 2;
    numbers[SETTING_LOW_END] = 100;
    numbers[SETTING_HIGH_END] = 0;
    open_with(numbers);
    analog_at(1000, 2, 0);                     /* +0.0 V */
    analog_at(500, 2, 0x4014000000000000u);    /* 5 V */
    analog_at(0, 2, 0x4024000000000000u);      /* 10 V */
}

static void addressed_lines(void)
{
    open_a(SETTING_ADDRESS, 7);
    line(0, "@07RW", 0, "@07US,GS,+0000000kg\r\n");
    line(0, "RW", 12, "");
    line(0, "@08RW", 12, "");
    line(0, "@07", 11, "@07NG11\r\n");
    line(0, "@07BD", 0, "@07BD\r\n");
    line(0, "@07BB", 3, "@07NG03\r\n");
    line(100085, "@07RW", 0, "@07OL,GS,+       kg\r\n");
    line(-100085, "@07RW", 0, "@07OL,GS,-       kg\r\n");
    shows(ANSWER_OVERLOAD, 1, "overload");
    line(0, "@07SS001000000020000100000300000005000006000050", 0, "@07SS\r\n");
    keeps(STATE_PRELIMINARY, 100);
    keeps(STATE_UNDER, 6);
    line(0, "@07SS00100000002000010000030000000500000600005x", 11, "@07NG11\r\n");
}

void test_figures(void)
{
    weights();
    zero_and_tare();
    tracking();
    connected();
    days();
    batch();
    full_totals(99998999, 99999998, true);
    full_totals(99999000, 5, false);
    full_totals(5, 99999999, false);
    discharge();
    waiting();
    analog();
    addressed_lines();
}
