/* What the kinds of scenario (scenarios.c) are made of: drawing and the log with the controller that runs along (scenario.c), serial
 * lines (lines.c), counts and the plant (plant.c). For the bench alone; no part of a controller.
 *
 * Whole numbers only, and at most one draw in an expression: a seed gives the same scenarios with every compiler. */
#ifndef SCENARIO_H
#define SCENARIO_H

#include "controller.h"

#include <stdio.h>

/* ---- Drawing ---- */

void seed(uint64_t number);
int32_t between(int32_t low, int32_t high);
bool once_in(int32_t n);                        /* one time in n; 0 is never */
int32_t pick(const int32_t *from, size_t n);

#define LENGTH(list) (sizeof(list) / sizeof((list)[0]))
#define ONE_OF(...) pick((const int32_t[]){__VA_ARGS__}, LENGTH(((const int32_t[]){__VA_ARGS__})))

static inline int32_t least(int32_t a, int32_t b)
{
    return a < b ? a : b;
}

static inline int32_t most(int32_t a, int32_t b)
{
    return a > b ? a : b;
}

/* ---- A scenario ---- */

enum setting {                                  /* in replay's order */
    ZERO_COUNT, SPAN_COUNT, CAPACITY, SPAN_WEIGHT, DIVISION, ZERO_RANGE, TRACKING_TIME, TRACKING_WIDTH, ALLOWANCE,
    STABLE_TIME, STABLE_WIDTH, MODE, START_DELAY, LARGE_DISABLE, MEDIUM_DISABLE, SMALL_DISABLE, JUDGE_DELAY, FLOW_LIMIT,
    ADDRESS, BOARD, LOW_END, HIGH_END, DISCHARGE_START, DISCHARGE_END, DISCHARGE_LIMIT, SETTINGS
};

_Static_assert((int)SETTINGS == SETTING_NUMBERS, "a name for each setting");

struct scenario {
    FILE *log;
    struct given given;
    struct settings settings;
    struct state state;
    struct outputs out;                         /* of the last tick */
    size_t room;                                /* the reply buffer's length */
    int32_t ticks, wanted;
    int32_t writes;                             /* in a stage setpoints are written in one tick of so many; 0 is never */
    bool cr;                                    /* the tick lines end in CR LF */
};

/* A serial command without its CR LF; of length 0: none. */
struct line {
    uint8_t bytes[100];
    size_t length;
};

extern const struct line NONE;

enum { WHOLE_REPLY = -1 };                      /* no argument: a reply buffer of 64 */

struct given settings_of(int mode);             /* drawn, and accepted */
int usual_mode(void);
int32_t usual_room(void);
int32_t usual_writes(void);

void into_folder(const char *name);
void begin_unread(struct scenario *s, const char *settings);            /* a first line that may be anything */
bool begin(struct scenario *s, const struct given *given, int32_t room, int32_t ticks);
void step(struct scenario *s, int32_t count, bool contact, struct line request);
bool more(const struct scenario *s);
int32_t end(struct scenario *s, const char *kind);                      /* gives the ticks written */
int32_t end_here(struct scenario *s, const char *kind);                 /* without a line end */

/* ---- Serial lines ---- */

struct line command(const struct scenario *s, const char *letters);
struct line setpoints_command(const struct scenario *s, const struct setpoints *p);
struct line any_command(const struct scenario *s);      /* in good form */
struct line malformed(const struct scenario *s);
struct line stray(const struct scenario *s);            /* either */
struct setpoints good_setpoints(const struct scenario *s, int32_t top); /* by the rules, final at most top */
struct line panel(const struct scenario *s);            /* setpoints for the next batch, or a look at those that wait */

/* ---- Counts ---- */

int32_t count_of(const struct scenario *s, int64_t tenths);
int64_t tenths_of_divisions(const struct scenario *s, int32_t divisions);
int64_t tenths_of_v(const struct scenario *s, int32_t v);
int32_t full_scale(const struct scenario *s);           /* display digits */
int32_t bad_count(void);
int32_t heavy_count(const struct scenario *s);          /* around and beyond overload */

/* ---- The plant and its operator ---- */

enum { FALL_LIMIT = 32 };

struct plant {
    int64_t weight;                             /* on the scale, thousandths of a tenth */
    int64_t flow[3];                            /* a tick, by the open large, medium and small gate, the same unit */
    int64_t outflow;                            /* a tick, by the open discharge gate, the same unit */
    int64_t bottom;                             /* the weight at which nothing flows out any more */
    int32_t fall;                               /* ticks from gate to scale */
    int64_t in_flight[FALL_LIMIT];
    int32_t leak;                               /* a tick, taken all the time */
    int32_t noise;                              /* tenths, either way */
    int32_t vibration;                          /* tenths, up and down by turns */
    bool contact;                               /* the refill contact */
    int32_t bounce, bad, heavy, stray;          /* one tick in so many; 0 is never */
};

struct plant usual_plant(void);
void pass(struct scenario *s, struct plant *p, struct line request);    /* one tick, with whatever disturbs it */
void ask(struct scenario *s, struct plant *p, const char *letters);
void idle(struct scenario *s, struct plant *p, int32_t ticks);
void settle(struct scenario *s, struct plant *p);
void look(struct scenario *s, struct plant *p);                         /* what is read and done between two batches */
void warm_up(struct scenario *s, struct plant *p);                      /* from opening to about the first good tick */
void shut_valve(struct scenario *s, struct plant *p);                   /* the end of a refill, and its splash */
void fit_flow(const struct scenario *s, struct plant *p);
void run_batch(struct scenario *s, struct plant *p);
void fit_outflow(const struct scenario *s, struct plant *p);
void run_discharge(struct scenario *s, struct plant *p);

#endif
