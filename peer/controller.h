/* A weighing and batching controller: one scale, normal and loss-in-weight
 * batching, discharge, one total, day book, serial commands, analog value.
 * Written by hand from the outline (01-scope.md), the change requests A1, A2, A5
 * and A6 and READINGS.md alone.
 *
 * A tick is 1/100 s.  A tenth is a tenth of a division.  No allocation and no
 * globals: the caller owns settings and state, and passes them by pointer. */
#ifndef CONTROLLER_H
#define CONTROLLER_H

#include <stdbool.h>
#include <stddef.h>
#include <stdint.h>

/* The answer's numbers: 0 accepted or nothing asked, else the first that applies. */
enum {
    ANSWER_DONE = 0,
    ANSWER_BAD_TICK = 1,
    ANSWER_OVERLOAD = 2,
    ANSWER_STAGE = 3,
    ANSWER_UNSTABLE = 4,
    ANSWER_OUTSIDE = 5,
    ANSWER_SETPOINTS = 6,
    ANSWER_NO_UNDO = 7,
    ANSWER_CONTACT = 8,          /* a zero with the refill contact closed; between 3 and 4 */
    ANSWER_MODE = 9,             /* a discharge in mode 2 */
    ANSWER_SETTINGS = 10,
    ANSWER_FORM = 11,
    ANSWER_PREFIX = 12,
    ANSWER_UNKNOWN = 13,
    ANSWER_ROOM = 14,
    ANSWER_BLOCK = 15
};

enum { MODE_NORMAL = 1, MODE_LOSS_IN_WEIGHT = 2 };
enum { JUDGEMENT_NONE = 0, JUDGEMENT_OK = 1, JUDGEMENT_OVER = 2, JUDGEMENT_UNDER = 3 };
enum { ANALOG_NONE = 0, ANALOG_CURRENT = 1, ANALOG_VOLTAGE = 2 };

enum {
    COUNT_LIMIT = 2000000,       /* a count beyond it makes a bad tick */
    DAY_TICKS = 8640000,         /* the ticks of a day that are booked */
    SETPOINT_LIMIT = 999999,
    TOTAL_LIMIT = 99999999,      /* of total and of count */
    LINE_LIMIT = 64,             /* bytes of a line before its CR LF */
    BLOCK_LIMIT = 4096           /* counts of a block */
};

/* The settings as they are asked for, in replay's order:
 * Z S C W d p q w L k s mode start large medium small judge Q address board low high,
 * then the discharge's start delay, end delay and limit */
enum { SETTING_NUMBERS = 25 };

struct given {
    int32_t value[SETTING_NUMBERS];
};

/* Settings that were accepted. */
struct settings {
    int32_t zero_count;          /* Z */
    int32_t span;                /* S - Z */
    int32_t half_span;           /* for rounding to nearest */
    int32_t scale;               /* 10 W: tenths at the span count */
    int32_t capacity;            /* C, divisions */
    int32_t overload;            /* C + 8, divisions */
    int32_t division;            /* d */
    int32_t zero_range;          /* C p: the bound of 10 |raw| */
    int32_t tracking_time;       /* q, ticks; 0 here too if w is 0: tracking is off */
    int32_t tracking_width;      /* w, tenths */
    int32_t tracking_allowance;  /* L, tenths */
    int32_t stability_time;      /* k, ticks */
    int32_t stability_width;     /* 10 s, tenths */
    int32_t mode;
    int32_t start_ticks;         /* the timed stages, each max(n, 1) */
    int32_t large_ticks;
    int32_t medium_ticks;
    int32_t small_ticks;
    int32_t judge_ticks;
    int32_t flow_limit;          /* Q, ticks */
    int32_t discharge_start_ticks;
    int32_t discharge_end_ticks;
    int32_t discharge_limit;     /* ticks */
    int32_t address;             /* 0: no prefix */
    int32_t board;               /* ANALOG_... */
    double low;                  /* low end */
    double difference;           /* D = high - low */
};

/* Seven numbers 0..999,999 in display digits. */
struct setpoints {
    int32_t final;               /* F */
    int32_t free_fall;           /* FF */
    int32_t preliminary;         /* P */
    int32_t optional;            /* OP; mode 2: full */
    int32_t over;
    int32_t under;
    int32_t near_zero;
};

struct state {
    /* zero, tracking, tare, display */
    int32_t zero;                /* zero in force, tenths */
    int32_t tracked;             /* tenths */
    int32_t tracking_count;      /* ticks */
    int32_t tare;                /* display digits */
    bool show_net;               /* the displayed weight: net, else gross */

    /* stability */
    bool any_good;               /* there has been a good tick */
    bool last_good;              /* the tick just before was good */
    int32_t run;                 /* ticks, up to k */

    /* day book, tenths */
    int32_t opening;             /* 0 before any good tick */
    int32_t last;                /* last good raw; 0 before any good tick */
    bool last_contact;           /* the refill contact was closed at the last good tick */
    int32_t day_ticks;           /* stops at DAY_TICKS */
    int64_t refilled;
    int64_t used;
    int64_t unbooked;

    /* sequence */
    int32_t stage;               /* 0, 3..11, 14..16 */
    int32_t timer;               /* ticks left of a timed stage */
    int32_t flow_clock;          /* of the flow; in 15 and 16 of the discharge */
    int32_t error;
    int32_t judgement;

    /* total */
    int32_t total;               /* display digits */
    int32_t batches;             /* count */
    int32_t undo_weight;
    bool undo;                   /* there is a batch to take back */

    struct setpoints setpoints;  /* in use */
    bool waiting;                /* a set waits for stage 00; never in that stage */
    struct setpoints waiting_set; /* zeros where none waits */
};

enum request_kind {
    REQUEST_NONE = 0,
    REQUEST_ZERO,
    REQUEST_TARE,
    REQUEST_TARE_CLEAR,
    REQUEST_START,
    REQUEST_DISCHARGE,
    REQUEST_STOP,
    REQUEST_SETPOINTS,
    REQUEST_UNDO,
    REQUEST_TOTAL_CLEAR,
    REQUEST_SHOW_GROSS,
    REQUEST_SHOW_NET,
    REQUEST_DAY_CLOSE
};

struct request {
    enum request_kind kind;
    struct setpoints setpoints;  /* of REQUEST_SETPOINTS alone */
};

struct outcome {
    int number;                  /* 0 done or nothing asked, else 1..9 */
};

/* A day that was ended, tenths. */
struct day {
    int32_t opening;
    int64_t refilled;
    int64_t used;
    int64_t unbooked;
    int32_t closing;
};

/* Of one tick. */
struct outputs {
    bool good;
    int32_t gross, net;
    bool overload, stable;
    int stage;
    bool large, medium, small;   /* feed gates */
    bool discharge;              /* gate */
    int judgement;               /* 0 none, 1 ok, 2 over, 3 under */
    int error;
    bool near_zero, full;
    int analog_kind;             /* 0 none, 1 current, 2 voltage */
    double analog;               /* mA or V; 0.0 with no value */
    bool day_closed;             /* an accepted day close in this tick */
    struct day day;              /* the day it ended; written only then */
};

enum line_kind {
    LINE_NONE,                   /* no CR LF */
    LINE_LONG,                   /* more than 64 bytes before it */
    LINE_EMPTY,
    LINE_OTHER
};

/* 0, or 10 and nothing written. */
int open_controller(const struct given *g, struct settings *s, struct state *st);

/* Whether these may be in use in this mode: refusal 6 is given where not, also to a
 * set that would have to wait. */
bool setpoint_rules(int32_t mode, const struct setpoints *p);

/* A tick with a request (or none) asked directly. */
void tick(const struct settings *s, struct state *st, int32_t count, bool contact,
          struct request r, struct outcome *o, struct outputs *out);

/* The line in a receive buffer: the *length bytes at its start (0 where there is none). */
enum line_kind find_line(const uint8_t *receive, size_t received, size_t *length);

/* A tick with a serial line; the answer's number.  Bytes of reply past *replied stay. */
int line_tick(const struct settings *s, struct state *st, int32_t count, bool contact,
              const uint8_t *receive, size_t received,
              uint8_t *reply, size_t room, size_t *replied, struct outputs *out);

/* Up to 4,096 ticks with one contact value and no requests: 0, or 15 with nothing changed. */
int run_block(const struct settings *s, struct state *st,
              const int32_t *counts, size_t n, bool contact);

#endif
