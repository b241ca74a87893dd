/* What the parts of the test share: checks, calls on guarded buffers, the page's tables as tests of an image, and images at random. */
#ifndef PRESSGULLY_TEST_H
#define PRESSGULLY_TEST_H

#include "fields.h"
#include "pressgully.h"

/* ---- Checks (test.c) ---- */

/* Counts a check, and says of one that fails what was to hold. */
#if defined __GNUC__
__attribute__((format(printf, 2, 3)))
#endif
void check(bool holds, const char *format, ...);

/* ---- Calls on guarded buffers (test_calls.c) ---- */

/* All that a call is lent, in one piece, so that one comparison tells what it changed. Every buffer has more room than it needs: the rest
 * is a guard behind it, and before the next. */
struct lent {
    uint32_t points[PRESSGULLY_POINTS + 1];
    uint8_t front[16];
    uint8_t settings[PRESSGULLY_SETTINGS + 32];
    uint8_t earlier[PRESSGULLY_STATE + 32]; /* room for what is no earlier image */
    uint8_t state[PRESSGULLY_STATE + 32];
    uint8_t answer[PRESSGULLY_ANSWER + 32];
    uint8_t reply[PRESSGULLY_REPLY + 32];
    uint8_t receive[128];
};

enum kind { OPEN, GROW, TICK, LINE, BLOCK, KINDS };

struct call {
    enum kind kind;
    size_t settings_len, earlier_len, state_len, answer_len, reply_len, receive_len, points_len, counts_len;
    int32_t count;
    bool contact;
    uint32_t request;
    const int32_t *counts;
};

/* Where the buffers of a call are. */
struct buffers {
    const uint8_t *settings, *earlier;
    uint8_t *state;
    const uint32_t *points;
    const uint8_t *receive;
    uint8_t *reply, *answer;
    const int32_t *counts;
};

/* The five calls, since a program may have them twice (beside.c). */
struct calls {
    uint32_t (*open)(const uint8_t *settings, size_t settings_len, uint8_t *state, size_t state_len);
    uint32_t (*grow)(const uint8_t *settings, size_t settings_len, const uint8_t *earlier, size_t earlier_len, uint8_t *state,
                     size_t state_len);
    uint32_t (*tick)(const uint8_t *settings, size_t settings_len, uint8_t *state, size_t state_len, int32_t count, bool contact,
                     uint32_t request, const uint32_t *points, size_t points_len, uint8_t *answer, size_t answer_len);
    uint32_t (*line)(const uint8_t *settings, size_t settings_len, uint8_t *state, size_t state_len, int32_t count, bool contact,
                     const uint8_t *receive, size_t receive_len, uint8_t *reply, size_t reply_len, uint8_t *answer, size_t answer_len);
    uint32_t (*block)(const uint8_t *settings, size_t settings_len, uint8_t *state, size_t state_len, const int32_t *counts,
                      size_t counts_len, bool contact);
};

extern const struct calls library; /* those of pressgully.h */

struct outcome {
    uint32_t told;
    bool kept;    /* no byte changed but those that such a call may write, and the answer's first is what was told */
    bool refused; /* no tick was run */
};

/* Fresh buffers with these images, the state's first 256 bytes as the earlier one too; what no image fills has a byte that is neither 0 nor
 * 255. */
void lend(struct lent *l, const uint8_t *settings, const uint8_t *state);

struct call open_call(void);
struct call grow_call(void);
struct call tick_call(int32_t count, bool contact, uint32_t request);
struct call line_call(struct lent *l, int32_t count, bool contact, const char *line); /* the line goes with CR LF to the receive buffer */
struct call block_call(const int32_t *counts, size_t n, bool contact);

/* The line that asks what the tick is asked by number; one that is asked nothing reads the weight. */
struct call as_line(struct lent *l, const struct call *c);

/* The call as it is, and what it answers. */
uint32_t made(const struct calls *by, const struct buffers *b, const struct call *c);
uint32_t made_on(const struct calls *by, struct lent *l, const struct call *c);

/* No tick was run. A line told 14 with room for its answer has had its tick. */
bool is_refused(const struct call *c, uint32_t told);

void clear(struct lent *l); /* fills answer and reply buffer anew */

/* The call on guarded buffers; answer and reply buffer are filled anew before it, so that nothing of an earlier one is taken for its own. */
struct outcome run(struct lent *l, const struct call *c);

/* ---- The page's tables (test_table.c) ---- */

extern const char *const state_names[STATE_FIELDS];

bool is_unused(unsigned place); /* of the state image */
bool setpoints_fit(int mode, const int64_t *points);
bool is_possible(const uint8_t *settings, const uint8_t *state);
bool settings_fit(const uint8_t *settings);

/* What images of the right lengths are told: 21, 10, or 0. */
uint32_t told_of(const uint8_t *settings, const uint8_t *state);

/* The present image of an earlier one, whether possible or not: its bytes, and 0. */
void put_grown(uint8_t *state, const uint8_t *earlier);

/* What holds after every tick: the table, and what the answer's outputs have to do with the state and with each other. NULL, or what does
 * not hold. */
const char *untrue(const uint8_t *settings, const uint8_t *state, const uint8_t *answer);

/* What a tick does with the setpoints: a write waits in every stage but 0, and what waits is in use after the tick that returns there; a
 * finish is judged by those before. `written` are those of an accepted write, else NULL. NULL, or what does not hold. */
const char *astray(const struct lent *before, const struct lent *after, const uint32_t *written);

/* What a call does with the zero: what a zero and a tare are told, where the zero moves and what is counted for it. With the contact closed
 * neither a zero nor tracking moves it; of a line and a block that alone is asked. NULL, or what does not hold. */
const char *displaced(const struct lent *before, const struct lent *after, const struct call *c);

/* ---- At random, from a seed (test_random.c) ---- */

void sow(uint64_t seed);
uint64_t draw(void);
int64_t draw_from(int64_t least, int64_t most); /* half of them at an end or beside it; `least` where there are none */
bool one_in(int n);

void draw_settings(uint8_t *settings);                   /* inside the outline's table, often at a range's end */
void draw_state(const uint8_t *settings, uint8_t *state); /* possible under these settings, often at a range's end */
void alter(uint8_t *settings, uint8_t *state);            /* a byte or a field, mostly of the state, mostly by little */
struct call draw_call(struct lent *l, const int32_t *counts, size_t counts_len); /* any tick, line or block under l's settings */

/* ---- A plant whose weight answers the gates (test_plant.c) ---- */

struct plant {
    int64_t count; /* what the cell tells */
    int64_t step;  /* a large flow of one tick */
    bool refill;   /* a tanker's valve is open */
};

void plant_settings(uint8_t *settings); /* that a plant can live with: calm soon, delays short, mostly */
void draw_setpoints(struct lent *l);    /* into l's points, for a write */
struct plant plant_of(const uint8_t *settings);
int32_t plant_count(struct plant *p, const struct lent *l); /* the next count, after l's answer */
bool plant_contact(const struct plant *p);
struct call plant_tick(struct plant *p, struct lent *l); /* the next tick, with what an operator may ask */

/* ---- Settings to start from (test_random.c) ---- */

void put_settings(uint8_t *settings, const int32_t *numbers); /* 25 of them */
extern const int32_t settings_a[SETTINGS];                    /* the outline's */
extern const int32_t settings_timed[SETTINGS];                /* the same with delays, all of them different */
extern const int32_t settings_large[SETTINGS];                /* every range at its upper end */

/* ---- The subjects, a file each ---- */

void test_fields(void);                /* every row of the state's table at its ends */
void test_grow(uint64_t images);       /* an earlier image and what becomes of it; so many of them at random */
void test_order(void);                 /* which refusal comes first; settings, lengths, buffers, requests */
void test_figures(void);               /* the outline's figures, read in the images and answers */
void test_runs(void);                  /* a line is its request, a block its ticks; every byte of images on the way altered */
void test_exact(void);                 /* buffers of just their lengths, for a tool that watches memory */
void test_images(uint64_t images);     /* so many images at random, and what stays true from them on */

#endif
