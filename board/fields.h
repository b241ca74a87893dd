/* The fields of the images and of an answer by name, as docs/IMAGES.md has their places, and how a number there is read and written.
 * For firmware that looks into an image, and for the programs of this folder; the calls themselves do without it. */
#ifndef PRESSGULLY_FIELDS_H
#define PRESSGULLY_FIELDS_H

#include <stdbool.h>
#include <stdint.h>

/* The settings image has its numbers one behind the other, four bytes each. */
enum setting {
    SETTING_ZERO_COUNT, SETTING_SPAN_COUNT, SETTING_CAPACITY, SETTING_SPAN_WEIGHT, SETTING_DIVISION, SETTING_ZERO_RANGE,
    SETTING_TRACKING_TIME, SETTING_TRACKING_WIDTH, SETTING_ALLOWANCE, SETTING_STABILITY_TIME, SETTING_STABILITY_WIDTH, SETTING_MODE,
    SETTING_START_DELAY, SETTING_LARGE_DISABLE, SETTING_MEDIUM_DISABLE, SETTING_SMALL_DISABLE, SETTING_JUDGE_DELAY, SETTING_FLOW_LIMIT,
    SETTING_ADDRESS, SETTING_BOARD, SETTING_LOW_END, SETTING_HIGH_END, SETTING_DISCHARGE_START, SETTING_DISCHARGE_END,
    SETTING_DISCHARGE_LIMIT, SETTINGS
};

enum state_field {
    STATE_OPENING, STATE_LAST, STATE_REFILLED, STATE_USED, STATE_UNBOOKED, STATE_TICKS, STATE_BEGUN, STATE_CONTACT, STATE_LAST_GOOD,
    STATE_RUN, STATE_ZERO, STATE_TRACKED, STATE_TARE, STATE_COUNTER, STATE_SHOWS_NET, STATE_FINAL, STATE_FREE_FALL, STATE_PRELIMINARY,
    STATE_OPTIONAL, STATE_OVER, STATE_UNDER, STATE_NEAR_ZERO, STATE_STAGE, STATE_LASTED, STATE_CLOCK, STATE_ERROR, STATE_JUDGEMENT,
    STATE_TOTAL, STATE_BATCHES, STATE_UNDO, STATE_UNDO_WEIGHT, STATE_WAITS, STATE_WAITING_FINAL, STATE_WAITING_FREE_FALL,
    STATE_WAITING_PRELIMINARY, STATE_WAITING_OPTIONAL, STATE_WAITING_OVER, STATE_WAITING_UNDER, STATE_WAITING_NEAR_ZERO, STATE_FIELDS
};

enum answer_field {
    ANSWER_TOLD, ANSWER_GOOD, ANSWER_OVERLOAD, ANSWER_STABLE, ANSWER_STAGE, ANSWER_LARGE, ANSWER_MEDIUM, ANSWER_SMALL, ANSWER_DISCHARGE,
    ANSWER_JUDGEMENT, ANSWER_ERROR, ANSWER_NEAR_ZERO, ANSWER_FULL, ANSWER_ANALOG_KIND, ANSWER_DAY_CLOSED, ANSWER_REPLIED, ANSWER_GROSS,
    ANSWER_NET, ANSWER_OPENING, ANSWER_CLOSING, ANSWER_REFILLED, ANSWER_USED, ANSWER_UNBOOKED, ANSWER_ANALOG, ANSWER_FIELDS
};

struct field {
    uint16_t place;
    uint8_t width;
    bool sign;
};

/* In the order of the names. */
static const struct field state_fields[STATE_FIELDS] = {
    {0, 4, true}, {4, 4, true}, {8, 8, true}, {16, 8, true}, {24, 8, true}, {32, 4, false}, {36, 1, false}, {37, 1, false},
    {40, 1, false}, {42, 2, false}, {44, 4, true}, {48, 4, true}, {52, 4, true}, {56, 2, false}, {58, 1, false}, {60, 4, false},
    {64, 4, false}, {68, 4, false}, {72, 4, false}, {76, 4, false}, {80, 4, false}, {84, 4, false}, {88, 1, false}, {90, 2, false},
    {92, 2, false}, {94, 1, false}, {95, 1, false}, {96, 8, false}, {104, 4, false}, {108, 1, false}, {112, 8, false},
    {256, 1, false}, {260, 4, false}, {264, 4, false}, {268, 4, false}, {272, 4, false}, {276, 4, false}, {280, 4, false}, {284, 4, false},
};

static const struct field answer_fields[ANSWER_FIELDS] = {
    {0, 1, false}, {1, 1, false}, {2, 1, false}, {3, 1, false}, {4, 1, false}, {5, 1, false}, {6, 1, false}, {7, 1, false},
    {8, 1, false}, {9, 1, false}, {10, 1, false}, {11, 1, false}, {12, 1, false}, {13, 1, false}, {14, 1, false}, {15, 1, false},
    {16, 4, true}, {20, 4, true}, {24, 4, true}, {28, 4, true}, {32, 8, true}, {40, 8, true}, {48, 8, true}, {56, 8, false},
};

static inline uint64_t bits_at(const uint8_t *image, struct field f)
{
    uint64_t bits = 0;
    unsigned i;

    for (i = 0; i < f.width; i++)
        bits = bits << 8 | image[f.place + i];
    return bits;
}

/* Eight bytes are taken as signed in either case: no number without a sign comes near 2^63, and one that does reads as below 0. */
static inline int64_t number_at(const uint8_t *image, struct field f)
{
    const uint64_t all = UINT64_MAX >> (64 - 8 * f.width);
    const uint64_t bits = bits_at(image, f);

    if ((f.sign || f.width == 8) && bits > all / 2)
        return -(int64_t)(all - bits) - 1;
    return (int64_t)bits;
}

static inline void put_number(uint8_t *image, struct field f, int64_t number)
{
    uint64_t bits = (uint64_t)number;
    unsigned i;

    for (i = f.width; i-- > 0; bits >>= 8)
        image[f.place + i] = (uint8_t)bits;
}

static inline struct field setting_field(enum setting s)
{
    struct field f = {0, 4, true};

    f.place = (uint16_t)(4 * s);
    return f;
}

static inline int64_t setting(const uint8_t *settings, enum setting s)
{
    return number_at(settings, setting_field(s));
}

static inline void put_setting(uint8_t *settings, enum setting s, int64_t number)
{
    put_number(settings, setting_field(s), number);
}

static inline int64_t state_number(const uint8_t *state, enum state_field f)
{
    return number_at(state, state_fields[f]);
}

static inline void put_state(uint8_t *state, enum state_field f, int64_t number)
{
    put_number(state, state_fields[f], number);
}

static inline int64_t answer_number(const uint8_t *answer, enum answer_field f)
{
    return number_at(answer, answer_fields[f]);
}

#endif
