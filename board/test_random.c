/* Settings, states and calls at random, from a seed, so that a run can be had again. Half of all numbers are at an end of their range or
 * beside it, since that is where a wrong program is wrong. */
#include "test.h"

#include <stdio.h>
#include <string.h>

/* Z S C W d p, q w L, k s, mode, start large medium small judge, Q, address, board low high, discharge start end limit */
const int32_t settings_a[SETTINGS] = {0, 100000, 10000, 10000, 1, 2, 100, 5, 20, 100, 2, 1, 0, 0, 0, 0, 0, 6000, 0, 0, 0, 10000, 0, 0, 6000};
const int32_t settings_timed[SETTINGS] = {0, 100000, 10000, 10000, 1, 2, 100, 5, 20, 100, 2, 1, 11, 12, 13, 14, 15, 6000, 0,
                                          1, 0, 10000, 16, 17, 300};
const int32_t settings_large[SETTINGS] = {-2000000, 2000000, 16000, 16000, 50, 30, 500, 45, 10000, 500, 9, 1, 9999, 9999, 9999, 9999,
                                          9999, 60000, 99, 2, -999999, 999999, 9999, 9999, 60000};

void put_settings(uint8_t *settings, const int32_t *numbers)
{
    int i;

    memset(settings, 0, PRESSGULLY_SETTINGS);
    for (i = 0; i < SETTINGS; i++)
        put_setting(settings, (enum setting)i, numbers[i]);
}

static uint64_t seedling = 1;

void sow(uint64_t seed)
{
    seedling = seed * 0x9e3779b97f4a7c15u + 1;
}

/* xorshift64* */
uint64_t draw(void)
{
    seedling ^= seedling >> 12;
    seedling ^= seedling << 25;
    seedling ^= seedling >> 27;
    return seedling * 0x2545f4914f6cdd1du;
}

bool one_in(int n)
{
    return (draw() >> 32) % (uint64_t)n == 0;
}

int64_t draw_from(int64_t least, int64_t most)
{
    if (most <= least)
        return least;
    switch (draw() >> 61) {
    case 0: return least;
    case 1: return most;
    case 2: return least + 1;
    case 3: return most - 1;
    default: return least + (int64_t)((draw() >> 8) % (uint64_t)(most - least + 1));
    }
}

static int64_t least_of(int64_t a, int64_t b)
{
    return a < b ? a : b;
}

static int64_t most_of(int64_t a, int64_t b)
{
    return a > b ? a : b;
}

/* ---- Settings ---- */

void draw_settings(uint8_t *settings)
{
    static const int32_t divisions[] = {1, 2, 5, 10, 20, 50};
    const int32_t C = (int32_t)draw_from(1, 16000), W = (int32_t)draw_from(1, C);
    const int32_t Z = (int32_t)draw_from(-2000000, 2000000 - 10 * W), low = (int32_t)draw_from(-999999, 999999);
    int32_t high = (int32_t)draw_from(-999999, 999999);
    const int delays = one_in(2) ? 9999 : 20; /* short ones, so that a few ticks lead on */
    int i;

    if (high == low)
        high = low > 0 ? low - 1 : low + 1;
    memset(settings, 0, PRESSGULLY_SETTINGS);
    put_setting(settings, SETTING_ZERO_COUNT, Z);
    put_setting(settings, SETTING_SPAN_COUNT, draw_from(Z + 10 * W, 2000000));
    put_setting(settings, SETTING_CAPACITY, C);
    put_setting(settings, SETTING_SPAN_WEIGHT, W);
    put_setting(settings, SETTING_DIVISION, divisions[draw() % 6]);
    put_setting(settings, SETTING_ZERO_RANGE, draw_from(1, 30));
    put_setting(settings, SETTING_TRACKING_TIME, one_in(2) ? draw_from(0, 500) : draw_from(0, 5));
    put_setting(settings, SETTING_TRACKING_WIDTH, draw_from(0, 45));
    put_setting(settings, SETTING_ALLOWANCE, draw_from(0, 10000));
    put_setting(settings, SETTING_STABILITY_TIME, one_in(2) ? draw_from(10, 500) : 10);
    put_setting(settings, SETTING_STABILITY_WIDTH, draw_from(0, 9));
    put_setting(settings, SETTING_MODE, one_in(3) ? 2 : 1);
    for (i = SETTING_START_DELAY; i <= SETTING_JUDGE_DELAY; i++)
        put_setting(settings, (enum setting)i, draw_from(0, delays));
    put_setting(settings, SETTING_FLOW_LIMIT, draw_from(1, 60000));
    put_setting(settings, SETTING_ADDRESS, one_in(2) ? 0 : draw_from(0, 99));
    put_setting(settings, SETTING_BOARD, draw_from(0, 2));
    put_setting(settings, SETTING_LOW_END, low);
    put_setting(settings, SETTING_HIGH_END, high);
    put_setting(settings, SETTING_DISCHARGE_START, draw_from(0, delays));
    put_setting(settings, SETTING_DISCHARGE_END, draw_from(0, delays));
    put_setting(settings, SETTING_DISCHARGE_LIMIT, draw_from(1, 60000));
}

/* ---- States ---- */

/* Day books that balance. With r refilled and at most 8,000,000 between opening and what was booked last, used is within r and those. The
 * stage is drawn already: with one that is not 0 there has been a good tick. */
static void draw_day(uint8_t *state)
{
    const int64_t ticks = one_in(4) ? 8640000 : draw_from(0, one_in(2) ? 8640000 : 5);
    int64_t opening, booked, refilled = 0, last;

    put_state(state, STATE_TICKS, ticks);
    if (state_number(state, STATE_STAGE) == 0 && one_in(4))
        return; /* no good tick yet */
    opening = draw_from(-4000000, 4000000);
    booked = ticks == 0 ? opening : draw_from(-4000000, 4000000);
    if (ticks > 1)
        refilled = draw_from(-4000000 * (ticks - 1), 4000000 * (ticks - 1));
    last = ticks < 8640000 || one_in(3) ? booked : draw_from(-4000000, 4000000);
    put_state(state, STATE_BEGUN, 1);
    put_state(state, STATE_CONTACT, draw_from(0, 1));
    put_state(state, STATE_OPENING, opening);
    put_state(state, STATE_REFILLED, refilled);
    put_state(state, STATE_USED, opening + refilled - booked);
    put_state(state, STATE_UNBOOKED, booked - last);
    put_state(state, STATE_LAST, last);
}

/* Under the stage and the day that are drawn. */
static void draw_weighing(const uint8_t *settings, uint8_t *state)
{
    const int64_t C = setting(settings, SETTING_CAPACITY), q = setting(settings, SETTING_TRACKING_TIME);
    const int64_t zeroed = C * setting(settings, SETTING_ZERO_RANGE) / 10, zero = draw_from(-zeroed, zeroed);
    const bool tracks = q != 0 && setting(settings, SETTING_TRACKING_WIDTH) != 0, resting = state_number(state, STATE_STAGE) == 0;
    const int64_t L = tracks ? setting(settings, SETTING_ALLOWANCE) : 0;
    const bool good = state_number(state, STATE_BEGUN) == 1 && (!resting || !one_in(4));

    put_state(state, STATE_LAST_GOOD, good);
    if (good)
        put_state(state, STATE_RUN, draw_from(0, setting(settings, SETTING_STABILITY_TIME)));
    if (good && resting && tracks)
        put_state(state, STATE_COUNTER, draw_from(0, q - 1));
    put_state(state, STATE_ZERO, zero);
    put_state(state, STATE_TRACKED, draw_from(most_of(-L, zero - zeroed), least_of(L, zero + zeroed)));
    put_state(state, STATE_TARE, one_in(2) ? 0 : draw_from(0, C * setting(settings, SETTING_DIVISION)));
    put_state(state, STATE_SHOWS_NET, draw_from(0, 1));
}

static void draw_points(int mode, int64_t *points)
{
    const int64_t F = draw_from(0, one_in(2) ? 999999 : 1000), FF = draw_from(0, F);
    int i;

    points[0] = F;
    points[1] = FF;
    points[2] = FF == F || one_in(3) ? 0 : draw_from(FF + 1, F);
    points[3] = mode == 2 ? draw_from(0, 999999) : most_of(points[2], FF) == F || one_in(3) ? 0 : draw_from(most_of(points[2], FF) + 1, F);
    for (i = 4; i < PRESSGULLY_POINTS; i++)
        points[i] = draw_from(0, 999999);
}

/* A stage that the mode and the setpoints in force have. */
static uint8_t draw_stage(bool normal, const uint8_t *state)
{
    const bool large = normal && state_number(state, STATE_OPTIONAL) != 0, medium = state_number(state, STATE_PRELIMINARY) != 0;
    uint8_t stages[13];
    unsigned n = 0, stage;

    for (stage = 3; stage <= 16; stage++) {
        const bool has = stage == 3 || (stage < 12 && state_number(state, STATE_FINAL) != 0) || (stage > 13 && normal);

        if (has && (large || (stage != 4 && stage != 5)) && (medium || (stage != 6 && stage != 7)))
            stages[n++] = (uint8_t)stage;
    }
    return one_in(3) ? 0 : stages[draw() % n];
}

static void draw_sequence(const uint8_t *settings, uint8_t *state)
{
    static const uint8_t errors[] = {0, 0, 1, 2, 4, 6, 9, 10, 7, 8}; /* the last two in mode 1 alone */
    const bool normal = setting(settings, SETTING_MODE) == 1;
    const uint8_t stage = draw_stage(normal, state);
    const bool flow = stage >= 4 && stage <= 11, discharge = stage >= 15;
    static const int8_t delays[17] = {
        -1, -1, -1, SETTING_START_DELAY, SETTING_LARGE_DISABLE, -1, SETTING_MEDIUM_DISABLE, -1, SETTING_SMALL_DISABLE, -1,
        SETTING_JUDGE_DELAY, -1, -1, -1, SETTING_DISCHARGE_START, -1, SETTING_DISCHARGE_END,
    };

    put_state(state, STATE_STAGE, stage);
    if (delays[stage] >= 0)
        put_state(state, STATE_LASTED, draw_from(0, most_of(setting(settings, (enum setting)delays[stage]) - 1, 0)));
    if (flow || discharge)
        put_state(state, STATE_CLOCK, draw_from(0, setting(settings, flow ? SETTING_FLOW_LIMIT : SETTING_DISCHARGE_LIMIT)));
    if (stage == 0)
        put_state(state, STATE_ERROR, errors[draw() % (normal ? 10 : 8)]);
    if (stage == 0 || stage >= 14)
        put_state(state, STATE_JUDGEMENT, draw_from(0, 3));
}

static void draw_totals(uint8_t *state)
{
    const int64_t total = draw_from(0, 99999999);

    put_state(state, STATE_TOTAL, total);
    put_state(state, STATE_BATCHES, draw_from(0, 99999999));
    if (state_number(state, STATE_BATCHES) > 0 && one_in(2)) {
        put_state(state, STATE_UNDO, 1);
        put_state(state, STATE_UNDO_WEIGHT, draw_from(0, total));
    }
}

static void draw_waiting(const uint8_t *settings, uint8_t *state)
{
    int64_t points[PRESSGULLY_POINTS];
    int i;

    draw_points(setting(settings, SETTING_MODE) == 1 ? 1 : 2, points);
    put_state(state, STATE_WAITS, 1);
    for (i = 0; i < PRESSGULLY_POINTS; i++)
        put_state(state, (enum state_field)(STATE_WAITING_FINAL + i), points[i]);
}

void draw_state(const uint8_t *settings, uint8_t *state)
{
    int64_t points[PRESSGULLY_POINTS];
    int i;

    memset(state, 0, PRESSGULLY_STATE);
    draw_points(setting(settings, SETTING_MODE) == 1 ? 1 : 2, points);
    for (i = 0; i < PRESSGULLY_POINTS; i++)
        put_state(state, (enum state_field)(STATE_FINAL + i), points[i]);
    draw_sequence(settings, state);
    if (state_number(state, STATE_STAGE) != 0 && one_in(2))
        draw_waiting(settings, state);
    draw_day(state);
    draw_weighing(settings, state);
    draw_totals(state);
}

/* ---- Alterations ---- */

static void alter_field(uint8_t *state)
{
    const enum state_field f = (enum state_field)(draw() % STATE_FIELDS);
    const int64_t number = state_number(state, f);
    const unsigned shift = draw() % 64;

    switch (draw() % 4) {
    case 0: put_state(state, f, number + 1); break;
    case 1: put_state(state, f, number - 1); break;
    case 2: put_state(state, f, draw_from(0, 20)); break;
    default: put_state(state, f, (int64_t)(draw() >> shift)); break;
    }
}

/* A sum moved between two fields of the day: what balances still balances. */
static void shift_day(uint8_t *state)
{
    static const enum state_field parts[] = {STATE_OPENING, STATE_REFILLED, STATE_USED, STATE_UNBOOKED, STATE_LAST};
    static const int signs[] = {1, 1, -1, -1, -1};
    const unsigned i = draw() % 5, j = draw() % 5;
    const int64_t moved = draw_from(-8000000, 8000000);

    put_state(state, parts[i], (int64_t)((uint64_t)state_number(state, parts[i]) + (uint64_t)(signs[i] * moved)));
    put_state(state, parts[j], (int64_t)((uint64_t)state_number(state, parts[j]) - (uint64_t)(signs[j] * moved)));
}

/* What the stage and the last tick hang together with, without the others: alterations by chance seldom break one of those rows alone. */
static void alter_tied(uint8_t *state)
{
    int i;

    switch (draw() % 6) {
    case 0: put_state(state, STATE_STAGE, (int64_t)(draw() % 17)); break;
    case 1: put_state(state, one_in(2) ? STATE_PRELIMINARY : STATE_OPTIONAL, 0); break;
    case 2: put_state(state, one_in(2) ? STATE_LAST_GOOD : STATE_BEGUN, draw_from(0, 1)); break;
    case 3: put_state(state, STATE_WAITS, draw_from(0, 2)); break;
    case 4: memset(state + state_fields[STATE_WAITING_FINAL].place, 0, 4 * PRESSGULLY_POINTS); break; /* a set that may well wait */
    default:
        for (i = STATE_FINAL; i <= STATE_OPTIONAL; i++)
            put_state(state, (enum state_field)i, 0);
        break;
    }
}

void alter(uint8_t *settings, uint8_t *state)
{
    const enum setting s = (enum setting)(draw() % SETTINGS);
    unsigned i;

    switch (draw() % 16) {
    case 0: case 1: case 2: case 3: case 4: alter_field(state); break;
    case 5: case 6: shift_day(state); break;
    case 7: state[draw() % PRESSGULLY_STATE] = (uint8_t)draw(); break;
    case 8: state[one_in(4) ? 256 + draw() % 32 : draw() % 120] ^= (uint8_t)(1u << draw() % 8); break;
    case 9: put_setting(settings, s, setting(settings, s) + draw_from(-1, 1)); break;
    case 10: put_setting(settings, s, (int32_t)draw()); break;
    case 11: put_setting(settings, s, one_in(2) ? 0 : -setting(settings, s)); break; /* judged without its sign, then 10 */
    case 12: settings[draw() % PRESSGULLY_SETTINGS] ^= (uint8_t)(1u << draw() % 8); break;
    case 13: /* bytes of nothing */
        for (i = 0; i < PRESSGULLY_STATE; i++)
            state[i] = (uint8_t)draw();
        break;
    case 14: alter_tied(state); break;
    default: /* two fields in one go */
        alter_field(state);
        alter_field(state);
        break;
    }
}

/* ---- Calls ---- */

static int32_t draw_count(const uint8_t *settings)
{
    const int64_t Z = setting(settings, SETTING_ZERO_COUNT), S = setting(settings, SETTING_SPAN_COUNT);

    switch (draw() % 8) {
    case 0: return (int32_t)draw_from(-2000001, 2000001);
    case 1: return one_in(4) ? (int32_t)draw() : (int32_t)Z;
    case 2: return (int32_t)S;
    default: return (int32_t)draw_from(Z, S);
    }
}

static struct call draw_line(struct lent *l, int32_t count, bool contact)
{
    static const char *const commands[] = {
        "RW", "RT", "RS", "MZ", "MT", "CT", "MG", "MN", "BB", "BB", "HB", "DT", "CA", "DC", "BD", "BD", "SS", "SS", "RWX", "rw", "R", "",
        "SS00100000002000010000030000000000000000001", /* one byte short */
        "0123456789012345678901234567890123456789012345678901234567890123", "01234567890123456789012345678901234567890123456789012345678901234",
    };
    const int64_t address = setting(l->settings, SETTING_ADDRESS);
    const char *command = commands[draw() % (sizeof commands / sizeof commands[0])];
    char line[80];
    int at = 0, i;
    struct call c;

    if (address != 0 && !one_in(16))
        at += sprintf(line, "@%02d", (int)address);
    at += sprintf(line + at, "%s", command);
    if (strcmp(command, "SS") == 0) {
        int64_t points[PRESSGULLY_POINTS];

        draw_points(setting(l->settings, SETTING_MODE) == 1 ? 1 : 2, points);
        for (i = 0; i < PRESSGULLY_POINTS; i++)
            at += sprintf(line + at, "%06d", (int)points[i]);
    }
    c = line_call(l, count, contact, line);
    if (one_in(8))
        c.receive_len = draw() % c.receive_len; /* cut short: no line */
    if (one_in(8))
        c.reply_len = draw() % 24;
    return c;
}

struct call draw_call(struct lent *l, const int32_t *counts, size_t counts_len)
{
    const int32_t count = draw_count(l->settings);
    const bool contact = one_in(3);
    int i;
    struct call c;

    switch (draw() % 8) {
    case 0: case 1: case 2:
        return draw_line(l, count, contact);
    case 3:
        return block_call(counts, draw() % (counts_len + 1), contact);
    default:
        c = tick_call(count, contact, one_in(2) ? PRESSGULLY_NOTHING : (uint32_t)(draw() % 14));
        if (c.request == PRESSGULLY_SET) {
            int64_t points[PRESSGULLY_POINTS];

            draw_points(setting(l->settings, SETTING_MODE) == 1 ? 1 : 2, points);
            for (i = 0; i < PRESSGULLY_POINTS; i++)
                l->points[i] = one_in(32) ? (uint32_t)draw() : (uint32_t)points[i];
        }
        if (one_in(32))
            c.points_len = draw() % (PRESSGULLY_POINTS + 2);
        return c;
    }
}
