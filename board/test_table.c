/* docs/IMAGES.md once more, as tests of an image: each row of its tables a line or two. The calls are held to these; the rows' ends are
 * tried besides with plain numbers in test_fields.c. */
#include "test.h"

#include <string.h>

const char *const state_names[STATE_FIELDS] = {
    "opening", "last", "refilled", "used", "unbooked", "ticks", "begun", "contact", "last tick good", "run", "zero", "tracked", "tare",
    "tracking counter", "displayed weight", "F", "FF", "P", "OP", "over", "under", "near zero", "stage", "ticks lasted", "clock", "error",
    "judgement", "total", "batches", "undo", "undo's weight", "setpoints wait", "waiting F", "waiting FF", "waiting P", "waiting OP",
    "waiting over", "waiting under", "waiting near zero",
};

static const int64_t RAW_LIMIT = 4000000, CHANGE_LIMIT = 8000000, DAY = 8640000, TOTAL_LIMIT = 99999999;

static bool within(int64_t number, int64_t least, int64_t most)
{
    return least <= number && number <= most;
}

static int64_t without_sign(int64_t number)
{
    return number < 0 ? -number : number;
}

/* A setting whose range has no sign. */
static int64_t given(const uint8_t *settings, enum setting s)
{
    return without_sign(setting(settings, s));
}

static int mode_of(const uint8_t *settings)
{
    return setting(settings, SETTING_MODE) == 1 ? 1 : 2;
}

bool is_unused(unsigned place)
{
    int f;

    for (f = 0; f < STATE_FIELDS; f++)
        if (within(place, state_fields[f].place, state_fields[f].place + state_fields[f].width - 1))
            return false;
    return true;
}

static bool unused_are_0(const uint8_t *state)
{
    static const uint16_t places[] = {38, 39, 41, 59, 89, 109, 110, 111, 257, 258, 259};
    unsigned i;

    for (i = 0; i < sizeof places / sizeof places[0]; i++)
        if (state[places[i]] != 0)
            return false;
    for (i = 120; i < 256; i++)
        if (state[i] != 0)
            return false;
    return true;
}

static bool day_fits(const uint8_t *state)
{
    const int64_t opening = state_number(state, STATE_OPENING), last = state_number(state, STATE_LAST);
    const int64_t refilled = state_number(state, STATE_REFILLED), used = state_number(state, STATE_USED);
    const int64_t unbooked = state_number(state, STATE_UNBOOKED), ticks = state_number(state, STATE_TICKS);
    const int64_t booked = CHANGE_LIMIT * ticks;
    static const uint8_t none[32];

    if (!within(opening, -RAW_LIMIT, RAW_LIMIT) || !within(last, -RAW_LIMIT, RAW_LIMIT) || !within(ticks, 0, DAY))
        return false;
    if (state[36] > 1 || state[37] > 1 || (state[36] == 0 && (memcmp(state, none, sizeof none) != 0 || state[37] != 0)))
        return false;
    if (!within(refilled, -booked, booked) || !within(used, -booked, booked) || without_sign(refilled) + without_sign(used) > booked)
        return false;
    /* unbooked lies between the bounds of its sum and of last, so the sums below hold no surprise */
    if (!within(unbooked, -2 * RAW_LIMIT, 2 * RAW_LIMIT) || !within(unbooked + last, -RAW_LIMIT, RAW_LIMIT))
        return false;
    if (ticks < DAY && unbooked != 0)
        return false;
    return opening + refilled - used - unbooked == last;
}

static bool weighing_fits(const uint8_t *settings, const uint8_t *state)
{
    const int64_t zero = state_number(state, STATE_ZERO), tracked = state_number(state, STATE_TRACKED);
    const int64_t range = given(settings, SETTING_CAPACITY) * given(settings, SETTING_ZERO_RANGE);
    const int64_t good = state_number(state, STATE_LAST_GOOD);
    const int64_t q = given(settings, SETTING_TRACKING_TIME), counter = state_number(state, STATE_COUNTER);
    const bool tracks = q != 0 && given(settings, SETTING_TRACKING_WIDTH) != 0, resting = state_number(state, STATE_STAGE) == 0;

    if (good > 1 || (good == 1 && state_number(state, STATE_BEGUN) == 0) || (good == 0 && !resting))
        return false;
    return state_number(state, STATE_RUN) <= (good == 1 ? given(settings, SETTING_STABILITY_TIME) : 0)
        && 10 * without_sign(zero) <= range && 10 * without_sign(zero - tracked) <= range
        && without_sign(tracked) <= (tracks ? given(settings, SETTING_ALLOWANCE) : 0)
        && within(state_number(state, STATE_TARE), 0, given(settings, SETTING_CAPACITY) * given(settings, SETTING_DIVISION))
        && counter <= (tracks && resting && good == 1 ? q - 1 : 0) && state_number(state, STATE_SHOWS_NET) <= 1;
}

/* The outline's rules, those of refusal 6. */
bool setpoints_fit(int mode, const int64_t *points)
{
    const int64_t F = points[0], FF = points[1], P = points[2], OP = points[3];
    int i;

    for (i = 0; i < PRESSGULLY_POINTS; i++)
        if (!within(points[i], 0, 999999))
            return false;
    return FF <= F && (P == 0 || (P > FF && P <= F)) && (mode == 2 || OP == 0 || (OP > FF && OP > P && OP <= F));
}

/* The seven numbers from this field on. */
static void points_at(const uint8_t *state, enum state_field first, int64_t *points)
{
    int i;

    for (i = 0; i < PRESSGULLY_POINTS; i++)
        points[i] = state_number(state, (enum state_field)(first + i));
}

static bool points_fit(const uint8_t *settings, const uint8_t *state)
{
    int64_t points[PRESSGULLY_POINTS];

    points_at(state, STATE_FINAL, points);
    return setpoints_fit(mode_of(settings), points);
}

static const int64_t no_points[PRESSGULLY_POINTS];

static bool waiting_fits(const uint8_t *settings, const uint8_t *state)
{
    const int64_t waits = state_number(state, STATE_WAITS);
    int64_t points[PRESSGULLY_POINTS];

    points_at(state, STATE_WAITING_FINAL, points);
    if (waits == 0)
        return memcmp(points, no_points, sizeof points) == 0;
    return waits == 1 && state_number(state, STATE_STAGE) != 0 && setpoints_fit(mode_of(settings), points);
}

/* The setting of a timed stage; 0 for the others. */
static int64_t delay_of(const uint8_t *settings, int64_t stage)
{
    switch (stage) {
    case 3: return given(settings, SETTING_START_DELAY);
    case 4: return given(settings, SETTING_LARGE_DISABLE);
    case 6: return given(settings, SETTING_MEDIUM_DISABLE);
    case 8: return given(settings, SETTING_SMALL_DISABLE);
    case 10: return given(settings, SETTING_JUDGE_DELAY);
    case 14: return given(settings, SETTING_DISCHARGE_START);
    case 16: return given(settings, SETTING_DISCHARGE_END);
    default: return 0;
    }
}

static int64_t clock_limit(const uint8_t *settings, int64_t stage)
{
    if (within(stage, 4, 11))
        return given(settings, SETTING_FLOW_LIMIT);
    return stage == 15 || stage == 16 ? given(settings, SETTING_DISCHARGE_LIMIT) : 0;
}

/* A flow stage is one that the setpoints in use lead to; no write alters those before stage 0. */
static bool flow_fits(const uint8_t *settings, const uint8_t *state)
{
    const int64_t stage = state_number(state, STATE_STAGE);

    if (within(stage, 4, 11) && state_number(state, STATE_FINAL) == 0)
        return false;
    if (within(stage, 4, 5) && (mode_of(settings) != 1 || state_number(state, STATE_OPTIONAL) == 0))
        return false;
    return !within(stage, 6, 7) || state_number(state, STATE_PRELIMINARY) != 0;
}

static bool sequence_fits(const uint8_t *settings, const uint8_t *state)
{
    const int64_t stage = state_number(state, STATE_STAGE), error = state_number(state, STATE_ERROR);
    const int64_t delay = delay_of(settings, stage);
    const bool normal = mode_of(settings) == 1;

    if (!(stage == 0 || within(stage, 3, 11) || (normal && within(stage, 14, 16))) || !flow_fits(settings, state))
        return false;
    if (state_number(state, STATE_LASTED) > (delay == 0 ? 0 : delay - 1) || state_number(state, STATE_CLOCK) > clock_limit(settings, stage))
        return false;
    if (error == 3 || error == 5 || error > 10 || (error != 0 && stage != 0) || ((error == 7 || error == 8) && !normal))
        return false;
    return state_number(state, STATE_JUDGEMENT) <= (within(stage, 3, 11) ? 0 : 3);
}

static bool totals_fit(const uint8_t *state)
{
    const int64_t total = state_number(state, STATE_TOTAL), batches = state_number(state, STATE_BATCHES);
    const int64_t undo = state_number(state, STATE_UNDO), weight = state_number(state, STATE_UNDO_WEIGHT);

    return within(total, 0, TOTAL_LIMIT) && within(batches, 0, TOTAL_LIMIT) && undo <= 1 && batches >= undo
        && within(weight, 0, undo == 1 ? total : 0);
}

bool is_possible(const uint8_t *settings, const uint8_t *state)
{
    return unused_are_0(state) && day_fits(state) && weighing_fits(settings, state) && points_fit(settings, state)
        && waiting_fits(settings, state) && sequence_fits(settings, state) && totals_fit(state);
}

/* The outline's table, in its order. */
bool settings_fit(const uint8_t *settings)
{
    static const struct {
        enum setting s;
        int32_t least, most;
    } rows[] = {
        {SETTING_ZERO_COUNT, -2000000, 2000000}, {SETTING_SPAN_COUNT, -2000000, 2000000}, {SETTING_CAPACITY, 1, 16000},
        {SETTING_SPAN_WEIGHT, 1, 16000}, {SETTING_ZERO_RANGE, 1, 30}, {SETTING_TRACKING_TIME, 0, 500}, {SETTING_TRACKING_WIDTH, 0, 45},
        {SETTING_ALLOWANCE, 0, 10000}, {SETTING_STABILITY_TIME, 10, 500}, {SETTING_STABILITY_WIDTH, 0, 9}, {SETTING_MODE, 1, 2},
        {SETTING_START_DELAY, 0, 9999}, {SETTING_LARGE_DISABLE, 0, 9999}, {SETTING_MEDIUM_DISABLE, 0, 9999},
        {SETTING_SMALL_DISABLE, 0, 9999}, {SETTING_JUDGE_DELAY, 0, 9999}, {SETTING_FLOW_LIMIT, 1, 60000}, {SETTING_ADDRESS, 0, 99},
        {SETTING_BOARD, 0, 2}, {SETTING_LOW_END, -999999, 999999}, {SETTING_HIGH_END, -999999, 999999},
        {SETTING_DISCHARGE_START, 0, 9999}, {SETTING_DISCHARGE_END, 0, 9999}, {SETTING_DISCHARGE_LIMIT, 1, 60000},
    };
    const int64_t d = setting(settings, SETTING_DIVISION), W = setting(settings, SETTING_SPAN_WEIGHT);
    unsigned i;

    for (i = 0; i < sizeof rows / sizeof rows[0]; i++)
        if (!within(setting(settings, rows[i].s), rows[i].least, rows[i].most))
            return false;
    return (d == 1 || d == 2 || d == 5 || d == 10 || d == 20 || d == 50) && W <= setting(settings, SETTING_CAPACITY)
        && setting(settings, SETTING_SPAN_COUNT) - setting(settings, SETTING_ZERO_COUNT) >= 10 * W
        && setting(settings, SETTING_LOW_END) != setting(settings, SETTING_HIGH_END);
}

uint32_t told_of(const uint8_t *settings, const uint8_t *state)
{
    unsigned i;

    for (i = 4 * SETTINGS; i < PRESSGULLY_SETTINGS; i++)
        if (settings[i] != 0)
            return 21;
    if (!is_possible(settings, state))
        return 21;
    return settings_fit(settings) ? 0 : 10;
}

void put_grown(uint8_t *state, const uint8_t *earlier)
{
    memset(state, 0, PRESSGULLY_STATE);
    memcpy(state, earlier, PRESSGULLY_STATE_A3);
}

/* "Open gates: 04-05 all three, 06-07 medium and small, 08-09 small; with P = 0 the medium gate never opens"; discharge in 15 and 16. */
static bool gates_fit(const uint8_t *state, const uint8_t *answer)
{
    const int64_t stage = state_number(state, STATE_STAGE);

    return answer_number(answer, ANSWER_LARGE) == within(stage, 4, 5)
        && answer_number(answer, ANSWER_MEDIUM) == (within(stage, 4, 7) && state_number(state, STATE_PRELIMINARY) != 0)
        && answer_number(answer, ANSWER_SMALL) == within(stage, 4, 9) && answer_number(answer, ANSWER_DISCHARGE) == within(stage, 15, 16);
}

/* "Near-zero output: gross at most near zero. Full output: mode 2 and gross above full", by the setpoints in use after the tick. */
static bool outputs_fit(const uint8_t *settings, const uint8_t *state, const uint8_t *answer)
{
    const int64_t gross = answer_number(answer, ANSWER_GROSS);

    return answer[11] == (gross <= state_number(state, STATE_NEAR_ZERO))
        && answer[12] == (mode_of(settings) == 2 && gross > state_number(state, STATE_OPTIONAL));
}

const char *untrue(const uint8_t *settings, const uint8_t *state, const uint8_t *answer)
{
    const bool feed = answer[5] != 0 || answer[6] != 0 || answer[7] != 0, discharge = answer[8] != 0;
    const bool fit = answer[1] == 1 && answer[2] == 0;
    unsigned i;

    if (!unused_are_0(state))
        return "an unused byte is not 0";
    if (!day_fits(state))
        return "the day does not balance, or is out of its range";
    if (without_sign(state_number(state, STATE_TRACKED)) > setting(settings, SETTING_ALLOWANCE))
        return "tracked passes the allowance";
    if (!is_possible(settings, state))
        return "a field is out of its range";
    if (state[37] == 1 && state_number(state, STATE_COUNTER) != 0)
        return "the tracking counter is not 0 after a tick with the contact closed";
    if (answer[10] != 0 && (feed || discharge))
        return "a gate is open on an error";
    if (feed && discharge)
        return "feed and discharge are open together";
    if (answer[4] != state[88] || answer[9] != state[95] || answer[10] != state[94])
        return "stage, judgement or error of the answer is not the state's";
    if (!gates_fit(state, answer))
        return "the gates are not the stage's";
    if (answer[1] > 1 || answer[2] > 1 || answer[3] > 1 || answer[11] > 1 || answer[12] > 1 || answer[14] > 1)
        return "a yes or no of the answer is neither";
    if (answer[13] != (fit ? setting(settings, SETTING_BOARD) : 0) || (answer[13] == 0 && answer_number(answer, ANSWER_ANALOG) != 0))
        return "the analog value is not of the board's kind";
    if (!fit && (answer[11] != 0 || answer[12] != 0))
        return "near zero or full in a bad or overloaded tick";
    if (fit && !outputs_fit(settings, state, answer))
        return "near zero or full is not by the setpoints in use";
    if (answer[1] == 0 && (answer_number(answer, ANSWER_GROSS) != 0 || answer_number(answer, ANSWER_NET) != 0 || answer[2] != 0))
        return "a weight in a bad tick";
    if (answer[14] == 0)
        for (i = 24; i < 56; i++)
            if (answer[i] != 0)
                return "figures of a closed day where none was closed";
    if (answer[14] == 1
        && answer_number(answer, ANSWER_OPENING) + answer_number(answer, ANSWER_REFILLED) - answer_number(answer, ANSWER_USED)
                   - answer_number(answer, ANSWER_UNBOOKED) != answer_number(answer, ANSWER_CLOSING))
        return "the closed day does not balance";
    return NULL;
}

/* Tenths to divisions, "rounded to nearest, halves away from zero". */
static int64_t divisions(int64_t tenths)
{
    const int64_t rounded = (without_sign(tenths) + 5) / 10;

    return tenths < 0 ? -rounded : rounded;
}

/* What a tick weighs under the zero before it. A good tick's raw is the last one after it. */
struct weighed {
    int64_t raw, fine;
    bool good, overload, in_range;
};

static struct weighed weighed_of(const struct lent *before, const struct lent *after)
{
    const uint8_t *settings = before->settings;
    struct weighed w;

    w.raw = state_number(after->state, STATE_LAST);
    w.fine = w.raw - state_number(before->state, STATE_ZERO);
    w.good = after->answer[1] == 1;
    w.overload = w.good && without_sign(divisions(w.fine)) > setting(settings, SETTING_CAPACITY) + 8;
    w.in_range = 10 * without_sign(w.raw) <= setting(settings, SETTING_CAPACITY) * setting(settings, SETTING_ZERO_RANGE);
    return w;
}

/* What a zero or a tare is told: the first of 1, 2, 3, then 8, which is a zero's alone, 4 and 5. */
static uint32_t weighing_told(const struct lent *before, const struct lent *after, const struct call *c)
{
    const struct weighed w = weighed_of(before, after);
    const bool zero = c->request == PRESSGULLY_ZERO;

    if (!w.good)
        return 1;
    if (w.overload)
        return 2;
    if (before->state[88] != 0)
        return 3;
    if (zero && c->contact)
        return 8;
    if (after->answer[3] == 0)
        return 4;
    return (zero ? w.in_range : within(divisions(w.fine), 0, setting(before->settings, SETTING_CAPACITY))) ? 0 : 5;
}

/* Step 5 after a tick's request: counter, zero and tracked sum that are due. */
static bool tracking_fits(const struct lent *before, const struct lent *after, const struct call *c)
{
    const struct weighed w = weighed_of(before, after);
    const int64_t q = setting(before->settings, SETTING_TRACKING_TIME), width = setting(before->settings, SETTING_TRACKING_WIDTH);
    const bool done = after->answer[0] == 0, zeroed = c->request == PRESSGULLY_ZERO && done;
    const bool begins = (c->request == PRESSGULLY_START || c->request == PRESSGULLY_DISCHARGE) && done;
    const bool resting = !begins && (before->state[88] == 0 || c->request == PRESSGULLY_STOP); /* as step 4 leaves the stage */
    const bool counts = w.good && !w.overload && resting && !zeroed && !c->contact;
    int64_t counter = state_number(before->state, STATE_COUNTER), zero = state_number(before->state, STATE_ZERO);
    int64_t tracked = state_number(before->state, STATE_TRACKED);

    if (zeroed) {
        zero = w.raw;
        tracked = 0;
    }
    counter = q != 0 && width != 0 && counts && without_sign(w.fine) <= width ? counter + 1 : 0;
    if (counter != 0 && counter == q) {
        counter = 0;
        if (w.in_range && without_sign(tracked + w.fine) <= setting(before->settings, SETTING_ALLOWANCE)) {
            zero = w.raw;
            tracked += w.fine;
        }
    }
    return state_number(after->state, STATE_COUNTER) == counter && state_number(after->state, STATE_ZERO) == zero
        && state_number(after->state, STATE_TRACKED) == tracked;
}

const char *displaced(const struct lent *before, const struct lent *after, const struct call *c)
{
    const bool ticked = c->kind == TICK || c->kind == LINE || (c->kind == BLOCK && c->counts_len > 0);

    if (ticked && c->contact
        && (memcmp(before->state + 44, after->state + 44, 8) != 0 || state_number(after->state, STATE_COUNTER) != 0))
        return "zero, tracked sum or counter after a tick with the contact closed";
    if (c->kind != TICK)
        return NULL;
    if ((c->request == PRESSGULLY_ZERO || c->request == PRESSGULLY_TARE) && after->answer[0] != weighing_told(before, after, c))
        return "a zero or a tare is not told what is due";
    if (!tracking_fits(before, after, c))
        return "zero, tracked sum or counter are not those due";
    return NULL;
}

static bool are_points(const uint8_t *state, enum state_field first, const int64_t *due)
{
    int64_t points[PRESSGULLY_POINTS];

    points_at(state, first, points);
    return memcmp(points, due, sizeof points) == 0;
}

/* A finish: "over if v > F + over, under if v < F - under, else OK". */
static bool judgement_fits(const struct lent *before, const struct lent *after)
{
    const uint8_t *state = before->state;
    const int64_t net = answer_number(after->answer, ANSWER_NET), v = mode_of(before->settings) == 1 ? net : -net;
    const int64_t F = state_number(state, STATE_FINAL), over = state_number(state, STATE_OVER), under = state_number(state, STATE_UNDER);

    return after->state[95] == (v > F + over ? 2 : v < F - under ? 3 : 1);
}

const char *astray(const struct lent *before, const struct lent *after, const uint32_t *written)
{
    const bool resting = before->state[88] == 0, returned = after->state[88] == 0;
    bool waits = before->state[256] == 1;
    int64_t in_use[PRESSGULLY_POINTS], waiting[PRESSGULLY_POINTS];
    int i;

    points_at(before->state, STATE_FINAL, in_use);
    points_at(before->state, STATE_WAITING_FINAL, waiting);
    for (i = 0; written != NULL && i < PRESSGULLY_POINTS; i++)
        (resting ? in_use : waiting)[i] = written[i];
    waits = waits || (written != NULL && !resting);
    if (waits && returned)
        memcpy(in_use, waiting, sizeof in_use);
    waits = waits && !returned;
    if (!are_points(after->state, STATE_FINAL, in_use))
        return "the setpoints in use are not those due";
    if (after->state[256] != waits || !are_points(after->state, STATE_WAITING_FINAL, waits ? waiting : no_points))
        return "the waiting setpoints are not those due";
    if (before->state[88] == 11 && returned && (after->state[94] == 0 || after->state[94] == 10) && !judgement_fits(before, after))
        return "the judgement is not by the setpoints of the batch";
    return NULL;
}
