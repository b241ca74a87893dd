/* The peer's side of the benchmark in crates/bench: the same input, the same ticks and the same three lines of output, so that the cost
 * of a tick can be set side by side, and both are seen to end in the same state with the same outputs.
 *
 * The input, in which a number is three bytes, the least first:
 *     the mode: 1 a block's ticks, 2 ticks without a request, 3 ticks with a request, 4 ticks with a line, 5 image: those of 2 through
 *         the C calls of board/pressgully.h, from images to images
 *     the rounds
 *     the 25 settings, in the order of the outline's table, the discharge's three behind them
 *     the 7 setpoints, in the order of the command SS
 *     the count of the ticks before the first round
 *     the refill contact of every tick: 0 open, else closed
 * then 16 lines of 64 bytes, each a serial command with its CR LF and zeros behind it, and up to three blocks of 4,096 counts.
 *
 * A round is three blocks. Before a block the modes 1, 2 and 5 have a tick with a request: the setpoints, a start, a stop. Before the first
 * round each of the modes 1 to 4 takes the first count once. Mode 5 begins in the state that this leads to, and so prints what 2 prints. */
#include "../board/pressgully.h"
#include "controller.h"

#include <inttypes.h>
#include <stdio.h>
#include <string.h>

enum { NUMBER_BYTES = 3, NUMBERS = 2 + SETTING_NUMBERS + 7 + 2, LINES = 16, LINE_BYTES = 64, BLOCKS = 3, REPLY_ROOM = 64 };

/* All of the input. */
struct input {
    uint8_t numbers[NUMBERS][NUMBER_BYTES];
    uint8_t lines[LINES][LINE_BYTES];
    uint8_t counts[BLOCKS * BLOCK_LIMIT][NUMBER_BYTES];
};

/* The outputs of all ticks so far, so that both sides look at every output of every tick. */
struct seen {
    int32_t gross, net;
    uint32_t flags;
    size_t replied;
};

struct run {
    struct settings s;
    struct state st;
    struct setpoints points;
    bool contact;
    struct seen seen;
    uint64_t ticks;
    uint8_t reply[REPLY_ROOM];

    /* of mode 5 alone, in which `s` and `st` rest */
    uint8_t settings[PRESSGULLY_SETTINGS];
    uint8_t image[PRESSGULLY_STATE];
    uint32_t set[PRESSGULLY_POINTS];
};

static int32_t number(const uint8_t bytes[NUMBER_BYTES])
{
    return bytes[0] | bytes[1] << 8 | bytes[2] << 16;
}

/* ---- Digests --------------------------------------------------------------- */

static uint64_t mixed(uint64_t h, uint64_t x)
{
    const uint64_t modulus = 4294967291;

    return ((h % modulus) * 65599 + x % modulus) % modulus;
}

static uint64_t mixed_signed(uint64_t h, int64_t x)
{
    return x < 0 ? mixed(mixed(h, 1), (uint64_t)-x) : mixed(h, (uint64_t)x);
}

static uint64_t state_digest(const struct state *st)
{
    const int64_t numbers[] = {
        st->opening, st->last, st->refilled, st->used, st->unbooked, st->day_ticks, st->zero, st->tracked, st->tare,
        st->tracking_count, st->total, st->batches, st->flow_clock, st->run
    };
    uint64_t h = 0;

    for (size_t i = 0; i < sizeof numbers / sizeof numbers[0]; i++)
        h = mixed_signed(h, numbers[i]);
    return h;
}

static uint64_t output_digest(const struct seen *seen, const uint8_t reply[REPLY_ROOM])
{
    uint64_t h = mixed_signed(mixed_signed(0, seen->gross), seen->net);

    h = mixed(mixed(h, seen->flags), seen->replied);
    for (size_t i = 0; i < REPLY_ROOM; i++)
        h = mixed(h, reply[i]);
    return h;
}

static void look(struct seen *seen, bool refused, const struct outputs *out)
{
    seen->gross ^= out->gross ^ (out->day_closed ? out->day.opening : 0);
    seen->net ^= out->net;
    seen->flags ^= (uint32_t)out->good | (uint32_t)out->overload << 1 | (uint32_t)out->stable << 2 | (uint32_t)out->large << 3
        | (uint32_t)out->medium << 4 | (uint32_t)out->small << 5 | (uint32_t)out->discharge << 6 | (uint32_t)out->near_zero << 7
        | (uint32_t)out->full << 8 | (uint32_t)(out->analog > 5.0) << 9 | (uint32_t)refused << 10;
}

/* ---- The modes: the counts of a block each ----------------------------------- */

/* The tick between two blocks. */
static void between(struct run *run, enum request_kind kind)
{
    const struct request r = { .kind = kind, .setpoints = run->points };
    struct outcome o;
    struct outputs out;

    tick(&run->s, &run->st, 0, run->contact, r, &o, &out);
    run->ticks++;
}

static void block_ticks(struct run *run, enum request_kind kind, const int32_t *counts, size_t n)
{
    between(run, kind);
    run_block(&run->s, &run->st, counts, n, run->contact);
    run->ticks += n;
}

static void unasked_ticks(struct run *run, enum request_kind kind, const int32_t *counts, size_t n)
{
    const struct request none = { .kind = REQUEST_NONE };
    struct seen seen = run->seen;

    between(run, kind);
    for (size_t i = 0; i < n; i++) {
        struct outcome o;
        struct outputs out;

        tick(&run->s, &run->st, counts[i], run->contact, none, &o, &out);
        look(&seen, o.number != ANSWER_DONE, &out);
    }
    run->seen = seen;
    run->ticks += n;
}

static void asked_ticks(struct run *run, const int32_t *counts, size_t n)
{
    static const enum request_kind asked[] = {
        REQUEST_TARE_CLEAR, REQUEST_SHOW_NET, REQUEST_SHOW_GROSS, REQUEST_SETPOINTS, REQUEST_START, REQUEST_STOP,
        REQUEST_TOTAL_CLEAR, REQUEST_UNDO, REQUEST_DAY_CLOSE, REQUEST_ZERO, REQUEST_TARE
    };
    struct request r = { .setpoints = run->points };
    struct seen seen = run->seen;

    for (size_t i = 0; i < n; i++) {
        struct outcome o;
        struct outputs out;

        r.kind = asked[i % (sizeof asked / sizeof asked[0])];
        tick(&run->s, &run->st, counts[i], run->contact, r, &o, &out);
        look(&seen, o.number != ANSWER_DONE, &out);
    }
    run->seen = seen;
    run->ticks += n;
}

static void line_ticks(struct run *run, uint8_t lines[LINES][LINE_BYTES], const int32_t *counts, size_t n)
{
    struct seen seen = run->seen;

    for (size_t i = 0; i < n; i++) {
        struct outputs out;
        size_t replied;
        const int answer = line_tick(&run->s, &run->st, counts[i], run->contact, lines[i % LINES], LINE_BYTES, run->reply, REPLY_ROOM,
                                     &replied, &out);

        look(&seen, answer >= ANSWER_BAD_TICK && answer <= ANSWER_MODE, &out);
        seen.flags ^= (uint32_t)(answer == ANSWER_DONE) << 11;
        seen.replied ^= replied;
    }
    run->seen = seen;
    run->ticks += n;
}

/* ---- Mode 5: images -------------------------------------------------------------- */

/* A number of an image or an answer; those of four and eight bytes have a sign. */
static int64_t big_endian(const uint8_t *at, size_t width)
{
    int64_t x = width >= 4 && at[0] >= 0x80 ? -1 : 0;

    for (size_t i = 0; i < width; i++)
        x = 256 * x + at[i];
    return x;
}

static uint32_t image_tick(struct run *run, int32_t count, uint32_t request, uint8_t answer[PRESSGULLY_ANSWER])
{
    return pressgully_tick(run->settings, PRESSGULLY_SETTINGS, run->image, PRESSGULLY_STATE, count, run->contact, request, run->set,
                           PRESSGULLY_POINTS, answer, PRESSGULLY_ANSWER);
}

/* Opens the images, and has them take the ticks that `st` took before the first round. */
static void begin_images(struct run *run, const struct given *g, const int32_t *first, const uint8_t line[LINE_BYTES])
{
    uint8_t answer[PRESSGULLY_ANSWER];

    for (size_t i = 0; i < SETTING_NUMBERS; i++)
        for (size_t byte = 0; byte < 4; byte++)
            run->settings[4 * i + byte] = (uint8_t)((uint32_t)g->value[i] >> (24 - 8 * byte));
    memcpy(run->set, &run->points, sizeof run->set);
    pressgully_open(run->settings, PRESSGULLY_SETTINGS, run->image, PRESSGULLY_STATE);
    image_tick(run, 0, PRESSGULLY_SET, answer);
    pressgully_block(run->settings, PRESSGULLY_SETTINGS, run->image, PRESSGULLY_STATE, first, 1, run->contact);
    image_tick(run, 0, PRESSGULLY_START, answer);
    image_tick(run, *first, PRESSGULLY_NOTHING, answer);
    image_tick(run, *first, PRESSGULLY_TARE_CLEAR, answer);
    pressgully_line(run->settings, PRESSGULLY_SETTINGS, run->image, PRESSGULLY_STATE, *first, run->contact, line, LINE_BYTES, run->reply,
                    REPLY_ROOM, answer, PRESSGULLY_ANSWER);
}

/* What `look` looks at. */
static struct outputs outputs_of(const uint8_t answer[PRESSGULLY_ANSWER])
{
    const int64_t analog = big_endian(answer + 56, 8);
    struct outputs out = {
        .good = answer[1], .overload = answer[2], .stable = answer[3], .large = answer[5], .medium = answer[6], .small = answer[7],
        .discharge = answer[8], .near_zero = answer[11], .full = answer[12], .day_closed = answer[14],
        .gross = (int32_t)big_endian(answer + 16, 4), .net = (int32_t)big_endian(answer + 20, 4),
        .day.opening = (int32_t)big_endian(answer + 24, 4)
    };

    memcpy(&out.analog, &analog, sizeof out.analog);
    return out;
}

static void image_ticks(struct run *run, uint32_t request, const int32_t *counts, size_t n)
{
    struct seen seen = run->seen;
    uint8_t answer[PRESSGULLY_ANSWER];

    image_tick(run, 0, request, answer);
    for (size_t i = 0; i < n; i++) {
        const uint32_t number = image_tick(run, counts[i], PRESSGULLY_NOTHING, answer);
        const struct outputs out = outputs_of(answer);

        look(&seen, number != ANSWER_DONE, &out);
    }
    run->seen = seen;
    run->ticks += 1 + n;
}

/* Those numbers of the image that the digest is of. */
static void end_images(struct run *run)
{
    const uint8_t *image = run->image;

    run->st = (struct state){
        .opening = (int32_t)big_endian(image, 4), .last = (int32_t)big_endian(image + 4, 4), .refilled = big_endian(image + 8, 8),
        .used = big_endian(image + 16, 8), .unbooked = big_endian(image + 24, 8), .day_ticks = (int32_t)big_endian(image + 32, 4),
        .run = (int32_t)big_endian(image + 42, 2), .zero = (int32_t)big_endian(image + 44, 4),
        .tracked = (int32_t)big_endian(image + 48, 4), .tare = (int32_t)big_endian(image + 52, 4),
        .tracking_count = (int32_t)big_endian(image + 56, 2), .flow_clock = (int32_t)big_endian(image + 92, 2),
        .total = (int32_t)big_endian(image + 96, 8), .batches = (int32_t)big_endian(image + 104, 4)
    };
}

/* ---- The program --------------------------------------------------------------- */

int main(void)
{
    static struct input in;
    static int32_t counts[BLOCKS * BLOCK_LIMIT];
    static struct run run;
    static const enum request_kind asked[BLOCKS] = { REQUEST_SETPOINTS, REQUEST_START, REQUEST_STOP };
    static const uint32_t asked_image[BLOCKS] = { PRESSGULLY_SET, PRESSGULLY_START, PRESSGULLY_STOP };
    const size_t got = fread(&in, 1, sizeof in, stdin);
    const size_t given = got < sizeof in - sizeof in.counts ? 0 : (got - (sizeof in - sizeof in.counts)) / NUMBER_BYTES;
    const int32_t mode = number(in.numbers[0]), rounds = number(in.numbers[1]), first = number(in.numbers[NUMBERS - 2]);
    const uint8_t (*points)[NUMBER_BYTES] = (const uint8_t (*)[NUMBER_BYTES])in.numbers + 2 + SETTING_NUMBERS;
    struct given g;

    for (size_t i = 0; i < SETTING_NUMBERS; i++)
        g.value[i] = number(in.numbers[2 + i]);
    if (open_controller(&g, &run.s, &run.st) != ANSWER_DONE) {
        puts("refused=10");
        return 0;
    }
    run.points = (struct setpoints){
        number(points[0]), number(points[1]), number(points[2]), number(points[3]), number(points[4]), number(points[5]),
        number(points[6])
    };
    run.contact = number(in.numbers[NUMBERS - 1]) != 0;
    for (size_t i = 0; i < BLOCKS * BLOCK_LIMIT; i++)
        counts[i] = number(in.counts[i]);

    block_ticks(&run, REQUEST_SETPOINTS, &first, 1);
    unasked_ticks(&run, REQUEST_START, &first, 1);
    asked_ticks(&run, &first, 1);
    line_ticks(&run, in.lines, &first, 1);
    if (mode == 5)
        begin_images(&run, &g, &first, in.lines[0]);
    for (int64_t turn = 0; turn < (int64_t)rounds * BLOCKS; turn++) {
        const size_t from = (size_t)(turn % BLOCKS) * BLOCK_LIMIT;
        const size_t left = given < from ? 0 : given - from;
        const size_t n = left < BLOCK_LIMIT ? left : BLOCK_LIMIT;

        switch (mode) {
        case 1: block_ticks(&run, asked[turn % BLOCKS], counts + from, n); break;
        case 2: unasked_ticks(&run, asked[turn % BLOCKS], counts + from, n); break;
        case 3: asked_ticks(&run, counts + from, n); break;
        case 5: image_ticks(&run, asked_image[turn % BLOCKS], counts + from, n); break;
        default: line_ticks(&run, in.lines, counts + from, n); break;
        }
    }
    if (mode == 5)
        end_images(&run);
    printf("ticks=%" PRIu64 "\ndigest=%" PRIu64 "\noutputs=%" PRIu64 "\n", run.ticks, state_digest(&run.st), output_digest(&run.seen, run.reply));
    return 0;
}
