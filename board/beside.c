/* The library beside the peer (peer/board.c): the same calls on the same bytes; after each, what they answer and every byte of every buffer
 * are compared.
 *
 *   beside [IMAGES]     images at random, whole and altered ones, 200,000 without it; then runs of a plant from an opening
 *
 * Its last line is 'N passed, M failed', a check for each 1,000 images and each run; it ends with 1 where any failed. */
#include "test.h"

#include <stddef.h>
#include <stdio.h>
#include <stdlib.h>
#include <string.h>

/* The peer's calls have the header's names, and are compiled under these. `struct calls` takes both, so that the compiler tells where these
 * lines fall behind the header. */
uint32_t peer_open(const uint8_t *settings, size_t settings_len, uint8_t *state, size_t state_len);
uint32_t peer_grow(const uint8_t *settings, size_t settings_len, const uint8_t *earlier, size_t earlier_len, uint8_t *state,
                   size_t state_len);
uint32_t peer_tick(const uint8_t *settings, size_t settings_len, uint8_t *state, size_t state_len, int32_t count, bool contact,
                   uint32_t request, const uint32_t *points, size_t points_len, uint8_t *answer, size_t answer_len);
uint32_t peer_line(const uint8_t *settings, size_t settings_len, uint8_t *state, size_t state_len, int32_t count, bool contact,
                   const uint8_t *receive, size_t receive_len, uint8_t *reply, size_t reply_len, uint8_t *answer, size_t answer_len);
uint32_t peer_block(const uint8_t *settings, size_t settings_len, uint8_t *state, size_t state_len, const int32_t *counts,
                    size_t counts_len, bool contact);

static const struct calls peer = {peer_open, peer_grow, peer_tick, peer_line, peer_block};

enum { PER_CHECK = 1000, CALLS = 12, RUNS = 120, RUN_CALLS = 4000, COUNTS = 24, STAGES = 17, ERRORS = 11, TOLD_LIMIT = 20 };

static unsigned long passed, failed;

static struct {
    unsigned long images, taken, refused_21, refused_10, calls, grown, run_calls, blocks, lines, batches, discharges, refills, days;
    unsigned long waiting, waited, came;
    unsigned long at_stage[STAGES], at_error[ERRORS];
} seen;

static void count_check(bool holds)
{
    if (holds)
        passed++;
    else
        failed++;
}

/* ---- One call by both ---- */

/* The first byte that differs, by its buffer and place. */
static void tell_byte(const struct lent *ours, const struct lent *theirs)
{
    static const struct {
        const char *name;
        size_t at;
    } buffers[] = {
        {"receive", offsetof(struct lent, receive)}, {"reply", offsetof(struct lent, reply)}, {"answer", offsetof(struct lent, answer)},
        {"state", offsetof(struct lent, state)}, {"earlier", offsetof(struct lent, earlier)},
        {"settings", offsetof(struct lent, settings)}, {"front", offsetof(struct lent, front)}, {"points", offsetof(struct lent, points)},
    };
    const uint8_t *a = (const uint8_t *)ours, *b = (const uint8_t *)theirs;
    size_t at = 0;
    unsigned i = 0;

    while (at < sizeof *ours && a[at] == b[at])
        at++;
    if (at == sizeof *ours)
        return;
    while (at < buffers[i].at)
        i++;
    printf(", %s byte %u is %u and the peer's %u", buffers[i].name, (unsigned)(at - buffers[i].at), a[at], b[at]);
}

/* The call by both on the same bytes. Where they agree l goes on with what they left. */
static bool agree(struct lent *l, const struct call *c, uint32_t *told, const char *where, unsigned long number, int call)
{
    static const char *const names[KINDS] = {"open", "grow", "tick", "line", "block"};
    struct lent ours, theirs;
    uint32_t peer_told;

    clear(l);
    ours = theirs = *l;
    *told = made_on(&library, &ours, c);
    peer_told = made_on(&peer, &theirs, c);
    if (*told == peer_told && memcmp(&ours, &theirs, sizeof ours) == 0) {
        *l = ours;
        return true;
    }
    if (failed < TOLD_LIMIT) {
        printf("beside: %s %lu, call %d (%s, request %u): told %u and by the peer %u", where, number, call, names[c->kind],
               (unsigned)c->request, (unsigned)*told, (unsigned)peer_told);
        tell_byte(&ours, &theirs);
        putchar('\n');
    }
    return false;
}

/* ---- Images at random ---- */

static int32_t counts[PRESSGULLY_BLOCK + 1];

/* A growth does not ask what the state's bytes are, nor what is behind an earlier image. */
static void draw_over(struct lent *l)
{
    size_t i;

    for (i = 0; i < PRESSGULLY_STATE; i++)
        l->state[i] = (uint8_t)draw();
    for (i = PRESSGULLY_STATE_A3; i < sizeof l->earlier; i++)
        l->earlier[i] = (uint8_t)draw_from(0, 2);
}

/* Any call, and now and then one with lengths or bytes that no caller should give. What grows is the image as it was lent, altered or not. */
static struct call any_call(struct lent *l, bool first)
{
    struct call c = first && one_in(16) ? open_call() : first && one_in(8) ? grow_call() : draw_call(l, counts, COUNTS);

    if (c.kind == GROW)
        draw_over(l);
    if (c.kind == LINE && c.receive_len > 0 && one_in(8))
        l->receive[draw() % c.receive_len] = (uint8_t)draw();
    if (c.kind == BLOCK && first && one_in(64))
        c.counts_len = PRESSGULLY_BLOCK + draw() % 2;
    if (one_in(32))
        c.settings_len = draw() % (PRESSGULLY_SETTINGS + 8);
    if (one_in(32))
        c.earlier_len = one_in(4) ? PRESSGULLY_STATE : draw() % (PRESSGULLY_STATE + 8);
    if (one_in(32))
        c.state_len = draw() % (PRESSGULLY_STATE + 8);
    if (one_in(16))
        c.answer_len = draw() % (PRESSGULLY_ANSWER + 8);
    return c;
}

static bool one_image(uint64_t number)
{
    uint8_t settings[PRESSGULLY_SETTINGS], state[PRESSGULLY_STATE];
    struct lent l;
    uint32_t told;
    int i;

    sow(number + 4401000000u);
    draw_settings(settings);
    draw_state(settings, state);
    if (one_in(2))
        alter(settings, state);
    for (i = 0; i < COUNTS; i++)
        counts[i] = (int32_t)draw_from(setting(settings, SETTING_ZERO_COUNT), setting(settings, SETTING_SPAN_COUNT));
    lend(&l, settings, state);
    seen.images++;
    seen.waiting += state[256] == 1;
    for (i = 0; i < CALLS; i++) {
        const struct call c = any_call(&l, i == 0);

        seen.calls++;
        if (!agree(&l, &c, &told, "image", (unsigned long)number, i))
            return false;
        seen.grown += c.kind == GROW && told == 0;
        if (told == 21 || told == 10) { /* the images' own fault: so are all that follow */
            seen.refused_21 += told == 21;
            seen.refused_10 += told == 10;
            return true;
        }
    }
    seen.taken++;
    return true;
}

static void images(uint64_t n)
{
    uint64_t i = 0;

    while (i < n) {
        const uint64_t first = i;
        bool same = true;

        for (; i < n && i < first + PER_CHECK && same; i++)
            same = one_image(i);
        count_check(same);
        i = first + PER_CHECK;
    }
}

/* ---- Runs from an opening ---- */

/* The plant's tick by number, the line that asks the same, any line or tick, or a block of what the plant gives. */
static struct call next_call(struct plant *p, struct lent *l)
{
    const struct call tick = plant_tick(p, l);
    size_t i;

    switch (draw() % 16) {
    case 0: case 1: case 2: case 3:
        return as_line(l, &tick);
    case 4:
        return one_in(4) ? draw_call(l, counts, COUNTS) : tick;
    case 5:
        for (i = 0; i < COUNTS; i++)
            counts[i] = plant_count(p, l);
        return block_call(counts, draw() % (COUNTS + 1), tick.contact);
    default:
        return tick;
    }
}

static void note(const uint8_t *before, const struct lent *l, const struct call *c)
{
    const uint8_t *state = l->state;

    seen.run_calls++;
    seen.lines += c->kind == LINE;
    seen.blocks += c->kind == BLOCK;
    seen.at_stage[state[88] % STAGES]++;
    seen.at_error[state[94] % ERRORS]++;
    seen.batches += state_number(state, STATE_BATCHES) > state_number(before, STATE_BATCHES);
    seen.discharges += before[88] == 16 && state[88] == 0 && state[94] == 0;
    seen.refills += state_number(state, STATE_REFILLED) > state_number(before, STATE_REFILLED);
    seen.waited += state[256] == 1;
    seen.came += before[256] == 1 && state[256] == 0;
    seen.days += (c->kind == TICK || c->kind == LINE) && l->answer[14] == 1;
}

static bool one_run(int number)
{
    uint8_t settings[PRESSGULLY_SETTINGS], any[PRESSGULLY_STATE];
    struct lent l;
    struct plant p;
    struct call c = open_call();
    uint32_t told;
    int i;

    sow((uint64_t)number + 4402000000u);
    plant_settings(settings);
    for (i = 0; i < PRESSGULLY_STATE; i++)
        any[i] = (uint8_t)draw(); /* an opening does not ask what was there */
    lend(&l, settings, any);
    p = plant_of(settings);
    if (!agree(&l, &c, &told, "run", (unsigned long)number, 0) || told != 0)
        return false;
    memset(l.answer, 0, sizeof l.answer);
    for (i = 1; i <= RUN_CALLS; i++) {
        uint8_t before[PRESSGULLY_STATE], answer[PRESSGULLY_ANSWER];

        c = next_call(&p, &l);
        memcpy(before, l.state, sizeof before);
        memcpy(answer, l.answer, sizeof answer);
        if (!agree(&l, &c, &told, "run", (unsigned long)number, i))
            return false;
        if (is_refused(&c, told)) {
            printf("beside: run %d, call %d: both refuse with %u the image that they wrote\n", number, i, (unsigned)told);
            return false;
        }
        note(before, &l, &c);
        if (c.kind == BLOCK) /* gives no gates: the plant goes by those before */
            memcpy(l.answer, answer, sizeof answer);
    }
    return true;
}

/* A comparison of runs that come to nothing would pass. */
static void came_through(void)
{
    static const uint8_t stages[] = {0, 3, 4, 5, 6, 7, 8, 9, 10, 11, 14, 15, 16}, errors[] = {0, 1, 2, 4, 6, 7, 8, 9};
    unsigned i;
    bool all = seen.batches > 0 && seen.discharges > 0 && seen.refills > 0 && seen.days > 0 && seen.lines > 0 && seen.blocks > 0
            && seen.waited > 0 && seen.came > 0;

    for (i = 0; i < sizeof stages; i++)
        all = all && seen.at_stage[stages[i]] > 0;
    for (i = 0; i < sizeof errors; i++)
        all = all && seen.at_error[errors[i]] > 0;
    if (!all && failed == 0)
        puts("beside: the runs did not come to every stage and error, a batch, a discharge, a refill, a day's close and setpoints that waited");
    count_check(all);
}

int main(int argc, char **argv)
{
    uint64_t n = 200000;
    int i;

    if (argc > 1) {
        char *end;

        n = strtoull(argv[1], &end, 10);
        if (argc > 2 || end == argv[1] || *end != '\0') {
            fputs("usage: beside [number of images at random]\n", stderr);
            return 2;
        }
    }
    images(n);
    for (i = 0; i < RUNS; i++)
        count_check(one_run(i));
    came_through();
    printf("beside: %lu images, %lu of them with setpoints waiting: %lu went on, %lu told 21, %lu told 10; %lu calls; %lu earlier images grew\n",
           seen.images, seen.waiting, seen.taken, seen.refused_21, seen.refused_10, seen.calls, seen.grown);
    printf("beside: %d runs: %lu calls, %lu of them lines and %lu blocks; %lu batches, %lu discharges, %lu days closed, refilled in %lu, "
           "setpoints waited in %lu and came into use in %lu\n",
           RUNS, seen.run_calls, seen.lines, seen.blocks, seen.batches, seen.discharges, seen.days, seen.refills, seen.waited, seen.came);
    printf("%lu passed, %lu failed\n", passed, failed);
    return failed == 0 ? 0 : 1;
}
