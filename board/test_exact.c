/* Calls on buffers of the heap that end where their lengths say, so that a tool that watches memory tells a read or a write past one; the
 * guards of the other calls tell writes alone. They do what the same calls do on guarded buffers. */
#include "test.h"

#include <stdlib.h>
#include <string.h>

enum { CALLS = 4000, PER_CHECK = 100, COUNTS = 24, FRONT = 8 };

/* A copy that ends with its block, and may be empty; the front keeps it in line for words. */
static void *copied(const void *bytes, size_t length)
{
    uint8_t *block = malloc(FRONT + length);

    if (block == NULL)
        abort();
    memcpy(block + FRONT, bytes, length);
    return block + FRONT;
}

static void release(void *copy)
{
    free((uint8_t *)copy - FRONT);
}

/* The buffers as they were lent, and as the call on guarded ones left them. */
static bool does_the_same(const struct lent *lent, const struct lent *left, const struct call *c, uint32_t told)
{
    static const int32_t no_counts[1];
    uint8_t *settings = copied(lent->settings, c->settings_len), *earlier = copied(lent->earlier, c->earlier_len);
    uint8_t *state = copied(lent->state, c->state_len);
    uint32_t *points = copied(lent->points, c->points_len * sizeof points[0]);
    uint8_t *receive = copied(lent->receive, c->receive_len), *reply = copied(lent->reply, c->reply_len);
    uint8_t *answer = copied(lent->answer, c->answer_len);
    int32_t *counts = copied(c->kind == BLOCK ? c->counts : no_counts, c->counts_len * sizeof counts[0]);
    const struct buffers b = {settings, earlier, state, points, receive, reply, answer, counts};
    const bool same = made(&library, &b, c) == told && memcmp(state, left->state, c->state_len) == 0
                   && memcmp(answer, left->answer, c->answer_len) == 0 && memcmp(reply, left->reply, c->reply_len) == 0;

    release(settings);
    release(earlier);
    release(state);
    release(points);
    release(receive);
    release(reply);
    release(answer);
    release(counts);
    return same;
}

static bool one_call(uint64_t number)
{
    static const int32_t counts[COUNTS] = {1, 2, 3};
    uint8_t settings[PRESSGULLY_SETTINGS], state[PRESSGULLY_STATE];
    struct lent before, l;
    struct call c;
    struct outcome o;

    sow(number + 99000);
    draw_settings(settings);
    draw_state(settings, state);
    if (one_in(4))
        alter(settings, state);
    lend(&l, settings, state);
    c = one_in(16) ? open_call() : one_in(8) ? grow_call() : draw_call(&l, counts, COUNTS);
    if (one_in(16))
        c.settings_len = draw() % (PRESSGULLY_SETTINGS + 8);
    if (one_in(16))
        c.earlier_len = draw() % (PRESSGULLY_STATE + 8);
    if (one_in(16))
        c.state_len = draw() % (PRESSGULLY_STATE + 8);
    if (one_in(4))
        c.answer_len = draw() % (PRESSGULLY_ANSWER + 8);
    before = l;
    o = run(&l, &c);
    return o.kept && does_the_same(&before, &l, &c, o.told);
}

void test_exact(void)
{
    uint64_t i;

    for (i = 0; i < CALLS; i += PER_CHECK) {
        uint64_t at = i;
        bool same = true;

        for (; at < i + PER_CHECK && same; at++)
            same = one_call(at);
        check(same, "exact: call %llu differs on buffers of just its lengths", (unsigned long long)(at - 1));
    }
}
