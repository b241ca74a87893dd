/* Calls on guarded buffers: what a call changed is compared with what such a call may change. */
#include "test.h"

#include <stdio.h>
#include <string.h>

enum { STALE = 0xa5 };

void lend(struct lent *l, const uint8_t *settings, const uint8_t *state)
{
    memset(l, STALE, sizeof *l);
    memcpy(l->settings, settings, PRESSGULLY_SETTINGS);
    memcpy(l->earlier, state, PRESSGULLY_STATE_A3);
    memcpy(l->state, state, PRESSGULLY_STATE);
}

static struct call plain(enum kind kind)
{
    struct call c;

    memset(&c, 0, sizeof c);
    c.kind = kind;
    c.settings_len = PRESSGULLY_SETTINGS;
    c.earlier_len = PRESSGULLY_STATE_A3;
    c.state_len = PRESSGULLY_STATE;
    c.answer_len = PRESSGULLY_ANSWER;
    c.reply_len = PRESSGULLY_REPLY;
    return c;
}

struct call open_call(void)
{
    return plain(OPEN);
}

struct call grow_call(void)
{
    return plain(GROW);
}

struct call tick_call(int32_t count, bool contact, uint32_t request)
{
    struct call c = plain(TICK);

    c.count = count;
    c.contact = contact;
    c.request = request;
    c.points_len = request == PRESSGULLY_SET ? PRESSGULLY_POINTS : 0;
    return c;
}

struct call line_call(struct lent *l, int32_t count, bool contact, const char *line)
{
    struct call c = plain(LINE);
    const size_t length = strlen(line);

    memcpy(l->receive, line, length);
    memcpy(l->receive + length, "\r\n", 2);
    c.receive_len = length + 2;
    c.count = count;
    c.contact = contact;
    return c;
}

struct call block_call(const int32_t *counts, size_t n, bool contact)
{
    struct call c = plain(BLOCK);

    c.counts = counts;
    c.counts_len = n;
    c.contact = contact;
    return c;
}

/* The two letters that ask the same, by number; 0 is asked by a read as well. */
static const char *const letters[] = {"RW", "MZ", "MT", "CT", "BB", "HB", "SS", "DT", "CA", "MG", "MN", "DC", "BD"};

struct call as_line(struct lent *l, const struct call *c)
{
    const int address = (int)setting(l->settings, SETTING_ADDRESS);
    char line[80];
    int at = 0, i;

    if (address != 0)
        at = sprintf(line, "@%02d", address);
    at += sprintf(line + at, "%s", letters[c->request]);
    if (c->request == PRESSGULLY_SET)
        for (i = 0; i < PRESSGULLY_POINTS; i++)
            at += sprintf(line + at, "%06lu", (unsigned long)l->points[i]);
    return line_call(l, c->count, c->contact, line);
}

const struct calls library = {pressgully_open, pressgully_grow, pressgully_tick, pressgully_line, pressgully_block};

uint32_t made(const struct calls *by, const struct buffers *b, const struct call *c)
{
    switch (c->kind) {
    case OPEN:
        return by->open(b->settings, c->settings_len, b->state, c->state_len);
    case GROW:
        return by->grow(b->settings, c->settings_len, b->earlier, c->earlier_len, b->state, c->state_len);
    case TICK:
        return by->tick(b->settings, c->settings_len, b->state, c->state_len, c->count, c->contact, c->request, b->points, c->points_len,
                        b->answer, c->answer_len);
    case LINE:
        return by->line(b->settings, c->settings_len, b->state, c->state_len, c->count, c->contact, b->receive, c->receive_len, b->reply,
                        c->reply_len, b->answer, c->answer_len);
    default:
        return by->block(b->settings, c->settings_len, b->state, c->state_len, b->counts, c->counts_len, c->contact);
    }
}

bool is_refused(const struct call *c, uint32_t told)
{
    switch (told) {
    case 20: case 21: case 10:
        return true;
    case 14:
        return c->kind == TICK || (c->kind == LINE && c->answer_len < PRESSGULLY_ANSWER);
    case 15:
        return c->kind == BLOCK;
    default:
        return false;
    }
}

void clear(struct lent *l)
{
    memset(l->answer, STALE, sizeof l->answer);
    memset(l->reply, STALE, sizeof l->reply);
}

uint32_t made_on(const struct calls *by, struct lent *l, const struct call *c)
{
    const struct buffers b = {l->settings, l->earlier, l->state, l->points, l->receive, l->reply, l->answer, c->counts};

    return made(by, &b, c);
}

struct outcome run(struct lent *l, const struct call *c)
{
    struct lent before;
    struct outcome o;

    clear(l);
    before = *l;
    o.told = made_on(&library, l, c);
    o.refused = is_refused(c, o.told);
    o.kept = true;
    if (!o.refused) { /* what may change is taken over; all else is compared below */
        memcpy(before.state, l->state, PRESSGULLY_STATE);
        if (c->kind == TICK || c->kind == LINE) {
            const size_t replied = (size_t)answer_number(l->answer, ANSWER_REPLIED);

            memcpy(before.answer, l->answer, PRESSGULLY_ANSWER);
            o.kept = answer_number(l->answer, ANSWER_TOLD) == o.told && replied <= (c->kind == LINE ? c->reply_len : 0);
            if (o.kept)
                memcpy(before.reply, l->reply, replied);
        } else {
            o.kept = o.told == 0;
        }
    }
    o.kept = o.kept && memcmp(&before, l, sizeof before) == 0;
    return o;
}
