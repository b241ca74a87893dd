/* Serial lines for the scenarios: every command in good form, and what a bad cable, another instrument's master or a wrong program
 * sends. Only what a log can carry: 1 to 100 bytes, none of them LF. */
#include "scenario.h"

#include <string.h>

const struct line NONE;

static const char *const plain[] = {"RW", "RT", "RS", "MZ", "MT", "CT", "MG", "MN", "BB", "HB", "DT", "CA", "DC", "BD"};

static const char *any_plain(void)
{
    return plain[between(0, (int32_t)LENGTH(plain) - 1)];
}

static struct line line_of(const char *text)
{
    struct line l = {.length = strlen(text)};

    memcpy(l.bytes, text, l.length);
    return l;
}

static size_t prefix_of(const struct scenario *s)
{
    return s->given.value[ADDRESS] == 0 ? 0 : 3;
}

struct line command(const struct scenario *s, const char *letters)
{
    char text[100];

    if (prefix_of(s) == 0)
        return line_of(letters);
    snprintf(text, sizeof text, "@%02d%s", (int)s->given.value[ADDRESS], letters);
    return line_of(text);
}

/* ---- Setpoints ---- */

struct line setpoints_command(const struct scenario *s, const struct setpoints *p)
{
    char text[90];

    snprintf(text, sizeof text, "SS%06d%06d%06d%06d%06d%06d%06d", (int)p->final, (int)p->free_fall, (int)p->preliminary,
             (int)p->optional, (int)p->over, (int)p->under, (int)p->near_zero);
    return command(s, text);
}

/* In whole divisions mostly, so that a weight can be exactly there. */
struct setpoints good_setpoints(const struct scenario *s, int32_t top)
{
    const int32_t d = s->settings.division, capacity = s->settings.capacity;
    int32_t unit = once_in(5) ? 1 : d;
    int32_t n = most(least(top, SETPOINT_LIMIT) / unit, 1);
    int32_t f = between(once_in(4) ? 1 : n / 3 + 1, n);
    int32_t ff = once_in(12) ? f : between(0, f / ONE_OF(4, 10, 30));
    int32_t p = 0, op = 0;

    if (!once_in(4) && ff < f)
        p = once_in(5) ? ONE_OF(ff + 1, f) : between(ff + 1, ff + 1 + (f - ff - 1) / 2);
    int32_t above = most(ff, p);
    if (!once_in(4) && above < f)
        op = once_in(5) ? ONE_OF(above + 1, f) : between(above + 1, f);
    int32_t wide = once_in(4) ? 200 : 4;
    struct setpoints set = {.final = f * unit, .free_fall = ff * unit, .preliminary = p * unit, .optional = op * unit};
    if (s->settings.mode == MODE_LOSS_IN_WEIGHT)
        set.optional = once_in(10) ? SETPOINT_LIMIT : between(0, capacity) * d;
    set.over = between(0, wide) * unit;
    set.under = between(0, wide) * unit;
    set.near_zero = once_in(10) ? SETPOINT_LIMIT : between(0, capacity / 4) * d;
    return set;
}

/* Setpoints that break a rule by the least there is, or keep it by as little. */
static struct setpoints edge_setpoints(void)
{
    int32_t f = once_in(3) ? ONE_OF(0, 1, 2, SETPOINT_LIMIT) : between(10, 900000);
    int32_t ff = between(0, f), more = between(0, 1);
    struct setpoints set = {.final = f, .free_fall = ff};

    switch (between(0, 5)) {
    case 0: set.free_fall = f + more; break;
    case 1: set.preliminary = ff + more; break;
    case 2: set.preliminary = f + more; break;
    case 3: set.optional = ff + more; break;
    case 4:
        set.preliminary = between(ff + 1, f);
        set.optional = set.preliminary + more;
        break;
    default: set.optional = f + more; break;
    }
    set.free_fall = least(set.free_fall, SETPOINT_LIMIT);
    set.preliminary = least(set.preliminary, SETPOINT_LIMIT);
    set.optional = least(set.optional, SETPOINT_LIMIT);
    set.over = ONE_OF(0, 5, SETPOINT_LIMIT);
    set.under = ONE_OF(0, 5, SETPOINT_LIMIT);
    set.near_zero = ONE_OF(0, 5, SETPOINT_LIMIT);
    return set;
}

/* Near zero, and in mode 2 full, at the weight that the scale shows now or beside it: in the tick in which such a set comes into use it
 * tells otherwise than the old one. */
static struct setpoints levelled(const struct scenario *s, struct setpoints set)
{
    int32_t near = s->out.gross + ONE_OF(-1, 0, 0, 1) * s->settings.division;
    int32_t full = s->out.gross + ONE_OF(-1, -1, 0, 1) * s->settings.division;

    set.near_zero = most(near, 0);
    if (s->settings.mode == MODE_LOSS_IN_WEIGHT)
        set.optional = most(full, 0);
    return set;
}

/* Of the edges only those that are refused: with any other a plant would not finish its next batch. */
struct line panel(const struct scenario *s)
{
    if (once_in(s->state.waiting ? 3 : 10))
        return command(s, "RS");
    struct setpoints set = edge_setpoints();
    if (setpoint_rules(s->settings.mode, &set) || !once_in(3)) {
        int32_t top = full_scale(s) / ONE_OF(1, 2, 2);
        set = good_setpoints(s, top);
        if (once_in(2))
            set = levelled(s, set);
    }
    return setpoints_command(s, &set);
}

struct line any_command(const struct scenario *s)
{
    if (!once_in(8))
        return command(s, any_plain());
    struct setpoints set = once_in(2) ? edge_setpoints() : good_setpoints(s, full_scale(s));
    return setpoints_command(s, &set);
}

/* ---- Malformed lines ---- */

static uint8_t any_byte(void)
{
    uint8_t byte = (uint8_t)between(0, 255);

    return byte == '\n' ? 'R' : byte;
}

static struct line filled(struct line l, size_t length)
{
    while (l.length < length) {
        uint8_t byte = once_in(3) ? any_byte() : '0';
        l.bytes[l.length++] = byte;
    }
    return l;
}

/* One byte is another: any, or one that is nearly right. */
static struct line spoilt(struct line l, size_t at)
{
    uint8_t byte = once_in(3) ? any_byte() : (uint8_t)ONE_OF('@', '0', 'A', '/', ':', ' ', '-', 0xb0);

    l.bytes[at] = byte;
    return l;
}

static struct line cut(struct line l, size_t length)
{
    l.length = length < 1 ? 1 : length < l.length ? length : l.length;
    return l;
}

struct line malformed(const struct scenario *s)
{
    const size_t prefix = prefix_of(s);
    struct line l = any_command(s);

    switch (between(0, 11)) {
    case 0:                                     /* too long by a few bytes */
        return filled(l, l.length + (size_t)between(1, 3));
    case 1:                                     /* cut anywhere */
        return cut(l, (size_t)between(1, (int32_t)l.length - 1));
    case 2:                                     /* a setpoint with a byte that is no digit */
        l = setpoints_command(s, &(struct setpoints){.final = SETPOINT_LIMIT});
        return spoilt(l, prefix + 2 + (size_t)between(0, 41));
    case 3:                                     /* setpoints a digit or a field too short or too long */
        l = setpoints_command(s, &(struct setpoints){.final = 500000});
        l = cut(l, prefix + 2 + (size_t)ONE_OF(0, 6, 35, 36, 41, 42));
        return once_in(2) ? filled(l, prefix + 2 + (size_t)ONE_OF(43, 48)) : l;
    case 4: {                                   /* of any address */
        char text[8];
        int address = (int)between(0, 99);
        snprintf(text, sizeof text, "@%02d%s", address, any_plain());
        return line_of(text);
    }
    case 5:
        return line_of(any_plain());
    case 6:                                     /* a prefix with one wrong byte */
        return spoilt(l, (size_t)between(0, least(2, (int32_t)l.length - 1)));
    case 7:                                     /* the prefix alone, or with one byte */
        return cut(l, prefix + (size_t)between(0, 1));
    case 8: {                                   /* unknown letters: small ones, and neighbours of known ones */
        size_t at = prefix + (size_t)between(0, 1);
        l.bytes[at] = (uint8_t)(l.bytes[at] ^ ONE_OF(0x20, 0x01, 0x02, 0x80));
        return cut(l, prefix + (size_t)between(2, 10));
    }
    case 9:                                     /* around the longest line */
        return filled(l, (size_t)ONE_OF(62, 63, 64, 65, 66, 100));
    case 10:                                    /* nearly none */
        return line_of(once_in(2) ? "---" : "-- ");
    default:                                    /* anything */
        l.length = 0;
        l = filled(l, (size_t)between(1, 100));
        return once_in(4) ? spoilt(l, 0) : l;
    }
}

struct line stray(const struct scenario *s)
{
    return once_in(3) ? malformed(s) : any_command(s);
}
