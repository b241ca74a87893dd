/* What tell.h says. */
#define _XOPEN_SOURCE 600

#include "tell.h"

#include "fields.h"
#include "outputs.h"

#include <inttypes.h>
#include <poll.h>
#include <stdarg.h>
#include <stdio.h>
#include <unistd.h>

enum {
    SAY_ROOM = 20480, /* bytes of a line: four paths and some words */
    SHOWN_BYTES = 48, /* of a refused line */
    TICKS_A_SECOND = 100,
    AT_REST = 0,      /* stages */
    JUDGING = 11
};

static const char *const stages[] = {
    "at rest", NULL, NULL, "start delay", "large flow, not yet compared", "large flow until F - OP", "medium flow, not yet compared",
    "medium flow until F - P", "small flow, not yet compared", "small flow until F - FF", "judge delay", "until stable, then judged",
    NULL, NULL, "discharge start delay", "discharge until near zero", "discharge end delay",
};

static const char *const errors[] = {
    NULL, "the final setpoint is 0", "the batch's weight is there before its start", NULL, "stopped", NULL,
    "the flow took longer than its limit", "discharge stopped", "the discharge took longer than its limit", "a bad or overloaded tick",
    "not booked: a weight below 0, or the total or the count is full",
};

static const char *const refusals[] = {
    NULL, "a bad tick", "overload", "the stage is not 00", "not stable", "outside its range", "the setpoint rules are broken",
    "nothing to take back", "the refill contact is closed", "no discharge in mode 2", "a setting is outside its range",
    "no line, too long, too short, or wrong in its length or digits", "the prefix is missing or another's", "an unknown command",
    "no room for the reply", NULL, NULL, NULL, NULL, NULL, "an image of a wrong length", "an impossible image",
};

static const char *words_of(const char *const *table, size_t rows, uint64_t number)
{
    return number < rows && table[number] != NULL ? table[number] : "?";
}

const char *refusal_words(uint32_t number)
{
    return words_of(refusals, sizeof refusals / sizeof refusals[0], number);
}

void complain(const char *form, ...)
{
    va_list words;

    fputs("pressgully: live: ", stderr);
    va_start(words, form);
    vfprintf(stderr, form, words);
    va_end(words);
    fputc('\n', stderr);
}

void say(const char *form, ...)
{
    struct pollfd out = {STDOUT_FILENO, POLLOUT, 0};
    char line[SAY_ROOM];
    va_list words;
    int wide;

    va_start(words, form);
    wide = vsnprintf(line, sizeof line - 1, form, words);
    va_end(words);
    if (wide < 0 || poll(&out, 1, 0) != 1 || (out.revents & POLLOUT) == 0)
        return;
    if (wide > (int)sizeof line - 2)
        wide = (int)sizeof line - 2;
    line[wide++] = '\n';
    if (write(STDOUT_FILENO, line, (size_t)wide) < 0)
        return; /* nobody is there any more: the controller goes on */
}

struct told told_of(const uint8_t *state)
{
    struct told told;

    told.stage = state_number(state, STATE_STAGE);
    told.contact = state_number(state, STATE_CONTACT) != 0;
    return told;
}

/* Tenths as a number with a point. */
struct tenths {
    char text[32];
};

static struct tenths tenths(int64_t number)
{
    const uint64_t size = number < 0 ? -(uint64_t)number : (uint64_t)number;
    struct tenths t;

    snprintf(t.text, sizeof t.text, "%s%" PRIu64 ".%u", number < 0 ? "-" : "", size / 10, (unsigned)(size % 10));
    return t;
}

/* What a terminal can show of a line; other bytes as a dot. */
static void readable(char shown[SHOWN_BYTES + 1], const uint8_t *line, size_t length)
{
    size_t i;

    for (i = 0; i < length && i < SHOWN_BYTES; i++)
        shown[i] = (char)(line[i] >= ' ' && line[i] <= '~' ? line[i] : '.');
    shown[i] = '\0';
}

void tell_tick(struct told *told, uint64_t tick, bool contact, const uint8_t *answer, const uint8_t *state, const uint8_t *line,
               size_t length)
{
    const struct told now = {answer_number(answer, ANSWER_STAGE), contact};
    const uint32_t number = (uint32_t)answer_number(answer, ANSWER_TOLD);
    const int64_t gross = answer_number(answer, ANSWER_GROSS), error = answer_number(answer, ANSWER_ERROR);
    char at[32], gates[5], shown[SHOWN_BYTES + 1];

    snprintf(at, sizeof at, "%8" PRIu64 ".%02u s ", tick / TICKS_A_SECOND, (unsigned)(tick % TICKS_A_SECOND));
    if (number != 0 && line != NULL) {
        readable(shown, line, length);
        say("%s refused %" PRIu32 ", %s: %s", at, number, refusal_words(number), shown);
    }
    if (now.contact != told->contact)
        say("%s refill contact %s, gross %" PRId64 " kg", at, now.contact ? "closed" : "open", gross);
    if (now.stage != told->stage) {
        gates_word(gates, answer);
        say("%s stage %02" PRId64 " %s%s%s, gates %s, gross %" PRId64 " kg", at, now.stage,
            words_of(stages, sizeof stages / sizeof stages[0], (uint64_t)now.stage), now.stage == AT_REST && error != 0 ? ", error: " : "",
            now.stage == AT_REST && error != 0 ? words_of(errors, sizeof errors / sizeof errors[0], (uint64_t)error) : "", gates, gross);
    }
    /* not by the count, which CA or DT of the same tick has lowered before */
    if (told->stage == JUDGING && now.stage == AT_REST && error == 0)
        say("%s batch %" PRId64 " booked: %" PRId64 " kg, %s; total %" PRId64 " kg", at, state_number(state, STATE_BATCHES),
            state_number(state, STATE_UNDO_WEIGHT), judgement_word(answer), state_number(state, STATE_TOTAL));
    if (answer_number(answer, ANSWER_DAY_CLOSED) != 0)
        say("%s day closed, in divisions: opening %s, refilled %s, used %s, unbooked %s, closing %s", at,
            tenths(answer_number(answer, ANSWER_OPENING)).text, tenths(answer_number(answer, ANSWER_REFILLED)).text,
            tenths(answer_number(answer, ANSWER_USED)).text, tenths(answer_number(answer, ANSWER_UNBOOKED)).text,
            tenths(answer_number(answer, ANSWER_CLOSING)).text);
    *told = now;
}
