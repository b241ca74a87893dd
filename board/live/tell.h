/* What the live controller says to its user: complaints, and a line whenever the stage changes, a batch is booked, a day is closed, the
 * refill contact changes or a request is refused. */
#ifndef PRESSGULLY_TELL_H
#define PRESSGULLY_TELL_H

#include <stdbool.h>
#include <stddef.h>
#include <stdint.h>

#if defined(__GNUC__)
#define TELL_FORM __attribute__((format(printf, 1, 2)))
#else
#define TELL_FORM
#endif

/* One line on standard error. */
void complain(const char *form, ...) TELL_FORM;

/* One line on standard output. It never holds up a tick: where nobody reads the output, the line is left out. */
void say(const char *form, ...) TELL_FORM;

/* What a refusal's number means. */
const char *refusal_words(uint32_t number);

/* What was told last, to tell a change by. */
struct told {
    int64_t stage;
    bool contact;
};

/* As the state image has it, before the first tick of a run. */
struct told told_of(const uint8_t *state);

/* A tick that was run: its number in the whole log, the refill contact, and the line that it had, or NULL. */
void tell_tick(struct told *told, uint64_t tick, bool contact, const uint8_t *answer, const uint8_t *state, const uint8_t *line,
               size_t length);

#endif
