/* What outputs.h says. */
#include "outputs.h"

#include "fields.h"
#include "pressgully.h"

#include <inttypes.h>
#include <stdarg.h>
#include <stdio.h>

/* A text that grows; what has no room is left out. */
struct text {
    char *bytes;
    size_t length;
};

static void add(struct text *text, const char *form, ...)
{
    const size_t room = OUTPUTS_ROOM - text->length;
    va_list words;
    int wide;

    va_start(words, form);
    wide = vsnprintf(text->bytes + text->length, room, form, words);
    va_end(words);
    if (wide > 0)
        text->length += (size_t)wide < room ? (size_t)wide : room - 1;
}

static char gate(const uint8_t *answer, enum answer_field f, char letter)
{
    return answer_number(answer, f) != 0 ? letter : '-';
}

void gates_word(char word[5], const uint8_t *answer)
{
    word[0] = gate(answer, ANSWER_LARGE, 'L');
    word[1] = gate(answer, ANSWER_MEDIUM, 'M');
    word[2] = gate(answer, ANSWER_SMALL, 'S');
    word[3] = gate(answer, ANSWER_DISCHARGE, 'D');
    word[4] = '\0';
}

const char *judgement_word(const uint8_t *answer)
{
    static const char *const judgements[] = {"none", "ok", "over", "under"};

    return judgements[answer_number(answer, ANSWER_JUDGEMENT) & 3];
}

/* Seven numbers, the first of which is this field. */
static void add_points(struct text *text, const char *key, const uint8_t *state, enum state_field first)
{
    int i;

    for (i = 0; i < PRESSGULLY_POINTS; i++)
        add(text, "%s%" PRId64, i == 0 ? key : ",", state_number(state, (enum state_field)(first + i)));
}

static void add_state(struct text *text, const uint8_t *state)
{
    static const struct {
        const char *key;
        enum state_field field;
    } shown[] = {
        {" zero=", STATE_ZERO}, {" tracked=", STATE_TRACKED}, {" tare=", STATE_TARE}, {" opening=", STATE_OPENING},
        {" refilled=", STATE_REFILLED}, {" used=", STATE_USED}, {" unbooked=", STATE_UNBOOKED}, {" last=", STATE_LAST},
        {" total=", STATE_TOTAL}, {" batches=", STATE_BATCHES},
    };
    size_t i;

    for (i = 0; i < sizeof shown / sizeof shown[0]; i++)
        add(text, "%s%" PRId64, shown[i].key, state_number(state, shown[i].field));
    add_points(text, " setpoints=", state, STATE_FINAL);
    if (state_number(state, STATE_WAITS) == 1)
        add_points(text, " waiting=", state, STATE_WAITING_FINAL);
    else
        add(text, " waiting=-");
}

static void add_answer(struct text *text, const uint8_t *answer, const uint8_t *reply)
{
    const int64_t replied = answer_number(answer, ANSWER_REPLIED);
    char gates[5];
    int64_t i;

    gates_word(gates, answer);
    add(text, "answer=%" PRId64 " reply=%s", answer_number(answer, ANSWER_TOLD), replied == 0 ? "-" : "");
    for (i = 0; i < replied; i++)
        add(text, "%02x", reply[i]);
    add(text, " good=%" PRId64 " gross=%" PRId64 " net=%" PRId64 " overload=%" PRId64 " stable=%" PRId64 " stage=%02" PRId64,
        answer_number(answer, ANSWER_GOOD), answer_number(answer, ANSWER_GROSS), answer_number(answer, ANSWER_NET),
        answer_number(answer, ANSWER_OVERLOAD), answer_number(answer, ANSWER_STABLE), answer_number(answer, ANSWER_STAGE));
    add(text, " gates=%s judgement=%s error=%" PRId64 " nearzero=%" PRId64 " full=%" PRId64, gates, judgement_word(answer),
        answer_number(answer, ANSWER_ERROR), answer_number(answer, ANSWER_NEAR_ZERO), answer_number(answer, ANSWER_FULL));
    if (answer_number(answer, ANSWER_ANALOG_KIND) == 0)
        add(text, " analog=-");
    else
        add(text, " analog=%016" PRIx64, bits_at(answer, answer_fields[ANSWER_ANALOG]));
}

size_t outputs_line(char line[OUTPUTS_ROOM], const uint8_t *answer, const uint8_t *reply, const uint8_t *state)
{
    struct text text = {line, 0};

    add_answer(&text, answer, reply);
    add_state(&text, state);
    add(&text, "\n");
    return text.length;
}
