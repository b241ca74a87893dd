/* The README's ten lines: open, tick, answer a line. board/check compiles them, runs them and holds what they print to example.out. */
#include "fields.h"
#include "pressgully.h"

#include <stdio.h>

/* Settings A of the outline; the discharge's delays 0, its limit 6,000 ticks. */
static const int32_t numbers[SETTINGS] = {0, 100000, 10000, 10000, 1, 2, 100, 5, 20, 100, 2, 1, 0, 0, 0, 0, 0, 6000, 0, 0, 0, 10000,
                                          0, 0, 6000};

int main(void)
{
    uint8_t settings[PRESSGULLY_SETTINGS] = {0}, state[PRESSGULLY_STATE], answer[PRESSGULLY_ANSWER], reply[PRESSGULLY_REPLY];
    const uint8_t received[] = {'R', 'W', '\r', '\n'};
    const uint32_t no_points[1] = {0};

    for (int i = 0; i < SETTINGS; i++)
        put_setting(settings, (enum setting)i, numbers[i]);
    if (pressgully_open(settings, sizeof settings, state, sizeof state) != 0)
        return 1;
    pressgully_tick(settings, sizeof settings, state, sizeof state, 44210, false, PRESSGULLY_NOTHING, no_points, 0, answer, sizeof answer);
    printf("gross %d\n", (int)answer_number(answer, ANSWER_GROSS));
    pressgully_line(settings, sizeof settings, state, sizeof state, 44211, false, received, sizeof received, reply, sizeof reply, answer,
                    sizeof answer);
    printf("told %d: %.*s", answer[0], (int)answer[15], (const char *)reply);
    return 0;
}
