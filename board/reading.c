/* What reading.h says. */
#include "reading.h"

#include "fields.h"
#include "pressgully.h"

#include <string.h>

bool next_line(FILE *input, struct line *line)
{
    int byte;

    line->length = 0;
    line->at = 0;
    while ((byte = getc(input)) != EOF && byte != '\n')
        if (line->length < LINE_ROOM)
            line->bytes[line->length++] = (uint8_t)byte;
    return byte == '\n' || line->length > 0;
}

bool take(struct line *line, char byte)
{
    if (line->at == line->length || line->bytes[line->at] != (uint8_t)byte)
        return false;
    line->at++;
    return true;
}

bool take_number(struct line *line, int32_t *number)
{
    const bool minus = take(line, '-');
    int digits = 0;
    int32_t n = 0;

    for (; line->at < line->length && line->bytes[line->at] >= '0' && line->bytes[line->at] <= '9'; line->at++) {
        if (++digits > 9)
            return false;
        n = 10 * n + (line->bytes[line->at] - '0');
    }
    *number = minus ? -n : n;
    return digits > 0;
}

bool take_settings(struct line *line, uint8_t *settings)
{
    int i;

    memset(settings, 0, PRESSGULLY_SETTINGS);
    for (i = 0; i < SETTINGS; i++) {
        int32_t number;

        if ((i > 0 && !take(line, ' ')) || !take_number(line, &number))
            return false;
        put_setting(settings, (enum setting)i, number);
    }
    return line->at == line->length;
}
