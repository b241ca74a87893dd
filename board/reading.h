/* The lines of a log and of a settings file, read as replay reads them: numbers of an optional minus and one to nine digits, separated by
 * single spaces. For the main loops of this folder. */
#ifndef PRESSGULLY_READING_H
#define PRESSGULLY_READING_H

#include <stdbool.h>
#include <stddef.h>
#include <stdint.h>
#include <stdio.h>

enum {
    LINE_ROOM = 320,    /* more than the longest line that can be read, 25 numbers of a minus and nine digits */
    COMMAND_LIMIT = 100 /* bytes of a request */
};

struct line {
    uint8_t bytes[LINE_ROOM];
    size_t length, at; /* `at` is how far it has been read */
};

/* The next line of the input without its LF; a last one without LF counts. What is past the room of a line is dropped: no line that long
 * can be read anyway. */
bool next_line(FILE *input, struct line *line);

/* This byte, and past it. */
bool take(struct line *line, char byte);

/* An optional minus and one to nine digits. */
bool take_number(struct line *line, int32_t *number);

/* The settings line: 25 numbers, separated by single spaces, and nothing behind them. Fills a settings image. */
bool take_settings(struct line *line, uint8_t *settings);

#endif
