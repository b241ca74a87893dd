/* A tick's outputs as replay prints them, one line, so that a main loop in C can be compared with the proved program byte for byte. */
#ifndef PRESSGULLY_OUTPUTS_H
#define PRESSGULLY_OUTPUTS_H

#include <stddef.h>
#include <stdint.h>

enum { OUTPUTS_ROOM = 1280 }; /* more than the longest line: 22 numbers, 14 setpoints and the reply, with their names */

/* Writes the line with its LF, and gives its length. */
size_t outputs_line(char line[OUTPUTS_ROOM], const uint8_t *answer, const uint8_t *reply, const uint8_t *state);

/* The four gates of an answer, a character each, and the judgement's word, as replay has them. */
void gates_word(char word[5], const uint8_t *answer);
const char *judgement_word(const uint8_t *answer);

#endif
