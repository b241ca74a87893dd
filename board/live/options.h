/* The words behind `./pressgully live`. */
#ifndef PRESSGULLY_OPTIONS_H
#define PRESSGULLY_OPTIONS_H

#include "plant.h"

#include <stdbool.h>
#include <stdint.h>

enum {
    SPEED_MOST = 1000,   /* times as fast as the clock */
    PATH_MOST = 4000,    /* bytes of a file's name as it is given, with its end */
    PATH_ROOM = 4096     /* and with what is added to it */
};

struct options {
    const char *home;            /* the folder that has examples/ and target/ */
    enum plant_kind plant;
    bool plant_given, log_given, state_given;
    const char *settings;        /* NULL: not given */
    uint32_t speed, baud;
    uint64_t ticks, seed;        /* ticks 0: until it is stopped */
    bool seed_given, resume, quiet;
    const char *line, *outputs;  /* or NULL */
    char log[PATH_MOST], state[PATH_MOST];
};

/* False where a word is wrong: it says so in one line. Log and state stand in the home's target/live/ where they are not given. */
bool take_options(struct options *o, int count, char **words);

/* The plant's word. */
const char *plant_word(enum plant_kind kind);

#endif
