/* What the live controller keeps on disk, and how it goes on after a power cut. docs/LIVE.md has the same for a reader.
 *
 *   LOG            the settings, then a line for each tick: what replay reads
 *   STATE          the state image, 288 bytes and nothing else, as the board would keep it
 *   STATE.plant    what the world keeps by itself while the board has no power: the plant, and how far the log goes. Two slots, written in
 *                  turn, each with the sum of the image that it goes with
 *   OUTPUTS        where it is asked for: what replay prints for the log, so it is kept from a run's beginning or not at all
 *
 * At each tick log and outputs are written, then a slot, then the image. A cut between two of these leaves the image and the slot of the
 * tick before, and a log and outputs that are cut to that slot's lengths when it goes on. */
#ifndef PRESSGULLY_KEEP_H
#define PRESSGULLY_KEEP_H

#include "options.h"
#include "plant.h"
#include "pressgully.h"

#include <stdbool.h>
#include <stddef.h>
#include <stdint.h>

/* All that the firmware keeps from tick to tick. */
struct images {
    uint8_t settings[PRESSGULLY_SETTINGS];
    uint8_t state[PRESSGULLY_STATE];
};

/* How far a file goes that grows: its bytes, and the sum of them. */
struct extent {
    uint64_t length, sum;
};

struct keep {
    int log, state, plant, outputs;           /* outputs is -1 where none are kept */
    uint64_t ticks;                           /* of the whole log */
    struct extent log_extent, outputs_extent; /* the outputs' length is 0 where none are kept */
};

/* A text to be written, and its length. */
struct piece {
    const char *bytes;
    size_t length;
};

/* Each of these says in one line what hinders it, and is then false. */

/* A settings file: its first line. */
bool keep_settings(const char *path, uint8_t *settings);

/* A new run: new files, with the settings, the opened state and the plant. A file of an earlier run is moved aside in the default place;
 * one that the user has named is not touched, and nothing is begun. Where it fails, the files are as they were. */
bool keep_begin(struct keep *k, const struct options *o, const struct images *m, const struct plant *p);

/* After a cut: the images and the plant as they were kept. Where anything is refused, no file has changed. Without --outputs the run has
 * none from its next tick on. */
bool keep_resume(struct keep *k, const struct options *o, struct images *m, struct plant *p);

/* A tick that was run: its line of the log, its outputs, the state and the plant after it. */
bool keep_tick(struct keep *k, struct piece logged, struct piece outputs, const uint8_t *state, const struct plant *p);

#endif
