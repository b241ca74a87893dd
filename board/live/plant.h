/* A simulated plant that answers the gates: what lies on the scale, what is in flight, noise from a seed, and the refill contact. Rates,
 * marks and noise are parts of what the scale can carry, so that any settings have their plant; docs/LIVE.md tells what each does.
 *
 *   hopper   three feeds and a discharge; never refilled by a tanker
 *   tank     a dosing pump draws all the time; below a low mark a tanker connects, waits, pours up to a high mark and disconnects
 *
 * In mode 1 the gates feed the vessel, in mode 2 they draw from it. The contact is closed while the tanker is connected. */
#ifndef PRESSGULLY_PLANT_H
#define PRESSGULLY_PLANT_H

#include <stdbool.h>
#include <stdint.h>

enum plant_kind { PLANT_HOPPER = 1, PLANT_TANK = 2 };

enum tanker { TANKER_AWAY, TANKER_CONNECTED, TANKER_POURING, TANKER_SHUT };

enum {
    PLANT_LAG = 160,                  /* ticks from a feed's gate to the scale */
    PLANT_NUMBERS = 7,                /* numbers of a plant, eight bytes each, before its lag */
    PLANT_BYTES = 8 * PLANT_NUMBERS + PLANT_LAG
};

struct plant {
    enum plant_kind kind;
    int64_t weight;                   /* what lies on the scale, in parts of a count above the zero count */
    uint64_t random;                  /* never 0 */
    int64_t shake;                    /* how far the reading swings, in 1/256 of a count */
    enum tanker tanker;
    int32_t wait;                     /* ticks left of the tanker's waiting */
    int32_t at;                       /* the place in `fed` of this tick */
    uint8_t fed[PLANT_LAG];           /* the feeds that were open at the last ticks, one bit each */
};

/* What the settings make of a plant, once. */
struct rig {
    int64_t zero, full;               /* the zero count; what the scale can carry, in the weight's units */
    int64_t rest, swing, splash;      /* noise at rest, and how far flow and a tanker shake it, in the units of `shake` */
    int64_t knock;                    /* ticks from one knock to the next, on average */
    bool draws;                       /* mode 2 */
};

/* What the plant gives the board at a tick. */
struct reading {
    int32_t count;
    bool contact;
};

struct rig rig_of(const uint8_t *settings);
struct plant plant_of(enum plant_kind kind, const struct rig *rig, uint64_t seed);

/* One tick, with the gates of the tick before as the board's answer has them. */
struct reading plant_tick(struct plant *p, const struct rig *rig, const uint8_t *answer);

/* A power cut shuts the gates: what was in flight has landed when the power is back. */
void plant_power_back(struct plant *p, const struct rig *rig);

/* A plant in bytes and back; false where no plant has these bytes. */
void plant_write(const struct plant *p, uint8_t bytes[PLANT_BYTES]);
bool plant_read(struct plant *p, const uint8_t bytes[PLANT_BYTES]);

#endif
