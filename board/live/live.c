/* A live controller at the desk: the firmware's main loop on a clock, with a pseudo-terminal for its serial line and a simulated plant for
 * its scale, gates and refill contact. `./pressgully live` builds and starts it; docs/LIVE.md says what it does and keeps.
 *
 * Between two ticks it keeps the settings image and the state image, and nothing else of the controller. At a tick bytes come in, the plant
 * moves, the controller is called, log and state are kept, and then the reply goes out: what a client has read, no cut takes back.
 *
 * Exit status: 0; 1 where something was refused or failed, 2 where a word is wrong. */
#define _XOPEN_SOURCE 600

#include "fields.h"
#include "keep.h"
#include "options.h"
#include "outputs.h"
#include "plant.h"
#include "pressgully.h"
#include "reading.h"
#include "receive.h"
#include "tell.h"
#include "terminal.h"

#include <inttypes.h>
#include <signal.h>
#include <stdio.h>
#include <string.h>
#include <time.h>

#define SECOND INT64_C(1000000000) /* in ns */

enum {
    TICK = 10000000,    /* ns of a tick at speed 1 */
    BEHIND = 250000000, /* ns: a lag up to here is made up for, a longer one is given up, and the ticks go on from now */
    LOGGED_ROOM = COMMAND_LIMIT + 32,
    AGAIN_ROOM = 4 * PATH_ROOM + 256 /* the words for going on: four paths at most */
};

struct live {
    struct options options;
    struct images images;
    struct rig rig;
    struct plant plant;
    struct keep keep;
    struct terminal terminal;
    struct receive receive;
    struct told told;
    uint8_t wires[PRESSGULLY_ANSWER]; /* the last answer: the gates as the plant sees them */
};

static volatile sig_atomic_t stopping;

static void stop(int signal)
{
    (void)signal;
    stopping = 1;
}

/* ---- one tick */

static uint32_t call(struct live *l, struct reading reading, bool asked, uint8_t *reply)
{
    static const uint32_t no_points[1];
    struct images *m = &l->images;

    if (asked)
        return pressgully_line(m->settings, sizeof m->settings, m->state, sizeof m->state, reading.count, reading.contact,
                               l->receive.bytes, l->receive.length, reply, PRESSGULLY_REPLY, l->wires, sizeof l->wires);
    return pressgully_tick(m->settings, sizeof m->settings, m->state, sizeof m->state, reading.count, reading.contact,
                           PRESSGULLY_NOTHING, no_points, 0, l->wires, sizeof l->wires);
}

/* The tick's line of the log. */
static struct piece logged(const struct live *l, struct reading reading, bool asked, size_t line, char text[LOGGED_ROOM])
{
    uint8_t request[COMMAND_LIMIT] = "--";
    size_t length = 2;
    struct piece piece = {text, 0};

    if (asked)
        length = receive_logged(&l->receive, line, request);
    piece.length = (size_t)snprintf(text, LOGGED_ROOM, "%" PRId32 " %d ", reading.count, reading.contact ? 1 : 0);
    memcpy(text + piece.length, request, length);
    piece.length += length;
    text[piece.length++] = '\n';
    return piece;
}

static bool keep(struct live *l, struct piece log_line, const uint8_t *reply)
{
    char text[OUTPUTS_ROOM];
    struct piece outputs = {text, 0};

    if (l->options.outputs != NULL)
        outputs.length = outputs_line(text, l->wires, reply, l->images.state);
    return keep_tick(&l->keep, log_line, outputs, l->images.state, &l->plant);
}

/* False where the run has to end. */
static bool tick(struct live *l)
{
    uint8_t came[RECEIVE_ROOM], reply[PRESSGULLY_REPLY];
    char text[LOGGED_ROOM];
    struct reading reading;
    size_t line = 0;
    uint32_t told;
    bool asked;

    receive_put(&l->receive, came, terminal_take(&l->terminal, came, receive_room(&l->receive)));
    asked = receive_line(&l->receive, &line);
    reading = plant_tick(&l->plant, &l->rig, l->wires);
    told = call(l, reading, asked, reply);
    if (told == 20 || told == 21 || told == 10) {
        memset(l->wires, 0, sizeof l->wires);
        complain("all gates are shut: the images were refused, %" PRIu32 ": %s", told, refusal_words(told));
        return false;
    }
    if (!keep(l, logged(l, reading, asked, line, text), reply))
        return false;
    if (!terminal_reply(&l->terminal, reply, (size_t)answer_number(l->wires, ANSWER_REPLIED)))
        say("a reply is lost: nobody reads the line");
    terminal_give(&l->terminal);
    if (!l->options.quiet)
        tell_tick(&l->told, l->keep.ticks, reading.contact, l->wires, l->images.state, asked ? l->receive.bytes : NULL, line);
    if (asked)
        receive_done(&l->receive);
    return true;
}

/* ---- the clock */

static int64_t now(void)
{
    struct timespec t;

    clock_gettime(CLOCK_MONOTONIC, &t);
    return t.tv_sec * SECOND + t.tv_nsec;
}

/* Waits for this time, or for a signal, and gives the time that the tick counts from: now where it is too far behind. */
static int64_t pace(int64_t next)
{
    const int64_t time = now();
    struct timespec until;

    if (time > next + BEHIND)
        return time;
    until.tv_sec = (time_t)(next / SECOND);
    until.tv_nsec = (long)(next % SECOND);
    if (time < next)
        clock_nanosleep(CLOCK_MONOTONIC, TIMER_ABSTIME, &until, NULL);
    return next;
}

static bool run(struct live *l)
{
    const int64_t period = TICK / l->options.speed;
    const uint64_t first = l->keep.ticks;
    int64_t next = now();

    while (!stopping && (l->options.ticks == 0 || l->keep.ticks - first < l->options.ticks)) {
        if (!tick(l))
            return false;
        next = pace(next + period);
    }
    return true;
}

/* ---- beginning and end */

static void catch_signals(void)
{
    static const int ends[] = {SIGINT, SIGTERM, SIGHUP};
    struct sigaction action;
    size_t i;

    memset(&action, 0, sizeof action);
    sigemptyset(&action.sa_mask);
    action.sa_handler = stop;
    for (i = 0; i < sizeof ends / sizeof ends[0]; i++)
        sigaction(ends[i], &action, NULL);
    action.sa_handler = SIG_IGN;
    sigaction(SIGPIPE, &action, NULL);
}

static bool begin(struct live *l)
{
    struct options *o = &l->options;
    char path[PATH_ROOM];
    const char *settings = o->settings;
    uint32_t told;

    if (settings == NULL) {
        snprintf(path, sizeof path, "%s/examples/%s.settings", o->home, o->plant == PLANT_TANK ? "day" : "batch");
        settings = path;
    }
    if (!keep_settings(settings, l->images.settings))
        return false;
    told = pressgully_open(l->images.settings, sizeof l->images.settings, l->images.state, sizeof l->images.state);
    if (told != 0) {
        complain("the settings %s are refused, %" PRIu32 ": %s", settings, told, refusal_words(told));
        return false;
    }
    l->rig = rig_of(l->images.settings);
    l->plant = plant_of(o->plant, &l->rig, o->seed);
    return keep_begin(&l->keep, o, &l->images, &l->plant);
}

static bool resume(struct live *l)
{
    if (!keep_resume(&l->keep, &l->options, &l->images, &l->plant))
        return false;
    l->rig = rig_of(l->images.settings);
    plant_power_back(&l->plant, &l->rig);
    return true;
}

static void tell_beginning(const struct live *l)
{
    const struct options *o = &l->options;
    const int address = (int)setting(l->images.settings, SETTING_ADDRESS);
    char baud[32], cut[64] = "";

    snprintf(baud, sizeof baud, "%" PRIu32 " baud", o->baud);
    if (o->resume)
        snprintf(cut, sizeof cut, ", going on after a cut, at tick %" PRIu64, l->keep.ticks);
    say("A %s with its controller, %" PRIu32 " ticks a second, %s%s.", plant_word(l->plant.kind), 100 * o->speed,
        o->baud == 0 ? "bytes as fast as they come" : baud, cut);
    say("  line   %s%s%s", l->terminal.path, o->line == NULL ? "" : ", also ", o->line == NULL ? "" : o->line);
    say("  talk   picocom --echo --omap crcrlf %s     (type RW and Enter; Ctrl-A Ctrl-X leaves)",
        o->line == NULL ? l->terminal.path : o->line);
    if (address != 0)
        say("  prefix @%02d before every command: @%02dRW", address, address);
    say("  log    %s", o->log);
    say("  state  %s", o->state);
    say("Ctrl-C ends it.");
}

/* With the words that it needs again. The seed and the settings are not among them: plant and log have them. */
static void tell_end(const struct live *l)
{
    const struct options *o = &l->options;
    char speed[16], baud[16], words[AGAIN_ROOM] = "";
    const struct {
        const char *name, *word; /* NULL: not needed */
    } again[] = {
        {"--plant", l->plant.kind == PLANT_TANK ? "tank" : NULL}, {"--log", o->log_given ? o->log : NULL},
        {"--state", o->state_given ? o->state : NULL}, {"--outputs", o->outputs}, {"--line", o->line},
        {"--speed", o->speed != 1 ? speed : NULL}, {"--baud", o->baud != BAUD_DEFAULT ? baud : NULL},
    };
    size_t i, length = 0;

    snprintf(speed, sizeof speed, "%" PRIu32, o->speed);
    snprintf(baud, sizeof baud, "%" PRIu32, o->baud);
    for (i = 0; i < sizeof again / sizeof again[0]; i++)
        if (again[i].word != NULL && length < sizeof words)
            length += (size_t)snprintf(words + length, sizeof words - length, " %s %s", again[i].name, again[i].word);
    say("Ended after %" PRIu64 " ticks. The state stands in %s.", l->keep.ticks, o->state);
    say("To go on: ./pressgully live --resume%s", words);
}

int main(int argc, char **argv)
{
    static struct live l;
    bool ok;

    if (!take_options(&l.options, argc, argv))
        return 2;
    catch_signals();
    ok = terminal_open(&l.terminal, l.options.baud, l.options.line) && (l.options.resume ? resume(&l) : begin(&l)) &&
         terminal_ready(&l.terminal);
    if (ok) {
        l.told = told_of(l.images.state);
        tell_beginning(&l);
        ok = run(&l);
        tell_end(&l);
    }
    terminal_close(&l.terminal);
    return ok ? 0 : 1;
}
