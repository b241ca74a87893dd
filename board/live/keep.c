/* What keep.h says. */
#define _DEFAULT_SOURCE
#define _XOPEN_SOURCE 600

#include "keep.h"

#include "fields.h"
#include "reading.h"
#include "tell.h"

#include <errno.h>
#include <fcntl.h>
#include <inttypes.h>
#include <stdio.h>
#include <string.h>
#include <sys/file.h>
#include <sys/stat.h>
#include <unistd.h>

#define PLANT_END ".plant"
#define EARLY_END ".new" /* of a file in the default place as long as its run has not begun */
#define OUTPUTS_FIRST "answer=0\n" /* replay's first line under settings that are taken */

enum {
    SLOT_NUMBERS = 7,                                            /* before the plant: mark, image, ticks, log and outputs with their sums */
    SLOT_PLACE = 8 * SLOT_NUMBERS,
    SLOT_SUMMED = SLOT_PLACE + PLANT_BYTES,                      /* and behind it its own sum */
    SLOT_BYTES = SLOT_SUMMED + 8,
    SLOTS = 2,
    IMAGE_ROOM = PRESSGULLY_STATE + 1,                           /* so that a file that is too long shows */
    CHUNK = 65536                                                /* bytes of a file that are summed at once */
};

static const int64_t slot_mark = 0x50474c4956450002; /* PGLIVE, and the slot's version: since 2 it has the outputs' sum */

/* ---- sums: FNV-1a of 64 bits, against files that do not belong together, and not against malice */

static const uint64_t no_sum = UINT64_C(0xcbf29ce484222325);

static uint64_t sum_on(uint64_t sum, const void *bytes, size_t length)
{
    const uint8_t *at = bytes;
    size_t i;

    for (i = 0; i < length; i++)
        sum = (sum ^ at[i]) * UINT64_C(0x100000001b3);
    return sum;
}

/* ---- slots */

struct slot {
    uint64_t image_sum, ticks;
    struct extent log, outputs;
    struct plant plant;
};

static struct field slot_field(int n)
{
    struct field f = {0, 8, true};

    f.place = (uint16_t)(8 * n);
    return f;
}

static void slot_write(const struct slot *s, uint8_t bytes[SLOT_BYTES])
{
    const uint64_t numbers[SLOT_NUMBERS] = {(uint64_t)slot_mark, s->image_sum, s->ticks, s->log.length, s->log.sum, s->outputs.length,
                                            s->outputs.sum};
    int i;

    for (i = 0; i < SLOT_NUMBERS; i++)
        put_number(bytes, slot_field(i), (int64_t)numbers[i]);
    plant_write(&s->plant, bytes + SLOT_PLACE);
    put_number(bytes, slot_field(SLOT_SUMMED / 8), (int64_t)sum_on(no_sum, bytes, SLOT_SUMMED));
}

static bool slot_read(struct slot *s, const uint8_t bytes[SLOT_BYTES])
{
    s->image_sum = bits_at(bytes, slot_field(1));
    s->ticks = bits_at(bytes, slot_field(2));
    s->log.length = bits_at(bytes, slot_field(3));
    s->log.sum = bits_at(bytes, slot_field(4));
    s->outputs.length = bits_at(bytes, slot_field(5));
    s->outputs.sum = bits_at(bytes, slot_field(6));
    return bits_at(bytes, slot_field(0)) == (uint64_t)slot_mark &&
           bits_at(bytes, slot_field(SLOT_SUMMED / 8)) == sum_on(no_sum, bytes, SLOT_SUMMED) && plant_read(&s->plant, bytes + SLOT_PLACE);
}

/* The slot of this image. Where both are, the image did not change at the last tick, and the newer slot has the whole log. */
static bool slot_of(int file, const uint8_t *state, struct slot *found)
{
    const uint64_t sum = sum_on(no_sum, state, PRESSGULLY_STATE);
    uint8_t bytes[SLOT_BYTES];
    bool any = false;
    struct slot s;
    int i;

    for (i = 0; i < SLOTS; i++)
        if (pread(file, bytes, SLOT_BYTES, (off_t)i * SLOT_BYTES) == SLOT_BYTES && slot_read(&s, bytes) && s.image_sum == sum &&
            (!any || s.ticks > found->ticks)) {
            *found = s;
            any = true;
        }
    return any;
}

/* ---- files */

static bool write_whole(int file, const char *bytes, size_t length)
{
    while (length > 0) {
        const ssize_t went = write(file, bytes, length);

        if (went < 0 && errno == EINTR)
            continue;
        if (went < 0)
            return false;
        bytes += went;
        length -= (size_t)went;
    }
    return true;
}

static bool add(int file, struct extent *extent, struct piece text)
{
    extent->length += text.length;
    extent->sum = sum_on(extent->sum, text.bytes, text.length);
    return write_whole(file, text.bytes, text.length);
}

static bool add_both(struct keep *k, struct piece logged, struct piece outputs)
{
    return add(k->log, &k->log_extent, logged) && (k->outputs < 0 || add(k->outputs, &k->outputs_extent, outputs));
}

/* Whether a file is at least as long as it was, and so far the same. */
static bool goes_as_far(int file, struct extent kept)
{
    struct extent e = {0, no_sum};
    uint8_t chunk[CHUNK];

    while (e.length < kept.length) {
        const uint64_t left = kept.length - e.length;
        const ssize_t came = pread(file, chunk, left < CHUNK ? (size_t)left : CHUNK, (off_t)e.length);

        if (came <= 0)
            return false;
        e.length += (uint64_t)came;
        e.sum = sum_on(e.sum, chunk, (size_t)came);
    }
    return e.sum == kept.sum;
}

/* The slot first: as long as the image is the older one, the other slot is still its own. */
static bool commit(const struct keep *k, const uint8_t *state, const struct plant *p)
{
    struct slot s;
    uint8_t bytes[SLOT_BYTES];

    s.image_sum = sum_on(no_sum, state, PRESSGULLY_STATE);
    s.ticks = k->ticks;
    s.log = k->log_extent;
    s.outputs = k->outputs_extent;
    s.plant = *p;
    slot_write(&s, bytes);
    return pwrite(k->plant, bytes, SLOT_BYTES, (off_t)(k->ticks % SLOTS) * SLOT_BYTES) == SLOT_BYTES &&
           pwrite(k->state, state, PRESSGULLY_STATE, 0) == PRESSGULLY_STATE;
}

bool keep_tick(struct keep *k, struct piece logged, struct piece outputs, const uint8_t *state, const struct plant *p)
{
    k->ticks++;
    if (add_both(k, logged, outputs) && commit(k, state, p))
        return true;
    complain("log and state can't be kept any more: %s", strerror(errno));
    return false;
}

static void plant_path(char path[PATH_ROOM], const char *state)
{
    snprintf(path, PATH_ROOM, "%s" PLANT_END, state);
}

/* Two programs on the same files would spoil both. */
static bool lock(int file, const char *path)
{
    if (flock(file, LOCK_EX | LOCK_NB) == 0)
        return true;
    complain("another live controller is at work on %s", path);
    return false;
}

bool keep_settings(const char *path, uint8_t *settings)
{
    FILE *file = fopen(path, "rb");
    struct line line;
    bool ok;

    if (file == NULL) {
        complain("the settings %s can't be read: %s", path, strerror(errno));
        return false;
    }
    ok = next_line(file, &line) && take_settings(&line, settings);
    fclose(file);
    if (!ok)
        complain("the first line of %s is not the settings, 25 whole numbers separated by single spaces", path);
    return ok;
}

/* ---- a new run */

/* A file of a new run. One that the user has named is made as it is called. One in the default place is made under an early name and gets
 * its own when all else is done, since a run before may stand there. */
struct new_file {
    const char *path;
    int *file;  /* -1 until it is made */
    bool named; /* by the user */
    bool there; /* a run before has it, in the default place */
};

enum { NEW_FILES = 4 };

static bool exists(const char *path)
{
    struct stat s;

    return lstat(path, &s) == 0;
}

static bool is_folder(const char *path)
{
    struct stat s;

    return lstat(path, &s) == 0 && S_ISDIR(s.st_mode);
}

static void early_path(char early[PATH_ROOM], const struct new_file *f)
{
    snprintf(early, PATH_ROOM, "%s" EARLY_END, f->path);
}

/* target/live/hopper.log becomes target/live/hopper-old.log. */
static void aside_path(char aside[PATH_ROOM], const struct new_file *f)
{
    const char *name = strrchr(f->path, '/'), *dot;

    name = name == NULL ? f->path : name + 1;
    dot = strchr(name, '.');
    snprintf(aside, PATH_ROOM, "%.*s-old%s", (int)(dot - f->path), f->path, dot);
}

/* No program is at work on it, if it is there at all. */
static bool is_idle(const char *path)
{
    const int file = open(path, O_RDONLY | O_CLOEXEC);
    bool ok;

    if (file < 0)
        return true;
    ok = lock(file, path);
    close(file);
    return ok;
}

/* A file of an earlier run: one that the user has named is in the way, one in the default place only while a program works on it. */
static bool is_free(struct new_file *f)
{
    const bool there = exists(f->path);

    if (there && f->named) {
        complain("%s is there already; --resume goes on with it, another name leaves it alone", f->path);
        return false;
    }
    f->there = there;
    return is_idle(f->path);
}

/* What stands aside would be lost, so nobody may be at work on it: a run that was resumed there, or a file that this start has made. A
 * folder in the way is found here too, and not when half of the files have been moved. */
static bool can_move(const struct new_file *f)
{
    char aside[PATH_ROOM];

    if (f->named || !f->there)
        return true;
    aside_path(aside, f);
    if (!is_folder(f->path) && !is_folder(aside))
        return is_idle(aside);
    complain("%s can't be moved to %s: there is a folder", f->path, aside);
    return false;
}

static bool make_folders(const char *home)
{
    static const char *const folders[] = {"target", "target/live"};
    char path[PATH_ROOM];
    size_t i;

    for (i = 0; i < sizeof folders / sizeof folders[0]; i++) {
        snprintf(path, sizeof path, "%s/%s", home, folders[i]);
        if (mkdir(path, 0777) != 0 && errno != EEXIST) {
            complain("the folder %s can't be made: %s", path, strerror(errno));
            return false;
        }
    }
    return true;
}

static bool make(const struct new_file *f)
{
    char early[PATH_ROOM];

    early_path(early, f);
    if (!f->named && !is_idle(early))
        return false;
    if (!f->named)
        unlink(early); /* a cut in a beginning has left it, if it is there */
    if (f->named || f->there || !exists(f->path))
        *f->file = open(f->named ? f->path : early, O_RDWR | O_CREAT | O_EXCL | O_CLOEXEC, 0666);
    else
        errno = EEXIST; /* the user has given another file of this run the name */
    if (*f->file >= 0)
        return lock(*f->file, f->path);
    complain("%s can't be made: %s", f->path, strerror(errno));
    return false;
}

/* Named files first: they are where a beginning is likely to fail. */
static bool make_all(struct new_file *files, int count, const char *home)
{
    bool all_named = true;
    int i;

    for (i = 0; i < count; i++) {
        if (!is_free(&files[i]))
            return false;
        all_named = all_named && files[i].named;
    }
    for (i = 0; i < count; i++)
        if (files[i].named && !make(&files[i]))
            return false;
    for (i = 0; i < count; i++)
        if (!can_move(&files[i]))
            return false;
    if (!all_named && !make_folders(home))
        return false;
    for (i = 0; i < count; i++)
        if (!files[i].named && !make(&files[i]))
            return false;
    return true;
}

/* The run before is moved aside, and the new one has its names. */
static bool name_all(const struct new_file *files, int count)
{
    char early[PATH_ROOM], aside[PATH_ROOM];
    int i;

    for (i = 0; i < count; i++) {
        if (files[i].named)
            continue;
        early_path(early, &files[i]);
        aside_path(aside, &files[i]);
        if ((files[i].there && rename(files[i].path, aside) != 0) || rename(early, files[i].path) != 0) {
            complain("the new %s can't be put in its place: %s", files[i].path, strerror(errno));
            return false;
        }
    }
    return true;
}

static void remove_made(const struct new_file *files, int count)
{
    char early[PATH_ROOM];
    int i;

    for (i = 0; i < count; i++)
        if (*files[i].file >= 0) {
            early_path(early, &files[i]);
            unlink(files[i].named ? files[i].path : early);
        }
}

/* What a run has before its first tick. */
static bool write_first(struct keep *k, const struct images *m, const struct plant *p)
{
    const struct piece outputs = {OUTPUTS_FIRST, strlen(OUTPUTS_FIRST)};
    char text[LINE_ROOM];
    struct piece settings = {text, 0};
    int i;

    for (i = 0; i < SETTINGS; i++)
        settings.length += (size_t)snprintf(text + settings.length, sizeof text - settings.length, "%" PRId64 "%c",
                                            setting(m->settings, (enum setting)i), i + 1 < SETTINGS ? ' ' : '\n');
    if (add_both(k, settings, outputs) && commit(k, m->state, p))
        return true;
    complain("log and state can't be kept: %s", strerror(errno));
    return false;
}

/* Nothing is open, and nothing is kept. */
static void keep_nothing(struct keep *k)
{
    memset(k, 0, sizeof *k);
    k->log = k->state = k->plant = k->outputs = -1;
    k->log_extent.sum = k->outputs_extent.sum = no_sum;
}

bool keep_begin(struct keep *k, const struct options *o, const struct images *m, const struct plant *p)
{
    char plant[PATH_ROOM];
    struct new_file files[NEW_FILES] = {{o->log, &k->log, o->log_given, false}, {o->state, &k->state, o->state_given, false},
                                        {plant, &k->plant, o->state_given, false}, {o->outputs, &k->outputs, true, false}};
    const int count = o->outputs == NULL ? NEW_FILES - 1 : NEW_FILES;

    plant_path(plant, o->state);
    keep_nothing(k);
    if (make_all(files, count, o->home) && write_first(k, m, p) && name_all(files, count))
        return true;
    remove_made(files, count);
    return false;
}

/* ---- after a cut */

static int open_kept(const char *path, const char *what)
{
    const int file = open(path, O_RDWR | O_CLOEXEC);

    if (file < 0)
        complain("there is no %s to go on with, %s: %s", what, path, strerror(errno));
    return file;
}

static bool resume_settings(const struct options *o, uint8_t *settings)
{
    uint8_t given[PRESSGULLY_SETTINGS];

    if (!keep_settings(o->log, settings) || (o->settings != NULL && !keep_settings(o->settings, given)))
        return false;
    if (o->settings == NULL || memcmp(given, settings, sizeof given) == 0)
        return true;
    complain("the settings of %s are not those of the log %s, and a state goes on under its own", o->settings, o->log);
    return false;
}

/* The image as the controller itself judges it: a block of no counts runs no tick. One of an earlier program is grown. */
static bool resume_image(const struct keep *k, const struct options *o, struct images *m)
{
    static const int32_t no_counts[1];
    uint8_t image[IMAGE_ROOM];
    const ssize_t length = pread(k->state, image, sizeof image, 0);
    uint32_t told;

    if (length < 0) {
        complain("the state %s can't be read: %s", o->state, strerror(errno));
        return false;
    }
    if (length == PRESSGULLY_STATE_A3)
        told = pressgully_grow(m->settings, sizeof m->settings, image, (size_t)length, m->state, sizeof m->state);
    else {
        told = pressgully_block(m->settings, sizeof m->settings, image, (size_t)length, no_counts, 0, false);
        if (told == 0)
            memcpy(m->state, image, sizeof m->state);
    }
    if (told == 0)
        return true;
    if (told == 10) /* of the settings that came with it */
        complain("the settings of the log %s are refused, 10: %s", o->log, refusal_words(told));
    else
        complain("the state %s is refused, %" PRIu32 ": %s", o->state, told, refusal_words(told));
    return false;
}

/* An image that the calls would take, but that is not where this log has come to, is impossible here: 21 too. */
static bool resume_plant(struct keep *k, const struct options *o, const struct images *m, struct slot *s)
{
    char path[PATH_ROOM];

    plant_path(path, o->state);
    if ((k->plant = open_kept(path, "plant")) < 0)
        return false;
    if (!slot_of(k->plant, m->state, s)) {
        complain("the state %s is refused, 21: it is another's, not the one kept with %s", o->state, path);
        return false;
    }
    if (o->plant_given && o->plant != s->plant.kind) {
        complain("the plant of %s is a %s", path, plant_word(s->plant.kind));
        return false;
    }
    return true;
}

static bool resume_log(struct keep *k, const struct options *o, const struct slot *s)
{
    k->log_extent = s->log;
    if (goes_as_far(k->log, s->log))
        return true;
    complain("the log %s is not the one that was kept with the state %s", o->log, o->state);
    return false;
}

/* Ticks that were run without outputs are missing in them for good. */
static bool resume_outputs(struct keep *k, const struct options *o, const struct slot *s)
{
    if (o->outputs == NULL)
        return true;
    if (s->outputs.length == 0) {
        complain("outputs are kept from a run's beginning or not at all; replay makes them from the log %s", o->log);
        return false;
    }
    if ((k->outputs = open_kept(o->outputs, "outputs")) < 0 || !lock(k->outputs, o->outputs))
        return false;
    k->outputs_extent = s->outputs;
    if (goes_as_far(k->outputs, s->outputs))
        return true;
    complain("the outputs %s are not those that were kept with the state %s", o->outputs, o->state);
    return false;
}

static bool cut(int file, struct extent kept)
{
    return ftruncate(file, (off_t)kept.length) == 0 && lseek(file, 0, SEEK_END) == (off_t)kept.length;
}

bool keep_resume(struct keep *k, const struct options *o, struct images *m, struct plant *p)
{
    struct slot s;

    keep_nothing(k);
    if ((k->log = open_kept(o->log, "log")) < 0 || !lock(k->log, o->log) || (k->state = open_kept(o->state, "state")) < 0 ||
        !lock(k->state, o->state) || !resume_settings(o, m->settings) || !resume_image(k, o, m) || !resume_plant(k, o, m, &s) ||
        !resume_log(k, o, &s) || !resume_outputs(k, o, &s))
        return false;
    k->ticks = s.ticks;
    *p = s.plant;
    if (cut(k->log, k->log_extent) && (k->outputs < 0 || cut(k->outputs, k->outputs_extent)))
        return true;
    complain("log and outputs can't be cut to their kept lengths: %s", strerror(errno));
    return false;
}
