/* What options.h says. */
#include "options.h"

#include "tell.h"
#include "terminal.h"

#include <inttypes.h>
#include <stdio.h>
#include <string.h>

#define WORDS "--plant --settings --speed --ticks --seed --baud --line --log --state --resume --outputs --quiet"

const char *plant_word(enum plant_kind kind)
{
    return kind == PLANT_TANK ? "tank" : "hopper";
}

/* Digits alone, in the range. */
static bool number_of(const char *name, const char *word, uint64_t least, uint64_t most, uint64_t *number)
{
    uint64_t n = 0;
    const char *at = word;

    while (*at >= '0' && *at <= '9' && n <= most)
        n = 10 * n + (uint64_t)(*at++ - '0');
    if (at == word || *at != '\0' || n < least || n > most) {
        complain("%s is a whole number from %" PRIu64 " to %" PRIu64 ", and not '%s'", name, least, most, word);
        return false;
    }
    *number = n;
    return true;
}

static bool small_number(const char *name, const char *word, uint32_t least, uint32_t most, uint32_t *number)
{
    uint64_t n;

    if (!number_of(name, word, least, most, &n))
        return false;
    *number = (uint32_t)n;
    return true;
}

static bool path_of(const char *name, const char *word, char path[PATH_MOST], bool *given)
{
    if (*word == '\0' || strlen(word) >= PATH_MOST) {
        complain("%s is the name of a file, of 1 to %d bytes", name, PATH_MOST - 1);
        return false;
    }
    strcpy(path, word);
    *given = true;
    return true;
}

static bool take_plant(struct options *o, const char *word)
{
    if (strcmp(word, "tank") != 0 && strcmp(word, "hopper") != 0) {
        complain("--plant is tank or hopper, and not '%s'", word);
        return false;
    }
    o->plant = strcmp(word, "tank") == 0 ? PLANT_TANK : PLANT_HOPPER;
    o->plant_given = true;
    return true;
}

static bool take_baud(struct options *o, const char *word)
{
    if (strcmp(word, "0") == 0) {
        o->baud = 0;
        return true;
    }
    return small_number("--baud", word, BAUD_LEAST, BAUD_MOST, &o->baud);
}

/* A word that needs one behind it. */
static bool take_pair(struct options *o, const char *name, const char *word)
{
    if (strcmp(name, "--plant") == 0)
        return take_plant(o, word);
    if (strcmp(name, "--speed") == 0)
        return small_number(name, word, 1, SPEED_MOST, &o->speed);
    if (strcmp(name, "--ticks") == 0)
        return number_of(name, word, 1, UINT64_MAX / 100, &o->ticks);
    if (strcmp(name, "--seed") == 0)
        return o->seed_given = true, number_of(name, word, 0, UINT32_MAX, &o->seed);
    if (strcmp(name, "--baud") == 0)
        return take_baud(o, word);
    if (strcmp(name, "--log") == 0)
        return path_of(name, word, o->log, &o->log_given);
    if (strcmp(name, "--state") == 0)
        return path_of(name, word, o->state, &o->state_given);
    if (strcmp(name, "--settings") == 0)
        o->settings = word;
    else if (strcmp(name, "--line") == 0)
        o->line = word;
    else if (strcmp(name, "--outputs") == 0)
        o->outputs = word;
    else if (strcmp(name, "--home") == 0)
        o->home = word;
    return true;
}

static bool is_pair(const char *name)
{
    static const char *const pairs[] = {"--plant", "--speed", "--ticks", "--seed", "--baud", "--log", "--state", "--settings", "--line",
                                        "--outputs", "--home"};
    size_t i;

    for (i = 0; i < sizeof pairs / sizeof pairs[0]; i++)
        if (strcmp(name, pairs[i]) == 0)
            return true;
    return false;
}

static bool default_path(const struct options *o, char path[PATH_MOST], const char *end)
{
    const int wide = snprintf(path, PATH_MOST, "%s/target/live/%s.%s", o->home, plant_word(o->plant), end);

    if (wide < 0 || wide >= PATH_MOST) {
        complain("the path of the folder is too long");
        return false;
    }
    return true;
}

bool take_options(struct options *o, int count, char **words)
{
    int i;

    memset(o, 0, sizeof *o);
    o->home = ".";
    o->plant = PLANT_HOPPER;
    o->speed = 1;
    o->baud = BAUD_DEFAULT;
    o->seed = 1;
    for (i = 1; i < count; i++) {
        if (strcmp(words[i], "--resume") == 0)
            o->resume = true;
        else if (strcmp(words[i], "--quiet") == 0)
            o->quiet = true;
        else if (!is_pair(words[i])) {
            complain("there is no '%s'; the words are " WORDS, words[i]);
            return false;
        } else if (i + 1 == count) {
            complain("%s needs a word behind it", words[i]);
            return false;
        } else if (!take_pair(o, words[i], words[i + 1]))
            return false;
        else
            i++;
    }
    if (o->resume && o->seed_given) {
        complain("--seed is for a new plant, and --resume goes on with the kept one");
        return false;
    }
    return (o->log_given || default_path(o, o->log, "log")) && (o->state_given || default_path(o, o->state, "state"));
}
