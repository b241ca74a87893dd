/* A main loop as the firmware has it, in replay's clothes: it reads replay's input and prints what replay prints, so that the two can be
 * compared byte for byte. Between two calls it keeps the settings image and the state image, and nothing else of the controller.
 *
 *   host [length of the reply buffer, 0..64] < log
 *
 * Exit status: 0; 2 with a wrong length, 3 when reading or writing failed, 4 when the controller refused the image that it wrote. */
#include "outputs.h"
#include "pressgully.h"
#include "reading.h"

#include <inttypes.h>
#include <stdio.h>
#include <string.h>

/* All that the firmware keeps from tick to tick. */
struct images {
    uint8_t settings[PRESSGULLY_SETTINGS];
    uint8_t state[PRESSGULLY_STATE];
};

struct request {
    int32_t count;
    bool contact;
    const uint8_t *command; /* 1 to 100 bytes, to the line's end */
    size_t length;
};

/* A tick's line: count contact request. */
static bool take_request(struct line *line, struct request *r)
{
    if (!take_number(line, &r->count) || !take(line, ' '))
        return false;
    r->contact = take(line, '1');
    if ((!r->contact && !take(line, '0')) || !take(line, ' '))
        return false;
    r->command = line->bytes + line->at;
    r->length = line->length - line->at;
    return r->length >= 1 && r->length <= COMMAND_LIMIT;
}

/* The tick of one line: asked nothing, or with its command and CR LF in the receive buffer. False where the images were refused, and with
 * them the tick: firmware would shut all gates. */
static bool tick(struct images *m, const struct request *r, size_t room)
{
    uint8_t answer[PRESSGULLY_ANSWER], reply[PRESSGULLY_REPLY];
    char outputs[OUTPUTS_ROOM];
    uint32_t told;

    if (r->length == 2 && memcmp(r->command, "--", 2) == 0) {
        static const uint32_t no_points[1];

        told = pressgully_tick(m->settings, sizeof m->settings, m->state, sizeof m->state, r->count, r->contact, PRESSGULLY_NOTHING,
                               no_points, 0, answer, sizeof answer);
    } else {
        uint8_t receive[COMMAND_LIMIT + 2];

        memcpy(receive, r->command, r->length);
        memcpy(receive + r->length, "\r\n", 2);
        told = pressgully_line(m->settings, sizeof m->settings, m->state, sizeof m->state, r->count, r->contact, receive, r->length + 2,
                               reply, room, answer, sizeof answer);
    }
    if (told == 20 || told == 21 || told == 10)
        return false;
    fwrite(outputs, 1, outputs_line(outputs, answer, reply, m->state), stdout);
    return true;
}

static int run(size_t room)
{
    struct images m;
    struct line line;
    struct request r;
    uint32_t told;
    uint64_t number;

    if (!next_line(stdin, &line) || !take_settings(&line, m.settings)) {
        puts("refused=1");
        return 0;
    }
    told = pressgully_open(m.settings, sizeof m.settings, m.state, sizeof m.state);
    printf("answer=%" PRIu32 "\n", told);
    if (told != 0)
        return 0;
    for (number = 2; next_line(stdin, &line); number++) {
        if (!take_request(&line, &r)) {
            printf("refused=%" PRIu64 "\n", number);
            return 0;
        }
        if (!tick(&m, &r, room)) {
            fprintf(stderr, "host: the images were refused at line %" PRIu64 "\n", number);
            return 4;
        }
    }
    return 0;
}

/* A number as a log has it, 0 to 64. */
static bool read_room(const char *word, size_t *room)
{
    struct line line = {{0}, 0, 0};
    int32_t number;

    line.length = strlen(word);
    if (line.length > LINE_ROOM)
        return false;
    memcpy(line.bytes, word, line.length);
    if (!take_number(&line, &number) || line.at != line.length || number < 0 || number > PRESSGULLY_REPLY)
        return false;
    *room = (size_t)number;
    return true;
}

int main(int argc, char **argv)
{
    size_t room = PRESSGULLY_REPLY;
    int status;

    if (argc > 1 && !read_room(argv[1], &room)) {
        fputs("host: the length of the reply buffer is 0 to 64\n", stderr);
        return 2;
    }
    status = run(room);
    if (fflush(stdout) != 0 || ferror(stdout) || ferror(stdin)) {
        fputs("host: reading or writing failed\n", stderr);
        return 3;
    }
    return status;
}
