/* Compares a session of document 01, in which a setting frame acts when it comes, with the library's reading of the same session
 * with each setting frame twice in a row (02, M-105): both must log the same.
 *   doubled SEED COUNT [PROFILE]      PROFILE is one of those in lib/generator.h; without it, the seeds choose
 * The reading of document 01 is the second implementation's, playing the wrong model by which set commands act at once. The
 * sessions are the generator's with single setting frames. Ends with status 1 at the first difference, which it prints. */
#include "lib/comparison.h"
#include "lib/doubled.h"
#include "lib/generator.h"
#include "potmeander.h"
#include "second/second.h"

#include <stdio.h>
#include <stdlib.h>

enum { SESSION_MAX = 1 << 16, FR_SIZE = 5 };

/* As in compare.c. */
potmeander_reading trial_session(uint32_t tick, const uint8_t *before, size_t before_len, const uint8_t *session,
                                 size_t session_len, uint8_t *log, size_t log_len);

/* A case with each setting frame twice. */
typedef struct {
    uint8_t before[2 * SESSION_MAX], session[2 * SESSION_MAX];
    size_t before_len, session_len;
    uint64_t taken; /* of the session as it was */
    uint64_t place; /* of what lies there, in this one */
} doubled_case;

static doubled_case twice;

/* ---- The session as it is, by document 01 ---- */

static second_reading read_base_part(second_model *model, const uint8_t *session, size_t session_len, uint8_t *log, size_t log_len)
{
    second_fault = SETS_AT_ONCE;
    second_reading r = second_read(model, session, session_len, log, log_len);
    second_fault = NO_FAULT;
    return r;
}

static second_reading read_base(const test_case *c, uint8_t *log, size_t log_len)
{
    return second_case(c, read_base_part, log, log_len);
}

/* ---- The session with each setting frame twice, by the library ---- */

static size_t double_part(doubled_device *device, const uint8_t *session, size_t session_len, uint64_t taken, uint8_t *doubled,
                          size_t *doubled_len)
{
    size_t place = double_session(device, session, session_len, (size_t)taken, doubled);
    *doubled_len = place + session_len - (size_t)taken;
    return place;
}

/* Each part up to where document 01 reads it. */
static void double_case(const test_case *c)
{
    static uint8_t log[GENERATOR_LOG_MAX];
    doubled_device device = {0};
    second_model model;
    second_fresh(&model);
    model.tick = c->start_tick;
    second_reading r = read_base_part(&model, c->session, c->before_len, log, c->log_len);
    double_part(&device, c->session, c->before_len, r.offset, twice.before, &twice.before_len);
    const uint8_t *session = c->session + c->before_len;
    size_t session_len = c->session_len - c->before_len;
    twice.taken = read_base_part(&model, session, session_len, log, c->log_len).offset;
    twice.place = double_part(&device, session, session_len, twice.taken, twice.session, &twice.session_len);
}

static potmeander_reading read_library(const test_case *c, uint8_t *log, size_t log_len)
{
    if (c->start_tick == 0 && c->before_len == 0) return potmeander_session(twice.session, twice.session_len, log, log_len);
    return trial_session(c->start_tick, twice.before, twice.before_len, twice.session, twice.session_len, log, log_len);
}

/* The reading, with the offset as it is in the session with single frames; none, where it is not that of the same record. */
static second_reading read_doubled(const test_case *c, uint8_t *log, size_t log_len)
{
    double_case(c);
    potmeander_reading r = read_library(c, log, log_len);
    return (second_reading){r.number, r.offset == twice.place ? twice.taken : ~(uint64_t)0, r.written, r.ticks};
}

static const implementation BASE = {"document 01, single frames", read_base}, DOUBLED = {"the library, frames twice", read_doubled};

int main(int argc, char **argv)
{
    if (argc < 3 || argc > 4 || (argc == 4 && (argv[3][0] < 'a' || argv[3][0] > GENERATOR_LAST_PROFILE || argv[3][1] != 0))) {
        printf("usage: doubled SEED COUNT [PROFILE a to %c]\n", GENERATOR_LAST_PROFILE);
        return 2;
    }
    uint64_t seed = strtoull(argv[1], NULL, 10), count = strtoull(argv[2], NULL, 10);
    size_t frames = 0;
    char profile = argc == 4 ? argv[3][0] : 0;
    for (uint64_t i = 0; i < count; i++) {
        test_case c = generate_single(seed + i, profile);
        if (!agree(&c, BASE, DOUBLED)) {
            print_difference(&c, BASE, DOUBLED);
            return 1;
        }
        frames += (twice.before_len + twice.session_len - c.session_len) / FR_SIZE;
    }
    printf("%lu cases, seeds %lu to %lu, %s, %lu frames doubled: no difference\n", (unsigned long)count, (unsigned long)seed,
           (unsigned long)(seed + count - 1), profile ? argv[3] : "all profiles", (unsigned long)frames);
    return 0;
}
