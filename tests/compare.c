/* Compares the library with the second implementation on sessions from a seed.
 *   compare SEED COUNT [PROFILE]      PROFILE is one of those in lib/generator.h; without it, the seeds choose
 * Ends with status 1 at the first difference, which it prints. */
#include "lib/comparison.h"
#include "lib/generator.h"
#include "potmeander.h"
#include "second/second.h"

#include <stdio.h>
#include <stdlib.h>

/* The library's call begins with a fresh model at tick 0. Crate trial exports the same reading from a later tick, and from the
 * model that the reading of a first part left; either part may be empty. */
potmeander_reading trial_session(uint32_t tick, const uint8_t *before, size_t before_len, const uint8_t *session,
                                 size_t session_len, uint8_t *log, size_t log_len);

static potmeander_reading read_library(const test_case *c, uint8_t *log, size_t log_len)
{
    if (c->start_tick == 0 && c->before_len == 0) return potmeander_session(c->session, c->session_len, log, log_len);
    return trial_session(c->start_tick, c->session, c->before_len, c->session + c->before_len, c->session_len - c->before_len,
                         log, log_len);
}

static second_reading read_first(const test_case *c, uint8_t *log, size_t log_len)
{
    potmeander_reading r = read_library(c, log, log_len);
    return (second_reading){r.number, r.offset, r.written, r.ticks};
}

static second_reading read_second(const test_case *c, uint8_t *log, size_t log_len)
{
    return second_case(c, second_read, log, log_len);
}

static const implementation FIRST = {"the library", read_first}, SECOND = {"the second implementation", read_second};

int main(int argc, char **argv)
{
    if (argc < 3 || argc > 4 || (argc == 4 && (argv[3][0] < 'a' || argv[3][0] > GENERATOR_LAST_PROFILE || argv[3][1] != 0))) {
        printf("usage: compare SEED COUNT [PROFILE a to %c]\n", GENERATOR_LAST_PROFILE);
        return 2;
    }
    uint64_t seed = strtoull(argv[1], NULL, 10), count = strtoull(argv[2], NULL, 10);
    char profile = argc == 4 ? argv[3][0] : 0;
    for (uint64_t i = 0; i < count; i++) {
        test_case c = generate(seed + i, profile);
        if (!agree(&c, FIRST, SECOND)) {
            print_difference(&c, FIRST, SECOND);
            return 1;
        }
    }
    printf("%lu cases, seeds %lu to %lu, %s: no difference\n", (unsigned long)count, (unsigned long)seed,
           (unsigned long)(seed + count - 1), profile ? argv[3] : "all profiles");
    return 0;
}
