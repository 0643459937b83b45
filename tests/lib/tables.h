/* Logs and sessions from a seed, with slices for the hour table, for the comparison of two implementations. The same seed and
 * profile give the same case everywhere. */
#ifndef TABLES_H
#define TABLES_H

#include <stdbool.h>
#include <stddef.h>
#include <stdint.h>

/* Profiles. Logs, in some hours of the 48 and not in others:
 *   a  1 to 16 instances, AN between
 *   b  ticks at both ends of an hour, and of the table
 *   c  equal ticks, tick 0, instances above 15
 *   d  up to 600 records of one or two instances in few hours
 *   e  falling ticks
 *   f  ticks beyond the table, with falling ones before or behind
 *   g  bad marks and cut records anywhere, alone or with falling and far ticks
 *   h  random and damaged bytes, empty logs, logs of up to three bytes
 * Sessions:
 *   i  those of lib/generator.h that begin at tick 0: all refusals, outputs of any length
 *   j  some ticks at the ends of the first hours, that send; outputs that are too short by a few bytes
 *   k  to the end of the table, and past it, mostly with one instance or none
 */
enum { TABLES_LAST_PROFILE = 'k', TABLES_ASKED = 8, TABLES_ENTRIES_MAX = 800, TABLES_OUTPUT_MAX = 1 << 17 };

typedef struct {
    uint64_t seed;
    char profile;
    bool session, in_use; /* the bytes are a session, else a log; the session is read with the table in use */
    const uint8_t *bytes; /* stand until the next case is generated */
    size_t len, output;   /* output: of a session */
    size_t events_len, gaps_len;
    uint64_t asked[TABLES_ASKED]; /* the hours that are asked for, of the log or of what the session logs */
} table_case;

/* The profile is one of a to TABLES_LAST_PROFILE, or 0: the seeds have a to j in turn, and one in fifty has k. */
table_case generate_table(uint64_t seed, char profile);

#endif
