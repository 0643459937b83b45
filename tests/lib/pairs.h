/* Pairs of logs from a seed, the device's and the model's, for the comparison of two implementations. The same seed and
 * profile give the same pair everywhere. */
#ifndef PAIRS_H
#define PAIRS_H

#include <stddef.h>
#include <stdint.h>

/* Profiles; a log has 0 to 60 records, mostly such as a device sends:
 *   a  equal logs
 *   b  one log a start of the other
 *   c  one field of one record changed
 *   d  ticks at both ends of their range in the pair that differs
 *   e  bad marks and cut records, in one log or in both: before, at and behind the first difference
 *   f  random and damaged bytes, empty logs, logs of up to three bytes
 *   g  several fields of one record changed, and fields of records behind it
 *   h  a record more, or less, in one log
 */
typedef struct {
    uint64_t seed;
    char profile;
    const uint8_t *device, *model; /* stand until the next pair is generated */
    size_t device_len, model_len;
} log_pair;

enum { PAIRS_LOG_MAX = 640, PAIRS_LAST_PROFILE = 'h' };

/* The profile is one of a to PAIRS_LAST_PROFILE, or 0: the seeds have them in turn. */
log_pair generate_pair(uint64_t seed, char profile);

#endif
