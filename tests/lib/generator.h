/* Sessions from a seed, for the comparison of two implementations. The same seed and profile give the same session everywhere. */
#ifndef GENERATOR_H
#define GENERATOR_H

#include <stddef.h>
#include <stdint.h>

/* Profiles:
 *   a  mixed traffic of 1 to 16 instances
 *   b  light, by IN or by LO: values at the band's edges, at every resolution
 *   c  occupancy, by IN or by IM: all filters
 *   d  timers at their ends
 *   e  long quiet runs
 *   f  damaged, cut and random bytes; and declarations that are refused, by IN, LO and IM, all of them within 500 seeds
 *   g  outputs of 0 to 400 bytes
 *   h  ticks near 4,294,967,295
 *   i  tick numbers of four bytes
 *   j  every third byte, to light, to colour and to occupancy of either kind; all of them within 600 seeds
 *   k  deadtime set while dead time runs, of light or colour and of occupancy
 *   l  light and colour not ready, before and after a valid sample; and what a refused sample leaves, in a second part
 *   m  light by IN and by LO side by side, of the same resolution and settings, given the same samples: values at the edges of
 *      either band; all resolutions within 100 seeds, and some sessions in two parts
 *   n  movement-based occupancy, mixed with the others: movement, failures and commands about the tick at which a hold expires;
 *      catching; some sessions in two parts, and some in which a long hold runs
 *   o  colour, mixed with the others: changes at the band's edge, in one channel or over three; reports inside the band, outside
 *      it and together with a change; rows of 4B, and what DTR0 is then; some sessions in two parts, for the first of which the
 *      output may be too short
 *   p  pairs of setting frames (M-105), of all types: ticks, samples and other frames between the two, or nothing; three and four
 *      in a row; first halves alone; pairs over the end of a part, with a refused record between or not, and about tick
 *      4,294,967,295
 * What sets something is sent twice in a row but for profile p, and a few odd pairs in the others, most in a and i.
 */
typedef struct {
    uint64_t seed;
    char profile;
    const uint8_t *session; /* stands until the next case is generated */
    size_t session_len;
    /* So many first bytes are read as a session of their own, whatever number it comes to, and the rest as a session from the
     * model that was left. The rest's reading is compared; its log begins at the log's first byte, over the first one's.
     * 0, and nothing is read before, but for profiles l, m, n, o and p. */
    size_t before_len;
    size_t log_len;
    uint32_t start_tick; /* the tick number that the model begins with; 0 but for profiles h, i and p */
} test_case;

enum { GENERATOR_LOG_MAX = 4096, GENERATOR_LAST_PROFILE = 'p' };

/* The profile is one of a to GENERATOR_LAST_PROFILE, or 0: the seed chooses. */
test_case generate(uint64_t seed, char profile);

/* The same, but that what sets something is sent once, but for profile p: sessions as they were before M-105. */
test_case generate_single(uint64_t seed, char profile);

#endif
