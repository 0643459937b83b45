/* Checks the second implementation against the values that documents 01 and 003 print and against sessions worked out by hand, and
 * that reading in pieces is reading the whole. */
#include "../lib/comparison.h"
#include "../lib/generator.h"
#include "../lib/pieces.h"
#include "second.h"

#include <stdio.h>
#include <string.h>

/* "A full session, bytes in hex" */
static const uint8_t FULL_SESSION[] = {
    0x49, 0x4E, 0x00, 0x04, 0x08,
    0x53, 0x41, 0x00, 0x00, 0x00, 0x00, 0x64,
    0x54, 0x4B, 0x00, 0x01,
    0x53, 0x41, 0x00, 0x00, 0x00, 0x00, 0x5E,
    0x54, 0x4B, 0x00, 0x28,
    0x46, 0x52, 0x01, 0x00, 0x8C,
};
static const uint8_t FULL_LOG[] = {
    0x45, 0x56, 0x00, 0x00, 0x00, 0x01, 0x00, 0x04, 0x01, 0x91,
    0x45, 0x56, 0x00, 0x00, 0x00, 0x1F, 0x00, 0x04, 0x01, 0x79,
    0x41, 0x4E, 0x00, 0x00, 0x00, 0x29, 0x00, 0x5E,
};

/* M-107: IN and LO of resolution 9, given the same samples, with hysteresisMin 5. LO's number has 16 bits, the nine and their first
 * seven again: 100 (001100100) is 100 x 128 + 25 = 12825, 95 (001011111) is 95 x 128 + 23 = 12183, 110 (001101110) is
 * 110 x 128 + 27 = 14107.
 *   tick 1   hysteresis 5, no band: both send. IN: width 5, band 95 to 100. LO: width 641, band 12184 to 12825
 *   tick 31  hysteresis 25, dead time is over. IN: 95 is in its band. LO: 12183 is below: it sends, width 3045, band 12183 to 15228
 *   tick 32  IN: 110 is above 100: it sends. LO: 14107 is in its band, at tick 61 too, where its dead time is over
 * The information is the nine bits and the first again: 200, 190, 220. */
static const uint8_t TWO_RULES_SESSION[] = {
    'I', 'N', 0, 4, 9,
    'L', 'O', 1, 4, 9,
    'S', 'A', 0, 0, 0, 0, 100,
    'S', 'A', 1, 0, 0, 0, 100,
    'T', 'K', 0, 1,
    'F', 'R', 0xC1, 0x30, 25,
    'F', 'R', 0x01, 0, 0x31,
    'F', 'R', 0x01, 0, 0x31,
    'F', 'R', 0x01, 1, 0x31,
    'F', 'R', 0x01, 1, 0x31,
    'S', 'A', 0, 0, 0, 0, 95,
    'S', 'A', 1, 0, 0, 0, 95,
    'T', 'K', 0, 30,
    'S', 'A', 0, 0, 0, 0, 110,
    'S', 'A', 1, 0, 0, 0, 110,
    'T', 'K', 0, 30,
    'F', 'R', 0x01, 1, 0x3C,
    'F', 'R', 0x01, 1, 0x8C,
    'F', 'R', 0x01, 1, 0x8D,
};
static const uint8_t TWO_RULES_LOG[] = {
    'E', 'V', 0, 0, 0, 1, 0, 4, 0, 200,
    'E', 'V', 0, 0, 0, 1, 1, 4, 0, 200,
    'E', 'V', 0, 0, 0, 31, 1, 4, 0, 190,
    'E', 'V', 0, 0, 0, 32, 0, 4, 0, 220,
    'A', 'N', 0, 0, 0, 61, 1, 5,
    'A', 'N', 0, 0, 0, 61, 1, 0x37,
    'A', 'N', 0, 0, 0, 61, 1, 0x1B,
};

/* M-100: IM, and IN beside it. Hold 0 is 20 ticks, filter 17 is all but Movement, deadtime is 2 and report 400 ticks.
 *   tick 1    movement: FF. Occupied is sent, 1011
 *   tick 2    none: AA, and hold up to tick 22. No movement waits in dead time. Catch movement
 *   tick 3    it is sent, 1010, and catching stays
 *   tick 22   hold expires at a tick with movement: FF, and no Vacant. Movement was caught and is sent, 1011; catching ends
 *   tick 23   none: AA, and hold up to tick 43. No movement waits in dead time
 *   tick 24   a failure clears that; hold expires in it
 *   tick 44   valid, without movement: 00. Vacant is sent, 1000
 *   tick 45   movement: FF. Occupied waits in dead time; Movement does not
 *   tick 46   none: AA, and No movement. Both are sent, 1010. Cancel hold
 *   tick 47   00. Vacant waits in dead time
 *   tick 48   it is sent, 1000. Cancel hold, where none runs
 *   tick 49   presence that is occupied with movement: its bit 3 is 0, and 2D gets no answer
 *   tick 448  the report of tick 48, 1100 */
static const uint8_t MOVEMENT_SESSION[] = {
    'I', 'M', 0, 3, 2,
    'I', 'N', 1, 3, 2,
    'F', 'R', 0x01, 0, 0x21,
    'F', 'R', 0x01, 0, 0x21,
    'F', 'R', 0xC1, 0x30, 0x17,
    'F', 'R', 0x01, 0, 0x68,
    'F', 'R', 0x01, 0, 0x68,
    'S', 'A', 0, 0, 0, 0, 1,
    'T', 'K', 0, 1,
    'S', 'A', 0, 0, 0, 0, 0,
    'T', 'K', 0, 1,
    'F', 'R', 0x01, 0, 0x20,
    'F', 'R', 0x01, 0, 0x2F,
    'T', 'K', 0, 19,
    'S', 'A', 0, 0, 0, 0, 1,
    'T', 'K', 0, 1,
    'F', 'R', 0x01, 0, 0x2F,
    'S', 'A', 0, 0, 0, 0, 0,
    'T', 'K', 0, 1,
    'S', 'A', 0, 2, 0, 0, 0,
    'T', 'K', 0, 20,
    'F', 'R', 0x01, 0, 0x8C,
    'S', 'A', 0, 0, 0, 0, 0,
    'T', 'K', 0, 1,
    'F', 'R', 0x01, 0, 0x8C,
    'S', 'A', 0, 0, 0, 0, 1,
    'T', 'K', 0, 1,
    'S', 'A', 0, 0, 0, 0, 0,
    'T', 'K', 0, 1,
    'F', 'R', 0x01, 0, 0x24,
    'F', 'R', 0x01, 0, 0x8C,
    'T', 'K', 0, 1,
    'F', 'R', 0x01, 0, 0x8C,
    'T', 'K', 0, 1,
    'F', 'R', 0x01, 0, 0x24,
    'F', 'R', 0x01, 0, 0x2D,
    'F', 'R', 0x01, 1, 0x2D,
    'S', 'A', 1, 0, 0, 0, 3,
    'T', 'K', 1, 144,
};
static const uint8_t MOVEMENT_LOG[] = {
    'E', 'V', 0, 0, 0, 1, 0, 4, 0, 0x0B,
    'A', 'N', 0, 0, 0, 2, 0, 0xFF,
    'E', 'V', 0, 0, 0, 3, 0, 4, 0, 0x0A,
    'E', 'V', 0, 0, 0, 22, 0, 4, 0, 0x0B,
    'A', 'N', 0, 0, 0, 43, 0, 0xAA,
    'E', 'V', 0, 0, 0, 44, 0, 4, 0, 0x08,
    'A', 'N', 0, 0, 0, 44, 0, 0x00,
    'E', 'V', 0, 0, 0, 46, 0, 4, 0, 0x0A,
    'A', 'N', 0, 0, 0, 46, 0, 0xAA,
    'A', 'N', 0, 0, 0, 47, 0, 0x00,
    'E', 'V', 0, 0, 0, 48, 0, 4, 0, 0x08,
    'A', 'N', 0, 0, 0, 48, 0, 0x00,
    'E', 'V', 0, 0, 0, 49, 1, 4, 0, 0x03,
    'E', 'V', 0, 0, 1, 192, 0, 5, 0, 0x0C,
};

/* M-104: the example of 003, 9.4.5, with the defaults, and what its last band lets by. Values and answers are blue, green, red.
 *   tick 1        70, 110, 120 of red, green and blue: above the first band, 0, and sent. The band is 30
 *   ticks 2 to 32 80, 106, 125: the change is 19, and nothing is sent behind dead time either
 *   tick 33       85, 98, 130: the change is 37, and it is sent. The band is 31
 *   tick 64       116, 98, 130: dead time is over, the change is 31
 *   tick 65       117, 98, 130: the change is 32, and it is sent */
static const uint8_t COLOUR_SESSION[] = {
    'I', 'N', 0, 5, 24,
    'S', 'A', 0, 0, 120, 110, 70,
    'T', 'K', 0, 1,
    'S', 'A', 0, 0, 125, 106, 80,
    'T', 'K', 0, 31,
    'S', 'A', 0, 0, 130, 98, 85,
    'T', 'K', 0, 1,
    'F', 'R', 0x01, 0, 0x8C,
    'F', 'R', 0x01, 0, 0x8D,
    'F', 'R', 0x01, 0, 0x8D,
    'F', 'R', 0x01, 0, 0x8D,
    'S', 'A', 0, 0, 130, 98, 116,
    'T', 'K', 0, 31,
    'S', 'A', 0, 0, 130, 98, 117,
    'T', 'K', 0, 1,
};
static const uint8_t COLOUR_LOG[] = {
    'E', 'V', 0, 0, 0, 1, 0, 4, 0, 0xDA,
    'E', 'V', 0, 0, 0, 33, 0, 4, 0x01, 0x1A,
    'A', 'N', 0, 0, 0, 33, 0, 130,
    'A', 'N', 0, 0, 0, 33, 0, 98,
    'A', 'N', 0, 0, 0, 33, 0, 85,
    'E', 'V', 0, 0, 0, 65, 0, 4, 0x01, 0x1B,
};

/* M-104: the defaults, 003, Tables 9 and 10; MASK and reports of 30 x 100 ticks.
 *   tick 3000  the report is due, and not ready
 *   tick 3001  black: the change is 0, and the report alone is sent
 *   tick 6001  the next one
 *   tick 6002  a failure: MASK */
static const uint8_t COLOUR_REPORTS_SESSION[] = {
    'I', 'N', 0, 5, 24,
    'F', 'R', 0x01, 0, 0x80,
    'F', 'R', 0x01, 0, 0x81,
    'F', 'R', 0x01, 0, 0x84,
    'F', 'R', 0x01, 0, 0x90,
    'F', 'R', 0x01, 0, 0x4C,
    'F', 'R', 0x01, 0, 0x4D,
    'F', 'R', 0x01, 0, 0x4E,
    'F', 'R', 0x01, 0, 0x4F,
    'T', 'K', 0x0B, 0xB8,
    'F', 'R', 0x01, 0, 0x8C,
    'S', 'A', 0, 0, 0, 0, 0,
    'T', 'K', 0x0B, 0xB8,
    'F', 'R', 0x01, 0, 0x8C,
    'T', 'K', 0, 1,
    'S', 'A', 0, 2, 0, 0, 0,
    'T', 'K', 0, 1,
    'F', 'R', 0x01, 0, 0x8C,
    'F', 'R', 0x01, 0, 0x8D,
    'F', 'R', 0x01, 0, 0x8D,
    'F', 'R', 0x01, 0, 0x8D,
};
static const uint8_t COLOUR_REPORTS_LOG[] = {
    'A', 'N', 0, 0, 0, 0, 0, 5,
    'A', 'N', 0, 0, 0, 0, 0, 24,
    'A', 'N', 0, 0, 0, 0, 0, 4,
    'A', 'N', 0, 0, 0, 0, 0, 1,
    'A', 'N', 0, 0, 0, 0, 0, 12,
    'A', 'N', 0, 0, 0, 0, 0, 30,
    'A', 'N', 0, 0, 0, 0, 0, 30,
    'A', 'N', 0, 0, 0, 0, 0, 10,
    'A', 'N', 0, 0, 0x0B, 0xB8, 0, 0xFF,
    'E', 'V', 0, 0, 0x0B, 0xB9, 0, 5, 0, 0,
    'A', 'N', 0, 0, 0x17, 0x70, 0, 0,
    'E', 'V', 0, 0, 0x17, 0x71, 0, 5, 0, 0,
    'A', 'N', 0, 0, 0x17, 0x72, 0, 0xFF,
    'A', 'N', 0, 0, 0x17, 0x72, 0, 0xFF,
    'A', 'N', 0, 0, 0x17, 0x72, 0, 0xFF,
};

/* M-105: light that is not ready, and presence beside it. Deadtime of light shows what acted; each query drops what is remembered.
 *   tick 2   7: the repeat comes 2 ticks later, and acts
 *   tick 5   9: the repeat comes 3 ticks later, and is a first, which the query drops; a query between; FF in place of 01. None
 *            acts, and then a pair does. The third is a first again
 *   tick 6   11: a DTR0 load drops that, and one frame alone does not act
 *   tick 7   presence: a sample, a tick and its event lie between the two by which it is disabled, at the second
 *   tick 9   what goes while disabled is not sent. FF and 01 do not enable it, FF twice does */
static const uint8_t PAIRS_SESSION[] = {
    'I', 'N', 0, 4, 8,
    'I', 'N', 1, 3, 2,
    'F', 'R', 0xC1, 0x30, 7,
    'F', 'R', 0x01, 0, 0x32,
    'T', 'K', 0, 2,
    'F', 'R', 0x01, 0, 0x32,
    'F', 'R', 0x01, 0, 0x3D,
    'F', 'R', 0xC1, 0x30, 9,
    'F', 'R', 0x01, 0, 0x32,
    'T', 'K', 0, 3,
    'F', 'R', 0x01, 0, 0x32,
    'F', 'R', 0x01, 0, 0x3D,
    'F', 'R', 0x01, 0, 0x32,
    'F', 'R', 0x01, 0, 0x3D,
    'F', 'R', 0x01, 0, 0x32,
    'F', 'R', 0xFF, 0, 0x32,
    'F', 'R', 0x01, 0, 0x3D,
    'F', 'R', 0x01, 0, 0x32,
    'F', 'R', 0x01, 0, 0x32,
    'F', 'R', 0x01, 0, 0x32,
    'T', 'K', 0, 1,
    'F', 'R', 0xC1, 0x30, 11,
    'F', 'R', 0x01, 0, 0x32,
    'F', 'R', 0x01, 0, 0x3D,
    'F', 'R', 0x01, 1, 0x63,
    'S', 'A', 1, 0, 0, 0, 3,
    'T', 'K', 0, 1,
    'F', 'R', 0x01, 1, 0x63,
    'F', 'R', 0x01, 1, 0x83,
    'S', 'A', 1, 0, 0, 0, 0,
    'T', 'K', 0, 2,
    'F', 'R', 0xFF, 1, 0x62,
    'F', 'R', 0x01, 1, 0x62,
    'F', 'R', 0x01, 1, 0x83,
    'F', 'R', 0xFF, 1, 0x62,
    'F', 'R', 0xFF, 1, 0x62,
    'F', 'R', 0x01, 1, 0x83,
};
static const uint8_t PAIRS_LOG[] = {
    'A', 'N', 0, 0, 0, 2, 0, 7,
    'A', 'N', 0, 0, 0, 5, 0, 7,
    'A', 'N', 0, 0, 0, 5, 0, 7,
    'A', 'N', 0, 0, 0, 5, 0, 7,
    'A', 'N', 0, 0, 0, 6, 0, 9,
    'E', 'V', 0, 0, 0, 7, 1, 4, 0, 0x03,
    'A', 'N', 0, 0, 0, 7, 1, 0,
    'A', 'N', 0, 0, 0, 9, 1, 0,
    'A', 'N', 0, 0, 0, 9, 1, 2,
};

/* M-105: where it shows that the third of three is a first. Deadtime 5; filter 3, Occupied and Vacant, drops Movement that was
 * caught when it is set again.
 *   tick 1    movement: Occupied is sent, 1011. Dead time up to tick 6
 *   tick 2    none. Catch movement, and filter 3 by a pair
 *   tick 3    Movement is caught, and waits. Filter 3: the third, which does nothing
 *   tick 6    Movement is sent, 1011, and catching ends. Dead time up to tick 11
 *   tick 7    none. Catch movement, and filter 3 by a pair
 *   tick 8    Movement is caught, and waits. Filter 3: the third
 *   tick 10   Filter 3: the fourth, 2 ticks later, which drops Movement
 *   tick 15   nothing was sent, and it is catching still */
static const uint8_t THIRD_SESSION[] = {
    'I', 'M', 0, 3, 2,
    'F', 'R', 0xC1, 0x30, 5,
    'F', 'R', 0x01, 0, 0x23,
    'F', 'R', 0x01, 0, 0x23,
    'F', 'R', 0xC1, 0x30, 3,
    'S', 'A', 0, 0, 0, 0, 1,
    'T', 'K', 0, 1,
    'S', 'A', 0, 0, 0, 0, 0,
    'T', 'K', 0, 1,
    'F', 'R', 0x01, 0, 0x20,
    'F', 'R', 0x01, 0, 0x68,
    'F', 'R', 0x01, 0, 0x68,
    'S', 'A', 0, 0, 0, 0, 1,
    'T', 'K', 0, 1,
    'F', 'R', 0x01, 0, 0x68,
    'T', 'K', 0, 3,
    'F', 'R', 0x01, 0, 0x2F,
    'S', 'A', 0, 0, 0, 0, 0,
    'T', 'K', 0, 1,
    'F', 'R', 0x01, 0, 0x20,
    'F', 'R', 0x01, 0, 0x68,
    'F', 'R', 0x01, 0, 0x68,
    'S', 'A', 0, 0, 0, 0, 1,
    'T', 'K', 0, 1,
    'F', 'R', 0x01, 0, 0x68,
    'T', 'K', 0, 2,
    'F', 'R', 0x01, 0, 0x68,
    'T', 'K', 0, 5,
    'F', 'R', 0x01, 0, 0x2F,
};
static const uint8_t THIRD_LOG[] = {
    'E', 'V', 0, 0, 0, 1, 0, 4, 0, 0x0B,
    'E', 'V', 0, 0, 0, 6, 0, 4, 0, 0x0B,
    'A', 'N', 0, 0, 0, 15, 0, 0xFF,
};

static bool session_gives(const uint8_t *session, size_t session_len, const uint8_t *expected, size_t expected_len)
{
    uint8_t log[256];
    memset(log, 0xA5, sizeof log);
    second_reading r = second_session(session, session_len, log, sizeof log);
    return r.number == 0 && r.offset == session_len && r.written == expected_len && r.ticks == 0 &&
           memcmp(log, expected, expected_len) == 0 && log[expected_len] == 0xA5;
}

static bool full_session_agrees(void)
{
    return session_gives(FULL_SESSION, sizeof FULL_SESSION, FULL_LOG, sizeof FULL_LOG);
}

static bool two_rules_agree(void)
{
    return session_gives(TWO_RULES_SESSION, sizeof TWO_RULES_SESSION, TWO_RULES_LOG, sizeof TWO_RULES_LOG);
}

static bool movement_agrees(void)
{
    return session_gives(MOVEMENT_SESSION, sizeof MOVEMENT_SESSION, MOVEMENT_LOG, sizeof MOVEMENT_LOG);
}

static bool pairs_agree(void)
{
    return session_gives(PAIRS_SESSION, sizeof PAIRS_SESSION, PAIRS_LOG, sizeof PAIRS_LOG) &&
           session_gives(THIRD_SESSION, sizeof THIRD_SESSION, THIRD_LOG, sizeof THIRD_LOG);
}

/* Light's deadtime by a pair of which each frame is in another call, the first at tick `from`. The first call ends in a refused
 * record, number 7; the second begins with a TK of so many ticks, or with none. */
static bool pair_over_calls_agrees(uint32_t from, uint8_t ticks, uint8_t deadtime)
{
    static const uint8_t first[] = {
        'I', 'N', 0, 4, 8, 'F', 'R', 0xC1, 0x30, 7, 'F', 'R', 1, 0, 0x32, 'T', 'K', 0, 0,
    };
    const uint8_t rest[] = {'T', 'K', 0, ticks, 'F', 'R', 1, 0, 0x32, 'F', 'R', 1, 0, 0x3D};
    size_t skipped = ticks == 0 ? 4 : 0;
    uint32_t at = from + ticks;
    const uint8_t expected[8] = {'A', 'N', (uint8_t)(at >> 24), (uint8_t)(at >> 16), (uint8_t)(at >> 8), (uint8_t)at, 0, deadtime};
    uint8_t log[8];
    second_model model;
    second_fresh(&model);
    model.tick = from;
    second_reading r = second_read(&model, first, sizeof first, log, sizeof log);
    if (r.number != 7 || r.offset != sizeof first - 4 || r.written != 0) return false;
    r = second_read(&model, rest + skipped, sizeof rest - skipped, log, sizeof log);
    return r.number == 0 && r.written == 8 && memcmp(log, expected, 8) == 0;
}

/* 30 is deadtime at the start. */
static bool pairs_over_calls_agree(void)
{
    return pair_over_calls_agrees(0, 0, 7) && pair_over_calls_agrees(0, 2, 7) && pair_over_calls_agrees(0, 3, 30) &&
           pair_over_calls_agrees(4294967295u, 0, 7) && pair_over_calls_agrees(4294967293u, 2, 7) &&
           pair_over_calls_agrees(4294967292u, 3, 30) && pair_over_calls_agrees(4294967294u, 1, 7);
}

/* "Marked table": Width and Information, as a light instance shows them. `marked` is inputValue and then the information. */
static bool marked_value_agrees(uint8_t resolution, uint32_t value, const uint8_t *marked, size_t bytes)
{
    uint8_t session[] = {
        'I', 'N', 0, 4, resolution, 'S', 'A', 0, 0, (uint8_t)(value >> 16), (uint8_t)(value >> 8), (uint8_t)value, 'T', 'K', 0, 1,
        'F', 'R', 1, 0, 0x8C, 'F', 'R', 1, 0, 0x8D, 'F', 'R', 1, 0, 0x8D, 'F', 'R', 1, 0, 0x8D,
    };
    uint8_t log[64];
    second_reading r = second_session(session, sizeof session, log, sizeof log);
    if (r.number != 0 || r.written != 10 + 8 * bytes) return false;
    for (size_t i = 0; i < bytes; i++) if (log[10 + 8 * i + 7] != marked[i]) return false;
    return log[8] == marked[bytes] && log[9] == marked[bytes + 1];
}

static bool marked_table_agrees(void)
{
    return marked_value_agrees(4, 0xE, (const uint8_t[]){0xEE, 0x03, 0xBB}, 1) &&
           marked_value_agrees(9, 0x1FE, (const uint8_t[]){0xFF, 0x7F, 0x03, 0xFD}, 2) &&
           marked_value_agrees(18, 0x3FFFE, (const uint8_t[]){0xFF, 0xFF, 0xBF, 0x03, 0xFF}, 3) &&
           marked_value_agrees(2, 1, (const uint8_t[]){0x55, 0x01, 0x55}, 1) &&
           marked_value_agrees(8, 100, (const uint8_t[]){0x64, 0x01, 0x91}, 1);
}

static bool colour_agrees(void)
{
    return session_gives(COLOUR_SESSION, sizeof COLOUR_SESSION, COLOUR_LOG, sizeof COLOUR_LOG) &&
           session_gives(COLOUR_REPORTS_SESSION, sizeof COLOUR_REPORTS_SESSION, COLOUR_REPORTS_LOG, sizeof COLOUR_REPORTS_LOG);
}

/* 003, Table A.1, but that halves are rounded down (02, M-104): its 188, 138 and 88 are of 187.5, 137.5 and 87.5. The frame behind
 * the last row has no answer, and DTR0 is 16 then, as hysteresisMin shows. */
static bool sensor_table_agrees(void)
{
    static const uint8_t answers[] = {187, 175, 162, 137, 125, 100, 112, 87, 75, 1, 84, 1, 104, 0, 200, 16};
    uint8_t session[5 + 5 * 16 + 15] = {'I', 'N', 0, 5, 24}, expected[8 * sizeof answers];
    for (unsigned i = 0; i < 19; i++) memcpy(session + 5 + 5 * i, (const uint8_t[]){'F', 'R', 0x01, 0, 0x4B}, 5);
    session[5 + 5 * 16 + 4] = session[5 + 5 * 17 + 4] = 0x43;
    session[5 + 5 * 18 + 4] = 0x4C;
    for (unsigned i = 0; i < sizeof answers; i++)
        memcpy(expected + 8 * i, (const uint8_t[]){'A', 'N', 0, 0, 0, 0, 0, answers[i]}, 8);
    return session_gives(session, sizeof session, expected, sizeof expected);
}

/* 003, Tables 1 and 3: red, green and blue as inputValue and the information have them. */
static bool colour_value_agrees(uint8_t red, uint8_t green, uint8_t blue, uint32_t information)
{
    uint8_t session[] = {
        'I', 'N', 0, 5, 24, 'S', 'A', 0, 0, blue, green, red, 'T', 'K', 0, 1,
        'F', 'R', 1, 0, 0x8C, 'F', 'R', 1, 0, 0x8D, 'F', 'R', 1, 0, 0x8D,
    };
    uint8_t expected[] = {
        'E', 'V', 0, 0, 0, 1, 0, 4, (uint8_t)(information >> 8), (uint8_t)information,
        'A', 'N', 0, 0, 0, 1, 0, blue, 'A', 'N', 0, 0, 0, 1, 0, green, 'A', 'N', 0, 0, 0, 1, 0, red,
    };
    return session_gives(session, sizeof session, expected, sizeof expected);
}

static bool colour_values_agree(void)
{
    return colour_value_agrees(254, 254, 254, 0x1FF) && colour_value_agrees(31, 31, 31, 0) &&
           colour_value_agrees(254, 0, 0, 0x007) && colour_value_agrees(0, 254, 0, 0x038) &&
           colour_value_agrees(0, 0, 254, 0x1C0) && colour_value_agrees(32, 0, 0, 0x001) &&
           colour_value_agrees(0, 64, 0, 0x010) && colour_value_agrees(0, 0, 128, 0x100) &&
           colour_value_agrees(0x3F, 0x5F, 0x9F, 0x111);
}

static second_reading read_whole(const test_case *c, uint8_t *log, size_t log_len)
{
    return second_case(c, second_read, log, log_len);
}

static second_reading read_pieces(const test_case *c, uint8_t *log, size_t log_len)
{
    return second_case(c, second_in_pieces, log, log_len);
}

static bool pieces_agree(unsigned cases)
{
    const implementation whole = {"one call", read_whole}, pieces = {"pieces", read_pieces};
    for (unsigned seed = 1; seed <= cases; seed++) {
        test_case c = generate(seed, 0);
        if (agree(&c, whole, pieces)) continue;
        print_difference(&c, whole, pieces);
        return false;
    }
    return true;
}

static bool report(const char *what, bool good)
{
    printf("%s: %s\n", what, good ? "agrees" : "DOES NOT AGREE");
    return good;
}

int main(void)
{
    bool good = report("document 01, full session", full_session_agrees());
    good = report("document 01, marked widths and informations", marked_table_agrees()) && good;
    good = report("IN and LO side by side, worked out by hand", two_rules_agree()) && good;
    good = report("IM, worked out by hand", movement_agrees()) && good;
    good = report("colour: document 003's example, and reports", colour_agrees()) && good;
    good = report("colour: document 003's tables", sensor_table_agrees() && colour_values_agree()) && good;
    good = report("pairs, worked out by hand", pairs_agree() && pairs_over_calls_agree()) && good;
    good = report("1000 sessions in pieces", pieces_agree(1000)) && good;
    return good ? 0 : 1;
}
