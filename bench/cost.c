/* One run whose cost is measured from outside.
 *   cost first|table|second INSTANCES quiet|sampled|busy|presence|movement|colour TICKS
 * first is the proved library, table the same with the hour table, second the plain C implementation. In the first three loads all instances are light with
 * resolution 16.
 * quiet: one sample, and then ticks alone, at the default settings: a report every 600 ticks.
 * sampled: the same, with a new sample for each instance every 20 ticks that stays inside the band.
 * busy: dead time 0, and at every tick a new sample for each instance, which sends an event.
 * presence, movement: occupancy of that make at the default settings. One instance after the other sees movement for 100 ticks, each every 28,800, and is
 * vacant 18,000 ticks after that: by its hold where it is movement-based, else by a sample. Both send the same events at the same ticks.
 * colour: colour at the default settings. One instance after the other measures another colour for 100 ticks, each every 28,800, and sends at either change; between
 * them each sends a report every 3,000. */
#include "potmeander.h"
#include "second/second.h"

#include <stdio.h>
#include <stdlib.h>
#include <string.h>

enum { LIGHT = 4, RESOLUTION = 16, REPORT = 600, IN_SIZE = 5, FR_SIZE = 5, SA_SIZE = 7, TK_SIZE = 4, EV_SIZE = 10, TK_MOST = 65535 };

/* Ticks of one instance's turn, in which it sees movement, or another colour, at first; the turns of a round; so many turns later a hold ends. */
enum { OCCUPANCY = 3, COLOUR = 5, TURN = 1800, SEEN = 100, ROUND = 16, HELD = 10 };

/* How often there are samples (0: once), the two values' high bytes, and whether dead time is set to 0. */
typedef struct {
    const char *name;
    unsigned every;
    uint8_t high[2];
    bool at_once;
} load;

static const load loads[] = {{"quiet", 0, {100, 100}, false}, {"sampled", 20, {100, 99}, false}, {"busy", 1, {200, 50}, true}};

typedef struct {
    uint8_t *bytes;
    size_t len;
} session;

static void put(session *s, const uint8_t *record, size_t size)
{
    memcpy(s->bytes + s->len, record, size);
    s->len += size;
}

#define PUT(s, ...) put((s), (const uint8_t[]){__VA_ARGS__}, sizeof((const uint8_t[]){__VA_ARGS__}))

static void put_ticks(session *s, unsigned long ticks)
{
    for (; ticks > TK_MOST; ticks -= TK_MOST) PUT(s, 'T', 'K', 0xFF, 0xFF);
    PUT(s, 'T', 'K', (uint8_t)(ticks >> 8), (uint8_t)ticks);
}

static void put_samples(session *s, unsigned instances, uint8_t high)
{
    for (unsigned i = 0; i < instances; i++) PUT(s, 'S', 'A', (uint8_t)i, 0, 0, high, (uint8_t)(7 * i));
}

static void declare(session *s, unsigned instances, bool at_once)
{
    for (unsigned i = 0; i < instances; i++) PUT(s, 'I', 'N', (uint8_t)i, LIGHT, RESOLUTION);
    /* deadtime from DTR0, 0: twice, then it acts (M-105) */
    for (unsigned i = 0; i < 2 * instances && at_once; i++) PUT(s, 'F', 'R', 0x01, (uint8_t)(i / 2), 0x32);
}

static session make(unsigned instances, const load *l, unsigned long ticks)
{
    unsigned long every = l->every == 0 ? ticks : l->every, rounds = ticks / every;
    size_t declaring = (IN_SIZE + 2 * FR_SIZE) * (size_t)instances;
    session s = {malloc(declaring + rounds * (SA_SIZE * instances + TK_SIZE * (every / TK_MOST + 1))), 0};
    declare(&s, instances, l->at_once);
    for (unsigned long round = 0; round < rounds; round++) {
        put_samples(&s, instances, l->high[round % 2]);
        put_ticks(&s, every);
    }
    return s;
}

/* The turn of instance k. */
static void put_turn(session *s, unsigned k, unsigned instances, bool movement)
{
    unsigned left = (k + ROUND - HELD) % ROUND;
    if (k < instances) PUT(s, 'S', 'A', (uint8_t)k, 0, 0, 0, movement ? 1 : 3);
    put_ticks(s, SEEN);
    if (k < instances) PUT(s, 'S', 'A', (uint8_t)k, 0, 0, 0, movement ? 0 : 2);
    if (left < instances && !movement) PUT(s, 'S', 'A', (uint8_t)left, 0, 0, 0, 0);
    put_ticks(s, TURN - SEEN);
}

static session make_occupancy(unsigned instances, bool movement, unsigned long ticks)
{
    unsigned long turns = ticks / TURN;
    session s = {malloc(IN_SIZE * (size_t)instances + turns * (3 * SA_SIZE + 2 * TK_SIZE)), 0};
    for (unsigned i = 0; i < instances; i++) PUT(&s, 'I', movement ? 'M' : 'N', (uint8_t)i, OCCUPANCY, 2);
    for (unsigned long turn = 0; turn < turns; turn++) put_turn(&s, (unsigned)(turn % ROUND), instances, movement);
    return s;
}

static session make_colour(unsigned instances, unsigned long ticks)
{
    unsigned long turns = ticks / TURN;
    session s = {malloc(IN_SIZE * (size_t)instances + turns * (2 * SA_SIZE + 2 * TK_SIZE)), 0};
    for (unsigned i = 0; i < instances; i++) PUT(&s, 'I', 'N', (uint8_t)i, COLOUR, 24);
    for (unsigned long turn = 0; turn < turns; turn++) {
        unsigned k = (unsigned)(turn % ROUND);
        if (k < instances) PUT(&s, 'S', 'A', (uint8_t)k, 0, 120, 110, 70);
        put_ticks(&s, SEEN);
        if (k < instances) PUT(&s, 'S', 'A', (uint8_t)k, 0, 130, 98, 85);
        put_ticks(&s, TURN - SEEN);
    }
    return s;
}

static const load *named(const char *name)
{
    for (size_t i = 0; i < sizeof loads / sizeof *loads; i++)
        if (strcmp(loads[i].name, name) == 0) return &loads[i];
    return NULL;
}

int main(int argc, char **argv)
{
    const load *l = argc == 5 ? named(argv[3]) : NULL;
    bool movement = argc == 5 && strcmp(argv[3], "movement") == 0, presence = argc == 5 && strcmp(argv[3], "presence") == 0;
    bool colour = argc == 5 && strcmp(argv[3], "colour") == 0;
    unsigned long ticks = argc == 5 ? (unsigned long)strtoull(argv[4], NULL, 10) : 0;
    if ((l == NULL && !movement && !presence && !colour) || ticks == 0) {
        printf("usage: cost first|table|second INSTANCES quiet|sampled|busy|presence|movement|colour TICKS\n");
        return 2;
    }
    bool first = strcmp(argv[1], "first") == 0, table = strcmp(argv[1], "table") == 0;
    unsigned instances = (unsigned)strtoull(argv[2], NULL, 10);
    session s = l != NULL ? make(instances, l, ticks) : colour ? make_colour(instances, ticks) : make_occupancy(instances, movement, ticks);
    bool busy = l != NULL && l->at_once;
    size_t log_len = (size_t)EV_SIZE * instances * (busy ? ticks + 2 : ticks / REPORT + 2); /* never short of room for a tick */
    uint8_t *log = malloc(log_len);
    uint64_t number, written;
    if (first || table) {
        static uint32_t events[POTMEANDER_ENTRIES], gaps[POTMEANDER_ENTRIES];
        potmeander_reading r = first ? potmeander_session(s.bytes, s.len, log, log_len)
                                     : potmeander_session_hours(s.bytes, s.len, log, log_len, events, POTMEANDER_ENTRIES, gaps,
                                                                POTMEANDER_ENTRIES);
        number = r.number, written = r.written;
    } else {
        second_reading r = second_session(s.bytes, s.len, log, log_len);
        number = r.number, written = r.written;
    }
    printf("number %lu, %lu bytes logged\n", (unsigned long)number, (unsigned long)written);
    return number != 0;
}
