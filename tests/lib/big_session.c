/* Writes a session far longer than the program's buffers, or one whose log is.
 *   big_session queries COUNT       one light instance asked COUNT times for its value
 *   big_session reports COUNT       sixteen light instances that report every 30 ticks, in COUNT TK records of 65,535 ticks
 *   big_session mixed SEED SHIFT    SHIFT ticks, and then 20,000 records of every kind and more, chosen by SEED */
#include "whole.h"

#include <stdio.h>
#include <stdlib.h>
#include <string.h>

enum { OCCUPANCY = 3, LIGHT = 4, COLOUR = 5, INSTANCES = 16, RESOLUTION = 10, MIXED_RECORDS = 20000 };

static uint8_t session[WHOLE_MAX];
static size_t length;

static void put(const char *mark, const uint8_t *bytes, size_t count)
{
    memcpy(session + length, mark, 2);
    memcpy(session + length + 2, bytes, count);
    length += 2 + count;
}

static void declare(const char *mark, unsigned instance, uint8_t type)
{
    put(mark, (uint8_t[]){(uint8_t)instance, type, type == LIGHT ? RESOLUTION : type == COLOUR ? 24 : 2}, 3);
}

static void sample(unsigned instance, unsigned value)
{
    put("SA", (uint8_t[]){(uint8_t)instance, 0, (uint8_t)(value >> 16), (uint8_t)(value >> 8), (uint8_t)value}, 5);
}

static void frame(uint8_t first, unsigned second, uint8_t third)
{
    put("FR", (uint8_t[]){first, (uint8_t)second, third}, 3);
}

/* Twice: then it acts (02, M-105). */
static void setting(unsigned instance, uint8_t opcode)
{
    frame(0x01, instance, opcode);
    frame(0x01, instance, opcode);
}

static void ticks(unsigned count)
{
    put("TK", (uint8_t[]){(uint8_t)(count >> 8), (uint8_t)count}, 2);
}

static void queries(uint64_t count)
{
    declare("IN", 0, LIGHT);
    sample(0, 100);
    ticks(1);
    for (uint64_t i = 0; i < count; i++) frame(0x01, 0, 0x8C);
}

static void reports(uint64_t count)
{
    for (unsigned i = 0; i < INSTANCES; i++) declare("IN", i, LIGHT);
    frame(0xC1, 0x30, 1);
    for (unsigned i = 0; i < INSTANCES; i++) {
        setting(i, 0x30);
        sample(i, 10 * i);
    }
    for (uint64_t i = 0; i < count; i++) ticks(65535);
}

/* splitmix64 */
static uint64_t chance;

static unsigned below(unsigned n)
{
    uint64_t z = chance += 0x9E3779B97F4A7C15u;
    z = (z ^ z >> 30) * 0xBF58476D1CE4E5B9u;
    z = (z ^ z >> 27) * 0x94D049BB133111EBu;
    return (unsigned)((z ^ z >> 31) >> 33) % n;
}

/* Of six instances one is presence-based, one movement-based, one colour, and three are light. */
static void declare_mixed(unsigned instance)
{
    switch (instance % 6) {
    case 0: declare("IN", instance, OCCUPANCY); break;
    case 3: declare("IM", instance, OCCUPANCY); break;
    case 5: declare("IN", instance, COLOUR); break;
    default: declare("IN", instance, LIGHT); break;
    }
}

static unsigned any_colour(void)
{
    unsigned blue = below(255), green = below(255), red = below(255);
    return blue << 16 | green << 8 | red;
}

static unsigned any_value(unsigned instance)
{
    switch (instance % 6) {
    case 0: return below(4);
    case 3: return below(2);
    case 5: return any_colour();
    default: return below(1023);
    }
}

/* Most often twice, now and then with a tick between: queries too. */
static void command(unsigned instance, uint8_t opcode)
{
    frame(0x01, instance, opcode);
    if (below(4) == 0) return;
    if (below(4) == 0) ticks(1);
    frame(0x01, instance, opcode);
}

static void mixed(uint64_t seed, uint64_t shift)
{
    static const uint8_t opcodes[] = {0x20, 0x21, 0x22, 0x23, 0x24, 0x2C, 0x2D, 0x2E, 0x2F, 0x30, 0x31, 0x32,
                                      0x3C, 0x3D, 0x3E, 0x3F, 0x40, 0x41, 0x42, 0x43, 0x4B, 0x4C, 0x4D, 0x4E,
                                      0x4F, 0x62, 0x68, 0x80, 0x81, 0x83, 0x8C, 0x8D, 0x90};
    chance = seed;
    for (unsigned i = 0; i < INSTANCES; i++) declare_mixed(i);
    for (uint64_t i = 0; i < shift; i++) ticks(1);
    for (unsigned i = 0; i < MIXED_RECORDS; i++) {
        unsigned instance = below(INSTANCES);
        switch (below(4)) {
        case 0: ticks(1 + below(below(50) == 0 ? 2000 : 3)); break;
        case 1: command(instance, opcodes[below(sizeof opcodes)]); break;
        case 2: frame(0xC1, 0x30, (uint8_t)below(4)); break;
        default: sample(instance, any_value(instance)); break;
        }
    }
}

int main(int argc, char **argv)
{
    if (argc < 3) return 2;
    uint64_t number = strtoull(argv[2], NULL, 10);
    if (strcmp(argv[1], "queries") == 0) queries(number);
    else if (strcmp(argv[1], "reports") == 0) reports(number);
    else if (strcmp(argv[1], "mixed") == 0 && argc == 4) mixed(number, strtoull(argv[3], NULL, 10));
    else return 2;
    return write_whole(session, length) ? 0 : 2;
}
