#include "generator.h"

#include <stdbool.h>
#include <string.h>

enum { OCCUPANCY = 3, LIGHT = 4, COLOUR = 5 };
enum { INSTANCES = 16, SESSION_MAX = 1 << 16 };

/* The marks that declare. */
typedef enum { IN, LO, IM, MARKS } mark;

/* The turns of profile f: the first ones each declare another sensor, most of which are not modelled, the last ones an instance too
 * many. */
enum { DAMAGED_TURNS = 90, SENSORS = 13, UNMODELLED_TURNS = SENSORS * MARKS, FULL_TURNS = 6 };

/* The values of movement-based occupancy. */
enum { EMPTY = 0, STILL = 2, MOVING = 3 };

/* The bytes of a colour value, from the lowest: red, green and blue. */
enum { CHANNELS = 3, CHANNEL_MOST = 254, BLACK = 0, WHITE = 0xFEFEFE };

/* What the generator remembers of an instance, to choose values and tick counts that tell something. It may be wrong: a setting
 * that is refused is remembered all the same; but not one whose repeat does not come. */
typedef struct {
    uint8_t type, resolution;
    mark by; /* declared by LO, its band is on the input value; by IM, it is movement-based */
    uint8_t hysteresis, hysteresis_min, deadtime, report;
    uint32_t base; /* a value that the band may begin from */
    bool had_valid; /* light and colour: status 1 is refused from now on */
    bool failed;    /* the sample that it holds is not valid */
    /* movement-based */
    bool moving; /* the sample that it holds */
    uint8_t hold, value;
    uint32_t expires; /* the tick at which the hold that runs expires */
    bool disabled;
    /* colour */
    bool filtered;           /* by its filter */
    uint32_t shown;          /* the sample that it holds */
    uint32_t last, band;     /* as the last event by a change left them */
    uint32_t free_from;      /* the first tick behind dead time */
} sketch;

/* The first frame of a pair (M-105), where the last one was one. */
typedef struct {
    bool open;
    uint8_t bytes[3];
    uint32_t tick;
} half;

typedef struct {
    uint64_t random;
    uint8_t *bytes;
    size_t len;
    bool single;  /* what sets something is sent once, and acts at once: as before M-105 */
    unsigned odd; /* of a hundred pairs so many are odd ones */
    bool twice;   /* opcodes that no type has come twice too */
    half first;
    bool acted; /* a frame that sets something acted since this was false */
    uint8_t dtr0;
    uint32_t tick; /* from 0 on, wherever the model begins */
    unsigned declared;
    unsigned work_left; /* ticks x instances that the session may still cost */
    sketch instance[INSTANCES];
} generator;

static uint8_t buffer[SESSION_MAX];

/* ---- Chance ---- */

/* splitmix64 */
static uint64_t next_random(generator *g)
{
    uint64_t z = g->random += 0x9E3779B97F4A7C15u;
    z = (z ^ z >> 30) * 0xBF58476D1CE4E5B9u;
    z = (z ^ z >> 27) * 0x94D049BB133111EBu;
    return z ^ z >> 31;
}

static unsigned below(generator *g, unsigned n)
{
    return (unsigned)(next_random(g) >> 33) % n;
}

static bool chance(generator *g, unsigned percent)
{
    return below(g, 100) < percent;
}

static uint32_t one_of(generator *g, const uint32_t *list, size_t count)
{
    return list[below(g, (unsigned)count)];
}

#define ONE_OF(g, ...) one_of((g), (const uint32_t[]){__VA_ARGS__}, sizeof((const uint32_t[]){__VA_ARGS__}) / sizeof(uint32_t))

/* ---- Records ---- */

static uint32_t light_most(const sketch *s)
{
    return (1u << s->resolution) - 2;
}

static unsigned channel(uint32_t colour, unsigned which)
{
    return colour >> (8 * which) & 0xFF;
}

static bool has_channel_255(uint32_t colour)
{
    return channel(colour, 0) == 255 || channel(colour, 1) == 255 || channel(colour, 2) == 255;
}

static void put(generator *g, const uint8_t *bytes, size_t count)
{
    if (g->len + count > SESSION_MAX) return;
    memcpy(g->bytes + g->len, bytes, count);
    g->len += count;
}

#define PUT(g, ...) put((g), (const uint8_t[]){__VA_ARGS__}, sizeof((const uint8_t[]){__VA_ARGS__}))

static void put_declaration(generator *g, mark by, unsigned number, unsigned type, unsigned resolution)
{
    static const char *const marks[MARKS] = {[IN] = "IN", [LO] = "LO", [IM] = "IM"};
    PUT(g, (uint8_t)marks[by][0], (uint8_t)marks[by][1], (uint8_t)number, (uint8_t)type, (uint8_t)resolution);
}

/* Whether a sample of colour is refused. */
static bool colour_refused(const sketch *s, unsigned status, uint32_t value)
{
    if (status == 0) return has_channel_255(value);
    return status > 2 || value > 0 || (status == 1 && s->had_valid);
}

static void hold_sample(sketch *s, unsigned status, uint32_t value)
{
    if (s->type == COLOUR && colour_refused(s, status, value)) return;
    if (status == 0 && value <= light_most(s)) s->had_valid = true;
    if (s->by == IM && (status == 1 || value > 1)) return;
    s->failed = status != 0;
    s->moving = status == 0 && (value & 1);
    s->shown = value;
}

static void put_sa(generator *g, unsigned number, unsigned status, uint32_t value)
{
    if (number < g->declared) hold_sample(&g->instance[number], status, value);
    PUT(g, 'S', 'A', (uint8_t)number, (uint8_t)status, (uint8_t)(value >> 16), (uint8_t)(value >> 8), (uint8_t)value);
}

/* Whether an opcode sets something of an instance. */
static bool is_setting(const sketch *s, unsigned opcode)
{
    if (opcode == 0x61 || opcode == 0x62 || opcode == 0x63 || opcode == 0x68) return true;
    if (s->type == LIGHT) return opcode >= 0x30 && opcode <= 0x33;
    if (s->type == COLOUR) return opcode >= 0x40 && opcode <= 0x43;
    return opcode == 0x22 || opcode == 0x23 || (s->by == IM && opcode == 0x21);
}

/* Remembers a first frame, and sees whether it comes again in time. */
static void pass_frame(generator *g, const uint8_t *bytes)
{
    bool counts = (bytes[0] == 0x01 || bytes[0] == 0xFF) && bytes[1] < g->declared;
    bool sets = counts && is_setting(&g->instance[bytes[1]], bytes[2]);
    bool repeat = g->first.open && memcmp(g->first.bytes, bytes, 3) == 0 && g->tick - g->first.tick <= 2;
    if (sets && (repeat || g->single)) g->acted = true;
    g->first = (half){sets && !repeat, {bytes[0], bytes[1], bytes[2]}, g->tick};
}

static void put_fr(generator *g, unsigned byte1, unsigned byte2, unsigned byte3)
{
    const uint8_t bytes[3] = {(uint8_t)byte1, (uint8_t)byte2, (uint8_t)byte3};
    PUT(g, 'F', 'R', bytes[0], bytes[1], bytes[2]);
    pass_frame(g, bytes);
}

static uint32_t hold_time(const sketch *s)
{
    return s->hold == 0 ? 20 : 200u * s->hold;
}

static unsigned channel_sum(uint32_t colour)
{
    return channel(colour, 0) + channel(colour, 1) + channel(colour, 2);
}

static unsigned channel_changes(uint32_t from, uint32_t to)
{
    unsigned sum = 0;
    for (unsigned i = 0; i < CHANNELS; i++) {
        unsigned a = channel(from, i), b = channel(to, i);
        sum += a > b ? a - b : b - a;
    }
    return sum;
}

/* What ticks from this one on, up to another, make of the colour that an instance holds. Reports, and their dead time, are left
 * out. */
static void pass_colour_ticks(sketch *s, uint32_t from, uint32_t to)
{
    uint32_t at = s->free_from > from ? s->free_from : from;
    if (s->failed || s->disabled || s->filtered || s->hysteresis == 0 || at > to) return;
    if (channel_changes(s->last, s->shown) <= s->band) return;
    uint32_t share = channel_sum(s->shown) * s->hysteresis / 100;
    s->last = s->shown;
    s->band = share > s->hysteresis_min ? share : s->hysteresis_min;
    s->free_from = at + s->deadtime;
}

/* What they make of the sample that a movement-based instance holds. */
static void pass_movement_ticks(sketch *s, uint32_t from, uint32_t to)
{
    if (s->failed) return;
    if (s->moving) {
        s->value = MOVING;
        return;
    }
    if (s->value == MOVING) {
        s->value = STILL;
        s->expires = from + hold_time(s);
    }
    if (s->value == STILL && s->expires <= to) s->value = EMPTY;
}

static void pass_ticks(sketch *s, uint32_t from, uint32_t to)
{
    if (s->type == COLOUR) pass_colour_ticks(s, from, to);
    if (s->by == IM) pass_movement_ticks(s, from, to);
}

/* A TK of as many ticks as the session may still cost. */
static void put_tk(generator *g, unsigned count)
{
    unsigned cost = g->declared > 0 ? g->declared : 1;
    if (count > g->work_left / cost) count = g->work_left / cost;
    if (count == 0) return;
    g->work_left -= count * cost;
    PUT(g, 'T', 'K', (uint8_t)(count >> 8), (uint8_t)count);
    for (unsigned i = 0; i < g->declared; i++) pass_ticks(&g->instance[i], g->tick + 1, g->tick + count);
    g->tick += count;
}

/* ---- Instances ---- */

static void declare(generator *g, mark by, unsigned type, unsigned resolution)
{
    bool occupancy = type == OCCUPANCY, colour = type == COLOUR;
    uint32_t hundredth = (1u << resolution) / 100;
    uint8_t least = (uint8_t)(hundredth > 255 ? 255 : hundredth);
    g->instance[g->declared] = (sketch){
        .type = (uint8_t)type,
        .resolution = (uint8_t)resolution,
        .by = by,
        .hysteresis = colour ? 10 : 5,
        .hysteresis_min = colour ? 12 : least,
        .deadtime = occupancy ? 2 : 30,
        .report = occupancy ? 20 : 30,
        .hold = 90,
        .failed = colour,
    };
    put_declaration(g, by, g->declared, type, resolution);
    g->declared++;
}

static void declare_presence(generator *g)
{
    declare(g, IN, OCCUPANCY, 2);
}

static void declare_movement(generator *g)
{
    declare(g, IM, OCCUPANCY, 2);
}

/* Of either kind. */
static void declare_occupancy(generator *g)
{
    if (chance(g, 40)) declare_movement(g);
    else declare_presence(g);
}

/* By either mark. */
static void declare_light(generator *g, unsigned resolution)
{
    declare(g, chance(g, 40) ? LO : IN, LIGHT, resolution);
}

static void declare_colour(generator *g)
{
    declare(g, IN, COLOUR, 24);
}

static void declare_any(generator *g, unsigned count)
{
    for (unsigned i = 0; i < count; i++) {
        if (chance(g, 8)) declare_colour(g);
        else if (chance(g, 45)) declare_occupancy(g);
        else declare_light(g, 1 + below(g, 24));
    }
}

static unsigned any_instance(generator *g)
{
    return g->declared > 0 ? below(g, g->declared) : 0;
}

/* ---- Samples ---- */

/* The bits that the number of the band has more than the measured value: LO's fills whole bytes. */
static unsigned filled_bits(const sketch *s)
{
    return s->by == LO ? (24u - s->resolution) % 8 : 0;
}

/* The number of the band that is taken on a value. The bits of a value again and again are those of the fraction value /
 * (2^resolution - 1). */
static int64_t band_number(const sketch *s, uint32_t value)
{
    return (int64_t)value * (1 << (s->resolution + filled_bits(s))) / ((1 << s->resolution) - 1);
}

/* A value at the end of a band that begins at the base and goes down (-1) or up (1), or beside it; it may be out of range. */
static int64_t edge_value(generator *g, const sketch *s, int way)
{
    int64_t from = band_number(s, s->base), share = from * s->hysteresis / 100;
    int64_t end = from + way * (share > s->hysteresis_min ? share : s->hysteresis_min);
    return end / (1 << filled_bits(s)) + below(g, 3) - 1;
}

static uint32_t in_range(const sketch *s, int64_t value)
{
    int64_t most = light_most(s);
    return (uint32_t)(value < 0 ? 0 : value > most ? most : value);
}

/* A value at an end of the range, or about an edge of a band that begins at the base. */
static uint32_t light_value(generator *g, sketch *s)
{
    int64_t most = light_most(s);
    int64_t value = s->base;
    switch (below(g, 8)) {
    case 0: value = (int64_t)ONE_OF(g, 0, 0, 1, 99, 100); break;
    case 1: value = most - below(g, 2); break;
    case 2: value = (int64_t)(next_random(g) % (uint64_t)(most + 1)); break;
    case 3: case 4: value = edge_value(g, s, 1); break;
    case 5: case 6: value = edge_value(g, s, -1); break;
    default: value += below(g, 3) - 1; break;
    }
    value = in_range(s, value);
    if (chance(g, 60)) s->base = (uint32_t)value;
    return (uint32_t)value;
}

/* A colour whose channels are each below a limit. */
static uint32_t dark_colour(generator *g, unsigned limit)
{
    return below(g, limit) << 16 | below(g, limit) << 8 | below(g, limit);
}

static uint32_t any_colour(generator *g)
{
    return dark_colour(g, CHANNEL_MOST + 1);
}

/* A channel one step up or down, unless it is at its end. */
static uint32_t step_channel(uint32_t colour, unsigned which, bool up)
{
    if (channel(colour, which) == (up ? CHANNEL_MOST : 0)) return colour;
    return up ? colour + (1u << 8 * which) : colour - (1u << 8 * which);
}

/* A colour that differs by so much from another, or by as much as there is: in one channel as far as it goes, or spread over the
 * three, each of which goes one way. */
static uint32_t changed_colour(generator *g, uint32_t from, unsigned change)
{
    uint32_t to = from;
    unsigned first = below(g, CHANNELS), ways = below(g, 8);
    bool spread = chance(g, 50);
    if (channel(from, first) + change > CHANNEL_MOST && chance(g, 70)) ways &= ~(1u << first);
    for (unsigned tries = 0; tries < 3000 && channel_changes(from, to) < change; tries++) {
        unsigned which = spread ? below(g, CHANNELS) : (first + tries / 800) % CHANNELS;
        to = step_channel(to, which, ways >> which & 1);
    }
    return to;
}

/* At the edge of the band, or just outside of it. */
static uint32_t edge_colour(generator *g, const sketch *s)
{
    return changed_colour(g, s->last, s->band + ONE_OF(g, 0, 0, 1, 1, 2));
}

static uint32_t colour_value(generator *g, const sketch *s)
{
    switch (below(g, 8)) {
    case 0: return ONE_OF(g, BLACK, WHITE);
    case 1: return any_colour(g);
    case 2: return dark_colour(g, 12);
    case 3: return s->last;
    default: return edge_colour(g, s);
    }
}

static uint32_t valid_value(generator *g, sketch *s)
{
    if (s->type == LIGHT) return light_value(g, s);
    if (s->type == COLOUR) return colour_value(g, s);
    return below(g, s->by == IM ? 2 : 4);
}

static void put_valid(generator *g, unsigned number)
{
    put_sa(g, number, 0, valid_value(g, &g->instance[number]));
}

static void sample(generator *g, unsigned number)
{
    const sketch *s = &g->instance[number];
    if (chance(g, 8)) put_sa(g, number, 2, 0);
    else if (s->type != OCCUPANCY && !s->had_valid && chance(g, 15)) put_sa(g, number, 1, 0);
    else put_valid(g, number);
}

/* ---- Frames, and pairs of them ---- */

static unsigned any_query(generator *g)
{
    return ONE_OF(g, 0x80, 0x81, 0x82, 0x83, 0x84, 0x86, 0x8C, 0x8D, 0x90, 0x2C, 0x2D, 0x2E, 0x2F, 0x3C, 0x3D, 0x3E, 0x3F,
                  0x4B, 0x4C, 0x4D, 0x4E, 0x4F);
}

/* A frame to an instance by a first byte that counts, and what becomes of it but for its setting. */
static void put_frame(generator *g, unsigned byte1, unsigned number, unsigned opcode)
{
    put_fr(g, byte1, number, opcode);
    if (number < g->declared && g->instance[number].type == COLOUR && opcode == 0x4B) g->dtr0++;
}

/* The other first byte that counts. */
static unsigned other_address(unsigned byte1)
{
    return byte1 == 0x01 ? 0xFF : 0x01;
}

/* A frame once, three times, or twice with something between that may drop the first. */
static void put_odd_pair(generator *g, unsigned byte1, unsigned number, unsigned opcode)
{
    unsigned how = below(g, 9);
    put_frame(g, byte1, number, opcode);
    switch (how) {
    case 0: return;
    case 1: put_frame(g, byte1, number, opcode); break;
    case 2: put_tk(g, 1 + below(g, 2)); break;
    case 3: put_tk(g, 3); break;
    case 4: if (number < g->declared) sample(g, number); break;
    case 5: put_frame(g, byte1, number, any_query(g)); break;
    case 6: put_frame(g, byte1, any_instance(g), opcode); break;
    case 7: put_fr(g, 0x03, number, opcode); break;
    default: byte1 = other_address(byte1); break;
    }
    put_frame(g, byte1, number, opcode);
}

/* Whether an opcode comes twice: those that set something of any type and, where that is wanted, those that no type has. */
static bool comes_twice(const generator *g, unsigned opcode)
{
    if (g->single) return false;
    if ((opcode >= 0x21 && opcode <= 0x23) || (opcode >= 0x30 && opcode <= 0x33) || (opcode >= 0x40 && opcode <= 0x43)) return true;
    if (opcode == 0x61 || opcode == 0x62 || opcode == 0x63 || opcode == 0x68) return true;
    bool asks = (opcode >= 0x2C && opcode <= 0x2F) || (opcode >= 0x3C && opcode <= 0x3F) || (opcode >= 0x4B && opcode <= 0x4F) ||
                (opcode >= 0x80 && opcode <= 0x90);
    return g->twice && !asks && opcode != 0x20 && opcode != 0x24;
}

/* A frame to an instance, by one of the two first bytes that count; where it sets something, most often twice in a row. Gives
 * whether it is obeyed, or acts at once. */
static bool put_command(generator *g, unsigned number, unsigned opcode)
{
    unsigned byte1 = chance(g, 75) ? 0x01 : 0xFF;
    g->acted = false;
    if (!comes_twice(g, opcode)) put_frame(g, byte1, number, opcode);
    else if (chance(g, g->odd)) put_odd_pair(g, byte1, number, opcode);
    else put_frame(g, byte1, number, opcode), put_frame(g, byte1, number, opcode);
    if (number >= g->declared) return false;
    if (g->acted && (opcode == 0x62 || opcode == 0x63)) g->instance[number].disabled = opcode == 0x63;
    return g->acted || !is_setting(&g->instance[number], opcode);
}

/* ---- Settings and queries ---- */

static uint8_t telling_dtr0(generator *g, unsigned opcode)
{
    switch (opcode) {
    case 0x21: return (uint8_t)ONE_OF(g, 0, 0, 0, 0, 1, 1, 2, 254, 255, 255);
    case 0x22: case 0x30: case 0x40: return (uint8_t)ONE_OF(g, 0, 0, 1, 1, 1, 2, 3, 255);
    case 0x23: case 0x32: case 0x42: return (uint8_t)ONE_OF(g, 0, 0, 1, 2, 3, 19, 20, 21, 45, 255);
    case 0x31: case 0x41: return (uint8_t)ONE_OF(g, 0, 1, 5, 10, 24, 25, 26, 255);
    case 0x43: return (uint8_t)ONE_OF(g, 0, 0, 1, 12, 12, 100, 200, 255);
    case 0x4B: return (uint8_t)ONE_OF(g, 0, below(g, 15), below(g, 15), 14, 15, 16, 254, 255);
    case 0x33: return (uint8_t)ONE_OF(g, 0, 1, 2, 5, 10, 100, 254, 255);
    case 0x61: return (uint8_t)ONE_OF(g, 0, 1, 2, 3, 4, 5, 6, 255);
    case 0x68: return (uint8_t)(below(g, chance(g, 70) ? 32 : 256) | below(g, 2));
    }
    return (uint8_t)below(g, 256);
}

static void remember_colour(generator *g, sketch *s, unsigned opcode, uint8_t dtr0)
{
    switch (opcode) {
    case 0x40: s->report = dtr0; break;
    case 0x41: if (dtr0 <= 25) s->hysteresis = dtr0; break;
    case 0x42:
        s->deadtime = dtr0;
        if (dtr0 == 0) s->free_from = g->tick;
        break;
    case 0x43: s->hysteresis_min = dtr0; break;
    case 0x68: if (dtr0 <= 1) s->filtered = dtr0 == 0; break;
    }
}

static void remember(generator *g, unsigned number, unsigned opcode, uint8_t dtr0)
{
    sketch *s = &g->instance[number];
    if (s->type == COLOUR) {
        remember_colour(g, s, opcode, dtr0);
        return;
    }
    switch (opcode) {
    case 0x21: if (dtr0 < 255) s->hold = dtr0; break;
    case 0x22: case 0x30: s->report = dtr0; break;
    case 0x23: case 0x32: s->deadtime = dtr0; break;
    case 0x24: if (s->value == STILL) s->expires = g->tick + 1; break;
    case 0x31: s->hysteresis = dtr0; break;
    case 0x33: s->hysteresis_min = dtr0; break;
    }
}

static void load_dtr0(generator *g, uint8_t dtr0)
{
    g->dtr0 = dtr0;
    put_fr(g, 0xC1, 0x30, dtr0);
}

static void set_to(generator *g, unsigned number, unsigned opcode, uint8_t dtr0)
{
    load_dtr0(g, dtr0);
    if (put_command(g, number, opcode)) remember(g, number, opcode, dtr0);
}

/* The opcodes by which an instance's type sets its times, and light or colour its hysteresis. */
static unsigned report_opcode(const sketch *s) { return s->type == LIGHT ? 0x30 : s->type == COLOUR ? 0x40 : 0x22; }
static unsigned deadtime_opcode(const sketch *s) { return s->type == LIGHT ? 0x32 : s->type == COLOUR ? 0x42 : 0x23; }
static unsigned hysteresis_opcode(const sketch *s) { return s->type == COLOUR ? 0x41 : 0x31; }
static unsigned min_opcode(const sketch *s) { return s->type == COLOUR ? 0x43 : 0x33; }
static unsigned min_query(const sketch *s) { return s->type == COLOUR ? 0x4C : 0x3C; }

static unsigned report_unit(const sketch *s)
{
    return s->type == COLOUR ? 100 : 20;
}

static void set_times(generator *g, unsigned number, uint8_t deadtime, uint8_t report)
{
    set_to(g, number, deadtime_opcode(&g->instance[number]), deadtime);
    set_to(g, number, report_opcode(&g->instance[number]), report);
}

/* A setting command of light, of colour and its query that counts DTR0 up, of presence, or of movement-based occupancy and its
 * other commands. */
static unsigned any_setting(generator *g, const sketch *s)
{
    if (s->type == LIGHT) return ONE_OF(g, 0x30, 0x31, 0x32, 0x33, 0x61, 0x68);
    if (s->type == COLOUR) return ONE_OF(g, 0x40, 0x41, 0x42, 0x43, 0x4B, 0x61, 0x68);
    return s->by == IM ? ONE_OF(g, 0x20, 0x20, 0x21, 0x21, 0x22, 0x23, 0x24, 0x61, 0x68) : ONE_OF(g, 0x22, 0x23, 0x61, 0x68);
}

/* A setting command, most often one that the instance has, after a new DTR0 or with what DTR0 holds. */
static void set_something(generator *g, unsigned number)
{
    static const sketch others[] = {{.type = OCCUPANCY}, {.type = OCCUPANCY, .by = IM}, {.type = LIGHT}, {.type = COLOUR}};
    unsigned opcode = any_setting(g, chance(g, 90) ? &g->instance[number] : &others[below(g, 4)]);
    if (chance(g, 85)) load_dtr0(g, telling_dtr0(g, opcode));
    if (put_command(g, number, opcode)) remember(g, number, opcode, g->dtr0);
}

/* The whole input value, or more of it than there is. */
static void query_value(generator *g, unsigned number)
{
    put_command(g, number, 0x8C);
    for (unsigned i = below(g, 5); i > 0; i--) put_command(g, number, 0x8D);
}

/* The error, and the value. */
static void query_sample(generator *g, unsigned number)
{
    put_command(g, number, 0x82);
    put_command(g, number, 0x83);
    query_value(g, number);
}

/* ---- Steps: what a session is made of ---- */

static void step_sample(generator *g)
{
    sample(g, any_instance(g));
}

/* New samples, and the few ticks that take them. */
static void step_move(generator *g)
{
    if (chance(g, 50)) step_sample(g);
    else for (unsigned i = 0; i < g->declared; i++) sample(g, i);
    put_tk(g, ONE_OF(g, 1, 1, 1, 2, 3));
}

static void step_set(generator *g)
{
    set_something(g, any_instance(g));
}

static void step_switch(generator *g)
{
    put_command(g, any_instance(g), chance(g, 70) ? 0x62 : 0x63);
}

static void step_query(generator *g)
{
    unsigned number = any_instance(g);
    if (chance(g, 40)) query_value(g, number);
    else put_command(g, number, any_query(g));
}

/* Two input values read at once, with a change of the value between the bytes. */
static void step_latches(generator *g)
{
    unsigned number = any_instance(g);
    put_command(g, number, 0x8C);
    put_command(g, any_instance(g), chance(g, 50) ? 0x8C : 0x8D);
    if (chance(g, 50)) sample(g, number);
    if (chance(g, 50)) put_tk(g, 1);
    put_command(g, number, 0x8D);
    put_command(g, number, 0x8D);
}

/* Ticks about the end of one of an instance's timers. */
static void step_ticks(generator *g)
{
    const sketch *s = &g->instance[any_instance(g)];
    unsigned report = report_unit(s) * s->report, end = chance(g, 50) ? s->deadtime : report > s->deadtime ? report : s->deadtime;
    put_tk(g, chance(g, 30) ? 1 + below(g, 8) : end + below(g, 3) - (end > 0));
}

/* A report held back until it is due, and then let go together with a change or without. */
static void step_hold(generator *g)
{
    unsigned number = any_instance(g);
    const sketch *s = &g->instance[number];
    unsigned how = below(g, 3);
    if (how == 0) put_command(g, number, 0x63);
    if (how == 1) set_to(g, number, 0x68, (uint8_t)ONE_OF(g, 0, 0, 3, 8));
    if (how == 2) put_sa(g, number, 2, 0);
    put_tk(g, (s->report > 0 && s->report < 4 ? s->report : 1) * report_unit(s) + below(g, 40));
    if (how != 2 && chance(g, 60)) sample(g, number);
    if (chance(g, 25)) put_tk(g, 1);
    if (chance(g, 20)) set_to(g, number, report_opcode(s), (uint8_t)ONE_OF(g, 0, 1, 2));
    if (how == 0) put_command(g, number, 0x62);
    if (how == 1) set_to(g, number, 0x68, s->type == COLOUR ? 1 : (uint8_t)ONE_OF(g, 1, 5, 7, 0x1F));
    if (how == 2) sample(g, number);
    put_tk(g, 1 + below(g, 3));
}

/* Light that sends by its report alone for a time: what band has it afterwards? */
static void step_mute(generator *g)
{
    unsigned number = any_instance(g);
    set_to(g, number, 0x31, 0);
    if (chance(g, 30)) put_sa(g, number, 2, 0), put_tk(g, 1);
    sample(g, number);
    put_tk(g, 21 + below(g, 20));
    if (chance(g, 50)) sample(g, number);
    set_to(g, number, 0x31, (uint8_t)ONE_OF(g, 1, 10, 25));
    put_tk(g, 2);
}

/* Frames that mostly do not count: other addresses, undeclared instances, any opcode. */
static void step_noise(generator *g)
{
    unsigned byte1 = chance(g, 50) ? ONE_OF(g, 0x00, 0x02, 0x03, 0xFD, 0xFE, 0xC1) : ONE_OF(g, 0x01, 0xFF);
    unsigned byte2 = any_instance(g) + ONE_OF(g, 0, 0, 16, 32, 128, g->declared);
    put_fr(g, byte1, byte2, chance(g, 50) ? any_query(g) : below(g, 256));
}

/* ---- Bad records ---- */

/* The session ends in the record that begins at `start`: then no work is left. */
static void cut(generator *g, size_t start)
{
    g->len = start + 1 + below(g, (unsigned)(g->len - start));
    g->work_left = 0;
}

static mark any_mark(generator *g)
{
    return (mark)below(g, MARKS);
}

/* A type or a resolution that is not modelled, or a number that is not the next. */
static void bad_declaration(generator *g)
{
    mark by = any_mark(g);
    unsigned number = chance(g, 70) ? g->declared : below(g, 18);
    switch (below(g, 4)) {
    case 0: put_declaration(g, by, number, OCCUPANCY, ONE_OF(g, 0, 1, 2, 3, 24)); break;
    case 1: put_declaration(g, by, number, LIGHT, ONE_OF(g, 0, 1, 2, 24, 25, 255)); break;
    case 2: put_declaration(g, by, number, COLOUR, ONE_OF(g, 0, 1, 2, 8, 23, 24, 25, 255)); break;
    default: put_declaration(g, by, number, ONE_OF(g, 0, 1, 2, 6, 255), ONE_OF(g, 2, 8, 24)); break;
    }
}

/* A type and a resolution by each mark, with the next number. Type 3 with resolution 2 is modelled but for LO, type 4 with
 * resolution 2 but for IM, type 5 with resolution 24 by IN alone; the others are not. */
static void unmodelled(generator *g, unsigned turn)
{
    static const uint8_t sensors[SENSORS][2] = {
        {2, 2}, {3, 1}, {3, 2}, {3, 8}, {4, 0}, {4, 2}, {4, 25}, {5, 2}, {5, 8}, {5, 23}, {5, 24}, {5, 25}, {6, 24},
    };
    const uint8_t *sensor = sensors[turn / MARKS];
    put_declaration(g, (mark)(turn % MARKS), g->declared, sensor[0], sensor[1]);
}

/* What would be taken, but that a record of another kind comes before it; sometimes it is not modelled either, and sometimes the
 * session ends in it. */
static void late_declaration(generator *g)
{
    put_fr(g, 0x01, 0x00, !g->single && chance(g, 30) ? 0x62 : any_query(g));
    size_t start = g->len;
    mark by = any_mark(g);
    bool occupancy = (by == IM) == chance(g, 75);
    if (chance(g, 15)) put_declaration(g, by, g->declared, COLOUR, 24);
    else put_declaration(g, by, g->declared, occupancy ? OCCUPANCY : LIGHT, occupancy ? 2 : 1 + below(g, 24));
    if (chance(g, 60)) cut(g, start);
}

/* The largest value that a valid sample of light or of occupancy may have. */
static uint32_t valid_most(const sketch *s)
{
    return s->type == LIGHT ? light_most(s) : s->by == IM ? 1 : 3;
}

/* A channel of 255 in one of the three places, or in all. */
static uint32_t bad_colour(generator *g)
{
    return chance(g, 20) ? 0xFFFFFF : any_colour(g) | 0xFFu << 8 * below(g, CHANNELS);
}

/* A value that a valid sample may not have, or the largest that it may. */
static uint32_t extreme_value(generator *g, const sketch *s)
{
    if (s->type == COLOUR) return chance(g, 20) ? WHITE : bad_colour(g);
    return valid_most(s) + ONE_OF(g, 0, 1, 1, 2);
}

/* A sample with one thing wrong, or for an instance that may not be there. */
static void bad_sa(generator *g)
{
    unsigned number = any_instance(g);
    const sketch *s = &g->instance[number];
    switch (below(g, 9)) {
    case 0: case 1: put_sa(g, g->declared + below(g, 2) * 16, ONE_OF(g, 0, 1, 2, 3, 255), below(g, 5)); break;
    case 2: put_sa(g, number, ONE_OF(g, 3, 4, 255), 0); break;
    case 3: put_sa(g, number, 1, 0); break;
    case 4: case 5: put_sa(g, number, ONE_OF(g, 1, 2, 2), ONE_OF(g, 1, 0x100, 0x10000, 0xFFFFFF)); break;
    default: put_sa(g, number, 0, extreme_value(g, s)); break;
    }
}

static void bad_mark(generator *g)
{
    static const char marks[] = "INLOIMSAFRTKEVANXX";
    unsigned at = below(g, sizeof marks - 2);
    PUT(g, (uint8_t)marks[at], (uint8_t)marks[at + 1]);
    for (unsigned i = below(g, 4); i > 0; i--) PUT(g, (uint8_t)below(g, 3));
    if (chance(g, 50)) g->work_left = 0;
}

/* A record that is refused more often than not, and sometimes the session ends in it. */
static void step_bad(generator *g)
{
    size_t start = g->len;
    switch (below(g, 10)) {
    case 0: case 1: bad_declaration(g); break;
    case 2: bad_mark(g); break;
    case 3: PUT(g, 'T', 'K', 0, (uint8_t)below(g, 2)); break;
    default: bad_sa(g); break;
    }
    if (chance(g, 20)) cut(g, start);
}

/* ---- Profiles ---- */

typedef void (*step)(generator *);

/* So many steps, chosen from a list in which a step may stand more than once. */
static void mix(generator *g, unsigned count, const step *steps, size_t choices)
{
    while (count-- > 0 && g->work_left > 0) steps[below(g, (unsigned)choices)](g);
}

#define MIX(g, count, ...) mix((g), (count), (const step[]){__VA_ARGS__}, sizeof((const step[]){__VA_ARGS__}) / sizeof(step))

/* Some of light and colour not ready yet, sometimes after a failure, and what shows of it. */
static void begin_unready(generator *g)
{
    for (unsigned i = 0; i < g->declared; i++) {
        if (g->instance[i].type == OCCUPANCY || chance(g, 70)) continue;
        if (chance(g, 30)) put_sa(g, i, 2, 0), put_tk(g, 1);
        put_sa(g, i, 1, 0);
        put_tk(g, 1 + below(g, 3));
        query_sample(g, i);
    }
}

static void mixed_traffic(generator *g)
{
    g->odd = 12;
    declare_any(g, chance(g, 80) ? 1 + below(g, 4) : 1 + below(g, 16));
    for (unsigned i = 0; i < g->declared; i++) if (chance(g, 50)) set_something(g, i);
    begin_unready(g);
    MIX(g, 30 + below(g, 40), step_sample, step_move, step_move, step_set, step_set, step_switch, step_query, step_query,
        step_latches, step_ticks, step_ticks, step_hold, step_noise);
}

static void band_edges(generator *g)
{
    unsigned count = 1 + below(g, 2);
    for (unsigned i = 0; i < count; i++) declare_light(g, 1 + below(g, 24));
    begin_unready(g);
    for (unsigned i = 0; i < count; i++) {
        set_times(g, i, (uint8_t)ONE_OF(g, 0, 0, 1), (uint8_t)ONE_OF(g, 0, 1, 30));
        if (chance(g, 60)) set_to(g, i, 0x33, (uint8_t)ONE_OF(g, 0, 0, 1, 2, 10, 255));
        if (chance(g, 60)) set_to(g, i, 0x31, telling_dtr0(g, 0x31));
        sample(g, i);
    }
    MIX(g, 20 + below(g, 20), step_move, step_move, step_move, step_move, step_move, step_move, step_set, step_ticks, step_hold,
        step_mute, step_query);
}

static void occupancy_filters(generator *g)
{
    unsigned count = 1 + below(g, 3);
    for (unsigned i = 0; i < count; i++) declare_occupancy(g);
    for (unsigned i = 0; i < count; i++) {
        set_to(g, i, 0x68, (uint8_t)below(g, 32));
        if (chance(g, 70)) set_times(g, i, (uint8_t)ONE_OF(g, 0, 1, 2, 5), (uint8_t)ONE_OF(g, 0, 1, 1));
    }
    MIX(g, 20 + below(g, 20), step_move, step_move, step_move, step_move, step_sample, step_switch, step_set, step_ticks, step_hold,
        step_query);
}

static void timer_ends(generator *g)
{
    declare_any(g, 1 + below(g, 2));
    begin_unready(g);
    for (unsigned i = 0; i < g->declared; i++) {
        uint8_t deadtime = telling_dtr0(g, 0x23), report = telling_dtr0(g, 0x22);
        if (g->instance[i].type == OCCUPANCY) set_to(g, i, 0x68, (uint8_t)(chance(g, 70) ? 4 + below(g, 4) : 0x1F));
        if (chance(g, 85)) set_times(g, i, deadtime, report);
        sample(g, i);
    }
    MIX(g, 12 + below(g, 12), step_move, step_sample, step_set, step_ticks, step_ticks, step_ticks, step_hold);
}

static void long_quiet(generator *g)
{
    declare_any(g, 1 + below(g, 2));
    for (unsigned i = 0; i < g->declared; i++) {
        if (g->instance[i].type == OCCUPANCY) set_to(g, i, 0x68, (uint8_t)below(g, 32));
        sample(g, i);
    }
    for (unsigned i = 1 + below(g, 4); i > 0; i--) {
        put_tk(g, 300 + below(g, 3000));
        step_sample(g);
        step_query(g);
    }
    put_tk(g, 700);
}

/* Bytes changed anywhere, or taken out. */
static void damage(generator *g)
{
    if (g->len == 0) return;
    size_t at = below(g, (unsigned)g->len);
    switch (below(g, 3)) {
    case 0: g->bytes[at] = (uint8_t)below(g, 256); break;
    case 1: g->len = at; break;
    default:
        memmove(g->bytes + at, g->bytes + at + 1, g->len - at - 1);
        g->len--;
    }
}

static void damaged(generator *g, unsigned turn)
{
    g->work_left = 400;
    if (chance(g, 5)) for (unsigned i = below(g, 40); i > 0; i--) PUT(g, (uint8_t)below(g, 256));
    bool full = turn >= DAMAGED_TURNS - FULL_TURNS;
    declare_any(g, full ? INSTANCES : below(g, 4));
    if (full || turn < UNMODELLED_TURNS) unmodelled(g, turn % UNMODELLED_TURNS);
    else if (chance(g, 35)) late_declaration(g);
    MIX(g, below(g, 6), step_move, step_query, step_bad, step_noise, step_set);
    MIX(g, 1 + below(g, 4), step_bad);
    if (chance(g, 30)) damage(g);
}

/* Many events in one tick, and more inside a TK, for outputs that are too short. */
static void short_output(generator *g)
{
    declare_any(g, 1 + below(g, chance(g, 30) ? INSTANCES : 4));
    for (unsigned i = 0; i < g->declared; i++) set_times(g, i, (uint8_t)ONE_OF(g, 0, 1, 2, 21), (uint8_t)ONE_OF(g, 1, 1, 2));
    MIX(g, 10 + below(g, 15), step_move, step_move, step_query, step_query, step_latches, step_ticks, step_ticks, step_hold);
}

/* Traffic up to the last tick number and past it: some TK of the row is refused with 8, or the last one ends at the last number. */
static void last_ticks(generator *g, test_case *c)
{
    unsigned left = below(g, 300);
    c->start_tick = 4294967295u - left;
    declare_any(g, below(g, 3));
    if (chance(g, 50)) MIX(g, below(g, 6), step_move, step_query, step_set, step_noise);
    for (unsigned i = 1 + below(g, 4); i > 0; i--) {
        unsigned count = chance(g, 60) ? 1 + below(g, left + 1) : ONE_OF(g, left, left + 1, 65535);
        put_tk(g, count);
        step_noise(g);
        left -= count < left ? count : left;
    }
    put_tk(g, left);
    put_tk(g, below(g, 2));
}

/* Tick numbers whose four bytes all tell. */
static void far_ticks(generator *g, test_case *c)
{
    c->start_tick = (1 + below(g, 0xFFFE)) << 16 | below(g, 0x10000);
    mixed_traffic(g);
}

/* ---- A pair: an instance of occupancy, and one of light or, in its place, of colour ---- */

/* The two, of which kinds they are, and the deadtime that both are set to. */
typedef struct {
    unsigned light, occupancy;
    bool colour, movement;
    unsigned deadtime;
} pair;

static void declare_pair(generator *g, pair p)
{
    for (unsigned i = 0; i < 2; i++) {
        if (i == p.light && p.colour) declare_colour(g);
        else if (i == p.light) declare_light(g, 10 + below(g, 15));
        else if (p.movement) declare_movement(g);
        else declare_presence(g);
    }
}

/* Settings that are not the DTR0 of profile j nor, but for the filter of light and colour, the defaults; a report every 20 ticks, of
 * colour every 100, and beside it every 80: the output has to hold sixteen turns. */
static void settle(generator *g, pair p, unsigned number, unsigned deadtime)
{
    const sketch *s = &g->instance[number];
    put_command(g, number, 0x62);
    set_to(g, number, 0x61, 3);
    uint32_t filter = s->by == IM ? ONE_OF(g, 0x17, 0x1F, 0x1F) : ONE_OF(g, 0x07, 0x0F, 0x17, 0x1F);
    set_to(g, number, 0x68, s->type == OCCUPANCY ? (uint8_t)filter : 1);
    set_times(g, number, (uint8_t)deadtime, p.colour && s->type == OCCUPANCY ? 4 : 1);
    if (s->type != OCCUPANCY) set_to(g, number, hysteresis_opcode(s), (uint8_t)ONE_OF(g, 1, 10, 25));
}

/* A value at the other end of the range. */
static uint32_t far_value(generator *g, const sketch *s)
{
    if (s->type == COLOUR) return s->base > WHITE / 2 ? dark_colour(g, 64) : WHITE - dark_colour(g, 64);
    uint32_t quarter = light_most(s) / 4;
    return s->base > 2 * quarter ? below(g, quarter) : light_most(s) - below(g, quarter);
}

/* Samples that are a change for certain: light or colour from one end of its range to the other, presence between occupied and
 * vacant, movement that comes or goes. */
static void swing(generator *g, pair p)
{
    sketch *light = &g->instance[p.light], *occupancy = &g->instance[p.occupancy];
    light->base = far_value(g, light);
    occupancy->base = occupancy->by == IM ? !occupancy->moving : (~occupancy->base & 2) | below(g, 2);
    put_sa(g, p.light, 0, light->base);
    put_sa(g, p.occupancy, 0, occupancy->base);
}

static void put_to_both(generator *g, pair p, unsigned opcode)
{
    put_command(g, p.light, opcode);
    put_command(g, p.occupancy, opcode);
}

/* ---- Profile j: every third byte ---- */

/* The third byte after a DTR0 that each setting of the type would take, and that is none of its defaults. */
static void put_third_byte(generator *g, pair p, unsigned byte)
{
    load_dtr0(g, 2);
    put_command(g, p.light, byte);
    load_dtr0(g, 5);
    put_command(g, p.occupancy, byte);
}

static void query_settings(generator *g, pair p)
{
    static const uint8_t both[] = {0x83, 0x84, 0x90};
    unsigned light = p.colour ? 0x4C : 0x3C;
    for (unsigned i = 0; i < sizeof both; i++) put_to_both(g, p, both[i]);
    for (unsigned i = 0; i < 4; i++) put_command(g, p.light, light + i);
    for (unsigned i = 0; i < 4; i++) put_command(g, p.occupancy, 0x2C + i);
}

/* One third byte to both, three times: while dead time runs, a change waits and a value is latched; two ticks before the reports
 * are due, with the latch used up; and disabled in a failure. hysteresisMin shows what DTR0 holds. */
static void turn(generator *g, pair p, unsigned byte)
{
    const sketch *light = &g->instance[p.light];
    settle(g, p, p.light, p.deadtime);
    settle(g, p, p.occupancy, p.deadtime);
    swing(g, p);
    put_tk(g, 1);
    swing(g, p);
    put_tk(g, 1);
    put_to_both(g, p, 0x8C);
    put_third_byte(g, p, byte);
    query_settings(g, p);
    for (unsigned i = 0; i < 2; i++) put_to_both(g, p, 0x8D);
    put_tk(g, p.deadtime - 1 + report_unit(light) - 2);
    put_third_byte(g, p, byte);
    put_to_both(g, p, 0x8D);
    put_to_both(g, p, 0x8C);
    put_tk(g, 2);
    put_to_both(g, p, 0x63);
    put_sa(g, p.light, 2, 0);
    put_sa(g, p.occupancy, 2, 0);
    put_tk(g, 1);
    put_third_byte(g, p, byte);
    put_to_both(g, p, 0x86);
    put_command(g, p.light, min_opcode(light));
    put_command(g, p.light, min_query(light));
    put_tk(g, p.deadtime - 1);
}

/* Sixteen third bytes in a row, those that ask nothing twice: in sixteen turns all, to light and presence, in sixteen more to light
 * and movement-based occupancy, and in the last sixteen to colour and presence. Where a swing and its dead time come first, the
 * later ones go the other way. */
static void third_bytes(generator *g, unsigned turns)
{
    unsigned light = below(g, 2), kinds = turns / 16;
    pair p = {
        .light = light, .occupancy = 1 - light, .colour = kinds == 2, .movement = kinds == 1, .deadtime = ONE_OF(g, 3, 4, 6),
    };
    g->twice = true;
    declare_pair(g, p);
    if (chance(g, 50)) swing(g, p), put_tk(g, 31);
    for (unsigned i = 0; i < 16; i++) turn(g, p, turns % 16 * 16 + i);
}

/* ---- Profile k: deadtime set while dead time runs ---- */

static void set_both(generator *g, pair p, unsigned (*opcode)(const sketch *), unsigned dtr0)
{
    set_to(g, p.light, opcode(&g->instance[p.light]), (uint8_t)dtr0);
    set_to(g, p.occupancy, opcode(&g->instance[p.occupancy]), (uint8_t)dtr0);
}

/* An event of each, which starts dead time and, at least as long, the report timer. */
static void send_both(generator *g, pair p)
{
    settle(g, p, p.light, 0);
    settle(g, p, p.occupancy, 0);
    swing(g, p);
    put_tk(g, 1);
    set_both(g, p, deadtime_opcode, p.deadtime);
    set_both(g, p, report_opcode, ONE_OF(g, 1, 1, 2, 3));
    swing(g, p);
    put_tk(g, 1);
}

/* A report timer of 20 ticks, started while a longer dead time runs. */
static void start_reports(generator *g, pair p)
{
    set_both(g, p, deadtime_opcode, 1);
    set_both(g, p, report_opcode, 0);
    set_both(g, p, report_opcode, 1);
}

/* Up to two ticks before the end of dead time: nothing is held back, or a change waits, or a report is due, or both. */
static void hold_back(generator *g, pair p)
{
    bool due = p.deadtime > 22 && chance(g, 30);
    if (due) start_reports(g, p);
    if (chance(g, 50)) swing(g, p);
    if (due) put_tk(g, 20 + below(g, p.deadtime - 21));
    else put_tk(g, 1 + below(g, p.deadtime - 2));
}

/* Deadtime set to 0, to 1 or to that with which dead time was started; sometimes while disabled, or in a failure, and sometimes with
 * another deadtime before the next tick. */
static void set_in_dead_time(generator *g, pair p)
{
    unsigned how = below(g, 10);
    if (how == 0) put_to_both(g, p, 0x63);
    if (how == 1) put_sa(g, p.light, 2, 0), put_sa(g, p.occupancy, 2, 0), put_tk(g, 1);
    set_both(g, p, deadtime_opcode, ONE_OF(g, 0, 0, 1, p.deadtime));
    if (how == 0) put_to_both(g, p, 0x62);
    if (how == 1) swing(g, p);
    if (how == 2) set_both(g, p, deadtime_opcode, p.deadtime);
}

/* Dead time starts, deadtime is set while it runs, and ticks follow past the ends of that dead time and of the report timer. */
static void deadtimes_set(generator *g)
{
    unsigned light = below(g, 2);
    pair p = {.light = light, .occupancy = 1 - light, .colour = chance(g, 25), .movement = chance(g, 40)};
    declare_pair(g, p);
    for (unsigned i = 0; i < 8; i++) {
        p.deadtime = ONE_OF(g, 3, 10, 25, 45, 90);
        send_both(g, p);
        hold_back(g, p);
        set_in_dead_time(g, p);
        put_tk(g, 1);
        if (chance(g, 50)) swing(g, p);
        put_tk(g, 70 + report_unit(&g->instance[light]) + below(g, 10));
    }
}

/* ---- Profile l: not ready, before and after a valid sample ---- */

/* Three to five instances: one or two of occupancy, two or more of light or colour. */
static void declare_thirds(generator *g)
{
    unsigned count = 3 + below(g, 3), occupancy = below(g, 3);
    for (unsigned i = 0; i < count; i++) {
        if (i % 3 == occupancy) declare_occupancy(g);
        else if (chance(g, 25)) declare_colour(g);
        else declare_light(g, 1 + below(g, 24));
    }
}

static unsigned any_of_type(generator *g, unsigned type)
{
    unsigned number = any_instance(g);
    while (g->instance[number].type != type) number = (number + 1) % g->declared;
    return number;
}

/* Of light or colour. */
static unsigned any_but_occupancy(generator *g)
{
    unsigned number = any_instance(g);
    while (g->instance[number].type == OCCUPANCY) number = (number + 1) % g->declared;
    return number;
}

/* Ticks or none, and what they made of the sample, or nothing. */
static void look(generator *g, unsigned number)
{
    if (chance(g, 50)) put_tk(g, ONE_OF(g, 1, 1, 2, 31));
    if (chance(g, 60)) query_sample(g, number);
}

/* What neither makes an instance ready nor lets it be not ready again: a failure, a command, a valid sample of another one. */
static void pass_by(generator *g, unsigned number)
{
    unsigned other = (number + 1 + below(g, g->declared - 1)) % g->declared;
    switch (below(g, 7)) {
    case 0: case 1: put_sa(g, number, 2, 0); break;
    case 2: put_command(g, number, 0x63); break;
    case 3: put_command(g, number, 0x62); break;
    case 4: set_something(g, number); break;
    default: put_valid(g, other); break;
    }
    look(g, number);
}

static void stay_unready(generator *g, unsigned number)
{
    for (unsigned i = below(g, 4); i > 0; i--) {
        if (chance(g, 40)) pass_by(g, number);
        put_sa(g, number, 1, 0);
        look(g, number);
    }
}

/* A valid sample, now and then of value 0 or while disabled. */
static void become_ready(generator *g, unsigned number)
{
    bool disabled = chance(g, 25);
    if (disabled) put_command(g, number, 0x63);
    if (chance(g, 25)) put_sa(g, number, 0, 0);
    else put_valid(g, number);
    if (disabled) put_command(g, number, 0x62);
    look(g, number);
}

/* From the start, or from what a refused sample left, up to the next sample that is to be refused. */
static void unready_part(generator *g, unsigned number)
{
    look(g, number);
    if (!g->instance[number].had_valid) stay_unready(g, number);
    if (chance(g, g->instance[number].had_valid ? 25 : 60)) become_ready(g, number);
    for (unsigned i = below(g, 4); i > 0; i--) pass_by(g, number);
}

/* Status 1 after a valid sample, or else a valid sample with a value that is not allowed: what does its refusal leave? */
static void end_first_part(generator *g, unsigned number)
{
    const sketch *s = &g->instance[number];
    if (s->had_valid) put_sa(g, number, 1, 0);
    else put_sa(g, number, 0, s->type == COLOUR ? bad_colour(g) : ONE_OF(g, light_most(s) + 1, 0xFFFFFF));
}

/* Status 1 that is refused for another reason, or because there was a valid sample. */
static void end_last_part(generator *g, unsigned number)
{
    switch (below(g, g->instance[number].had_valid ? 8 : 3)) {
    case 0: put_sa(g, g->declared, 1, 0); break;
    case 1: put_sa(g, any_of_type(g, OCCUPANCY), 1, 0); break;
    case 2: put_sa(g, number, 1, ONE_OF(g, 1, 0x100, 0x10000, 0xFFFFFF)); break;
    default: put_sa(g, number, 1, 0); break;
    }
}

static void unready(generator *g, test_case *c)
{
    declare_thirds(g);
    unsigned number = any_but_occupancy(g);
    set_times(g, number, (uint8_t)ONE_OF(g, 0, 0, 1, 30), (uint8_t)ONE_OF(g, 0, 1, 30));
    if (chance(g, 50)) put_valid(g, any_of_type(g, OCCUPANCY));
    if (chance(g, 60)) {
        unready_part(g, number);
        end_first_part(g, number);
        c->before_len = g->len;
        if (chance(g, 25)) number = any_but_occupancy(g);
    }
    unready_part(g, number);
    end_last_part(g, number);
}

/* ---- Profile m: IN and LO of one resolution, given the same samples ---- */

/* Twins are instances n and n ^ 1: one by IN and one by LO, with the same settings. */
static void declare_twins(generator *g, unsigned resolution)
{
    bool lo = chance(g, 50);
    declare(g, lo ? LO : IN, LIGHT, resolution);
    declare(g, lo ? IN : LO, LIGHT, resolution);
}

static void set_twins(generator *g, unsigned number, unsigned opcode, uint8_t dtr0)
{
    set_to(g, number, opcode, dtr0);
    set_to(g, number ^ 1, opcode, dtr0);
}

/* A sample for both, and the ticks that take it. */
static void give_twins(generator *g, unsigned number, unsigned status, uint32_t value, unsigned ticks)
{
    put_sa(g, number, status, value);
    put_sa(g, number ^ 1, status, value);
    put_tk(g, ticks);
}

static void query_twins(generator *g, unsigned number)
{
    for (unsigned i = 0; i < 2; i++) {
        query_value(g, number ^ i);
        put_command(g, number ^ i, 0x3C);
    }
}

/* hysteresisMin: none, least, most, and about one step or two of the measured value as LO's number has them. */
static uint8_t telling_min(generator *g, unsigned number)
{
    const sketch *lo = &g->instance[g->instance[number].by == LO ? number : number ^ 1];
    unsigned step = 1u << filled_bits(lo);
    return (uint8_t)ONE_OF(g, 0, 1, 255, step, step, step + 1, 2 * step - 1);
}

/* A value for a band to begin from: any, one of the largest, one of which every hysteresis is whole steps, or one so small that
 * hysteresisMin is more. */
static uint32_t telling_base(generator *g, const sketch *s)
{
    uint32_t most = light_most(s), any = (uint32_t)(next_random(g) % (most + 1u));
    switch (below(g, 5)) {
    case 0: return in_range(s, (int64_t)most - below(g, 3));
    case 1: return any / 100 * 100;
    case 2: return in_range(s, below(g, 2 + 2u * s->hysteresis_min));
    default: return any;
    }
}

/* A band from the same value for both, down from it or, after the largest value, up; most often there is a failure before. Gives
 * which way it goes. With hysteresis 0 it is reports that begin it. */
static int begin_bands(generator *g, unsigned number)
{
    sketch *s = &g->instance[number];
    unsigned ticks = s->hysteresis > 0 ? 1 : 21;
    bool up = chance(g, 40);
    s->base = g->instance[number ^ 1].base = telling_base(g, s);
    if (chance(g, 70)) give_twins(g, number, 2, 0, 1);
    if (up) give_twins(g, number, 0, light_most(s), ticks);
    give_twins(g, number, 0, s->base, ticks);
    return up ? 1 : -1;
}

/* Values about the other end of the band, as either twin has it; before them sometimes a report inside the band. */
static void probe_bands(generator *g, unsigned number, int way)
{
    const sketch *s = &g->instance[number];
    if (chance(g, 30)) give_twins(g, number, 0, in_range(s, ((int64_t)s->base + edge_value(g, s, way)) / 2), 21);
    for (unsigned i = 1 + below(g, 3); i > 0; i--) {
        uint32_t value = in_range(s, edge_value(g, &g->instance[number ^ below(g, 2)], way));
        if (s->hysteresis == 0) set_twins(g, number, 0x31, (uint8_t)ONE_OF(g, 1, 25));
        give_twins(g, number, 0, value, 1);
    }
}

/* Three pairs of twins, of one byte, two and three: in eight turns all resolutions. */
static void twins(generator *g, test_case *c, unsigned turn)
{
    for (unsigned i = 0; i < 3; i++) declare_twins(g, 1 + turn + 8 * i);
    for (unsigned i = 0; i < g->declared; i++) set_times(g, i, 0, 1);
    for (unsigned i = 0; i < 24; i++) {
        unsigned number = i % 3 * 2 + below(g, 2);
        if (i == 12 && chance(g, 30)) c->before_len = g->len;
        if (chance(g, 40)) set_twins(g, number, 0x33, telling_min(g, number));
        if (chance(g, 60)) set_twins(g, number, 0x31, (uint8_t)ONE_OF(g, 0, 1, 1, 5, 24, 25, 25));
        probe_bands(g, number, begin_bands(g, number));
        if (chance(g, 25)) query_twins(g, number);
    }
}

/* ---- Profile n: movement-based occupancy ---- */

/* A few of one kind, with a few others before, between and behind. */
static void declare_among(generator *g, void (*declare_one)(generator *), unsigned count, unsigned others)
{
    while (count + others > 0) {
        if (below(g, count + others) < count) {
            declare_one(g);
            count--;
        } else {
            if (chance(g, 60)) declare_presence(g);
            else declare_light(g, 1 + below(g, 24));
            others--;
        }
    }
}

static unsigned any_movement(generator *g)
{
    unsigned number = any_instance(g);
    while (g->instance[number].by != IM) number = (number + 1) % g->declared;
    return number;
}

/* A filter by which changes show, with bit 3 or without; or any. */
static uint8_t telling_filter(generator *g)
{
    return (uint8_t)(chance(g, 50) ? below(g, 32) : ONE_OF(g, 0x03, 0x13, 0x17, 0x12, 0x1B, 0x1F));
}

/* What an instance's last ticks made of it. */
static void ask_movement(generator *g, unsigned number)
{
    if (chance(g, 50)) put_command(g, number, 0x8C);
    if (chance(g, 50)) put_command(g, number, 0x2F);
    if (chance(g, 10)) put_command(g, number, ONE_OF(g, 0x2D, 0x2D, 0x82, 0x90));
}

static void move_once(generator *g, unsigned number, unsigned ticks)
{
    put_sa(g, number, 0, 1);
    put_tk(g, ticks);
}

/* Movement that is over, and the hold timer started by the last tick. */
static void begin_hold(generator *g, unsigned number)
{
    move_once(g, number, ONE_OF(g, 1, 1, 1, 2, 30));
    put_sa(g, number, 0, 0);
    put_tk(g, 1);
}

/* To so many ticks before the one at which the hold expires, unless that is far. */
static void near_expiry(generator *g, unsigned number, unsigned before)
{
    const sketch *s = &g->instance[number];
    uint32_t left = s->value == STILL && s->expires > g->tick ? s->expires - g->tick : 0;
    if (left > before && left * g->declared < g->work_left) put_tk(g, left - before);
}

/* What comes between: movement, a failure, a command; most often one that changes something. */
static void interfere(generator *g, unsigned number)
{
    sketch *s = &g->instance[number];
    switch (below(g, 14)) {
    case 0: case 1: case 2: put_sa(g, number, 0, !s->moving); break;
    case 3: put_sa(g, number, 0, s->moving); break;
    case 4: case 5: put_sa(g, number, 2, 0); break;
    case 6: case 7: put_command(g, number, 0x24), remember(g, number, 0x24, 0); break;
    case 8: put_command(g, number, 0x63); break;
    case 9: put_command(g, number, 0x62); break;
    case 10: set_to(g, number, 0x21, telling_dtr0(g, 0x21)); break;
    case 11: set_to(g, number, 0x68, telling_filter(g)); break;
    case 12: put_command(g, number, 0x20); break;
    default: set_to(g, number, deadtime_opcode(s), (uint8_t)ONE_OF(g, 0, 1, 5, 25, 45)); break;
    }
}

/* So many times something, or nothing, then a tick and what it made of the instance. */
static void interfere_by_ticks(generator *g, unsigned number, unsigned times)
{
    for (; times > 0; times--) {
        if (chance(g, 65)) interfere(g, number);
        put_tk(g, 1);
        ask_movement(g, number);
    }
}

/* Enabled and valid again, for as many ticks as dead time may last. */
static void recover(generator *g, unsigned number)
{
    const sketch *s = &g->instance[number];
    put_command(g, number, 0x62);
    if (s->failed) put_sa(g, number, 0, below(g, 2));
    put_tk(g, 1);
    ask_movement(g, number);
    put_tk(g, s->deadtime);
    ask_movement(g, number);
}

/* Ticks about the one at which the hold expires; before that, at times, something that changes it, or does not. */
static void pass_expiry(generator *g, unsigned number)
{
    if (chance(g, 20)) put_command(g, number, 0x63);
    begin_hold(g, number);
    if (chance(g, 50)) put_command(g, number, 0x62);
    if (chance(g, 40)) {
        put_tk(g, below(g, 15));
        interfere_by_ticks(g, number, 1 + below(g, 2));
    }
    near_expiry(g, number, below(g, 4));
    interfere_by_ticks(g, number, 1 + below(g, 5));
    recover(g, number);
}

/* An event, and dead time from then on. */
static void begin_dead_time(generator *g, unsigned number, uint8_t deadtime)
{
    set_to(g, number, 0x23, 0);
    set_to(g, number, 0x68, 0x1F);
    set_to(g, number, 0x23, deadtime);
    put_sa(g, number, 0, !g->instance[number].moving);
    put_tk(g, 1);
}

/* Catch movement in any of the three values, with bit 3 or without, often in dead time; then movement that comes and goes, and
 * what drops it. */
static void pass_catching(generator *g, unsigned number)
{
    uint8_t filter = telling_filter(g);
    if (chance(g, 30)) move_once(g, number, 1);
    if (chance(g, 50)) begin_dead_time(g, number, (uint8_t)ONE_OF(g, 0, 3, 10, 25));
    set_to(g, number, 0x68, chance(g, 80) ? filter & 0x17 : filter | 8);
    put_command(g, number, 0x20);
    put_command(g, number, 0x2F);
    if (g->instance[number].moving && chance(g, 60)) put_sa(g, number, 0, 0), put_tk(g, 1 + below(g, 2));
    if (chance(g, 60)) move_once(g, number, 1 + below(g, 2));
    interfere_by_ticks(g, number, 1 + below(g, 4));
    recover(g, number);
    put_sa(g, number, 0, 0);
    put_tk(g, ONE_OF(g, 1, 2, 21));
    move_once(g, number, 1);
    ask_movement(g, number);
}

/* An opcode of movement-based occupancy to any instance, to presence most often while it is occupied without movement, and then
 * samples for it that tell. */
static void pass_by_others(generator *g)
{
    unsigned number = any_instance(g);
    while (g->instance[number].by == IM && chance(g, 60)) number = any_instance(g);
    if (g->instance[number].type == OCCUPANCY && g->instance[number].by == IN) put_sa(g, number, 0, 2), put_tk(g, 3);
    put_command(g, number, ONE_OF(g, 0x20, 0x20, 0x21, 0x24, 0x24, 0x2D, 0x2F));
    put_tk(g, below(g, 3));
    for (unsigned i = 1 + below(g, 3); i > 0; i--) {
        sample(g, number);
        put_tk(g, 1 + below(g, 2));
    }
}

static void movement_round(generator *g)
{
    unsigned number = any_movement(g);
    switch (below(g, 8)) {
    case 0: case 1: case 2: pass_expiry(g, number); break;
    case 3: case 4: case 5: pass_catching(g, number); break;
    case 6: pass_by_others(g); break;
    default: step_set(g); break;
    }
}

/* Settings by which holds end within the session, and events show; at times reports before the first sample. */
static void settle_movement(generator *g, unsigned number)
{
    set_to(g, number, 0x21, (uint8_t)ONE_OF(g, 0, 0, 0, 0, 1));
    if (chance(g, 70)) set_to(g, number, 0x68, telling_filter(g));
    if (chance(g, 15)) set_to(g, number, 0x68, 0x04), set_to(g, number, 0x22, 0), set_to(g, number, 0x22, 1), put_tk(g, 21);
    if (chance(g, 50)) set_times(g, number, (uint8_t)ONE_OF(g, 0, 0, 1, 5, 25), (uint8_t)ONE_OF(g, 0, 1, 2));
}

/* A sample that is not allowed, often with hold running and catching: what does its refusal leave, when the reading goes on? */
static void end_part(generator *g, test_case *c)
{
    unsigned number = any_movement(g);
    if (chance(g, 60)) begin_hold(g, number);
    if (chance(g, 60)) set_to(g, number, 0x68, 0x17), put_command(g, number, 0x20);
    if (chance(g, 60)) put_sa(g, number, 0, 2 + below(g, 2));
    else put_sa(g, number, 1, 0);
    c->before_len = g->len;
    put_tk(g, 1);
    ask_movement(g, number);
    near_expiry(g, number, 1);
    interfere_by_ticks(g, number, 2);
}

/* A hold of many ticks that comes to its end: the default, or the longest. */
static void long_hold(generator *g)
{
    g->work_left = 120000;
    declare_among(g, declare_movement, 1, below(g, 2));
    unsigned number = any_movement(g);
    if (chance(g, 50)) set_to(g, number, 0x21, (uint8_t)ONE_OF(g, 163, 164, 254, 255));
    begin_hold(g, number);
    near_expiry(g, number, below(g, 3));
    interfere_by_ticks(g, number, 1 + below(g, 4));
    recover(g, number);
}

static void movement(generator *g, test_case *c)
{
    if (chance(g, 10)) {
        long_hold(g);
        return;
    }
    unsigned rounds = 10 + below(g, 10), parted = chance(g, 30) ? below(g, rounds) : rounds;
    declare_among(g, declare_movement, 1 + below(g, 3), below(g, 3));
    for (unsigned i = 0; i < g->declared; i++) if (g->instance[i].by == IM && chance(g, 90)) settle_movement(g, i);
    for (unsigned i = 0; i < rounds; i++) {
        if (i == parted) end_part(g, c);
        movement_round(g);
    }
}

/* ---- Profile o: colour ---- */

/* What an instance's last ticks made of it. */
static void ask_colour(generator *g, unsigned number)
{
    if (chance(g, 25)) query_value(g, number);
    if (chance(g, 20)) put_command(g, number, ONE_OF(g, 0x4C, 0x4D, 0x4E, 0x4F, 0x82, 0x83, 0x90));
}

static void show_colour(generator *g, unsigned number, uint32_t colour, unsigned ticks)
{
    put_sa(g, number, 0, colour);
    put_tk(g, ticks);
    ask_colour(g, number);
}

static uint32_t inside_colour(generator *g, const sketch *s)
{
    return changed_colour(g, s->last, below(g, s->band + 1));
}

/* Just outside of the band, or far. */
static uint32_t outside_colour(generator *g, const sketch *s)
{
    return changed_colour(g, s->last, s->band + ONE_OF(g, 1, 1, 2, 100));
}

/* A report of 100 ticks, or of the dead time if that is more, that begins now. */
static void start_colour_report(generator *g, unsigned number)
{
    set_to(g, number, 0x40, 0);
    set_to(g, number, 0x40, 1);
}

/* Up to the end of such a report, or a tick before or behind it. */
static void pass_report_time(generator *g, unsigned number)
{
    unsigned deadtime = g->instance[number].deadtime;
    put_tk(g, (deadtime > 100 ? deadtime : 100) + below(g, 3) - 1);
}

/* A colour that a band may begin from, and then colours at its edge. */
static void pass_edges(generator *g, unsigned number)
{
    sketch *s = &g->instance[number];
    if (chance(g, 40)) show_colour(g, number, colour_value(g, s), 1 + s->deadtime);
    for (unsigned i = 1 + below(g, 4); i > 0; i--) show_colour(g, number, edge_colour(g, s), chance(g, 70) ? 1 : 1 + s->deadtime);
}

/* A failure between equal colours, or between different ones. */
static void pass_colour_failure(generator *g, unsigned number)
{
    sketch *s = &g->instance[number];
    put_sa(g, number, 2, 0);
    put_tk(g, 1 + below(g, 2));
    query_sample(g, number);
    switch (below(g, 4)) {
    case 0: show_colour(g, number, s->last, 2); break;
    case 1: show_colour(g, number, BLACK, 2); break;
    default: show_colour(g, number, edge_colour(g, s), 2); break;
    }
}

/* A report inside the band, and then colours at its edge. */
static void pass_report_inside(generator *g, unsigned number)
{
    sketch *s = &g->instance[number];
    put_tk(g, s->deadtime);
    start_colour_report(g, number);
    put_sa(g, number, 0, inside_colour(g, s));
    pass_report_time(g, number);
    show_colour(g, number, edge_colour(g, s), 1 + s->deadtime);
}

/* A report outside the band with hysteresis 0, and then with another: the same colour, or one at the edge of the band. */
static void pass_report_mute(generator *g, unsigned number)
{
    sketch *s = &g->instance[number];
    uint8_t hysteresis = s->hysteresis;
    start_colour_report(g, number);
    set_to(g, number, 0x41, 0);
    put_sa(g, number, 0, outside_colour(g, s));
    pass_report_time(g, number);
    set_to(g, number, 0x41, hysteresis > 0 ? hysteresis : 10);
    if (chance(g, 50)) put_sa(g, number, 0, edge_colour(g, s));
    put_tk(g, 1 + s->deadtime);
}

/* A colour that is held back, disabled or by the filter, until the report is due too; or goes back before. */
static void pass_report_together(generator *g, unsigned number)
{
    sketch *s = &g->instance[number];
    bool disabled = chance(g, 50);
    start_colour_report(g, number);
    if (disabled) put_command(g, number, 0x63);
    else set_to(g, number, 0x68, 0);
    put_sa(g, number, 0, outside_colour(g, s));
    if (chance(g, 70)) pass_report_time(g, number);
    else put_tk(g, 1 + below(g, 3));
    if (chance(g, 30)) put_sa(g, number, 0, edge_colour(g, s));
    if (disabled) put_command(g, number, 0x62);
    else set_to(g, number, 0x68, 1);
    put_tk(g, 1);
    ask_colour(g, number);
    if (chance(g, 50)) show_colour(g, number, edge_colour(g, s), 1 + s->deadtime);
}

/* A change in dead time, that stays or goes back before its end. */
static void pass_colour_dead_time(generator *g, unsigned number)
{
    sketch *s = &g->instance[number];
    unsigned deadtime = ONE_OF(g, 2, 3, 10, 30);
    set_to(g, number, 0x42, 0);
    set_to(g, number, 0x42, (uint8_t)deadtime);
    show_colour(g, number, outside_colour(g, s), 1);
    show_colour(g, number, outside_colour(g, s), 1);
    if (chance(g, 50)) put_sa(g, number, 0, inside_colour(g, s));
    if (chance(g, 30)) set_to(g, number, 0x42, (uint8_t)ONE_OF(g, 0, 1));
    put_tk(g, deadtime - below(g, 2));
    show_colour(g, number, edge_colour(g, s), 2);
}

/* A new filter, most often one that is not taken, and what it lets by. */
static void pass_colour_filter(generator *g, unsigned number)
{
    set_to(g, number, 0x68, (uint8_t)ONE_OF(g, 0, 1));
    set_to(g, number, 0x68, (uint8_t)ONE_OF(g, 0, 1, 2, 2, 3, 3, 254, 255));
    put_command(g, number, 0x90);
    show_colour(g, number, outside_colour(g, &g->instance[number]), 1);
    set_to(g, number, 0x68, 1);
}

/* One 4B, now and then to another type, and before it one that does not count. */
static void query_sensor(generator *g)
{
    unsigned number = chance(g, 75) ? any_of_type(g, COLOUR) : any_instance(g);
    if (chance(g, 5)) put_fr(g, ONE_OF(g, 0x00, 0x03, 0xFE), number, 0x4B);
    if (chance(g, 5)) put_fr(g, 0x01, g->declared + below(g, 2) * 16, 0x4B);
    put_command(g, number, 0x4B);
}

/* A setting from what DTR0 holds, and the query for it. */
static void set_from_dtr0(generator *g, unsigned number)
{
    const sketch *s = &g->instance[number];
    unsigned opcode = any_setting(g, s);
    if (put_command(g, number, opcode)) remember(g, number, opcode, g->dtr0);
    if (s->type == COLOUR) for (unsigned i = 0; i < 4; i++) put_command(g, number, 0x4C + i);
    put_command(g, number, ONE_OF(g, 0x84, 0x90));
}

/* 4B in a row, through the table and past its end, or from 255 round to 0; at times while a value is read. */
static void pass_sensor_queries(generator *g, unsigned number)
{
    load_dtr0(g, telling_dtr0(g, 0x4B));
    if (chance(g, 30)) put_command(g, number, 0x8C);
    for (unsigned i = 1 + below(g, 6); i > 0; i--) query_sensor(g);
    if (chance(g, 25)) for (unsigned i = 0; i < 16; i++) put_command(g, number, 0x4B);
    put_command(g, number, ONE_OF(g, 0x8D, 0x4C, 0x4F));
    if (chance(g, 70)) set_from_dtr0(g, chance(g, 70) ? number : any_instance(g));
    query_sensor(g);
}

/* Opcodes of another type, or of none, to colour, and those of colour to the others; and what shows of it. */
static void pass_foreign(generator *g)
{
    unsigned number = any_instance(g);
    const sketch *s = &g->instance[number];
    bool colour = s->type == COLOUR;
    unsigned opcode = colour ? ONE_OF(g, 0x20, 0x21, 0x22, 0x23, 0x24, 0x30, 0x31, 0x32, 0x33, 0x44, 0x4A)
                             : ONE_OF(g, 0x40, 0x41, 0x42, 0x43);
    load_dtr0(g, (uint8_t)ONE_OF(g, 0, 1, 7, 7));
    put_command(g, number, opcode);
    for (unsigned i = 0; i < 4; i++) put_command(g, number, (colour ? 0x4C : s->type == LIGHT ? 0x3C : 0x2C) + i);
    put_command(g, number, colour ? ONE_OF(g, 0x2C, 0x2D, 0x2E, 0x3C, 0x3D, 0x3E, 0x3F) : ONE_OF(g, 0x4B, 0x4C, 0x4D, 0x4E, 0x4F));
    sample(g, number);
    put_tk(g, 1 + below(g, 3));
}

static void colour_round(generator *g)
{
    unsigned number = any_of_type(g, COLOUR);
    switch (below(g, 14)) {
    case 0: case 1: case 2: pass_edges(g, number); break;
    case 3: pass_colour_failure(g, number); break;
    case 4: case 5: pass_report_inside(g, number); break;
    case 6: pass_report_mute(g, number); break;
    case 7: pass_report_together(g, number); break;
    case 8: pass_colour_dead_time(g, number); break;
    case 9: pass_colour_filter(g, number); break;
    case 10: case 11: pass_sensor_queries(g, number); break;
    case 12: pass_foreign(g); break;
    default: step_set(g); break;
    }
}

/* Settings by which bands and reports show; and a first valid colour: black, dark, white or any. */
static void settle_colour(generator *g, unsigned number)
{
    if (chance(g, 85)) set_times(g, number, (uint8_t)ONE_OF(g, 0, 0, 0, 1, 5, 120), (uint8_t)ONE_OF(g, 0, 1, 1));
    if (chance(g, 50)) set_to(g, number, 0x41, (uint8_t)ONE_OF(g, 0, 1, 5, 24, 25, 25));
    if (chance(g, 60)) set_to(g, number, 0x43, (uint8_t)ONE_OF(g, 0, 0, 1, 12, 13, 255));
    switch (below(g, 4)) {
    case 0: show_colour(g, number, BLACK, 1 + below(g, 2)); break;
    case 1: show_colour(g, number, dark_colour(g, 6), 1); break;
    case 2: show_colour(g, number, WHITE, 1); break;
    default: show_colour(g, number, any_colour(g), 1); break;
    }
}

/* A sample that is not allowed: what does its refusal leave, when the reading goes on? */
static void end_colour_part(generator *g, test_case *c)
{
    unsigned number = any_of_type(g, COLOUR);
    const sketch *s = &g->instance[number];
    switch (below(g, 4)) {
    case 0: put_sa(g, number, 1, 0); break;
    case 1: put_sa(g, number, 1 + below(g, 2), ONE_OF(g, 1, 0x100, 0x10000)); break;
    default: put_sa(g, number, 0, bad_colour(g)); break;
    }
    c->before_len = g->len;
    put_tk(g, 1);
    query_sample(g, number);
    put_command(g, number, 0x4B);
    show_colour(g, number, edge_colour(g, s), 1 + s->deadtime);
}

/* 4B until the output has no room for an answer: what does the one that is refused leave? */
static void short_answers(generator *g, test_case *c)
{
    unsigned fit = 1 + below(g, 3);
    c->log_len = 8 * fit + below(g, 8);
    declare_among(g, declare_colour, 1 + below(g, 2), below(g, 2));
    load_dtr0(g, (uint8_t)ONE_OF(g, below(g, 12), below(g, 12), 13, 14, 254));
    for (unsigned i = fit + 1 + below(g, 3); i > 0; i--) put_command(g, any_of_type(g, COLOUR), 0x4B);
    c->before_len = g->len;
    unsigned number = any_of_type(g, COLOUR);
    if (chance(g, 50)) put_command(g, number, 0x43), put_command(g, number, 0x4C);
    put_command(g, number, 0x4B);
    put_command(g, number, 0x4B);
}

/* Reports as they are at the start, and what is sent between them. */
static void long_reports(generator *g)
{
    g->work_left = 20000;
    declare_among(g, declare_colour, 1, below(g, 2));
    unsigned number = any_of_type(g, COLOUR);
    if (chance(g, 60)) show_colour(g, number, colour_value(g, &g->instance[number]), 1);
    for (unsigned i = 0; i < 3; i++) {
        put_tk(g, 2998 + below(g, 3));
        show_colour(g, number, colour_value(g, &g->instance[number]), 1 + below(g, 3));
    }
}

static void colours(generator *g, test_case *c)
{
    unsigned how = below(g, 20), rounds = 10 + below(g, 10), parted = chance(g, 30) ? below(g, rounds) : rounds;
    if (how < 3) {
        short_answers(g, c);
        return;
    }
    if (how == 3) {
        long_reports(g);
        return;
    }
    declare_among(g, declare_colour, 1 + below(g, 2), below(g, 3));
    begin_unready(g);
    for (unsigned i = 0; i < g->declared; i++) if (g->instance[i].type == COLOUR && chance(g, 90)) settle_colour(g, i);
    for (unsigned i = 0; i < rounds; i++) {
        if (i == parted) end_colour_part(g, c);
        colour_round(g);
    }
}

/* ---- Profile p: pairs ---- */

/* A command that sets something, by one first byte. */
typedef struct {
    unsigned byte1, number, opcode;
} command;

/* A value that the setting takes, of which events soon tell; now and then one that it does not take. */
static uint8_t pair_dtr0(generator *g, const sketch *s, unsigned opcode)
{
    switch (opcode) {
    case 0x21: return (uint8_t)ONE_OF(g, 0, 1, 2, 3, 255);
    case 0x22: case 0x30: case 0x40: return (uint8_t)below(g, 4);
    case 0x23: case 0x32: case 0x42: return (uint8_t)ONE_OF(g, 0, 0, 1, 3, 6);
    case 0x31: case 0x41: return (uint8_t)ONE_OF(g, 0, 1, 5, 10, 25, 26);
    case 0x61: return (uint8_t)ONE_OF(g, 2, 3, 4, 5, 5, 6);
    case 0x68: return (uint8_t)(s->type == OCCUPANCY ? below(g, 32) : below(g, chance(g, 80) ? 2 : 4));
    }
    return (uint8_t)below(g, 256);
}

/* The query for what a command sets. */
static unsigned query_of(unsigned opcode)
{
    static const uint8_t by_type[] = {0x0E, 0x0F, 0x0D, 0x0C};
    switch (opcode) {
    case 0x21: return 0x2D;
    case 0x22: return 0x2E;
    case 0x23: return 0x2C;
    case 0x61: return 0x84;
    case 0x62: case 0x63: return 0x83;
    case 0x68: return 0x90;
    }
    return (opcode & 0xF0) | by_type[opcode & 3];
}

/* A set command of an instance's type. */
static unsigned own_setting(generator *g, const sketch *s)
{
    if (s->type == LIGHT) return 0x30 + below(g, 4);
    if (s->type == COLOUR) return 0x40 + below(g, 4);
    return s->by == IM ? ONE_OF(g, 0x21, 0x21, 0x22, 0x23) : ONE_OF(g, 0x22, 0x23);
}

/* A command to an instance; to switch it, the one that changes something. */
static command command_to(generator *g, unsigned number)
{
    const sketch *s = &g->instance[number];
    unsigned opcode = own_setting(g, s);
    if (chance(g, 45)) opcode = ONE_OF(g, 0x61, 0x62, 0x62, 0x68);
    if (opcode == 0x62 && !s->disabled) opcode = 0x63;
    return (command){chance(g, 70) ? 0x01 : 0xFF, number, opcode};
}

/* Such a command, and DTR0 loaded for it. */
static command begin_command(generator *g, unsigned number)
{
    command c = command_to(g, number);
    load_dtr0(g, pair_dtr0(g, &g->instance[number], c.opcode));
    return c;
}

/* One frame of a pair. */
static void put_half(generator *g, command c)
{
    g->acted = false;
    put_frame(g, c.byte1, c.number, c.opcode);
    if (!g->acted) return;
    remember(g, c.number, c.opcode, g->dtr0);
    if (c.opcode == 0x62 || c.opcode == 0x63) g->instance[c.number].disabled = c.opcode == 0x63;
}

static void put_whole(generator *g, command c)
{
    put_half(g, c);
    put_half(g, c);
}

/* So many ticks in one TK or several, now and then with a sample between those. */
static void put_ticks(generator *g, unsigned count)
{
    while (count > 0) {
        unsigned some = 1 + below(g, count);
        put_tk(g, some);
        count -= some;
        if (count > 0 && chance(g, 40)) sample(g, any_instance(g));
    }
}

/* An opcode that the instance does not have. */
static unsigned ignored_opcode(generator *g, const sketch *s)
{
    if (chance(g, 50)) return ONE_OF(g, 0x00, 0x60, 0x64, 0x69, 0x85, 0x8B, 0xFF);
    if (s->type == OCCUPANCY) return ONE_OF(g, 0x30, 0x32, 0x40);
    return s->type == LIGHT ? ONE_OF(g, 0x20, 0x22, 0x42) : ONE_OF(g, 0x22, 0x24, 0x30);
}

static bool has_movement(const generator *g)
{
    for (unsigned i = 0; i < g->declared; i++) if (g->instance[i].by == IM) return true;
    return false;
}

/* Catch movement or cancel hold, to an instance that has them, if there is one. */
static void drop_by_movement(generator *g, command c)
{
    unsigned number = has_movement(g) ? any_movement(g) : c.number, opcode = ONE_OF(g, 0x20, 0x24);
    put_frame(g, c.byte1, number, opcode);
    remember(g, number, opcode, g->dtr0);
}

/* A frame that does not set anything: what it is for, or that it is for nobody, does not matter. */
static void drop_by_frame(generator *g, command c)
{
    unsigned number = chance(g, 60) ? c.number : any_instance(g);
    switch (below(g, 11)) {
    case 0: put_frame(g, c.byte1, number, any_query(g)); break;
    case 1: put_frame(g, c.byte1, number, ONE_OF(g, 0x82, 0x8D)); break;
    case 2: case 3: load_dtr0(g, chance(g, 40) ? g->dtr0 : pair_dtr0(g, &g->instance[c.number], c.opcode)); break;
    case 4: put_fr(g, c.byte1, g->declared + below(g, 2) * 16, chance(g, 50) ? c.opcode : 0x80); break;
    case 5: put_fr(g, ONE_OF(g, 0x00, 0x02, 0x03, 0xFE, 0xC1), c.number, c.opcode); break;
    case 6: put_frame(g, c.byte1, number, ignored_opcode(g, &g->instance[number])); break;
    case 7: put_frame(g, c.byte1, number, 0x4B); break;
    default: drop_by_movement(g, c); break;
    }
}

/* Another frame that sets something, which may be a first itself. */
static void drop_by_setting(generator *g, command c)
{
    command other = command_to(g, chance(g, 60) ? c.number : any_instance(g));
    switch (below(g, 4)) {
    case 0: other = (command){other_address(c.byte1), c.number, c.opcode}; break;
    case 1: other = (command){c.byte1, any_instance(g), c.opcode}; break;
    case 2: other.byte1 = c.byte1; break;
    default: break;
    }
    put_half(g, other);
    if (chance(g, 30)) put_half(g, other);
}

/* What lies between two frames: ticks, samples or another frame. */
static void come_between(generator *g, command c)
{
    switch (below(g, 14)) {
    case 0: put_ticks(g, 1); break;
    case 1: put_ticks(g, 2); break;
    case 2: put_ticks(g, 3); break;
    case 3: put_ticks(g, ONE_OF(g, 4, 5, 20, 255, 256, 257, 258)); break;
    case 4: sample(g, chance(g, 60) ? c.number : any_instance(g)); break;
    case 5: sample(g, any_instance(g)), put_tk(g, 1 + below(g, 2)); break;
    case 6: case 7: drop_by_setting(g, c); break;
    default: drop_by_frame(g, c); break;
    }
}

/* All settings of an instance. */
static void show_settings(generator *g, unsigned number)
{
    const sketch *s = &g->instance[number];
    unsigned own = s->type == LIGHT ? 0x3C : s->type == COLOUR ? 0x4C : 0x2C;
    put_frame(g, 0x01, number, 0x83);
    put_frame(g, 0x01, number, 0x84);
    put_frame(g, 0x01, number, 0x90);
    for (unsigned i = 0; i < 4; i++) if (s->type != OCCUPANCY || s->by == IM || i % 2 == 0) put_frame(g, 0x01, number, own + i);
}

/* What was set, or was not: by a query, by those for all that may be set, by events. */
static void show(generator *g, command c)
{
    if (chance(g, 50)) put_frame(g, 0x01, c.number, query_of(c.opcode));
    else for (unsigned i = 0; i < g->declared; i++) show_settings(g, i);
    if (chance(g, 30)) return;
    for (unsigned i = 0; i < g->declared; i++) if (chance(g, 70)) put_valid(g, i);
    put_tk(g, ONE_OF(g, 1, 1, 2, 7));
}

/* Two to four frames of a command, with something between them or nothing. */
static void pass_pair(generator *g)
{
    command c = begin_command(g, any_instance(g));
    put_half(g, c);
    for (unsigned i = 1 + below(g, 3); i > 0; i--) {
        if (chance(g, 75)) come_between(g, c);
        put_half(g, c);
    }
    show(g, c);
}

/* Two commands in turn: A B A B, A B B A, A A B B. */
static void pass_two(generator *g)
{
    command a = begin_command(g, any_instance(g)), b = command_to(g, any_instance(g));
    unsigned order = ONE_OF(g, 0xA, 0x9, 0xC, 0x8, 0xB, 0xE);
    for (unsigned i = 0; i < 4; i++) put_half(g, order >> i & 1 ? b : a);
    show(g, a);
    show(g, b);
}

/* Dead time in which a change is held back, and a first half, alone or with its repeat: what goes out behind it? */
static void pass_held_back(generator *g, unsigned number)
{
    sketch *s = &g->instance[number];
    unsigned opcode = ONE_OF(g, 0x63, 0x68, deadtime_opcode(s), report_opcode(s), 0x61);
    command c = {0x01, number, opcode};
    put_whole(g, (command){0x01, number, 0x62});
    set_to(g, number, 0x68, s->type == OCCUPANCY ? 0x1F : 1);
    set_to(g, number, deadtime_opcode(s), 0);
    put_valid(g, number);
    put_tk(g, 1);
    set_to(g, number, deadtime_opcode(s), 6);
    for (unsigned i = 0; i < 2; i++) put_valid(g, number), put_tk(g, 1);
    load_dtr0(g, (uint8_t)ONE_OF(g, 0, 0, 2));
    put_half(g, c);
    if (chance(g, 25)) put_half(g, c);
    put_tk(g, ONE_OF(g, 2, 4, 6, 8));
    show(g, c);
}

/* A report that runs, and a first half before it is due. */
static void pass_report_half(generator *g, unsigned number)
{
    sketch *s = &g->instance[number];
    command c = command_to(g, number);
    put_whole(g, (command){0x01, number, 0x62});
    set_to(g, number, 0x68, s->type == OCCUPANCY ? 0x07 : 1);
    set_times(g, number, 0, 0);
    set_to(g, number, report_opcode(s), 1);
    put_valid(g, number);
    put_tk(g, 2 + below(g, 18));
    if (chance(g, 40)) c.opcode = report_opcode(s), load_dtr0(g, 0);
    put_half(g, c);
    put_tk(g, report_unit(s) + 1);
    show(g, c);
}

/* A first half, alone or with its repeat, while a value is read. */
static void pass_latched(generator *g, unsigned number)
{
    command c = begin_command(g, number);
    put_frame(g, 0x01, number, 0x8C);
    put_half(g, c);
    if (chance(g, 50)) put_half(g, c);
    put_frame(g, 0x01, number, 0x8D);
    put_frame(g, 0x01, number, 0x8D);
}

/* Catching, and a filter without bit 3 that is set again when Movement was caught in dead time: the third frame is a first, and
 * leaves Movement; the fourth drops it. */
static void pass_third(generator *g, unsigned number)
{
    command c = {0x01, number, 0x68};
    put_whole(g, (command){0x01, number, 0x62});
    set_to(g, number, 0x23, 0);
    set_to(g, number, 0x68, 0x1F);
    put_sa(g, number, 0, 0), put_tk(g, 1);
    set_to(g, number, 0x23, 8);
    put_sa(g, number, 0, 1), put_tk(g, 1);
    put_sa(g, number, 0, 0), put_tk(g, 1);
    set_to(g, number, 0x68, (uint8_t)ONE_OF(g, 0x03, 0x07));
    put_frame(g, 0x01, number, 0x20);
    put_whole(g, c);
    put_sa(g, number, 0, 1), put_tk(g, 1 + below(g, 3));
    put_half(g, c);
    if (chance(g, 40)) put_tk(g, below(g, 3)), put_half(g, c);
    put_tk(g, 8);
    put_frame(g, 0x01, number, 0x2F);
}

static void pair_round(generator *g)
{
    unsigned number = any_instance(g);
    switch (below(g, 12)) {
    case 0: pass_held_back(g, number); break;
    case 1: pass_report_half(g, number); break;
    case 2: pass_latched(g, number); break;
    case 3: pass_two(g); break;
    case 4: if (has_movement(g)) pass_third(g, any_movement(g)); break;
    default: pass_pair(g); break;
    }
}

/* A record that is refused, by any of the numbers. */
static void put_refused(generator *g, unsigned number)
{
    switch (below(g, 7)) {
    case 0: PUT(g, 'X', 'X', 0, 1); break;
    case 1: PUT(g, 'F', 'R', 0x01); break;
    case 2: put_declaration(g, IN, g->declared, LIGHT, 8); break;
    case 3: PUT(g, 'S', 'A', (uint8_t)g->declared, 0, 0, 0, 1); break;
    case 4: PUT(g, 'T', 'K', 0, 0); break;
    case 5: PUT(g, 'S', 'A', (uint8_t)number, 3, 0, 0, 0); break;
    default:
        put_valid(g, number);
        PUT(g, 'S', 'A', (uint8_t)number, 1, 0, 0, 0);
    }
}

/* The end of the first part between the two frames of a pair; before it, at times, what is refused. */
static void end_pair_part(generator *g, test_case *c)
{
    unsigned number = any_instance(g);
    command first = begin_command(g, number);
    put_half(g, first);
    put_ticks(g, below(g, 3));
    if (chance(g, 75)) put_refused(g, number);
    c->before_len = g->len;
    if (chance(g, 25)) come_between(g, first);
    put_half(g, first);
    show(g, first);
}

/* A query that finds no room between the two frames, at the end of the first part. */
static void short_pair(generator *g, test_case *c)
{
    unsigned fit = 1 + below(g, 3), number = any_instance(g);
    command first = begin_command(g, number);
    c->log_len = 8 * fit + below(g, 8);
    for (unsigned i = 0; i < fit; i++) put_frame(g, 0x01, number, 0x80);
    put_half(g, first);
    put_frame(g, 0x01, any_instance(g), g->instance[number].type == COLOUR && g->dtr0 < 15 ? ONE_OF(g, 0x4B, 0x80) : 0x80);
    c->before_len = g->len;
    if (chance(g, 25)) put_frame(g, 0x01, number, 0x8D);
    put_half(g, first);
    put_frame(g, 0x01, number, query_of(first.opcode));
    if (chance(g, 40)) put_whole(g, first);
    put_frame(g, 0x01, number, query_of(first.opcode));
}

/* A TK of which one tick finds room, between the two frames: presence whose second event does not fit. */
static void full_pair(generator *g, test_case *c)
{
    c->log_len = 18 + below(g, 2);
    declare_presence(g);
    put_sa(g, 0, 0, 2), put_tk(g, 1);
    put_sa(g, 0, 0, 0);
    command first = begin_command(g, 0);
    put_half(g, first);
    PUT(g, 'T', 'K', 0, 3);
    c->before_len = g->len;
    put_tk(g, below(g, 3));
    put_half(g, first);
    put_frame(g, 0x01, 0, query_of(first.opcode));
}

/* Pairs up to the last tick number. */
static void last_pairs(generator *g, test_case *c)
{
    unsigned left = below(g, 8);
    c->start_tick = 4294967295u - left;
    g->work_left = left * g->declared;
    for (unsigned i = 1 + below(g, 4); i > 0; i--) {
        command some = begin_command(g, any_instance(g));
        put_half(g, some);
        put_ticks(g, below(g, 4));
        put_half(g, some);
        put_frame(g, 0x01, some.number, query_of(some.opcode));
    }
}

/* Two frames with 65,536 ticks between them, or some more. */
static void far_pair(generator *g)
{
    g->work_left = 70000;
    declare_presence(g);
    set_to(g, 0, 0x22, 0);
    command first = begin_command(g, 0);
    put_half(g, first);
    put_tk(g, 65535);
    put_tk(g, 1 + below(g, 3));
    put_half(g, first);
    show(g, first);
}

/* Of any kind. */
static void declare_mixed(generator *g, unsigned count)
{
    for (unsigned i = 0; i < count; i++) {
        switch (below(g, 5)) {
        case 0: declare_presence(g); break;
        case 1: case 2: declare_movement(g); break;
        case 3: declare_colour(g); break;
        default: declare_light(g, 1 + below(g, 24)); break;
        }
    }
}

static void many_pairs(generator *g, test_case *c)
{
    unsigned rounds = 10 + below(g, 8), parted = chance(g, 60) ? below(g, rounds) : rounds;
    for (unsigned i = 0; i < g->declared; i++) {
        if (chance(g, 70)) set_times(g, i, (uint8_t)below(g, 3), (uint8_t)below(g, 3));
        put_valid(g, i);
    }
    put_tk(g, 1);
    for (unsigned i = 0; i < rounds; i++) {
        if (i == parted) end_pair_part(g, c);
        pair_round(g);
    }
}

static void pairs(generator *g, test_case *c)
{
    unsigned how = below(g, 40);
    if (how == 0) {
        far_pair(g);
        return;
    }
    if (how < 4) {
        full_pair(g, c);
        return;
    }
    declare_mixed(g, 1 + below(g, 3));
    if (how < 8) short_pair(g, c);
    else if (how < 13) last_pairs(g, c);
    else many_pairs(g, c);
}

/* ---- The choice by the seed ---- */

/* The place of a seed among a hundred in a row, which have a hundred different ones. */
static unsigned place_of(uint64_t seed)
{
    return (unsigned)(seed * 37 % 100);
}

/* Of a hundred seeds in a row, how many go to each profile. */
static char profile_of(uint64_t seed)
{
    static const struct { unsigned up_to; char profile; } shares[] = {
        {7, 'a'}, {8, 'p'}, {10, 'o'}, {12, 'n'}, {17, 'l'}, {19, 'p'}, {25, 'b'}, {26, 'o'}, {28, 'n'}, {34, 'c'}, {35, 'p'},
        {36, 'o'}, {38, 'n'}, {46, 'm'}, {50, 'd'}, {51, 'p'}, {52, 'o'}, {54, 'n'}, {57, 'k'}, {58, 'p'}, {60, 'e'}, {78, 'f'},
        {83, 'g'}, {84, 'p'}, {86, 'o'}, {87, 'n'}, {89, 'h'}, {90, 'p'}, {92, 'i'}, {100, 'j'},
    };
    unsigned i = 0;
    while (place_of(seed) >= shares[i].up_to) i++;
    return shares[i].profile;
}

/* A seed's turn, from 0. The places of a profile, so many in a row, have a turn each, and others in each of so many hundreds of
 * seeds: within that many hundreds in a row all turns come. */
static unsigned turn_of(uint64_t seed, unsigned places, unsigned hundreds)
{
    return place_of(seed) % places + places * (unsigned)(seed / 100 % hundreds);
}

static test_case generate_case(uint64_t seed, char profile, bool single)
{
    test_case c = {.seed = seed, .profile = profile != 0 ? profile : profile_of(seed), .log_len = GENERATOR_LOG_MAX};
    generator g = {.random = seed * 0xD1342543DE82EF95u + (uint64_t)c.profile, .bytes = buffer, .work_left = 4000};
    g.single = single;
    g.odd = 2;
    switch (c.profile) {
    case 'a': mixed_traffic(&g); break;
    case 'b': band_edges(&g); break;
    case 'c': occupancy_filters(&g); break;
    case 'd': timer_ends(&g); break;
    case 'e': g.work_left = 10000; long_quiet(&g); break;
    case 'f': damaged(&g, turn_of(seed, DAMAGED_TURNS / 5, 5)); break;
    case 'g': c.log_len = below(&g, 401); short_output(&g); break;
    case 'h': last_ticks(&g, &c); break;
    case 'i': far_ticks(&g, &c); break;
    case 'k': deadtimes_set(&g); break;
    case 'l': unready(&g, &c); break;
    case 'm': twins(&g, &c, turn_of(seed, 8, 1)); break;
    case 'n': g.work_left = 8000; movement(&g, &c); break;
    case 'o': g.work_left = 8000; colours(&g, &c); break;
    case 'p': g.work_left = 8000; pairs(&g, &c); break;
    default: third_bytes(&g, turn_of(seed, 8, 6)); break;
    }
    c.session = buffer;
    c.session_len = g.len;
    return c;
}

test_case generate(uint64_t seed, char profile)
{
    return generate_case(seed, profile, false);
}

test_case generate_single(uint64_t seed, char profile)
{
    return generate_case(seed, profile, true);
}
