#include "tables.h"

#include "generator.h"

#include <string.h>

enum { EV_SIZE = 10, AN_SIZE = 8, RECORDS_MOST = 600, LOG_MAX = RECORDS_MOST * EV_SIZE + 1, SESSION_MAX = 4096 };
enum { HOURS = 48, HOUR_TICKS = 72000, LAST_TABLE_TICK = HOURS * HOUR_TICKS, TK_MOST = 65535 };
enum { OCCUPANCY = 3, LIGHT = 4, INSTANCES = 16 };

/* A record of a log, before it is bytes. `eighth` is the priority, or the answer. */
typedef struct {
    bool event; /* EV, else AN */
    uint32_t tick;
    uint8_t instance, eighth;
} entry;

typedef struct {
    uint64_t random;

    /* of a log: */
    unsigned hours[HOURS], hours_count; /* the hours that its records are in */
    unsigned instances;                 /* most of them are of so many instances */
    unsigned count;
    entry of[RECORDS_MOST];

    /* of a session: */
    uint32_t tick;
    unsigned declared;
    uint8_t type[INSTANCES];
    bool high[INSTANCES]; /* what the instance's last sample was */
    bool exact;           /* each instance sends when it is given the other value, and never else */
    size_t logged;        /* what is logged so far, where exact */
} maker;

static uint8_t bytes[LOG_MAX > SESSION_MAX ? LOG_MAX : SESSION_MAX];
static size_t len;

/* ---- Chance. No expression has two calls whose order is open: the same seed gives the same case everywhere. ---- */

/* splitmix64 */
static uint64_t any_number(maker *m)
{
    m->random += 0x9E3779B97F4A7C15u;
    uint64_t mixed = (m->random ^ m->random >> 30) * 0xBF58476D1CE4E5B9u;
    mixed = (mixed ^ mixed >> 27) * 0x94D049BB133111EBu;
    return mixed ^ mixed >> 31;
}

static unsigned up_to(maker *m, unsigned most)
{
    return (unsigned)(any_number(m) >> 32) % (most + 1);
}

static bool one_in(maker *m, unsigned n)
{
    return up_to(m, n - 1) == 0;
}

static uint64_t one_of(maker *m, const uint64_t *list, size_t count)
{
    return list[up_to(m, (unsigned)count - 1)];
}

#define ONE_OF(m, ...) one_of((m), (const uint64_t[]){__VA_ARGS__}, sizeof((const uint64_t[]){__VA_ARGS__}) / sizeof(uint64_t))

/* ---- A log's records ---- */

/* One hour, a few, a row of them, or all: so that hours are left out at the start, in the middle and at the end. */
static void choose_hours(maker *m)
{
    unsigned how = up_to(m, 3), first = up_to(m, HOURS - 1);
    unsigned count = how == 0 ? 1 : how == 1 ? 2 + up_to(m, 4) : how == 2 ? 1 + up_to(m, HOURS - 1 - first) : HOURS;
    for (unsigned i = 0; i < count; i++) {
        unsigned any = one_in(m, 4) ? (unsigned)ONE_OF(m, 0, 1, 46, 47) : up_to(m, HOURS - 1);
        m->hours[i] = how <= 1 ? any : how == 2 ? first + i : i;
    }
    m->hours_count = count;
}

/* A tick of one of the hours; at an end also the last one of the hour before, which for hour 0 is tick 0. */
static uint32_t some_tick(maker *m, unsigned ends_in_ten)
{
    uint32_t start = m->hours[up_to(m, m->hours_count - 1)] * HOUR_TICKS;
    if (up_to(m, 9) < ends_in_ten) return start + (uint32_t)ONE_OF(m, 0, 1, 1, 2, HOUR_TICKS - 1, HOUR_TICKS, HOUR_TICKS);
    return start + 1 + up_to(m, HOUR_TICKS - 1);
}

static entry some_entry(maker *m, uint32_t tick, unsigned above_in_ten)
{
    entry e = {.event = !one_in(m, 4), .tick = tick};
    e.instance = (uint8_t)up_to(m, m->instances - 1);
    if (up_to(m, 9) < above_in_ten) e.instance = (uint8_t)(16 + (one_in(m, 2) ? e.instance : up_to(m, 239)));
    e.eighth = (uint8_t)(e.event ? 2 + up_to(m, 3) : up_to(m, 255));
    return e;
}

static void sort(maker *m)
{
    for (unsigned i = 1; i < m->count; i++) {
        entry e = m->of[i];
        unsigned at = i;
        for (; at > 0 && m->of[at - 1].tick > e.tick; at--) m->of[at] = m->of[at - 1];
        m->of[at] = e;
    }
}

/* So many records with rising ticks. */
static void fill(maker *m, unsigned count, unsigned ends_in_ten, unsigned above_in_ten)
{
    for (unsigned i = 0; i < count; i++) {
        uint32_t tick = some_tick(m, ends_in_ten);
        m->of[i] = some_entry(m, tick, above_in_ten);
    }
    m->count = count;
    sort(m);
}

/* Some records at the tick of the one before. */
static void crowd(maker *m)
{
    for (unsigned i = 1; i < m->count; i++) {
        if (one_in(m, 2)) m->of[i].tick = m->of[i - 1].tick;
    }
}

/* The first few at tick 0. */
static void begin_at_0(maker *m)
{
    unsigned some = up_to(m, 3);
    for (unsigned i = 0; i < some && i < m->count; i++) m->of[i].tick = 0;
}

static unsigned any_count(maker *m)
{
    return one_in(m, 4) ? up_to(m, 90) : one_in(m, 3) ? up_to(m, 3) : up_to(m, 14);
}

/* Profiles a to d, by letter. */
static void fill_by(maker *m, char profile)
{
    static const uint8_t ends[] = {2, 9, 4, 1}, above[] = {1, 1, 4, 1};
    choose_hours(m);
    m->instances = 1 + up_to(m, one_in(m, 3) ? 15 : 3);
    bool many = profile == 'd';
    if (many) m->instances = 1 + up_to(m, 1), m->hours_count = 1 + up_to(m, 1) % m->hours_count;
    unsigned count = many ? up_to(m, RECORDS_MOST) : any_count(m);
    fill(m, count, ends[profile - 'a'], above[profile - 'a']);
    if (profile == 'c' || one_in(m, 4)) crowd(m);
    if (profile == 'c' || one_in(m, 6)) begin_at_0(m);
}

/* ---- Profiles e, f: ticks that fall, and ticks beyond the table ---- */

/* One record below the one before: by one tick, by a few, an hour, or to 0; or the two in each other's place. */
static void let_fall(maker *m, unsigned at)
{
    entry *e = &m->of[at], *before = e - 1;
    uint32_t by = (uint32_t)ONE_OF(m, 1, 1, 2, 40, HOUR_TICKS, LAST_TABLE_TICK);
    if (one_in(m, 4)) {
        entry other = *before;
        *before = *e;
        *e = other;
        return;
    }
    e->tick = before->tick > by ? before->tick - by : one_in(m, 2) ? 0 : before->tick - (before->tick > 0);
}

static void let_some_fall(maker *m)
{
    if (m->count < 2) return;
    for (unsigned i = 1 + up_to(m, 2); i > 0; i--) let_fall(m, 1 + up_to(m, m->count - 2));
}

/* Those from one on: from the first tick beyond the table, or further; a few of them at its last tick. */
static void go_beyond(maker *m)
{
    if (m->count == 0) return;
    unsigned first = one_in(m, 2) ? m->count - 1 : up_to(m, m->count - 1);
    const uint32_t last = LAST_TABLE_TICK;
    uint32_t tick = (uint32_t)ONE_OF(m, last, last, last + 1, last + 1, last + 1, last + 2, last + HOUR_TICKS,
                                     last + HOUR_TICKS + 1, 0x7FFFFFFF, 0x80000000, 0xFFFFFF00);
    for (unsigned i = first; i < m->count; i++) {
        m->of[i].tick = tick;
        if (tick < 0xFFFFFFF0) tick += up_to(m, 2);
    }
}

/* Nothing, one of the two, or both in either order. */
static void disturb(maker *m)
{
    unsigned how = up_to(m, 4);
    if (how == 1 || how == 3) let_some_fall(m);
    if (how >= 2) go_beyond(m);
    if (how == 4) let_some_fall(m);
}

/* ---- Bytes of a log ---- */

static size_t entry_size(const entry *e)
{
    return e->event ? EV_SIZE : AN_SIZE;
}

static size_t offset_of(const maker *m, unsigned number)
{
    size_t offset = 0;
    for (unsigned i = 0; i < number; i++) offset += entry_size(&m->of[i]);
    return offset;
}

static void write_entries(maker *m)
{
    len = 0;
    for (unsigned i = 0; i < m->count; i++) {
        const entry *e = &m->of[i];
        uint8_t *to = bytes + len;
        memcpy(to, e->event ? "EV" : "AN", 2);
        for (unsigned j = 0; j < 4; j++) to[2 + j] = (uint8_t)(e->tick >> (24 - 8 * j));
        to[6] = e->instance;
        to[7] = e->eighth;
        if (e->event) to[8] = (uint8_t)up_to(m, 3), to[9] = (uint8_t)up_to(m, 255);
        len += entry_size(e);
    }
}

/* ---- Profiles g, h: what is no record ---- */

/* A mark that a log does not have: of a session, of letters that both marks have, or in small letters. */
static void spoil_mark(maker *m, uint8_t *mark)
{
    static const char *const marks[] = {"IN", "SA", "FR", "TK", "EN", "AV", "VE", "NA", "ev", "an", "Ev", "aN"};
    memcpy(mark, marks[up_to(m, sizeof marks / sizeof marks[0] - 1)], 2);
}

/* A record made bad, or the log cut inside it, or both; or a byte behind the last. */
static void spoil(maker *m)
{
    if (m->count == 0 || one_in(m, 8)) {
        bytes[len++] = (uint8_t)"EVAN"[up_to(m, 3)];
        return;
    }
    unsigned at = one_in(m, 3) ? m->count - 1 : up_to(m, m->count - 1), how = up_to(m, 4);
    size_t offset = offset_of(m, at), size = entry_size(&m->of[at]);
    if (how <= 2) spoil_mark(m, bytes + offset);
    if (how >= 2) len = offset + 1 + up_to(m, one_in(m, 3) ? 1 : (unsigned)size - 2);
}

static void scatter(maker *m, unsigned most)
{
    len = up_to(m, most);
    bool letters = one_in(m, 2);
    for (size_t i = 0; i < len; i++) {
        unsigned byte = up_to(m, 255);
        bytes[i] = letters ? (uint8_t)"EVAN"[byte % 4] : (uint8_t)byte;
    }
}

static void damage(maker *m)
{
    switch (up_to(m, 4)) {
    case 0: len = 0; break;
    case 1: scatter(m, 3); break;
    case 2: scatter(m, 40); break;
    case 3: len = up_to(m, (unsigned)len); break;
    default:
        for (unsigned i = up_to(m, 3); i > 0 && len > 0; i--) {
            unsigned at = up_to(m, (unsigned)len - 1);
            bytes[at] = (uint8_t)up_to(m, 255);
        }
    }
}

/* ---- Profiles j, k: sessions ---- */

static void put(const uint8_t *record, size_t size)
{
    if (len + size > SESSION_MAX) return;
    memcpy(bytes + len, record, size);
    len += size;
}

#define PUT(...) put((const uint8_t[]){__VA_ARGS__}, sizeof((const uint8_t[]){__VA_ARGS__}))

static void put_tk(unsigned count)
{
    PUT('T', 'K', (uint8_t)(count >> 8), (uint8_t)count);
}

/* TKs up to a tick, mostly as few as can be. */
static void go_to(maker *m, uint32_t tick)
{
    while (m->tick < tick) {
        uint32_t left = tick - m->tick, count = left < TK_MOST ? left : TK_MOST;
        if (one_in(m, 10)) count = 1 + up_to(m, count - 1);
        put_tk(count);
        m->tick += count;
    }
}

/* Twice: then it acts (02, M-105). */
static void put_setting(unsigned number, uint8_t opcode)
{
    for (unsigned i = 0; i < 2; i++) PUT('F', 'R', 1, (uint8_t)number, opcode);
}

/* Dead time and report 0: then it sends when its value changes, and never else. */
static void set_quiet(unsigned number, uint8_t type)
{
    PUT('F', 'R', 0xC1, 0x30, 0);
    put_setting(number, type == LIGHT ? 0x32 : 0x23);
    put_setting(number, type == LIGHT ? 0x30 : 0x22);
}

/* In one session of four they keep their defaults, and light reports. */
static void declare(maker *m, unsigned count)
{
    m->exact = !one_in(m, 4);
    for (unsigned i = 0; i < count; i++) {
        m->type[i] = one_in(m, 3) ? OCCUPANCY : LIGHT;
        PUT('I', 'N', (uint8_t)i, m->type[i], m->type[i] == LIGHT ? 8 : 2);
    }
    for (unsigned i = 0; i < count && m->exact; i++) set_quiet(i, m->type[i]);
    m->declared = count;
}

/* The other value to some of them; they send at the next tick. Gives how many. */
static unsigned change_some(maker *m)
{
    unsigned changed = 0;
    for (unsigned i = 0; i < m->declared; i++) {
        if (changed > 0 && one_in(m, 2)) continue;
        m->high[i] = !m->high[i];
        PUT('S', 'A', (uint8_t)i, 0, 0, 0, m->type[i] == LIGHT ? (m->high[i] ? 200 : 10) : m->high[i] ? 2 : 0);
        changed++;
    }
    return changed;
}

static void ask(maker *m)
{
    if (m->declared == 0) return;
    PUT('F', 'R', 1, (uint8_t)up_to(m, m->declared - 1), 0x80);
    m->logged += AN_SIZE;
}

/* Some send at that tick, if it has not passed. */
static void send_at(maker *m, uint32_t tick)
{
    if (tick <= m->tick) return;
    go_to(m, tick - 1);
    m->logged += EV_SIZE * (size_t)change_some(m);
    go_to(m, tick);
    if (one_in(m, 3)) ask(m);
}

/* Some ticks of the hours up to one, in rising order, at the ends of them or anywhere. */
static void send_up_to(maker *m, unsigned hours)
{
    for (unsigned hour = up_to(m, hours > 3 ? hours : 1); hour <= hours; hour += 1 + up_to(m, hours / 4)) {
        uint32_t start = hour * HOUR_TICKS, any = start + 3 + up_to(m, HOUR_TICKS - 6);
        if (one_in(m, 2)) send_at(m, start);
        if (one_in(m, 2)) send_at(m, start + 1);
        if (one_in(m, 2)) send_at(m, start + 2);
        if (hour < hours && one_in(m, 2)) send_at(m, any);
        if (hour < hours && one_in(m, 4)) send_at(m, any + 1);
    }
}

/* Records behind: taken, or refused by some number. */
static void put_some_behind(maker *m)
{
    for (unsigned i = up_to(m, 3); i > 0; i--) {
        switch (up_to(m, 6)) {
        case 0: ask(m); break;
        case 1: put_tk(0); break;
        case 2: put_tk(1); break;
        case 3: put_tk(1 + up_to(m, 40)); break;
        case 4: change_some(m); break;
        case 5: PUT('T', 'K', 1); break;
        default: PUT('X', 'K'); break;
        }
    }
}

/* As much as is logged, a few bytes less or more; or any length. */
static size_t some_output(maker *m)
{
    if (!m->exact) return one_in(m, 4) ? up_to(m, 3000) : TABLES_OUTPUT_MAX;
    unsigned less = up_to(m, 40), more = up_to(m, EV_SIZE - 1);
    switch (up_to(m, 3)) {
    case 0: return m->logged > less ? m->logged - less : 0;
    case 1: return m->logged + more;
    case 2: return m->logged + 10 * more;
    default: return TABLES_OUTPUT_MAX;
    }
}

/* Profile j */
static size_t first_hours(maker *m)
{
    declare(m, one_in(m, 5) ? up_to(m, 6) : up_to(m, 2));
    send_up_to(m, up_to(m, 2));
    size_t output = some_output(m);
    put_some_behind(m);
    return output;
}

/* Profile k, to the table's end: an answer there, and a TK of one tick or none. */
static size_t end_exactly(maker *m, unsigned left)
{
    if (left > 0 && one_in(m, 2)) m->logged += EV_SIZE * (size_t)change_some(m);
    go_to(m, LAST_TABLE_TICK);
    if (!one_in(m, 3)) ask(m);
    size_t output = m->exact && one_in(m, 2) ? m->logged : TABLES_OUTPUT_MAX;
    put_tk((unsigned)ONE_OF(m, 0, 1));
    return output;
}

/* Profile k, by a TK that ends beyond the table; mostly an instance would send in it, often without room for that. */
static size_t end_beyond(maker *m, unsigned left)
{
    unsigned count = left + (unsigned)ONE_OF(m, 1, 1, 2, 700), room = up_to(m, 2);
    size_t output = some_output(m);
    if (room == 0 && m->exact) output = m->logged + up_to(m, EV_SIZE - 1);
    if (room == 1) output = TABLES_OUTPUT_MAX;
    if (!one_in(m, 6)) change_some(m);
    put_tk(count > TK_MOST || one_in(m, 8) ? TK_MOST : count);
    if (one_in(m, 2)) ask(m);
    return output;
}

/* Profile k */
static size_t to_the_end(maker *m)
{
    unsigned left = (unsigned)ONE_OF(m, 0, 1, 1, 2, 40, 600, TK_MOST - 1);
    declare(m, one_in(m, 12) ? 2 + up_to(m, 2) : one_in(m, 3) ? 0 : 1);
    send_up_to(m, one_in(m, 3) ? 0 : HOURS - 1);
    go_to(m, LAST_TABLE_TICK - left);
    if (one_in(m, 3)) ask(m);
    size_t output = one_in(m, 2) ? end_exactly(m, left) : end_beyond(m, left);
    put_some_behind(m);
    return output;
}

/* ---- A case ---- */

/* One of those that begin at tick 0 with a fresh model. */
static test_case other_session(maker *m, uint64_t seed)
{
    return generate(seed, "abcdefgjk"[up_to(m, 8)]);
}

static size_t some_length(maker *m)
{
    if (one_in(m, 2)) return 768;
    return one_in(m, 4) ? up_to(m, TABLES_ENTRIES_MAX) : (size_t)ONE_OF(m, 0, 1, 47, 48, 49, 95, 96, 767, 768, 769, 800);
}

/* The hour of a record, or about it; any hour; or none. */
static uint64_t some_hour(maker *m)
{
    const uint64_t two_32 = (uint64_t)1 << 32, two_63 = (uint64_t)1 << 63;
    unsigned any = up_to(m, HOURS - 1);
    uint64_t far = ONE_OF(m, 48, 48, 49, 94, 95, 96, 255, 256, 65536, two_32 - 1, two_32, two_32 + 1, two_63, two_63 + 1,
                          two_63 + (two_63 - 1));
    if (one_in(m, 4)) return one_in(m, 5) ? two_32 + any : far;
    if (m->count == 0 || one_in(m, 3)) return one_in(m, 3) ? ONE_OF(m, 0, 1, 46, 47) : any;
    uint64_t hour = m->of[up_to(m, m->count - 1)].tick / HOUR_TICKS, about = hour + up_to(m, 2);
    return about > 0 ? about - 1 : 0;
}

static void make_log(maker *m, char profile)
{
    char row = profile <= 'd' ? profile : (char)('a' + up_to(m, one_in(m, 8) ? 3 : 2));
    fill_by(m, row);
    if (profile == 'e') let_some_fall(m);
    if (profile == 'f') go_beyond(m);
    if (profile == 'f' && one_in(m, 2)) let_some_fall(m);
    if (profile == 'g' || profile == 'h') disturb(m);
    write_entries(m);
    if (profile == 'g') spoil(m);
    if (profile == 'h') damage(m);
}

static table_case made(maker *m, uint64_t seed, char profile)
{
    table_case c = {.seed = seed, .profile = profile, .session = profile >= 'i', .in_use = true, .bytes = bytes};
    len = 0;
    if (profile == 'i') {
        test_case other = other_session(m, seed);
        c.bytes = other.session, c.output = other.log_len, len = other.session_len;
    } else if (profile == 'j') {
        c.output = first_hours(m);
    } else if (profile == 'k') {
        c.output = to_the_end(m);
    } else {
        make_log(m, profile);
    }
    c.len = len;
    return c;
}

table_case generate_table(uint64_t seed, char profile)
{
    static maker m;
    if (profile == 0) profile = seed % 50 == 30 ? 'k' : (char)('a' + seed % 10);
    memset(&m, 0, sizeof m);
    m.random = seed * 0xA0761D6478BD642Fu + (uint64_t)profile;
    table_case c = made(&m, seed, profile);
    if (c.session) c.in_use = !one_in(&m, 5);
    c.events_len = some_length(&m);
    c.gaps_len = one_in(&m, 2) ? c.events_len : some_length(&m);
    for (unsigned i = 0; i < TABLES_ASKED; i++) c.asked[i] = some_hour(&m);
    return c;
}
