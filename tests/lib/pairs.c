#include "pairs.h"

#include <stdbool.h>
#include <string.h>

enum { EV_SIZE = 10, AN_SIZE = 8, RECORDS_MOST = 60, PROFILES = PAIRS_LAST_PROFILE - 'a' + 1 };

/* A record, before it is bytes. It has the fields of both marks, so that the mark alone may change. */
typedef struct {
    bool event; /* EV, else AN */
    uint32_t tick;
    uint8_t instance, priority, answer;
    uint32_t information;
} entry;

/* A log's records; one may be inserted beside the most. */
typedef struct {
    unsigned count;
    entry of[RECORDS_MOST + 1];
} row;

/* A log's bytes. */
typedef struct {
    uint8_t bytes[PAIRS_LOG_MAX];
    size_t len;
} byte_log;

typedef struct {
    uint64_t random;
    row device, model;
    unsigned first; /* the record at which they begin to differ, where they do */
} maker;

static byte_log device_log, model_log;

/* ---- Chance. No expression has two calls whose order is open: the same seed gives the same pair everywhere. ---- */

/* splitmix64 */
static uint64_t any_number(maker *m)
{
    m->random += 0x9E3779B97F4A7C15u;
    uint64_t mixed = (m->random ^ m->random >> 30) * 0xBF58476D1CE4E5B9u;
    mixed = (mixed ^ mixed >> 27) * 0x94D049BB133111EBu;
    return mixed ^ mixed >> 31;
}

static unsigned up_to(maker *m, unsigned most)
{
    return (unsigned)(any_number(m) >> 32) % (most + 1);
}

static bool one_in(maker *m, unsigned n)
{
    return up_to(m, n - 1) == 0;
}

/* One bit, or several, to change a field of so many bits. */
static uint32_t some_bits(maker *m, unsigned bits)
{
    uint32_t several = (uint32_t)any_number(m) & 0xFFFFFFFFu >> (32 - bits);
    return several == 0 || one_in(m, 2) ? 1u << up_to(m, bits - 1) : several;
}

/* ---- Records ---- */

/* As a model logs it. */
static entry likely_entry(maker *m, uint32_t tick)
{
    entry e = {.event = one_in(m, 2), .tick = tick};
    e.instance = (uint8_t)up_to(m, 15);
    e.priority = (uint8_t)(2 + up_to(m, 3));
    e.answer = (uint8_t)up_to(m, 255);
    e.information = up_to(m, 0x3FF);
    return e;
}

static entry any_entry(maker *m)
{
    entry e = {.event = one_in(m, 2)};
    e.tick = (uint32_t)any_number(m);
    e.instance = (uint8_t)up_to(m, 255);
    e.priority = (uint8_t)up_to(m, 255);
    e.answer = (uint8_t)up_to(m, 255);
    e.information = up_to(m, 0xFFFF);
    return e;
}

/* Few records more often than many. */
static unsigned any_count(maker *m)
{
    return one_in(m, 4) ? up_to(m, RECORDS_MOST) : one_in(m, 3) ? up_to(m, 3) : up_to(m, 12);
}

/* The same records to both: rising ticks; in one row of six a few that no model logs. */
static void fill(maker *m, unsigned count)
{
    bool wild = one_in(m, 6);
    uint32_t tick = one_in(m, 4) ? (uint32_t)any_number(m) >> 1 : up_to(m, 2000);
    for (unsigned i = 0; i < count; i++) {
        tick += up_to(m, 40);
        m->device.of[i] = wild && one_in(m, 3) ? any_entry(m) : likely_entry(m, tick);
    }
    m->device.count = count;
    m->model = m->device;
    m->first = count;
}

static row *either(maker *m)
{
    return one_in(m, 2) ? &m->device : &m->model;
}

static size_t entry_size(const entry *e)
{
    return e->event ? EV_SIZE : AN_SIZE;
}

static size_t offset_of(const row *r, unsigned number)
{
    size_t offset = 0;
    for (unsigned i = 0; i < number; i++) offset += entry_size(&r->of[i]);
    return offset;
}

static void write_row(const row *r, byte_log *log)
{
    log->len = offset_of(r, r->count);
    for (unsigned i = 0; i < r->count; i++) {
        const entry *e = &r->of[i];
        uint8_t *to = log->bytes + offset_of(r, i);
        memcpy(to, e->event ? "EV" : "AN", 2);
        for (unsigned j = 0; j < 4; j++) to[2 + j] = (uint8_t)(e->tick >> (24 - 8 * j));
        to[6] = e->instance;
        to[7] = e->event ? e->priority : e->answer;
        if (e->event) to[8] = (uint8_t)(e->information >> 8), to[9] = (uint8_t)e->information;
    }
}

/* ---- Profiles b, c, d, g, h: what differs between two rows of whole records ---- */

/* Cut at a record's end. */
static void shorten(maker *m)
{
    row *r = either(m);
    if (r->count > 0) r->count = up_to(m, r->count - 1);
    m->first = r->count;
}

/* A few ticks too early or too late, or any bits of it. */
static uint32_t another_tick(maker *m, uint32_t tick)
{
    uint32_t few = 1 + up_to(m, 2);
    return one_in(m, 2) ? tick ^ some_bits(m, 32) : one_in(m, 2) ? tick + few : tick - few;
}

/* One of those that the record has: of all, or of the last ones. */
static void change_field(maker *m, entry *e, unsigned from)
{
    uint8_t *eighth = e->event ? &e->priority : &e->answer;
    switch (from + up_to(m, (e->event ? 4 : 3) - from)) {
    case 0: e->event = !e->event; break;
    case 1: e->tick = another_tick(m, e->tick); break;
    case 2: e->instance ^= (uint8_t)some_bits(m, 8); break;
    case 3: *eighth ^= (uint8_t)some_bits(m, 8); break;
    default: e->information ^= some_bits(m, 16); break;
    }
}

/* The record from which on the two differ; the first, and the last, more often than others. */
static unsigned choose_first(maker *m)
{
    unsigned last = m->device.count - 1;
    m->first = one_in(m, 5) ? 0 : one_in(m, 4) ? last : up_to(m, last);
    return m->first;
}

static void change_in_either(maker *m, unsigned at, unsigned from)
{
    change_field(m, &either(m)->of[at], from);
}

static void change_ticks(maker *m)
{
    static const uint32_t ends[] = {0, 1, 0x7FFFFFFF, 0x80000000, 0x80000001, 0xFFFFFFFE, 0xFFFFFFFF};
    unsigned at = choose_first(m), of_device = up_to(m, 6), of_model = up_to(m, 6);
    m->device.of[at].tick = ends[of_device];
    m->model.of[at].tick = ends[of_model];
    if (of_device == of_model || one_in(m, 3)) change_in_either(m, at, 0);
    if (one_in(m, 4)) shorten(m);
}

/* Fields of one record, and of some behind it, in one log or in both. */
static void change_several(maker *m)
{
    unsigned at = choose_first(m), from = up_to(m, 3);
    for (unsigned i = 2 + up_to(m, 3); i > 0; i--) change_in_either(m, at, from);
    for (unsigned i = up_to(m, 3); i > 0; i--) change_in_either(m, at + up_to(m, m->device.count - 1 - at), 0);
}

static void remove_entry(row *r, unsigned at)
{
    r->count--;
    memmove(&r->of[at], &r->of[at + 1], (r->count - at) * sizeof r->of[0]);
}

/* A new record, or one of the others again. */
static void insert_entry(maker *m, row *r, unsigned at)
{
    entry e = one_in(m, 3) ? r->of[up_to(m, r->count - 1)] : likely_entry(m, r->of[at].tick);
    memmove(&r->of[at + 1], &r->of[at], (r->count - at) * sizeof r->of[0]);
    r->of[at] = e;
    r->count++;
}

static void insert_or_remove(maker *m)
{
    unsigned at = choose_first(m);
    row *r = either(m);
    if (one_in(m, 2)) remove_entry(r, at);
    else insert_entry(m, r, at);
}

/* ---- Profiles e, f: what is no record ---- */

static void change_byte(maker *m, uint8_t *bytes, size_t count)
{
    unsigned at = up_to(m, (unsigned)count - 1);
    bytes[at] ^= (uint8_t)some_bits(m, 8);
}

/* A mark that a log does not have: of a session, of letters that both marks have, or with one letter changed. */
static void spoil_mark(maker *m, uint8_t *mark)
{
    static const char *const marks[] = {"IN", "SA", "FR", "TK", "EN", "AV", "VE", "NA", "ev", "an", "Ev", "aN"};
    if (one_in(m, 4)) change_byte(m, mark, 2);
    else memcpy(mark, marks[up_to(m, sizeof marks / sizeof marks[0] - 1)], 2);
}

/* A record of the row made bad, or the log cut inside it, or both; or a byte behind the last. */
static void spoil(maker *m, const row *r, byte_log *log, unsigned at)
{
    if (r->count == 0 || one_in(m, 8)) {
        log->bytes[log->len++] = (uint8_t)"EVAN"[up_to(m, 3)];
        return;
    }
    if (at >= r->count) at = r->count - 1;
    size_t offset = offset_of(r, at), size = entry_size(&r->of[at]);
    unsigned how = up_to(m, 4);
    if (how <= 2) spoil_mark(m, log->bytes + offset);
    if (how >= 2) log->len = offset + 1 + up_to(m, one_in(m, 3) ? 1 : (unsigned)size - 2);
}

/* One record before the first difference, at it, one behind it, or any. */
static unsigned about_first(maker *m, const row *r)
{
    unsigned at = m->first + up_to(m, 2);
    if (one_in(m, 3)) return r->count > 0 ? up_to(m, r->count - 1) : 0;
    return at > 0 ? at - 1 : 0;
}

static void spoil_logs(maker *m)
{
    unsigned which = up_to(m, 2);
    if (which != 0) spoil(m, &m->device, &device_log, about_first(m, &m->device));
    if (which != 1) spoil(m, &m->model, &model_log, about_first(m, &m->model));
}

/* Any bytes, or such as marks have. */
static void scatter(maker *m, byte_log *log, unsigned most)
{
    log->len = up_to(m, most);
    bool letters = one_in(m, 2);
    for (size_t i = 0; i < log->len; i++) {
        unsigned byte = up_to(m, 255);
        log->bytes[i] = letters ? (uint8_t)"EVAN"[byte % 4] : (uint8_t)byte;
    }
}

/* Leaves the records as they are in one case of six. */
static void damage(maker *m, byte_log *log)
{
    switch (up_to(m, 5)) {
    case 0: log->len = 0; break;
    case 1: scatter(m, log, 3); break;
    case 2: scatter(m, log, 40); break;
    case 3: log->len = up_to(m, (unsigned)log->len); break;
    case 4:
        for (unsigned i = up_to(m, 3); i > 0 && log->len > 0; i--) change_byte(m, log->bytes, log->len);
        break;
    default: break;
    }
}

/* ---- A pair ---- */

/* What differs before anything is made bad in profile e: nothing, a start, a field, a record. */
static void differ_somehow(maker *m)
{
    switch (up_to(m, 3)) {
    case 0: break;
    case 1: shorten(m); break;
    case 2: change_in_either(m, choose_first(m), 0); break;
    default: insert_or_remove(m); break;
    }
}

static void make_rows(maker *m, char profile)
{
    unsigned count = any_count(m);
    bool at_least_one = profile != 'a' && profile != 'f';
    fill(m, at_least_one && count == 0 ? 1 : count);
    switch (profile) {
    case 'b': shorten(m); break;
    case 'c': change_in_either(m, choose_first(m), 0); break;
    case 'd': change_ticks(m); break;
    case 'e': differ_somehow(m); break;
    case 'g': change_several(m); break;
    case 'h': insert_or_remove(m); break;
    default: break;
    }
}

log_pair generate_pair(uint64_t seed, char profile)
{
    if (profile == 0) profile = (char)('a' + seed % PROFILES);
    maker m = {.random = seed * 0xA0761D6478BD642Fu + (uint64_t)profile};
    make_rows(&m, profile);
    write_row(&m.device, &device_log);
    write_row(&m.model, &model_log);
    if (profile == 'e') spoil_logs(&m);
    if (profile == 'f') damage(&m, &device_log), damage(&m, &model_log);
    return (log_pair){
        .seed = seed,
        .profile = profile,
        .device = device_log.bytes,
        .model = model_log.bytes,
        .device_len = device_log.len,
        .model_len = model_log.len,
    };
}
