#include "tallies.h"

#include <stdio.h>
#include <string.h>

/* What is lent lies between two margins, that a write outside it is seen; the log at any of eight places. */
enum { MARGIN = 64, PLACES = 8, LOG_HELD = MARGIN + PLACES + TABLES_OUTPUT_MAX + MARGIN };
enum { ENTRIES = 768, HOURS = 48, TABLE_HELD = MARGIN + TABLES_ENTRIES_MAX + MARGIN, BYTES_SHOWN = 600 };

/* What is lent; of the log so much as is held of it in this case. */
typedef struct {
    uint8_t log[LOG_HELD];
    size_t log_held;
    uint32_t events[TABLE_HELD], gaps[TABLE_HELD];
} held_case;

typedef struct {
    second_tally tally;     /* of a log */
    second_reading reading; /* of a session */
    second_part parts[TABLES_ASKED];
    bool kept;
} outcome;

static held_case beforehand, left_held, right_held;
static outcome left_outcome, right_outcome;

/* ---- Lending ---- */

static size_t log_place(const table_case *c)
{
    return MARGIN + c->seed % PLACES;
}

/* A pattern that begins no record, and in it a log or the room for one; junk in the tables, large numbers and small ones. */
static void lay(const table_case *c)
{
    size_t lent = c->session ? c->output : c->len;
    beforehand.log_held = MARGIN + PLACES + lent + MARGIN;
    for (size_t i = 0; i < beforehand.log_held; i++) beforehand.log[i] = (uint8_t)(0x80 | i * 7);
    if (!c->session && c->len > 0) memcpy(beforehand.log + log_place(c), c->bytes, c->len);
    for (uint32_t i = 0; i < TABLE_HELD; i++) {
        uint32_t junk = (i + (uint32_t)c->seed) * 2654435761u;
        beforehand.events[i] = junk >> junk % 32 | 1;
        beforehand.gaps[i] = ~junk >> junk % 29 | 1;
    }
}

static void lend_again(held_case *held)
{
    held->log_held = beforehand.log_held;
    memcpy(held->log, beforehand.log, beforehand.log_held);
    memcpy(held->events, beforehand.events, sizeof held->events);
    memcpy(held->gaps, beforehand.gaps, sizeof held->gaps);
}

/* ---- What must keep what it held ---- */

static bool log_kept(const table_case *c, const held_case *held, uint64_t written)
{
    size_t from = log_place(c), rest = from + (size_t)written;
    if (written > c->output) return false;
    return memcmp(held->log, beforehand.log, from) == 0 &&
           memcmp(held->log + rest, beforehand.log + rest, beforehand.log_held - rest) == 0;
}

/* Behind the 768 entries, or as many as were lent, and before them. */
static bool table_kept(const uint32_t *held, const uint32_t *before, size_t lent)
{
    size_t rest = MARGIN + (lent < ENTRIES ? lent : ENTRIES);
    return memcmp(held, before, MARGIN * sizeof held[0]) == 0 &&
           memcmp(held + rest, before + rest, (TABLE_HELD - rest) * sizeof held[0]) == 0;
}

static bool all_kept(const table_case *c, const held_case *held, uint64_t written)
{
    return log_kept(c, held, written) && table_kept(held->events, beforehand.events, c->events_len) &&
           table_kept(held->gaps, beforehand.gaps, c->gaps_len);
}

/* ---- One implementation ---- */

static second_reading read_session(const table_case *c, tabling which, held_case *held)
{
    uint8_t *log = held->log + log_place(c);
    if (!c->in_use) return which.session(c->bytes, c->len, log, c->output);
    return which.session_hours(c->bytes, c->len, log, c->output, held->events + MARGIN, c->events_len, held->gaps + MARGIN,
                               c->gaps_len);
}

/* The hours are asked of the log, or of what the session logged. */
static outcome ask(const table_case *c, tabling which, held_case *held)
{
    outcome o;
    memset(&o, 0, sizeof o);
    lend_again(held);
    uint8_t *log = held->log + log_place(c);
    size_t len = c->len;
    if (c->session) {
        o.reading = read_session(c, which, held);
        len = o.reading.written <= c->output ? (size_t)o.reading.written : 0;
    } else {
        o.tally = which.hours(log, len, held->events + MARGIN, c->events_len, held->gaps + MARGIN, c->gaps_len);
    }
    for (unsigned i = 0; i < TABLES_ASKED; i++) o.parts[i] = which.hour(log, len, c->asked[i]);
    o.kept = all_kept(c, held, o.reading.written);
    return o;
}

/* ---- Comparing ---- */

bool same_tally(second_tally a, second_tally b)
{
    return a.number == b.number && a.offset == b.offset;
}

bool same_part(second_part a, second_part b)
{
    return a.number == b.number && a.offset == b.offset && a.len == b.len;
}

bool same_reading(second_reading a, second_reading b)
{
    return a.number == b.number && a.offset == b.offset && a.written == b.written && a.ticks == b.ticks;
}

static bool same_outcome(const outcome *a, const outcome *b)
{
    bool same = same_tally(a->tally, b->tally) && same_reading(a->reading, b->reading);
    for (unsigned i = 0; i < TABLES_ASKED; i++) same = same && same_part(a->parts[i], b->parts[i]);
    return same;
}

static bool same_held(const held_case *a, const held_case *b)
{
    return memcmp(a->log, b->log, a->log_held) == 0 && memcmp(a->events, b->events, sizeof a->events) == 0 &&
           memcmp(a->gaps, b->gaps, sizeof a->gaps) == 0;
}

bool tables_agree(const table_case *c, tabling left, tabling right)
{
    lay(c);
    left_outcome = ask(c, left, &left_held);
    right_outcome = ask(c, right, &right_held);
    return left_outcome.kept && right_outcome.kept && same_outcome(&left_outcome, &right_outcome) &&
           same_held(&left_held, &right_held);
}

/* ---- Printing ---- */

void print_tally(const char *name, second_tally t)
{
    printf("%s: number %lu, offset %lu\n", name, (unsigned long)t.number, (unsigned long)t.offset);
}

void print_part(const char *name, uint64_t hour, second_part p)
{
    printf("%s: hour %lu: number %lu, from %lu, %lu bytes\n", name, (unsigned long)hour, (unsigned long)p.number,
           (unsigned long)p.offset, (unsigned long)p.len);
}

void print_reading(const char *name, second_reading r)
{
    printf("%s: number %lu, offset %lu, written %lu, ticks %lu\n", name, (unsigned long)r.number, (unsigned long)r.offset,
           (unsigned long)r.written, (unsigned long)r.ticks);
}

static void print_outcomes(const table_case *c, const char *name, const outcome *o)
{
    if (c->session) print_reading(name, o->reading);
    else print_tally(name, o->tally);
    if (!o->kept) printf("  it changed what it must keep\n");
}

static void print_parts(const table_case *c, const char *left, const char *right)
{
    for (unsigned i = 0; i < TABLES_ASKED; i++) {
        if (same_part(left_outcome.parts[i], right_outcome.parts[i])) continue;
        print_part(left, c->asked[i], left_outcome.parts[i]);
        print_part(right, c->asked[i], right_outcome.parts[i]);
    }
}

/* The first entry that differs. */
static void print_entry(const char *what, const uint32_t *left, const uint32_t *right, const uint32_t *before)
{
    unsigned i = 0;
    while (i < TABLE_HELD && left[i] == right[i]) i++;
    if (i == TABLE_HELD) return;
    int entry = (int)i - MARGIN;
    printf("%s: entry %d (instance %d, hour %d), held %u before: %u and %u\n", what, entry, entry / HOURS, entry % HOURS, before[i],
           left[i], right[i]);
}

static void print_bytes(const table_case *c)
{
    printf("%s of %lu bytes, output %lu, %s; tables of %lu and %lu\n", c->session ? "session" : "log", (unsigned long)c->len,
           (unsigned long)c->output, c->in_use ? "table in use" : "without the table", (unsigned long)c->events_len,
           (unsigned long)c->gaps_len);
    for (size_t i = 0; i < c->len && i < BYTES_SHOWN; i++) printf("%02X%s", c->bytes[i], i % 32 == 31 ? "\n" : " ");
    printf("%s\n", c->len > BYTES_SHOWN ? "and so on" : "");
}

void print_table_difference(const table_case *c, tabling left, tabling right)
{
    printf("DIFFERENCE at seed %lu, profile %c\n", (unsigned long)c->seed, c->profile);
    print_outcomes(c, left.name, &left_outcome);
    print_outcomes(c, right.name, &right_outcome);
    print_parts(c, left.name, right.name);
    print_entry("events", left_held.events, right_held.events, beforehand.events);
    print_entry("gaps", left_held.gaps, right_held.gaps, beforehand.gaps);
    if (memcmp(left_held.log, right_held.log, beforehand.log_held) != 0) printf("the bytes of the log differ\n");
    print_bytes(c);
}
