/* Compares the library with the second implementation on hour tables: a few logs and sessions by hand, whose tables and parts are
 * written here, and those from a seed.
 *   tables SEED COUNT [PROFILE]      PROFILE is one of those in lib/tables.h; without it, the seeds have them in turn
 * Ends with status 1 at the first difference, which it prints. */
#include "lib/tables.h"
#include "lib/tallies.h"
#include "potmeander.h"
#include "second/table.h"

#include <stdio.h>
#include <stdlib.h>
#include <string.h>

/* ---- The library's calls ---- */

static second_tally hours_library(const uint8_t *log, size_t log_len, uint32_t *events, size_t events_len, uint32_t *gaps,
                                  size_t gaps_len)
{
    potmeander_tally t = potmeander_hours(log, log_len, events, events_len, gaps, gaps_len);
    return (second_tally){.number = t.number, .offset = t.offset};
}

static second_part hour_library(const uint8_t *log, size_t log_len, uint64_t hour)
{
    potmeander_part p = potmeander_hour(log, log_len, hour);
    return (second_part){.number = p.number, .offset = p.offset, .len = p.len};
}

static second_reading session_hours_library(const uint8_t *session, size_t session_len, uint8_t *log, size_t log_len,
                                            uint32_t *events, size_t events_len, uint32_t *gaps, size_t gaps_len)
{
    potmeander_reading r = potmeander_session_hours(session, session_len, log, log_len, events, events_len, gaps, gaps_len);
    return (second_reading){r.number, r.offset, r.written, r.ticks};
}

static second_reading session_library(const uint8_t *session, size_t session_len, uint8_t *log, size_t log_len)
{
    potmeander_reading r = potmeander_session(session, session_len, log, log_len);
    return (second_reading){r.number, r.offset, r.written, r.ticks};
}

static const tabling FIRST = {"the library", hours_library, hour_library, session_hours_library, session_library},
                     SECOND = {"the second implementation", second_hours, second_hour, second_session_hours, second_session};

/* ---- A table that is lent, and one that is expected ---- */

enum { ENTRIES = POTMEANDER_ENTRIES, HOURS = POTMEANDER_HOURS, JUNK = 0x5A5A5A5A };

static uint32_t events[ENTRIES], gaps[ENTRIES];

static void put_junk(void)
{
    for (unsigned i = 0; i < ENTRIES; i++) events[i] = gaps[i] = JUNK;
}

/* An entry that is not 0 in a table; a list ends with one that has no events. */
typedef struct {
    unsigned instance, hour;
    uint32_t events, gap;
} tallied;

/* All 768 are those of the list, and else `others`. */
static bool table_is(const tallied *list, uint32_t others)
{
    static uint32_t want_events[ENTRIES], want_gaps[ENTRIES];
    for (unsigned i = 0; i < ENTRIES; i++) want_events[i] = want_gaps[i] = others;
    for (; list->events > 0; list++) {
        want_events[list->instance * HOURS + list->hour] = list->events;
        want_gaps[list->instance * HOURS + list->hour] = list->gap;
    }
    return memcmp(events, want_events, sizeof events) == 0 && memcmp(gaps, want_gaps, sizeof gaps) == 0;
}

static bool said(const char *what, const char *name, bool good)
{
    if (!good) printf("BY HAND, %s: wrong by %s\n", what, name);
    return good;
}

/* ---- By hand: a log in hexadecimal, and its table; or a part of it ---- */

/* Events of instance 0 and an answer: at tick 0, at both ends of hour 0, at the first of hour 1, at the last of the table. */
#define EV_0 "4556 00000000 00 04 0191 "
#define EV_1 "4556 00000001 00 04 0191 "
#define EV_72000 "4556 00011940 00 05 0191 "
#define EV_72001 "4556 00011941 00 04 0191 "
#define EV_LAST "4556 0034BC00 00 04 0191 "
#define EV_BEYOND "4556 0034BC01 00 04 0191 "
#define AN_72001 "414E 00011941 00 5E "
#define AN_BEYOND "414E 0034BC01 00 5E "

typedef struct {
    const char *what, *log;
    second_tally tally;
    tallied table[5];
} log_vector;

static const log_vector LOGS[] = {
    {"empty", "", {0, 0}, {{0}}},
    {"both ends of an hour", EV_1 EV_72000 EV_72001, {0, 30}, {{0, 0, 2, 71999}, {0, 1, 1, 1}}},
    {"tick 0", EV_0 EV_72000, {0, 20}, {{0, 0, 1, 72000}}},
    {"first gap", EV_72001, {0, 10}, {{0, 1, 1, 72001}}},
    {"the whole table", EV_LAST, {0, 10}, {{0, 47, 1, 3456000}}},
    {"equal ticks", EV_72000 EV_72000 AN_72001, {0, 28}, {{0, 0, 2, 72000}}},
    {"last instance, and above", "4556 00000007 0F 04 0191 4556 00000008 10 04 0191 4556 00000009 1F 04 0191", {0, 30},
     {{15, 0, 1, 7}}},
    {"two instances", EV_1 "4556 00000005 01 04 0191 4556 00000064 01 04 0191" EV_72001, {0, 40},
     {{0, 0, 1, 1}, {0, 1, 1, 72000}, {1, 0, 2, 95}}},
    {"answers alone", AN_72001 AN_72001, {0, 16}, {{0}}},
    {"falls by one", EV_72001 EV_72000 EV_72001, {16, 10}, {{0}}},
    {"falls at an answer", EV_LAST AN_72001 EV_LAST, {16, 10}, {{0}}},
    {"beyond", EV_1 EV_BEYOND EV_BEYOND, {10, 10}, {{0}}},
    {"beyond, an answer", EV_LAST AN_BEYOND, {10, 10}, {{0}}},
    {"beyond, and falls behind it", EV_BEYOND EV_LAST, {16, 10}, {{0}}},
    {"falls, and a mark that is none behind it", EV_72001 EV_1 "544B 0001", {1, 20}, {{0}}},
    {"beyond, and cut behind it", EV_BEYOND "4556 0034BC01 00 04 01", {2, 10}, {{0}}},
};

enum { LOGS_COUNT = sizeof LOGS / sizeof LOGS[0], VECTOR_MAX = 64 };

typedef struct {
    const char *what, *log;
    uint64_t hour;
    second_part part;
} part_vector;

static const part_vector PARTS[] = {
    {"empty log", "", 0, {0, 0, 0}},
    {"first hour", EV_0 EV_1 EV_72000 EV_72001, 0, {0, 10, 20}},
    {"second hour", EV_1 EV_72000 EV_72001 AN_72001 EV_LAST, 1, {0, 20, 18}},
    {"an answer alone", EV_1 AN_72001 EV_LAST, 1, {0, 10, 8}},
    {"last hour", EV_1 EV_LAST AN_BEYOND, 47, {0, 10, 10}},
    {"empty, before a later one", EV_1 AN_72001 EV_LAST, 5, {0, 18, 0}},
    {"empty, at the start", AN_72001 EV_LAST, 0, {0, 0, 0}},
    {"empty, behind tick 0", EV_0 EV_LAST, 0, {0, 10, 0}},
    {"empty, at the end", EV_1 AN_72001, 2, {0, 18, 0}},
    {"empty, before one beyond", EV_1 EV_BEYOND, 47, {0, 10, 0}},
    {"hour 48", EV_1 EV_BEYOND, 48, {10, 20, 0}},
    {"hour 2^32", EV_1, (uint64_t)1 << 32, {10, 10, 0}},
    {"hour 48 of a bad log", "58", 48, {10, 1, 0}},
    {"cut behind the hour", EV_1 EV_72001 "41", 0, {2, 21, 0}},
    {"bad mark, and falls before it", EV_72001 EV_1 "4145", 0, {1, 22, 0}},
    {"falls behind the hour", EV_1 EV_LAST AN_72001, 0, {16, 28, 0}},
};

enum { PARTS_COUNT = sizeof PARTS / sizeof PARTS[0] };

static unsigned digit(char c)
{
    return (unsigned)(c <= '9' ? c - '0' : c - 'A' + 10);
}

/* Two digits to a byte; blanks stand between bytes. */
static size_t read_hex(const char *text, uint8_t *bytes)
{
    size_t len = 0;
    while (*text != 0) {
        if (*text == ' ') {
            text++;
            continue;
        }
        bytes[len++] = (uint8_t)(digit(text[0]) << 4 | digit(text[1]));
        text += 2;
    }
    return len;
}

static bool tallies_well(tabling which, const log_vector *v)
{
    uint8_t log[VECTOR_MAX];
    size_t len = read_hex(v->log, log);
    put_junk();
    second_tally t = which.hours(log, len, events, ENTRIES, gaps, ENTRIES);
    bool good = same_tally(t, v->tally) && table_is(v->table, t.number == 0 ? 0 : JUNK);
    if (!good) print_tally(which.name, t);
    return said(v->what, which.name, good);
}

static bool parts_well(tabling which, const part_vector *v)
{
    uint8_t log[VECTOR_MAX];
    size_t len = read_hex(v->log, log);
    second_part p = which.hour(log, len, v->hour);
    if (!same_part(p, v->part)) print_part(which.name, v->hour, p);
    return said(v->what, which.name, same_part(p, v->part));
}

/* ---- By hand: sessions to the end of the table, with one light that sends where its value changes ---- */

/* Resolution 8, dead time and report 0 (each set by a frame that comes twice: M-105), value 200; and then TKs that leave 48,180
 * ticks up to 3,456,000. */
#define DEADTIME "4652 01 00 32 "
#define REPORT "4652 01 00 30 "
#define BEGINNING "494E 00 04 08 4652 C1 30 00 " DEADTIME DEADTIME REPORT REPORT "5341 00 00 0000C8 "
#define TK_REST "544B BC34 "
#define TK_REST_1 "544B BC35 "
#define TK_1 "544B 0001 "
#define VALUE_10 "5341 00 00 00000A "

enum { FULL_TKS = 52, SESSION_MOST = 300, ROOM = 64 };

typedef struct {
    const char *what, *rest; /* what follows that */
    size_t room;
    second_reading reading; /* its offset from where the rest begins */
    tallied table[3];
} session_vector;

static const session_vector SESSIONS[] = {
    {"to the last tick", TK_REST, ROOM, {0, 4, 10, 0}, {{0, 0, 1, 1}}},
    {"one beyond", TK_REST_1, ROOM, {10, 0, 10, 0}, {{0, 0, 1, 1}}},
    {"the next beyond", TK_REST TK_1 "58", ROOM, {10, 4, 10, 0}, {{0, 0, 1, 1}}},
    {"count 0 at the last tick", TK_REST "544B 0000", ROOM, {7, 4, 10, 0}, {{0, 0, 1, 1}}},
    {"an event at the last tick", "544B BC33" VALUE_10 TK_1, ROOM, {0, 15, 20, 0}, {{0, 0, 1, 1}, {0, 47, 1, 3455999}}},
    {"an answer at the last tick", TK_REST "4652 01 00 80" TK_1, ROOM, {10, 9, 18, 0}, {{0, 0, 1, 1}}},
    {"no room, and not beyond", VALUE_10 TK_REST, 19, {9, 7, 10, 0}, {{0, 0, 1, 1}}},
    {"no room, and beyond", VALUE_10 TK_REST_1, 19, {10, 7, 10, 0}, {{0, 0, 1, 1}}},
    {"no room a tick later, and beyond", TK_1 VALUE_10 TK_REST, 19, {10, 11, 10, 0}, {{0, 0, 1, 1}}},
    {"no room at all", "", 0, {9, 0, 0, 0}, {{0}}},
};

enum { SESSIONS_COUNT = sizeof SESSIONS / sizeof SESSIONS[0] };

static size_t begin_session(uint8_t *session)
{
    size_t len = read_hex(BEGINNING, session);
    for (unsigned i = 0; i < FULL_TKS; i++) len += read_hex("544B FFFF", session + len);
    return len;
}

static bool reads_well(tabling which, const session_vector *v)
{
    uint8_t session[SESSION_MOST], log[ROOM];
    size_t begun = begin_session(session), len = begun + read_hex(v->rest, session + begun);
    second_reading want = v->reading;
    want.offset += v->room > 0 ? begun : begun - 4 * FULL_TKS;
    put_junk();
    second_reading r = which.session_hours(session, len, log, v->room, events, ENTRIES, gaps, ENTRIES);
    bool good = same_reading(r, want) && table_is(v->table, 0);
    if (!good) print_reading(which.name, r);
    return said(v->what, which.name, good);
}

static bool vectors_agree(tabling which)
{
    bool good = true;
    for (unsigned i = 0; i < LOGS_COUNT; i++) good = tallies_well(which, &LOGS[i]) && good;
    for (unsigned i = 0; i < PARTS_COUNT; i++) good = parts_well(which, &PARTS[i]) && good;
    for (unsigned i = 0; i < SESSIONS_COUNT; i++) good = reads_well(which, &SESSIONS[i]) && good;
    return good;
}

/* ---- What the header says beside: null with length 0; and a log of a megabyte ---- */

static bool nulls_agree(void)
{
    static const uint8_t event[] = {'E', 'V', 0, 0, 0, 1, 0, 4, 1, 0x91};
    second_tally none = {0, 0}, one = {0, sizeof event};
    second_part empty = {0, 0, 0}, refused = {POTMEANDER_BEYOND_TABLE, 0, 0};
    put_junk();
    bool good = same_tally(FIRST.hours(NULL, 0, NULL, 0, NULL, 0), none) &&
                same_tally(FIRST.hours(event, sizeof event, NULL, 0, NULL, 0), one) &&
                same_part(FIRST.hour(NULL, 0, 0), empty) && same_part(FIRST.hour(NULL, 0, 48), refused) &&
                same_reading(FIRST.session_hours(NULL, 0, NULL, 0, NULL, 0, NULL, 0), (second_reading){0, 0, 0, 0});
    good = good && table_is((const tallied[]){{0}}, JUNK);
    good = good && same_tally(FIRST.hours(NULL, 0, events, ENTRIES, gaps, ENTRIES), none) && table_is((const tallied[]){{0}}, 0);
    return said("null with length 0", FIRST.name, good);
}

enum { LONG_RECORDS = 100000, EV_SIZE = 10, HOUR_TICKS = 72000 };

static uint8_t long_log[LONG_RECORDS * EV_SIZE];

static void put_event(uint8_t *to, uint32_t tick)
{
    memcpy(to, (const uint8_t[]){'E', 'V', 0, 0, 0, 0, 0, 4, 1, 0x91}, EV_SIZE);
    for (unsigned i = 0; i < 4; i++) to[2 + i] = (uint8_t)(tick >> (24 - 8 * i));
}

/* An event at each tick: more in an hour than 16 bits hold. */
static bool long_log_agrees(tabling which)
{
    const size_t len = sizeof long_log, hour_len = (size_t)HOUR_TICKS * EV_SIZE;
    const tallied table[] = {{0, 0, HOUR_TICKS, 1}, {0, 1, LONG_RECORDS - HOUR_TICKS, 1}, {0}};
    second_part second_hour_of_it = {0, hour_len, len - hour_len}, third = {0, len, 0};
    for (uint32_t i = 0; i < LONG_RECORDS; i++) put_event(long_log + i * EV_SIZE, i + 1);
    put_junk();
    bool good = same_tally(which.hours(long_log, len, events, ENTRIES, gaps, ENTRIES), (second_tally){0, len});
    good = good && table_is(table, 0);
    good = good && same_part(which.hour(long_log, len, 1), second_hour_of_it) && same_part(which.hour(long_log, len, 2), third);
    return said("a megabyte", which.name, good);
}

/* ---- From a seed ---- */

static bool cases_agree(uint64_t seed, uint64_t count, char profile)
{
    for (uint64_t i = 0; i < count; i++) {
        table_case c = generate_table(seed + i, profile);
        if (tables_agree(&c, FIRST, SECOND)) continue;
        print_table_difference(&c, FIRST, SECOND);
        return false;
    }
    return true;
}

static bool is_profile(const char *text)
{
    return text[0] >= 'a' && text[0] <= TABLES_LAST_PROFILE && text[1] == 0;
}

int main(int argc, char **argv)
{
    if (argc < 3 || argc > 4 || (argc == 4 && !is_profile(argv[3]))) {
        printf("usage: tables SEED COUNT [PROFILE a to %c]\n", TABLES_LAST_PROFILE);
        return 2;
    }
    uint64_t seed = strtoull(argv[1], NULL, 10), count = strtoull(argv[2], NULL, 10);
    char profile = argc == 4 ? argv[3][0] : 0;
    if (!vectors_agree(SECOND) || !vectors_agree(FIRST)) return 1;
    printf("%u tables, %u parts, %u sessions by hand: no difference\n", (unsigned)LOGS_COUNT, (unsigned)PARTS_COUNT,
           (unsigned)SESSIONS_COUNT);
    if (!nulls_agree() || !long_log_agrees(SECOND) || !long_log_agrees(FIRST)) return 1;
    printf("null with length 0, a megabyte: no difference\n");
    if (!cases_agree(seed, count, profile)) return 1;
    printf("%lu cases, seeds %lu to %lu, %s: no difference\n", (unsigned long)count, (unsigned long)seed,
           (unsigned long)(seed + count - 1), profile ? argv[3] : "all profiles");
    return 0;
}
