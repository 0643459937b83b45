#include "comparison.h"

#include <stdio.h>
#include <string.h>

/* The lent output lies between two margins, that a write outside it is seen. */
enum { MARGIN = 64, HELD = MARGIN + GENERATOR_LOG_MAX + MARGIN };
enum { EV_SIZE = 10, AN_SIZE = 8, RECORDS_AROUND = 3, SESSION_RECORDS_SHOWN = 400 };

/* beforehand: what the output held before the reading that is compared */
static uint8_t beforehand[HELD], left_held[HELD], right_held[HELD];
static second_reading left_reading, right_reading;

/* ---- Reading ---- */

second_reading second_case(const test_case *c, second_reader read, uint8_t *log, size_t log_len)
{
    second_model model;
    second_fresh(&model);
    model.tick = c->start_tick;
    read(&model, c->session, c->before_len, log, log_len);
    return read(&model, c->session + c->before_len, c->session_len - c->before_len, log, log_len);
}

/* A pattern in which no two places near each other hold the same, and none begins a record; over it what the reading writes. */
static second_reading read_into(uint8_t *held, const test_case *c, implementation which)
{
    for (size_t i = 0; i < HELD; i++) held[i] = (uint8_t)(0x80 | i * 7);
    return which.read(c, held + MARGIN, c->log_len);
}

/* The case's first part alone. */
static test_case first_part(test_case c)
{
    c.session_len = c.before_len;
    c.before_len = 0;
    return c;
}

/* ---- Comparing ---- */

static bool same_reading(second_reading a, second_reading b)
{
    return a.number == b.number && a.offset == b.offset && a.written == b.written && a.ticks == b.ticks;
}

/* Bytes past the log, and about the output, keep what they held: the unwritten part is compared with that itself. */
static bool rest_kept(const uint8_t *held, uint64_t written)
{
    if (written > GENERATOR_LOG_MAX) return false;
    size_t rest = MARGIN + (size_t)written;
    return memcmp(held, beforehand, MARGIN) == 0 && memcmp(held + rest, beforehand + rest, HELD - rest) == 0;
}

bool agree(const test_case *c, implementation left, implementation right)
{
    const test_case first = first_part(*c);
    read_into(beforehand, &first, right);
    left_reading = read_into(left_held, c, left);
    right_reading = read_into(right_held, c, right);
    return same_reading(left_reading, right_reading) && memcmp(left_held, right_held, HELD) == 0 &&
           rest_kept(left_held, left_reading.written) && rest_kept(right_held, right_reading.written);
}

/* ---- Printing ---- */

static unsigned long number_at(const uint8_t *bytes, unsigned count)
{
    unsigned long number = 0;
    for (unsigned i = 0; i < count; i++) number = number << 8 | bytes[i];
    return number;
}

static size_t log_record_size(const uint8_t *record)
{
    return record[0] == 'A' ? AN_SIZE : EV_SIZE;
}

static void print_log_record(const uint8_t *r)
{
    if (r[0] == 'A') printf("AN tick %lu instance %u answer %02X", number_at(r + 2, 4), r[6], r[7]);
    else printf("EV tick %lu instance %u priority %u information %03lX", number_at(r + 2, 4), r[6], r[7], number_at(r + 8, 2));
}

/* An implementation may say that it wrote more than it can have. */
static size_t believable(uint64_t written)
{
    return written < GENERATOR_LOG_MAX ? (size_t)written : GENERATOR_LOG_MAX;
}

/* The record, if the log has it whole, with those before and after it. */
static void print_log_around(const char *name, const uint8_t *log, size_t written, unsigned record)
{
    printf("log of %s:\n", name);
    unsigned i = 0;
    for (size_t at = 0; at + log_record_size(log + at) <= written; at += log_record_size(log + at), i++) {
        if (i + RECORDS_AROUND < record || i > record + RECORDS_AROUND) continue;
        printf("  %s %u: ", i == record ? ">" : " ", i);
        print_log_record(log + at);
        printf("\n");
    }
    if (i <= record) printf("  > ends after %u records\n", i);
}

/* The number of the first log record that differs. */
static unsigned first_difference(const uint8_t *a, const uint8_t *b, size_t written)
{
    unsigned record = 0;
    for (size_t at = 0; at < written; at += log_record_size(a + at), record++)
        if (memcmp(a + at, b + at, log_record_size(a + at)) != 0) break;
    return record;
}

static size_t print_session_record(const uint8_t *r, size_t left)
{
    if (left >= 5 && (memcmp(r, "IN", 2) == 0 || memcmp(r, "LO", 2) == 0 || memcmp(r, "IM", 2) == 0))
        return printf("%.2s %u type %u resolution %u", (const char *)r, r[2], r[3], r[4]), 5;
    if (left >= 7 && memcmp(r, "SA", 2) == 0) return printf("SA %u status %u value %lu", r[2], r[3], number_at(r + 4, 3)), 7;
    if (left >= 5 && memcmp(r, "FR", 2) == 0) return printf("FR %02X %02X %02X", r[2], r[3], r[4]), 5;
    if (left >= 4 && memcmp(r, "TK", 2) == 0) return printf("TK %lu", number_at(r + 2, 2)), 4;
    for (size_t i = 0; i < left && i < 8; i++) printf("%02X ", r[i]);
    return left;
}

/* A session, up to its first record that cannot be read. */
static void print_session(const uint8_t *session, size_t session_len)
{
    size_t at = 0;
    for (unsigned shown = 0; at < session_len && shown < SESSION_RECORDS_SHOWN; shown++) {
        printf("  %5lu: ", (unsigned long)at);
        at += print_session_record(session + at, session_len - at);
        printf("\n");
    }
    if (at < session_len) printf("  and %lu bytes more\n", (unsigned long)(session_len - at));
}

static void print_case(const test_case *c)
{
    size_t session_len = c->session_len - c->before_len;
    printf("from tick %lu, output of %lu\n", (unsigned long)c->start_tick, (unsigned long)c->log_len);
    if (c->before_len > 0) printf("first part of %lu bytes:\n", (unsigned long)c->before_len);
    print_session(c->session, c->before_len);
    printf("session of %lu bytes:\n", (unsigned long)session_len);
    print_session(c->session + c->before_len, session_len);
}

static void print_reading(const char *name, second_reading r)
{
    printf("reading of %s: number %lu, offset %lu, written %lu, ticks %lu\n", name, (unsigned long)r.number,
           (unsigned long)r.offset, (unsigned long)r.written, (unsigned long)r.ticks);
}

static void print_rest(const char *name, const uint8_t *held, uint64_t written)
{
    if (!rest_kept(held, written)) printf("%s changed bytes outside its log\n", name);
}

void print_difference(const test_case *c, implementation left, implementation right)
{
    const uint8_t *a = left_held + MARGIN, *b = right_held + MARGIN;
    size_t a_written = believable(left_reading.written), b_written = believable(right_reading.written);
    unsigned record = first_difference(a, b, a_written > b_written ? a_written : b_written);
    printf("DIFFERENCE at seed %lu, profile %c, log record %u\n", (unsigned long)c->seed, c->profile, record);
    print_reading(left.name, left_reading);
    print_reading(right.name, right_reading);
    print_log_around(left.name, a, a_written, record);
    print_log_around(right.name, b, b_written, record);
    print_rest(left.name, left_held, left_reading.written);
    print_rest(right.name, right_held, right_reading.written);
    print_case(c);
}
