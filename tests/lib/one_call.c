/* A session on standard input read by the second implementation in one call, with room enough: its log goes to standard output, and to
 * standard error what the program would say of it, but for the words of a refusal. */
#include "../second/second.h"
#include "whole.h"

#include <stdio.h>

enum { LOG_MAX = 1 << 24 };

static uint8_t log_bytes[LOG_MAX];

static size_t record_size(const uint8_t *mark)
{
    switch (mark[0]) {
    case 'S': return 7;
    case 'T': return 4;
    default: return 5;
    }
}

/* The records in bytes that were taken. */
static uint64_t count_records(const uint8_t *session, uint64_t taken)
{
    uint64_t records = 0;
    for (uint64_t at = 0; at < taken; at += record_size(session + at)) records++;
    return records;
}

static const char *s(uint64_t n)
{
    return n == 1 ? "" : "s";
}

int main(void)
{
    const uint8_t *session;
    size_t count;
    if (!read_whole(&session, &count)) return 2;

    second_model model;
    second_fresh(&model);
    second_reading r = second_read(&model, session, count, log_bytes, LOG_MAX);
    if (r.number == 9) return 2;

    uint64_t records = count_records(session, r.offset);
    dprintf(2, "potmeander: %lu record%s, %lu byte%s read; %u tick%s; %lu byte%s logged", records, s(records), r.offset, s(r.offset),
            model.tick, s(model.tick), r.written, s(r.written));
    if (r.number != 0) dprintf(2, "; record refused at byte %lu: %lu", r.offset, r.number);
    dprintf(2, "\n");
    return write_whole(log_bytes, r.written) ? 0 : 2;
}
