#include "findings.h"

#include <stdio.h>
#include <string.h>

/* Each lent log lies between two margins, that a write outside it is seen, and at any of eight places. */
enum { MARGIN = 64, PLACES = 8, HELD = MARGIN + PAIRS_LOG_MAX + PLACES + MARGIN };
enum { EV_SIZE = 10, AN_SIZE = 8, BYTES_SHOWN = 400 };

typedef struct {
    uint8_t device[HELD], model[HELD];
} held_pair;

/* What came of a pair: of the two apart, and of the two in the same bytes where they can be. */
typedef struct {
    second_finding apart, in_one;
    bool kept;
} outcome;

static outcome left_outcome, right_outcome;

/* ---- Comparing ---- */

bool same_finding(second_finding a, second_finding b)
{
    return a.number == b.number && a.refused == b.refused && a.device_offset == b.device_offset &&
           a.model_offset == b.model_offset && a.field == b.field && a.difference == b.difference && a.all == b.all &&
           a.rest_of == b.rest_of && a.rest_offset == b.rest_offset && a.rest_len == b.rest_len;
}

/* A pattern that begins no record, and in it the log. */
static const uint8_t *lay(uint8_t *held, const uint8_t *log, size_t len, uint64_t place)
{
    for (size_t i = 0; i < HELD; i++) held[i] = (uint8_t)(0x80 | i * 7);
    return memcpy(held + MARGIN + place % PLACES, log, len);
}

static bool one_starts_the_other(const log_pair *p)
{
    return memcmp(p->device, p->model, p->device_len < p->model_len ? p->device_len : p->model_len) == 0;
}

static outcome compare_with(const log_pair *p, comparing which)
{
    static held_pair held, before;
    const uint8_t *device = lay(held.device, p->device, p->device_len, p->seed);
    const uint8_t *model = lay(held.model, p->model, p->model_len, p->seed / PLACES);
    const uint8_t *longer = p->device_len > p->model_len ? device : model;
    memcpy(&before, &held, sizeof held);
    outcome o = {.apart = which.compare(device, p->device_len, model, p->model_len)};
    o.in_one = one_starts_the_other(p) ? which.compare(longer, p->device_len, longer, p->model_len) : o.apart;
    o.kept = memcmp(&before, &held, sizeof held) == 0;
    return o;
}

bool findings_agree(const log_pair *p, comparing left, comparing right)
{
    left_outcome = compare_with(p, left);
    right_outcome = compare_with(p, right);
    return left_outcome.kept && right_outcome.kept && same_finding(left_outcome.apart, right_outcome.apart) &&
           same_finding(left_outcome.in_one, right_outcome.in_one) &&
           same_finding(left_outcome.apart, left_outcome.in_one);
}

/* ---- Printing ---- */

void print_finding(const char *name, second_finding f)
{
    printf("%s: number %lu, refused %lu, ", name, (unsigned long)f.number, (unsigned long)f.refused);
    printf("offsets %lu and %lu, ", (unsigned long)f.device_offset, (unsigned long)f.model_offset);
    printf("field %lu, difference %ld, all %lu, ", (unsigned long)f.field, (long)f.difference, (unsigned long)f.all);
    printf("rest of %lu from %lu, %lu bytes\n", (unsigned long)f.rest_of, (unsigned long)f.rest_offset,
           (unsigned long)f.rest_len);
}

static void print_outcome(const char *name, outcome o)
{
    print_finding(name, o.apart);
    if (!same_finding(o.apart, o.in_one)) print_finding("  with both logs in the same bytes", o.in_one);
    if (!o.kept) printf("  it changed bytes of a log, or about one\n");
}

/* A line for each record, as far as there are records. */
static void print_log(const char *name, const uint8_t *log, size_t len)
{
    printf("%s, %lu bytes:\n", name, (unsigned long)len);
    for (size_t at = 0, size; at < len && at < BYTES_SHOWN; at += size) {
        size = log[at] == 'A' ? AN_SIZE : EV_SIZE;
        printf("  %4lu:", (unsigned long)at);
        for (size_t i = at; i < at + size && i < len; i++) printf(" %02X", log[i]);
        printf("\n");
    }
    if (len > BYTES_SHOWN) printf("  and so on\n");
}

void print_pair_difference(const log_pair *p, comparing left, comparing right)
{
    printf("DIFFERENCE at seed %lu, profile %c\n", (unsigned long)p->seed, p->profile);
    print_outcome(left.name, left_outcome);
    print_outcome(right.name, right_outcome);
    print_log("the device's log", p->device, p->device_len);
    print_log("the model's log", p->model, p->model_len);
}
