/* One log or session with its hour table by two implementations, and what of it differs. */
#ifndef TALLIES_H
#define TALLIES_H

#include "../second/table.h"
#include "tables.h"

/* An implementation: the table of a log, the part of one hour, a session with the table in use and one without. */
typedef struct {
    const char *name;
    second_tally (*hours)(const uint8_t *log, size_t log_len, uint32_t *events, size_t events_len, uint32_t *gaps, size_t gaps_len);
    second_part (*hour)(const uint8_t *log, size_t log_len, uint64_t hour);
    second_reading (*session_hours)(const uint8_t *session, size_t session_len, uint8_t *log, size_t log_len, uint32_t *events,
                                    size_t events_len, uint32_t *gaps, size_t gaps_len);
    second_reading (*session)(const uint8_t *session, size_t session_len, uint8_t *log, size_t log_len);
} tabling;

bool same_tally(second_tally a, second_tally b);
bool same_part(second_part a, second_part b);
bool same_reading(second_reading a, second_reading b);

/* Whether the two agree: each member of what they give; each entry of both tables, each byte of the log, and each about them. */
bool tables_agree(const table_case *c, tabling left, tabling right);

/* Prints how the last case that was compared differs. */
void print_table_difference(const table_case *c, tabling left, tabling right);

void print_tally(const char *name, second_tally t);
void print_part(const char *name, uint64_t hour, second_part p);
void print_reading(const char *name, second_reading r);

#endif
