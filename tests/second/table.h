/* The second implementation of request M-106, the hour table, for comparison with the library: naive, record by record, from the
 * words of documents 01 and 02. */
#ifndef TABLE_H
#define TABLE_H

#include "second.h"

typedef struct {
    uint64_t number; /* by which the log is refused: 1, 2, 16 or 10; 0: it is not */
    uint64_t offset; /* of the refused record; for 0 the log's length */
} second_tally;

typedef struct {
    uint64_t number;      /* 10, 1, 2 or 16; 0: the log has that part */
    uint64_t offset, len; /* refused: the log's length, and 0 */
} second_part;

/* The table of a log: instance i and hour k have entry i * 48 + k. */
second_tally second_hours(const uint8_t *log, size_t log_len, uint32_t *events, size_t events_len, uint32_t *gaps,
                          size_t gaps_len);

/* The part of a log that holds one hour. */
second_part second_hour(const uint8_t *log, size_t log_len, uint64_t hour);

/* Reads a whole session from a fresh model with the table in use. */
second_reading second_session_hours(const uint8_t *session, size_t session_len, uint8_t *log, size_t log_len, uint32_t *events,
                                    size_t events_len, uint32_t *gaps, size_t gaps_len);

#endif
