/* Shows that the comparison of hour tables bites: each wrong table, and each wrong session with one, of second/table_faults.h must
 * be told apart from the right one by the generator's cases.
 *   tables_bite SEED COUNT      at most COUNT cases for each
 * Ends with status 1 if one was not told apart. */
#include "lib/tables.h"
#include "lib/tallies.h"
#include "second/table.h"

#include <stdio.h>
#include <stdlib.h>

static const char *const FAULT_NAMES[] = {
    "none",
#define X(name, text) text,
    TABLE_FAULT_LIST(X)
#undef X
};

static int fault; /* the wrong one that is sought */

static second_tally hours_wrong(const uint8_t *log, size_t log_len, uint32_t *events, size_t events_len, uint32_t *gaps,
                                size_t gaps_len)
{
    table_fault = fault;
    second_tally t = second_hours(log, log_len, events, events_len, gaps, gaps_len);
    table_fault = TABLE_NO_FAULT;
    return t;
}

static second_part hour_wrong(const uint8_t *log, size_t log_len, uint64_t hour)
{
    table_fault = fault;
    second_part p = second_hour(log, log_len, hour);
    table_fault = TABLE_NO_FAULT;
    return p;
}

static second_reading session_hours_wrong(const uint8_t *session, size_t session_len, uint8_t *log, size_t log_len,
                                          uint32_t *events, size_t events_len, uint32_t *gaps, size_t gaps_len)
{
    table_fault = fault;
    second_reading r = second_session_hours(session, session_len, log, log_len, events, events_len, gaps, gaps_len);
    table_fault = TABLE_NO_FAULT;
    return r;
}

static second_reading session_wrong(const uint8_t *session, size_t session_len, uint8_t *log, size_t log_len)
{
    table_fault = fault;
    second_reading r = second_session(session, session_len, log, log_len);
    table_fault = TABLE_NO_FAULT;
    return r;
}

static const tabling RIGHT = {"right", second_hours, second_hour, second_session_hours, second_session},
                     WRONG = {"wrong", hours_wrong, hour_wrong, session_hours_wrong, session_wrong};

/* How many cases it takes to tell the fault apart; 0 where COUNT do not. */
static uint64_t cases_needed(uint64_t seed, uint64_t count)
{
    for (uint64_t i = 0; i < count; i++) {
        table_case c = generate_table(seed + i, 0);
        if (tables_agree(&c, WRONG, RIGHT)) continue;
        printf("%3d  seed %5lu  profile %c  %s\n", fault, (unsigned long)c.seed, c.profile, FAULT_NAMES[fault]);
        return i + 1;
    }
    printf("%3d  NOT TOLD APART  %s\n", fault, FAULT_NAMES[fault]);
    return 0;
}

int main(int argc, char **argv)
{
    if (argc != 3) {
        printf("usage: tables_bite SEED COUNT\n");
        return 2;
    }
    uint64_t seed = strtoull(argv[1], NULL, 10), count = strtoull(argv[2], NULL, 10), most = 0;
    int missed = 0;
    for (fault = 1; fault < TABLE_FAULTS_END; fault++) {
        uint64_t needed = cases_needed(seed, count);
        missed += needed == 0;
        if (needed > most) most = needed;
    }
    printf("%d of %d wrong tables told apart, each within %lu cases\n", TABLE_FAULTS_END - 1 - missed, TABLE_FAULTS_END - 1,
           (unsigned long)most);
    return missed > 0;
}
