/* The second implementation of the bench model, for comparison with the library: naive, tick by tick, from the words of documents
 * 01 and 02, and of 003 for colour. The state is a plain struct, so that a reading can go on from where an earlier one left it. */
#ifndef SECOND_H
#define SECOND_H

#include <stdbool.h>
#include <stddef.h>
#include <stdint.h>

enum { SECOND_INSTANCES = 16 };

typedef struct {
    uint64_t number;  /* by which a record was not taken; 0: all records taken */
    uint64_t offset;  /* of the refused record; for number 0 the session's length */
    uint64_t written; /* bytes of log */
    uint64_t ticks;   /* of the refused record carried out; 0 but for number 9 */
} second_reading;

typedef struct {
    uint8_t status;
    uint32_t value;
} second_sample;

typedef struct {
    uint8_t type, resolution;
    bool old_rule;       /* light declared by LO: its band is on inputValue (02, M-107) */
    bool movement_based; /* occupancy declared by IM: its value is made of movement and a hold timer (02, M-100) */

    uint8_t report, deadtime, filter, priority, hysteresis, hysteresis_min, hold; /* settings */
    bool enabled;

    second_sample held; /* the latest SA; it is taken at the next tick */
    bool had_valid;     /* an SA with status 0 was taken */
    uint8_t status;     /* taken at the last tick */
    uint32_t measured;  /* the value of the last tick with status 0; movement-based, the value that was made there */

    uint32_t dead_left; /* ticks of dead time that remain */
    bool report_started;
    uint32_t report_left; /* ticks until the report is due */

    bool band; /* light */
    uint32_t low, high;

    uint32_t last; /* colour: the value at the last event that its change was a cause of; 0, black, where there is none */
    unsigned colour_band; /* a change above it is a cause */

    uint8_t waiting; /* occupancy: the triggers that wait */

    bool hold_started; /* movement-based: the hold timer runs, or has run out and waits for a tick with status 0 */
    uint32_t hold_left; /* ticks until it expires */
    bool cancelled;     /* it expires at the next tick */
    bool catching;

    uint32_t latched; /* inputValue as query 8C found it */
    uint8_t latched_left; /* its bytes that query 8D has not given yet */
} second_instance;

/* A frame that acts if it comes again, "with no frame between, no more than 2 ticks later" (02, M-105) */
typedef struct {
    bool remembered;
    uint8_t frame[3];
    uint32_t tick; /* the tick number when it came */
} second_first;

typedef struct {
    uint32_t tick;
    uint8_t dtr0;
    second_first first;
    uint8_t declared;
    bool others_read;  /* a record of another kind than IN, LO and IM was taken */
    bool table_in_use; /* the hour table (02, M-106): number 10 is given; not so in a fresh model */
    second_instance instance[SECOND_INSTANCES];
} second_model;

void second_fresh(second_model *model);

/* Reads a session from the model's state and leaves the state reached in it. */
second_reading second_read(second_model *model, const uint8_t *session, size_t session_len, uint8_t *log, size_t log_len);

/* Reads a whole session from a fresh model. */
second_reading second_session(const uint8_t *session, size_t session_len, uint8_t *log, size_t log_len);

#ifdef SECOND_FAULTS
#include "faults.h"
#include "table_faults.h"
extern int second_fault; /* the wrong model that is played: 0 none, else one of faults.h */
extern int table_fault;  /* the wrong table or session with one: 0 none, else one of table_faults.h */
#endif

#endif
