/* The second implementation of request M-102, two logs side by side, for comparison with the library: naive, record by
 * record, from the words of documents 01 and 02. */
#ifndef COMPARED_H
#define COMPARED_H

#include <stddef.h>
#include <stdint.h>

typedef struct {
    uint64_t number;        /* by which a record of a log is refused: 1 bad mark, 2 cut record; 0: none is */
    uint64_t refused;       /* for 1 and 2 whose log has that record, 0 the device's, 1 the model's; else 0 */
    uint64_t device_offset; /* of the differing record; where none differs the bytes walked; for 1 and 2 of the */
    uint64_t model_offset;  /* refused record in its own log, and 0 in the other */
    uint64_t field;         /* 0 none differs, 1 mark, 2 tick, 3 instance, 4 priority, 5 information, 6 answer */
    int64_t difference;     /* the device's tick minus the model's, of the differing pair; where there is none 0 */
    uint64_t all;           /* 1: the records equal up to there were all there were */
    uint64_t rest_of;       /* whose rest is handed back: 0 the device's, 1 the model's */
    uint64_t rest_offset, rest_len;
} second_finding;

second_finding second_compare(const uint8_t *device, size_t device_len, const uint8_t *model, size_t model_len);

#ifdef SECOND_FAULTS
#include "compared_faults.h"
extern int compared_fault; /* the wrong comparison that is played: 0 none, else one of compared_faults.h */
#endif

#endif
