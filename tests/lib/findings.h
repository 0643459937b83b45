/* One pair of logs laid side by side by two implementations, and what of their findings differs. */
#ifndef FINDINGS_H
#define FINDINGS_H

#include "../second/compared.h"
#include "pairs.h"

#include <stdbool.h>

/* An implementation, as it compares two lent logs. */
typedef second_finding (*comparer)(const uint8_t *device, size_t device_len, const uint8_t *model, size_t model_len);

typedef struct {
    const char *name;
    comparer compare;
} comparing;

bool same_finding(second_finding a, second_finding b);

/* Whether the two agree: each member of the finding; and each byte of both logs, and about them, is what it was. Where
 * one log is a start of the other, they are compared again with both in the same bytes, with the same finding. */
bool findings_agree(const log_pair *p, comparing left, comparing right);

/* Prints how the last pair that was compared differs. */
void print_pair_difference(const log_pair *p, comparing left, comparing right);

void print_finding(const char *name, second_finding f);

#endif
