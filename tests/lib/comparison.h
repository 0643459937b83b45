/* One case read by two implementations, and what of it differs. */
#ifndef COMPARISON_H
#define COMPARISON_H

#include "../second/second.h"
#include "generator.h"

#include <stdbool.h>

/* The second implementation's call on a model's state: second_read, or second_in_pieces. */
typedef second_reading (*second_reader)(second_model *model, const uint8_t *session, size_t session_len, uint8_t *log,
                                        size_t log_len);

/* A case as the second implementation reads it: its first part, and then the rest from the model that was left. */
second_reading second_case(const test_case *c, second_reader read, uint8_t *log, size_t log_len);

/* An implementation, as it reads a whole case into a lent log. */
typedef second_reading (*reader)(const test_case *c, uint8_t *log, size_t log_len);

typedef struct {
    const char *name;
    reader read;
} implementation;

/* Whether the two agree: number, offset, bytes written, ticks, each byte of the lent output and each byte about it. */
bool agree(const test_case *c, implementation left, implementation right);

/* Prints how the last case that was compared differs. */
void print_difference(const test_case *c, implementation left, implementation right);

#endif
