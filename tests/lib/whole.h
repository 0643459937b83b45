/* Standard input read to its end, and bytes written whole to standard output. */
#ifndef WHOLE_H
#define WHOLE_H

#include <stdbool.h>
#include <stddef.h>
#include <stdint.h>

enum { WHOLE_MAX = 1 << 23 };

/* False where there are more than WHOLE_MAX bytes, or a read fails. The bytes stand until the next call. */
bool read_whole(const uint8_t **bytes, size_t *count);

bool write_whole(const uint8_t *bytes, size_t count);

#endif
