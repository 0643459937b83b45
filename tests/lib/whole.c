#include "whole.h"

#include <unistd.h>

static uint8_t buffer[WHOLE_MAX + 1];

bool read_whole(const uint8_t **bytes, size_t *count)
{
    *bytes = buffer;
    *count = 0;
    while (*count < sizeof buffer) {
        long got = read(0, buffer + *count, sizeof buffer - *count);
        if (got <= 0) return got == 0;
        *count += (size_t)got;
    }
    return false;
}

bool write_whole(const uint8_t *bytes, size_t count)
{
    while (count > 0) {
        long put = write(1, bytes, count);
        if (put <= 0) return false;
        bytes += put;
        count -= (size_t)put;
    }
    return true;
}
