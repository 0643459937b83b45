#ifndef TESTS_UNISTD_H
#define TESTS_UNISTD_H

#include <stddef.h>

long read(int descriptor, void *to, size_t count);
long write(int descriptor, const void *from, size_t count);

#endif
