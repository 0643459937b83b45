/* The C library's fixed-width numbers, as far as the tests use them, for a compiler that comes without headers (x86-64). */
#ifndef TESTS_STDINT_H
#define TESTS_STDINT_H

typedef unsigned char uint8_t;
typedef unsigned int uint32_t;
typedef unsigned long uint64_t;
typedef long int64_t;

#endif
