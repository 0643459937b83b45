#ifndef TESTS_STRING_H
#define TESTS_STRING_H

#include <stddef.h>

int strcmp(const char *a, const char *b);
int memcmp(const void *a, const void *b, size_t count);
void *memcpy(void *to, const void *from, size_t count);
void *memmove(void *to, const void *from, size_t count);
void *memset(void *to, int byte, size_t count);

#endif
