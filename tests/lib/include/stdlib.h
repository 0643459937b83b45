#ifndef TESTS_STDLIB_H
#define TESTS_STDLIB_H

#include <stddef.h>

int grantpt(int terminal);
void *malloc(size_t size);
int posix_openpt(int flags);
char *ptsname(int terminal);
unsigned long long strtoull(const char *text, char **end, int base);
int unlockpt(int terminal);

#endif
