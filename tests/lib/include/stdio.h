#ifndef TESTS_STDIO_H
#define TESTS_STDIO_H

#ifdef __cplusplus
extern "C" {
#endif

int dprintf(int descriptor, const char *format, ...) __attribute__((format(printf, 2, 3)));
int printf(const char *format, ...) __attribute__((format(printf, 1, 2)));

#ifdef __cplusplus
}
#endif

#endif
