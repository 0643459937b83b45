#ifndef TESTS_PTHREAD_H
#define TESTS_PTHREAD_H

typedef unsigned long pthread_t;

int pthread_create(pthread_t *thread, const void *attributes, void *(*start)(void *), void *argument);
int pthread_join(pthread_t thread, void **result);

#endif
