#ifndef TESTS_FCNTL_H
#define TESTS_FCNTL_H

int fcntl(int descriptor, int command, ...);
int open(const char *path, int flags, ...);

#define F_SETFL 4
#define O_DIRECT 040000
#define O_NOCTTY 0400
#define O_RDWR 02

#endif
