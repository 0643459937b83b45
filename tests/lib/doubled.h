/* A session of document 01, in which a setting frame comes once, as M-105 wants it: with each of them twice in a row. */
#ifndef DOUBLED_H
#define DOUBLED_H

#include <stdbool.h>
#include <stddef.h>
#include <stdint.h>

enum { DOUBLED_INSTANCES = 16 };

/* What is declared, to know which frames set something. All 0 before a session's first part; a second part goes on with what the
 * first one left. */
typedef struct {
    unsigned declared;
    struct {
        uint8_t type;
        bool movement_based; /* by IM */
    } instance[DOUBLED_INSTANCES];
} doubled_device;

/* Writes the session to `doubled`, which holds twice as many bytes. Its first `taken` bytes are records that are taken: each
 * setting frame of them, one that counts for a declared instance and is a setting command of its type, is written twice. The rest,
 * from a refused or cut record on, is written as it is. Gives where the rest begins. */
size_t double_session(doubled_device *device, const uint8_t *session, size_t session_len, size_t taken, uint8_t *doubled);

#endif
