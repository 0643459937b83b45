#include "doubled.h"

#include <string.h>

enum { OCCUPANCY = 3, LIGHT = 4, COLOUR = 5 };

static bool has_mark(const uint8_t *record, const char *mark)
{
    return memcmp(record, mark, 2) == 0;
}

/* Of a record that is taken. */
static size_t record_size(const uint8_t *record)
{
    return has_mark(record, "SA") ? 7 : has_mark(record, "TK") ? 4 : 5;
}

static bool declares(const uint8_t *record)
{
    return has_mark(record, "IN") || has_mark(record, "LO") || has_mark(record, "IM");
}

static void declare(doubled_device *device, const uint8_t *record)
{
    device->instance[device->declared].type = record[3];
    device->instance[device->declared].movement_based = has_mark(record, "IM");
    device->declared++;
}

/* "Setting commands are 61, 62, 63, 68 and the set opcodes 30 to 33 (light) and 22, 23 (occupancy)" (01, Frames); 21 of M-100, 40
 * to 43 of M-104 */
static bool is_setting(const doubled_device *device, unsigned number, uint8_t opcode)
{
    if (opcode == 0x61 || opcode == 0x62 || opcode == 0x63 || opcode == 0x68) return true;
    switch (device->instance[number].type) {
    case LIGHT: return opcode >= 0x30 && opcode <= 0x33;
    case COLOUR: return opcode >= 0x40 && opcode <= 0x43;
    default: return opcode == 0x22 || opcode == 0x23 || (opcode == 0x21 && device->instance[number].movement_based);
    }
}

static bool comes_twice(const doubled_device *device, const uint8_t *record)
{
    if (!has_mark(record, "FR") || (record[2] != 0x01 && record[2] != 0xFF) || record[3] >= device->declared) return false;
    return is_setting(device, record[3], record[4]);
}

size_t double_session(doubled_device *device, const uint8_t *session, size_t session_len, size_t taken, uint8_t *doubled)
{
    size_t written = 0, size;
    for (size_t at = 0; at < taken; at += size) {
        size = record_size(session + at);
        if (declares(session + at)) declare(device, session + at);
        for (unsigned times = comes_twice(device, session + at) ? 2 : 1; times > 0; times--) {
            memcpy(doubled + written, session + at, size);
            written += size;
        }
    }
    memcpy(doubled + written, session + taken, session_len - taken);
    return written;
}
