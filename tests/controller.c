/* A bench controller in twenty lines: document 01's full session, read through the header, and its log in hexadecimal; with room enough, and
 * with too little. */
#include "potmeander.h"

#include <stdio.h>

static const uint8_t session[] = {0x49, 0x4E, 0x00, 0x04, 0x08,             /* IN: instance 0 is light with resolution 8 */
                                  0x53, 0x41, 0x00, 0x00, 0x00, 0x00, 0x64, /* SA: it measures 100 */
                                  0x54, 0x4B, 0x00, 0x01,                   /* TK: one tick */
                                  0x53, 0x41, 0x00, 0x00, 0x00, 0x00, 0x5E, /* SA: it measures 94 */
                                  0x54, 0x4B, 0x00, 0x28,                   /* TK: forty ticks */
                                  0x46, 0x52, 0x01, 0x00, 0x8C};            /* FR: query its input value */

static void read_with(size_t room)
{
    uint8_t log[400];
    potmeander_reading r = potmeander_session(session, sizeof session, log, room);
    printf("number %lu, offset %lu, written %lu, ticks %lu\n", r.number, r.offset, r.written, r.ticks);
    for (uint64_t i = 0; i < r.written; i++) printf("%02X%s", log[i], i + 1 < r.written ? " " : "\n");
}

int main(void)
{
    read_with(400);
    read_with(15); /* the second event does not fit: 9, at the thirtieth of the forty ticks */
    return 0;
}
