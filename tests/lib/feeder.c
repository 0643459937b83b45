/* Standard input to standard output, a pipe, in pieces of 1, 2, .. MOST bytes and then of 1 again: whoever reads the pipe gets them one by
 * one.
 *   feeder MOST */
#include "whole.h"

#include <fcntl.h>
#include <stdlib.h>
#include <unistd.h>

int main(int argc, char **argv)
{
    const uint8_t *bytes;
    size_t count;
    if (argc != 2 || !read_whole(&bytes, &count)) return 2;
    size_t most = (size_t)strtoull(argv[1], NULL, 10);

    /* In packet mode a read gives what one write gave, and does not join two. */
    if (fcntl(1, F_SETFL, O_DIRECT) != 0) return 2;
    size_t at = 0;
    for (size_t piece = 1; at < count; piece = piece < most ? piece + 1 : 1) {
        size_t size = piece < count - at ? piece : count - at;
        if (write(1, bytes + at, size) != (long)size) return 2;
        at += size;
    }
    return 0;
}
