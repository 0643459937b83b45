/* A terminal for a test: prints the name of its end for a program, types Ctrl-D there, and holds it until its standard input ends. */
#include <fcntl.h>
#include <stdio.h>
#include <stdlib.h>
#include <unistd.h>

int main(void)
{
    int held = posix_openpt(O_RDWR | O_NOCTTY);
    if (held < 0 || grantpt(held) != 0 || unlockpt(held) != 0) return 1;
    const char *name = ptsname(held);
    if (name == NULL || open(name, O_RDWR | O_NOCTTY) < 0) return 1;
    if (write(held, "\004", 1) != 1) return 1;
    dprintf(1, "%s\n", name);
    return read(0, &(char){0}, 1) == 0 ? 0 : 1;
}
