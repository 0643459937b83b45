/* A program that says what the model's says of a session taken whole, behind another line, and then does not come to its end. */
#include <stdio.h>

int main(void)
{
    dprintf(2, "a line before it\npotmeander: 3 records, 16 bytes read; 1 tick; 10 bytes logged");
    __builtin_trap();
}
