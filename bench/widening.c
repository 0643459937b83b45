/* One widening by itself, over and over, whose cost is measured from outside.
 *   widening first|second TIMES
 * first is the proved library's, second the plain C implementation's: a value of 9 bits to 16, as a query shows it. */
#include "second/second.c"

#include <stdio.h>
#include <stdlib.h>

/* From the crate that bench/run.sh makes. */
uint32_t library_widened(uint32_t value, uint8_t resolution, uint8_t wide);

static uint32_t plain_widened(uint32_t value, uint8_t resolution, uint8_t wide)
{
    return widen(value, resolution, wide);
}

int main(int argc, char **argv)
{
    if (argc != 3) {
        printf("usage: widening first|second TIMES\n");
        return 2;
    }
    /* Volatile, so that neither is inlined where it is called. */
    uint32_t (*volatile widened)(uint32_t, uint8_t, uint8_t) = strcmp(argv[1], "first") == 0 ? library_widened : plain_widened;
    uint32_t sum = 0;
    for (unsigned long left = (unsigned long)strtoull(argv[2], NULL, 10); left > 0; left--) sum += widened((uint32_t)left % 256, 9, 16);
    printf("sum %lu\n", (unsigned long)sum);
    return 0;
}
