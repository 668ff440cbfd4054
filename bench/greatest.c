/*
 * Writes the greatest run file: 65,536 bytes, whose sequence is the dearest found, with six read-back signals, and waits in
 * every instant.
 */
#include "dearest.h"

#include <stdio.h>

enum { FILE_LENGTH = 65536, LENGTH_BYTES = 2, SET_BYTES = 4, DEAREST_LOOPS = 18 };

int main(void)
{
    /* with two bytes of length, four of the set and four an instant no byte is over */
    struct builder b = dearest(0x05, DEAREST_LOOPS, 0, CAPACITY - LENGTH_BYTES);
    putchar((int)(b.length % 256));
    putchar((int)(b.length / 256));
    fwrite(b.bytes, 1, b.length, stdout);
    for (unsigned i = 0; i < SET_BYTES; i++)
        putchar((int)(first_signals(SIGNALS) >> 8 * i & 255));
    for (size_t i = LENGTH_BYTES + b.length + SET_BYTES; i < FILE_LENGTH; i++)
        putchar(0);
    return fflush(stdout) != 0;
}
