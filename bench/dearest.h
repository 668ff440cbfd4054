/*
 * Statements whose instants are dear: six signals, declared in the sequence or read back, around loops that an instant
 * leaves and begins again.
 */
#ifndef DEAREST_H
#define DEAREST_H

#include "plain.h"
#include "shapes.h"

/* `08 s` for each signal, then for each loop `06 09 05`, a side that waits and then exits, and the rest beside it. */
static inline void enclose(struct builder *b, unsigned signals, unsigned loops)
{
    for (unsigned s = 0; s < signals; s++) {
        put(b, 0x08);
        put(b, s);
    }
    for (; loops > 0; loops--) {
        static const uint8_t before[] = {0x06, 0x09, 0x05, 0x04, 0x01}, after[] = {0x03, 0x01};
        for (size_t i = 0; i < sizeof before; i++)
            put(b, before[i]);
        put(b, b->pauses++);
        for (size_t i = 0; i < sizeof after; i++)
            put(b, after[i]);
    }
}

/*
 * A balanced statement of n bytes. A command reacts in each, but that so many signals from 0 on are tested once: the run
 * with a signal is left out where the run without it does not ask for it.
 */
static inline void commands(struct builder *b, size_t n, uint8_t join, unsigned *tests)
{
    if (*tests > 0 && n >= 4 && n <= 7) {
        if (n > 4)
            put(b, n == 5 ? 0x09 : join);
        const uint8_t test[] = {0x07, --*tests, 0x00, 0x00};
        for (size_t i = 0; i < sizeof test; i++)
            put(b, test[i]);
        if (n > 5)
            commands(b, n - 5, join, tests);
        return;
    }
    if (n <= 2) {
        if (n == 2)
            put(b, 0x09);
        put(b, 0x00);
        return;
    }
    put(b, join);
    size_t first = (n - 1) / 2 | 1;
    commands(b, first, join, tests);
    commands(b, n - 1 - first, join, tests);
}

/* The set of the signals from 0 on, so many. */
static inline uint32_t first_signals(unsigned count)
{
    return (UINT32_C(1) << count) - 1;
}

/* So many signals and loops begun again, which leave room for a body that tests the six signals. */
static inline struct builder dearest(uint8_t join, unsigned loops, unsigned signals, size_t length)
{
    size_t body = length - 2 * signals - 8 * loops;
    struct builder b;
    do {
        b = (struct builder){.length = 0};
        enclose(&b, signals, loops);
        unsigned tests = SIGNALS;
        commands(&b, body--, join, &tests);
    } while (b.length > length || plain_check(b.bytes, b.length, first_signals(SIGNALS - signals)) != 0);
    return b;
}

/* The shapes among which the dearest instant is sought. Read-back signals leave six levels more. */
struct shape_of_dearest {
    uint8_t join;
    unsigned loops, signals;
};

static const struct shape_of_dearest dearest_shapes[] = {
    {0x04, 15, SIGNALS}, {0x04, 16, SIGNALS}, {0x04, 17, SIGNALS}, {0x04, 17, 0}, {0x04, 18, 0}, {0x04, 19, 0},
    {0x05, 15, SIGNALS}, {0x05, 16, SIGNALS}, {0x05, 17, SIGNALS}, {0x05, 17, 0}, {0x05, 18, 0}, {0x05, 19, 0},
};
enum { DEAREST_SHAPES = sizeof dearest_shapes / sizeof *dearest_shapes };

#endif
