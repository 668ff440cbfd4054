/* Kinds of instants that the benchmarks of the tick and of the box time. */
#ifndef KINDS_H
#define KINDS_H

#include "dearest.h"
#include "shapes.h"

/* Where a pause stands before the instant that is timed. */
enum pause { NONE, BEFORE, AFTER, INSIDE };

/* A body inside signals, inside loops that an instant leaves and begins again, and inside a suspend. */
struct kind {
    const char *name;
    struct shape body;
    unsigned signals, loops;
    unsigned suspend; /* its signal; 0 if there is no suspend */
    enum pause pause;
    unsigned read_back; /* so many signals from 0 on are read back */
};

static const struct kind kinds[] = {
    {"fresh, emits", {"", "\x04", "", "\x02", "\x02", 2, false, false, 32}, 0, 0, 0, NONE, 0},
    {"fresh, pauses in parallel", {"", "\x05", "", "\x02", "\x01", 2, false, false, 32}, 0, 0, 0, NONE, 0},
    {"fresh, tests", {"", "\x04\x07", "", "\x02", "\x02", 2, false, false, 32}, 0, 0, 0, NONE, 0},
    {"fresh, tries and exits", {"", "\x04\x05", "\x09", "\x02\x03", "\x02\x03", 3, false, false, 32}, 0, 0, 0, NONE, 0},
    {"resumed before emits", {"", "\x04", "", "\x02", "\x02", 2, false, false, 32}, 0, 0, 0, BEFORE, 0},
    {"resumed after emits", {"", "\x04", "", "\x02", "\x02", 2, false, false, 32}, 0, 0, 0, AFTER, 0},
    {"resumed, pauses in parallel", {"", "\x05", "", "\x02", "\x01", 2, false, false, 32}, 0, 0, 0, INSIDE, 0},
    {"resumed, pauses deep down", {"", "\x05", "", "\x02", "\x01", 12, false, false, 32}, 0, 0, 0, INSIDE, 0},
    {"six signals, fresh", {"", "\x04", "", "\x02", "\x02", 2, false, false, 6}, 6, 0, 0, NONE, 0},
    {"six signals, resumed", {"", "\x04", "", "\x02", "\x02", 2, false, false, 6}, 6, 0, 0, BEFORE, 0},
    {"six signals, all tested", {"", "\x04\x07", "", "\x02", "\x02", 2, false, false, 6}, 6, 0, 0, NONE, 0},
    {"six read back, fresh", {"", "\x04", "", "\x02", "\x02", 2, false, false, 32}, 0, 0, 0, NONE, 6},
    {"six read back, resumed", {"", "\x04", "", "\x02", "\x02", 2, false, false, 32}, 0, 0, 0, BEFORE, 6},
    {"six read back, all tested", {"", "\x04\x07", "", "\x02", "\x02", 2, false, false, 6}, 0, 0, 0, NONE, 6},
    {"loops begun again", {"", "\x05", "", "\x02", "\x02", 2, false, false, 6}, 0, 16, 0, INSIDE, 0},
    {"six signals, such loops", {"", "\x05", "", "\x02", "\x02", 2, false, false, 6}, 6, 16, 0, INSIDE, 0},
    {"six read back, such loops", {"", "\x05", "", "\x02", "\x02", 2, false, false, 6}, 0, 16, 0, INSIDE, 6},
    {"suspend, running", {"", "\x05", "", "\x02", "\x01", 2, false, false, 32}, 0, 0, ABSENT, INSIDE, 0},
    {"suspend, stopped", {"", "\x05", "", "\x02", "\x01", 2, false, false, 32}, 0, 0, PRESENT, INSIDE, 0},
    {"nested suspends, running", {"", "\x05", "\x0B", "\x02", "\x01", 2, false, false, 32}, 0, 0, 0, INSIDE, 0},
    {"nested suspends, stopped", {"", "\x05", "\x0B", "\x02", "\x01", 2, false, false, 32}, 0, 0, PRESENT, INSIDE, 0},
};
enum { KINDS = sizeof kinds / sizeof *kinds };

/* Loops of eight bytes in a quarter of a sequence. */
static inline unsigned fitting(size_t length)
{
    return (unsigned)length / 32;
}

/* Is there room for the signals, a loop if there are any, and a body? */
static inline bool fits(const struct kind *kind, size_t length)
{
    return length >= 2 * kind->signals + 8 && (kind->loops == 0 || fitting(length) > 0);
}

static inline void build_kind(struct builder *b, const struct kind *kind, size_t length)
{
    enclose(b, kind->signals, kind->loops < fitting(length) ? kind->loops : fitting(length));
    if (kind->suspend != 0) {
        put(b, 0x0B);
        put(b, kind->suspend);
    }
    if (kind->pause == BEFORE || kind->pause == AFTER)
        put(b, 0x04);
    if (kind->pause == BEFORE) {
        put(b, 0x01);
        put(b, b->pauses++);
    }
    statement(b, length - b->length - (kind->pause == AFTER ? 2 : 0), kind->signals);
    if (kind->pause == AFTER) {
        put(b, 0x01);
        put(b, b->pauses++);
    }
}

#endif
