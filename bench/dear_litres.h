/* Dear instants of the tick's benchmark with litres to all 32 farms. */
#ifndef DEAR_LITRES_H
#define DEAR_LITRES_H

#include "dear.h"
#include "dearest.h"
#include "kinds.h"

static inline void append(struct dear_bay *bay, const uint8_t *bytes, size_t count)
{
    memcpy(bay->bytes + bay->length, bytes, count);
    bay->length += count;
}

/* An emission of 1 litre to a farm. */
static inline void deliver(struct dear_bay *bay, unsigned farm)
{
    append(bay, (const uint8_t[]){0x0C, (uint8_t)farm, 0x00, 0x00, 0x80, 0x3F}, 6);
}

/* How many farms have an emission with litres. */
static inline unsigned farms_named(const struct dear_bay *bay)
{
    uint32_t farms = 0;
    for (size_t at = 0; at < bay->length; at += command_bytes(bay->bytes[at]))
        if (bay->bytes[at] == 0x0C)
            farms |= UINT32_C(1) << bay->bytes[at + 1];
    return (unsigned)__builtin_popcount(farms);
}

/*
 * Each emission delivers, to the farms from 6 on in turn, and so does each nothing that is no part of a test, where that is
 * asked for. A loop beside it delivers in every instant to the farms of the six signals: litres that are emitted inside the
 * declaration of their signal are dropped (02, item 12). No bytes, if that is too long.
 */
static inline struct dear_bay to_all_farms(const struct builder *b, bool nothings)
{
    static const uint8_t before[] = {0x05, 0x06, 0x04, 0x05, 0x05, 0x05, 0x05, 0x05}, after[] = {0x01, LABELS - 1};
    struct dear_bay bay = {.length = 0};
    unsigned farm = SIGNALS, in_test = 0;
    append(&bay, before, sizeof before);
    for (unsigned i = 0; i < SIGNALS; i++)
        deliver(&bay, i);
    append(&bay, after, sizeof after);
    for (size_t at = 0; at < b->length; at += command_bytes(b->bytes[at])) {
        uint8_t command = b->bytes[at];
        if (bay.length + 6 > DEAR_LENGTH)
            return (struct dear_bay){.length = 0};
        if (command == 0x02 || (command == 0x00 && nothings && in_test == 0)) {
            deliver(&bay, farm);
            farm = farm + 1 < INTAKE_FARM_COUNT ? farm + 1 : SIGNALS;
        } else {
            append(&bay, b->bytes + at, command_bytes(command));
            in_test = nothings && command == 0x07 ? 2 : in_test - (command == 0x00 && in_test > 0);
        }
    }
    return bay;
}

static inline struct dear_bay kind_with_litres(const struct kind *kind, size_t length)
{
    struct builder b = {.shape = &kind->body, .wanted = length};
    build_kind(&b, kind, length);
    struct dear_bay bay = to_all_farms(&b, false);
    bay.input = INPUT;
    bay.read_back = first_signals(kind->read_back);
    bay.before = kind->pause != NONE;
    return bay;
}

/* The dearest instants have commands that do nothing in the place of emissions. */
static inline struct dear_bay dearest_with_litres(const struct shape_of_dearest *shape, size_t length)
{
    struct builder b = dearest(shape->join, shape->loops, shape->signals, length);
    struct dear_bay bay = to_all_farms(&b, true);
    bay.read_back = first_signals(SIGNALS - shape->signals);
    bay.before = 1;
    return bay;
}

#endif
