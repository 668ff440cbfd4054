/*
 * Loops written out, 02, item 13, as one would write it in C: after the check one recursive traversal, which counts bytes and
 * depth and looks for a setpause, and then the same again, which writes.
 */
#include "plain_unroll.h"

#include "plain.h"

#include <stdbool.h>

enum { PAUSE = 0x01, SEQUENCE = 0x04, LOOP = 0x06, SETPAUSE = 0x0A, COMMANDS = 0x0D };
enum { MAX_BYTES = 1024, MAX_DEPTH = 64 };

static const struct { uint8_t parts, operands; } commands[COMMANDS] = {
    {0, 0}, {0, 1}, {0, 1}, {0, 1}, {2, 0}, {2, 0}, {1, 0}, {2, 1}, {1, 1}, {1, 0}, {0, 1}, {1, 1}, {0, 5},
};

/* The bytes of the result so far, counted, and the greatest depth of a command; they are written where there is a result. */
struct walk {
    uint8_t *result;
    size_t count;
    unsigned deepest;
    bool setpause;
};

static void put(struct walk *w, uint8_t byte)
{
    if (w->result != NULL)
        w->result[w->count] = byte;
    w->count++;
}

/* The copy of the statement at s, or the statement worked through, at this depth; gives where the next one begins. */
static const uint8_t *form(struct walk *w, const uint8_t *s, bool copying, unsigned depth)
{
    uint8_t byte = *s++;
    if (byte == LOOP && copying)
        return form(w, s, true, depth);
    if (w->deepest < depth)
        w->deepest = depth;
    if (byte == LOOP) {
        put(w, LOOP);
        put(w, SEQUENCE);
        form(w, s, true, depth + 2);
        return form(w, s, false, depth + 2);
    }
    w->setpause |= byte == SETPAUSE;
    put(w, copying && byte == PAUSE ? SETPAUSE : byte);
    for (unsigned i = 0; i < commands[byte].operands; i++)
        put(w, *s++);
    for (unsigned i = 0; i < commands[byte].parts; i++)
        s = form(w, s, copying, depth + 1);
    return s;
}

uint8_t plain_unroll(const uint8_t *sequence, size_t sequence_length, uint32_t read_back, uint8_t *result, size_t buffer_length,
                     size_t *result_length)
{
    *result_length = 0;
    if (buffer_length != MAX_BYTES)
        return 1;
    uint8_t number = plain_check(sequence, sequence_length, read_back);
    if (number != 0)
        return number;
    struct walk measured = {.result = NULL};
    form(&measured, sequence, false, 1);
    if (measured.setpause)
        return 20;
    if (measured.count > MAX_BYTES || measured.deepest > MAX_DEPTH)
        return 21;
    struct walk written = {.result = result};
    form(&written, sequence, false, 1);
    *result_length = written.count;
    return 0;
}
