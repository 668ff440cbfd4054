/* Sequences of an exact length, made by rule. */
#ifndef SHAPES_H
#define SHAPES_H

#include <stdbool.h>
#include <stddef.h>
#include <stdint.h>
#include <string.h>

enum { CAPACITY = 1024, LABELS = 128, SIGNALS = 6 };

/* The bytes of a pause for each label and of their joins. */
enum { PAUSES = 3 * LABELS - 1 };

/* The input of an instant that is timed has the even signals: one that it gives, and one that it does not give. */
enum { INPUT = 0x55555555, PRESENT = 2, ABSENT = 1 };

/* A kind of sequence. Its commands are taken in turn, or at random. */
struct shape {
    const char *name;
    const char *joins;  /* commands with two parts */
    const char *wraps;  /* commands with one part, put around joins; there may be none */
    const char *leaves; /* commands without parts */
    const char *last;   /* those of the last bytes, which all pauses and their joins fill, or of the second half */
    unsigned share;     /* one part gets one share-th of the bytes: 2 gives a balanced tree, 12 a long chain */
    bool second;        /* that part is the second */
    bool random;
    unsigned tested;    /* presents test the signals below it, and emits leave those alone if there are others */
};

struct builder {
    const struct shape *shape;
    uint8_t bytes[CAPACITY];
    size_t length, wanted;
    size_t setpauses[CAPACITY]; /* their offsets */
    unsigned setpause_count, pauses, turn;
};

static inline unsigned below(unsigned n)
{
    static uint64_t seed = 1;
    seed = seed * UINT64_C(6364136223846793005) + UINT64_C(1442695040888963407);
    return (unsigned)(seed >> 33) % n;
}

static inline uint8_t next(struct builder *b, const char *commands)
{
    unsigned n = (unsigned)strlen(commands);
    return (uint8_t)commands[b->shape->random ? below(n) : b->turn++ % n];
}

static inline void put(struct builder *b, size_t byte)
{
    b->bytes[b->length++] = (uint8_t)byte;
}

/* A setpause begins as an emit; the check's benchmark turns it into one when all pauses are there. */
static inline void leaf(struct builder *b)
{
    size_t last = b->wanted / 2 < PAUSES ? b->wanted / 2 : PAUSES;
    uint8_t byte = next(b, b->wanted - b->length <= last ? b->shape->last : b->shape->leaves);
    if (byte == 0x0A)
        b->setpauses[b->setpause_count++] = b->length;
    if (byte == 0x0A || (byte == 0x01 && b->pauses == LABELS))
        byte = 0x02;
    put(b, byte);
    unsigned tested = b->shape->tested % 32;
    put(b, byte == 0x01 ? b->pauses++ : byte == 0x03 ? 1 : tested + b->length % (32 - tested));
}

/* Appends a statement of exactly n bytes. */
static inline void statement(struct builder *b, size_t n, unsigned signals)
{
    if (n >= 8 && *b->shape->wraps != '\0' && (!b->shape->random || below(3) == 0)) {
        uint8_t wrap = next(b, b->shape->wraps);
        if (wrap == 0x0B || (wrap == 0x08 && signals < SIGNALS)) {
            put(b, wrap);
            put(b, wrap == 0x0B ? ABSENT : below(32));
            n -= 2;
            signals += wrap == 0x08;
        } else if (wrap != 0x08) {
            put(b, wrap);
            n--;
        }
    }
    if (n == 1) {
        put(b, 0x00);
    } else if (n == 2) {
        leaf(b);
    } else {
        uint8_t join = n == 3 ? (uint8_t)b->shape->joins[0] : next(b, b->shape->joins);
        if (join == 0x07 && n == 3)
            join = 0x04;
        put(b, join);
        if (join == 0x07)
            put(b, b->length % b->shape->tested);
        n -= join == 0x07 ? 2 : 1;
        size_t small = n / b->shape->share < 2 ? 2 : n / b->shape->share;
        small = n < 4 ? 1 : small - (small + 1) % 3; /* leaves of two bytes and joins of one fill it */
        size_t first = b->shape->second ? n - small : small;
        statement(b, first, signals);
        statement(b, n - first, signals);
    }
}

#endif
