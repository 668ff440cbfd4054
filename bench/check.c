/*
 * Times intake_check against plain_check on the same sequences, in turn within each round, and prints nanoseconds per
 * byte. Each sequence stands in one buffer that both read again and again: caches and branch predictors are warm. The
 * read-back set is empty: a check takes no longer with another.
 */
#include "timing.h"

#include "intake.h"
#include "plain.h"
#include "shapes.h"

enum { BYTES_A_SAMPLE = 32768 };

static const struct shape shapes[] = {
    {"emits in sequence", "\x04", "", "\x02", "\x02", 12, false, false, 32},
    {"pauses in parallel", "\x05", "", "\x02", "\x01", 2, false, false, 32},
    {"presents with pauses", "\x07", "", "\x01", "\x01", 2, false, false, 32},
    {"nested loops and tries", "\x04\x05", "\x06\x09", "\x01\x02\x03", "\x01\x02\x03", 4, false, false, 32},
    {"nested suspends", "\x04\x05", "\x0B", "\x01\x02\x03", "\x01\x02\x03", 4, false, false, 32},
    {"setpause automaton", "\x04\x07", "\x06", "\x02\x0A\x01", "\x02\x0A\x01", 4, false, false, 32},
    {"mixed at random", "\x04\x05\x07", "\x06\x08\x09", "\x01\x02\x03\x0A", "\x01\x02\x03\x0A", 3, false, true, 32},
    /* the label rules at their worst: large sets at every join */
    {"chain of pauses", "\x04", "", "\x02", "\x01", 12, false, false, 32},
    {"setpauses, then pauses", "\x05", "", "\x0A", "\x01", 12, false, false, 32},
    {"setpauses among pauses", "\x05", "", "\x01\x0A", "\x0A", 12, true, false, 32},
};

/* Turns into setpauses those leaves with which the sequence is still accepted. */
static void settle(struct builder *b)
{
    for (unsigned i = 0; i < b->setpause_count && b->pauses > 0; i++) {
        uint8_t *at = b->bytes + b->setpauses[i], emit[2];
        memcpy(emit, at, 2);
        at[0] = 0x0A;
        at[1] = (uint8_t)(i % b->pauses);
        if (plain_check(b->bytes, b->length, 0) != 0)
            memcpy(at, emit, 2);
    }
}

/* Processor nanoseconds per byte over one sample. */
static double sample(const void *what, int plain)
{
    static volatile uint8_t sink;
    const struct builder *b = what;
    uint8_t (*check)(const uint8_t *, size_t, uint32_t) = plain ? plain_check : intake_check;
    unsigned calls = BYTES_A_SAMPLE / (unsigned)b->length;
    double start = nanoseconds();
    for (unsigned i = 0; i < calls; i++)
        sink = check(b->bytes, b->length, 0);
    (void)sink;
    return (nanoseconds() - start) / calls / (double)b->length;
}

/* Prints the row of one sequence, and returns the ratio. */
static double row(const struct builder *b, const char *name)
{
    if (plain_check(b->bytes, b->length, 0) != 0 || intake_check(b->bytes, b->length, 0) != 0) {
        fprintf(stderr, "%s, %zu bytes: not accepted by both\n", name, b->length);
        exit(1);
    }
    struct comparison c = compare(sample, b, ROUNDS);
    printf("%-24s %6zu %8.2f %8.2f %8.2f\n", name, b->length, c.intake, c.plain, c.ratio);
    return c.ratio;
}

static double shape_row(const struct shape *shape, size_t length)
{
    struct builder b = {.shape = shape, .wanted = length};
    statement(&b, length, 0);
    settle(&b);
    return row(&b, shape->name);
}

/* One command after the other at the greatest depth, where a recursion has the least to do at each level. */
static double chain_row(void)
{
    struct builder b = {.length = 0};
    while (b.length < 63)
        put(&b, 0x06);
    put(&b, 0x00);
    return row(&b, "chain of 63 loops");
}

int main(void)
{
    static const size_t lengths[] = {14, 64, 256, 1024};
    double logarithms = 0;
    unsigned rows = 0;
    printf("ns per byte, medians of %d rounds in turn, one warm buffer a row; plain C by " BUILT_BY "\n", ROUNDS);
    printf("%-24s %6s %8s %8s %8s\n", "shape", "bytes", "intake", "plain", "ratio");
    for (unsigned i = 0; i < sizeof shapes / sizeof *shapes; i++)
        for (unsigned j = 0; j < sizeof lengths / sizeof *lengths; j++, rows++)
            logarithms += log(shape_row(&shapes[i], lengths[j]));
    logarithms += log(chain_row());
    rows++;
    printf("geometric mean of the ratios %.2f\n", exp(logarithms / rows));
}
