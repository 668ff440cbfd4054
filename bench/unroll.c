/*
 * Times intake_unroll against plain_unroll on the same sequences, in turn within each round, and prints nanoseconds per byte
 * of the result. Each sequence stands in one buffer that both read again and again, and both write one lent buffer: caches
 * and branch predictors are warm. The sequence is checked in each call; that is part of what is timed.
 */
#include "timing.h"

#include "bays.h"
#include "intake.h"
#include "plain.h"
#include "plain_unroll.h"
#include "shapes.h"

enum { BYTES_A_SAMPLE = 32768 };

/* A sequence, and the length of its result. */
struct original {
    uint8_t bytes[CAPACITY];
    size_t length, result;
    uint32_t read_back;
};

typedef uint8_t unrolls(const uint8_t *, size_t, uint32_t, uint8_t *, size_t, size_t *);

static uint8_t results[2][INTAKE_RESULT_LENGTH];

/* Processor nanoseconds per byte of the result over one sample. */
static double sample(const void *what, int plain)
{
    static volatile uint8_t sink;
    const struct original *o = what;
    unrolls *unroll = plain ? plain_unroll : intake_unroll;
    unsigned calls = BYTES_A_SAMPLE / (unsigned)o->result;
    size_t length;
    double start = nanoseconds();
    for (unsigned i = 0; i < calls; i++)
        sink = unroll(o->bytes, o->length, o->read_back, results[plain], sizeof results[plain], &length);
    (void)sink;
    return (nanoseconds() - start) / calls / (double)o->result;
}

/* Prints the row of one sequence, and returns the ratio. */
static double row(struct original *o, const char *name)
{
    size_t lengths[2];
    uint8_t numbers[2];
    for (int plain = 0; plain < 2; plain++)
        numbers[plain] = (plain ? plain_unroll : intake_unroll)(o->bytes, o->length, o->read_back, results[plain],
                                                                sizeof results[plain], &lengths[plain]);
    if (numbers[0] != 0 || numbers[1] != 0 || lengths[0] != lengths[1] || memcmp(results[0], results[1], lengths[0]) != 0) {
        fprintf(stderr, "%s, %zu bytes: numbers %u and %u, or not the same result\n", name, o->length, numbers[0], numbers[1]);
        exit(1);
    }
    o->result = lengths[0];
    struct comparison c = compare(sample, o, ROUNDS);
    printf("%-30s %6zu %6zu %8.2f %8.2f %8.2f\n", name, o->length, o->result, c.intake, c.plain, c.ratio);
    return c.ratio;
}

static const struct shape shapes[] = {
    {"emits in sequence", "\x04", "", "\x02", "\x02", 12, false, false, 32},
    {"pauses in parallel", "\x05", "", "\x02", "\x01", 2, false, false, 32},
    {"presents with pauses", "\x07", "", "\x01", "\x01", 2, false, false, 32},
    {"nested suspends", "\x04\x05", "\x0B", "\x01\x02\x03", "\x01\x02\x03", 4, false, false, 32},
};

/* So many loops around a statement of the shape, which is as long as the result allows. */
static double shape_row(const struct shape *shape, unsigned loops)
{
    struct original o = {.length = 0};
    struct builder b = {.shape = shape, .wanted = (INTAKE_RESULT_LENGTH - 2 * loops) / (loops + 1)};
    statement(&b, b.wanted, 0);
    while (o.length < loops)
        o.bytes[o.length++] = 0x06;
    memcpy(o.bytes + o.length, b.bytes, b.length);
    o.length += b.length;
    char name[64];
    snprintf(name, sizeof name, "%s, %u loop%s", shape->name, loops, loops == 1 ? "" : "s");
    return row(&o, name);
}

/* One loop in the other around a pause, whose result has depth 63. */
static double chain_row(void)
{
    struct original o = {.length = 0};
    while (o.length < 31)
        o.bytes[o.length++] = 0x06;
    o.bytes[o.length++] = 0x01;
    o.bytes[o.length++] = 0x00;
    return row(&o, "chain of 31 loops");
}

static double bay_row(const char *path)
{
    static struct bay bay;
    struct original o;
    if (!read_bay(&bay, path)) {
        fprintf(stderr, "%s: not a run that both accept, or not the same\n", path);
        exit(1);
    }
    o.length = bay.length;
    o.read_back = word_at(bay.file + 2 + bay.length);
    memcpy(o.bytes, bay.file + 2, bay.length);
    return row(&o, path);
}

int main(int argc, char **argv)
{
    static const unsigned loops[] = {0, 1, 4, 15};
    double logarithms = 0;
    unsigned rows = 0;
    printf("ns per byte of the result, medians of %d rounds in turn; plain C by " BUILT_BY "\n", ROUNDS);
    printf("%-30s %6s %6s %8s %8s %8s\n", "sequence", "bytes", "result", "intake", "plain", "ratio");
    for (unsigned i = 0; i < sizeof shapes / sizeof *shapes; i++)
        for (unsigned j = 0; j < sizeof loops / sizeof *loops; j++, rows++)
            logarithms += log(shape_row(&shapes[i], loops[j]));
    logarithms += log(chain_row());
    rows++;
    for (int i = 1; i < argc; i++, rows++)
        logarithms += log(bay_row(argv[i]));
    printf("geometric mean of the ratios %.2f\n", exp(logarithms / rows));
}
