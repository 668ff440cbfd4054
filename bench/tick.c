/*
 * Times intake_tick against plain_tick on the same instants, in turn within each round. Every call ticks the same
 * record again: caches and branch predictors are warm. The reactions of an instant are those that its answer tells.
 * The run files that are named are run whole.
 */
#include "timing.h"

#include "bays.h"
#include "dearest.h"
#include "intake.h"
#include "kinds.h"
#include "plain.h"

enum { LEAST_ROUNDS = 11, SAMPLE = 20000, ROW = 150000000 /* nanoseconds */ };

/* An instant to time. */
struct instant {
    uint8_t bytes[CAPACITY], state[INTAKE_STATE_LENGTH];
    size_t length;
    uint32_t input, read_back;
    uint32_t reactions;
    unsigned calls;
};

static uint8_t once(ticks *tick, const struct instant *t, uint8_t *state, uint8_t *answer)
{
    memcpy(state, t->state, sizeof t->state);
    return tick(t->bytes, t->length, state, INTAKE_STATE_LENGTH, t->input, t->read_back, answer, INTAKE_ANSWER_LENGTH);
}

/* Processor nanoseconds per instant over one sample. */
static double sample(const void *what, int plain)
{
    static volatile uint8_t sink;
    const struct instant *t = what;
    ticks *tick = plain ? plain_tick : intake_tick;
    uint8_t state[INTAKE_STATE_LENGTH], answer[INTAKE_ANSWER_LENGTH];
    double start = nanoseconds();
    for (unsigned i = 0; i < t->calls; i++)
        sink = once(tick, t, state, answer);
    (void)sink;
    return (nanoseconds() - start) / t->calls;
}

/* The number of reactions that an answer record holds. */
static uint32_t reactions_in(const uint8_t *answer)
{
    uint32_t number = 0;
    for (unsigned i = INTAKE_ANSWER_REACTIONS_LENGTH; i > 0; i--)
        number = number << 8 | answer[INTAKE_ANSWER_REACTIONS + i - 1];
    return number;
}

/* Sets the record, after one instant or none, and what it takes; both must give the same, and no error. */
static void prepare(struct instant *t, bool resumed, const char *name)
{
    uint8_t state[INTAKE_STATE_LENGTH], answer[INTAKE_ANSWER_LENGTH];
    uint8_t states[2][INTAKE_STATE_LENGTH], answers[2][INTAKE_ANSWER_LENGTH];
    memset(t->state, 0, sizeof t->state);
    if (resumed && once(plain_tick, t, state, answer) == 0)
        memcpy(t->state, state, sizeof state);
    double start = nanoseconds();
    bool accepted = once(intake_tick, t, states[0], answers[0]) == 0;
    double time = fmax(nanoseconds() - start, 1);
    t->calls = time > SAMPLE ? 1 : (unsigned)(SAMPLE / time);
    accepted = accepted && once(plain_tick, t, states[1], answers[1]) == 0;
    if (!accepted || memcmp(states[0], states[1], sizeof *states) != 0 || answers[0][0] == INTAKE_WRONG ||
        memcmp(answers[0], answers[1], sizeof *answers) != 0 || t->state[0] != (resumed ? 1 : 0)) {
        fprintf(stderr, "%s, %zu bytes: not accepted by both, or not the same\n", name, t->length);
        exit(1);
    }
    t->reactions = reactions_in(answers[0]);
}

/* Prints the row of one instant, and returns the comparison. */
static struct comparison row(const struct instant *t, const char *name)
{
    unsigned rounds = (unsigned)(ROW / (2 * t->calls * sample(t, 1)));
    rounds = rounds < LEAST_ROUNDS ? LEAST_ROUNDS : rounds > ROUNDS ? ROUNDS : rounds;
    struct comparison c = compare(sample, t, rounds);
    double n = t->reactions;
    printf("%-30s %5zu %9.0f %10.0f %10.0f %7.2f %7.2f %6.2f\n", name, t->length, n, c.intake, c.plain, c.intake / n,
           c.plain / n, c.ratio);
    fflush(stdout);
    return c;
}

static double kind_row(const struct kind *kind, size_t length)
{
    struct builder b = {.shape = &kind->body, .wanted = length};
    build_kind(&b, kind, length);
    struct instant t = {.length = b.length, .input = INPUT, .read_back = first_signals(kind->read_back)};
    memcpy(t.bytes, b.bytes, sizeof b.bytes);
    prepare(&t, kind->pause != NONE, kind->name);
    return row(&t, kind->name).ratio;
}

static double dearest_row(uint8_t join, unsigned loops, unsigned signals)
{
    struct builder b = dearest(join, loops, signals, CAPACITY);
    struct instant t = {.length = b.length, .read_back = first_signals(SIGNALS - signals)};
    memcpy(t.bytes, b.bytes, sizeof b.bytes);
    char name[64];
    snprintf(name, sizeof name, "%u loops, %s%s", loops, join == 0x04 ? "sequences" : "parallels",
             signals == 0 ? ", read back" : "");
    prepare(&t, true, name);
    return row(&t, name).intake;
}

/* Processor nanoseconds of one check of the instant's sequence. */
static double check_time(const struct instant *t)
{
    static volatile uint8_t sink;
    double samples[LEAST_ROUNDS];
    for (unsigned i = 0; i < LEAST_ROUNDS; i++) {
        double start = nanoseconds();
        for (unsigned j = 0; j < t->calls; j++)
            sink = intake_check(t->bytes, t->length, t->read_back);
        samples[i] = (nanoseconds() - start) / t->calls;
    }
    (void)sink;
    return median(samples, LEAST_ROUNDS);
}

/* One active pause behind more and more bytes: what the tick takes beyond the check. */
static void growth_row(size_t length)
{
    static const struct kind kind = {"", {"", "\x04", "", "\x02", "\x02", 2, false, false, 32}, 0, 0, 0, AFTER, 0};
    struct builder b = {.shape = &kind.body, .wanted = length};
    build_kind(&b, &kind, length);
    struct instant t = {.length = b.length};
    memcpy(t.bytes, b.bytes, sizeof b.bytes);
    prepare(&t, true, "one active pause");
    double samples[LEAST_ROUNDS];
    for (unsigned i = 0; i < LEAST_ROUNDS; i++)
        samples[i] = sample(&t, 0);
    double tick = median(samples, LEAST_ROUNDS), check = check_time(&t);
    printf("%6zu %8.0f %8.0f %8.0f\n", length, tick, check, tick - check);
}

int main(int count, char **paths)
{
    static const size_t lengths[] = {14, 64, 256, 712, 1024};
    double logarithms = 0, most = 0;
    unsigned rows = 0;
    printf("medians of up to %d rounds in turn; plain C by " BUILT_BY "\n", ROUNDS);
    printf("%-30s %5s %9s %10s %10s %7s %7s %6s\n", "", "", "", "ns an", "instant", "ns a", "reaction", "");
    printf("%-30s %5s %9s %10s %10s %7s %7s %6s\n", "instant", "bytes", "reactions", "intake", "plain", "intake",
           "plain", "ratio");
    for (unsigned i = 0; i < KINDS; i++)
        for (unsigned j = 0; j < sizeof lengths / sizeof *lengths; j++)
            if (fits(&kinds[i], lengths[j])) {
                logarithms += log(kind_row(&kinds[i], lengths[j]));
                rows++;
            }
    printf("geometric mean of the ratios %.2f\n", exp(logarithms / rows));
    bay_rows(count - 1, paths + 1);
    printf("a resumed tick with one active pause, ns:\n%6s %8s %8s %8s\n", "bytes", "tick", "check", "beyond");
    for (unsigned j = 0; j < sizeof lengths / sizeof *lengths; j++)
        growth_row(lengths[j]);
    printf("the dearest instants, six signals around the loops, declared or read back, and each tested:\n");
    for (unsigned i = 0; i < DEAREST_SHAPES; i++)
        most = fmax(most, dearest_row(dearest_shapes[i].join, dearest_shapes[i].loops, dearest_shapes[i].signals));
    printf("the dearest takes %.2f ms\n", most / 1e6);
}
