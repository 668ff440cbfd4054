/*
 * The dearest instant among those that the benchmark builds, and the dearest rounds of a box and the dearest preview that
 * bench/search.c has found: how many reactions they take and how long. Processor time, the least of some tries. At ten
 * instants a second an instant has 100 ms, and so has a round of a box.
 */
#include "timing.h"

#include "dearest.h"
#include "found.h"
#include "intake.h"

enum { TIMES = 5, PASSES = 10, ROUNDS_TIMED = 3, UNASKED = 0x3F << 20 /* signals that the found sequence does not test */ };
#define FARMS_FACTOR 1.5 /* of a round with litres to all farms over one without */
#define LIMIT 1e8 /* nanoseconds of an instant */

struct cost {
    double time;
    uint32_t reactions;
};

/* What the second instant costs, which leaves the loops and begins them again. */
static struct cost cost_of(const struct shape_of_dearest *shape)
{
    struct builder b = dearest(shape->join, shape->loops, shape->signals, CAPACITY);
    uint32_t read_back = first_signals(SIGNALS - shape->signals);
    uint8_t first[INTAKE_STATE_LENGTH] = {0}, state[INTAKE_STATE_LENGTH], answer[INTAKE_ANSWER_LENGTH] = {0};
    struct cost cost = {LIMIT * TIMES, 0};
    if (intake_tick(b.bytes, b.length, first, sizeof first, 0, read_back, answer, sizeof answer) != INTAKE_ACCEPTED)
        return cost;
    for (unsigned i = 0; i < TIMES; i++) {
        memcpy(state, first, sizeof state);
        double start = nanoseconds();
        uint8_t number = intake_tick(b.bytes, b.length, state, sizeof state, 0, read_back, answer, sizeof answer);
        double time = nanoseconds() - start;
        if (number != INTAKE_ACCEPTED)
            return cost;
        cost.time = fmin(cost.time, time);
    }
    cost.reactions = intake_answer_reactions(answer);
    return cost;
}

static int passed, failed;

static void expect(int holds)
{
    passed += holds;
    failed += !holds;
}

static void measure_instant(void)
{
    struct cost most = {0, 0};
    for (unsigned i = 0; i < DEAREST_SHAPES; i++) {
        struct cost cost = cost_of(&dearest_shapes[i]);
        most.time = fmax(most.time, cost.time);
        most.reactions = cost.reactions > most.reactions ? cost.reactions : most.reactions;
    }
    printf("dearest instant: %.2f ms, %u reactions\n", most.time / 1e6, (unsigned)most.reactions);
    expect(most.time <= LIMIT && most.reactions > 0);
}

/* The rounds in turn, so that other work on the machine meets all: one without litres, one with, and its bays without. */
static void time_rounds(struct dear_cost *costs)
{
    static uint8_t box[INTAKE_BOX_LENGTH];
    struct dear_round stripped = found_with_litres;
    const struct dear_round *rounds[ROUNDS_TIMED] = {&found_without_litres, &stripped, &found_with_litres};
    for (unsigned i = 0; i < 2; i++)
        stripped.bays[i] = without_litres(&found_with_litres.bays[i]);
    for (unsigned i = 0; i < PASSES * ROUNDS_TIMED; i++) {
        struct dear_cost cost = cost_of_round(rounds[i % ROUNDS_TIMED], box, TIMES), *least = &costs[i % ROUNDS_TIMED];
        least->time = i < ROUNDS_TIMED ? cost.time : fmin(least->time, cost.time);
        least->reactions = cost.reactions;
    }
    for (uint32_t bay = 0; bay < INTAKE_BAY_COUNT; bay++)
        expect(all_farms(box, bay));
}

/* The round with litres pays all farms of every bay, and is held to the one without and to its own bays without. */
static void measure_rounds(void)
{
    struct dear_cost costs[ROUNDS_TIMED], dear, same, litres;
    time_rounds(costs);
    dear = costs[0];
    same = costs[1];
    litres = costs[2];
    printf("dearest round: %.2f ms, %u reactions\n", dear.time / 1e6, (unsigned)dear.reactions);
    printf("dearest round with litres: %.2f ms, %u reactions, without them %.2f ms\n", litres.time / 1e6,
           (unsigned)litres.reactions, same.time / 1e6);
    expect(dear.reactions > 0 && dear.time <= LIMIT);
    expect(litres.reactions == same.reactions && litres.reactions > 0);
    expect(litres.time <= FARMS_FACTOR * dear.time && litres.time <= FARMS_FACTOR * same.time);
}

/* A preview of inputs that are asked for, and of as many that are not, which takes one instant and so far less. */
static void measure_preview(void)
{
    static uint8_t box[INTAKE_BOX_LENGTH];
    expect(fill_bay(box, 0, &found_preview));
    double asked = preview_time(box, found_preview.input, DEAR_UNKNOWN, TIMES);
    double unasked = preview_time(box, found_preview.input, UNASKED, TIMES);
    uint32_t reactions = reactions_of_fillings(box, found_preview.input, DEAR_UNKNOWN);
    printf("dearest preview: %.1f ms, %u reactions, of inputs not asked for %.2f ms\n", asked / 1e6, (unsigned)reactions,
           unasked / 1e6);
    expect(reactions > 0 && asked <= LIMIT && unasked > 0 && 16 * unasked < asked);
}

int main(void)
{
    measure_instant();
    measure_rounds();
    measure_preview();
    printf("%d passed, %d failed\n", passed, failed);
    return failed != 0;
}
