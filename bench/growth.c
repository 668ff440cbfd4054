/*
 * How the calls on a box grow: one measure doubles from step to step, and all else stays as far as it can. Prints for each
 * measure the reactions of the call, its time, and the time over that of the step before: 2 is linear growth.
 */
#include "dear.h"

#include "dearest.h"

enum { TRIES = 101, STEPS = 7, TESTED = 6, EMISSIONS = 64 };

static uint8_t box[INTAKE_BOX_LENGTH];

static struct dear_bay bay_of(const struct builder *b, uint32_t read_back, unsigned before)
{
    struct dear_bay bay = {.length = b->length, .read_back = read_back, .before = before};
    memcpy(bay.bytes, b->bytes, b->length);
    return bay;
}

static void put_two(struct builder *b, uint8_t command, unsigned operand)
{
    put(b, command);
    put(b, operand);
}

/* So many leaves by 05 in a balanced tree: each is a command with its operand, or with litres if there are farms left. */
static void put_leaves(struct builder *b, uint8_t command, unsigned from, unsigned count, unsigned farms)
{
    if (count > 1) {
        put(b, 0x05);
        put_leaves(b, command, from, count / 2, farms);
        put_leaves(b, command, from + count / 2, count - count / 2, farms);
    } else if (from < farms) {
        put_two(b, 0x0C, from);
        for (unsigned i = 0; i < 4; i++)
            put(b, "\x00\x00\x80\x3F"[i] & 0xFF);
    } else
        put_two(b, command, from % (command == 0x01 ? LABELS : 32));
}

/* Tests of so many signals from one on, before what follows. */
static void put_tests(struct builder *b, unsigned first, unsigned count)
{
    for (unsigned s = first; s < first + count; s++) {
        put(b, 0x04);
        put_two(b, 0x07, s);
        put_two(b, 0x00, 0x00);
    }
}

/* Emissions behind each other in a balanced tree, of so many bytes. */
static struct dear_bay of_length(unsigned length)
{
    static const struct shape emits = {"", "\x04", "", "\x02", "\x02", 2, false, false, 32};
    struct builder b = {.shape = &emits, .wanted = length};
    statement(&b, length, 0);
    return bay_of(&b, 0, 0);
}

/* Tries inside each other. */
static struct dear_bay of_depth(unsigned depth)
{
    struct builder b = {.length = 0};
    for (unsigned i = 1; i < depth; i++)
        put(&b, 0x09);
    put_two(&b, 0x01, 0);
    return bay_of(&b, 0, 1);
}

/* Pauses beside each other, resumed. */
static struct dear_bay of_labels(unsigned labels)
{
    struct builder b = {.length = 0};
    put_leaves(&b, 0x01, 0, labels, 0);
    return bay_of(&b, 0, 1);
}

/* Six read-back signals, each tested, around emissions, of which so many carry litres, each to its farm. */
static struct dear_bay of_farms(unsigned farms)
{
    struct builder b = {.length = 0};
    put_tests(&b, 0, TESTED);
    put_leaves(&b, 0x02, 0, EMISSIONS, farms);
    return bay_of(&b, first_signals(TESTED), 0);
}

/* Loops beside each other, each with a pause, begun again. */
static struct dear_bay of_loops(unsigned loops)
{
    struct builder b = {.length = 0};
    for (unsigned i = 0; i < loops; i++) {
        if (i + 1 < loops)
            put(&b, 0x05);
        put(&b, 0x06);
        put_two(&b, 0x01, i);
    }
    return bay_of(&b, 0, 1);
}

/* Loops inside each other, each left and begun again, around emissions. */
static struct dear_bay of_nested_loops(unsigned loops)
{
    struct builder b = {.length = 0};
    enclose(&b, 0, loops);
    put_leaves(&b, 0x02, 0, EMISSIONS, 0);
    return bay_of(&b, 0, 1);
}

/* A row: what the measure is, and its time over the last one. */
static void row(const char *name, unsigned measure, uint32_t reactions, double time, double *last)
{
    printf("%-34s %6u %9u %10.0f", name, measure, (unsigned)reactions, time);
    if (*last > 0)
        printf(" %6.2f", time / *last);
    printf("\n");
    *last = time;
}

static void give_up(const char *name)
{
    fprintf(stderr, "%s: turned down\n", name);
    exit(1);
}

/* The ticks of one bay that is made by its measure. */
static void tick_rows(const char *name, struct dear_bay (*made)(unsigned), unsigned first, unsigned most)
{
    double last = 0;
    for (unsigned measure = first; measure <= most; measure *= 2) {
        struct dear_bay bay = made(measure);
        memset(box, 0, sizeof box);
        if (!fill_bay(box, 0, &bay))
            give_up(name);
        struct dear_cost cost = cost_of_ticks(box, &bay.input, 1, TRIES);
        row(name, measure, cost.reactions, cost.time, &last);
    }
}

/* A round of so many bays. */
static void bay_rows_of_round(void)
{
    static const uint32_t inputs[INTAKE_BAY_COUNT] = {0};
    double last = 0;
    struct dear_bay bay = of_length(256);
    for (unsigned bays = 1; bays <= INTAKE_BAY_COUNT; bays *= 2) {
        memset(box, 0, sizeof box);
        for (unsigned i = 0; i < bays; i++)
            if (!fill_bay(box, i, &bay))
                give_up("bays");
        struct dear_cost cost = cost_of_ticks(box, inputs, bays, TRIES);
        row("bays, a round", bays, cost.reactions, cost.time, &last);
    }
}

/* Previews with one unknown input more in each row, of those that are tested or of others. */
static void preview_rows(const char *name, unsigned first)
{
    double last = 0;
    struct builder b = {.length = 0};
    put_tests(&b, first, TESTED);
    put_leaves(&b, 0x02, 0, EMISSIONS, 0);
    struct dear_bay bay = bay_of(&b, 0, 0);
    memset(box, 0, sizeof box);
    if (!fill_bay(box, 0, &bay))
        give_up(name);
    for (unsigned unknown = 0; unknown < STEPS; unknown++)
        row(name, unknown, 0, preview_time(box, 0, first_signals(unknown), TRIES), &last);
}

int main(void)
{
    printf("%-34s %6s %9s %10s %6s\n", "a measure doubles", "", "reactions", "ns", "grows");
    tick_rows("length in bytes", of_length, 64, 1024);
    tick_rows("depth", of_depth, 4, 64);
    tick_rows("labels", of_labels, 8, 128);
    tick_rows("farms, six tested signals", of_farms, 1, 32);
    bay_rows_of_round();
    tick_rows("loops beside each other", of_loops, 4, 32);
    tick_rows("loops inside each other", of_nested_loops, 2, 16);
    printf("%-34s %6s %9s %10s %6s\n", "one unknown input more", "", "", "ns", "grows");
    preview_rows("unknown inputs, asked for", 0);
    preview_rows("unknown inputs, not asked for", 8);
}
