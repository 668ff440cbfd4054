/* Bays whose instants are dear, alone, as a round of a box and in a preview: what a tick or a preview of them takes. */
#ifndef DEAR_H
#define DEAR_H

#include "timing.h"

#include "intake.h"

#include <stdbool.h>
#include <stdint.h>
#include <string.h>

enum { DEAR_LENGTH = 1024, DEAR_UNKNOWN_FIRST = 26 };
#define DEAR_UNKNOWN (UINT32_C(0x3F) << DEAR_UNKNOWN_FIRST) /* the unknown inputs of a preview: the signals 26 to 31 */

/* A sequence, and the input of each of its instants up to the dear one, so many being before it. */
struct dear_bay {
    uint8_t bytes[DEAR_LENGTH];
    size_t length;
    uint32_t read_back, input;
    unsigned before;
};

/* A round: so many bays with the first sequence, and the other bays with the second. */
struct dear_round {
    unsigned count;
    struct dear_bay bays[2];
};

/* The least time of some tries in nanoseconds, and the reactions of all instants. */
struct dear_cost {
    double time;
    uint32_t reactions;
};

/* Fills a bay of the box, up to the instant before the dear one; its ledger is empty then. */
static inline bool fill_bay(uint8_t *box, uint32_t bay, const struct dear_bay *dear)
{
    uint8_t answer[INTAKE_ANSWER_LENGTH], record[INTAKE_RECORD_LENGTH];
    if (intake_box_admit(box, INTAKE_BOX_LENGTH, bay, dear->bytes, dear->length, dear->read_back, 0) != INTAKE_ACCEPTED)
        return false;
    for (unsigned i = 0; i < dear->before; i++)
        if (intake_box_tick(box, INTAKE_BOX_LENGTH, bay, dear->input, answer, sizeof answer, record, sizeof record) != 0 ||
            intake_answer_code(answer) != INTAKE_WAITING)
            return false;
    return intake_box_new_year(box, INTAKE_BOX_LENGTH, bay) == INTAKE_ACCEPTED;
}

/* What looking at the clock twice takes by itself. */
static inline double clock_time(void)
{
    static double least = INFINITY;
    for (unsigned i = isinf(least) ? 1000 : 0; i > 0; i--) {
        double start = nanoseconds();
        least = fmin(least, nanoseconds() - start);
    }
    return least;
}

/* Ticks so many bays of a box once. */
static inline struct dear_cost tick_bays(uint8_t *box, const uint32_t *inputs, unsigned count)
{
    uint8_t answers[INTAKE_BAY_COUNT][INTAKE_ANSWER_LENGTH], record[INTAKE_RECORD_LENGTH];
    struct dear_cost cost = {0, 0};
    uint8_t numbers = 0;
    double start = nanoseconds();
    for (unsigned i = 0; i < count; i++)
        numbers |= intake_box_tick(box, INTAKE_BOX_LENGTH, i, inputs[i], answers[i], sizeof *answers, record, sizeof record);
    cost.time = nanoseconds() - start - clock_time();
    for (unsigned i = 0; i < count && numbers == 0; i++)
        cost.reactions += intake_answer_reactions(answers[i]);
    return cost;
}

/* The cost of one instant of each of so many bays of the box, which is as before then; no reactions if one is turned down. */
static inline struct dear_cost cost_of_ticks(uint8_t *box, const uint32_t *inputs, unsigned count, unsigned tries)
{
    static uint8_t kept[INTAKE_BOX_LENGTH];
    struct dear_cost least = {INFINITY, 0};
    memcpy(kept, box, sizeof kept);
    for (unsigned i = 0; i < tries; i++) {
        struct dear_cost cost = tick_bays(box, inputs, count);
        least.time = fmin(least.time, cost.time);
        least.reactions = cost.reactions;
        if (i + 1 < tries)
            memcpy(box, kept, sizeof kept);
    }
    return least;
}

/* The cost of one instant of each bay of a round. */
static inline struct dear_cost cost_of_round(const struct dear_round *round, uint8_t *box, unsigned tries)
{
    uint32_t inputs[INTAKE_BAY_COUNT];
    memset(box, 0, INTAKE_BOX_LENGTH);
    for (uint32_t bay = 0; bay < INTAKE_BAY_COUNT; bay++) {
        const struct dear_bay *dear = &round->bays[bay >= round->count];
        inputs[bay] = dear->input;
        if (!fill_bay(box, bay, dear))
            return (struct dear_cost){INFINITY, 0};
    }
    return cost_of_ticks(box, inputs, INTAKE_BAY_COUNT, tries);
}

/* The least time of some previews of the first bay's next instant. */
static inline double preview_time(const uint8_t *box, uint32_t input, uint32_t unknown, unsigned tries)
{
    uint8_t preview[INTAKE_PREVIEW_LENGTH];
    double least = INFINITY;
    for (unsigned i = 0; i < tries; i++) {
        double start = nanoseconds();
        if (intake_box_preview(box, INTAKE_BOX_LENGTH, 0, input, unknown, preview, sizeof preview) != INTAKE_ACCEPTED)
            return 0;
        least = fmin(least, nanoseconds() - start - clock_time());
    }
    return least;
}

/* The reactions of the instants of the first bay by all fillings of the unknown inputs, each from the same box. */
static inline uint32_t reactions_of_fillings(const uint8_t *box, uint32_t input, uint32_t unknown)
{
    uint8_t tried[INTAKE_BOX_LENGTH], answer[INTAKE_ANSWER_LENGTH], record[INTAKE_RECORD_LENGTH];
    uint32_t reactions = 0, filling = unknown;
    do {
        filling = (filling - 1) & unknown;
        memcpy(tried, box, sizeof tried);
        if (intake_box_tick(tried, sizeof tried, 0, (input & ~unknown) | filling, answer, sizeof answer, record, sizeof record) != 0)
            return 0;
        reactions += intake_answer_reactions(answer);
    } while (filling != unknown && unknown != 0);
    return reactions;
}

/* The bytes of a command with its operands. */
static inline size_t command_bytes(uint8_t command)
{
    return command == 0x0C ? 6 : command == 0 || strchr("\x01\x02\x03\x07\x08\x0A\x0B", command) == NULL ? 1 : 2;
}

/* The bay with each emission without its litres. */
static inline struct dear_bay without_litres(const struct dear_bay *bay)
{
    struct dear_bay plain = *bay;
    plain.length = 0;
    for (size_t at = 0; at < bay->length; at += command_bytes(bay->bytes[at])) {
        size_t bytes = bay->bytes[at] == 0x0C ? 2 : command_bytes(bay->bytes[at]);
        memcpy(plain.bytes + plain.length, bay->bytes + at, bytes);
        if (bay->bytes[at] == 0x0C)
            plain.bytes[plain.length] = 0x02;
        plain.length += bytes;
    }
    return plain;
}

/* Whether the ledger of the bay has litres of every farm. */
static inline bool all_farms(const uint8_t *box, uint32_t bay)
{
    uint8_t ledger[INTAKE_LEDGER_LENGTH];
    if (intake_box_ledger(box, INTAKE_BOX_LENGTH, bay, ledger, sizeof ledger) != INTAKE_ACCEPTED)
        return false;
    for (unsigned farm = 0; farm < INTAKE_FARM_COUNT; farm++)
        if (intake_ledger_farm(ledger, farm) == 0)
            return false;
    return true;
}

#endif
