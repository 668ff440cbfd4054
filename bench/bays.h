/* A run of a shipped bay, from its cleared record to its last instant: what a host really calls. */
#ifndef BAYS_H
#define BAYS_H

#include "intake.h"
#include "plain.h"
#include "timing.h"

#include <stdbool.h>
#include <stdint.h>
#include <string.h>

typedef uint8_t ticks(const uint8_t *, size_t, uint8_t *, size_t, uint32_t, uint32_t, uint8_t *, size_t);

enum { BAY_SIZE = 4096 };

/* A run file: the length of the sequence, its bytes, the read-back set, then an input for each instant. */
struct bay {
    uint8_t file[BAY_SIZE];
    size_t size, length;
    unsigned instants, runs;
};

static inline uint32_t word_at(const uint8_t *p)
{
    return p[0] | (uint32_t)p[1] << 8 | (uint32_t)p[2] << 16 | (uint32_t)p[3] << 24;
}

/* Ticks until the inputs or the machine end, and tells how many instants that took; 0 if a call was turned down. */
static inline unsigned run_bay(ticks *tick, const struct bay *bay, uint8_t *answer)
{
    const uint8_t *sequence = bay->file + 2, *inputs = sequence + bay->length + 4;
    uint32_t read_back = word_at(inputs - 4);
    uint8_t state[INTAKE_STATE_LENGTH] = {0};
    unsigned instants = 0;
    for (; inputs + 4 <= bay->file + bay->size && state[0] != 2; inputs += 4, instants++)
        if (tick(sequence, bay->length, state, sizeof state, word_at(inputs), read_back, answer, INTAKE_ANSWER_LENGTH) != 0)
            return 0;
    return instants;
}

/* Processor nanoseconds of an instant, in the mean of the runs of one sample. */
static inline double sample_bay(const void *what, int plain)
{
    const struct bay *bay = what;
    uint8_t answer[INTAKE_ANSWER_LENGTH];
    double start = nanoseconds();
    for (unsigned i = 0; i < bay->runs; i++)
        run_bay(plain ? plain_tick : intake_tick, bay, answer);
    return (nanoseconds() - start) / bay->runs / bay->instants;
}

/* Reads a run file that both accept and run alike. */
static inline bool read_bay(struct bay *bay, const char *path)
{
    uint8_t answers[2][INTAKE_ANSWER_LENGTH];
    FILE *file = fopen(path, "rb");
    if (file == NULL)
        return false;
    bay->size = fread(bay->file, 1, BAY_SIZE, file);
    fclose(file);
    bay->length = bay->size < 2 ? BAY_SIZE : (size_t)(bay->file[0] | bay->file[1] << 8);
    if (bay->size < bay->length + 6)
        return false;
    bay->instants = run_bay(intake_tick, bay, answers[0]);
    bay->runs = 40;
    return bay->instants != 0 && run_bay(plain_tick, bay, answers[1]) == bay->instants &&
           memcmp(answers[0], answers[1], sizeof *answers) == 0;
}

/* Prints the row of each run file, and the geometric mean of their ratios. */
static inline void bay_rows(int count, char **paths)
{
    double logarithms = 0;
    printf("runs of the shipped bays, the mean of their instants:\n%-30s %5s %9s %10s %10s %6s\n", "bay", "bytes", "instants",
           "intake", "plain", "ratio");
    for (int i = 0; i < count; i++) {
        static struct bay bay;
        if (!read_bay(&bay, paths[i])) {
            fprintf(stderr, "%s: not a run that both accept, or not the same\n", paths[i]);
            exit(1);
        }
        struct comparison c = compare(sample_bay, &bay, ROUNDS);
        printf("%-30s %5zu %9u %10.0f %10.0f %6.2f\n", paths[i], bay.length, bay.instants, c.intake, c.plain, c.ratio);
        logarithms += log(c.ratio);
    }
    if (count > 0)
        printf("geometric mean of the bays' ratios %.2f\n", exp(logarithms / count));
}

#endif
