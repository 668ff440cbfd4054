/*
 * What a planner counts, as the archive has it: for each run file that is named, the ceiling that a box keeps of its sequence
 * ('refused' and the number where it admits none), and a listing with the number of reactions of each instant.
 *
 *     gcc -Iinclude host/reactions.c target/staticlib/libintake.a -o reactions
 *     ./reactions examples/intake.bin
 */
#include "intake.h"

#include <inttypes.h>
#include <stdbool.h>
#include <stdio.h>

enum { MAX_FILE = 65536, LENGTH_BYTES = 2, SET_BYTES = 4, CEILING_AT = 1030 }; /* docs/FORMAT.md, 'Box' */

static uint8_t file[MAX_FILE];

static uint32_t number_at(const uint8_t *bytes)
{
    return (uint32_t)bytes[0] | (uint32_t)bytes[1] << 8 | (uint32_t)bytes[2] << 16 | (uint32_t)bytes[3] << 24;
}

static void print_ceiling(const uint8_t *sequence, size_t length, uint32_t read_back)
{
    static uint8_t box[INTAKE_BOX_LENGTH];
    uint8_t number = intake_box_admit(box, sizeof box, 0, sequence, length, read_back, 0);
    if (number == INTAKE_ACCEPTED)
        printf("ceiling %" PRIu32 "\n", number_at(box + CEILING_AT));
    else
        printf("refused %u\n", (unsigned)number);
    if (number == INTAKE_ACCEPTED)
        intake_box_release(box, sizeof box, 0);
}

static void print_instant(size_t instant, const uint8_t *answer, const uint8_t *state)
{
    printf("%zu %u %u %u %08" PRIx32 " ", instant, (unsigned)intake_answer_code(answer), (unsigned)intake_answer_kind(answer),
           (unsigned)intake_answer_place(answer), intake_answer_emitted(answer));
    for (size_t byte = INTAKE_STATE_LABELS_LENGTH; byte > 0; byte--)
        printf("%02x", (unsigned)state[INTAKE_STATE_LABELS + byte - 1]);
    printf(" %" PRIu32 "\n", number_at(answer + INTAKE_ANSWER_REACTIONS));
}

static void print_run(const uint8_t *sequence, size_t length, uint32_t read_back, const uint8_t *inputs, size_t count)
{
    uint8_t state[INTAKE_STATE_LENGTH] = {0}, answer[INTAKE_ANSWER_LENGTH];
    puts("instant code kind place emitted labels reactions");
    for (size_t instant = 0; instant < count; instant++) {
        uint8_t number = intake_tick(sequence, length, state, sizeof state, number_at(inputs + SET_BYTES * instant), read_back,
                                     answer, sizeof answer);
        if (number != INTAKE_ACCEPTED)
            break;
        print_instant(instant + 1, answer, state);
    }
    puts("end");
}

static bool print_file(const char *path)
{
    FILE *stream = fopen(path, "rb");
    if (stream == NULL)
        return false;
    size_t count = fread(file, 1, sizeof file, stream);
    fclose(stream);
    if (count < LENGTH_BYTES)
        return false;
    size_t length = (size_t)file[0] | (size_t)file[1] << 8, inputs = LENGTH_BYTES + length + SET_BYTES;
    if (count < inputs)
        return false;
    uint32_t read_back = number_at(file + LENGTH_BYTES + length);
    print_ceiling(file + LENGTH_BYTES, length, read_back);
    print_run(file + LENGTH_BYTES, length, read_back, file + inputs, (count - inputs) / SET_BYTES);
    return true;
}

int main(int count, char **words)
{
    for (int at = 1; at < count; at++)
        if (!print_file(words[at])) {
            fprintf(stderr, "%s: no run file\n", words[at]);
            return 1;
        }
    return 0;
}
