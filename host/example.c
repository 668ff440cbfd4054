/*
 * A small host: runs the bay of a run file (document 01, 'Bays to run') and prints its listing, as target/bin/run does.
 *
 *     gcc -Iinclude host/example.c target/staticlib/libintake.a -o example
 *     ./example examples/intake.bin
 */
#include "intake.h"

#include <inttypes.h>
#include <stdio.h>
#include <stdlib.h>

/* The run file: the length of the sequence, the sequence, its read-back set, then an input for each instant. */
enum { MAX_FILE = 65536, LENGTH_BYTES = 2, READ_BACK_BYTES = 4, INPUT_BYTES = 4 };

/* A bay: its sequence and the outputs that it reads back, which nobody changes, and the two records that the tick writes. */
struct bay {
    const uint8_t *sequence;
    size_t length;
    uint32_t read_back;
    uint8_t state[INTAKE_STATE_LENGTH];
    uint8_t answer[INTAKE_ANSWER_LENGTH];
};

/* The number in `count` bytes, at most 4, lowest first. */
static uint32_t number_in(const uint8_t *bytes, size_t count)
{
    uint32_t number = 0;
    while (count > 0)
        number = number << 8 | bytes[--count];
    return number;
}

static uint8_t tick(struct bay *bay, uint32_t input)
{
    return intake_tick(bay->sequence, bay->length, bay->state, sizeof bay->state, input, bay->read_back, bay->answer,
                       sizeof bay->answer);
}

/* A set in hexadecimal digits: its bytes are lowest first, the digits highest first. */
static void print_set(const uint8_t *bytes, size_t count)
{
    while (count > 0)
        printf("%02x", (unsigned)bytes[--count]);
}

/* A line of the listing. A host that steers a plant acts on the code and the emitted set here instead. */
static void print_instant(size_t instant, const struct bay *bay)
{
    const uint8_t *answer = bay->answer;
    printf("%zu %u %u %" PRIu32 " ", instant, (unsigned)answer[INTAKE_ANSWER_CODE], (unsigned)answer[INTAKE_ANSWER_KIND],
           number_in(answer + INTAKE_ANSWER_PLACE, INTAKE_ANSWER_PLACE_LENGTH));
    print_set(answer + INTAKE_ANSWER_EMITTED, INTAKE_ANSWER_EMITTED_LENGTH);
    putchar(' ');
    print_set(bay->state + INTAKE_STATE_LABELS, INTAKE_STATE_LABELS_LENGTH);
    putchar('\n');
}

/* Checks the sequence once, then ticks until the machine is over or the inputs are used up. */
static void run(const uint8_t *sequence, size_t length, uint32_t read_back, const uint8_t *inputs, size_t instants)
{
    uint8_t number = intake_check(sequence, length, read_back);
    if (number != INTAKE_ACCEPTED) {
        printf("refused %u\n", (unsigned)number);
        return;
    }
    /* a cleared state record: a fresh machine */
    struct bay bay = {.sequence = sequence, .length = length, .read_back = read_back};
    puts("instant code kind place emitted labels");
    for (size_t i = 0; i < instants; i++) {
        /* After the last instant the answer is INTAKE_OVER. No other number comes from a checked sequence whose
         * state record only the tick has written. */
        if (tick(&bay, number_in(inputs + i * INPUT_BYTES, INPUT_BYTES)) != INTAKE_ACCEPTED)
            break;
        print_instant(i + 1, &bay);
    }
    puts("end");
}

static void run_file(const uint8_t *file, size_t count)
{
    size_t length = count < LENGTH_BYTES ? 0 : number_in(file, LENGTH_BYTES);
    size_t end = LENGTH_BYTES + length; /* of the sequence */
    size_t start = end + READ_BACK_BYTES; /* of the inputs */
    if (count > MAX_FILE || count < start || (count - start) % INPUT_BYTES != 0)
        puts("input cut");
    else
        run(file + LENGTH_BYTES, length, number_in(file + end, READ_BACK_BYTES), file + start,
            (count - start) / INPUT_BYTES);
}

int main(int argc, char **argv)
{
    static uint8_t file[MAX_FILE + 1]; /* one byte more shows that a file is too long */
    if (argc != 2) {
        fputs("usage: example RUN-FILE\n", stderr);
        return EXIT_FAILURE;
    }
    FILE *stream = fopen(argv[1], "rb");
    if (stream == NULL) {
        perror(argv[1]);
        return EXIT_FAILURE;
    }
    size_t count = fread(file, 1, sizeof file, stream);
    int unreadable = ferror(stream);
    fclose(stream);
    if (unreadable) {
        fprintf(stderr, "%s: cannot be read\n", argv[1]);
        return EXIT_FAILURE;
    }
    run_file(file, count);
    return fflush(stdout) == 0 ? EXIT_SUCCESS : EXIT_FAILURE;
}
