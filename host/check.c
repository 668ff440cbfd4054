/*
 * The check and the ceiling through include/intake.h, built with sanitizers: every line of the table that is the argument
 * (host/examples.txt), in buffers that show a read outside the sequence, a write, or an answer that depends on either. A
 * ceiling is 0 exactly if the check turns the sequence down, and some are written by hand.
 * The last line is 'N passed, M failed'.
 */
#include "testing.h"

#include "intake.h"

static uint32_t ceiling; /* of the line's sequence, as it was given first */

/* The ceiling is what it was given first, and fits the number. */
static void expect_ceiling(uint8_t number, const uint8_t *sequence, size_t length, uint32_t read_back, const char *line)
{
    uint32_t most = intake_ceiling(sequence, length, read_back);
    expect(most == ceiling && (most == 0) == (number != INTAKE_ACCEPTED), most, "ceiling", line);
}

/* A heap block of exactly the sequence's length. */
static void on_the_heap(uint8_t number, const struct bytes *sequence, uint32_t read_back, const char *line)
{
    uint8_t *block = malloc(sequence->count);
    if (block == NULL && sequence->count > 0)
        die("no memory", line);
    for (size_t i = 0; i < sequence->count; i++)
        block[i] = sequence->at[i];
    uint8_t answer = intake_check(block, sequence->count, read_back);
    expect(answer == number, answer, "heap", line);
    ceiling = intake_ceiling(block, sequence->count, read_back);
    expect_ceiling(number, block, sequence->count, read_back, line);
    free(block);
}

/* Guard bytes on both sides: their value does not matter, and neither they nor the sequence change. */
static void between_guards(uint8_t number, const struct bytes *sequence, uint32_t read_back, uint8_t guard,
                           const char *line)
{
    uint8_t buffer[GUARD + CAPACITY + GUARD], copy[sizeof buffer];
    memset(buffer, guard, sizeof buffer);
    memcpy(buffer + GUARD, sequence->at, sequence->count);
    memcpy(copy, buffer, sizeof buffer);
    uint8_t answer = intake_check(buffer + GUARD, sequence->count, read_back);
    expect_ceiling(number, buffer + GUARD, sequence->count, read_back, line);
    expect(answer == number && memcmp(buffer, copy, sizeof buffer) == 0, answer, "guards", line);
}

/* Read-only memory that ends at one unreadable page and begins at another. */
static void between_pages(uint8_t number, const struct bytes *sequence, uint32_t read_back, const char *line)
{
    struct page page = new_page();
    for (int at_end = 0; at_end < 2; at_end++) {
        const uint8_t *at = place(page, at_end, sequence, false);
        uint8_t answer = intake_check(at, sequence->count, read_back);
        expect(answer == number, answer, "pages", line);
        expect_ceiling(number, at, sequence->count, read_back, line);
    }
    free_page(page);
}

static void run(const char *line)
{
    struct bytes sequence = {.count = 0};
    uint32_t read_back;
    char *after;
    uint8_t number = (uint8_t)strtoul(line, &after, 10);
    if (*after != ':' || *program(after + 1, &sequence, &read_back) != '\n')
        die("no line of a table", line);
    on_the_heap(number, &sequence, read_back, line);
    between_guards(number, &sequence, read_back, 0x00, line);
    between_guards(number, &sequence, read_back, 0xFF, line);
    between_pages(number, &sequence, read_back, line);
}

/* Ceilings by hand: commands * (1 + loops) * 2^signals (02, item 6). */
static void ceilings_by_hand(void)
{
    static const struct { const char *line; uint32_t most; } known[] = {
        {"00\n", 1},
        {"06 01 00\n", 2 * 2},
        {"08 00 04 02 00 04 01 01 02 01\n", 6 * 2},
        {"02 00 & 00000001\n", 2 * 2},
        {"02 00 & 8000001F\n", 7 * 64},
        {"63(06) 01 00\n", 64 * 64},
        {"0C 1F 00 00 80 4B\n", 1},
        {"1022(0D)\n", 0},
        {"00 & 0000007F\n", 0},
    };
    for (size_t i = 0; i < sizeof known / sizeof *known; i++) {
        struct bytes sequence = {.count = 0};
        uint32_t read_back;
        program(known[i].line, &sequence, &read_back);
        uint32_t most = intake_ceiling(sequence.at, sequence.count, read_back);
        expect(most == known[i].most, most, "ceiling by hand", known[i].line);
    }
    expect(intake_ceiling(NULL, 0, 0) == 0, 0, "ceiling by a null pointer", "2:\n");
}

int main(int argc, char **argv)
{
    each_line(argc == 2 ? argv[1] : NULL, run);
    uint8_t answer = intake_check(NULL, 0, UINT32_MAX);
    expect(answer == INTAKE_SEQUENCE_LENGTH, answer, "null pointer", "2:\n");
    ceilings_by_hand();
    return verdict();
}
