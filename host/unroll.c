/*
 * The writing out of loops through include/intake.h, built with sanitizers: every line of the table that is the argument
 * (host/unrolls.txt), with the sequence and the buffer between unreadable pages, the buffer of a call turned down in
 * read-only memory, and buffers of other lengths. The last line is 'N passed, M failed'.
 */
#include "testing.h"

#include "intake.h"

/* A call with pages for its two buffers, of which the second is full of `fill`. */
struct call {
    struct bytes sequence, buffer;
    uint32_t read_back;
    struct page pages[2];
    uint8_t fill;
};

static void refill(struct call *call, size_t count)
{
    call->fill = (uint8_t)(call->fill * 5 + 1);
    call->buffer.count = count;
    memset(call->buffer.at, call->fill, count);
}

/* Number, length and buffer are those of the line; a buffer that must keep its bytes cannot be written. */
static void one(struct call *call, bool at_end, uint8_t number, const struct bytes *result, const char *line)
{
    const uint8_t *sequence = place(call->pages[0], at_end, &call->sequence, false);
    uint8_t *buffer = place(call->pages[1], at_end, &call->buffer, number == INTAKE_ACCEPTED);
    size_t length = SIZE_MAX;
    uint8_t answer = intake_unroll(sequence, call->sequence.count, call->read_back, buffer, call->buffer.count, &length);
    struct bytes expected = call->buffer;
    memcpy(expected.at, result->at, result->count);
    expect(answer == number && length == result->count && memcmp(buffer, expected.at, expected.count) == 0, answer, "pages",
           line);
    if (number == INTAKE_ACCEPTED)
        expect(intake_check(buffer, length, call->read_back) == INTAKE_ACCEPTED, answer, "accepted again", line);
}

static void run(const char *line)
{
    static const size_t other_lengths[] = {0, 1, INTAKE_RESULT_LENGTH - 1, INTAKE_RESULT_LENGTH + 1, CAPACITY};
    static const struct bytes none = {.count = 0};
    struct call call = {.sequence = {.count = 0}, .pages = {new_page(), new_page()}, .fill = 1};
    struct bytes result = {.count = 0};
    char *after;
    uint8_t number = (uint8_t)strtoul(line, &after, 10);
    const char *bar = *after == ':' ? program(after + 1, &call.sequence, &call.read_back) : after;
    if (*bar != '|' || *expand(bar + 1, &result) != '\n')
        die("no line of a table", line);
    for (int at_end = 0; at_end < 2; at_end++) {
        refill(&call, INTAKE_RESULT_LENGTH);
        one(&call, at_end, number, &result, line);
        for (unsigned i = 0; i < sizeof other_lengths / sizeof *other_lengths; i++) {
            refill(&call, other_lengths[i]);
            one(&call, at_end, INTAKE_BUFFER_LENGTH, &none, line);
        }
    }
    free_page(call.pages[0]);
    free_page(call.pages[1]);
}

int main(int argc, char **argv)
{
    each_line(argc == 2 ? argv[1] : NULL, run);
    uint8_t buffer[INTAKE_RESULT_LENGTH];
    size_t length = 1;
    uint8_t answer = intake_unroll(NULL, 0, 0, buffer, sizeof buffer, &length);
    expect(answer == INTAKE_SEQUENCE_LENGTH && length == 0, answer, "null pointer", "2: |\n");
    answer = intake_unroll(NULL, 0, 0, NULL, 0, &length);
    expect(answer == INTAKE_BUFFER_LENGTH && length == 0, answer, "null pointers", "1: |\n");
    return verdict();
}
