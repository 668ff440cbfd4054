/*
 * The tick through include/intake.h, built with sanitizers: every line of the table that is the argument
 * (host/ticks.txt), in buffers that show a read outside of them, a write outside of the records, and any write by a
 * call that is turned down. The last line is 'N passed, M failed'.
 */
#include "testing.h"

#include "intake.h"

/* A tick and what it gives. */
struct tick {
    struct bytes sequence, state, answer;
    uint32_t input, read_back;
    uint8_t number;
    struct bytes state_after, answer_after;
};

static const char *field(const char *text, const char *line)
{
    if (*text != '|')
        die("no line of a table", line);
    return text + 1;
}

/* The answer buffer is full of `fill` before the tick. */
static struct tick read_line(const char *line, uint8_t fill)
{
    struct tick t = {.number = 0};
    char *after;
    t.number = (uint8_t)strtoul(line, &after, 10);
    if (*after != ':')
        die("no line of a table", line);
    const char *text = field(program(after + 1, &t.sequence, &t.read_back), line);
    text = field(expand(text, &t.state), line);
    t.answer.count = strtoul(text, &after, 10);
    memset(t.answer.at, fill, t.answer.count);
    text = field(after + strspn(after, " "), line);
    t.input = (uint32_t)strtoul(text, &after, 16);
    if (t.number == 0) {
        text = field(after + strspn(after, " "), line);
        text = field(expand(text, &t.state_after), line);
        text = expand(text, &t.answer_after);
    } else {
        text = after;
        t.state_after = t.state;
        t.answer_after = t.answer;
    }
    if (*text != '\n' || t.state_after.count != t.state.count || t.answer_after.count != t.answer.count)
        die("no line of a table", line);
    return t;
}

/*
 * Ticks, and compares the number and both records; the three buffers hold what `t` says. The host's status of a
 * read-back signal is ignored, so every second tick turns it.
 */
static void run_in(const struct tick *t, const uint8_t *sequence, uint8_t *state, uint8_t *answer, const char *where,
                   const char *line)
{
    static bool turned;
    uint32_t input = turned ? t->input ^ t->read_back : t->input;
    turned = !turned;
    uint8_t number = intake_tick(sequence, t->sequence.count, state, t->state.count, input, t->read_back, answer,
                                 t->answer.count);
    bool same = memcmp(sequence, t->sequence.at, t->sequence.count) == 0 &&
                memcmp(state, t->state_after.at, t->state.count) == 0 &&
                memcmp(answer, t->answer_after.at, t->answer.count) == 0;
    expect(number == t->number && same, number, where, line);
}

static bool all(const uint8_t *bytes, size_t count, uint8_t value)
{
    for (size_t i = 0; i < count; i++)
        if (bytes[i] != value)
            return false;
    return true;
}

/* One buffer with guard bytes around each of the three, or with none between them. */
static void between_guards(const struct tick *t, size_t gap, uint8_t guard, const char *line)
{
    static uint8_t buffer[3 * CAPACITY + 4 * GUARD];
    memset(buffer, guard, sizeof buffer);
    uint8_t *sequence = buffer + GUARD;
    uint8_t *state = sequence + t->sequence.count + gap;
    uint8_t *answer = state + t->state.count + gap, *end = answer + t->answer.count;
    memcpy(sequence, t->sequence.at, t->sequence.count);
    memcpy(state, t->state.at, t->state.count);
    memcpy(answer, t->answer.at, t->answer.count);
    run_in(t, sequence, state, answer, gap == 0 ? "no gaps" : "guards", line);
    bool kept = all(buffer, GUARD, guard) && all(end, GUARD, guard);
    if (gap != 0)
        kept = kept && all(state - gap, gap, guard) && all(answer - gap, gap, guard);
    expect(kept, t->number, "the guards", line);
}

/* Each buffer in a page of its own: the sequence, and after a refusal the records too, in read-only memory. */
static void between_pages(const struct tick *t, const char *line)
{
    struct page pages[3] = {new_page(), new_page(), new_page()};
    for (int at_end = 0; at_end < 2; at_end++) {
        const uint8_t *sequence = place(pages[0], at_end, &t->sequence, false);
        uint8_t *state = place(pages[1], at_end, &t->state, t->number == 0);
        uint8_t *answer = place(pages[2], at_end, &t->answer, t->number == 0);
        run_in(t, sequence, state, answer, "pages", line);
    }
    for (int i = 0; i < 3; i++)
        free_page(pages[i]);
}

static void run(const char *line)
{
    for (int i = 0; i < 2; i++) {
        uint8_t fill = i == 0 ? 0x00 : 0xFF;
        struct tick t = read_line(line, (uint8_t)~fill);
        between_guards(&t, GUARD, fill, line);
        between_guards(&t, 0, fill, line);
        between_pages(&t, line);
    }
}

/* A host in short: 01's listing, with the names of the header. */
static void listing(void)
{
    static const uint8_t sequence[] = {0x08, 0x00, 0x04, 0x02, 0x00, 0x04, 0x01, 0x01, 0x02, 0x01};
    uint8_t state[INTAKE_STATE_LENGTH] = {0}, answer[INTAKE_ANSWER_LENGTH];
    uint8_t number = intake_tick(sequence, sizeof sequence, state, sizeof state, 0, 0, answer, sizeof answer);
    expect(number == INTAKE_ACCEPTED && answer[INTAKE_ANSWER_CODE] == INTAKE_WAITING &&
               answer[INTAKE_ANSWER_KIND] == INTAKE_NO_ERROR && state[INTAKE_STATE_PHASE] == INTAKE_PHASE_WAITING &&
               state[INTAKE_STATE_LABELS] == 1 << 1 && answer[INTAKE_ANSWER_REACTIONS] == 1 + 2 * 4,
           number, "first instant", "listing\n");
    number = intake_tick(sequence, sizeof sequence, state, sizeof state, 0, 0, answer, sizeof answer);
    expect(number == INTAKE_ACCEPTED && answer[INTAKE_ANSWER_CODE] == INTAKE_ENDED &&
               answer[INTAKE_ANSWER_EMITTED] == 1 << 1 && state[INTAKE_STATE_PHASE] == INTAKE_PHASE_OVER &&
               answer[INTAKE_ANSWER_REACTIONS] == 1 + 2 * 3,
           number, "second instant", "listing\n");
    number = intake_tick(sequence, sizeof sequence, state, sizeof state, 0, 0, answer, sizeof answer);
    expect(number == INTAKE_OVER, number, "once over", "listing\n");
}

/* A valve, 8, that the sequence opens and then reads back for the pump, 9; and one that it opens only if it is closed. */
static void read_back(void)
{
    static const uint8_t opens[] = {0x04, 0x02, 0x08, 0x07, 0x08, 0x02, 0x09, 0x00};
    static const uint8_t errs[] = {0x07, 0x08, 0x00, 0x02, 0x08};
    enum { VALVE = 1 << 8 };
    uint8_t state[INTAKE_STATE_LENGTH] = {0}, answer[INTAKE_ANSWER_LENGTH];
    uint8_t number = intake_tick(opens, sizeof opens, state, sizeof state, 0, VALVE, answer, sizeof answer);
    expect(number == INTAKE_ACCEPTED && answer[INTAKE_ANSWER_CODE] == INTAKE_ENDED &&
               answer[INTAKE_ANSWER_EMITTED + 1] == 3,
           number, "valve open", "read-back\n");
    memset(state, 0, sizeof state);
    number = intake_tick(opens, sizeof opens, state, sizeof state, 0, 0, answer, sizeof answer);
    expect(number == INTAKE_ACCEPTED && answer[INTAKE_ANSWER_CODE] == INTAKE_ENDED &&
               answer[INTAKE_ANSWER_EMITTED + 1] == 1,
           number, "not read back", "read-back\n");
    memset(state, 0, sizeof state);
    number = intake_tick(errs, sizeof errs, state, sizeof state, 0, VALVE, answer, sizeof answer);
    expect(number == INTAKE_ACCEPTED && answer[INTAKE_ANSWER_CODE] == INTAKE_WRONG &&
               answer[INTAKE_ANSWER_KIND] == INTAKE_NOT_REACTIVE &&
               answer[INTAKE_ANSWER_PLACE] + 256 * answer[INTAKE_ANSWER_PLACE + 1] == INTAKE_PLACE_READ_BACK,
           number, "a place outside", "read-back\n");
}

/* Writes a pause for each of `count` labels from `label` on, side by side, and returns their end. */
static uint8_t *side_by_side(uint8_t *at, unsigned label, unsigned count)
{
    if (count == 1) {
        *at++ = 0x01;
        *at++ = (uint8_t)label;
        return at;
    }
    *at++ = 0x05;
    return side_by_side(side_by_side(at, label, count / 2), label + count / 2, count - count / 2);
}

/* All labels at once: every bit of the set, then none; each label alone is a state of its own. */
static void every_label(void)
{
    enum { LABELS = 8 * INTAKE_STATE_LABELS_LENGTH };
    uint8_t sequence[3 * LABELS - 1], state[INTAKE_STATE_LENGTH] = {0}, answer[INTAKE_ANSWER_LENGTH];
    uint8_t *labels = state + INTAKE_STATE_LABELS;
    size_t length = (size_t)(side_by_side(sequence, 0, LABELS) - sequence);
    uint8_t number = intake_tick(sequence, length, state, sizeof state, 0, 0, answer, sizeof answer);
    expect(number == INTAKE_ACCEPTED && answer[INTAKE_ANSWER_CODE] == INTAKE_WAITING &&
               state[INTAKE_STATE_PHASE] == INTAKE_PHASE_WAITING && all(labels, INTAKE_STATE_LABELS_LENGTH, 0xFF),
           number, "all wait", "labels\n");
    number = intake_tick(sequence, length, state, sizeof state, 0, 0, answer, sizeof answer);
    expect(number == INTAKE_ACCEPTED && answer[INTAKE_ANSWER_CODE] == INTAKE_ENDED &&
               state[INTAKE_STATE_PHASE] == INTAKE_PHASE_OVER && all(labels, INTAKE_STATE_LABELS_LENGTH, 0x00),
           number, "all end", "labels\n");
    for (unsigned label = 0; label < LABELS; label++) {
        const uint8_t pause[] = {0x01, (uint8_t)label};
        memset(state, 0, sizeof state);
        number = intake_tick(pause, sizeof pause, state, sizeof state, 0, 0, answer, sizeof answer);
        bool alone = labels[label / 8] == 1 << label % 8;
        labels[label / 8] = 0;
        expect(number == INTAKE_ACCEPTED && alone && all(labels, INTAKE_STATE_LABELS_LENGTH, 0x00), number, "one label",
               "labels\n");
    }
    const uint8_t outside[] = {0x01, LABELS};
    number = intake_check(outside, sizeof outside, 0);
    expect(number == INTAKE_OPERAND_RANGE, number, "label 128", "labels\n");
}

/* Whether the double of a single-precision number's digits is what 02, item 12, allows: a double holds all of them. */
static bool are_litres(uint32_t bits)
{
    int exponent = (int)(bits >> 23 & 0xFF);
    double value = (double)(bits & 0x7FFFFF) + (exponent == 0 ? 0 : 0x800000);
    if (exponent == 255 || bits >> 31 != 0)
        return false;
    for (int power = exponent == 0 ? 1 : exponent; power != 150; power += power < 150 ? 1 : -1)
        value = power < 150 ? value / 2 : value * 2;
    return value <= 16777216 && (double)(uint32_t)value == value;
}

/* Litres of both signs and every exponent, with each digit alone, with all below it and with all above it. */
static void every_exponent(void)
{
    unsigned accepted = 0;
    for (uint32_t above = 0; above < 512; above++)
        for (unsigned digit = 0; digit <= 23; digit++)
            for (unsigned form = 0; form < 3; form++) {
                uint32_t one = UINT32_C(1) << digit, below = one - 1;
                uint32_t bits = above << 23 | ((form == 0 ? one : form == 1 ? below : ~below) & 0x7FFFFF);
                const uint8_t sequence[] = {0x0C, 0x1F, (uint8_t)bits, (uint8_t)(bits >> 8), (uint8_t)(bits >> 16),
                                            (uint8_t)(bits >> 24)};
                uint8_t state[INTAKE_STATE_LENGTH] = {0}, answer[INTAKE_ANSWER_LENGTH] = {0};
                uint8_t number = intake_check(sequence, sizeof sequence, 0), expected = are_litres(bits) ? 0 : 18;
                uint8_t ticked = intake_tick(sequence, sizeof sequence, state, sizeof state, 0, 0, answer, sizeof answer);
                bool emits = intake_answer_emitted(answer) == (expected == 0 ? UINT32_C(1) << 31 : 0);
                expect(number == expected && ticked == expected && emits, number, "litres of every exponent", "18\n");
                accepted += number == 0;
            }
    expect(accepted > 500, accepted & 0xFF, "litres that are accepted", "\n");
}

static void null_pointers(void)
{
    uint8_t state[INTAKE_STATE_LENGTH] = {0}, answer[INTAKE_ANSWER_LENGTH];
    uint8_t number = intake_tick(NULL, 0, NULL, 0, 0, UINT32_MAX, NULL, 0);
    expect(number == INTAKE_BUFFER_LENGTH, number, "null pointers", "1\n");
    number = intake_tick(NULL, 0, state, sizeof state, 0, UINT32_MAX, answer, sizeof answer);
    expect(number == INTAKE_SEQUENCE_LENGTH, number, "null pointer", "2\n");
}

_Static_assert(INTAKE_STATE_LABELS + INTAKE_STATE_LABELS_LENGTH == INTAKE_STATE_LENGTH, "the state record");
_Static_assert(INTAKE_ANSWER_PLACE + INTAKE_ANSWER_PLACE_LENGTH == INTAKE_ANSWER_EMITTED, "the answer record");
_Static_assert(INTAKE_ANSWER_EMITTED + INTAKE_ANSWER_EMITTED_LENGTH == INTAKE_ANSWER_REACTIONS, "the answer record");
_Static_assert(INTAKE_ANSWER_REACTIONS + INTAKE_ANSWER_REACTIONS_LENGTH == INTAKE_ANSWER_LENGTH, "the answer record");

int main(int argc, char **argv)
{
    each_line(argc == 2 ? argv[1] : NULL, run);
    listing();
    read_back();
    every_label();
    every_exponent();
    null_pointers();
    return verdict();
}
