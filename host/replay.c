/*
 * Replays of recordings through include/intake.h, built with sanitizers: vectors by hand, every line of the table that is the
 * argument (host/examples.txt) as a sequence, and recordings of a bay of a box. The sequence and the recording stand in
 * read-only memory between unreadable pages. The last line is 'N passed, M failed'.
 */
#include "testing.h"

#include "intake.h"

enum { RECORD = INTAKE_RECORD_LENGTH, MANY = 10000, BAY = 3 };

static struct page sequence_page, recording_page;

/* A record, from its fields. */
struct fields {
    uint32_t number, inputs;
    uint8_t code, kind;
    uint16_t place;
    uint32_t emitted, reactions;
    uint8_t phase, labels; /* the labels 0 to 7 */
};

static void put(uint8_t *bytes, size_t count, uint32_t value)
{
    for (size_t i = 0; i < count; i++)
        bytes[i] = (uint8_t)(value >> 8 * i);
}

static void make(uint8_t *record, struct fields f)
{
    uint8_t *answer = record + INTAKE_RECORD_ANSWER, *state = record + INTAKE_RECORD_STATE;
    memset(record, 0, RECORD);
    put(record + INTAKE_RECORD_NUMBER, INTAKE_RECORD_NUMBER_LENGTH, f.number);
    put(record + INTAKE_RECORD_INPUTS, INTAKE_RECORD_INPUTS_LENGTH, f.inputs);
    answer[INTAKE_ANSWER_CODE] = f.code;
    answer[INTAKE_ANSWER_KIND] = f.kind;
    put(answer + INTAKE_ANSWER_PLACE, INTAKE_ANSWER_PLACE_LENGTH, f.place);
    put(answer + INTAKE_ANSWER_EMITTED, INTAKE_ANSWER_EMITTED_LENGTH, f.emitted);
    put(answer + INTAKE_ANSWER_REACTIONS, INTAKE_ANSWER_REACTIONS_LENGTH, f.reactions);
    state[INTAKE_STATE_PHASE] = f.phase;
    state[INTAKE_STATE_LABELS] = f.labels;
}

/* Replays the bytes at both ends of their pages, and expects the number and the place; the line ends a message. */
static void replay_line(uint8_t number, size_t place_wanted, const char *line, const uint8_t *recording, size_t length)
{
    struct bytes sequence = {.count = 0};
    uint32_t read_back;
    program(line, &sequence, &read_back);
    for (int at_end = 0; at_end < 2; at_end++) {
        const uint8_t *bytes = place(sequence_page, at_end, &sequence, false);
        uint8_t *at = recording_page.start + (at_end ? recording_page.size - length : 0);
        protect(recording_page, true);
        memcpy(at, recording, length);
        protect(recording_page, false);
        size_t given_place = 77;
        uint8_t given = intake_replay(bytes, sequence.count, read_back, at, length, &given_place);
        expect(given == number && given_place == place_wanted, given, "replay", line);
        if (given_place != place_wanted)
            printf("place %zu\n", given_place);
    }
}

static void replay(uint8_t number, size_t place_wanted, const char *text, const uint8_t *recording, size_t records)
{
    char line[256];
    snprintf(line, sizeof line, "%s\n", text);
    replay_line(number, place_wanted, line, recording, records * RECORD);
}

/* Waits at label 5, then ends; asks for no signal. */
#define PAUSE "01 05"

static struct fields waits(uint32_t number, uint32_t inputs)
{
    return (struct fields){.number = number, .inputs = inputs, .code = 1, .reactions = 1, .phase = 1, .labels = 1 << 5};
}

static struct fields ends(uint32_t number, uint32_t inputs)
{
    return (struct fields){.number = number, .inputs = inputs, .reactions = 1, .phase = 2};
}

static void by_hand(void)
{
    uint8_t r[3 * RECORD] = {0}, other[3 * RECORD];
    replay(0, 0, PAUSE, r, 0);
    make(r, waits(1, 0x80000001));
    make(r + RECORD, ends(2, 6));
    replay(0, 0, PAUSE, r, 1);
    replay(0, 0, PAUSE, r, 2);
    make(r + 2 * RECORD, ends(3, 6)); /* a record after the end */
    replay(0, 3, PAUSE, r, 3);
    make(other, waits(2, 0)); /* the first number 2, a number left out, records exchanged, a record twice */
    replay(0, 1, PAUSE, other, 1);
    memcpy(other, r, RECORD);
    make(other + RECORD, ends(3, 6));
    replay(0, 2, PAUSE, other, 2);
    memcpy(other, r + RECORD, RECORD);
    memcpy(other + RECORD, r, RECORD);
    replay(0, 1, PAUSE, other, 2);
    memcpy(other, r, RECORD);
    replay(0, 2, PAUSE, other, 2);
    struct fields wrong = {.number = 1, .code = 255, .kind = 1, .reactions = 2, .phase = 2}; /* as the last record */
    make(r, wrong);
    replay(0, 0, "06 00", r, 1);
    wrong.place = 1;
    make(r, wrong);
    replay(0, 1, "06 00", r, 1);
    struct fields valve = {.number = 1, .emitted = 3, .reactions = 9, .phase = 2}; /* signal 0 is read back */
    make(r, valve);
    replay(0, 0, "04 02 00 07 00 02 01 00 & 00000001", r, 1);
    replay(0, 1, "04 02 00 07 00 02 01 00", r, 1);
}

/* Each bit of a record changed in turn gives its place, but for an input, since this sequence asks for none. */
static void bits(void)
{
    uint8_t r[2 * RECORD];
    make(r, waits(1, 3));
    make(r + RECORD, ends(2, 0));
    for (size_t bit = 0; bit < 8 * sizeof r; bit++) {
        size_t byte = bit / 8 % RECORD;
        bool input = byte >= INTAKE_RECORD_INPUTS && byte < INTAKE_RECORD_ANSWER;
        r[bit / 8] ^= (uint8_t)(1 << bit % 8);
        replay(0, input ? 0 : 1 + bit / 8 / RECORD, PAUSE, r, 2);
        r[bit / 8] ^= (uint8_t)(1 << bit % 8);
    }
}

/* The number of the check comes first, then 22 for every length but a multiple, then the place. */
static void run(const char *line)
{
    static const uint8_t nothing[2 * RECORD];
    char *after;
    uint8_t number = (uint8_t)strtoul(line, &after, 10);
    for (size_t length = 0; length <= sizeof nothing; length++) {
        uint8_t wanted = number != INTAKE_ACCEPTED ? number : length % RECORD != 0 ? INTAKE_RECORDING_LENGTH : INTAKE_ACCEPTED;
        replay_line(wanted, wanted == INTAKE_ACCEPTED && length > 0, after + 1, nothing, length); /* no record has number 0 */
    }
}

static uint8_t box[INTAKE_BOX_LENGTH], recording[MANY * RECORD];

/* An instant of the bay, whose record is kept. */
static void tick(uint32_t input, size_t *count)
{
    uint8_t answer[INTAKE_ANSWER_LENGTH], *record = recording + *count * RECORD;
    uint8_t given = intake_box_tick(box, sizeof box, BAY, input, answer, sizeof answer, record, RECORD);
    expect(given == INTAKE_ACCEPTED, given, "tick", "\n");
    ++*count;
}

/* Emits 1 where 0 is given, and waits; then emits 2 where 0 is given, and waits: again and again. */
static const uint8_t shuttle[] = {0x06, 0x04, 0x04, 0x07, 0x00, 0x02, 0x01, 0x00, 0x01, 0x00,
                                  0x04, 0x07, 0x00, 0x02, 0x02, 0x00, 0x01, 0x01};
#define SHUTTLE "06 04 04 07 00 02 01 00 01 00 04 07 00 02 02 00 01 01"

/* 10,000 records of a bay, with calls turned down between them; one changed at either end; and one cut. */
static void of_a_bay(void)
{
    uint8_t answer[INTAKE_ANSWER_LENGTH], record[RECORD];
    size_t count = 0;
    intake_box_admit(box, sizeof box, BAY, shuttle, sizeof shuttle, 0, 0);
    while (count < MANY) {
        tick((uint32_t)(count * count) % 7, &count);
        if (count % 100 == 0)
            expect(intake_box_tick(box, sizeof box, BAY, 1, answer, sizeof answer, record, RECORD - 1) == INTAKE_BUFFER_LENGTH,
                   0, "a tick turned down", "\n");
    }
    replay(0, 0, SHUTTLE, recording, MANY);
    replay_line(INTAKE_RECORDING_LENGTH, 0, SHUTTLE "\n", recording, sizeof recording - 1);
    for (size_t at = 0; at < MANY; at += MANY - 1) {
        recording[at * RECORD + INTAKE_RECORD_STATE + 1] ^= 4;
        replay(0, at + 1, SHUTTLE, recording, MANY);
        recording[at * RECORD + INTAKE_RECORD_STATE + 1] ^= 4;
    }
    intake_box_release(box, sizeof box, BAY);
}

/* A bay that comes back to a position: accepted up to there, and its next record differs. */
static void restored(void)
{
    size_t count = 0;
    intake_box_admit(box, sizeof box, BAY, shuttle, sizeof shuttle, 0, 0);
    tick(1, &count);
    expect(intake_box_save(box, sizeof box, BAY, 9) == INTAKE_ACCEPTED, 0, "save", "\n");
    tick(1, &count);
    expect(intake_box_restore(box, sizeof box, BAY, 9) == INTAKE_ACCEPTED, 0, "restore", "\n");
    tick(1, &count);
    replay(0, 0, SHUTTLE, recording, 2);
    replay(0, 3, SHUTTLE, recording, 3);
    intake_box_release(box, sizeof box, BAY);
}

/* Farm 0 delivers 16,777,216 litres in each instant. */
static const uint8_t delivery[] = {0x06, 0x04, 0x0C, 0x00, 0x00, 0x00, 0x80, 0x4B, 0x01, 0x00};
#define DELIVERY "06 04 0C 00 00 00 80 4B 01 00"

/* A tick that a full ledger turns down leaves no record: what the bay records is accepted, and a replay asks no ledger. */
static void full_ledger(void)
{
    uint8_t answer[INTAKE_ANSWER_LENGTH], record[RECORD];
    size_t count = 0;
    intake_box_admit(box, sizeof box, BAY, delivery, sizeof delivery, 0, 0);
    while (count < 3) {
        tick((uint32_t)count, &count);
        uint8_t given = intake_box_tick(box, sizeof box, BAY, 7, answer, sizeof answer, record, RECORD);
        expect(given == INTAKE_ABOVE_FARM_LIMIT, given, "a tick above the limit", "\n");
        expect(intake_box_new_year(box, sizeof box, BAY) == INTAKE_ACCEPTED, 0, "a new year", "\n");
    }
    replay(0, 0, DELIVERY, recording, count);
    intake_box_release(box, sizeof box, BAY);
}

int main(int argc, char **argv)
{
    sequence_page = new_page();
    recording_page = new_pages(sizeof recording);
    by_hand();
    bits();
    each_line(argc == 2 ? argv[1] : NULL, run);
    of_a_bay();
    restored();
    full_ledger();
    size_t place_given = 77;
    uint8_t given = intake_replay(NULL, 0, UINT32_MAX, NULL, 0, &place_given);
    expect(given == INTAKE_SEQUENCE_LENGTH && place_given == 0, given, "null pointers", "2:\n");
    return verdict();
}
