/*
 * Times calls of the archive against the same calls of another archive, whose names begin with before_: in turn within each
 * round, caches and branch predictors warm. With a row's number and a count it makes the archive's call so many times and
 * nothing else after the preparation: for callgrind, whose --toggle-collect takes the call's name.
 */
#include "timing.h"

#include "dear_litres.h"
#include "intake.h"

enum { RUN_FILES = 7, FILE_SIZE = 4096, CALLS_A_SAMPLE = 64, LONG_SAMPLE = 5 };

#define DECLARE(name, ...) uint8_t before_##name(__VA_ARGS__)
DECLARE(check, const uint8_t *, size_t, uint32_t);
DECLARE(tick, const uint8_t *, size_t, uint8_t *, size_t, uint32_t, uint32_t, uint8_t *, size_t);
DECLARE(unroll, const uint8_t *, size_t, uint32_t, uint8_t *, size_t, size_t *);
DECLARE(box_admit, uint8_t *, size_t, uint32_t, const uint8_t *, size_t, uint32_t, uint32_t);
DECLARE(box_tick, uint8_t *, size_t, uint32_t, uint32_t, uint8_t *, size_t, uint8_t *, size_t);
DECLARE(box_preview, const uint8_t *, size_t, uint32_t, uint32_t, uint32_t, uint8_t *, size_t);
DECLARE(box_ledger, const uint8_t *, size_t, uint32_t, uint8_t *, size_t);

#define EITHER(before, name) ((before) ? before_##name : intake_##name)

/* Run files: the length of the sequence, its bytes, the read-back set, then an input for each instant. */
static uint8_t files[RUN_FILES][FILE_SIZE];
static size_t sizes[RUN_FILES];
static unsigned file_count;

static uint8_t box[INTAKE_BOX_LENGTH];
static struct dear_bay bay;

static size_t length_of(const uint8_t *file)
{
    return (size_t)(file[0] | file[1] << 8);
}

static uint32_t word_at(const uint8_t *p)
{
    return p[0] | (uint32_t)p[1] << 8 | (uint32_t)p[2] << 16 | (uint32_t)p[3] << 24;
}

static uint8_t run_files(int before)
{
    uint8_t answer[INTAKE_ANSWER_LENGTH], numbers = 0;
    for (unsigned i = 0; i < file_count; i++) {
        uint8_t state[INTAKE_STATE_LENGTH] = {0};
        const uint8_t *sequence = files[i] + 2, *inputs = sequence + length_of(files[i]) + 4;
        for (; inputs + 4 <= files[i] + sizes[i] && state[0] != 2; inputs += 4)
            numbers |= EITHER(before, tick)(sequence, length_of(files[i]), state, sizeof state, word_at(inputs),
                                            word_at(sequence + length_of(files[i])), answer, sizeof answer);
    }
    return numbers;
}

static uint8_t tick_bay(int before)
{
    uint8_t answer[INTAKE_ANSWER_LENGTH], record[INTAKE_RECORD_LENGTH];
    return EITHER(before, box_tick)(box, sizeof box, 0, 0, answer, sizeof answer, record, sizeof record);
}

static uint8_t preview(int before)
{
    uint8_t shown[INTAKE_PREVIEW_LENGTH];
    return EITHER(before, box_preview)(box, sizeof box, 0, 0, 0x3F, shown, sizeof shown);
}

static uint8_t ledger(int before)
{
    uint8_t totals[INTAKE_LEDGER_LENGTH];
    return EITHER(before, box_ledger)(box, sizeof box, 0, totals, sizeof totals);
}

static uint8_t check(int before)
{
    return EITHER(before, check)(bay.bytes, bay.length, bay.read_back);
}

static uint8_t admit(int before)
{
    box[0] = box[1] = 0; /* the bay is empty */
    return EITHER(before, box_admit)(box, sizeof box, 0, bay.bytes, bay.length, bay.read_back, 0);
}

static uint8_t unroll(int before)
{
    static uint8_t result[INTAKE_RESULT_LENGTH];
    size_t length;
    return EITHER(before, unroll)(bay.bytes, bay.length, bay.read_back, result, sizeof result, &length);
}

/* In each instant so many signals are tested, and then so often 1 litre is delivered to each farm, all beside each other. */
static void build_delivering(unsigned tested, unsigned times)
{
    bay = (struct dear_bay){.read_back = first_signals(tested)};
    append(&bay, (const uint8_t[]){0x06, 0x04}, 2);
    for (unsigned i = 0; i < tested; i++)
        append(&bay, (const uint8_t[]){0x04, 0x07, (uint8_t)i, 0x00, 0x00}, 5);
    for (unsigned i = 0; i < times; i++) {
        append(&bay, (const uint8_t[]){0x05}, i + 1 < times);
        for (unsigned farm = 0; farm < INTAKE_FARM_COUNT; farm++) {
            append(&bay, (const uint8_t[]){0x05}, farm + 1 < INTAKE_FARM_COUNT);
            deliver(&bay, farm);
        }
    }
    append(&bay, (const uint8_t[]){0x01, 0x00}, 2);
}

static void build_file(unsigned file)
{
    bay = (struct dear_bay){.read_back = word_at(files[file] + 2 + length_of(files[file]))};
    append(&bay, files[file] + 2, length_of(files[file]));
}

static void build_emissions(void)
{
    static const struct shape emits = {"", "\x04", "", "\x02", "\x02", 12, false, false, 32};
    struct builder b = {.shape = &emits, .wanted = CAPACITY};
    statement(&b, CAPACITY, 0);
    bay = (struct dear_bay){.length = 0};
    append(&bay, b.bytes, b.length);
}

static void build_chain(void)
{
    bay = (struct dear_bay){.length = 0};
    for (unsigned i = 0; i < 31; i++)
        append(&bay, (const uint8_t[]){0x06}, 1);
    append(&bay, (const uint8_t[]){0x01, 0x00}, 2);
}

struct row {
    const char *name;
    uint8_t (*call)(int);
    unsigned calls;
};

static const struct row rows[] = {
    {"ticks of the bays that are named", run_files, LONG_SAMPLE},
    {"box tick, 32 emissions, 32 farms", tick_bay, CALLS_A_SAMPLE},
    {"128 emissions, six signals tested", tick_bay, LONG_SAMPLE},
    {"preview, six unknown inputs", preview, LONG_SAMPLE},
    {"reading a ledger", ledger, CALLS_A_SAMPLE},
    {"check, the first bay", check, CALLS_A_SAMPLE},
    {"check, 1,024 bytes of emissions", check, LONG_SAMPLE},
    {"admission, the first bay", admit, CALLS_A_SAMPLE},
    {"admission, 1,024 bytes", admit, LONG_SAMPLE},
    {"31 loops written out", unroll, CALLS_A_SAMPLE},
};
enum { ROWS = sizeof rows / sizeof *rows };

/* Builds the sequence of a row, and fills the bay where its calls are a box's. */
static bool prepare(unsigned row)
{
    memset(box, 0, sizeof box);
    if (row == 1 || row == 4)
        build_delivering(0, 1);
    else if (row == 2)
        build_delivering(SIGNALS, 4);
    else if (row == 6 || row == 8)
        build_emissions();
    else if (row == 9)
        build_chain();
    else
        build_file(0);
    return admit(0) == INTAKE_ACCEPTED && (row >= 7 || row == 5 || row == 6 || tick_bay(0) == INTAKE_ACCEPTED);
}

static double sample(const void *what, int before)
{
    static volatile uint8_t sink;
    const struct row *row = what;
    double start = nanoseconds();
    for (unsigned i = 0; i < row->calls; i++)
        sink = row->call(before);
    (void)sink;
    return (nanoseconds() - start) / row->calls;
}

static void read_files(int count, char **paths)
{
    for (; count > 0 && file_count < RUN_FILES; count--, paths++) {
        FILE *file = fopen(*paths, "rb");
        if (file == NULL)
            continue;
        sizes[file_count] = fread(files[file_count], 1, FILE_SIZE, file);
        fclose(file);
        file_count += sizes[file_count] >= 6 && sizes[file_count] >= length_of(files[file_count]) + 6;
    }
}

int main(int count, char **words)
{
    bool counting = count > 2 && strspn(words[1], "0123456789") == strlen(words[1]);
    read_files(count - (counting ? 3 : 1), words + (counting ? 3 : 1));
    printf("%-34s %6s %9s %9s %6s\n", "ns a call", "bytes", "now", "before", "ratio");
    for (unsigned i = 0; i < ROWS; i++) {
        if (counting && i != (unsigned)atoi(words[1]))
            continue;
        if (!prepare(i) || rows[i].call(0) != rows[i].call(1)) {
            fprintf(stderr, "%s: not accepted, or not the same number\n", rows[i].name);
            return 1;
        }
        for (int calls = counting ? atoi(words[2]) : 0; calls > 0; calls--)
            rows[i].call(0);
        struct comparison c = counting ? (struct comparison){0, 0, 0} : compare(sample, &rows[i], ROUNDS);
        printf("%-34s %6zu %9.0f %9.0f %6.2f\n", rows[i].name, bay.length, c.intake, c.plain, c.ratio);
    }
    return 0;
}
