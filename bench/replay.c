/*
 * Times the replay of a day's recording, ten instants a second, of each shipped bay that can run so long, against plain C
 * that does the same: in turn within each round. The day is the bay's run again and again, but for inputs that would end
 * it. Beside it stands what a tick takes beyond the check, since a replay checks once. The last line is the ratio of the
 * first bay, and whether it is within its aim.
 */
#include "timing.h"

#include "bays.h"

enum { DAY = 864000, DAYS = 9 /* rounds */, AIM = 80 /* hundredths of plain C's time */ };

static struct day {
    struct bay bay;
    uint8_t recording[(size_t)DAY * INTAKE_RECORD_LENGTH];
    size_t records;
} day;

static uint32_t read_back_of(const struct bay *bay)
{
    return word_at(bay->file + 2 + bay->length);
}

static void put(uint8_t *bytes, uint32_t value)
{
    for (unsigned i = 0; i < 4; i++)
        bytes[i] = (uint8_t)(value >> 8 * i);
}

/* Writes the record of an instant that leaves the machine waiting, on the next of the inputs that does; or gives false. */
static bool go_on(const struct bay *bay, uint8_t *state, unsigned *next, uint8_t *record)
{
    const uint8_t *inputs = bay->file + 2 + bay->length + 4;
    unsigned count = (unsigned)(bay->size - (size_t)(inputs - bay->file)) / 4;
    for (unsigned tried = 0; tried < count; tried++) {
        uint8_t *after = record + INTAKE_RECORD_STATE;
        uint32_t input = word_at(inputs + 4 * *next);
        *next = (*next + 1) % count;
        memcpy(after, state, INTAKE_STATE_LENGTH);
        put(record + INTAKE_RECORD_INPUTS, input);
        if (intake_tick(bay->file + 2, bay->length, after, INTAKE_STATE_LENGTH, input, read_back_of(bay),
                        record + INTAKE_RECORD_ANSWER, INTAKE_ANSWER_LENGTH) == 0 && after[0] == INTAKE_PHASE_WAITING) {
            memcpy(state, after, INTAKE_STATE_LENGTH);
            return true;
        }
    }
    return false;
}

static void record_day(struct day *d)
{
    uint8_t state[INTAKE_STATE_LENGTH] = {0};
    unsigned next = 0;
    for (d->records = 0; d->records < DAY; d->records++) {
        uint8_t *record = d->recording + d->records * INTAKE_RECORD_LENGTH;
        if (!go_on(&d->bay, state, &next, record))
            return;
        put(record + INTAKE_RECORD_NUMBER, (uint32_t)d->records + 1);
    }
}

/* Processor nanoseconds of a record. */
static double sample_replay(const void *what, int plain)
{
    const struct day *d = what;
    size_t place = 1;
    double start = nanoseconds();
    uint8_t number = (plain ? plain_replay : intake_replay)(d->bay.file + 2, d->bay.length, read_back_of(&d->bay),
                                                            d->recording, d->records * INTAKE_RECORD_LENGTH, &place);
    double time = nanoseconds() - start;
    if (number != 0 || place != 0) {
        fprintf(stderr, "not accepted: number %u, place %zu\n", number, place);
        exit(1);
    }
    return time / (double)d->records;
}

/* Processor nanoseconds of a tick on the same inputs, or of a check. */
static double sample_tick(const void *what, int check)
{
    static volatile uint8_t sink;
    const struct day *d = what;
    uint8_t state[INTAKE_STATE_LENGTH] = {0}, answer[INTAKE_ANSWER_LENGTH];
    size_t records = d->records / 10;
    double start = nanoseconds();
    for (size_t i = 0; i < records; i++)
        sink = check ? intake_check(d->bay.file + 2, d->bay.length, read_back_of(&d->bay))
                     : intake_tick(d->bay.file + 2, d->bay.length, state, sizeof state,
                                   word_at(d->recording + i * INTAKE_RECORD_LENGTH + INTAKE_RECORD_INPUTS),
                                   read_back_of(&d->bay), answer, sizeof answer);
    (void)sink;
    return (nanoseconds() - start) / (double)records;
}

int main(int argc, char **argv)
{
    double first = 0;
    printf("ns a record, medians of %d rounds in turn; plain C by " BUILT_BY "\n", DAYS);
    printf("a day of each bay, and a tick beyond its check:\n");
    printf("%-30s %5s %8s %8s %8s %6s %8s %6s\n", "bay", "bytes", "records", "intake", "plain", "ratio", "tick", "ratio");
    for (int i = 1; i < argc; i++) {
        if (!read_bay(&day.bay, argv[i])) {
            fprintf(stderr, "%s: not a run that both accept, or not the same\n", argv[i]);
            return 1;
        }
        record_day(&day);
        if (day.records < DAY) {
            printf("%-30s %5zu ends before the day does\n", argv[i], day.bay.length);
            continue;
        }
        struct comparison replay = compare(sample_replay, &day, DAYS), tick = compare(sample_tick, &day, DAYS);
        double beyond = tick.intake - tick.plain;
        printf("%-30s %5zu %8zu %8.0f %8.0f %6.2f %8.0f %6.2f\n", argv[i], day.bay.length, day.records, replay.intake,
               replay.plain, replay.ratio, beyond, replay.intake / beyond);
        fflush(stdout);
        if (first == 0)
            first = replay.ratio;
    }
    printf("replay of a day over plain C %.2f, aim %.2f: %s\n", first, AIM / 100.0, first * 100 <= AIM ? "within" : "above");
    return 0;
}
