/*
 * Times the tick of a bay against intake_tick on the same sequence, record and inputs, and admission to a box against
 * plain C that does the same: in turn within each round, caches and branch predictors warm. The other seven bays are
 * filled. The run files that are named are run whole, the sequences made by rule for up to two instants. Then the calls on
 * positions, of a bay that keeps sixteen, and the readers of a record, against plain C; and previews of the next instant
 * against as many ticks of plain C as there are fillings, at last of unknown inputs that are all asked for and of such that
 * are not. Then the litres: the tick of a bay in which one emission carries litres, and of one in which all do, against the
 * same bay without, of the archive and of plain C; dear instants, of a bay that delivers to more and more farms and of bays
 * that deliver to all, against plain C; and the ledger's calls.
 */
#include "timing.h"

#include "bays.h"
#include "dear_litres.h"
#include "found.h"
#include "intake.h"
#include "plain_box.h"
#include "shapes.h"

enum { BAY = 5, STRETCH = INTAKE_BOX_LENGTH / INTAKE_BAY_COUNT, SAMPLE = 20000 /* nanoseconds */ };

/* Where a stretch has the length of the sequence, the state record, the positions and the ledger (docs/FORMAT.md, 'Box'). */
enum { AT_LENGTH = BAY * STRETCH, LENGTH_BYTES = 2, AT_STATE = BAY * STRETCH + 1038 };
enum { AT_POSITIONS = BAY * STRETCH + 1059, POSITIONS_LENGTH = 336, NAMED = 500 /* calls of a sample */ };
enum { AT_LEDGER = BAY * STRETCH + 1395 };

static const struct shape shapes[] = {
    {"emits in sequence", "\x04", "", "\x02", "\x02", 12, false, false, 32},
    {"pauses in parallel", "\x05", "", "\x02", "\x01", 2, false, false, 32},
    {"presents with pauses", "\x07", "", "\x01", "\x01", 2, false, false, 32},
    {"nested loops and tries", "\x04\x05", "\x06\x09", "\x01\x02\x03", "\x01\x02\x03", 4, false, false, 32},
};

typedef uint8_t admits(uint8_t *, size_t, uint32_t, const uint8_t *, size_t, uint32_t, uint32_t);

/* The box that is timed, and that of plain C. */
static uint8_t boxes[2][INTAKE_BOX_LENGTH];

static uint32_t read_back_of(const struct bay *bay)
{
    return word_at(bay->file + 2 + bay->length);
}

static uint8_t admit(admits *call, uint8_t *box, const struct bay *bay)
{
    memset(box + AT_LENGTH, 0, LENGTH_BYTES); /* the bay is empty */
    return call(box, INTAKE_BOX_LENGTH, BAY, bay->file + 2, bay->length, read_back_of(bay), 0);
}

typedef uint8_t ticks_bay(uint8_t *, size_t, uint32_t, uint32_t, uint8_t *, size_t, uint8_t *, size_t);

/* As run_bay, in a box: ticks a fresh machine until the inputs or the machine end, and tells how many instants. */
static unsigned run_in(ticks_bay *tick, uint8_t *box, const struct bay *bay, uint8_t *answer)
{
    const uint8_t *inputs = bay->file + 2 + bay->length + 4;
    uint8_t *state = box + AT_STATE, record[INTAKE_RECORD_LENGTH];
    unsigned instants = 0;
    memset(state, 0, INTAKE_STATE_LENGTH);
    for (; inputs + 4 <= bay->file + bay->size && state[0] != 2; inputs += 4, instants++)
        if (tick(box, INTAKE_BOX_LENGTH, BAY, word_at(inputs), answer, INTAKE_ANSWER_LENGTH, record, sizeof record) != 0)
            return 0;
    return instants;
}

static unsigned run_in_box(const struct bay *bay, uint8_t *answer)
{
    return run_in(intake_box_tick, boxes[0], bay, answer);
}

/* Processor nanoseconds of an instant, in the box or of intake_tick, in the mean of the runs of one sample. */
static double sample_tick(const void *what, int alone)
{
    const struct bay *bay = what;
    uint8_t answer[INTAKE_ANSWER_LENGTH];
    double start = nanoseconds();
    for (unsigned i = 0; i < bay->runs; i++)
        alone ? run_bay(intake_tick, bay, answer) : run_in_box(bay, answer);
    return (nanoseconds() - start) / bay->runs / bay->instants;
}

/* Processor nanoseconds of an admission. */
static double sample_admission(const void *what, int plain)
{
    static volatile uint8_t sink;
    const struct bay *bay = what;
    double start = nanoseconds();
    for (unsigned i = 0; i < bay->runs; i++)
        sink = admit(plain ? plain_box_admit : intake_box_admit, boxes[plain], bay);
    (void)sink;
    return (nanoseconds() - start) / bay->runs;
}

static void give_up(const char *name, const char *what)
{
    fprintf(stderr, "%s: %s\n", name, what);
    exit(1);
}

/* Admits the bay to both boxes, which must be the same then, and runs it alone and in the box with the same answers. */
static void prepare(struct bay *bay, const char *name)
{
    uint8_t answers[2][INTAKE_ANSWER_LENGTH];
    if (admit(intake_box_admit, boxes[0], bay) != 0 || admit(plain_box_admit, boxes[1], bay) != 0 ||
        memcmp(boxes[0], boxes[1], sizeof *boxes) != 0)
        give_up(name, "not admitted by both, or not the same box");
    bay->instants = run_bay(intake_tick, bay, answers[0]);
    if (bay->instants == 0 || run_in_box(bay, answers[1]) != bay->instants ||
        memcmp(answers[0], answers[1], sizeof *answers) != 0)
        give_up(name, "not the same run");
    bay->runs = 1;
    double once = fmax(sample_tick(bay, 1) * bay->instants, 1);
    bay->runs = once > SAMPLE ? 1 : (unsigned)(SAMPLE / once);
}

/* Prints the row of a bay; adds the logarithms of the ratios of tick, for bays of 50 bytes and more, and admission. */
static void row(struct bay *bay, const char *name, double *logarithms, unsigned *rows)
{
    prepare(bay, name);
    struct comparison tick = compare(sample_tick, bay, ROUNDS), admission = compare(sample_admission, bay, ROUNDS);
    printf("%-30s %5zu %8.0f %8.0f %6.2f %9.0f %8.0f %6.2f\n", name, bay->length, tick.intake, tick.plain, tick.ratio,
           admission.intake, admission.plain, admission.ratio);
    fflush(stdout);
    if (bay->length >= 50) {
        logarithms[0] += log(tick.ratio);
        rows[0]++;
    }
    logarithms[1] += log(admission.ratio);
    rows[1]++;
}

/* A run file of a sequence made by rule: two instants without inputs. */
static void build(struct bay *bay, const struct shape *shape, size_t length)
{
    struct builder b = {.shape = shape, .wanted = length};
    statement(&b, length, 0);
    memset(bay, 0, sizeof *bay);
    bay->length = b.length;
    bay->size = 2 + b.length + 3 * 4;
    bay->file[0] = (uint8_t)b.length;
    bay->file[1] = (uint8_t)(b.length >> 8);
    memcpy(bay->file + 2, b.bytes, b.length);
}

typedef uint8_t position_call(uint8_t *, size_t, uint32_t, uint32_t);

/* A call on positions, of the archive and of plain C, and the first of the sixteen names that it is given in turn. */
struct positions {
    const char *name;
    position_call *calls[2];
    uint32_t first;
    uint8_t number;
};

/* Processor nanoseconds of a call on positions, and of putting back what it may have changed. */
static double sample_positions(const void *what, int plain)
{
    static volatile uint8_t sink;
    const struct positions *row = what;
    uint8_t kept[POSITIONS_LENGTH], *table = boxes[plain] + AT_POSITIONS;
    memcpy(kept, table, sizeof kept);
    double start = nanoseconds();
    for (uint32_t i = 0; i < NAMED; i++) {
        sink = row->calls[plain](boxes[plain], INTAKE_BOX_LENGTH, BAY, row->first + i % INTAKE_POSITION_COUNT);
        memcpy(table, kept, sizeof kept);
    }
    (void)sink;
    return (nanoseconds() - start) / NAMED;
}

/* The calls on the positions of a bay that waits and keeps sixteen. */
static void positions(const uint8_t *sequence, size_t length)
{
    enum { NAME = 0x10000 };
    static const struct positions rows[] = {
        {"save, a known name", {intake_box_save, plain_box_save}, NAME, INTAKE_ACCEPTED},
        {"save, a seventeenth", {intake_box_save, plain_box_save}, NAME + INTAKE_POSITION_COUNT, INTAKE_POSITIONS_FULL},
        {"restore", {intake_box_restore, plain_box_restore}, NAME, INTAKE_ACCEPTED},
        {"forget", {intake_box_forget, plain_box_forget}, NAME, INTAKE_ACCEPTED},
    };
    uint8_t answer[INTAKE_ANSWER_LENGTH], record[INTAKE_RECORD_LENGTH], kept[INTAKE_BOX_LENGTH];
    for (int plain = 0; plain < 2; plain++) {
        memset(boxes[plain] + BAY * STRETCH, 0, STRETCH);
        if (plain_box_admit(boxes[plain], sizeof *boxes, BAY, sequence, length, 0, 0) != 0 ||
            plain_box_tick(boxes[plain], sizeof *boxes, BAY, 0, answer, sizeof answer, record, sizeof record) != 0)
            give_up("a small bay", "not admitted");
        for (uint32_t i = 0; i < INTAKE_POSITION_COUNT; i++)
            if (rows[0].calls[plain](boxes[plain], sizeof *boxes, BAY, NAME + i) != INTAKE_ACCEPTED)
                give_up("a position", "not saved");
    }
    printf("%-30s %8s %8s %6s\n", "ns a call at sixteen positions", "intake", "plain", "ratio");
    for (size_t i = 0; i < sizeof rows / sizeof *rows; i++) {
        for (int plain = 0; plain < 2; plain++) {
            memcpy(kept, boxes[plain], sizeof kept);
            if (rows[i].calls[plain](kept, sizeof kept, BAY, rows[i].first) != rows[i].number)
                give_up(rows[i].name, "another number");
        }
        struct comparison row = compare(sample_positions, &rows[i], ROUNDS);
        printf("%-30s %8.0f %8.0f %6.2f\n", rows[i].name, row.intake, row.plain, row.ratio);
    }
}

typedef uint8_t reader(const uint8_t *, size_t, uint32_t, const uint8_t *, size_t, uint8_t *, size_t);

/* A reader, of the archive and of plain C, and the length of its view. */
struct reading {
    const char *name;
    reader *readers[2];
    size_t length;
};

/* Processor nanoseconds of showing a record. */
static double sample_reading(const void *what, int plain)
{
    static volatile uint8_t sink;
    const struct reading *row = what;
    uint8_t record[INTAKE_RECORD_LENGTH] = {0}, view[INTAKE_RECORD_LENGTH];
    double start = nanoseconds();
    for (uint32_t i = 0; i < NAMED; i++) {
        record[i % sizeof record]++;
        sink = row->readers[plain](boxes[plain], INTAKE_BOX_LENGTH, BAY, record, sizeof record, view, row->length);
    }
    (void)sink;
    return (nanoseconds() - start) / NAMED;
}

static void readings(void)
{
    static const struct reading rows[] = {
        {"service", {intake_box_service, plain_box_service}, INTAKE_RECORD_LENGTH},
        {"panel", {intake_box_panel, plain_box_panel}, INTAKE_PANEL_LENGTH},
    };
    uint8_t record[INTAKE_RECORD_LENGTH] = {0}, view[INTAKE_RECORD_LENGTH];
    printf("%-30s %8s %8s %6s\n", "ns to show a record", "intake", "plain", "ratio");
    for (size_t i = 0; i < sizeof rows / sizeof *rows; i++) {
        for (int plain = 0; plain < 2; plain++)
            if (rows[i].readers[plain](boxes[plain], sizeof *boxes, BAY, record, sizeof record, view, rows[i].length) != 0)
                give_up(rows[i].name, "another number");
        struct comparison row = compare(sample_reading, &rows[i], ROUNDS);
        printf("%-30s %8.0f %8.0f %6.2f\n", rows[i].name, row.intake, row.plain, row.ratio);
    }
}

enum { UNKNOWN_COUNTS = 3 };

typedef uint8_t previews_bay(const uint8_t *, size_t, uint32_t, uint32_t, uint32_t, uint8_t *, size_t);

/* A preview of a bay, and how many of them a sample has. */
struct previewing {
    uint32_t unknown;
    unsigned previews;
};

/* Processor nanoseconds of a preview; that of plain C is a tick for each filling. */
static double sample_preview(const void *what, int plain)
{
    static volatile uint8_t sink;
    static previews_bay *const calls[2] = {intake_box_preview, plain_box_preview};
    const struct previewing *row = what;
    uint8_t preview[INTAKE_PREVIEW_LENGTH];
    double start = nanoseconds();
    for (unsigned i = 0; i < row->previews; i++)
        sink = calls[plain](boxes[plain], INTAKE_BOX_LENGTH, BAY, 0, row->unknown, preview, sizeof preview);
    (void)sink;
    return (nanoseconds() - start) / row->previews;
}

/* Admits the bay to both boxes, and lets it wait where its first instant does. */
static void prepare_preview(const struct bay *bay, const char *name)
{
    uint8_t answer[INTAKE_ANSWER_LENGTH], record[INTAKE_RECORD_LENGTH];
    for (int plain = 0; plain < 2; plain++) {
        if (admit(plain_box_admit, boxes[plain], bay) != 0 ||
            plain_box_tick(boxes[plain], sizeof *boxes, BAY, word_at(bay->file + 2 + bay->length + 4), answer, sizeof answer,
                           record, sizeof record) != 0)
            give_up(name, "not admitted");
        if (answer[0] != INTAKE_WAITING)
            memset(boxes[plain] + AT_STATE, 0, INTAKE_STATE_LENGTH);
    }
}

/* Prints the row of a bay's previews with 0, 3 and 6 unknown inputs, and adds the logarithms of their ratios. */
static void preview_row(const struct bay *bay, const char *name, double *logarithms)
{
    static const uint32_t unknown[UNKNOWN_COUNTS] = {0, 0x07, 0x3F};
    uint8_t previews[2][INTAKE_PREVIEW_LENGTH];
    prepare_preview(bay, name);
    printf("%-30s %5zu", name, bay->length);
    for (unsigned i = 0; i < UNKNOWN_COUNTS; i++) {
        struct previewing row = {unknown[i], 1};
        if (intake_box_preview(boxes[0], sizeof *boxes, BAY, 0, unknown[i], previews[0], sizeof *previews) != 0 ||
            plain_box_preview(boxes[1], sizeof *boxes, BAY, 0, unknown[i], previews[1], sizeof *previews) != 0 ||
            memcmp(previews[0], previews[1], sizeof *previews) != 0)
            give_up(name, "not the same preview");
        double once = fmax(sample_preview(&row, 1), 1);
        row.previews = once > SAMPLE ? 1 : (unsigned)(SAMPLE / once);
        struct comparison preview = compare(sample_preview, &row, ROUNDS);
        printf(" %9.0f %9.0f %6.2f", preview.intake, preview.plain, preview.ratio);
        logarithms[i] += log(preview.ratio);
    }
    printf("\n");
    fflush(stdout);
}

/* Six signals from one on tested, read back or inputs, then 32 emissions beside each other; one instant. */
static void build_tested(struct bay *bay, unsigned first, uint32_t read_back)
{
    enum { EMISSIONS = 32 };
    memset(bay, 0, sizeof *bay);
    uint8_t *to = bay->file + 2;
    for (unsigned s = first; s < first + SIGNALS; s++) {
        const uint8_t test[] = {0x04, 0x07, (uint8_t)s, 0x00, 0x00};
        memcpy(to, test, sizeof test);
        to += sizeof test;
    }
    for (unsigned i = 0; i < EMISSIONS; i++) {
        if (i + 1 < EMISSIONS)
            *to++ = 0x05;
        *to++ = 0x02;
        *to++ = (uint8_t)i;
    }
    bay->length = (size_t)(to - bay->file) - 2;
    bay->file[0] = (uint8_t)bay->length;
    *to = (uint8_t)read_back;
    bay->size = 2 + bay->length + 2 * 4;
}

static void previews(size_t length, int count, char **paths)
{
    static struct bay bay;
    double logarithms[UNKNOWN_COUNTS] = {0}, apart[UNKNOWN_COUNTS] = {0};
    unsigned rows = 0;
    printf("%-36s %-26s %-26s %-26s\n", "ns a preview, against plain ticks", "   0 unknown, 1 tick", "   3 unknown, 8 ticks",
           "   6 unknown, 64 ticks");
    for (unsigned i = 0; i < sizeof shapes / sizeof *shapes; i++, rows++) {
        build(&bay, &shapes[i], length);
        preview_row(&bay, shapes[i].name, logarithms);
    }
    for (int i = 1; i < count; i++, rows++) {
        if (!read_bay(&bay, paths[i]))
            give_up(paths[i], "not a run that both accept, or not the same");
        preview_row(&bay, paths[i], logarithms);
    }
    printf("geometric means of the ratios: %.2f, %.2f and %.2f\n", exp(logarithms[0] / rows), exp(logarithms[1] / rows),
           exp(logarithms[2] / rows));
    build_tested(&bay, 0, 0);
    preview_row(&bay, "all unknown inputs asked for", apart);
    build_tested(&bay, 8, 0);
    preview_row(&bay, "none of them asked for", apart);
}

/* Whether a signal command declares the farm, whose litres are dropped then. */
static bool declared(const struct bay *bay, uint8_t farm)
{
    const uint8_t *end = bay->file + 2 + bay->length;
    for (const uint8_t *at = bay->file + 2; at < end; at += command_bytes(*at))
        if (*at == 0x08 && at[1] == farm)
            return true;
    return false;
}

/* The bay with 1 litre on its first emissions that are told, so many of them at most; returns of how many farms. */
static unsigned with_litres(const struct bay *bay, struct bay *litres, unsigned most)
{
    static const uint8_t one[] = {0x00, 0x00, 0x80, 0x3F};
    const uint8_t *end = bay->file + 2 + bay->length;
    uint8_t *to = litres->file + 2;
    uint32_t farms = 0;
    for (const uint8_t *at = bay->file + 2; at < end; at += command_bytes(*at)) {
        memcpy(to, at, command_bytes(*at));
        to += command_bytes(*at);
        if (*at != 0x02 || most == 0 || declared(bay, at[1]) || (to - litres->file) + (end - at) > 1024)
            continue;
        to[-2] = 0x0C;
        memcpy(to, one, sizeof one);
        to += sizeof one;
        most--;
        farms |= UINT32_C(1) << at[1];
    }
    litres->length = (size_t)(to - litres->file) - 2;
    litres->file[0] = (uint8_t)litres->length;
    litres->file[1] = (uint8_t)(litres->length >> 8);
    litres->size = 2 + litres->length + (bay->size - 2 - bay->length);
    memcpy(to, end, bay->size - 2 - bay->length);
    return (unsigned)__builtin_popcount(farms);
}

/* A bay with litres, the same without, and by which tick. */
struct delivering {
    const struct bay *bays[2];
    ticks_bay *tick;
    unsigned runs, instants;
};

/* Processor nanoseconds of an instant of the bay with litres, in the first box, or without, in the second. */
static double sample_delivering(const void *what, int without)
{
    const struct delivering *row = what;
    uint8_t answer[INTAKE_ANSWER_LENGTH];
    plain_box_new_year(boxes[without], sizeof *boxes, BAY);
    double start = nanoseconds();
    for (unsigned i = 0; i < row->runs; i++)
        run_in(row->tick, boxes[without], row->bays[without], answer);
    return (nanoseconds() - start) / row->runs / row->instants;
}

/* Admits both bays, which must run alike. */
static void prepare_delivering(struct delivering *row, const char *name)
{
    uint8_t answers[2][INTAKE_ANSWER_LENGTH];
    for (int without = 0; without < 2; without++) {
        if (admit(intake_box_admit, boxes[without], row->bays[without]) != 0)
            give_up(name, "not admitted");
        row->instants = run_in(row->tick, boxes[without], row->bays[without], answers[without]);
    }
    if (row->instants == 0 || memcmp(answers[0], answers[1], sizeof *answers) != 0)
        give_up(name, "not the same run with litres and without");
    row->runs = 1;
    double once = fmax(sample_delivering(row, 1) * row->instants, 1);
    row->runs = once > SAMPLE ? 1 : (unsigned)(SAMPLE / once);
}

/* Prints the row of a bay with litres on so many emissions at most, and adds the logarithm of the archive's ratio. */
static void delivering_row(const struct bay *bay, const char *name, unsigned most, double *logarithm, unsigned *rows)
{
    static struct bay litres;
    unsigned farms = with_litres(bay, &litres, most);
    if (farms == 0 || (most > 1 && farms < 2))
        return;
    struct delivering row = {{&litres, bay}, plain_box_tick, 0, 0};
    prepare_delivering(&row, name);
    struct comparison plain = compare(sample_delivering, &row, ROUNDS);
    row.tick = intake_box_tick;
    prepare_delivering(&row, name);
    struct comparison own = compare(sample_delivering, &row, ROUNDS);
    printf("%-30s %5zu %5u %8.0f %8.0f %6.2f %9.0f %8.0f %6.2f\n", name, bay->length, farms, own.intake, own.plain, own.ratio,
           plain.intake, plain.plain, plain.ratio);
    fflush(stdout);
    *logarithm += log(own.ratio);
    (*rows)++;
}

/* A bay that emits each of so many signals in each instant, of two, and waits. */
static void build_emitting(struct bay *bay, unsigned signals)
{
    memset(bay, 0, sizeof *bay);
    uint8_t *to = bay->file + 2;
    *to++ = 0x06;
    *to++ = 0x04;
    for (unsigned i = 1; i < signals; i++)
        *to++ = 0x05;
    for (unsigned i = 0; i < signals; i++) {
        *to++ = 0x02;
        *to++ = (uint8_t)i;
    }
    *to++ = 0x01;
    to++;
    bay->length = (size_t)(to - bay->file) - 2;
    bay->file[0] = (uint8_t)bay->length;
    bay->size = 2 + bay->length + 3 * 4;
}

static void deliveries(int count, char **paths)
{
    static struct bay bay;
    static const unsigned signals[] = {1, 8, 32};
    double logarithm;
    unsigned rows;
    printf("%-36s %5s %8s %8s %6s %9s %8s %6s\n", "ns an instant in a box", "", "archive", "", "", "plain C", "", "");
    printf("%-30s %5s %5s %8s %8s %6s %9s %8s %6s\n", "bay", "bytes", "farms", "litres", "without", "ratio", "litres",
           "without", "ratio");
    for (unsigned most = 1; most <= 32; most += 31) {
        logarithm = rows = 0;
        for (unsigned i = 0; i < sizeof signals / sizeof *signals; i++) {
            build_emitting(&bay, signals[i]);
            delivering_row(&bay, "emits in parallel, a loop", most, &logarithm, &rows);
        }
        for (unsigned i = 0; i < sizeof shapes / sizeof *shapes; i++) {
            build(&bay, &shapes[i], 256);
            delivering_row(&bay, shapes[i].name, most, &logarithm, &rows);
        }
        for (int i = 1; i < count; i++) {
            if (!read_bay(&bay, paths[i]))
                give_up(paths[i], "not a run that both accept, or not the same");
            delivering_row(&bay, paths[i], most, &logarithm, &rows);
        }
        printf("geometric mean of the archive's ratios, litres on %s: %.2f\n", most == 1 ? "one emission" : "all emissions",
               exp(logarithm / rows));
    }
}

/* A dear instant of a bay, and the state record before it. */
struct dear_instant {
    struct dear_bay bay;
    uint8_t state[INTAKE_STATE_LENGTH];
};

static ticks_bay *const tick_of[2] = {intake_box_tick, plain_box_tick};

/* Processor nanoseconds of a dear instant. */
static double sample_dear(const void *what, int plain)
{
    enum { RUNS = 5 };
    static volatile uint8_t sink;
    const struct dear_instant *t = what;
    uint8_t answer[INTAKE_ANSWER_LENGTH], record[INTAKE_RECORD_LENGTH], *box = boxes[plain];
    plain_box_new_year(box, sizeof *boxes, BAY);
    double start = nanoseconds();
    for (unsigned i = 0; i < RUNS; i++) {
        memcpy(box + AT_STATE, t->state, sizeof t->state);
        sink = tick_of[plain](box, sizeof *boxes, BAY, t->bay.input, answer, sizeof answer, record, sizeof record);
    }
    (void)sink;
    return (nanoseconds() - start) / RUNS;
}

/* Admits a dear bay to a box; its ledger is empty then. */
static uint8_t admit_dear(admits *call, uint8_t *box, const struct dear_bay *bay)
{
    memset(box + AT_LENGTH, 0, LENGTH_BYTES); /* the bay is empty */
    plain_box_new_year(box, INTAKE_BOX_LENGTH, BAY);
    return call(box, INTAKE_BOX_LENGTH, BAY, bay->bytes, bay->length, bay->read_back, 0);
}

/* Admits the bay to both boxes and ticks it up to the dear instant and through it: the same answers, records and boxes. */
static void prepare_dear(struct dear_instant *t, const char *name)
{
    uint8_t answers[2][INTAKE_ANSWER_LENGTH], records[2][INTAKE_RECORD_LENGTH];
    bool accepted = admit_dear(intake_box_admit, boxes[0], &t->bay) == 0 && admit_dear(plain_box_admit, boxes[1], &t->bay) == 0;
    for (unsigned i = 0; i <= t->bay.before && accepted; i++) {
        memcpy(t->state, boxes[0] + AT_STATE, sizeof t->state);
        for (int plain = 0; plain < 2; plain++) {
            plain_box_new_year(boxes[plain], sizeof *boxes, BAY);
            accepted = accepted && tick_of[plain](boxes[plain], sizeof *boxes, BAY, t->bay.input, answers[plain], sizeof *answers,
                                                  records[plain], sizeof *records) == 0;
        }
    }
    if (!accepted || answers[0][0] == INTAKE_WRONG || memcmp(answers[0], answers[1], sizeof *answers) != 0 ||
        memcmp(records[0], records[1], sizeof *records) != 0 || memcmp(boxes[0], boxes[1], sizeof *boxes) != 0)
        give_up(name, "not accepted by both, or not the same");
}

/* The farms whose totals in the first box are not zero. */
static unsigned farms_paid(void)
{
    unsigned farms = 0;
    for (const uint8_t *total = boxes[0] + AT_LEDGER; total < boxes[0] + AT_LEDGER + 4 * INTAKE_FARM_COUNT; total += 4)
        farms += word_at(total) != 0;
    return farms;
}

/* Prints the row of a dear bay: the farms that its emissions name and those that the instant pays. Returns the ratio. */
static double dear_row(const struct dear_bay *bay, const char *name)
{
    enum { DEAR_ROUNDS = 101 };
    static struct dear_instant t;
    t.bay = *bay;
    prepare_dear(&t, name);
    unsigned paid = farms_paid();
    struct comparison row = compare(sample_dear, &t, DEAR_ROUNDS);
    printf("%-30s %5zu %5u %5u %8.0f %8.0f %6.2f\n", name, bay->length, farms_named(bay), paid, row.intake, row.plain, row.ratio);
    fflush(stdout);
    return row.ratio;
}

/* The rows of a bay whose emissions carry litres, to none, one, eight and all of its farms; returns the last ratio. */
static double farm_rows(const struct bay *bay, const char *name)
{
    static const unsigned emissions[] = {0, 1, 8, BAY_SIZE};
    static struct bay litres;
    double ratio = 0;
    for (unsigned i = 0; i < sizeof emissions / sizeof *emissions; i++) {
        with_litres(bay, &litres, emissions[i]);
        struct dear_bay dear = {.length = litres.length, .read_back = read_back_of(&litres)};
        memcpy(dear.bytes, litres.file + 2, litres.length);
        ratio = dear_row(&dear, name);
    }
    return ratio;
}

/* Six read-back signals around emissions: all tested in each run, or in tests inside each other, so that runs are left out. */
static double read_back_rows(void)
{
    static const struct shape tests = {"", "\x04\x07", "", "\x02", "\x02", 2, false, false, SIGNALS};
    static struct bay bay;
    build_tested(&bay, 0, first_signals(SIGNALS));
    double logarithm = log(farm_rows(&bay, "tested one after the other"));
    build(&bay, &tests, 340);
    bay.file[2 + bay.length] = (uint8_t)first_signals(SIGNALS);
    return logarithm + log(farm_rows(&bay, "tested inside each other"));
}

/* The row of a kind of the tick's benchmark, with as many of its loops as the box admits. */
static double dear_kind_row(struct kind kind, size_t length)
{
    struct dear_bay bay = kind_with_litres(&kind, length);
    for (; admit_dear(plain_box_admit, boxes[1], &bay) == INTAKE_ABOVE_CEILING && kind.loops > 0; kind.loops--)
        bay = kind_with_litres(&kind, length);
    return dear_row(&bay, kind.name);
}

/* The row of a dearest instant of the tick's benchmark, with fewer loops and as long as the box admits. */
static double dearest_row(const struct shape_of_dearest *shape)
{
    size_t length = CAPACITY;
    struct dear_bay bay = dearest_with_litres(shape, length);
    while (admit_dear(plain_box_admit, boxes[1], &bay) != INTAKE_ACCEPTED)
        bay = dearest_with_litres(shape, --length);
    char name[64];
    snprintf(name, sizeof name, "%u loops, %s%s", shape->loops, shape->join == 0x04 ? "sequences" : "parallels",
             shape->signals == 0 ? ", read back" : "");
    return dear_row(&bay, name);
}

/* Adds a group of rows to all, and prints its mean. */
static void add_group(double *logarithms, unsigned *rows, double logarithm, unsigned count)
{
    printf("geometric mean of %u rows %.2f\n", count, exp(logarithm / count));
    *logarithms += logarithm;
    *rows += count;
}

/* The dear rows. A box admits 65,536 reactions, and so fewer loops than the tick's benchmark has. */
static void dear_deliveries(void)
{
    static const size_t lengths[] = {256, 400};
    double logarithms = 0, group = 0;
    unsigned rows = 0, count = 0;
    printf("%-30s %5s %5s %5s %8s %8s %6s\n", "ns a dear instant in a box", "bytes", "farms", "paid", "intake", "plain", "ratio");
    add_group(&logarithms, &rows, read_back_rows(), 2); /* the last of each */
    for (unsigned i = 0; i < KINDS; i++)
        for (unsigned j = 0; j < 2 && kinds[i].signals + kinds[i].read_back == SIGNALS; j++, count++)
            group += log(dear_kind_row(kinds[i], lengths[j]));
    add_group(&logarithms, &rows, group, count);
    group = count = 0;
    for (unsigned i = 0; i < DEAREST_SHAPES; i++, count++)
        group += log(dearest_row(&(struct shape_of_dearest){dearest_shapes[i].join, 4 + i % 3, dearest_shapes[i].signals}));
    add_group(&logarithms, &rows, group, count);
    group = log(dear_row(&found_with_litres.bays[0], "dearest round, its first bay"));
    add_group(&logarithms, &rows, group + log(dear_row(&found_with_litres.bays[1], "dearest round, the others")), 2);
    printf("geometric mean of the ratios of the %u dear rows %.2f\n", rows, exp(logarithms / rows));
}

/* Processor nanoseconds of reading a ledger in which every farm has a total, and of a new year. */
static double sample_ledger(const void *what, int plain)
{
    static volatile uint8_t sink;
    uint8_t totals[INTAKE_LEDGER_LENGTH];
    uint8_t *box = boxes[plain];
    bool reads = *(const bool *)what;
    double start = nanoseconds();
    for (unsigned i = 0; i < NAMED; i++) {
        if (reads)
            sink = (plain ? plain_box_ledger : intake_box_ledger)(box, sizeof *boxes, BAY, totals, sizeof totals);
        else
            sink = (plain ? plain_box_new_year : intake_box_new_year)(box, sizeof *boxes, BAY);
    }
    (void)sink;
    return (nanoseconds() - start) / NAMED;
}

static void ledgers(void)
{
    static const bool kinds[] = {true, false};
    static const uint8_t near_limit[] = {0xFE, 0xFF, 0x7F, 0x4B}; /* 16,777,214 */
    uint8_t totals[2][INTAKE_LEDGER_LENGTH];
    for (int plain = 0; plain < 2; plain++)
        for (unsigned farm = 0; farm < INTAKE_FARM_COUNT; farm++)
            memcpy(boxes[plain] + AT_LEDGER + 4 * farm, near_limit, sizeof near_limit);
    if (intake_box_ledger(boxes[0], sizeof *boxes, BAY, totals[0], sizeof *totals) != 0 ||
        plain_box_ledger(boxes[1], sizeof *boxes, BAY, totals[1], sizeof *totals) != 0 ||
        memcmp(totals[0], totals[1], sizeof *totals) != 0)
        give_up("a ledger", "not the same reading");
    printf("%-30s %8s %8s %6s\n", "ns a call on a ledger", "intake", "plain", "ratio");
    for (unsigned i = 0; i < 2; i++) {
        struct comparison row = compare(sample_ledger, &kinds[i], ROUNDS);
        printf("%-30s %8.0f %8.0f %6.2f\n", kinds[i] ? "ledger" : "new year", row.intake, row.plain, row.ratio);
    }
}

int main(int count, char **paths)
{
    static const size_t lengths[] = {14, 64, 256, 1024};
    static const uint8_t small[] = {0x06, 0x01, 0x00};
    static struct bay bay;
    double logarithms[2] = {0, 0};
    unsigned rows[2] = {0, 0};
    for (uint32_t other = 0; other < INTAKE_BAY_COUNT; other++)
        if (other != BAY && (intake_box_admit(boxes[0], sizeof *boxes, other, small, sizeof small, 0, 0) != 0 ||
                             plain_box_admit(boxes[1], sizeof *boxes, other, small, sizeof small, 0, 0) != 0))
            give_up("a small bay", "not admitted");
    printf("ns, medians of %d rounds in turn; plain C by " BUILT_BY "\n", ROUNDS);
    printf("%-30s %5s %8s %8s %6s %9s %8s %6s\n", "", "", "an in-", "stant", "", "an ad-", "mission", "");
    printf("%-30s %5s %8s %8s %6s %9s %8s %6s\n", "bay", "bytes", "in a box", "alone", "ratio", "intake", "plain", "ratio");
    for (unsigned i = 0; i < sizeof shapes / sizeof *shapes; i++)
        for (unsigned j = 0; j < sizeof lengths / sizeof *lengths; j++) {
            build(&bay, &shapes[i], lengths[j]);
            row(&bay, shapes[i].name, logarithms, rows);
        }
    for (int i = 1; i < count; i++) {
        if (!read_bay(&bay, paths[i]))
            give_up(paths[i], "not a run that both accept, or not the same");
        row(&bay, paths[i], logarithms, rows);
    }
    printf("geometric means of the ratios: tick, 50 bytes and more, %.2f; admission %.2f\n", exp(logarithms[0] / rows[0]),
           exp(logarithms[1] / rows[1]));
    positions(small, sizeof small);
    readings();
    previews(256, count, paths);
    deliveries(count, paths);
    dear_deliveries();
    ledgers();
}
