/*
 * Searches for the dearest round of a box, without litres and with litres to all farms in every bay, and for the dearest
 * preview: sequences at random, always the same ones, each ticked or previewed in a box. Prints what it found beside what
 * bench/found.h has, and fails if that is far less; with --write prints what the file is to be. Times are those of the
 * processor, the least of some tries, with warm caches.
 */
#include "dear.h"

#include "found.h"
#include "shapes.h"

enum { DRAWN = 100000, PREVIEWED = 3000, REDRAWN = 100, PREVIEWS_REDRAWN = 20, KEPT = 24, PASSES = 5 };
enum { BAYS = INTAKE_BAY_COUNT, TRIES = 15, PREVIEW_TRIES = 3, OTHERS = 20 };

/* What bench/found.h has may be so much less dear than what is found: times vary. */
#define SLACK 1.25

enum kind { WITHOUT_LITRES, WITH_LITRES, PREVIEW, KINDS };

static const char *const kind_names[KINDS] = {"round without litres", "round with litres to 32 farms", "preview, six unknown"};

/* The leaves of a body: commands without parts, and small statements that end or wait at once. */
enum leaf_kind { NOTHING, EMISSION, PAUSE, SETPAUSE, TEST, EXIT, TRIED, DELIVERY, LEAF_KINDS };

/*
 * Signals and loops around a body, how often each leaf stands in it, its joins, and which share of it a first part gets.
 * Of one with litres that is stripped the litres are taken away.
 */
struct plan {
    enum kind kind;
    unsigned read_back, declared, inner, loops, share, weights[LEAF_KINDS], total;
    const char *joins;
    bool tested, wrapped, stripped;
    size_t length;
};

struct candidate {
    struct plan plan;
    struct dear_bay bay;
    uint32_t ceiling;
    double time;
};

/* The sequence that is being made. */
static struct builder made;

/* For each number of bays the dearest that so many bays of a box can hold; and those that take most beside their reactions. */
static struct candidate kept[BAYS][KEPT], beside[KEPT];

static void put_all(struct builder *b, const uint8_t *bytes, size_t count)
{
    for (size_t i = 0; i < count; i++)
        put(b, bytes[i]);
}

static void put_two(struct builder *b, uint8_t command, unsigned operand)
{
    put(b, command);
    put(b, operand);
}

/* One litre to a farm. */
static void put_delivery(struct builder *b, unsigned farm)
{
    put_two(b, 0x0C, farm);
    put_all(b, (const uint8_t[]){0x00, 0x00, 0x80, 0x3F}, 4);
}

static void put_test(struct builder *b, unsigned signal)
{
    put_two(b, 0x07, signal);
    put_all(b, (const uint8_t[]){0x00, 0x00}, 2);
}

static unsigned around(const struct plan *plan)
{
    return plan->read_back + plan->declared;
}

/* A leaf of n bytes at most; a setpause is an emission until all pauses are there. */
static void put_leaf(const struct plan *plan, size_t n)
{
    struct builder *b = &made;
    unsigned left = below(plan->total), leaf = NOTHING;
    while (left >= plan->weights[leaf])
        left -= plan->weights[leaf++];
    if (leaf == DELIVERY && n >= 6)
        put_delivery(b, below(32));
    else if (leaf == TEST && n >= 4)
        put_test(b, below(around(plan) == 0 ? 32 : around(plan)));
    else if (leaf == EXIT && n >= 3)
        put_all(b, (const uint8_t[]){0x09, 0x03, 0x01}, 3);
    else if (leaf == TRIED && n >= 2)
        put_two(b, 0x09, 0x00);
    else if (leaf == PAUSE && n >= 2 && b->pauses < LABELS)
        put_two(b, 0x01, b->pauses++);
    else if ((leaf == SETPAUSE || leaf == EMISSION) && n >= 2) {
        if (leaf == SETPAUSE)
            b->setpauses[b->setpause_count++] = b->length;
        put_two(b, 0x02, around(plan) + below(32 - around(plan)));
    } else
        put(b, 0x00);
}

/* A tree of n bytes at most, with signals, or loops and tries, around parts of it. */
static void put_body(const struct plan *plan, size_t n, unsigned inner)
{
    if (n < 4 || (n < 9 && below(2) == 0)) {
        put_leaf(plan, n);
        return;
    }
    if (n >= 9 && inner > 0 && below(4) == 0) {
        put_two(&made, 0x08, below(32));
        n -= 2;
        inner--;
    }
    if (n >= 9 && plan->wrapped && below(3) == 0) {
        put(&made, below(2) == 0 ? 0x06 : 0x09);
        n--;
    }
    uint8_t join = (uint8_t)plan->joins[below(2)];
    put(&made, join);
    if (join == 0x07) {
        put(&made, below(32));
        n--;
    }
    size_t first = (n - 1) / plan->share < 1 ? 1 : (n - 1) / plan->share;
    put_body(plan, first, inner);
    put_body(plan, n - 1 - first, inner);
}

/* Litres to the farms from one on, up to another, each before what follows. */
static void put_deliveries(struct builder *b, unsigned from, unsigned to)
{
    for (; from < to; from++) {
        put(b, 0x04);
        put_delivery(b, from);
    }
}

/* Tests of the signals from one on, up to another, each before what follows, so that both runs of each are needed. */
static void put_tests(struct builder *b, unsigned from, unsigned to)
{
    for (; from < to; from++) {
        put(b, 0x04);
        put_test(b, from);
    }
}

/* Turns into setpauses those leaves with which the sequence is still accepted. */
static void settle(struct builder *b, uint32_t read_back)
{
    for (unsigned i = 0; i < b->setpause_count && b->pauses > 0; i++) {
        uint8_t *at = b->bytes + b->setpauses[i], emission[2];
        memcpy(emission, at, sizeof emission);
        at[0] = 0x0A;
        at[1] = (uint8_t)below(b->pauses);
        if (intake_check(b->bytes, b->length, read_back) != INTAKE_ACCEPTED)
            memcpy(at, emission, sizeof emission);
    }
}

/*
 * The sequence of a plan, of about so many bytes: litres of a farm that a signal command declares stand before it, and
 * the others in the body; a loop is left by the instant after its first and begun again.
 */
static bool build(const struct plan *plan, size_t length, struct dear_bay *bay)
{
    struct builder *b = &made;
    b->length = b->pauses = b->setpause_count = 0;
    if (plan->kind == WITH_LITRES)
        put_deliveries(b, plan->read_back, around(plan));
    for (unsigned s = plan->read_back; s < around(plan); s++)
        put_two(b, 0x08, s);
    for (unsigned i = 0; i < plan->loops; i++) {
        put_all(b, (const uint8_t[]){0x06, 0x09, 0x05, 0x04}, 4);
        put_two(b, 0x01, b->pauses++);
        put_two(b, 0x03, 1);
    }
    put_tests(b, 0, plan->tested ? around(plan) : 0);
    put_tests(b, plan->kind == PREVIEW ? DEAR_UNKNOWN_FIRST : 32, 32);
    if (plan->kind == WITH_LITRES) {
        put_deliveries(b, 0, plan->read_back);
        put_deliveries(b, around(plan), 32);
    }
    if (b->length + 1 > length)
        return false;
    put_body(plan, length - b->length, plan->inner);
    settle(b, bay->read_back);
    memcpy(bay->bytes, b->bytes, b->length);
    bay->length = b->length;
    return true;
}

static struct plan draw_plan(enum kind kind)
{
    static const char *const joins[] = {"\x04\x04", "\x04\x05", "\x05\x05", "\x04\x04", "\x04\x05", "\x05\x05", "\x05\x07"};
    static const unsigned shares[] = {2, 2, 2, 3, 8};
    unsigned signals = below(SIGNALS + 1);
    struct plan plan = {.kind = kind, .joins = joins[below(7)], .share = shares[below(5)]};
    plan.tested = below(4) != 0;
    plan.wrapped = below(8) == 0;
    plan.length = below(2) == 0 ? CAPACITY : 16 + below(CAPACITY - 16);
    plan.read_back = below(2) == 0 ? 0 : below(signals + 1);
    plan.declared = below(2) == 0 ? signals - plan.read_back : below(signals - plan.read_back + 1);
    plan.inner = signals - around(&plan);
    plan.loops = below(3) == 0 ? 1 + below(8) : 0;
    for (unsigned leaf = NOTHING; leaf < LEAF_KINDS; leaf++) {
        unsigned weight = below(2) == 0 ? 0 : 1 + below(8);
        bool absent = leaf == SETPAUSE ? below(8) != 0 : leaf == DELIVERY && kind != WITH_LITRES;
        plan.weights[leaf] = leaf == NOTHING ? weight + 1 : absent ? 0 : weight;
        plan.total += plan.weights[leaf];
    }
    return plan;
}

/* A sequence of the plan that a box can admit, made shorter until it is; false where another row than 14 turns it down. */
static bool draw_sequence(struct candidate *drawn)
{
    size_t length = drawn->plan.length;
    struct dear_bay *bay = &drawn->bay;
    while (build(&drawn->plan, length, bay)) {
        drawn->ceiling = intake_ceiling(bay->bytes, bay->length, bay->read_back);
        if (drawn->ceiling <= INTAKE_SHARED_CEILING) {
            *bay = drawn->plan.stripped ? without_litres(bay) : *bay;
            return drawn->ceiling != 0;
        }
        length = (size_t)(length * (double)INTAKE_SHARED_CEILING / drawn->ceiling);
    }
    return false;
}

/* A plan, its inputs, and a sequence of it. */
static bool draw(enum kind kind, struct candidate *drawn)
{
    unsigned inputs = below(4);
    bool stripped = kind == WITHOUT_LITRES && below(2) == 0;
    struct plan plan = draw_plan(stripped ? WITH_LITRES : kind);
    plan.stripped = stripped;
    drawn->plan = plan;
    drawn->bay = (struct dear_bay){.read_back = (UINT32_C(1) << plan.read_back) - 1, .before = below(2)};
    drawn->bay.input = kind == PREVIEW || inputs < 2 ? 0 : inputs == 2 ? UINT32_MAX : below(1U << 31);
    return draw_sequence(drawn);
}

/* Processor nanoseconds of the candidate alone in a box; 0 where it is not of its kind. */
static double time_of(enum kind kind, const struct dear_bay *bay, unsigned tries, uint32_t *reactions)
{
    static uint8_t box[INTAKE_BOX_LENGTH];
    memset(box, 0, sizeof box);
    *reactions = 0;
    if (!fill_bay(box, 0, bay))
        return 0;
    if (kind == PREVIEW)
        return preview_time(box, bay->input, DEAR_UNKNOWN, tries);
    struct dear_cost cost = cost_of_ticks(box, &bay->input, 1, tries);
    *reactions = cost.reactions;
    return cost.reactions == 0 || (kind == WITH_LITRES && !all_farms(box, 0)) ? 0 : cost.time;
}

/* Puts a candidate into a list, the dearest first, which loses its last. */
static void insert(struct candidate *list, const struct candidate *candidate)
{
    unsigned at = KEPT;
    while (at > 0 && list[at - 1].time < candidate->time)
        at--;
    if (at == KEPT)
        return;
    memmove(list + at + 1, list + at, (KEPT - 1 - at) * sizeof *list);
    list[at] = *candidate;
}

/* What a tick takes when its reactions are taken off at 10 ns each. */
static double without_reactions(double time, uint32_t reactions)
{
    return time - 10.0 * reactions;
}

/* Times a candidate, once more if it is dear, since a time may be too long by chance, and keeps it if it still is. */
static void judge(enum kind kind, struct candidate *candidate)
{
    uint32_t reactions;
    unsigned bays = INTAKE_SHARED_CEILING / candidate->ceiling;
    bays = bays < BAYS ? bays : BAYS;
    double time = time_of(kind, &candidate->bay, kind == PREVIEW ? 1 : 3, &reactions);
    if (time > kept[bays - 1][KEPT - 1].time || without_reactions(time, reactions) > beside[KEPT - 1].time)
        time = fmin(time, time_of(kind, &candidate->bay, kind == PREVIEW ? PREVIEW_TRIES : TRIES, &reactions));
    candidate->time = time;
    for (unsigned i = 0; i < bays; i++)
        insert(kept[i], candidate);
    candidate->time = without_reactions(time, reactions);
    if (kind != PREVIEW)
        insert(beside, candidate);
}

/* Times those again that are kept, in passes, so that other work on the machine changes no order. */
static void time_again(enum kind kind, unsigned numbers)
{
    uint32_t reactions;
    for (unsigned i = 0; i < PASSES * numbers * KEPT; i++) {
        struct candidate *again = &kept[i / KEPT % numbers][i % KEPT];
        again->time = fmin(again->time, time_of(kind, &again->bay, PREVIEW_TRIES, &reactions));
    }
}

/* Draws plans, then further sequences of the dearest plans, and keeps the dearest. */
static void search(enum kind kind)
{
    static struct candidate candidate, parents[BAYS][KEPT];
    unsigned numbers = kind == PREVIEW ? 1 : BAYS, redrawn = kind == PREVIEW ? PREVIEWS_REDRAWN : REDRAWN;
    memset(kept, 0, sizeof kept);
    for (unsigned i = 0; i < (kind == PREVIEW ? PREVIEWED : DRAWN); i++)
        if (draw(kind, &candidate))
            judge(kind, &candidate);
    time_again(kind, numbers);
    memcpy(parents, kept, sizeof parents);
    for (unsigned i = 0; i < numbers * KEPT * redrawn; i++) {
        candidate = parents[i / redrawn / KEPT][i / redrawn % KEPT];
        if (draw_sequence(&candidate))
            judge(kind, &candidate);
    }
    time_again(kind, numbers);
}

/* The dearest preview among those that are kept. */
static const struct dear_bay *dearest_preview(void)
{
    const struct candidate *most = &kept[0][0];
    for (unsigned i = 1; i < KEPT; i++)
        most = kept[0][i].time > most->time ? &kept[0][i] : most;
    return &most->bay;
}

/* The dearest round of one sequence in some bays and another one in the rest, among those that are kept. */
static struct dear_round dearest_round(void)
{
    const struct candidate *all = kept[0];
    const struct candidate *best[2] = {NULL, NULL};
    unsigned best_count = 0;
    double most = 0;
    for (unsigned count = 1; count <= BAYS; count++)
        for (unsigned i = 0; i < BAYS * KEPT; i++)
            for (unsigned j = 0; j < BAYS * KEPT; j++) {
                double time = count * all[i].time + (BAYS - count) * all[j].time;
                uint64_t ceiling = count * (uint64_t)all[i].ceiling + (BAYS - count) * (uint64_t)all[j].ceiling;
                if (ceiling > INTAKE_SHARED_CEILING || time <= most)
                    continue;
                most = time;
                best_count = count;
                best[0] = &all[i];
                best[1] = &all[count == BAYS ? i : j];
            }
    return (struct dear_round){best_count, {best[0]->bay, best[1]->bay}};
}

/* Writes a bay as C has it. */
static void write_bay(const struct dear_bay *bay)
{
    printf("    {{");
    for (size_t i = 0; i < bay->length; i++)
        printf("%s0x%02X%s", i % 20 == 0 ? "\n        " : " ", bay->bytes[i], i + 1 < bay->length ? "," : "},\n");
    printf("     %zu, 0x%X, 0x%X, %u}", bay->length, (unsigned)bay->read_back, (unsigned)bay->input, bay->before);
}

static void write_round(const char *name, const struct dear_round *round)
{
    printf("\nstatic const struct dear_round %s = {%u, {\n", name, round->count);
    write_bay(&round->bays[0]);
    printf(",\n");
    write_bay(&round->bays[1]);
    printf("}};\n");
}

/* The least of several passes over both rounds. */
static void time_rounds(const struct dear_round *const *rounds, double *times)
{
    static uint8_t box[INTAKE_BOX_LENGTH];
    times[0] = times[1] = INFINITY;
    for (unsigned i = 0; i < 2 * PASSES; i++)
        times[i % 2] = fmin(times[i % 2], cost_of_round(rounds[i % 2], box, TRIES).time);
}

/* The dearest round without litres: the one found, or the one found with litres when they are taken away. */
static struct dear_round dearest_without(const struct dear_round *found)
{
    static struct dear_round stripped;
    double times[2];
    stripped = found[WITH_LITRES];
    for (unsigned i = 0; i < 2; i++)
        stripped.bays[i] = without_litres(&stripped.bays[i]);
    time_rounds((const struct dear_round *[]){&found[WITHOUT_LITRES], &stripped}, times);
    return times[0] < times[1] ? stripped : found[WITHOUT_LITRES];
}

/* Prints a row, and tells whether what the file has is dear enough. */
static int row(const char *name, double found, double shipped)
{
    bool holds = found <= SLACK * shipped;
    printf("%-34s %9.1f %9.1f%s\n", name, found / 1e3, shipped / 1e3, holds ? "" : "  FAILED");
    return holds;
}

static void write_found(const struct dear_round *rounds, const struct dear_bay *preview)
{
    printf("/* The dearest rounds of a box and the dearest preview that bench/search.c has found; its --write prints this. */\n"
           "#ifndef FOUND_H\n#define FOUND_H\n\n#include \"dear.h\"\n");
    write_round("found_without_litres", &rounds[0]);
    write_round("found_with_litres", &rounds[1]);
    printf("\nstatic const struct dear_bay found_preview =\n");
    write_bay(preview);
    printf(";\n\n#endif\n");
}

/* Reads more than the caches hold, and ticks other sequences by the same code. */
static void disturb(void)
{
    static volatile uint8_t memory[1 << 25];
    static struct candidate other;
    uint32_t reactions;
    for (size_t i = 0; i < sizeof memory; i += 64)
        memory[i]++;
    for (unsigned i = 0; i < OTHERS; i++)
        if (draw(WITHOUT_LITRES, &other))
            time_of(WITHOUT_LITRES, &other.bay, 1, &reactions);
}

/* The median time of a tick that comes after such work. */
static double time_after_others(const struct dear_bay *bay)
{
    static uint8_t box[INTAKE_BOX_LENGTH];
    double times[TRIES];
    for (unsigned i = 0; i < TRIES; i++) {
        memset(box, 0, sizeof box);
        fill_bay(box, 0, bay);
        disturb();
        times[i] = tick_bays(box, &bay->input, 1).time;
    }
    return median(times, TRIES);
}

/* The most that one of those kept takes beside its reactions, with warm caches or after other work. */
static double most_beside(bool after_others)
{
    double most = 0;
    for (unsigned i = 0; i < KEPT; i++) {
        uint32_t reactions;
        double time = time_of(WITHOUT_LITRES, &beside[i].bay, TRIES, &reactions);
        if (after_others)
            time = time_after_others(&beside[i].bay);
        most = fmax(most, without_reactions(time, reactions));
    }
    return most;
}

int main(int count, char **words)
{
    static struct dear_round rounds[2];
    const struct dear_round *shipped[2] = {&found_without_litres, &found_with_litres};
    uint32_t reactions;
    int passed = 0;
    for (enum kind kind = WITHOUT_LITRES; kind <= WITH_LITRES; kind++) {
        search(kind);
        rounds[kind] = dearest_round();
    }
    rounds[WITHOUT_LITRES] = dearest_without(rounds);
    search(PREVIEW);
    const struct dear_bay *preview = dearest_preview();
    if (count > 1 && strcmp(words[1], "--write") == 0) {
        write_found(rounds, preview);
        return 0;
    }
    printf("%-34s %9s %9s\n", "us, the least of some tries", "found", "shipped");
    for (enum kind kind = WITHOUT_LITRES; kind <= WITH_LITRES; kind++) {
        double times[2];
        time_rounds((const struct dear_round *[]){&rounds[kind], shipped[kind]}, times);
        passed += row(kind_names[kind], times[0], times[1]);
    }
    passed += row(kind_names[PREVIEW], time_of(PREVIEW, preview, PREVIEW_TRIES, &reactions),
                  time_of(PREVIEW, &found_preview, PREVIEW_TRIES, &reactions));
    printf("beside 10 ns a reaction a tick took %.1f us at most, after other work %.1f us\n", most_beside(false) / 1e3,
           most_beside(true) / 1e3);
    printf("%d passed, %d failed\n", passed, KINDS - passed);
    return passed != KINDS;
}
