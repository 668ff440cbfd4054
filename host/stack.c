/*
 * The stack that a call takes, by painting: the call runs on a stack of its own that is filled with one byte before, and
 * the lowest byte that changed tells. What the same call of an empty function takes is left out. Every sequence has depth
 * 64, the greatest: commands with parts 63 times, inside them a leaf, and their other parts leaves beside. Six signals stand
 * around it in the sequence, or outside by the read-back set, which takes no level of the depth. Each is admitted to a box
 * too, previewed and ticked twice there, its record read, saved sixteen times and once more, restored, forgotten and
 * released; one that delivers is ticked also where its farm's total has no room; its records are replayed, and its loops
 * written out. The most of the check, of the ceiling, of the tick, of a replay, of the calls on a box and of the writing out
 * is held to what include/intake.h promises, and a thread of the size that it names runs the deepest calls.
 */
#include "intake.h"

#include <pthread.h>
#include <stdio.h>
#include <stdlib.h>
#include <string.h>
#include <sys/wait.h>
#include <ucontext.h>
#include <unistd.h>

enum { STACK = 65536, PAINT = 0xA5, DEPTH = 64, HATCH = 31, FARM = 30, SIGNALS = 6, MIXES = 2000, FAR = 1024, BAY = 7 };

/* Where the box has the total of the farm (docs/FORMAT.md, 'Box'). */
enum { AT_TOTAL = BAY * (INTAKE_BOX_LENGTH / INTAKE_BAY_COUNT) + 1395 + 4 * FARM };

static uint8_t stack[STACK], sequence[1024], state[INTAKE_STATE_LENGTH], answer[INTAKE_ANSWER_LENGTH];
static uint8_t box[INTAKE_BOX_LENGTH], record[INTAKE_RECORD_LENGTH], view[INTAKE_RECORD_LENGTH], totals[INTAKE_LEDGER_LENGTH];
static uint8_t result[INTAKE_RESULT_LENGTH], recording[2 * INTAKE_RECORD_LENGTH];
static size_t length, result_length, recorded, place; /* the bytes of a recording, and what a replay says of them */
static uint32_t input, read_back, name, unknown = 0x3F; /* six unknown inputs of a preview */
static uint8_t number;
static ucontext_t here, there;
static unsigned passed, failed;
static size_t empty, most_check, most_ceiling, most_tick, most_replay, most_box, most_unroll;
static unsigned full_ledgers; /* ticks that found no room */

static void nothing(void) { number = INTAKE_ACCEPTED; }
static void check(void) { number = intake_check(sequence, length, read_back); }
/* 0 for a ceiling, 1 for none. */
static void ceiling(void) { number = intake_ceiling(sequence, length, read_back) == 0; }
static void tick(void)
{
    number = intake_tick(sequence, length, state, sizeof state, input, read_back, answer, sizeof answer);
}

static void unroll(void)
{
    number = intake_unroll(sequence, length, read_back, result, sizeof result, &result_length);
}

static void replay(void) { number = intake_replay(sequence, length, read_back, recording, recorded, &place); }

static void box_admit(void) { number = intake_box_admit(box, sizeof box, BAY, sequence, length, read_back, 0x0F); }
static void box_tick(void)
{
    number = intake_box_tick(box, sizeof box, BAY, input, answer, sizeof answer, record, sizeof record);
}

static void box_service(void)
{
    number = intake_box_service(box, sizeof box, BAY, record, sizeof record, view, INTAKE_RECORD_LENGTH);
}

static void box_panel(void)
{
    number = intake_box_panel(box, sizeof box, BAY, record, sizeof record, view, INTAKE_PANEL_LENGTH);
}

static void box_preview(void)
{
    number = intake_box_preview(box, sizeof box, BAY, input, unknown, view, INTAKE_PREVIEW_LENGTH);
}

static void box_ledger(void) { number = intake_box_ledger(box, sizeof box, BAY, totals, sizeof totals); }
static void box_new_year(void) { number = intake_box_new_year(box, sizeof box, BAY); }
static void box_release(void) { number = intake_box_release(box, sizeof box, BAY); }
static void box_save(void) { number = intake_box_save(box, sizeof box, BAY, name); }
static void box_restore(void) { number = intake_box_restore(box, sizeof box, BAY, name); }
static void box_forget(void) { number = intake_box_forget(box, sizeof box, BAY, name); }

/* The bytes of stack below its top that a function writes. */
static size_t taken(void (*call)(void))
{
    memset(stack, PAINT, sizeof stack);
    getcontext(&there);
    there.uc_stack.ss_sp = stack;
    there.uc_stack.ss_size = sizeof stack;
    there.uc_link = &here;
    makecontext(&there, call, 0);
    swapcontext(&here, &there);
    size_t low = 0;
    while (low < sizeof stack && stack[low] == PAINT)
        low++;
    return sizeof stack - low;
}

/* Bytes with their number. */
struct bytes {
    const char *at;
    size_t count;
};

#define BYTES(text) {text, sizeof text - 1}

/* A command with parts, as it stands around the next level. */
struct nest {
    const char *name;
    struct bytes before, after;
};

static const struct nest nests[] = {
    {"sequences, in the first part", BYTES("\x04"), BYTES("\x00")},
    {"sequences, in the second part", BYTES("\x04\x00"), BYTES("")},
    {"parallels, in the first part", BYTES("\x05"), BYTES("\x00")},
    {"parallels, in the second part", BYTES("\x05\x00"), BYTES("")},
    {"loops", BYTES("\x06"), BYTES("")},
    {"presents, in the first part", BYTES("\x07\x00"), BYTES("\x00")},
    {"presents, in the second part", BYTES("\x07\x00\x00"), BYTES("")},
    {"try blocks", BYTES("\x09"), BYTES("")},
    {"suspends", BYTES("\x0B\x00"), BYTES("")},
};
enum { NESTS = sizeof nests / sizeof *nests };
static const struct nest signal_nest = {"signals", BYTES("\x08\x00"), BYTES("")};
static const struct nest hatch = {"a suspend by a signal that no other command names", BYTES("\x0B\x1F"), BYTES("")};

/* The innermost statement, and its own depth. */
struct leaf {
    struct bytes bytes;
    unsigned depth;
};

static const struct leaf pause_0 = {BYTES("\x01\x00"), 1};
/* 1 litre of FARM before pause 0, and one behind it. */
static const struct leaf delivery = {BYTES("\x04\x0C\x1E\x00\x00\x80\x3F\x04\x01\x00\x0C\x1E\x00\x00\x80\x3F"), 3};
static const struct leaf set = {BYTES("\x05\x01\x00\x0A\x00"), 2};       /* for which row 10 takes a traversal more */
static const struct leaf exclusive = {BYTES("\x04\x01\x00\x01\x01"), 2}; /* pauses 0 and 1 are no valid set */
static const struct leaf ill_formed = {BYTES("\x04\x01\x01\x04\x05\x0A\x02\x01\x03\x01\x02"), 4};

static void append(struct bytes bytes)
{
    memcpy(sequence + length, bytes.at, bytes.count);
    length += bytes.count;
}

/* Levels from the outermost on, `depth` in all with those of the leaf. */
static void build(const struct nest *const *levels, const struct leaf *leaf, unsigned depth)
{
    unsigned count = depth - leaf->depth;
    length = 0;
    for (unsigned i = 0; i < count; i++)
        append(levels[i]->before);
    append(leaf->bytes);
    for (unsigned i = count; i-- > 0;)
        append(levels[i]->after);
}

/* One nest on all levels but the outermost: a suspend by the hatch, and signals. */
static void build_one(const struct nest *nest, unsigned signals, int suspended, const struct leaf *leaf, unsigned depth)
{
    const struct nest *levels[DEPTH + 1];
    for (unsigned i = 0; i <= DEPTH; i++)
        levels[i] = suspended && i == 0 ? &hatch : i < signals + (suspended ? 1 : 0) ? &signal_nest : nest;
    build(levels, leaf, depth);
}

/* One call, counted beyond the empty one; it must give the number. */
static size_t used(void (*call)(void), uint8_t expected, const char *what)
{
    size_t bytes = taken(call) - empty, *most = &most_box;
    if (call == check || call == ceiling || call == tick)
        most = call == check ? &most_check : call == ceiling ? &most_ceiling : &most_tick;
    else if (call == replay || call == unroll)
        most = call == replay ? &most_replay : &most_unroll;
    *most = bytes > *most ? bytes : *most;
    if (number == expected) {
        passed++;
    } else {
        failed++;
        printf("FAILED %s: the number is %u and not %u\n", what, (unsigned)number, (unsigned)expected);
    }
    return bytes;
}

/* A machine in a phase, with the labels 0 to 7 in a byte. */
static void stand(uint8_t phase, uint8_t labels)
{
    memset(state, 0, sizeof state);
    state[INTAKE_STATE_PHASE] = phase;
    state[INTAKE_STATE_LABELS] = labels;
}

static size_t larger(size_t a, size_t b) { return a > b ? a : b; }

/* The number of admission: the signals and loops of a sequence all stand around its leaf (02, item 6). */
static uint8_t admission(void)
{
    uint32_t signals = (uint32_t)__builtin_popcount(read_back), commands = signals, loops = 0;
    for (size_t i = 0; i < length; i++) {
        uint8_t byte = sequence[i];
        commands++;
        loops += byte == 0x06;
        signals += byte == 0x08;
        i += byte == 0x0C ? 5 : byte != 0x00 && byte != 0x04 && byte != 0x05 && byte != 0x06 && byte != 0x09; /* operands */
    }
    return commands * (1 + loops) << signals > INTAKE_SHARED_CEILING ? INTAKE_ABOVE_CEILING : INTAKE_ACCEPTED;
}

/* The number of the writing out: each loop makes a sequence of the greatest depth deeper (02, item 13). */
static uint8_t written_out(const struct leaf *leaf, const struct nest *const *levels)
{
    if (leaf == &set)
        return INTAKE_HAS_SETPAUSE;
    for (unsigned i = 0; i < DEPTH - leaf->depth; i++)
        if (levels[i]->before.at[0] == 0x06)
            return INTAKE_RESULT_TOO_LARGE;
    return INTAKE_ACCEPTED;
}

/* The greatest of the calls on positions: up to sixteen of a machine that waits, and a seventeenth. */
static size_t positions(int waits, const char *what)
{
    size_t bytes = 0;
    for (name = 0; name <= INTAKE_POSITION_COUNT; name++) {
        uint8_t kept = name < INTAKE_POSITION_COUNT ? INTAKE_ACCEPTED : INTAKE_POSITIONS_FULL;
        bytes = larger(bytes, used(box_save, waits ? kept : INTAKE_NO_POSITION, what));
    }
    for (name = INTAKE_POSITION_COUNT + 1; name-- > 0;) {
        uint8_t known = waits && name < INTAKE_POSITION_COUNT ? INTAKE_ACCEPTED : INTAKE_NO_POSITION;
        bytes = larger(bytes, used(box_restore, known, what));
        bytes = larger(bytes, used(box_forget, known, what));
    }
    return bytes;
}

/* Whether the next instant of the bay delivers, by one of a copy. */
static int delivers_next(void)
{
    static uint8_t copy[INTAKE_BOX_LENGTH];
    memcpy(copy, box, sizeof copy);
    intake_box_new_year(copy, sizeof copy, BAY);
    intake_box_tick(copy, sizeof copy, BAY, input, answer, sizeof answer, record, sizeof record);
    intake_box_ledger(copy, sizeof copy, BAY, totals, sizeof totals);
    return intake_ledger_farm(totals, FARM) != 0;
}

/* The greatest of the ledger's calls, and of a tick that finds no room, if it would deliver. */
static size_t in_ledger(const char *what)
{
    size_t bytes = used(box_ledger, INTAKE_ACCEPTED, what);
    if (delivers_next()) {
        memcpy(box + AT_TOTAL, "\x00\x00\x80\x4B", 4); /* 16,777,216 */
        bytes = larger(bytes, used(box_tick, INTAKE_ABOVE_FARM_LIMIT, what));
        full_ledgers++;
    }
    return larger(bytes, used(box_new_year, INTAKE_ACCEPTED, what));
}

/* Keeps the record of an instant. */
static void keep(void)
{
    memcpy(recording + recorded, record, sizeof record);
    recorded += sizeof record;
}

/* The greatest of the calls on a box; if the sequence is admitted, two instants of it, without signal 0 and with it. */
static size_t in_box(uint8_t admitted, const char *what)
{
    size_t bytes = 0;
    for (input = 0; input < 2; input++) {
        memset(box, 0, sizeof box);
        bytes = larger(bytes, used(box_admit, admitted, what));
        if (admitted != INTAKE_ACCEPTED)
            continue;
        bytes = larger(bytes, used(box_preview, INTAKE_ACCEPTED, what));
        bytes = larger(bytes, used(box_tick, INTAKE_ACCEPTED, what));
        recorded = 0;
        keep();
        int waits = answer[INTAKE_ANSWER_CODE] == INTAKE_WAITING;
        bytes = larger(bytes, positions(waits, what));
        bytes = larger(bytes, used(box_service, INTAKE_ACCEPTED, what));
        bytes = larger(bytes, used(box_panel, INTAKE_ACCEPTED, what));
        uint8_t next = waits ? INTAKE_ACCEPTED : INTAKE_OVER;
        bytes = larger(bytes, in_ledger(what));
        bytes = larger(bytes, used(box_preview, next, what));
        bytes = larger(bytes, used(box_tick, next, what));
        if (waits)
            keep();
        used(replay, INTAKE_ACCEPTED, what);
        passed += place == 0;
        failed += place != 0;
        bytes = larger(bytes, used(box_release, INTAKE_ACCEPTED, what));
    }
    return bytes;
}

/* The greatest of the calls that rows 6, 10, 11 and 12 turn down. */
static size_t refused(const struct nest *nest, unsigned signals)
{
    size_t bytes;
    stand(INTAKE_PHASE_WAITING, 1);
    build_one(nest, signals, 0, &pause_0, DEPTH + 1);
    bytes = larger(used(check, INTAKE_TOO_DEEP, nest->name), used(tick, INTAKE_TOO_DEEP, nest->name));
    bytes = larger(bytes, used(ceiling, 1, nest->name));
    build_one(nest, signals, 0, &ill_formed, DEPTH);
    bytes = larger(bytes, used(check, INTAKE_NOT_WELL_FORMED, nest->name));
    bytes = larger(bytes, used(ceiling, 1, nest->name));
    bytes = larger(bytes, used(tick, INTAKE_NOT_WELL_FORMED, nest->name));
    build_one(nest, signals, 0, &exclusive, DEPTH);
    stand(INTAKE_PHASE_WAITING, 3);
    bytes = larger(bytes, used(tick, INTAKE_INVALID_STATE, nest->name));
    stand(INTAKE_PHASE_OVER, 0);
    return larger(bytes, used(tick, INTAKE_OVER, nest->name));
}

static void row(const struct nest *nest, unsigned signals, const char *around)
{
    build_one(nest, signals, 0, &ill_formed, DEPTH);
    size_t boxed = in_box(INTAKE_NOT_WELL_FORMED, nest->name);
    build_one(nest, signals, 0, &set, DEPTH);
    boxed = larger(boxed, in_box(admission(), nest->name));
    size_t triggers = larger(used(check, INTAKE_ACCEPTED, nest->name), used(ceiling, 0, nest->name));
    build_one(nest, signals, 0, &pause_0, DEPTH);
    boxed = larger(boxed, in_box(admission(), nest->name));
    build_one(nest, signals, 0, &delivery, DEPTH);
    boxed = larger(boxed, in_box(admission(), nest->name));
    build_one(nest, signals, 0, &pause_0, DEPTH);
    input = 0;
    size_t checked = larger(used(check, INTAKE_ACCEPTED, nest->name), used(ceiling, 0, nest->name));
    stand(INTAKE_PHASE_FRESH, 0);
    size_t fresh = used(tick, INTAKE_ACCEPTED, nest->name);
    stand(INTAKE_PHASE_WAITING, 1);
    size_t resumed = used(tick, INTAKE_ACCEPTED, nest->name);
    size_t unrolled = used(unroll, nest->before.at[0] == 0x06 ? INTAKE_RESULT_TOO_LARGE : INTAKE_ACCEPTED, nest->name);
    build_one(nest, signals, 1, &pause_0, DEPTH);
    input = UINT32_C(1) << HATCH;
    stand(INTAKE_PHASE_WAITING, 1);
    size_t stopped = used(tick, INTAKE_ACCEPTED, nest->name);
    printf("%-32s %7zu %7zu %7zu %7zu %7zu %7zu %7zu %8zu%s\n", nest->name, triggers, checked, fresh, resumed, stopped,
           refused(nest, signals), boxed, unrolled, around);
}

/* Levels of several nests and signals at random, from a fixed seed: fresh, and resumed from the pause. */
static void mixed(void)
{
    unsigned of = 1 + (unsigned)rand() % 4, signals = (unsigned)rand() % (SIGNALS + 1);
    unsigned pool[4];
    const struct nest *levels[DEPTH + 1];
    for (unsigned i = 0; i < of; i++)
        pool[i] = (unsigned)rand() % NESTS;
    for (unsigned i = 0; i <= DEPTH; i++)
        levels[i] = &nests[pool[(unsigned)rand() % of]];
    for (unsigned i = 0; i < signals; i++)
        levels[(unsigned)rand() % DEPTH] = &signal_nest;
    read_back = (UINT32_C(1) << (SIGNALS - signals)) - 1;
    input = (uint32_t)rand();
    static const struct leaf *const leaves[] = {&pause_0, &set, &delivery};
    const struct leaf *leaf = leaves[rand() % 3];
    build(levels, leaf, DEPTH);
    used(unroll, written_out(leaf, levels), "a mixed sequence");
    used(check, INTAKE_ACCEPTED, "a mixed sequence");
    used(ceiling, 0, "a mixed sequence");
    stand(INTAKE_PHASE_FRESH, 0);
    used(tick, INTAKE_ACCEPTED, "a mixed sequence");
    stand(INTAKE_PHASE_WAITING, 1);
    used(tick, INTAKE_ACCEPTED, "a mixed sequence");
    in_box(admission(), "a mixed sequence");
}

/* Runs the deepest calls on the thread's own stack. */
static void *deepest(void *unused)
{
    (void)unused;
    read_back = (UINT32_C(1) << SIGNALS) - 1;
    for (unsigned i = 0; i < NESTS; i++) {
        build_one(&nests[i], 0, 0, &pause_0, DEPTH);
        check();
        stand(INTAKE_PHASE_WAITING, 1);
        tick();
    }
    return NULL;
}

/* Whether a thread with so much stack, in a process of its own, comes through the deepest calls. */
static int thread_lives(size_t size)
{
    pid_t child = fork();
    if (child == 0) {
        pthread_attr_t attributes;
        pthread_t thread;
        pthread_attr_init(&attributes);
        _exit(pthread_attr_setstacksize(&attributes, size) != 0 || pthread_create(&thread, &attributes, deepest, NULL) != 0 ||
              pthread_join(thread, NULL) != 0 || number != INTAKE_ACCEPTED);
    }
    int status = 0;
    return child > 0 && waitpid(child, &status, 0) == child && WIFEXITED(status) && WEXITSTATUS(status) == 0;
}

/* Holds what was measured to what the header promises. */
static void hold(const char *what, size_t most, size_t promised)
{
    int within = most <= promised;
    passed += within;
    failed += !within;
    printf("%s: the most is %zu bytes, promised at most %zu%s\n", what, most, promised,
           !within ? ": FAILED" : most + FAR < promised ? ": far below what is promised" : "");
}

/* Holds a thread with so much stack to what docs/HOST.md says of it. */
static void hold_thread(size_t size, int expected)
{
    int lives = thread_lives(size), holds = lives == expected;
    passed += holds;
    failed += !holds;
    printf("a thread of %zu bytes %s%s\n", size, lives ? "ticks" : "crashes", holds ? "" : ": FAILED");
}

int main(void)
{
    static const struct { unsigned signals; uint32_t read_back; const char *name; } around[] = {
        {0, 0, ""}, {SIGNALS, 0, "  inside six signals"}, {0, 0x3F, "  with six read back"},
    };
    empty = taken(nothing);
    printf("%-32s %7s %7s %7s %7s %7s %7s %7s %8s\n", "bytes of stack at depth 64", "row 10", "check", "fresh", "resumed",
           "stopped", "refused", "box", "unrolled");
    for (size_t a = 0; a < sizeof around / sizeof *around; a++)
        for (size_t i = 0; i < NESTS; i++) {
            read_back = around[a].read_back;
            row(&nests[i], around[a].signals, around[a].name);
        }
    srand(1);
    unknown = 1; /* so that the many previews take less time */
    for (unsigned i = 0; i < MIXES; i++)
        mixed();
    hold("intake_check", most_check, INTAKE_STACK_CHECK);
    hold("intake_ceiling", most_ceiling, INTAKE_STACK_CHECK);
    hold("intake_tick", most_tick, INTAKE_STACK_TICK);
    hold("intake_replay", most_replay, INTAKE_STACK_REPLAY);
    hold("a call on a box", most_box, INTAKE_STACK_BOX);
    hold("intake_unroll", most_unroll, INTAKE_STACK_UNROLL);
    passed += full_ledgers > 100;
    failed += full_ledgers <= 100;
    printf("%u ticks found no room in a ledger%s\n", full_ledgers, full_ledgers > 100 ? "" : ": FAILED");
    hold_thread(INTAKE_STACK_THREAD, 1);
    hold_thread(INTAKE_STACK_THREAD / 2, 0); /* a thread with too little is noticed */
    printf("%u passed, %u failed\n", passed, failed);
    return failed != 0;
}
