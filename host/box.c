/*
 * The calls on a box through include/intake.h, built with sanitizers: vectors by hand, and every line of the table that is
 * the argument (host/examples.txt) as an admission. The box, the sequence and what is written beside the box stand between
 * unreadable pages, and are read-only during a call that is turned down; a reader's box and record, and the box of a
 * preview and of a ledger that is read, always are. The last line is 'N passed, M failed'.
 */
#include "testing.h"

#include "intake.h"

/* Statements of 3, 15, 31, 63 and 255 commands, all of them sequences of nothing. */
#define T3 "04 2(00) "
#define T15 "04 2(04 2(" T3 ")) "
#define T31 "04 2(" T15 ") "
#define T63 "04 2(" T31 ") "
#define T255 "04 2(04 2(" T63 ")) "

#define SIX "08 00 08 01 08 02 08 03 08 04 08 05 "

/* Ceilings, commands * (1 + loops) * 2^signals. One above 65,536 is a prime number, so that no sequence has that one. */
#define WHOLE SIX "15(06) 21(04) 22(00)" /* 6 + 15 + 21 + 22 = 64 commands: 64 * 16 * 64 = 65,536 */
#define HALF SIX "15(06) 5(04) 6(00)"    /* 6 + 15 + 5 + 6 = 32 commands: 32 * 16 * 64 = 32,768 */
#define EIGHTH SIX "06 28(04) 29(00)"    /* 6 + 1 + 28 + 29 = 64 commands: 64 * 2 * 64 = 8,192 */
/* 42 + 1 + 255 + 1 + 63 + 1 + 15 + 3 = 381 commands: 381 * 43 = 16,383 */
#define ODD "42(06) 04 " T255 "04 " T63 "04 " T15 T3
#define HALF_READ_BACK "15(06) 5(04) 6(00) & 0000003F"             /* 26 + 6 = 32 commands: 32,768 */
#define WHOLE_READ_BACK "25(09) 31(04 " T31 ") 00 & 0000003F"      /* 25 + 31 * 32 + 1 + 6 = 1,024: 1,024 * 64 = 65,536 */
#define JUST_ABOVE "26(09) 31(04 " T31 ") 00 & 0000003F"           /* one command more: 1,025 * 64 = 65,600 */
#define MUCH_ABOVE SIX "47(06) 9(04) 10(00)"                       /* 6 + 47 + 19 = 72 commands: 72 * 48 * 64 = 221,184 */
#define WHOLE_LITRES SIX "15(06) 21(04) 22(0C 00 06 08 06 4B)"     /* 64 commands; the numbers are none: 65,536 */
#define ONE "00"                                                   /* 1 */
#define TWO "09 00"                                                /* 2 */

/* Emits 1 and waits at label 5, again and again; waits once, then emits 2; wrong in its first instant. */
#define ENDLESS "06 04 02 01 01 05"
#define ONCE "04 01 07 02 02"
#define WRONG_AT_ONCE "06 00"

/* Where a stretch has the state record, the number of the last instant and the ledger (docs/FORMAT.md, 'Box'). */
enum { STRETCH = INTAKE_BOX_LENGTH / INTAKE_BAY_COUNT, AT_STATE = 1038, AT_NUMBER = 1055, AT_LEDGER = 1395 };

static struct page box_page, sequence_page, answer_page, record_page, view_page;
static uint8_t *box;
static uint8_t was[INTAKE_BOX_LENGTH];
static uint32_t service_only;                /* of the next admission */
static uint32_t instants[INTAKE_BAY_COUNT];  /* the number of each bay's last one */
static uint8_t last[INTAKE_RECORD_LENGTH];   /* the record of the last instant of any bay */

/* An empty box, at the start or at the end of its pages. */
static void begin(bool at_end)
{
    protect(box_page, true);
    memset(box_page.start, 0, box_page.size);
    box = at_end ? box_page.start + box_page.size - INTAKE_BOX_LENGTH : box_page.start;
}

/* Before a call that is to give the number: if that turns it down, the box can't be written. */
static void before(uint8_t number)
{
    memcpy(was, box, sizeof was);
    protect(box_page, number == INTAKE_ACCEPTED);
}

static void after(uint8_t number, uint8_t given, const char *where, const char *line)
{
    protect(box_page, true);
    expect(given == number && (number == INTAKE_ACCEPTED || memcmp(box, was, sizeof was) == 0), given, where, line);
}

/* Admits the sequence of a text, and expects the number; the line ends a message. */
static void admit_line(uint8_t number, uint32_t bay, const char *line)
{
    struct bytes sequence = {.count = 0};
    uint32_t read_back;
    program(line, &sequence, &read_back);
    const uint8_t *bytes = place(sequence_page, bay % 2 == 0, &sequence, false);
    before(number);
    uint8_t given = intake_box_admit(box, INTAKE_BOX_LENGTH, bay, bytes, sequence.count, read_back, service_only);
    after(number, given, "admit", line);
    if (given == INTAKE_ACCEPTED)
        instants[bay] = 0;
}

static void admit(uint8_t number, uint32_t bay, const char *text)
{
    char line[256];
    snprintf(line, sizeof line, "%s\n", text);
    admit_line(number, bay, line);
}

static void release(uint8_t number, uint32_t bay)
{
    before(number);
    after(number, intake_box_release(box, INTAKE_BOX_LENGTH, bay), "release", "\n");
}

typedef uint8_t position_call(uint8_t *, size_t, uint32_t, uint32_t);

static const struct {
    const char *name;
    position_call *call;
} position_calls[] = {{"save", intake_box_save}, {"restore", intake_box_restore}, {"forget", intake_box_forget}};

enum { SAVE, RESTORE, FORGET, POSITION_CALLS };

static void position(int what, uint8_t number, uint32_t bay, uint32_t name)
{
    char line[16];
    snprintf(line, sizeof line, "%08lX\n", (unsigned long)name);
    before(number);
    after(number, position_calls[what].call(box, INTAKE_BOX_LENGTH, bay, name), position_calls[what].name, line);
}

static void save(uint8_t number, uint32_t bay, uint32_t name) { position(SAVE, number, bay, name); }
static void restore(uint8_t number, uint32_t bay, uint32_t name) { position(RESTORE, number, bay, name); }
static void forget(uint8_t number, uint32_t bay, uint32_t name) { position(FORGET, number, bay, name); }

/* The record is that of the instant: number, input as given, answer, and the state that the box holds now. */
static void recorded(uint32_t bay, uint32_t input, const uint8_t *answer, const uint8_t *record)
{
    const uint8_t *state = box + bay * STRETCH + AT_STATE;
    instants[bay] += instants[bay] != UINT32_MAX;
    expect(intake_record_number(record) == instants[bay], intake_record_number(record) & 0xFF, "number of a record", "\n");
    expect(intake_record_inputs(record) == input, 0, "inputs of a record", "\n");
    expect(memcmp(intake_record_answer(record), answer, INTAKE_ANSWER_LENGTH) == 0, 0, "answer of a record", "\n");
    expect(memcmp(intake_record_state(record), state, INTAKE_STATE_LENGTH) == 0, 0, "state of a record", "\n");
    memcpy(last, record, sizeof last);
}

/* Ticks, and gives the answer record, or null if the call was turned down; then nothing must have been written. */
static const uint8_t *tick(uint8_t number, uint32_t bay, uint32_t input)
{
    struct bytes blank = {.count = INTAKE_ANSWER_LENGTH}, blank_record = {.count = INTAKE_RECORD_LENGTH};
    memset(blank.at, 0xA5, blank.count);
    memset(blank_record.at, 0x5A, blank_record.count);
    uint8_t *answer = place(answer_page, bay % 2 == 0, &blank, number == INTAKE_ACCEPTED);
    uint8_t *record = place(record_page, bay % 2 == 0, &blank_record, number == INTAKE_ACCEPTED);
    before(number);
    uint8_t given = intake_box_tick(box, INTAKE_BOX_LENGTH, bay, input, answer, INTAKE_ANSWER_LENGTH, record,
                                    INTAKE_RECORD_LENGTH);
    after(number, given, "tick", "\n");
    if (given == INTAKE_ACCEPTED)
        recorded(bay, input, answer, record);
    return given == INTAKE_ACCEPTED ? answer : NULL;
}

/* Ticks, and expects the code and the emitted set. */
static void answers(uint32_t bay, uint32_t input, uint8_t code, uint32_t emitted, const char *where)
{
    const uint8_t *answer = tick(INTAKE_ACCEPTED, bay, input);
    bool same = answer != NULL && intake_answer_code(answer) == code && intake_answer_emitted(answer) == emitted;
    expect(same, answer != NULL ? intake_answer_code(answer) : 0, where, "\n");
}

/* Previews, and gives the ten bytes, or null if the call was turned down; then nothing must have been written. */
static const uint8_t *preview(uint8_t number, uint32_t bay, uint32_t input, uint32_t unknown)
{
    struct bytes blank = {.count = INTAKE_PREVIEW_LENGTH};
    char line[32];
    memset(blank.at, 0xA5, blank.count);
    uint8_t *bytes = place(view_page, bay % 2 == 0, &blank, number == INTAKE_ACCEPTED);
    before(number);
    protect(box_page, false);
    uint8_t given = intake_box_preview(box, INTAKE_BOX_LENGTH, bay, input, unknown, bytes, INTAKE_PREVIEW_LENGTH);
    snprintf(line, sizeof line, "%08lX, unknown %08lX\n", (unsigned long)input, (unsigned long)unknown);
    after(number, given, "preview", line);
    return given == INTAKE_ACCEPTED ? bytes : NULL;
}

/* Previews, and expects the signals that are emitted for every filling and for some, whether one is wrong, and the code. */
static void foresees(uint32_t bay, uint32_t input, uint32_t unknown, uint32_t always, uint32_t some, uint8_t wrong,
                     uint8_t code, const char *where)
{
    const uint8_t *bytes = preview(INTAKE_ACCEPTED, bay, input, unknown);
    bool same = bytes != NULL && intake_preview_always(bytes) == always && intake_preview_never(bytes) == ~some;
    same = same && bytes[INTAKE_PREVIEW_WRONG] == wrong && intake_preview_code(bytes) == code;
    expect(same, bytes != NULL ? intake_preview_code(bytes) : 0, where, "\n");
}

/* Reads the ledger of a bay number, and gives its bytes, or null if the call was turned down. */
static const uint8_t *ledger(uint8_t number, uint32_t bay)
{
    struct bytes blank = {.count = INTAKE_LEDGER_LENGTH};
    memset(blank.at, 0xA5, blank.count);
    uint8_t *totals = place(view_page, bay % 2 == 0, &blank, number == INTAKE_ACCEPTED);
    before(number);
    protect(box_page, false);
    uint8_t given = intake_box_ledger(box, INTAKE_BOX_LENGTH, bay, totals, INTAKE_LEDGER_LENGTH);
    after(number, given, "ledger", "\n");
    return given == INTAKE_ACCEPTED ? totals : NULL;
}

static void new_year(uint8_t number, uint32_t bay)
{
    before(number);
    after(number, intake_box_new_year(box, INTAKE_BOX_LENGTH, bay), "new year", "\n");
}

/* Reads a ledger in which one farm at most has a total, and expects it there and as the ledger's own. */
static void has(uint32_t bay, unsigned farm, uint32_t litres, const char *where)
{
    const uint8_t *totals = ledger(INTAKE_ACCEPTED, bay);
    for (unsigned other = 0; totals != NULL && other < INTAKE_FARM_COUNT; other++)
        expect(intake_ledger_farm(totals, other) == (other == farm ? litres : 0), other, where, "a farm's total\n");
    expect(totals != NULL && intake_ledger_total(totals) == litres, farm, where, "the ledger's total\n");
}

/* The same where two farms have one: their litres, and the ledger's total. */
static void has_both(uint32_t bay, const unsigned *farms, const uint32_t *litres, const char *where)
{
    const uint8_t *totals = ledger(INTAKE_ACCEPTED, bay);
    for (unsigned farm = 0; totals != NULL && farm < INTAKE_FARM_COUNT; farm++) {
        uint32_t own = farm == farms[0] ? litres[0] : farm == farms[1] ? litres[1] : 0;
        expect(intake_ledger_farm(totals, farm) == own, farm, where, "a farm's total\n");
    }
    expect(totals != NULL && intake_ledger_total(totals) == litres[2], 0, where, "the ledger's total\n");
}

/* 13 for a number above 7 comes before all others, then 1 for the box, then 13 for the bay, then the rest. */
static void order(void)
{
    static const uint32_t none[] = {8, 255, 256, 257, 65536, UINT32_C(1) << 31, UINT32_MAX - 7, UINT32_MAX};
    static const size_t lengths[] = {0, 1, INTAKE_BOX_LENGTH / INTAKE_BAY_COUNT, INTAKE_BOX_LENGTH - 1};
    uint8_t answer[INTAKE_RECORD_LENGTH + 1] = {0}, record[INTAKE_RECORD_LENGTH + 1] = {0}, view[sizeof record] = {0};
    uint8_t totals[INTAKE_LEDGER_LENGTH + 4] = {0};
    const uint8_t bad[] = {0xFF};
    admit(INTAKE_ACCEPTED, 3, ENDLESS);
    for (size_t i = 0; i < sizeof none / sizeof *none; i++) {
        release(INTAKE_NO_SUCH_BAY, none[i]);
        admit(INTAKE_NO_SUCH_BAY, none[i], ENDLESS);
        tick(INTAKE_NO_SUCH_BAY, none[i], 0);
        for (int what = 0; what < POSITION_CALLS; what++) {
            position(what, INTAKE_NO_SUCH_BAY, none[i], 0);
            expect(position_calls[what].call(NULL, 0, none[i], 0) == 13, 13, "a bad box", "13\n");
        }
        expect(intake_box_admit(NULL, 0, none[i], bad, 0, UINT32_MAX, 0) == 13, 13, "a bad box and sequence", "13\n");
        expect(intake_box_release(NULL, 0, none[i]) == 13, 13, "a bad box", "13\n");
        expect(intake_box_service(NULL, 0, none[i], NULL, 0, NULL, 0) == 13, 13, "a bad box, service", "13\n");
        expect(intake_box_panel(NULL, 0, none[i], NULL, 0, NULL, 0) == 13, 13, "a bad box, panel", "13\n");
        expect(intake_box_tick(NULL, 0, none[i], 0, NULL, 0, NULL, 0) == 13, 13, "a bad box and answer", "13\n");
        preview(INTAKE_NO_SUCH_BAY, none[i], 0, UINT32_MAX);
        expect(intake_box_preview(NULL, 0, none[i], 0, UINT32_MAX, NULL, 0) == 13, 13, "a bad box and preview", "13\n");
        ledger(INTAKE_NO_SUCH_BAY, none[i]);
        new_year(INTAKE_NO_SUCH_BAY, none[i]);
        expect(intake_box_ledger(NULL, 0, none[i], NULL, 0) == 13, 13, "a bad box and reading", "13\n");
        expect(intake_box_new_year(NULL, 0, none[i]) == 13, 13, "a bad box, new year", "13\n");
    }
    protect(box_page, false);
    for (size_t i = 0; i < sizeof lengths / sizeof *lengths; i++)
        for (uint32_t bay = 3; bay < 5; bay++) { /* one that is filled, and one that is empty */
            expect(intake_box_admit(box, lengths[i], bay, bad, 1, 0, 0) == 1, 1, "a short box, admission", "1\n");
            expect(intake_box_release(box, lengths[i], bay) == 1, 1, "a short box, release", "1\n");
            expect(intake_box_tick(box, lengths[i], bay, 0, answer, 12, record, 37) == 1, 1, "a short box, tick", "1\n");
            expect(intake_box_service(box, lengths[i], bay, record, 37, view, 37) == 1, 1, "a short box, service", "1\n");
            expect(intake_box_panel(box, lengths[i], bay, record, 37, view, 13) == 1, 1, "a short box, panel", "1\n");
            expect(intake_box_preview(box, lengths[i], bay, 0, 0, view, 10) == 1, 1, "a short box, preview", "1\n");
            expect(intake_box_ledger(box, lengths[i], bay, totals, 132) == 1, 1, "a short box, ledger", "1\n");
            expect(intake_box_new_year(box, lengths[i], bay) == 1, 1, "a short box, new year", "1\n");
            for (int what = 0; what < POSITION_CALLS; what++)
                expect(position_calls[what].call(box, lengths[i], bay, 0) == 1, 1, "a short box, position", "1\n");
        }
    static const size_t ticks[][2] = {{11, 37}, {13, 37}, {0, 37}, {12, 36}, {12, 38}, {12, 0}, {37, 12}, {0, 0}};
    for (size_t i = 0; i < sizeof ticks / sizeof *ticks; i++)
        for (uint32_t bay = 3; bay < 5; bay++) {
            uint8_t given = intake_box_tick(box, INTAKE_BOX_LENGTH, bay, 0, answer, ticks[i][0], record, ticks[i][1]);
            expect(given == (bay == 3 ? 1 : 13), given, "another length of a tick", "1 or 13\n");
        }
    static const size_t reads[][2] = {{36, 37}, {38, 37}, {37, 36}, {37, 38}, {0, 37},
                                      {37, 0},  {36, 13}, {38, 13}, {37, 12}, {37, 14}};
    for (size_t i = 0; i < sizeof reads / sizeof *reads; i++)
        for (uint32_t bay = 3; bay < 5; bay++) {
            uint8_t given = intake_box_service(box, INTAKE_BOX_LENGTH, bay, record, reads[i][0], view, reads[i][1]);
            expect(given == (bay == 3 ? 1 : 13), given, "another length of the service", "1 or 13\n");
            given = intake_box_panel(box, INTAKE_BOX_LENGTH, bay, record, reads[i][0], view, reads[i][1]);
            expect(given == (bay == 3 ? 1 : 13), given, "another length of the panel", "1 or 13\n");
        }
    static const size_t previews[] = {0, 1, 4, 9, 11, 12, 13, 37};
    for (size_t i = 0; i < sizeof previews / sizeof *previews; i++)
        for (uint32_t bay = 3; bay < 5; bay++) {
            uint8_t given = intake_box_preview(box, INTAKE_BOX_LENGTH, bay, 0, i % 2 ? 0 : UINT32_MAX, view, previews[i]);
            expect(given == (bay == 3 ? 1 : 13), given, "another length of a preview", "1 or 13\n");
        }
    static const size_t readings[] = {0, 1, 4, 12, 37, 128, 131, 133, 136};
    for (size_t i = 0; i < sizeof readings / sizeof *readings; i++)
        for (uint32_t bay = 3; bay < 5; bay++) {
            uint8_t given = intake_box_ledger(box, INTAKE_BOX_LENGTH, bay, totals, readings[i]);
            expect(given == 1, given, "another length of a reading", "1\n");
        }
    expect(intake_box_service(box, INTAKE_BOX_LENGTH, 4, record, 37, view, 37) == 13, 13, "an empty bay, service", "13\n");
    expect(intake_box_panel(box, INTAKE_BOX_LENGTH, 4, record, 37, view, 13) == 13, 13, "an empty bay, panel", "13\n");
    expect(intake_box_service(box, INTAKE_BOX_LENGTH, 3, record, 37, view, 13) == 1, 1, "service in a panel's view", "1\n");
    expect(intake_box_panel(box, INTAKE_BOX_LENGTH, 3, record, 37, view, 37) == 1, 1, "panel in a service view", "1\n");
    expect(intake_box_admit(box, INTAKE_BOX_LENGTH, 4, NULL, 0, UINT32_MAX, 0) == 2, 2, "no sequence", "2\n");
    for (size_t i = 0; i < sizeof record; i++)
        expect(answer[i] == 0 && record[i] == 0 && view[i] == 0, 0, "buffers of refused calls", "\n");
    for (size_t i = 0; i < sizeof totals; i++)
        expect(totals[i] == 0, 0, "a reading of refused calls", "\n");
    protect(box_page, true);
    has(3, 0, 0, "the ledger of a filled bay");
    has(4, 0, 0, "the ledger of an empty bay");
    new_year(INTAKE_ACCEPTED, 3);
    new_year(INTAKE_ACCEPTED, 4);
    admit(INTAKE_NO_SUCH_BAY, 3, "FF");
    admit(INTAKE_NO_SUCH_BAY, 3, MUCH_ABOVE);
    admit(INTAKE_UNKNOWN_COMMAND, 4, "FF");
    release(INTAKE_NO_SUCH_BAY, 4);
    tick(INTAKE_NO_SUCH_BAY, 4, 0);
    preview(INTAKE_NO_SUCH_BAY, 4, 0, UINT32_MAX);
    for (int what = 0; what < POSITION_CALLS; what++) {
        position(what, INTAKE_NO_SUCH_BAY, 4, 0);
        position(what, INTAKE_NO_POSITION, 3, 0); /* the machine is fresh, and no name is known */
    }
    release(INTAKE_ACCEPTED, 3);
    release(INTAKE_NO_SUCH_BAY, 3);
}

/* A longer box has a page of its own. */
static void long_box(void)
{
    static uint8_t longer[INTAKE_BOX_LENGTH + 256], copy[sizeof longer];
    const uint8_t one[] = {0x00};
    uint8_t answer[INTAKE_ANSWER_LENGTH], record[INTAKE_RECORD_LENGTH], totals[INTAKE_LEDGER_LENGTH];
    for (size_t more = 1; more <= 256; more += 255) {
        uint8_t given = intake_box_admit(longer, INTAKE_BOX_LENGTH + more, 0, one, sizeof one, 0, 0);
        expect(given == INTAKE_BUFFER_LENGTH, given, "a long box, admission", "1\n");
        given = intake_box_tick(longer, INTAKE_BOX_LENGTH + more, 0, 0, answer, sizeof answer, record, sizeof record);
        expect(given == INTAKE_BUFFER_LENGTH, given, "a long box, tick", "1\n");
        given = intake_box_preview(longer, INTAKE_BOX_LENGTH + more, 0, 0, 0, answer, INTAKE_PREVIEW_LENGTH);
        expect(given == INTAKE_BUFFER_LENGTH, given, "a long box, preview", "1\n");
        given = intake_box_ledger(longer, INTAKE_BOX_LENGTH + more, 0, totals, sizeof totals);
        expect(given == INTAKE_BUFFER_LENGTH, given, "a long box, ledger", "1\n");
        given = intake_box_new_year(longer, INTAKE_BOX_LENGTH + more, 0);
        expect(given == INTAKE_BUFFER_LENGTH, given, "a long box, new year", "1\n");
        for (int what = 0; what < POSITION_CALLS; what++) {
            given = position_calls[what].call(longer, INTAKE_BOX_LENGTH + more, 0, 0);
            expect(given == INTAKE_BUFFER_LENGTH, given, "a long box, position", "1\n");
        }
        given = intake_box_release(longer, INTAKE_BOX_LENGTH + more, 0);
        expect(given == INTAKE_BUFFER_LENGTH && memcmp(longer, copy, sizeof copy) == 0, given, "a long box", "1\n");
    }
}

/* Ceilings that sum to exactly 65,536, and to one more; a release gives its part back. */
static void ceilings(void)
{
    admit(INTAKE_ABOVE_CEILING, 0, JUST_ABOVE);
    admit(INTAKE_ABOVE_CEILING, 7, MUCH_ABOVE);
    admit(INTAKE_ACCEPTED, 7, WHOLE);
    admit(INTAKE_ABOVE_CEILING, 0, ONE); /* 65,537 */
    release(INTAKE_ACCEPTED, 7);
    admit(INTAKE_ACCEPTED, 6, WHOLE_LITRES);
    admit(INTAKE_ABOVE_CEILING, 5, ONE);
    release(INTAKE_ACCEPTED, 6);
    admit(INTAKE_ACCEPTED, 0, WHOLE_READ_BACK);
    admit(INTAKE_ABOVE_CEILING, 1, ONE);
    admit(INTAKE_CUT_SHORT, 1, "06"); /* the sequence's own check comes first */
    release(INTAKE_ACCEPTED, 0);
    admit(INTAKE_ACCEPTED, 1, HALF);
    admit(INTAKE_ACCEPTED, 2, ONE);
    admit(INTAKE_ABOVE_CEILING, 6, HALF_READ_BACK); /* 32,768 + 1 + 32,768 */
    release(INTAKE_ACCEPTED, 2);
    admit(INTAKE_ACCEPTED, 6, HALF_READ_BACK);
    admit(INTAKE_ABOVE_CEILING, 2, ONE);
    release(INTAKE_ACCEPTED, 1);
    admit(INTAKE_ACCEPTED, 2, HALF);
    release(INTAKE_ACCEPTED, 2);
    release(INTAKE_ACCEPTED, 6);
    for (uint32_t bay = 0; bay < INTAKE_BAY_COUNT; bay++) /* 8 * 8,192 = 65,536, with no bay left */
        admit(INTAKE_ACCEPTED, bay, EIGHTH);
    for (uint32_t bay = 0; bay < INTAKE_BAY_COUNT; bay++)
        admit(INTAKE_NO_SUCH_BAY, bay, ONE);
    release(INTAKE_ACCEPTED, 4);
    release(INTAKE_ACCEPTED, 5);
    admit(INTAKE_ACCEPTED, 5, ODD); /* 6 * 8,192 + 16,383 = 65,535 */
    admit(INTAKE_ABOVE_CEILING, 4, TWO);
    admit(INTAKE_ACCEPTED, 4, ONE);
    for (uint32_t bay = 0; bay < INTAKE_BAY_COUNT; bay++)
        release(INTAKE_ACCEPTED, bay);
}

/* A machine that is over keeps its part, and one that is admitted anew is fresh. */
static void again(void)
{
    admit(INTAKE_ACCEPTED, 0, ONCE);
    answers(0, 0, INTAKE_WAITING, 0, "first instant");
    release(INTAKE_ACCEPTED, 0);
    admit(INTAKE_ACCEPTED, 0, ONCE);
    answers(0, 0, INTAKE_WAITING, 0, "first instant again");
    answers(0, 0, INTAKE_ENDED, 1 << 2, "second instant");
    tick(INTAKE_OVER, 0, 0);
    admit(INTAKE_NO_SUCH_BAY, 0, ONCE);
    release(INTAKE_ACCEPTED, 0);
    admit(INTAKE_ACCEPTED, 0, WHOLE);
    answers(0, 0, INTAKE_WRONG, 0, "a loop whose body ends at once");
    tick(INTAKE_OVER, 0, 0);
    admit(INTAKE_ABOVE_CEILING, 1, ONE);
    release(INTAKE_ACCEPTED, 0);
    admit(INTAKE_ACCEPTED, 1, "04 02 08 07 08 02 09 00 & 00000100"); /* a valve that the sequence opens and reads back */
    answers(1, 0, INTAKE_ENDED, 3 << 8, "read back");
    release(INTAKE_ACCEPTED, 1);
    admit(INTAKE_ACCEPTED, 1, "04 02 08 07 08 02 09 00"); /* the set of before is gone */
    answers(1, 0, INTAKE_ENDED, 1 << 8, "not read back");
    release(INTAKE_ACCEPTED, 1);
    memset(was, 0, sizeof was);
    expect(memcmp(box, was, sizeof was) == 0, 0, "a box with nothing in it", "\n");
}

/* Calls that are turned down leave a running bay, which goes on as it would have. */
static void running(void)
{
    admit(INTAKE_ACCEPTED, 2, ONCE);
    answers(2, 0, INTAKE_WAITING, 0, "before the refusals");
    admit(INTAKE_NO_SUCH_BAY, 2, ENDLESS);
    admit(INTAKE_SETPAUSE_WITHOUT_PAUSE, 1, "0A 00");
    admit(INTAKE_ABOVE_CEILING, 1, WHOLE);
    admit(INTAKE_TOO_DEEP, 1, "00 & 0000007F");
    release(INTAKE_NO_SUCH_BAY, 1);
    answers(2, 0, INTAKE_ENDED, 1 << 2, "after the refusals");
    release(INTAKE_ACCEPTED, 2);
}

/* Two bays in turn, each beside a machine of its own whose record the host keeps. */
static void side_by_side(void)
{
    static const struct {
        uint8_t bytes[14];
        size_t length;
        uint32_t read_back;
    } sequences[] = {
        {{0x06, 0x04, 0x0B, 0x00, 0x04, 0x01, 0x05, 0x02, 0x01, 0x01, 0x06}, 11, 2},
        {{0x04, 0x01, 0x05, 0x04, 0x07, 0x03, 0x02, 0x04, 0x00, 0x04, 0x01, 0x06, 0x03, 0x02}, 14, 0},
    };
    uint8_t states[2][INTAKE_STATE_LENGTH] = {{0}}, answer[INTAKE_ANSWER_LENGTH];
    for (uint32_t bay = 0; bay < 2; bay++) {
        uint8_t number = intake_box_admit(box, INTAKE_BOX_LENGTH, bay, sequences[bay].bytes, sequences[bay].length,
                                          sequences[bay].read_back, 0);
        expect(number == INTAKE_ACCEPTED, number, "side by side", "admit\n");
        instants[bay] = 0;
    }
    for (uint32_t i = 0; i < 16; i++) {
        uint32_t bay = i % 3 == 0, input = i * UINT32_C(0x9E3779B9);
        uint8_t number = intake_tick(sequences[bay].bytes, sequences[bay].length, states[bay], sizeof *states, input,
                                     sequences[bay].read_back, answer, sizeof answer);
        const uint8_t *given = tick(number, bay, input);
        expect(given == NULL ? number != 0 : memcmp(given, answer, sizeof answer) == 0, number, "side by side", "tick\n");
    }
    release(INTAKE_ACCEPTED, 0);
    tick(INTAKE_OVER, 1, 0);
    release(INTAKE_ACCEPTED, 1);
}

/* Waits at labels 1, 2 and 3 in turn, and emits the number of the label that it leaves; with signal 0 present it ends. */
#define STEPS "09 06 04 01 01 04 02 01 04 01 02 04 02 02 04 01 03 04 02 03 07 00 03 01 00"

/* 02, item 9: coming back goes on from where the machine waited, from every phase, and the position stays. */
static void coming_back(void)
{
    admit(INTAKE_ACCEPTED, 0, STEPS);
    save(INTAKE_NO_POSITION, 0, 7); /* fresh */
    answers(0, 0, INTAKE_WAITING, 0, "waits at 1");
    save(INTAKE_ACCEPTED, 0, 7);
    answers(0, 0, INTAKE_WAITING, 1 << 1, "waits at 2");
    save(INTAKE_ACCEPTED, 0, 0); /* 0 is a name */
    answers(0, 0, INTAKE_WAITING, 1 << 2, "waits at 3");
    restore(INTAKE_NO_POSITION, 0, 1);
    restore(INTAKE_ACCEPTED, 0, 7);
    answers(0, 0, INTAKE_WAITING, 1 << 1, "from 1, waiting");
    answers(0, 0, INTAKE_WAITING, 1 << 2, "from 2, waiting");
    answers(0, 1, INTAKE_ENDED, 1 << 3, "over");
    tick(INTAKE_OVER, 0, 0);
    save(INTAKE_NO_POSITION, 0, 7); /* over; what the name had is kept */
    save(INTAKE_NO_POSITION, 0, 8);
    restore(INTAKE_ACCEPTED, 0, 7);
    restore(INTAKE_ACCEPTED, 0, 7); /* twice in a row */
    answers(0, 0, INTAKE_WAITING, 1 << 1, "from 1, over before");
    restore(INTAKE_ACCEPTED, 0, 0);
    restore(INTAKE_ACCEPTED, 0, 7);
    restore(INTAKE_ACCEPTED, 0, 0);
    answers(0, 0, INTAKE_WAITING, 1 << 2, "from 2, the last that was asked for");
    save(INTAKE_ACCEPTED, 0, 7); /* replaces the first */
    answers(0, 1, INTAKE_ENDED, 1 << 3, "over again");
    restore(INTAKE_ACCEPTED, 0, 7);
    answers(0, 0, INTAKE_WAITING, 1 << 3, "from 3, replaced");
    forget(INTAKE_ACCEPTED, 0, 7);
    forget(INTAKE_NO_POSITION, 0, 7);
    restore(INTAKE_NO_POSITION, 0, 7);
    answers(0, 0, INTAKE_WAITING, 1 << 1, "from 1, after what was turned down");
    restore(INTAKE_ACCEPTED, 0, 0);
    answers(0, 0, INTAKE_WAITING, 1 << 2, "from 2, another name than the one forgotten");
    release(INTAKE_ACCEPTED, 0);
    admit(INTAKE_ACCEPTED, 0, STEPS);
    answers(0, 0, INTAKE_WAITING, 0, "admitted anew");
    restore(INTAKE_NO_POSITION, 0, 0); /* the positions of before are gone */
    forget(INTAKE_NO_POSITION, 0, 0);
    answers(0, 0, INTAKE_WAITING, 1 << 1, "admitted anew, second instant");
    release(INTAKE_ACCEPTED, 0);
}

/* Sixteen names that differ in one byte, and a seventeenth. */
static void sixteen(void)
{
    uint32_t names[INTAKE_POSITION_COUNT], more = 0x11223355;
    for (uint32_t i = 0; i < INTAKE_POSITION_COUNT; i++)
        names[i] = UINT32_C(0x11223344) ^ (i + 1) << 8 * (i % 4);
    admit(INTAKE_ACCEPTED, 3, STEPS);
    admit(INTAKE_ACCEPTED, 4, STEPS);
    answers(3, 0, INTAKE_WAITING, 0, "waits at 1");
    answers(4, 0, INTAKE_WAITING, 0, "waits at 1, another bay");
    for (uint32_t i = 0; i < INTAKE_POSITION_COUNT; i++) { /* an odd place has the second label, an even one the first */
        if (i % 2 == 1)
            answers(3, 0, INTAKE_WAITING, 1 << 1, "waits at 2");
        save(INTAKE_ACCEPTED, 3, names[i]);
        restore(INTAKE_ACCEPTED, 3, names[0]);
    }
    save(INTAKE_POSITIONS_FULL, 3, more);
    save(INTAKE_POSITIONS_FULL, 3, 0);
    save(INTAKE_ACCEPTED, 4, more); /* each bay has its own */
    restore(INTAKE_NO_POSITION, 3, more);
    forget(INTAKE_NO_POSITION, 3, more);
    for (uint32_t i = 0; i < INTAKE_POSITION_COUNT; i++) {
        restore(INTAKE_ACCEPTED, 3, names[i]);
        answers(3, 0, INTAKE_WAITING, i % 2 == 1 ? 1 << 2 : 1 << 1, "one of sixteen");
        save(INTAKE_ACCEPTED, 3, names[i]); /* replaced while 16 are kept: one label further */
        restore(INTAKE_NO_POSITION, 4, names[i]);
    }
    restore(INTAKE_ACCEPTED, 3, names[1]);
    answers(3, 1, INTAKE_ENDED, 1 << 3, "one of sixteen, replaced");
    save(INTAKE_NO_POSITION, 3, more); /* over: 15 before 16 */
    restore(INTAKE_ACCEPTED, 3, names[0]);
    forget(INTAKE_ACCEPTED, 3, names[9]);
    save(INTAKE_ACCEPTED, 3, more); /* in the place of the one forgotten */
    save(INTAKE_POSITIONS_FULL, 3, names[9]);
    restore(INTAKE_NO_POSITION, 3, names[9]);
    restore(INTAKE_ACCEPTED, 3, more);
    answers(3, 0, INTAKE_WAITING, 1 << 2, "from 2, the new name");
    release(INTAKE_ACCEPTED, 3);
    restore(INTAKE_ACCEPTED, 4, more);
    answers(4, 0, INTAKE_WAITING, 1 << 1, "the other bay's");
    release(INTAKE_ACCEPTED, 4);
    memset(was, 0, sizeof was);
    expect(memcmp(box, was, sizeof was) == 0, 0, "a box with nothing in it, after positions", "\n");
}

/* Shows a record to a reader of a bay and gives the view; the box and the record can't be written. */
typedef uint8_t reader(const uint8_t *, size_t, uint32_t, const uint8_t *, size_t, uint8_t *, size_t);

static const uint8_t *view_of(reader *read, size_t length, uint32_t bay, const uint8_t *record)
{
    struct bytes shown = {.count = INTAKE_RECORD_LENGTH}, blank = {.count = length};
    memcpy(shown.at, record, INTAKE_RECORD_LENGTH);
    memset(blank.at, 0xA5, length);
    const uint8_t *bytes = place(sequence_page, bay % 2 == 0, &shown, false);
    uint8_t *view = place(view_page, bay % 2 == 1, &blank, true);
    protect(box_page, false);
    uint8_t given = read(box, INTAKE_BOX_LENGTH, bay, bytes, INTAKE_RECORD_LENGTH, view, length);
    protect(box_page, true);
    expect(given == INTAKE_ACCEPTED, given, "a reader", "\n");
    return view;
}

/* What the panel shows of a record; the service sees all of it. */
static void shows(uint32_t bay, const uint8_t *record, uint32_t number, uint8_t code, uint32_t inputs, uint32_t emitted,
                  const char *where)
{
    const uint8_t *whole = view_of(intake_box_service, INTAKE_RECORD_LENGTH, bay, record);
    expect(memcmp(whole, record, INTAKE_RECORD_LENGTH) == 0, 0, where, "service\n");
    const uint8_t *view = view_of(intake_box_panel, INTAKE_PANEL_LENGTH, bay, record);
    bool same = intake_panel_number(view) == number && intake_panel_code(view) == code;
    expect(same && intake_panel_inputs(view) == inputs && intake_panel_emitted(view) == emitted, code, where, "panel\n");
}

/* Emits 1, 9 and 31 in each instant, and 8 if 0 is given. */
#define EMITS "06 04 02 01 04 02 09 04 02 1F 04 07 00 02 08 00 01 05"
#define EMITTED UINT32_C(0x80000302)

/* 02, item 10: signals that are for the service only, in the inputs, in the emitted set, in both, none and all. */
static void views(void)
{
    static const uint32_t sets[] = {0, 1 << 4, 1 << 9, 1 << 1, UINT32_C(1) << 31, 0xFFFF0000, UINT32_MAX};
    for (size_t i = 0; i < sizeof sets / sizeof *sets; i++) {
        service_only = sets[i];
        admit(INTAKE_ACCEPTED, 6, EMITS);
        admit(INTAKE_ACCEPTED, 5, WRONG_AT_ONCE);
        service_only = ~sets[i];
        admit(INTAKE_ACCEPTED, 4, ENDLESS);
        answers(6, 0x80000013, INTAKE_WAITING, EMITTED, "emits");
        shows(6, last, 1, INTAKE_WAITING, 0x80000013 & ~sets[i], EMITTED & ~sets[i], "service-only signals");
        shows(4, last, 1, INTAKE_WAITING, 0x80000013 & sets[i], EMITTED & sets[i], "another bay's panel"); /* any record */
        answers(5, 0x80000013, INTAKE_WRONG, 0, "wrong");
        shows(5, last, 1, INTAKE_WRONG, 0x80000013 & ~sets[i], 0, "a wrong instant");
        for (uint32_t bay = 4; bay < 7; bay++)
            release(INTAKE_ACCEPTED, bay);
        service_only = 0;
        admit(INTAKE_ACCEPTED, 6, EMITS); /* the set of before is gone */
        shows(6, last, 1, INTAKE_WRONG, 0x80000013, 0, "a new admission");
        release(INTAKE_ACCEPTED, 6);
    }
}

/* Records that no tick wrote: of two that differ in a bit, the panel shows the same exactly if the bit is hidden. */
static void bits(void)
{
    uint8_t record[INTAKE_RECORD_LENGTH], first[INTAKE_PANEL_LENGTH];
    uint32_t hidden = 0x40C30A51;
    service_only = hidden;
    admit(INTAKE_ACCEPTED, 2, ONE);
    service_only = 0;
    for (unsigned i = 0; i < sizeof record; i++)
        record[i] = (uint8_t)(i * 37 + 11);
    memcpy(first, view_of(intake_box_panel, sizeof first, 2, record), sizeof first);
    for (unsigned bit = 0; bit < 8 * sizeof record; bit++) {
        unsigned byte = bit / 8, inputs = 8 * INTAKE_RECORD_INPUTS, code = INTAKE_RECORD_ANSWER + INTAKE_ANSWER_CODE;
        unsigned emitted = 8 * (INTAKE_RECORD_ANSWER + INTAKE_ANSWER_EMITTED);
        bool shown = byte < INTAKE_RECORD_INPUTS || byte == code ||
                     (bit >= inputs && bit < inputs + 32 && (hidden >> (bit - inputs) & 1) == 0) ||
                     (bit >= emitted && bit < emitted + 32 && (hidden >> (bit - emitted) & 1) == 0);
        record[byte] ^= (uint8_t)(1 << bit % 8);
        bool same = memcmp(view_of(intake_box_panel, sizeof first, 2, record), first, sizeof first) == 0;
        expect(same != shown, bit, "a bit of a record", "panel\n");
        expect(memcmp(view_of(intake_box_service, sizeof record, 2, record), record, sizeof record) == 0, bit,
               "a bit of a record", "service\n");
        record[byte] ^= (uint8_t)(1 << bit % 8);
    }
    release(INTAKE_ACCEPTED, 2);
}

/* The number goes on after coming back, begins anew with an admission, and stays at the greatest. */
static void numbers(void)
{
    admit(INTAKE_ACCEPTED, 1, STEPS);
    answers(1, 0, INTAKE_WAITING, 0, "number 1");
    save(INTAKE_ACCEPTED, 1, 1);
    answers(1, 0, INTAKE_WAITING, 1 << 1, "number 2");
    answers(1, 0, INTAKE_WAITING, 1 << 2, "number 3");
    answers(1, 1, INTAKE_ENDED, 1 << 3, "number 4");
    tick(INTAKE_OVER, 1, 0); /* no instant, no record, no number */
    restore(INTAKE_ACCEPTED, 1, 1);
    answers(1, 0, INTAKE_WAITING, 1 << 1, "number 5");
    expect(intake_record_number(last) == 5, last[0], "after coming back", "5\n");
    release(INTAKE_ACCEPTED, 1);
    admit(INTAKE_ACCEPTED, 1, ENDLESS);
    answers(1, 0, INTAKE_WAITING, 1 << 1, "number 1 again");
    expect(intake_record_number(last) == 1, last[0], "after a new admission", "1\n");
    memcpy(box + STRETCH + AT_NUMBER, "\xFE\xFF\xFF\xFF", 4);
    instants[1] = UINT32_MAX - 1;
    for (int i = 0; i < 3; i++) {
        answers(1, 0, INTAKE_WAITING, 1 << 1, "the greatest number");
        expect(intake_record_number(last) == UINT32_MAX, last[0], "the greatest number", "\n");
        shows(1, last, UINT32_MAX, INTAKE_WAITING, 0, 1 << 1, "the greatest number");
    }
    memcpy(box + STRETCH + AT_NUMBER, "\xFF\x00\xFF\xFF", 4);
    instants[1] = 0xFFFF00FF;
    answers(1, 0, INTAKE_WAITING, 1 << 1, "a carry");
    release(INTAKE_ACCEPTED, 1);
}

/* Emits 1 if 0 is present, else a loop ends at once; emits 3 and ends if 0 is present, else waits once. */
#define OR_WRONG "07 00 02 01 06 00"
#define OR_WAITS "04 02 03 07 00 00 01 05"

/* For each s below 6 emits 8 + s if s is present; and statements that ask whether all six are, or whether any is. */
#define EACH "04 07 00 02 08 00 04 07 01 02 09 00 04 07 02 02 0A 00 04 07 03 02 0B 00 04 07 04 02 0C 00 07 05 02 0D 00"
#define IF_ALL(p, q) "07 00 07 01 07 02 07 03 07 04 07 05 " p " 6(" q ")"
#define IF_NONE(p, q) "07 00 " q " 07 01 " q " 07 02 " q " 07 03 " q " 07 04 " q " 07 05 " q " " p

/* Emits 8, and 9 if 8 is present. */
#define VALVE "04 02 08 07 08 02 09 00"

#define SIX_UNKNOWN 0x3F

/* 02, item 11: what is emitted for every filling and for none, wrong fillings, and a code that they share or not. */
static void previews(void)
{
    admit(INTAKE_ACCEPTED, 0, OR_WRONG);
    for (uint32_t input = 0; input < 2; input++) /* the status given for an unknown input does not matter */
        foresees(0, input, 1, 0, 1 << 1, 1, INTAKE_OPEN, "wrong for one filling");
    foresees(0, 0, 0, 0, 0, 1, INTAKE_WRONG, "nothing unknown, wrong");
    foresees(0, 1, 0, 1 << 1, 1 << 1, 0, INTAKE_ENDED, "nothing unknown, ended");
    foresees(0, 1, 0xFC, 1 << 1, 1 << 1, 0, INTAKE_ENDED, "unknown inputs that are not tested");
    answers(0, 1, INTAKE_ENDED, 1 << 1, "the instant after its previews");
    admit(INTAKE_ACCEPTED, 1, WRONG_AT_ONCE);
    foresees(1, 0, SIX_UNKNOWN, 0, 0, 1, INTAKE_WRONG, "all fillings wrong");
    admit(INTAKE_ACCEPTED, 2, OR_WAITS);
    foresees(2, 0, 1, 1 << 3, 1 << 3, 0, INTAKE_OPEN, "codes 0 and 1");
    foresees(2, 0, 0, 1 << 3, 1 << 3, 0, INTAKE_WAITING, "code 1");
    foresees(2, 1, 0, 1 << 3, 1 << 3, 0, INTAKE_ENDED, "code 0");
    answers(2, 0, INTAKE_WAITING, 1 << 3, "a fresh machine after its previews");
    foresees(2, 0, 1, 0, 0, 0, INTAKE_ENDED, "a machine that waits");
    foresees(2, 0, 1, 0, 0, 0, INTAKE_ENDED, "a machine that still waits");
    preview(INTAKE_SEVENTH_UNKNOWN, 2, 0, 0x7F);
    answers(2, 0, INTAKE_ENDED, 0, "a machine that waited, after its previews");
    for (uint32_t unknown = 0x7F; unknown != 0; unknown >>= 1) /* over: 12 before 17 */
        preview(INTAKE_OVER, 2, 0, unknown);
    preview(INTAKE_OVER, 2, 0, 0);
    preview(INTAKE_OVER, 2, 0, UINT32_MAX);
    admit(INTAKE_ACCEPTED, 3, ENDLESS);
    box[3 * STRETCH + AT_STATE] = 3; /* no phase: 11 before 17 */
    preview(INTAKE_INVALID_STATE, 3, 0, 1);
    preview(INTAKE_INVALID_STATE, 3, 0, UINT32_MAX);
    for (uint32_t bay = 0; bay < 4; bay++)
        release(INTAKE_ACCEPTED, bay);
}

/* Six unknown inputs that all matter, a seventh, all of them; and a read-back signal among them. */
static void unknown_inputs(void)
{
    static const uint32_t seven[] = {0x7F, 0x8000003F, 0xFE000000, 0x01111111, UINT32_MAX};
    static const uint32_t six[] = {0xFC000000, 0x10101111, 0x80000F80};
    admit(INTAKE_ACCEPTED, 0, EACH);
    foresees(0, 0, SIX_UNKNOWN, 0, 0x3F00, 0, INTAKE_ENDED, "six unknown");
    foresees(0, UINT32_MAX, SIX_UNKNOWN, 0, 0x3F00, 0, INTAKE_ENDED, "six unknown, all given");
    for (uint32_t s = 0; s < INTAKE_UNKNOWN_COUNT; s++) { /* one of the six is learnt */
        uint32_t one = UINT32_C(1) << s, others = SIX_UNKNOWN & ~one;
        foresees(0, one, others, one << 8, 0x3F00, 0, INTAKE_ENDED, "five unknown, the sixth given");
        foresees(0, ~one, others, 0, others << 8, 0, INTAKE_ENDED, "five unknown, the sixth absent");
    }
    for (size_t i = 0; i < sizeof seven / sizeof *seven; i++)
        preview(INTAKE_SEVENTH_UNKNOWN, 0, 0x15, seven[i]);
    for (size_t i = 0; i < sizeof six / sizeof *six; i++) {
        uint32_t given = 0x15 & ~six[i] & SIX_UNKNOWN, may = given | (six[i] & SIX_UNKNOWN);
        foresees(0, 0x15, six[i], given << 8, may << 8, 0, INTAKE_ENDED, "six unknown, few of them tested");
    }
    admit(INTAKE_ACCEPTED, 1, IF_ALL("02 1F", "00"));
    foresees(1, 0, SIX_UNKNOWN, 0, UINT32_C(1) << 31, 0, INTAKE_ENDED, "emitted for one filling, the last");
    admit(INTAKE_ACCEPTED, 2, IF_ALL("00", "02 1F"));
    foresees(2, 0, SIX_UNKNOWN, 0, UINT32_C(1) << 31, 0, INTAKE_ENDED, "emitted for all but one, the last");
    admit(INTAKE_ACCEPTED, 3, IF_NONE("02 1F", "00"));
    foresees(3, 0x3F, SIX_UNKNOWN, 0, UINT32_C(1) << 31, 0, INTAKE_ENDED, "emitted for one filling, the first");
    admit(INTAKE_ACCEPTED, 4, IF_ALL("06 00", "02 00"));
    foresees(4, 0, SIX_UNKNOWN, 0, 1, 1, INTAKE_OPEN, "wrong for one filling, the last");
    foresees(4, 0, SIX_UNKNOWN - 1, 1, 1, 0, INTAKE_ENDED, "wrong for none that is left");
    admit(INTAKE_ACCEPTED, 5, IF_NONE("06 00", "02 00"));
    foresees(5, 0x3F, SIX_UNKNOWN, 0, 1, 1, INTAKE_OPEN, "wrong for one filling, the first");
    admit(INTAKE_ACCEPTED, 6, VALVE " & 00000100");
    foresees(6, 0, 1 << 8, 0x300, 0x300, 0, INTAKE_ENDED, "a read-back signal");
    foresees(6, 0, 0x11F, 0x300, 0x300, 0, INTAKE_ENDED, "a read-back signal as the sixth");
    preview(INTAKE_SEVENTH_UNKNOWN, 6, 0, 0x13F);
    admit(INTAKE_ACCEPTED, 7, VALVE);
    foresees(7, 0, 1 << 8, 0x100, 0x300, 0, INTAKE_ENDED, "not read back");
    for (uint32_t bay = 0; bay < INTAKE_BAY_COUNT; bay++)
        release(INTAKE_ACCEPTED, bay);
}

static uint32_t seed;

static uint32_t draw(uint32_t below)
{
    seed = seed * UINT32_C(1664525) + UINT32_C(1013904223);
    return (seed >> 8) % below;
}

/* Appends any statement of so many levels at most that the check accepts; each pause has a label of its own. */
static void any_statement(struct bytes *s, unsigned levels, uint8_t *label)
{
    static const struct {
        uint8_t command, operands, parts;
    } kinds[] = {{0x00, 0, 0}, {0x01, 1, 0}, {0x01, 1, 0}, {0x02, 1, 0}, {0x0C, 1, 0}, {0x02, 1, 0},
                 {0x03, 1, 0}, {0x04, 0, 2}, {0x04, 0, 2}, {0x05, 0, 2}, {0x05, 0, 2}, {0x06, 0, 1}, {0x07, 1, 2},
                 {0x07, 1, 2}, {0x08, 1, 1}, {0x09, 0, 1}, {0x0B, 1, 1}};
    enum { LEAVES = 7, KINDS = sizeof kinds / sizeof *kinds };
    uint32_t kind = levels == 1 ? draw(LEAVES) : levels > 4 ? LEAVES + draw(KINDS - LEAVES) : draw(KINDS);
    uint8_t command = kinds[kind].command;
    s->at[s->count++] = command;
    if (kinds[kind].operands != 0)
        s->at[s->count++] = command == 0x01 ? (*label)++ : command == 0x03 ? (uint8_t)(1 + draw(3)) : (uint8_t)draw(8);
    if (command == 0x0C) { /* 1 litre: the ledger has room for all of these */
        memcpy(s->at + s->count, "\x00\x00\x80\x3F", 4);
        s->count += 4;
    }
    for (unsigned part = 0; part < kinds[kind].parts; part++)
        any_statement(s, levels - 1, label);
}

/* The preview of a bay by its definition, from ticks on copies of its state record: one for each filling. */
static void by_ticks(const struct bytes *sequence, uint32_t bay, uint32_t read_back, uint32_t input, uint32_t unknown,
                     uint8_t *expected)
{
    uint32_t count = UINT32_C(1) << __builtin_popcount(unknown), always = UINT32_MAX, some = 0;
    uint8_t state[INTAKE_STATE_LENGTH], answer[INTAKE_ANSWER_LENGTH], wrong = 0, code = 0;
    for (uint32_t i = 0; i < count; i++) {
        uint32_t filled = input, place = 0;
        for (uint32_t s = 0; s < 32; s++) /* the unknown inputs in turn have the bits of i */
            if ((unknown >> s & 1) != 0)
                filled = (filled & ~(UINT32_C(1) << s)) | (i >> place++ & 1) << s;
        memcpy(state, box + bay * STRETCH + AT_STATE, sizeof state);
        uint8_t given = intake_tick(sequence->at, sequence->count, state, sizeof state, filled, read_back, answer,
                                    sizeof answer);
        expect(given == INTAKE_ACCEPTED, given, "a tick of a filling", "\n");
        always &= intake_answer_emitted(answer);
        some |= intake_answer_emitted(answer);
        wrong |= intake_answer_code(answer) == INTAKE_WRONG;
        code = i == 0 || code == intake_answer_code(answer) ? intake_answer_code(answer) : INTAKE_OPEN;
    }
    for (unsigned i = 0; i < 4; i++) {
        expected[i] = (uint8_t)(always >> 8 * i);
        expected[4 + i] = (uint8_t)(~some >> 8 * i);
    }
    expected[8] = wrong;
    expected[9] = code;
}

/* Whether a preview says at least as much as one with an unknown input more. */
static bool says_more(const uint8_t *more, const uint8_t *less)
{
    return (intake_preview_always(less) & ~intake_preview_always(more)) == 0 &&
           (intake_preview_never(less) & ~intake_preview_never(more)) == 0 &&
           (intake_preview_code(less) == INTAKE_OPEN || intake_preview_code(less) == intake_preview_code(more)) &&
           (intake_preview_wrong(less) || !intake_preview_wrong(more));
}

/* One instant of a random run: its preview by ticks, the statuses learnt one by one, and the instant that then comes. */
static uint8_t foreseen(const struct bytes *sequence, uint32_t bay, uint32_t read_back)
{
    uint32_t unknown = 0, input = draw(256);
    uint8_t expected[INTAKE_PREVIEW_LENGTH], less[INTAKE_PREVIEW_LENGTH] = {[8] = 1, [9] = INTAKE_OPEN};
    for (uint32_t count = draw(INTAKE_UNKNOWN_COUNT + 1); count > 0; count--)
        unknown |= UINT32_C(1) << draw(draw(20) == 0 ? 32 : 8);
    for (;; unknown &= unknown - 1) {
        by_ticks(sequence, bay, read_back, input, unknown, expected);
        const uint8_t *given = preview(INTAKE_ACCEPTED, bay, input, unknown);
        expect(given != NULL && memcmp(given, expected, sizeof expected) == 0, expected[9], "a preview by ticks", "\n");
        expect(given != NULL && says_more(given, less), expected[9], "a status more", "\n");
        memcpy(less, expected, sizeof less);
        if (unknown == 0)
            break;
    }
    const uint8_t *answer = tick(INTAKE_ACCEPTED, bay, input);
    expect(answer != NULL && intake_answer_emitted(answer) == intake_preview_always(less) &&
               intake_answer_emitted(answer) == ~intake_preview_never(less) &&
               intake_answer_code(answer) == intake_preview_code(less), less[9], "the instant that was previewed", "\n");
    return less[9];
}

/* Random sequences, each run for some instants, all of them previewed before. */
static void random_previews(void)
{
    enum { RUNS = 1000, INSTANTS = 8 };
    unsigned codes[4] = {0};
    seed = 11;
    for (uint32_t i = 0; i < RUNS; i++) {
        struct bytes sequence = {.count = 0};
        uint8_t label = 0, code = INTAKE_WAITING;
        uint32_t bay = i % INTAKE_BAY_COUNT, read_back = draw(4) == 0 ? UINT32_C(1) << draw(8) : 0;
        any_statement(&sequence, 6, &label);
        uint8_t number = intake_box_admit(box, INTAKE_BOX_LENGTH, bay, sequence.at, sequence.count, read_back, 0);
        expect(number == INTAKE_ACCEPTED, number, "a random sequence", "admit\n");
        instants[bay] = 0;
        for (unsigned instant = 0; instant < INSTANTS && code == INTAKE_WAITING; instant++) {
            code = foreseen(&sequence, bay, read_back);
            codes[code < 2 ? code : code == INTAKE_WRONG ? 3 : 2]++;
        }
        release(INTAKE_ACCEPTED, bay);
    }
    for (unsigned i = 0; i < 4; i++)
        expect(codes[i] > 20, i, "instants of random sequences with each code", "\n");
}

/* Litres as single-precision numbers: 0, 1, 2, 3, 7, 8,388,608 = 2^23, 16,777,215 and 16,777,216 = 2^24. */
#define L0 "00 00 00 00 "
#define L1 "00 00 80 3F "
#define L2 "00 00 00 40 "
#define L3 "00 00 40 40 "
#define L7 "00 00 E0 40 "
#define HALF_LIMIT "00 00 00 4B "
#define BELOW_LIMIT "FF FF 7F 4B "
#define LIMIT "00 00 80 4B "

/* 128 deliveries of 2^24 of farm 0: 2^31 litres; and what lets its second instant begin its body anew. */
#define D128 "04 2(04 2(04 2(04 2(04 2(04 2(04 2(0C 00 " LIMIT "))))))) "
#define BEGUN_AGAIN(label) "06 09 05 04 01 " label " 03 01 "

/* Delivers of farm 3 in each instant: 16,777,215 if 0 is given, else 1 if 1 is given, else 2. */
#define MUCH_OR_LITTLE "06 04 07 00 0C 03 " BELOW_LIMIT "07 01 0C 03 " L1 "0C 03 " L2 "01 05"

/* Ticks a machine that is turned down with 19, over and over: not an instant, and nothing is written. */
static void no_room(uint32_t bay, uint32_t input, const char *where)
{
    expect(tick(INTAKE_ABOVE_FARM_LIMIT, bay, input) == NULL && tick(INTAKE_ABOVE_FARM_LIMIT, bay, input) == NULL, 19,
           where, "no room\n");
}

/* A sequence of one instant in an empty bay with a cleared ledger: its code, and a farm's litres, the others' being 0. */
static void delivers(const char *text, uint8_t code, uint32_t emitted, unsigned farm, uint32_t litres, const char *where)
{
    admit(INTAKE_ACCEPTED, 6, text);
    answers(6, 0, code, emitted, where);
    has(6, farm, litres, where);
    release(INTAKE_ACCEPTED, 6);
    has(6, farm, litres, where);
    new_year(INTAKE_ACCEPTED, 6);
}

/* 02, item 12: 2^24 - 1 plus 1, plus 2, 2^24 plus 1; more than the limit in one instant; no sum of litres wraps. */
static void limits(void)
{
    admit(INTAKE_ACCEPTED, 2, MUCH_OR_LITTLE);
    answers(2, 1, INTAKE_WAITING, 1 << 3, "16,777,215");
    has(2, 3, 16777215, "16,777,215");
    no_room(2, 0, "2 more");
    no_room(2, 3, "16,777,215 more");
    has(2, 3, 16777215, "after 19");
    answers(2, 2, INTAKE_WAITING, 1 << 3, "1 more, after 19");
    expect(intake_record_number(last) == 2, last[0], "19 is no instant", "2\n");
    has(2, 3, 16777216, "16,777,216");
    no_room(2, 2, "1 above");
    no_room(2, 0, "2 above");
    new_year(INTAKE_ACCEPTED, 2);
    has(2, 3, 0, "a new year");
    answers(2, 0, INTAKE_WAITING, 1 << 3, "2 in a new year");
    has(2, 3, 2, "2 in a new year");
    no_room(2, 1, "16,777,215 more than 2");
    release(INTAKE_ACCEPTED, 2);
    new_year(INTAKE_ACCEPTED, 2);
    static const char *const above[] = {
        "04 0C 00 " LIMIT "0C 00 " LIMIT, "05 0C 00 " LIMIT "0C 00 " L1, "04 0C 00 " LIMIT "04 01 00 0C 00 " LIMIT, D128,
        "04 " D128 "04 04 2(04 2(04 2(04 2(0C 00 " LIMIT ")))) 04 2(0C 00 " LIMIT ")", /* 146, all that 1,024 bytes hold */
    };
    for (size_t i = 0; i < sizeof above / sizeof *above; i++) {
        admit(INTAKE_ACCEPTED, 5, above[i]);
        if (i == 2) /* the limit in each of two instants */
            answers(5, 0, INTAKE_WAITING, 1, "the limit");
        no_room(5, 0, "above the limit");
        if (i != 2) { /* in one instant: a new year does not help */
            new_year(INTAKE_ACCEPTED, 5);
            no_room(5, 0, "above the limit for ever");
            has(5, 0, 0, "above the limit for ever");
        }
        release(INTAKE_ACCEPTED, 5);
        new_year(INTAKE_ACCEPTED, 5);
    }
}

/* A body that begins twice in an instant delivers twice; 2 * 128 * 2^24 = 2^32, which is 0 in 32 bits, is above the limit. */
static void begun_twice(void)
{
    admit(INTAKE_ACCEPTED, 1, BEGUN_AGAIN("00") BEGUN_AGAIN("01") "07 00 0C 04 " L3 "00");
    answers(1, 1, INTAKE_WAITING, 1 << 4, "begun");
    has(1, 4, 3, "begun");
    answers(1, 1, INTAKE_WAITING, 1 << 4, "begun twice");
    has(1, 4, 9, "begun twice");
    release(INTAKE_ACCEPTED, 1);
    new_year(INTAKE_ACCEPTED, 1);
    admit(INTAKE_ACCEPTED, 1, BEGUN_AGAIN("00") BEGUN_AGAIN("01") "07 00 " D128 "00");
    answers(1, 0, INTAKE_WAITING, 0, "nothing delivered");
    no_room(1, 1, "2^32");
    answers(1, 0, INTAKE_WAITING, 0, "nothing delivered after 2^32");
    has(1, 0, 0, "2^32");
    release(INTAKE_ACCEPTED, 1);
}

/* Litres of the run that is chosen alone; dropped with a local signal, kept with one that is read back. */
static void chosen_runs(void)
{
    begun_twice();
    delivers("08 00 04 02 00 07 00 0C 05 " L1 "0C 05 " L7, INTAKE_ENDED, 1 << 5, 5, 1, "the run with a signal");
    delivers("08 00 07 00 0C 05 " L1 "0C 05 " L7, INTAKE_ENDED, 1 << 5, 5, 7, "the run without a signal");
    delivers("08 00 04 02 00 07 00 0C 05 " L1 "04 0C 05 " LIMIT "0C 05 " LIMIT, INTAKE_ENDED, 1 << 5, 5, 1,
             "above the limit in the run not chosen");
    delivers("08 00 07 00 04 0C 05 " LIMIT "0C 05 " LIMIT "0C 05 " L7, INTAKE_ENDED, 1 << 5, 5, 7,
             "above the limit in the other run not chosen");
    delivers("08 00 08 01 04 02 01 07 00 07 01 0C 05 " L1 "0C 05 " L2 "07 01 0C 05 " L3 "0C 05 " L7, INTAKE_ENDED, 1 << 5, 5,
             3, "the run with one signal and without the other");
    delivers("04 02 08 07 08 0C 05 " L1 "0C 05 " L7 "& 00000100", INTAKE_ENDED, 1 << 8 | 1 << 5, 5, 1, "a read-back one");
    delivers("07 08 0C 05 " L1 "0C 05 " L7 "& 00000100", INTAKE_ENDED, 1 << 5, 5, 7, "a read-back one that is not emitted");
    delivers("08 05 04 0C 05 " LIMIT "04 0C 05 " LIMIT "0C 06 " L3, INTAKE_ENDED, 1 << 6, 6, 3, "a local signal's");
    delivers("04 0C 05 " L1 "08 05 0C 05 " L7, INTAKE_ENDED, 1 << 5, 5, 1, "before a local signal of the same name");
    delivers("04 08 05 0C 05 " L7 "0C 05 " L1, INTAKE_ENDED, 1 << 5, 5, 1, "behind a local signal of the same name");
    delivers("08 05 04 0C 05 " L1 "08 05 0C 05 " L7, INTAKE_ENDED, 0, 5, 0, "a local signal inside one of the same name");
    delivers("08 05 05 0C 05 " L1 "07 05 0C 07 " L2 "00", INTAKE_ENDED, 1 << 7, 7, 2, "a local signal that is tested");
    delivers("0C 08 " L3 "& 00000100", INTAKE_ENDED, 1 << 8, 8, 3, "a read-back signal's");
    delivers("04 0C 08 " L3 "07 08 0C 08 " L7 "00 & 00000100", INTAKE_ENDED, 1 << 8, 8, 10, "a read-back signal's, tested");
    delivers("04 0C 05 " L2 "08 05 0C 05 " L7 "& 00000020", INTAKE_ENDED, 1 << 5, 5, 2, "a read-back signal that is hidden");
    delivers("08 1F 04 0C 1F " L2 "0C 00 " L7 "& 80000001", INTAKE_ENDED, 1, 0, 7, "read back beside a hidden one");
    delivers("04 0C 01 " L3 "03 01", 2, 1 << 1, 1, 3, "an exit behind it");
    delivers("04 03 01 0C 01 " L3, 2, 0, 1, 0, "an exit before it");
    delivers("09 05 0C 01 " L3 "03 01", INTAKE_ENDED, 1 << 1, 1, 3, "an exit beside it");
    delivers("05 0C 1F " BELOW_LIMIT "0C 1F " L1, INTAKE_ENDED, UINT32_C(1) << 31, 31, 16777216, "both sides of a parallel");
    delivers("04 0C 00 " L1 "0C 00 " L0, INTAKE_ENDED, 1, 0, 1, "no litres behind one");
    delivers("04 0C 00 " L1 "02 00", INTAKE_ENDED, 1, 0, 1, "an emission by 02 behind one");
    delivers("0C 00 " L0, INTAKE_ENDED, 1, 0, 0, "no litres");
    delivers("07 02 0C 01 " L3 "0C 01 " L7, INTAKE_ENDED, 1 << 1, 1, 7, "the branch that is taken");
    delivers("0B 00 0C 01 " L3, INTAKE_ENDED, 1 << 1, 1, 3, "a suspend that begins");
}

/* A wrong instant adds nothing and never gives 19, with litres above the limit or a ledger that is full. */
static void wrong_instants(void)
{
    static const char *const wrong[] = {
        "06 0C 00 " LIMIT, "06 04 0C 00 " LIMIT "0C 00 " LIMIT, "05 06 00 04 0C 00 " LIMIT "0C 00 " LIMIT,
        "05 0C 00 " L1 "08 01 07 01 00 02 01", "05 0C 00 " L1 "08 01 07 01 02 01 00", "08 01 04 0C 00 " L1 "07 01 06 00 00",
        "04 0C 00 " L1 "07 08 00 02 08 & 00000100", "04 0C 00 " L1 "06 00", "07 00 00 0C 00 " L1 "& 00000001",
    };
    admit(INTAKE_ACCEPTED, 0, "0C 00 " LIMIT);
    answers(0, 0, INTAKE_ENDED, 1, "a full ledger");
    release(INTAKE_ACCEPTED, 0);
    for (size_t i = 0; i < sizeof wrong / sizeof *wrong; i++) {
        delivers(wrong[i], INTAKE_WRONG, 0, 0, 0, "a wrong instant");
        admit(INTAKE_ACCEPTED, 0, wrong[i]);
        answers(0, 0, INTAKE_WRONG, 0, "a wrong instant with a full ledger");
        tick(INTAKE_OVER, 0, 0);
        has(0, 0, 16777216, "a wrong instant with a full ledger");
        release(INTAKE_ACCEPTED, 0);
    }
    new_year(INTAKE_ACCEPTED, 0);
}

/* Delivers 8,388,608 of farm 1 and 3 of farm 9 in each instant, and waits. */
#define TWO_FARMS "06 04 04 0C 01 " HALF_LIMIT "0C 09 " L3 "01 05"

/* A ledger is the bay number's: coming back, release, admission, previews and other bays leave it; 12 comes before 19. */
static void ledgers_stay(void)
{
    static const unsigned farms[] = {1, 9};
    static const uint32_t once[] = {8388608, 3, 8388611}, twice[] = {16777216, 6, 16777222};
    static const uint32_t more[] = {16777216, 7, 16777224}; /* 16,777,223 has 25 binary digits */
    admit(INTAKE_ACCEPTED, 2, TWO_FARMS);
    foresees(2, 0, 3, 0x202, 0x202, 0, INTAKE_WAITING, "a preview of litres");
    has(2, 1, 0, "a preview adds nothing");
    answers(2, 0, INTAKE_WAITING, 0x202, "two farms");
    has_both(2, farms, once, "two farms");
    save(INTAKE_ACCEPTED, 2, 7);
    answers(2, 0, INTAKE_WAITING, 0x202, "two farms again");
    has_both(2, farms, twice, "two farms again");
    no_room(2, 0, "one of two farms has no room");
    has_both(2, farms, twice, "19 adds nothing of the other farm");
    foresees(2, 0, 3, 0x202, 0x202, 0, INTAKE_WAITING, "a preview never gives 19");
    restore(INTAKE_ACCEPTED, 2, 7);
    has_both(2, farms, twice, "coming back rewinds nothing");
    no_room(2, 0, "after coming back");
    release(INTAKE_ACCEPTED, 2);
    has_both(2, farms, twice, "a release");
    admit(INTAKE_ACCEPTED, 2, "04 0C 09 " L1 "04 01 00 0C 01 " L1);
    has_both(2, farms, twice, "an admission");
    answers(2, 0, INTAKE_WAITING, 1 << 9, "the farm that has room");
    has_both(2, farms, more, "the farm that has room");
    no_room(2, 0, "the farm that has none");
    new_year(INTAKE_ACCEPTED, 3);
    has_both(2, farms, more, "another bay's new year");
    new_year(INTAKE_ACCEPTED, 2);
    answers(2, 0, INTAKE_ENDED, 1 << 1, "its last instant");
    has(2, 1, 1, "its last instant");
    tick(INTAKE_OVER, 2, 0);
    release(INTAKE_ACCEPTED, 2);
    for (uint32_t bay = 0; bay < INTAKE_BAY_COUNT; bay++)
        has(bay, 1, bay == 2 ? 1 : 0, "a ledger for each bay");
    new_year(INTAKE_ACCEPTED, 2);
    memset(was, 0, sizeof was);
    expect(memcmp(box, was, sizeof was) == 0, 0, "a box with nothing in it, after new years", "\n");
}

/* Appends a command that delivers so many litres of a farm. */
static void put_delivery(struct bytes *s, unsigned farm, float litres)
{
    uint32_t bits;
    memcpy(&bits, &litres, sizeof bits);
    s->at[s->count++] = 0x0C;
    s->at[s->count++] = (uint8_t)farm;
    for (unsigned i = 0; i < 4; i++)
        s->at[s->count++] = (uint8_t)(bits >> 8 * i);
}

/* One instant of all farms, farm f delivering 2^24 - below[f], and the ledger's total. */
static void all_deliver(const uint32_t *below, uint32_t shown, uint64_t exact, const char *where)
{
    struct bytes sequence = {.count = 0};
    uint64_t sum = 0;
    for (unsigned i = 1; i < INTAKE_FARM_COUNT; i++)
        sequence.at[sequence.count++] = 0x05;
    for (unsigned farm = 0; farm < INTAKE_FARM_COUNT; farm++)
        put_delivery(&sequence, farm, (float)(INTAKE_FARM_LIMIT - below[farm]));
    uint8_t number = intake_box_admit(box, INTAKE_BOX_LENGTH, 4, sequence.at, sequence.count, 0, 0);
    expect(number == INTAKE_ACCEPTED, number, where, "admit\n");
    instants[4] = 0;
    answers(4, 0, INTAKE_ENDED, UINT32_MAX, where);
    const uint8_t *totals = ledger(INTAKE_ACCEPTED, 4);
    for (unsigned farm = 0; totals != NULL && farm < INTAKE_FARM_COUNT; farm++) {
        expect(intake_ledger_farm(totals, farm) == INTAKE_FARM_LIMIT - below[farm], farm, where, "a farm's total\n");
        sum += intake_ledger_farm(totals, farm);
    }
    expect(totals != NULL && intake_ledger_total(totals) == shown && sum == exact, 0, where, "the ledger's total\n");
    release(INTAKE_ACCEPTED, 4);
    new_year(INTAKE_ACCEPTED, 4);
}

/*
 * The ledger's total where every rounding on the way from farm 0 to farm 31 goes down as far as it can, and up: 341 below
 * and above the exact sum, of which 496 are allowed. In the order from 31 to 0 the first would be 536,869,920 and the last
 * 536,870,528.
 */
static void all_farms(void)
{
    static const uint32_t down[] = {0,  3,  2,  6,  12, 12, 12, 12, 8,  24, 24, 24, 24, 24, 24, 24,
                                    48, 48, 48, 48, 48, 48, 48, 48, 48, 48, 48, 48, 48, 48, 48, 48};
    static const uint32_t up[] = {0,  1,  2,  2,  4,  4,  4,  4,  8,  8,  8,  8,  8,  8,  8,  8,
                                  16, 16, 16, 16, 16, 16, 16, 16, 16, 16, 16, 16, 16, 16, 16, 16};
    uint32_t none[INTAKE_FARM_COUNT] = {0}, each[INTAKE_FARM_COUNT];
    for (uint32_t farm = 0; farm < INTAKE_FARM_COUNT; farm++)
        each[farm] = farm + 1;
    all_deliver(none, 536870912, 536870912, "all farms full");
    all_deliver(down, 536869568, 536869909, "rounded down");
    all_deliver(up, 536870912, 536870571, "rounded up");
    all_deliver(each, 536870240, 536870384, "one litre less from farm to farm");
}

/* Totals that no call writes count as 0, and keep their bytes until their farm delivers; a new year clears them. */
static void foreign_totals(void)
{
    static const char *const bits[] = {
        "\x00\x00\xC0\x3F", "\x00\x00\x00\x80", "\x01\x00\x80\x4B", "\x00\x00\x80\x7F", "\x00\x00\xC0\x7F",
        "\x00\x00\x80\xBF", "\x01\x00\x00\x00", "\xFF\xFF\xFF\xFF", "\xFF\xFF\x7F\x7F", "\xFF\xFF\xFF\x4A",
    };
    static const unsigned farms[] = {6, 31};
    static const uint32_t litres[] = {16777216, 16777216, 33554432};
    for (size_t i = 0; i < sizeof bits / sizeof *bits; i++) {
        uint8_t *own = box + 7 * STRETCH + AT_LEDGER;
        memcpy(own + 4 * 5, bits[i], 4);
        memcpy(own + 4 * 6, bits[i], 4);
        memcpy(own + 4 * 31, "\x00\x00\x80\x4B", 4);
        has(7, 31, 16777216, "totals that are none");
        admit(INTAKE_ACCEPTED, 7, "04 04 0C 05 " L0 "0C 06 " LIMIT "04 01 00 0C 06 " L1);
        answers(7, 0, INTAKE_WAITING, 3 << 5, "totals that are none");
        expect(memcmp(own + 4 * 5, bits[i], 4) == 0, (unsigned)i, "bytes of a farm without litres", "\n");
        expect(memcmp(own + 4 * 6, "\x00\x00\x80\x4B", 4) == 0, (unsigned)i, "bytes of a farm with litres", "\n");
        has_both(7, farms, litres, "beside totals that are none");
        no_room(7, 0, "where a total was none");
        release(INTAKE_ACCEPTED, 7);
        expect(memcmp(own + 4 * 5, bits[i], 4) == 0, (unsigned)i, "bytes after a release", "\n");
        new_year(INTAKE_ACCEPTED, 7);
        memset(was, 0, sizeof was);
        expect(memcmp(box, was, sizeof was) == 0, (unsigned)i, "a new year", "\n");
    }
}

/* Lines whose ceilings are above 65,536: (64 + 6) * 64 * 64 = 286,720, and 64 * 58 * 64 = 237,568. */
static const char *const dear[] = {"0: 63(06) 00 & 0000003F\n", "0: 6(08 00) 57(06) 00\n"};

/* Every line of the table is an admission with the number of the check, to a bay of an empty box. */
static void run(const char *line)
{
    char *text;
    uint8_t number = (uint8_t)strtoul(line, &text, 10);
    if (*text != ':')
        die("no line of a table", line);
    for (size_t i = 0; i < sizeof dear / sizeof *dear; i++)
        if (strcmp(line, dear[i]) == 0)
            number = INTAKE_ABOVE_CEILING;
    for (uint32_t bay = 0; bay < INTAKE_BAY_COUNT; bay++) {
        admit_line(number, bay, text + 1);
        if (number == INTAKE_ACCEPTED)
            release(INTAKE_ACCEPTED, bay);
    }
}

int main(int argc, char **argv)
{
    setvbuf(stdout, NULL, _IOLBF, BUFSIZ); /* a write to read-only memory ends the program */
    box_page = new_pages(INTAKE_BOX_LENGTH);
    sequence_page = new_page();
    answer_page = new_page();
    record_page = new_page();
    view_page = new_page();
    for (int at_end = 0; at_end < 2; at_end++) {
        begin(at_end);
        order();
        ceilings();
        again();
        running();
        side_by_side();
        coming_back();
        sixteen();
        views();
        bits();
        numbers();
        previews();
        unknown_inputs();
        random_previews();
        for (uint32_t bay = 0; bay < INTAKE_BAY_COUNT; bay++)
            new_year(INTAKE_ACCEPTED, bay);
        limits();
        chosen_runs();
        wrong_instants();
        ledgers_stay();
        all_farms();
        foreign_totals();
        admit(INTAKE_ACCEPTED, 0, WRONG_AT_ONCE);
        answers(0, 0, INTAKE_WRONG, 0, "wrong");
        release(INTAKE_ACCEPTED, 0);
        each_line(argc == 2 ? argv[1] : NULL, run);
    }
    long_box();
    return verdict();
}
