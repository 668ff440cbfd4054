/*
 * A host with no library at all: the archive, functions of C of its own, and two calls of the system. Linked by -nostdlib,
 * so a further symbol that the archive wanted would stop the link. host/figures.py says which of the two it wants; a
 * compiler may want both for a host's own code.
 */
#include "intake.h"
#include "intake_store.h"

enum { SYSTEM_WRITE = 1, SYSTEM_EXIT = 60, STANDARD_OUTPUT = 1 };

static unsigned passed, failed, memset_calls;

void *memcpy(void *to, const void *from, size_t count);
void *memset(void *at, int byte, size_t count);
void start(void);

void *memcpy(void *to, const void *from, size_t count)
{
    volatile uint8_t *bytes = to; /* volatile: the compiler would make this loop a call of memcpy */
    for (size_t i = 0; i < count; i++)
        bytes[i] = ((const uint8_t *)from)[i];
    return to;
}

void *memset(void *at, int byte, size_t count)
{
    volatile uint8_t *bytes = at;
    memset_calls++;
    for (size_t i = 0; i < count; i++)
        bytes[i] = (uint8_t)byte;
    return at;
}

static long system_call(long what, long first, const void *second, size_t third)
{
    long answer;
    __asm__ volatile("syscall" : "=a"(answer) : "a"(what), "D"(first), "S"(second), "d"(third) : "rcx", "r11", "memory");
    return answer;
}

static void print(const char *text)
{
    size_t count = 0;
    while (text[count] != 0)
        count++;
    system_call(SYSTEM_WRITE, STANDARD_OUTPUT, text, count);
}

static void print_number(unsigned number)
{
    char digit[2] = {(char)('0' + number % 10), 0};
    if (number >= 10)
        print_number(number / 10);
    print(digit);
}

static void expect(int holds, const char *what)
{
    passed += holds != 0;
    failed += holds == 0;
    if (!holds) {
        print("FAILED ");
        print(what);
        print("\n");
    }
}

/* The worked example of document 01: signal 0 (emit 0; pause 1; emit 1), in two instants; then it is over. */
static void worked_example(void)
{
    static const uint8_t sequence[] = {0x08, 0x00, 0x04, 0x02, 0x00, 0x04, 0x01, 0x01, 0x02, 0x01};
    uint8_t state[INTAKE_STATE_LENGTH], answer[INTAKE_ANSWER_LENGTH];
    memset(state, 0, sizeof state);
    memset_calls = 0;
    expect(intake_check(sequence, sizeof sequence, 0) == INTAKE_ACCEPTED, "the check accepts it");
    expect(intake_check(sequence, sizeof sequence - 1, 0) == INTAKE_CUT_SHORT, "the check turns it down cut short");
    expect(intake_ceiling(sequence, sizeof sequence, 0) == 12, "the ceiling");
    expect(intake_ceiling(sequence, sizeof sequence - 1, 0) == 0, "no ceiling");
    for (unsigned instant = 1; instant <= 2; instant++) {
        uint8_t number = intake_tick(sequence, sizeof sequence, state, sizeof state, 0, 0, answer, sizeof answer);
        expect(number == INTAKE_ACCEPTED, "the tick is accepted");
        expect(intake_answer_code(answer) == (instant == 1 ? INTAKE_WAITING : INTAKE_ENDED), "the code");
        expect(intake_answer_emitted(answer) == (instant == 1 ? 0u : 2u), "the emitted set");
        expect(intake_waits_at(state, 1) == (instant == 1), "the labels");
    }
    expect(intake_tick(sequence, sizeof sequence, state, sizeof state, 0, 0, answer, sizeof answer) == INTAKE_OVER, "over");
    expect(memset_calls > 0, "the archive calls this host's memset");
}

/* A box with one bay that delivers 5,000,000 litres of farm 3 in each instant, up to the limit; then a new year. */
static void year(void)
{
    static const uint8_t sequence[] = {0x06, 0x04, 0x0C, 0x03, 0x80, 0x96, 0x98, 0x4A, 0x01, 0x00};
    static uint8_t box[INTAKE_BOX_LENGTH];
    uint8_t answer[INTAKE_ANSWER_LENGTH], record[INTAKE_RECORD_LENGTH], ledger[INTAKE_LEDGER_LENGTH];
    expect(intake_box_admit(box, sizeof box, 2, sequence, sizeof sequence, 0, 0) == INTAKE_ACCEPTED, "admission");
    for (unsigned instant = 1; instant <= 4; instant++) {
        uint8_t number = intake_box_tick(box, sizeof box, 2, 0, answer, sizeof answer, record, sizeof record);
        expect(number == (instant < 4 ? INTAKE_ACCEPTED : INTAKE_ABOVE_FARM_LIMIT), "a delivery");
    }
    expect(intake_box_ledger(box, sizeof box, 2, ledger, sizeof ledger) == INTAKE_ACCEPTED, "the ledger");
    expect(intake_ledger_farm(ledger, 3) == 15000000 && intake_ledger_total(ledger) == 15000000, "its totals");
    expect(intake_box_new_year(box, sizeof box, 2) == INTAKE_ACCEPTED, "a new year");
    expect(intake_box_ledger(box, sizeof box, 2, ledger, sizeof ledger) == INTAKE_ACCEPTED, "the new ledger");
    expect(intake_ledger_farm(ledger, 3) == 0 && intake_ledger_total(ledger) == 0, "its new totals");
}

/* A state record over a cut: what was kept is found, and the older one where the newer is damaged; then nothing. */
static void power_cut(void)
{
    static uint8_t first[INTAKE_STORE_LENGTH(INTAKE_STATE_LENGTH)], second[INTAKE_STORE_LENGTH(INTAKE_STATE_LENGTH)];
    static const uint8_t sequence[] = {0x06, 0x01, 0x00};
    uint8_t state[INTAKE_STATE_LENGTH] = {INTAKE_PHASE_WAITING, 1}, found[INTAKE_STATE_LENGTH];
    unsigned long binding = intake_store_bind(0, sequence, sizeof sequence, 0);
    expect(intake_store_read(first, second, binding, found, sizeof found) == 0 && found[0] == 0, "nothing is kept");
    expect(intake_store_write(first, second, binding, state, sizeof state) == 0, "the first copy");
    state[1] = 2;
    expect(intake_store_write(first, second, binding, state, sizeof state) == 1, "the second copy");
    expect(intake_store_read(first, second, binding, found, sizeof found) == 1 && found[1] == 2, "the newer one");
    second[INTAKE_STORE_HEAD] ^= 1;
    expect(intake_store_read(first, second, binding, found, sizeof found) == 1 && found[1] == 1, "the older one");
    first[0] ^= 1;
    expect(intake_store_read(first, second, binding, found, sizeof found) == 0 && found[1] == 0, "none is whole");
}

/* The system starts a program with an aligned stack and no return address. */
__asm__(".globl _start\n_start:\n\txor %ebp, %ebp\n\tcall start\n\thlt\n");

void start(void)
{
    worked_example();
    year();
    power_cut();
    print_number(passed);
    print(" passed, ");
    print_number(failed);
    print(" failed\n");
    system_call(SYSTEM_EXIT, failed != 0, NULL, 0);
}
