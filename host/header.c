/*
 * The functions of include/intake.h that need nothing of the archive, on records made by hand, and those of
 * include/intake_store.h, which host/store.c tests. Compiled as every C from C90 on and as C++, so it says what both say.
 */
#include "intake.h"
#include "intake_store.h"

#include <stdio.h>
#include <string.h>

enum { SIGNALS = 8 * INTAKE_ANSWER_EMITTED_LENGTH, LABELS = 8 * INTAKE_STATE_LABELS_LENGTH };

static unsigned passed, failed;

static void expect(int holds, const char *what, unsigned member)
{
    if (holds) {
        passed++;
    } else {
        failed++;
        printf("FAILED %s, %u\n", what, member);
    }
}

/* Each field has bytes that no other field has. */
static void answers(void)
{
    uint8_t answer[INTAKE_ANSWER_LENGTH];
    unsigned i, signal;
    for (i = 0; i < INTAKE_ANSWER_LENGTH; i++)
        answer[i] = (uint8_t)(0xF0 + i);
    expect(intake_answer_code(answer) == 0xF0, "code", 0);
    expect(intake_answer_kind(answer) == 0xF1, "kind", 0);
    expect(intake_answer_place(answer) == 0xF3F2, "place", 0);
    expect(intake_answer_emitted(answer) == 0xF7F6F5F4u, "emitted set", 0);
    expect(intake_answer_reactions(answer) == 0xFBFAF9F8u, "reactions", 0);
    for (signal = 0; signal < SIGNALS; signal++) {
        uint32_t set = (uint32_t)1 << signal;
        memset(answer, 0, sizeof answer);
        for (i = 0; i < INTAKE_ANSWER_EMITTED_LENGTH; i++)
            answer[INTAKE_ANSWER_EMITTED + i] = (uint8_t)(set >> 8 * i & 0xFF);
        expect(intake_answer_emitted(answer) == set, "emitted set of one signal", signal);
        for (i = 0; i < SIGNALS + 16; i++)
            expect(intake_emits(answer, i) == (i == signal), "emits", i);
    }
    memset(answer, 0xFF, sizeof answer);
    expect(intake_answer_place(answer) == INTAKE_PLACE_READ_BACK, "place of a read-back signal", 0);
}

static void states(void)
{
    uint8_t state[INTAKE_STATE_LENGTH];
    unsigned label, other;
    for (label = 0; label < LABELS; label++) {
        memset(state, 0, sizeof state);
        state[INTAKE_STATE_PHASE] = INTAKE_PHASE_WAITING;
        state[INTAKE_STATE_LABELS + label / 8] = (uint8_t)(1 << label % 8);
        expect(intake_state_phase(state) == INTAKE_PHASE_WAITING, "phase", label);
        expect(intake_state_labels(state)[label / 8] == 1 << label % 8, "labels", label);
        for (other = 0; other < LABELS + 16; other++)
            expect(intake_waits_at(state, other) == (other == label), "waits at", other);
    }
    expect(!intake_waits_at(state, (unsigned)-1), "waits at a member beyond all", label);
}

static void recordings(void)
{
    uint8_t record[INTAKE_RECORD_LENGTH], view[INTAKE_PANEL_LENGTH];
    unsigned i;
    for (i = 0; i < INTAKE_RECORD_LENGTH; i++)
        record[i] = (uint8_t)(0xA0 + i);
    for (i = 0; i < INTAKE_PANEL_LENGTH; i++)
        view[i] = (uint8_t)(0xE0 + i);
    expect(intake_record_number(record) == 0xA3A2A1A0u, "number", 0);
    expect(intake_record_inputs(record) == 0xA7A6A5A4u, "inputs", 0);
    expect(intake_answer_code(intake_record_answer(record)) == 0xA8, "code of a record", 0);
    expect(intake_answer_emitted(intake_record_answer(record)) == 0xAFAEADACu, "emitted set of a record", 0);
    expect(intake_answer_reactions(intake_record_answer(record)) == 0xB3B2B1B0u, "reactions of a record", 0);
    expect(intake_state_phase(intake_record_state(record)) == 0xB4, "phase of a record", 0);
    expect(intake_state_labels(intake_record_state(record))[15] == 0xC4, "labels of a record", 0);
    expect(intake_panel_number(view) == 0xE3E2E1E0u, "number of a panel", 0);
    expect(intake_panel_code(view) == 0xE4, "code of a panel", 0);
    expect(intake_panel_inputs(view) == 0xE8E7E6E5u, "inputs of a panel", 0);
    expect(intake_panel_emitted(view) == 0xECEBEAE9u, "emitted set of a panel", 0);
}

static void previews(void)
{
    uint8_t preview[INTAKE_PREVIEW_LENGTH];
    unsigned i;
    for (i = 0; i < INTAKE_PREVIEW_LENGTH; i++)
        preview[i] = (uint8_t)(0xD0 + i);
    expect(intake_preview_always(preview) == 0xD3D2D1D0u, "signals for every filling", 0);
    expect(intake_preview_never(preview) == 0xD7D6D5D4u, "signals for no filling", 0);
    expect(intake_preview_code(preview) == 0xD9, "code of a preview", 0);
    for (i = 0; i < 2; i++) {
        memset(preview, i == 0 ? 0xFF : 0, sizeof preview);
        preview[INTAKE_PREVIEW_WRONG] = (uint8_t)i;
        expect(intake_preview_wrong(preview) == (int)i, "wrong filling of a preview", i);
    }
}

/* Totals by their bits, with the exponent of each; each farm has bytes that no other has; and bits that no ledger shows. */
static void ledgers(void)
{
    static const struct { uint32_t bits, litres; } totals[] = {
        {0x00000000, 0},        {0x3F800000, 1},        {0x40000000, 2},        {0x40400000, 3},
        {0x41200000, 10},       {0x49742400, 1000000},  {0x4B7FFFFF, 16777215}, {0x4B800000, 16777216},
        {0x4B800001, 16777218}, {0x4E000000, 536870912}, {0x4F7FFFFF, 4294967040u},
    };
    static const uint32_t none[] = {0x80000000, 0xBF800000, 0x00000001, 0x3F7FFFFF,
                                    0x4F800000, 0x7F800000, 0x7FC00000, 0xFFFFFFFF};
    uint8_t ledger[INTAKE_LEDGER_LENGTH];
    unsigned i, farm, other;
    for (farm = 0; farm <= INTAKE_FARM_COUNT; farm++)
        for (i = 0; i < sizeof totals / sizeof *totals; i++) {
            uint32_t litres = totals[i].litres;
            int own = farm == INTAKE_FARM_COUNT; /* the ledger's own total */
            memset(ledger, 0, sizeof ledger);
            for (other = 0; other < 4; other++)
                ledger[4 * farm + other] = (uint8_t)(totals[i].bits >> 8 * other & 0xFF);
            for (other = 0; other < INTAKE_FARM_COUNT + 2; other++)
                expect(intake_ledger_farm(ledger, other) == (other == farm && !own ? litres : 0), "total of a farm", other);
            expect(intake_ledger_total(ledger) == (own ? litres : 0), "total of a ledger", farm);
        }
    for (i = 0; i < sizeof none / sizeof *none; i++) {
        memset(ledger, 0, sizeof ledger);
        for (other = 0; other < 4; other++)
            ledger[other] = (uint8_t)(none[i] >> 8 * other & 0xFF);
        expect(intake_ledger_farm(ledger, 0) == 0, "bits that no ledger shows", i);
    }
}

/* Every number, kind and two beyond have words of their own; the two beyond share theirs. */
static void texts(void)
{
    unsigned i, j;
    for (i = 0; i <= INTAKE_RECORDING_LENGTH + 2; i++)
        for (j = 0; j < i; j++)
            expect((strcmp(intake_text(i), intake_text(j)) == 0) == (j > INTAKE_RECORDING_LENGTH), "text of a number", i);
    for (i = 0; i <= INTAKE_NOT_STRONGLY_DETERMINISTIC + 2; i++)
        for (j = 0; j < i; j++)
            expect((strcmp(intake_kind_text(i), intake_kind_text(j)) == 0) == (j > INTAKE_NOT_STRONGLY_DETERMINISTIC),
                   "text of a kind", i);
    expect(strcmp(intake_text(INTAKE_OVER), "the machine is over") == 0, "text", INTAKE_OVER);
    expect(strcmp(intake_text(255), "no number of a call") == 0, "text", 255);
}

/* A payload of each length is kept and found, and is not where it was changed. */
static void stores(void)
{
    static uint8_t first[INTAKE_STORE_LENGTH(300)], second[INTAKE_STORE_LENGTH(300)], payload[300], found[300];
    const uint8_t sequence[] = {0x01, 0x00};
    unsigned long binding = intake_store_bind(0, sequence, sizeof sequence, 1);
    size_t length, i;
    expect(intake_store_sum(0, (const unsigned char *)"123456789", 9) == 0xCBF43926UL, "the known sum", 0);
    for (length = 0; length <= 300; length++) {
        int copy;
        for (i = 0; i < length; i++)
            payload[i] = (uint8_t)(7 * i + length);
        copy = intake_store_write(first, second, binding, payload, length);
        expect(intake_store_read(first, second, binding, found, length) == 1 && memcmp(found, payload, length) == 0, "kept",
               (unsigned)length);
        expect(intake_store_read(first, second, binding ^ 1, found, length) == 0, "another binding", (unsigned)length);
        (copy == 0 ? first : second)[INTAKE_STORE_LENGTH(length) - 1] ^= 0x80;
        expect(intake_store_read(first, second, binding, found, length) == 0, "damaged", (unsigned)length);
    }
}

static void lengths(void)
{
    expect(INTAKE_STATE_LABELS + INTAKE_STATE_LABELS_LENGTH == INTAKE_STATE_LENGTH, "length of the state record", 0);
    expect(INTAKE_ANSWER_REACTIONS + INTAKE_ANSWER_REACTIONS_LENGTH == INTAKE_ANSWER_LENGTH, "length of the answer", 0);
    expect(INTAKE_RECORD_ANSWER + (int)INTAKE_ANSWER_LENGTH == INTAKE_RECORD_STATE, "answer of a record", 0);
    expect(INTAKE_RECORD_STATE + (int)INTAKE_STATE_LENGTH == INTAKE_RECORD_LENGTH, "length of a record", 0);
    expect(INTAKE_PANEL_EMITTED + INTAKE_PANEL_EMITTED_LENGTH == INTAKE_PANEL_LENGTH, "length of a panel", 0);
    expect(INTAKE_PREVIEW_NEVER + INTAKE_PREVIEW_NEVER_LENGTH == INTAKE_PREVIEW_WRONG, "sets of a preview", 0);
    expect(INTAKE_PREVIEW_CODE + 1 == INTAKE_PREVIEW_LENGTH, "length of a preview", 0);
    expect(INTAKE_LEDGER_FARMS + INTAKE_LEDGER_FARMS_LENGTH == INTAKE_LEDGER_TOTAL, "farms of a ledger", 0);
    expect(INTAKE_LEDGER_TOTAL + INTAKE_LEDGER_TOTAL_LENGTH == INTAKE_LEDGER_LENGTH, "length of a ledger", 0);
    expect(INTAKE_LEDGER_FARMS_LENGTH == 4 * INTAKE_FARM_COUNT, "totals of a ledger", 0);
    expect(INTAKE_BOX_LENGTH % INTAKE_BAY_COUNT == 0, "length of a box", 0);
    expect(INTAKE_STACK_THREAD >= INTAKE_STACK_TICK && INTAKE_STACK_TICK >= INTAKE_STACK_CHECK, "stack", 0);
    expect(INTAKE_STACK_THREAD >= INTAKE_STACK_BOX, "stack of a box", 0);
    expect(INTAKE_STACK_THREAD >= INTAKE_STACK_UNROLL, "stack of loops written out", 0);
    expect(INTAKE_STACK_THREAD >= INTAKE_STACK_REPLAY, "stack of a replay", 0);
    expect(INTAKE_VERSION / 10000 == INTAKE_VERSION_MAJOR && INTAKE_VERSION % 100 == INTAKE_VERSION_PATCH, "version", 0);
}

int main(void)
{
    answers();
    states();
    recordings();
    previews();
    ledgers();
    texts();
    stores();
    lengths();
    printf("%u passed, %u failed\n", passed, failed);
    return failed != 0;
}
