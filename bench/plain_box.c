/*
 * Eight bays in one box (02, items 8 to 12) as one would write them in C, over the check and the tick of plain.c. The
 * ceiling of a sequence is found by one recursive traversal of the bytes that the check has accepted.
 */
#include "plain_box.h"

#include "plain.h"

#include <stdbool.h>
#include <string.h>

enum { SEQUENCE = 0x04, PARALLEL, LOOP, PRESENT, SIGNAL, TRY, SUSPEND = 0x0B, DELIVER };
enum { BAYS = 8, MAX_BYTES = 1024, STATE_BYTES = 17, ANSWER_BYTES = 12, SHARED_CEILING = 65536 };
enum { POSITIONS = 16, NAME_BYTES = 4, ENTRY = NAME_BYTES + STATE_BYTES, WAITING = 1 };

/* The record of an instant, and what the panel shows of it. */
enum { IN_INPUTS = 4, IN_ANSWER = 8, IN_EMITTED = IN_ANSWER + 4, IN_STATE = IN_ANSWER + ANSWER_BYTES };
enum { RECORD_BYTES = IN_STATE + STATE_BYTES, PANEL_BYTES = 13 };

/* A preview: signals emitted for every filling and for none, whether one is wrong, and the code. */
enum { IN_NEVER = 4, IN_WRONG = 8, IN_CODE, PREVIEW_BYTES, UNKNOWNS = 6, OPEN = 254, WRONG };

/* A farm's total, the greatest one, and what is read of a ledger: the totals and their sum. */
enum { TOTAL_BYTES = 4, MAX_TOTAL = 1 << 24, READING_BYTES = (PLAIN_FARMS + 1) * TOTAL_BYTES };

/* A bay's stretch of the box. */
enum {
    AT_LENGTH = 0,
    AT_SEQUENCE = 2,
    AT_READ_BACK = AT_SEQUENCE + MAX_BYTES,
    AT_CEILING = AT_READ_BACK + 4,
    AT_SERVICE_ONLY = AT_CEILING + 4,
    AT_STATE = AT_SERVICE_ONLY + 4,
    AT_NUMBER = AT_STATE + STATE_BYTES,
    AT_POSITIONS = AT_NUMBER + 4,
    AT_LEDGER = AT_POSITIONS + POSITIONS * ENTRY,
    STRETCH = AT_LEDGER + PLAIN_FARMS * TOTAL_BYTES
};

static uint32_t get(const uint8_t *bytes, unsigned count)
{
    uint32_t value = 0;
    while (count-- > 0)
        value = value << 8 | bytes[count];
    return value;
}

static void put(uint8_t *bytes, unsigned count, uint32_t value)
{
    for (unsigned i = 0; i < count; i++)
        bytes[i] = (uint8_t)(value >> 8 * i);
}

/* The commands of a sequence, and the most loops and signals around one. */
struct size {
    uint32_t commands;
    unsigned loops, signals;
};

/* Measures the statement at `next`, inside so many loops and signals, and returns its end. */
static const uint8_t *measure(struct size *size, const uint8_t *next, unsigned loops, unsigned signals)
{
    size->commands++;
    if (loops > size->loops)
        size->loops = loops;
    if (signals > size->signals)
        size->signals = signals;
    switch (*next) {
    case 0x00:
        return next + 1;
    case SEQUENCE:
    case PARALLEL:
        return measure(size, measure(size, next + 1, loops, signals), loops, signals);
    case PRESENT:
        return measure(size, measure(size, next + 2, loops, signals), loops, signals);
    case LOOP:
        return measure(size, next + 1, loops + 1, signals);
    case SIGNAL:
        return measure(size, next + 2, loops, signals + 1);
    case TRY:
        return measure(size, next + 1, loops, signals);
    case SUSPEND:
        return measure(size, next + 2, loops, signals);
    case DELIVER:
        return next + 6;
    default:
        return next + 2;
    }
}

/* The most reactions of an instant of an accepted sequence (02, item 6). */
static uint32_t ceiling(const uint8_t *sequence, uint32_t read_back)
{
    struct size size = {0, 0, 0};
    unsigned declared = (unsigned)__builtin_popcount(read_back);
    measure(&size, sequence, 0, 0);
    return (size.commands + declared) * (1 + size.loops) << (size.signals + declared);
}

uint32_t plain_ceiling(const uint8_t *sequence, size_t length, uint32_t read_back)
{
    return plain_check(sequence, length, read_back) == 0 ? ceiling(sequence, read_back) : 0;
}

/* The stretch of a bay that is filled, or empty, as is wanted; else null, and the number. */
static uint8_t *find(uint8_t *box, size_t box_length, uint32_t bay, bool filled, uint8_t *number)
{
    uint8_t *stretch = NULL;
    *number = 13;
    if (bay < BAYS && box_length != BAYS * STRETCH)
        *number = 1;
    else if (bay < BAYS && (get(box + bay * STRETCH, 2) != 0) == filled)
        stretch = box + bay * STRETCH;
    return stretch;
}

uint8_t plain_box_admit(uint8_t *box, size_t box_length, uint32_t bay, const uint8_t *sequence, size_t sequence_length,
                        uint32_t read_back, uint32_t service_only)
{
    uint8_t number, *stretch = find(box, box_length, bay, false, &number);
    if (stretch == NULL)
        return number;
    number = plain_check(sequence, sequence_length, read_back);
    if (number != 0)
        return number;
    uint32_t own = ceiling(sequence, read_back);
    uint64_t sum = own;
    for (const uint8_t *other = box; other < box + BAYS * STRETCH; other += STRETCH)
        sum += get(other, 2) != 0 ? get(other + AT_CEILING, 4) : 0;
    if (sum > SHARED_CEILING)
        return 14;
    memset(stretch, 0, AT_LEDGER);
    put(stretch + AT_LENGTH, 2, (uint32_t)sequence_length);
    memcpy(stretch + AT_SEQUENCE, sequence, sequence_length);
    put(stretch + AT_READ_BACK, 4, read_back);
    put(stretch + AT_CEILING, 4, own);
    put(stretch + AT_SERVICE_ONLY, 4, service_only);
    return 0;
}

uint8_t plain_box_release(uint8_t *box, size_t box_length, uint32_t bay)
{
    uint8_t number, *stretch = find(box, box_length, bay, true, &number);
    if (stretch == NULL)
        return number;
    memset(stretch, 0, AT_LEDGER);
    return 0;
}

/* The total of a farm; bits that no call writes are none. */
static float total(const uint8_t *ledger, unsigned farm)
{
    uint32_t bits = get(ledger + farm * TOTAL_BYTES, TOTAL_BYTES);
    float number;
    memcpy(&number, &bits, sizeof number);
    return bits >> 31 == 0 && number <= MAX_TOTAL && number == (float)(uint32_t)number ? number : 0;
}

static void put_total(uint8_t *bytes, float number)
{
    uint32_t bits;
    memcpy(&bits, &number, sizeof bits);
    put(bytes, TOTAL_BYTES, bits);
}

/* Whether no farm's total would pass the limit. */
static bool has_room(const uint8_t *ledger, const uint64_t *litres)
{
    for (unsigned farm = 0; farm < PLAIN_FARMS; farm++)
        if (litres[farm] != 0 && (uint64_t)total(ledger, farm) + litres[farm] > MAX_TOTAL)
            return false;
    return true;
}

static void enter(uint8_t *ledger, const uint64_t *litres)
{
    for (unsigned farm = 0; farm < PLAIN_FARMS; farm++)
        if (litres[farm] != 0)
            put_total(ledger + farm * TOTAL_BYTES, total(ledger, farm) + (float)litres[farm]);
}

uint8_t plain_box_tick(uint8_t *box, size_t box_length, uint32_t bay, uint32_t input, uint8_t *answer,
                       size_t answer_length, uint8_t *record, size_t record_length)
{
    uint8_t number, *stretch = find(box, box_length, bay, true, &number);
    if (stretch == NULL)
        return number;
    if (answer_length != ANSWER_BYTES || record_length != RECORD_BYTES)
        return 1;
    uint8_t state[STATE_BYTES], given[ANSWER_BYTES];
    uint64_t litres[PLAIN_FARMS];
    memcpy(state, stretch + AT_STATE, STATE_BYTES);
    number = plain_deliver(stretch + AT_SEQUENCE, get(stretch, 2), state, STATE_BYTES, input,
                           get(stretch + AT_READ_BACK, 4), given, ANSWER_BYTES, litres);
    if (number != 0)
        return number;
    if (!has_room(stretch + AT_LEDGER, litres))
        return 19;
    enter(stretch + AT_LEDGER, litres);
    uint32_t last = get(stretch + AT_NUMBER, 4), instant = last == UINT32_MAX ? last : last + 1;
    memcpy(stretch + AT_STATE, state, STATE_BYTES);
    put(stretch + AT_NUMBER, 4, instant);
    memcpy(answer, given, ANSWER_BYTES);
    put(record, 4, instant);
    put(record + IN_INPUTS, 4, input);
    memcpy(record + IN_ANSWER, given, ANSWER_BYTES);
    memcpy(record + IN_STATE, state, STATE_BYTES);
    return 0;
}

uint8_t plain_box_service(const uint8_t *box, size_t box_length, uint32_t bay, const uint8_t *record, size_t record_length,
                          uint8_t *view, size_t view_length)
{
    uint8_t number;
    if (find((uint8_t *)box, box_length, bay, true, &number) == NULL)
        return number;
    if (record_length != RECORD_BYTES || view_length != RECORD_BYTES)
        return 1;
    memcpy(view, record, RECORD_BYTES);
    return 0;
}

uint8_t plain_box_panel(const uint8_t *box, size_t box_length, uint32_t bay, const uint8_t *record, size_t record_length,
                        uint8_t *view, size_t view_length)
{
    uint8_t number;
    const uint8_t *stretch = find((uint8_t *)box, box_length, bay, true, &number);
    if (stretch == NULL)
        return number;
    if (record_length != RECORD_BYTES || view_length != PANEL_BYTES)
        return 1;
    uint32_t shown = ~get(stretch + AT_SERVICE_ONLY, 4);
    memcpy(view, record, IN_INPUTS);
    view[4] = record[IN_ANSWER];
    put(view + 5, 4, get(record + IN_INPUTS, 4) & shown);
    put(view + 9, 4, get(record + IN_EMITTED, 4) & shown);
    return 0;
}

/* The entry of a position: one in use with this name, or, with no name, a free one; null if there is none. */
static uint8_t *entry(uint8_t *stretch, const uint32_t *name)
{
    for (uint8_t *at = stretch + AT_POSITIONS; at < stretch + AT_LEDGER; at += ENTRY)
        if (name == NULL ? at[NAME_BYTES] == 0 : at[NAME_BYTES] == WAITING && get(at, NAME_BYTES) == *name)
            return at;
    return NULL;
}

uint8_t plain_box_save(uint8_t *box, size_t box_length, uint32_t bay, uint32_t name)
{
    uint8_t number, *stretch = find(box, box_length, bay, true, &number);
    if (stretch == NULL)
        return number;
    if (stretch[AT_STATE] != WAITING)
        return 15;
    uint8_t *at = entry(stretch, &name);
    if (at == NULL)
        at = entry(stretch, NULL);
    if (at == NULL)
        return 16;
    put(at, NAME_BYTES, name);
    memcpy(at + NAME_BYTES, stretch + AT_STATE, STATE_BYTES);
    return 0;
}

uint8_t plain_box_restore(uint8_t *box, size_t box_length, uint32_t bay, uint32_t name)
{
    uint8_t number, *stretch = find(box, box_length, bay, true, &number);
    if (stretch == NULL)
        return number;
    const uint8_t *at = entry(stretch, &name);
    if (at == NULL)
        return 15;
    memcpy(stretch + AT_STATE, at + NAME_BYTES, STATE_BYTES);
    return 0;
}

uint8_t plain_box_forget(uint8_t *box, size_t box_length, uint32_t bay, uint32_t name)
{
    uint8_t number, *stretch = find(box, box_length, bay, true, &number);
    if (stretch == NULL)
        return number;
    uint8_t *at = entry(stretch, &name);
    if (at == NULL)
        return 15;
    memset(at, 0, ENTRY);
    return 0;
}

/* An instant of the bay, of which the box is not told. */
static uint8_t try_instant(const uint8_t *stretch, uint32_t input, uint8_t *answer)
{
    uint8_t state[STATE_BYTES];
    memcpy(state, stretch + AT_STATE, STATE_BYTES);
    return plain_tick(stretch + AT_SEQUENCE, get(stretch, 2), state, STATE_BYTES, input, get(stretch + AT_READ_BACK, 4),
                      answer, ANSWER_BYTES);
}

uint8_t plain_box_preview(const uint8_t *box, size_t box_length, uint32_t bay, uint32_t input, uint32_t unknown,
                          uint8_t *preview, size_t preview_length)
{
    uint8_t number, answer[ANSWER_BYTES];
    const uint8_t *stretch = find((uint8_t *)box, box_length, bay, true, &number);
    if (stretch == NULL)
        return number;
    if (preview_length != PREVIEW_BYTES)
        return 1;
    number = try_instant(stretch, input & ~unknown, answer);
    if (number != 0)
        return number;
    if (__builtin_popcount(unknown) > UNKNOWNS)
        return 17;
    uint32_t emitted = get(answer + 4, 4), always = emitted, some = emitted;
    uint8_t code = answer[0], wrong = code == WRONG;
    for (uint32_t filling = unknown; filling != 0; filling = (filling - 1) & unknown) {
        try_instant(stretch, (input & ~unknown) | filling, answer);
        emitted = get(answer + 4, 4);
        always &= emitted;
        some |= emitted;
        wrong |= answer[0] == WRONG;
        code = answer[0] == code ? code : OPEN;
    }
    put(preview, 4, always);
    put(preview + IN_NEVER, 4, ~some);
    preview[IN_WRONG] = wrong;
    preview[IN_CODE] = code;
    return 0;
}

/* The ledger of a bay number, filled or empty; else null, and the number. */
static uint8_t *find_ledger(uint8_t *box, size_t box_length, uint32_t bay, uint8_t *number)
{
    *number = bay < BAYS ? 1 : 13;
    return bay < BAYS && box_length == BAYS * STRETCH ? box + bay * STRETCH + AT_LEDGER : NULL;
}

uint8_t plain_box_ledger(const uint8_t *box, size_t box_length, uint32_t bay, uint8_t *totals, size_t totals_length)
{
    uint8_t number;
    const uint8_t *ledger = find_ledger((uint8_t *)box, box_length, bay, &number);
    if (ledger == NULL)
        return number;
    if (totals_length != READING_BYTES)
        return 1;
    float sum = 0;
    for (unsigned farm = 0; farm < PLAIN_FARMS; farm++) {
        put_total(totals + farm * TOTAL_BYTES, total(ledger, farm));
        sum += total(ledger, farm);
    }
    put_total(totals + PLAIN_FARMS * TOTAL_BYTES, sum);
    return 0;
}

uint8_t plain_box_new_year(uint8_t *box, size_t box_length, uint32_t bay)
{
    uint8_t number, *ledger = find_ledger(box, box_length, bay, &number);
    if (ledger == NULL)
        return number;
    memset(ledger, 0, PLAIN_FARMS * TOTAL_BYTES);
    return 0;
}
