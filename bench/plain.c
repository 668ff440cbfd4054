/*
 * The check and the tick of document 01, with items 1, 3 to 7 and 12 of 02, as one would write them in C. The check is one
 * recursive traversal; the first setpause begins it anew, and it fills two bit matrices then, which row 10 alone asks for. The
 * tick is a recursion over the read-back set, and inside it over the bytes: it skips a part that does not react, and looks
 * through a part for an active pause before it resumes it. The litres of all farms are summed on the way, where they are
 * asked for; a signal keeps them aside, as it does the labels, until its run is chosen.
 */
#include "plain.h"

#include <stdbool.h>
#include <string.h>

enum { NOTHING, PAUSE, EMIT, EXIT, SEQUENCE, PARALLEL, LOOP, PRESENT, SIGNAL, TRY, SETPAUSE, SUSPEND, DELIVER };
enum { MAX_BYTES = 1024, MAX_DEPTH = 64, MAX_SIGNALS = 6, LABELS = 128, READ_BACK = 65535, MAX_LITRES = 1 << 24 };

/* Operands are counted in bytes; the range is that of the first. */
static const struct { uint8_t parts, operands, low, high; } commands[] = {
    [PAUSE] = {0, 1, 0, LABELS - 1},    [EMIT] = {0, 1, 0, 31},    [EXIT] = {0, 1, 1, 15},
    [SEQUENCE] = {2, 0, 0, 0},          [PARALLEL] = {2, 0, 0, 0}, [LOOP] = {1, 0, 0, 0},
    [PRESENT] = {2, 1, 0, 31},          [SIGNAL] = {1, 1, 0, 31},  [TRY] = {1, 0, 0, 0},
    [SETPAUSE] = {0, 1, 0, LABELS - 1}, [SUSPEND] = {1, 1, 0, 31}, [DELIVER] = {0, 5, 0, 31},
};

/* Not inlined, so that a command without parts saves no registers for those with two. */
#define APART __attribute__((noinline))

/* A set of labels, one bit each. */
__extension__ typedef unsigned __int128 label_set;

static label_set only(uint8_t label)
{
    return (label_set)1 << label;
}

static bool has(label_set a, uint8_t label)
{
    return (label < 64 ? (uint64_t)a : (uint64_t)(a >> 64)) >> label % 64 & 1;
}

struct check {
    const uint8_t *next, *end;
    uint8_t number;               /* row 3 to 6 or 18 if one holds, or AGAIN */
    bool twice;                   /* row 8 */
    bool clash;                   /* two exclusive pauses are active (row 11) */
    bool matrices;                /* are they filled? */
    bool delivers;                /* is there an emission with litres? */
    unsigned nested;              /* the most signals around a command */
    unsigned count;               /* the active pauses read so far */
    label_set active;             /* the labels of the state; none if there is no state */
    label_set pauses, setpauses;  /* those read so far; a row of the matrices is cleared with its first one */
    label_set exclusive[LABELS];  /* l in row k, and k in row l: the pauses k and l are exclusive */
    label_set compatible[LABELS]; /* l in row k: a setpause k is compatible with a later setpause l, or with a pause l */
};

/* There is a setpause, and the matrices are not filled. */
enum { AGAIN = 255 };

static label_set refuse(struct check *c, uint8_t number)
{
    c->number = number;
    return 0;
}

static void add(label_set *matrix, label_set rows, label_set columns)
{
    if (columns == 0)
        return;
    for (uint64_t low = (uint64_t)rows; low != 0; low &= low - 1)
        matrix[__builtin_ctzll(low)] |= columns;
    for (uint64_t high = (uint64_t)(rows >> 64); high != 0; high &= high - 1)
        matrix[64 + __builtin_ctzll(high)] |= columns;
}

/* The rows of a label that is read for the first time. */
static void clear(struct check *c, uint8_t label)
{
    if (!has(c->pauses | c->setpauses, label))
        c->exclusive[label] = c->compatible[label] = 0;
}

static label_set statement(struct check *c, unsigned depth, unsigned signals);

static APART label_set both(struct check *c, uint8_t byte, unsigned depth, unsigned signals)
{
    unsigned before = c->count;
    statement(c, depth, signals);
    if (c->number != 0)
        return 0;
    unsigned middle = c->count;
    statement(c, depth, signals);
    if (byte != PARALLEL && before != middle && middle != c->count)
        c->clash = true;
    return 0;
}

/* The same with matrices. */
static APART label_set both_filled(struct check *c, uint8_t byte, unsigned depth, unsigned signals)
{
    label_set before = c->pauses;
    label_set first = statement(c, depth, signals);
    if (c->number != 0)
        return 0;
    label_set p = c->pauses & ~before;
    label_set second = statement(c, depth, signals);
    label_set q = c->pauses & ~before & ~p;
    if (byte == PARALLEL) {
        add(c->compatible, first, q | second);
        add(c->compatible, second, p);
    } else {
        add(c->exclusive, p, q);
        add(c->exclusive, q, p);
        c->clash |= (p & c->active) != 0 && (q & c->active) != 0;
    }
    return first | second;
}

/* The single-precision number in four bytes. */
static float number_in(const uint8_t *bytes)
{
    uint32_t bits = (uint32_t)bytes[3] << 24 | (uint32_t)bytes[2] << 16 | (uint32_t)bytes[1] << 8 | bytes[0];
    float number;
    memcpy(&number, &bits, sizeof number);
    return number;
}

/* Row 18: the number has its sign in the highest bit, which minus zero has too. No comparison holds of a NaN. */
static bool are_litres(const uint8_t *bytes)
{
    float litres = number_in(bytes);
    return (bytes[3] & 0x80) == 0 && litres <= MAX_LITRES && litres == (float)(uint32_t)litres;
}

/*
 * Reads the statement that begins at c->next, whose command stands at this depth inside so many signals. Gives its
 * setpauses.
 */
static label_set statement(struct check *c, unsigned depth, unsigned signals)
{
    if (c->next == c->end)
        return refuse(c, 4);
    uint8_t byte = *c->next++, operand = 0;
    if (byte > DELIVER)
        return refuse(c, 3);
    if (commands[byte].operands != 0) {
        if (c->end - c->next < commands[byte].operands)
            return refuse(c, 4);
        operand = *c->next;
        if (operand < commands[byte].low || operand > commands[byte].high)
            return refuse(c, 5);
        if (byte == DELIVER && !are_litres(c->next + 1))
            return refuse(c, 18);
        c->next += commands[byte].operands;
    }
    if (depth > MAX_DEPTH || (byte == SIGNAL && signals == MAX_SIGNALS))
        return refuse(c, 6);

    switch (byte) {
    case PAUSE:
        clear(c, operand);
        c->twice |= has(c->pauses, operand);
        c->pauses |= only(operand);
        c->count += has(c->active, operand);
        return 0;
    case SETPAUSE:
        if (!c->matrices)
            return refuse(c, AGAIN);
        clear(c, operand);
        c->setpauses |= only(operand);
        return only(operand);
    case SEQUENCE:
    case PARALLEL:
    case PRESENT:
        return c->matrices ? both_filled(c, byte, depth + 1, signals) : both(c, byte, depth + 1, signals);
    case LOOP:
    case TRY:
    case SUSPEND:
        return statement(c, depth + 1, signals);
    case SIGNAL:
        if (c->nested <= signals)
            c->nested = signals + 1;
        return statement(c, depth + 1, signals + 1);
    case DELIVER:
        c->delivers = true;
        return 0;
    default:
        return 0;
    }
}

static void walk(struct check *c, const uint8_t *sequence, size_t length, bool matrices)
{
    c->next = sequence;
    c->end = sequence + length;
    c->number = 0;
    c->twice = c->clash = c->delivers = false;
    c->matrices = matrices;
    c->nested = c->count = 0;
    c->pauses = c->setpauses = 0;
    statement(c, 1, 0);
}

/* Takes the lowest label out of a set that is not empty. */
static unsigned take(label_set *a)
{
    uint64_t low = (uint64_t)*a, high = (uint64_t)(*a >> 64);
    *a &= *a - 1;
    return (unsigned)(low != 0 ? __builtin_ctzll(low) : 64 + __builtin_ctzll(high));
}

/* Rows 2 to 10 and 18, and what row 11 needs to know: all pauses, and whether two active ones are exclusive. */
static uint8_t check(struct check *c, const uint8_t *sequence, size_t length, uint32_t read_back, label_set active)
{
    if (length == 0 || length > MAX_BYTES)
        return 2;
    c->active = active;
    walk(c, sequence, length, false);
    if (c->number == AGAIN)
        walk(c, sequence, length, true);
    if (c->number != 0)
        return c->number;
    if ((unsigned)__builtin_popcount(read_back) + c->nested > MAX_SIGNALS)
        return 6;
    if (c->next != c->end)
        return 7;
    if (c->twice)
        return 8;
    if ((c->setpauses & ~c->pauses) != 0)
        return 9;
    for (label_set rest = c->setpauses; rest != 0;) {
        unsigned label = take(&rest);
        if ((c->exclusive[label] & c->compatible[label]) != 0)
            return 10;
    }
    return 0;
}

uint8_t plain_check(const uint8_t *sequence, size_t length, uint32_t read_back)
{
    struct check c;
    return check(&c, sequence, length, read_back, 0);
}

enum { STATE_BYTES = 17, ANSWER_BYTES = 12 };
enum { FRESH, WAITS, OVER };
enum { ENDED = 0, WAITING = 1, CAUGHT = 2, WRONG = 255 };

/* Its labels are those that it added to the instant's. */
struct reaction {
    uint32_t emitted;
    uint8_t code;
};

struct instant {
    const uint8_t *sequence;
    const uint8_t *next; /* the statement to react */
    label_set active;    /* the labels of the state */
    label_set labels;    /* those of the reactions so far, for the next state */
    uint32_t reactions;  /* those so far, both runs of each signal */
    uint16_t place;      /* the first error; there is one exactly if the instant is wrong */
    uint8_t kind;
    uint64_t *litres;    /* of each farm, those of the reactions so far; null if they are not asked for */
};

typedef struct reaction run(struct instant *t, uint32_t present);

static const struct reaction ended = {.code = ENDED};

static struct reaction wrong(struct instant *t, uint8_t kind, ptrdiff_t place)
{
    if (t->kind == 0) {
        t->kind = kind;
        t->place = (uint16_t)place;
    }
    return (struct reaction){.code = WRONG};
}

/* Moves past a statement; was an active pause in it? */
static bool skip(struct instant *t)
{
    bool found = false;
    for (unsigned missing = 1; missing > 0; missing--) {
        uint8_t byte = *t->next++;
        if (byte == PAUSE)
            found |= has(t->active, *t->next);
        t->next += commands[byte].operands;
        missing += commands[byte].parts;
    }
    return found;
}

static bool active(struct instant *t)
{
    const uint8_t *start = t->next;
    bool found = skip(t);
    t->next = start;
    return found;
}

static struct reaction waiting(struct instant *t, uint8_t label)
{
    t->labels |= only(label);
    return (struct reaction){0, WAITING};
}

/* Moves past a stopped statement, whose active labels stay. A skip that kept them would slow down every instant. */
static struct reaction stopped(struct instant *t)
{
    label_set labels = 0;
    for (unsigned missing = 1; missing > 0; missing--) {
        uint8_t byte = *t->next++;
        if (byte == PAUSE)
            labels |= only(*t->next);
        t->next += commands[byte].operands;
        missing += commands[byte].parts;
    }
    t->labels |= t->active & labels;
    return (struct reaction){0, WAITING};
}

/* Both sides run; their labels are dropped if one of them exits or is wrong. */
static struct reaction parallel(struct instant *t, run *side, uint32_t present)
{
    label_set before = t->labels;
    struct reaction p = side(t, present), q = side(t, present);
    uint8_t code = p.code > q.code ? p.code : q.code;
    if (code > WAITING)
        t->labels = before;
    return (struct reaction){p.emitted | q.emitted, code};
}

static struct reaction caught(struct reaction p)
{
    if (p.code == CAUGHT)
        p.code = ENDED;
    else if (p.code > CAUGHT && p.code != WRONG)
        p.code--;
    return p;
}

/* The signal s by both runs of its body, the one with s last: inheritance of a wrong one, then the other cases. */
static struct reaction choose(struct instant *t, struct reaction minus, label_set labels_of_minus, struct reaction plus,
                              uint32_t s, ptrdiff_t place)
{
    if (minus.code == WRONG || plus.code == WRONG)
        return (struct reaction){.code = WRONG};
    bool in_minus = (minus.emitted & s) != 0, in_plus = (plus.emitted & s) != 0;
    if (in_minus != in_plus)
        return wrong(t, in_minus ? 2 : 3, place);
    if (in_plus)
        return plus;
    t->labels = labels_of_minus;
    return minus;
}

/* Keeps the litres so far aside, and brings them back, where they are asked for. */
static void keep_litres(const struct instant *t, uint64_t *aside)
{
    if (t->litres != NULL)
        memcpy(aside, t->litres, PLAIN_FARMS * sizeof *aside);
}

static void bring_litres(struct instant *t, const uint64_t *aside)
{
    if (t->litres != NULL)
        memcpy(t->litres, aside, PLAIN_FARMS * sizeof *aside);
}

/* The signal whose body is at t->next. Its litres are dropped. */
static struct reaction local(struct instant *t, run *body, uint32_t present)
{
    const uint8_t *start = t->next;
    uint8_t farm = start[-1];
    uint32_t s = UINT32_C(1) << farm;
    label_set before = t->labels;
    uint64_t litres_before[PLAIN_FARMS], litres_of_minus[PLAIN_FARMS];
    keep_litres(t, litres_before);
    struct reaction minus = body(t, present & ~s);
    label_set labels_of_minus = t->labels;
    keep_litres(t, litres_of_minus);
    bring_litres(t, litres_before);
    t->next = start;
    t->labels = before;
    struct reaction plus = body(t, present | s);
    struct reaction all = choose(t, minus, labels_of_minus, plus, s, start - 2 - t->sequence);
    if ((plus.emitted & s) == 0)
        bring_litres(t, litres_of_minus);
    if (t->litres != NULL)
        t->litres[farm] = litres_before[farm];
    all.emitted &= ~s;
    return all;
}

/*
 * The whole sequence inside the read-back signals of a set, the lowest outermost. What it emits of them is reported, and
 * their litres are kept.
 */
static struct reaction declared(struct instant *t, run *body, uint32_t set, uint32_t present)
{
    if (set == 0) {
        t->next = t->sequence;
        t->labels = 0;
        if (t->litres != NULL)
            memset(t->litres, 0, PLAIN_FARMS * sizeof *t->litres);
        return body(t, present);
    }
    t->reactions++;
    uint32_t s = set & -set;
    uint64_t litres_of_minus[PLAIN_FARMS];
    struct reaction minus = declared(t, body, set ^ s, present & ~s);
    label_set labels_of_minus = t->labels;
    keep_litres(t, litres_of_minus);
    struct reaction plus = declared(t, body, set ^ s, present | s);
    if ((plus.emitted & s) == 0)
        bring_litres(t, litres_of_minus);
    return choose(t, minus, labels_of_minus, plus, s, READ_BACK);
}

static struct reaction react(struct instant *t, uint32_t present);
static struct reaction resume(struct instant *t, uint32_t present);

/* Goes on with the second part of a sequence, at t->next, where the first has ended. */
static struct reaction then(struct instant *t, struct reaction p, uint32_t present)
{
    if (p.code != ENDED) {
        skip(t);
        return p;
    }
    struct reaction q = react(t, present);
    q.emitted |= p.emitted;
    return q;
}

/* One of two parts goes on, the other is skipped. */
static struct reaction branch(struct instant *t, run *part, bool first, uint32_t present)
{
    if (!first) {
        skip(t);
        return part(t, present);
    }
    struct reaction p = part(t, present);
    skip(t);
    return p;
}

/* A statement begins. */
static struct reaction react(struct instant *t, uint32_t present)
{
    t->reactions++;
    const uint8_t *command = t->next++;
    uint8_t operand = commands[*command].operands != 0 ? *t->next : 0;
    t->next += commands[*command].operands;
    struct reaction p;
    switch (*command) {
    case PAUSE:
    case SETPAUSE:
        return waiting(t, operand);
    case DELIVER:
        if (t->litres != NULL)
            t->litres[operand] += (uint32_t)number_in(command + 2);
        return (struct reaction){.emitted = UINT32_C(1) << operand, .code = ENDED};
    case EMIT:
        return (struct reaction){.emitted = UINT32_C(1) << operand, .code = ENDED};
    case EXIT:
        return (struct reaction){.code = operand + 1};
    case SEQUENCE:
        return then(t, react(t, present), present);
    case PARALLEL:
        return parallel(t, react, present);
    case LOOP:
        p = react(t, present);
        return p.code == ENDED ? wrong(t, 1, command - t->sequence) : p;
    case PRESENT:
        return branch(t, react, present >> operand & 1, present);
    case SIGNAL:
        return local(t, react, present);
    case TRY:
        return caught(react(t, present));
    case SUSPEND:
        return react(t, present);
    default:
        return ended;
    }
}

/* A side of a parallel resumes, or was over and is `nothing` in the expansion. */
static struct reaction side(struct instant *t, uint32_t present)
{
    if (active(t))
        return resume(t, present);
    skip(t);
    t->reactions++;
    return ended;
}

/* A statement with an active pause goes on as its expansion would, whose commands are counted. */
static struct reaction resume(struct instant *t, uint32_t present)
{
    const uint8_t *command = t->next++;
    t->next += commands[*command].operands;
    struct reaction p;
    switch (*command) {
    case SEQUENCE:
        if (!active(t))
            return branch(t, resume, false, present);
        t->reactions++;
        return then(t, resume(t, present), present);
    case PARALLEL:
        t->reactions++;
        return parallel(t, side, present);
    case LOOP:
        t->reactions++;
        p = resume(t, present);
        if (p.code != ENDED)
            return p;
        t->next = command;
        return then(t, p, present);
    case PRESENT:
        return branch(t, resume, active(t), present);
    case SIGNAL:
        t->reactions++;
        return local(t, resume, present);
    case TRY:
        t->reactions++;
        return caught(resume(t, present));
    case SUSPEND:
        t->reactions++;
        return present >> command[1] & 1 ? stopped(t) : resume(t, present);
    default: /* an active pause */
        t->reactions++;
        return ended;
    }
}

static uint64_t get(const uint8_t *bytes, unsigned count)
{
    uint64_t value = 0;
    while (count-- > 0)
        value = value << 8 | bytes[count];
    return value;
}

static void put(uint8_t *bytes, unsigned count, uint64_t value)
{
    for (unsigned i = 0; i < count; i++)
        bytes[i] = (uint8_t)(value >> 8 * i);
}

static label_set labels_in(const uint8_t *state)
{
    return (label_set)get(state + 9, 8) << 64 | get(state + 1, 8);
}

/* Rows 11 and 12. */
static uint8_t check_state(const struct check *c, uint8_t phase)
{
    if (phase > OVER || (c->active == 0) != (phase != WAITS) || (c->active & ~c->pauses) != 0 || c->clash)
        return 11;
    return phase == OVER ? 12 : 0;
}

/* Both records of an instant. */
static void finish(const struct instant *t, struct reaction r, uint8_t *state, uint8_t *answer)
{
    state[0] = r.code == WAITING ? WAITS : OVER;
    label_set labels = r.code == WAITING ? t->labels : 0;
    put(state + 1, 8, (uint64_t)labels);
    put(state + 9, 8, (uint64_t)(labels >> 64));
    answer[0] = r.code;
    answer[1] = t->kind;
    put(answer + 2, 2, t->place);
    put(answer + 4, 4, r.code == WRONG ? 0 : r.emitted);
    put(answer + 8, 4, t->reactions);
}

uint8_t plain_deliver(const uint8_t *sequence, size_t sequence_length, uint8_t *state, size_t state_length, uint32_t input,
                      uint32_t read_back, uint8_t *answer, size_t answer_length, uint64_t *litres)
{
    if (state_length != STATE_BYTES || answer_length != ANSWER_BYTES)
        return 1;
    label_set active = labels_in(state);
    struct check c;
    uint8_t number = check(&c, sequence, sequence_length, read_back, active);
    if (number == 0)
        number = check_state(&c, state[0]);
    if (number != 0)
        return number;

    struct instant t = {.sequence = sequence, .active = active, .litres = c.delivers ? litres : NULL};
    struct reaction r = declared(&t, state[0] == FRESH ? react : resume, read_back, input);
    if (litres != NULL && (r.code == WRONG || !c.delivers))
        memset(litres, 0, PLAIN_FARMS * sizeof *litres);
    finish(&t, r, state, answer);
    return 0;
}

uint8_t plain_tick(const uint8_t *sequence, size_t sequence_length, uint8_t *state, size_t state_length, uint32_t input,
                   uint32_t read_back, uint8_t *answer, size_t answer_length)
{
    return plain_deliver(sequence, sequence_length, state, state_length, input, read_back, answer, answer_length, NULL);
}

enum { INPUT_AT = 4, ANSWER_AT = 8, STATE_AT = ANSWER_AT + ANSWER_BYTES, RECORD_BYTES = STATE_AT + STATE_BYTES };

uint8_t plain_replay(const uint8_t *sequence, size_t sequence_length, uint32_t read_back, const uint8_t *recording,
                     size_t recording_length, size_t *place)
{
    *place = 0;
    struct check c;
    uint8_t number = check(&c, sequence, sequence_length, read_back, 0);
    if (number != 0)
        return number;
    if (recording_length % RECORD_BYTES != 0)
        return 22;

    uint8_t record[RECORD_BYTES] = {0}, *state = record + STATE_AT;
    for (size_t i = 0; i < recording_length / RECORD_BYTES; i++) {
        const uint8_t *given = recording + i * RECORD_BYTES;
        uint32_t input = (uint32_t)get(given + INPUT_AT, 4);
        bool over = state[0] == OVER;
        if (!over) {
            struct instant t = {.sequence = sequence, .active = labels_in(state)};
            struct reaction r = declared(&t, state[0] == FRESH ? react : resume, read_back, input);
            finish(&t, r, state, record + ANSWER_AT);
            put(record, 4, i < UINT32_MAX ? i + 1 : UINT32_MAX);
            put(record + INPUT_AT, 4, input);
        }
        if (over || memcmp(record, given, RECORD_BYTES) != 0) {
            *place = i + 1;
            return 0;
        }
    }
    return 0;
}
