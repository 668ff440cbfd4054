/*
 * The store of include/intake_store.h under power cuts. A medium has both copies; a write changes one of them, and a cut
 * leaves each word of eight bytes of that one as it was, erased (FF) or new, and one word new up to some byte. Every such
 * state of short copies is tried, every order of their words with a cut at every byte, and of copies as long as a box's a cut
 * at every byte and words at random. From each state the reader must find the new payload exactly if all bytes of the copy
 * are new, else the old one, or nothing if none was there; and the next write must leave alone the copy that is found.
 *
 * Copies are compared with those that are put together here, with a sum by long division. The last line is 'N passed, M
 * failed'.
 */
#include "testing.h"

#include "intake.h"
#include "intake_store.h"

enum { WORD = 8, MOST_WORDS = 8, ALL_BINDINGS = 5 };
enum { RANDOM_CUTS = 6000, CHAINED = 30000, BURSTS = 40 };

static const unsigned long binding = 0x89ABCDEF;

/* A payload, and what the medium has: two copies. Allocated exactly, so that a sanitizer sees every byte outside. */
struct store {
    size_t length, copy_length;
    uint8_t *copies[2], *found;
};

static void check(bool holds, const char *what, size_t length)
{
    passed += holds;
    failed += !holds;
    if (!holds)
        printf("FAILED %s, payload of %zu bytes\n", what, length);
}

static uint8_t *allocated(size_t count)
{
    uint8_t *bytes = malloc(count);
    if (bytes == NULL && count > 0)
        die("no memory", "a copy");
    return bytes;
}

static struct store new_store(size_t length, int fill)
{
    struct store store = {length, INTAKE_STORE_LENGTH(length), {NULL, NULL}, allocated(length)};
    for (int i = 0; i < 2; i++) {
        store.copies[i] = allocated(store.copy_length);
        memset(store.copies[i], fill, store.copy_length);
    }
    return store;
}

static void free_store(struct store *store)
{
    free(store->copies[0]);
    free(store->copies[1]);
    free(store->found);
}

/* Numbers from a fixed seed (xorshift). */
static uint32_t random_number(void)
{
    static uint32_t state = 20261117;
    state ^= state << 13;
    state ^= state >> 17;
    return state ^= state << 5;
}

static uint8_t *random_bytes(size_t length)
{
    uint8_t *bytes = allocated(length);
    for (size_t i = 0; i < length; i++)
        bytes[i] = (uint8_t)(random_number() >> 11);
    return bytes;
}

/* Copies put together by hand. */

/* The sum by long division of the bits, first bit of a byte its lowest; the first 32 and the remainder are inverted. */
static uint32_t sum_by_division(const uint8_t *bytes, size_t count)
{
    uint32_t remainder = 0xFFFFFFFF, mirrored = 0;
    for (size_t bit = 0; bit < 8 * count; bit++) {
        uint32_t top = remainder >> 31 ^ (bytes[bit / 8] >> bit % 8 & 1u);
        remainder = remainder << 1 ^ (top != 0 ? 0x04C11DB7u : 0);
    }
    for (unsigned bit = 0; bit < 32; bit++)
        mirrored |= (remainder >> bit & 1) << (31 - bit);
    return ~mirrored;
}

static void little(uint8_t *at, unsigned count, uint64_t number)
{
    for (unsigned i = 0; i < count; i++)
        at[i] = (uint8_t)(number >> 8 * i);
}

/* Sum, mark, number, binding, length, payload. */
static void put_together(uint8_t *copy, uint32_t number, uint32_t bound, const uint8_t *payload, size_t length)
{
    memcpy(copy + 4, "Int1", 4);
    little(copy + 8, 4, number);
    little(copy + 12, 4, bound);
    little(copy + 16, 8, length);
    for (size_t i = 0; i < length; i++)
        copy[24 + i] = payload[i];
    little(copy, 4, sum_by_division(copy + 4, 20 + length));
}

static bool same(const uint8_t *a, const uint8_t *b, size_t count)
{
    return count == 0 || memcmp(a, b, count) == 0;
}

static bool all_zero(const uint8_t *bytes, size_t count)
{
    while (count > 0 && bytes[count - 1] == 0)
        count--;
    return count == 0;
}

/* Whether the reader finds the payload, or with NULL nothing and clears the payload; it must write no copy. */
static bool finds(struct store *store, const uint8_t *payload)
{
    if (store->length > 0)
        memset(store->found, 0x5A, store->length);
    int found = intake_store_read(store->copies[0], store->copies[1], binding, store->found, store->length);
    if (payload == NULL)
        return found == 0 && all_zero(store->found, store->length);
    return found == 1 && same(store->found, payload, store->length);
}

/* The reader of a store with a payload of no bytes finds the old one and the new one alike. */
static const uint8_t no_bytes[1];

static const uint8_t *or_none(const uint8_t *payload) { return payload != NULL ? payload : no_bytes; }

/* Sums, layout and bindings. */

static void sums(void)
{
    static const struct { const char *bytes; size_t count; uint32_t sum; } known[] = {
        {"123456789", 9, 0xCBF43926}, {"", 0, 0}, {"a", 1, 0xE8B7BE43}, {"abc", 3, 0x352441C2}, {"\0\0\0\0", 4, 0x2144DF1C},
        {"\xFF\xFF\xFF\xFF", 4, 0xFFFFFFFF}, {"The quick brown fox jumps over the lazy dog", 43, 0x414FA339},
    };
    for (size_t i = 0; i < sizeof known / sizeof *known; i++) {
        const uint8_t *bytes = (const uint8_t *)known[i].bytes;
        check(intake_store_sum(0, bytes, known[i].count) == known[i].sum, "a known sum", known[i].count);
        check(sum_by_division(bytes, known[i].count) == known[i].sum, "a known sum by division", known[i].count);
        for (size_t part = 0; part <= known[i].count; part++)
            check(intake_store_sum(intake_store_sum(0, bytes, part), bytes + part, known[i].count - part) == known[i].sum,
                  "a sum of two parts", part);
    }
    check(intake_store_sum(0, NULL, 0) == 0 && intake_store_sum(5, NULL, 0) == 5, "the sum of no bytes", 0);
    for (size_t count = 0; count < 300; count++) {
        uint8_t *bytes = random_bytes(count);
        check(intake_store_sum(0, bytes, count) == sum_by_division(bytes, count), "a sum", count);
        free(bytes);
    }
}

/* Both copies after each of three writes, from bytes of one value, and what is found. */
static void layout_of(size_t length, int fill)
{
    struct store store = new_store(length, fill);
    uint8_t *expected[2] = {allocated(store.copy_length), allocated(store.copy_length)};
    uint32_t number = fill == 0xFF ? 0xFFFFFFFF : (uint32_t)fill * 0x01010101;
    for (int i = 0; i < 2; i++)
        memset(expected[i], fill, store.copy_length);
    check(finds(&store, NULL), "nothing is found at first", length);
    for (int turn = 0; turn < 5; turn++) {
        uint8_t *payload = random_bytes(length);
        put_together(expected[turn % 2], ++number, (uint32_t)binding, payload, length);
        int copy = intake_store_write(store.copies[0], store.copies[1], binding, payload, length);
        check(copy == turn % 2, "the copies in turn", length);
        for (int i = 0; i < 2; i++)
            check(same(store.copies[i], expected[i], store.copy_length), "a copy byte for byte", length);
        check(finds(&store, or_none(payload)), "what was written is found", length);
        free(payload);
    }
    free(expected[0]);
    free(expected[1]);
    free_store(&store);
}

/* The copies and the payload at any address. */
static void unaligned(void)
{
    uint8_t room[3][INTAKE_STORE_LENGTH(INTAKE_STATE_LENGTH) + 8], payload[INTAKE_STATE_LENGTH];
    for (unsigned at = 0; at < 512; at++) {
        uint8_t *first = room[0] + at % 8, *second = room[1] + at / 8 % 8, *from = room[2] + at / 64;
        memset(room, 0xC3, sizeof room);
        for (size_t i = 0; i < sizeof payload; i++)
            from[i] = payload[i] = (uint8_t)(at + i);
        intake_store_write(first, second, binding, from, sizeof payload);
        intake_store_write(first, second, binding, from, sizeof payload);
        memset(from, 0, sizeof payload);
        check(intake_store_read(first, second, binding, from, sizeof payload) == 1 && same(from, payload, sizeof payload),
              "any address", at);
    }
}

/* A payload is found with its own binding alone, and one of another binding hides those before it. */
static void bindings(void)
{
    static const uint8_t sequence[] = {0x06, 0x04, 0x02, 0x05, 0x01, 0x00};
    const unsigned long bound[ALL_BINDINGS] = {
        intake_store_bind(0, sequence, sizeof sequence, 0),     intake_store_bind(0, sequence, sizeof sequence, 1),
        intake_store_bind(0, sequence, sizeof sequence - 1, 0), intake_store_bind(0, sequence + 1, sizeof sequence - 1, 0),
        intake_store_bind(intake_store_bind(0, sequence, sizeof sequence, 0), sequence, sizeof sequence, 0),
    };
    uint8_t first[INTAKE_STORE_LENGTH(3)], second[INTAKE_STORE_LENGTH(3)], kept[3] = {7, 8, 9}, found[3];
    for (int own = 0; own < ALL_BINDINGS; own++)
        for (int other = 0; other < ALL_BINDINGS; other++) {
            memset(first, 0, sizeof first);
            memset(second, 0xFF, sizeof second);
            intake_store_write(first, second, bound[own], kept, sizeof kept);
            int read = intake_store_read(first, second, bound[other], found, sizeof found);
            check(read == (own == other) && (read ? same(found, kept, 3) : all_zero(found, 3)), "a binding", (size_t)own);
            intake_store_write(first, second, bound[own], kept, sizeof kept);
            uint8_t before[sizeof second];
            memcpy(before, second, sizeof second);
            int copy = intake_store_write(first, second, bound[other], kept, sizeof kept);
            check(copy == 0 && same(before, second, sizeof before), "the newer copy is left alone", (size_t)other);
            check(intake_store_read(first, second, bound[own], found, sizeof found) == (own == other),
                  "an older payload is not found where a newer one has another binding", (size_t)own);
            check(intake_store_read(first, second, bound[other], found, sizeof found) == 1, "the newer binding", (size_t)other);
        }
}

/* Each bit of a sequence and of its set, where one sequence ends and the next begins, and no bytes. */
static void different_bindings(void)
{
    static const uint8_t sequence[] = {0x06, 0x04, 0x02, 0x05, 0x01, 0x00};
    unsigned long plain = intake_store_bind(0, sequence, sizeof sequence, 0);
    for (unsigned bit = 0; bit < 8 * sizeof sequence + 32; bit++) {
        uint8_t changed[sizeof sequence];
        memcpy(changed, sequence, sizeof sequence);
        if (bit < 8 * sizeof sequence)
            changed[bit / 8] ^= (uint8_t)(1u << bit % 8);
        unsigned long set = bit < 8 * sizeof sequence ? 0 : 1ul << (bit - 8 * sizeof sequence);
        check(intake_store_bind(0, changed, sizeof changed, set) != plain, "a bit of a sequence or of its set", bit);
    }
    check(intake_store_bind(0, NULL, 0, 0) != 0, "the binding to no bytes", 0);
    /* one sequence, and two that have its bytes in a row with the second set between them, and with a length of 0 behind it */
    static const uint8_t joined[19] = {0x00, 0x01, 0x02, 0x03};
    for (size_t gap = 4; gap <= 12; gap += 8)
        for (size_t part = 0; part + gap <= sizeof joined; part++) {
            unsigned long two = intake_store_bind(intake_store_bind(0, joined, part, 0), joined + part + gap,
                                                  sizeof joined - part - gap, intake_number_in(joined + part, 4));
            check(two != intake_store_bind(0, joined, sizeof joined, 0), "two sequences and one", part);
        }
}

/* Numbers that wrap round, equal ones and such as no writes leave: the newer copy, and the next number. */
static void numbers(void)
{
    static const uint32_t edges[] = {0,          1,          2,          5,          0x7FFFFFFE, 0x7FFFFFFF,
                                     0x80000000, 0x80000001, 0xFFFFFFFD, 0xFFFFFFFE, 0xFFFFFFFF};
    enum { EDGES = sizeof edges / sizeof *edges, SIZE = 5 };
    const uint8_t payloads[3][SIZE] = {"first", "secnd", "third"};
    for (size_t a = 0; a < EDGES; a++)
        for (size_t b = 0; b < EDGES; b++) {
            struct store store = new_store(SIZE, 0);
            uint8_t expected[INTAKE_STORE_LENGTH(SIZE)];
            uint64_t ahead = ((uint64_t)edges[b] + 0x100000000 - edges[a]) % 0x100000000;
            int newer = ahead >= 1 && ahead <= 0x7FFFFFFF;
            put_together(store.copies[0], edges[a], (uint32_t)binding, payloads[0], SIZE);
            put_together(store.copies[1], edges[b], (uint32_t)binding, payloads[1], SIZE);
            check(finds(&store, payloads[newer]), "the newer of two numbers", a * EDGES + b);
            memcpy(expected, store.copies[newer], sizeof expected);
            check(intake_store_write(store.copies[0], store.copies[1], binding, payloads[2], SIZE) == !newer &&
                      same(expected, store.copies[newer], sizeof expected),
                  "the newer copy is left alone", a * EDGES + b);
            put_together(expected, edges[newer == 1 ? b : a] + 1, (uint32_t)binding, payloads[2], SIZE);
            check(same(expected, store.copies[!newer], sizeof expected) && finds(&store, payloads[2]), "the next number",
                  a * EDGES + b);
            free_store(&store);
        }
}

/* Copies that are not whole. */

/* Copies full of one byte, whatever the binding and the length: nothing is found, and a write begins. */
static void full_of_one_byte(void)
{
    static const size_t lengths[] = {0, 1, 7, 8, 16, 17, 100, 232, 1000};
    for (size_t i = 0; i < sizeof lengths / sizeof *lengths; i++)
        for (unsigned byte = 0; byte < 256; byte++) {
            struct store store = new_store(lengths[i], (int)byte);
            unsigned long own = byte * 0x01010101ul;
            check(intake_store_read(store.copies[0], store.copies[1], own, store.found, lengths[i]) == 0 &&
                      all_zero(store.found, lengths[i]) && !intake_store_is_whole(store.copies[0], lengths[i]),
                  "copies full of one byte", lengths[i]);
            little(store.copies[0], 4, sum_by_division(store.copies[0] + 4, 20 + lengths[i])); /* with a sum that fits */
            check(!intake_store_is_whole(store.copies[0], lengths[i]), "a copy full of one byte with its sum", lengths[i]);
            free_store(&store);
        }
}

/* A copy read with another length than it was written with. */
static void other_lengths(void)
{
    for (size_t own = 0; own <= 40; own++)
        for (size_t other = 0; other <= 40; other++) {
            struct store store = new_store(40, 0xFF);
            uint8_t *payload = random_bytes(own);
            intake_store_write(store.copies[0], store.copies[1], binding, payload, own);
            int found = intake_store_read(store.copies[0], store.copies[1], binding, store.found, other);
            check(found == (own == other) && same(store.found, payload, found ? own : 0), "another length", own);
            free(payload);
            free_store(&store);
        }
}

/* A copy with another mark or another length in its field, and a sum that fits: it is not whole. */
static void other_fields(void)
{
    for (size_t length = 0; length <= 40; length++)
        for (unsigned bit = 0; bit < 8 * (4 + 8); bit++) {
            struct store store = new_store(length, 0);
            uint8_t *payload = random_bytes(length), *copy = store.copies[0];
            put_together(copy, 1, (uint32_t)binding, payload, length);
            check(finds(&store, or_none(payload)), "a copy that is put together", length);
            copy[bit < 32 ? 4 + bit / 8 : 16 + (bit - 32) / 8] ^= (uint8_t)(1u << bit % 8);
            little(copy, 4, sum_by_division(copy + 4, 20 + length));
            check(finds(&store, NULL), "another mark or length, with its sum", length);
            free(payload);
            free_store(&store);
        }
}

/* Flips a bit of a copy, or takes it back. */
static void flip(uint8_t *copy, size_t bit) { copy[bit / 8] ^= (uint8_t)(1u << bit % 8); }

/* The newer copy damaged: the older one is found, and the write is lost. Both damaged: nothing. */
static void damage(size_t length, bool pairs)
{
    struct store store = new_store(length, 0);
    uint8_t *older = random_bytes(length), *newer = random_bytes(length);
    intake_store_write(store.copies[0], store.copies[1], binding, older, length);
    intake_store_write(store.copies[0], store.copies[1], binding, newer, length);
    for (size_t bit = 0; bit < 8 * store.copy_length; bit++) {
        flip(store.copies[1], bit);
        check(finds(&store, or_none(older)), "a bit of the newer copy", length);
        flip(store.copies[0], random_number() % (8 * store.copy_length));
        check(finds(&store, NULL), "a bit of each copy", length);
        put_together(store.copies[0], 1, (uint32_t)binding, older, length);
        for (size_t second = bit + 1; pairs && second < 8 * store.copy_length; second++) {
            flip(store.copies[1], second);
            check(!intake_store_is_whole(store.copies[1], length), "two bits of a copy", length);
            flip(store.copies[1], second);
        }
        flip(store.copies[1], bit);
    }
    for (size_t at = 0; at + 4 <= store.copy_length; at++)
        for (int i = 0; i < BURSTS; i++) {
            uint32_t change = random_number() | (i == 0), kept = intake_number_in(store.copies[1] + at, 4);
            little(store.copies[1] + at, 4, kept ^ change);
            check(change == 0 || !intake_store_is_whole(store.copies[1], length), "four adjacent bytes", length);
            little(store.copies[1] + at, 4, kept);
        }
    free(older);
    free(newer);
    free_store(&store);
}

/* Cuts. */

/* A write that is under way: the copy as it was, erased, and new; which copy that is, and what is found without it. */
struct write {
    struct store store; /* the medium */
    int copy;
    uint8_t *states[3]; /* old, erased, new */
    const uint8_t *old; /* payload, NULL if there is none */
    uint8_t *payload, *next;
};

enum state { OLD, ERASED, NEW };

static size_t words(const struct write *write) { return (write->store.copy_length + WORD - 1) / WORD; }

/* Begins a write of a random payload on the medium, `old` being found there. */
static struct write begin(struct store store, const uint8_t *old)
{
    struct write write = {.store = store, .old = old};
    write.payload = random_bytes(store.length);
    write.next = random_bytes(store.length);
    struct store image = new_store(store.length, 0);
    for (int i = 0; i < 2; i++)
        memcpy(image.copies[i], store.copies[i], store.copy_length);
    write.copy = intake_store_write(image.copies[0], image.copies[1], binding, write.payload, store.length);
    check(same(image.copies[!write.copy], store.copies[!write.copy], store.copy_length), "one copy is written", store.length);
    for (int i = 0; i < 3; i++)
        write.states[i] = allocated(store.copy_length);
    memcpy(write.states[OLD], store.copies[write.copy], store.copy_length);
    memset(write.states[ERASED], 0xFF, store.copy_length);
    memcpy(write.states[NEW], image.copies[write.copy], store.copy_length);
    free_store(&image);
    return write;
}

static void end(struct write *write)
{
    for (int i = 0; i < 3; i++)
        free(write->states[i]);
    free(write->payload);
    free(write->next);
}

/* Puts bytes of a word into a state, from its byte `from` up to before `to`. */
static void put(struct write *write, size_t word, size_t from, size_t to, enum state state)
{
    for (size_t at = WORD * word + from; at < WORD * word + to && at < write->store.copy_length; at++)
        write->store.copies[write->copy][at] = write->states[state][at];
}

/* After a cut: what is found. */
static void after_cut(struct write *write)
{
    struct store *store = &write->store;
    bool whole = same(store->copies[write->copy], write->states[NEW], store->copy_length);
    const uint8_t *expected = whole ? or_none(write->payload) : write->old;
    check(finds(store, expected), whole ? "the new payload" : "the old payload", store->length);
}

/* And the next write, by a host that started again: it leaves alone what is found, and is found itself. */
static void after_restart(struct write *write)
{
    struct store *store = &write->store;
    bool whole = same(store->copies[write->copy], write->states[NEW], store->copy_length);
    struct store image = new_store(store->length, 0);
    for (int i = 0; i < 2; i++)
        memcpy(image.copies[i], store->copies[i], store->copy_length);
    int next = intake_store_write(image.copies[0], image.copies[1], binding, write->next, store->length);
    if (whole || write->old != NULL)
        check(next == (whole ? !write->copy : write->copy), "the write after a cut leaves alone what is found", store->length);
    check(same(image.copies[!next], store->copies[!next], store->copy_length), "the other copy is not written", store->length);
    check(finds(&image, or_none(write->next)), "the write after a cut is found", store->length);
    free_store(&image);
}

/* All states of all words; and in each of them one word new up to some byte, over what it was or erased. */
static void each_state(struct write *write)
{
    size_t count = words(write), all = 1;
    for (size_t word = 0; word < count; word++)
        all *= 3;
    for (size_t code = 0; code < all; code++) {
        size_t rest = code;
        enum state states[MOST_WORDS];
        for (size_t word = 0; word < count; word++, rest /= 3)
            put(write, word, 0, WORD, states[word] = (enum state)(rest % 3));
        after_cut(write);
        if (code % 7 == 0)
            after_restart(write);
        for (size_t word = 0; word < count; word++)
            if (states[word] != NEW) {
                for (size_t byte = 1; byte < WORD; byte++) {
                    put(write, word, 0, byte, NEW);
                    after_cut(write);
                }
                put(write, word, 0, WORD, states[word]);
            }
    }
}

/* All orders of the words from `placed` on, the ones before being new: each word byte by byte, over old or erased bytes. */
static void each_order(struct write *write, size_t *order, size_t placed, size_t count, enum state before)
{
    for (size_t i = placed; i < count; i++) {
        size_t word = order[i];
        order[i] = order[placed];
        order[placed] = word;
        for (size_t byte = 1; byte <= WORD; byte++) {
            put(write, word, 0, byte, NEW);
            after_cut(write);
        }
        each_order(write, order, placed + 1, count, before);
        put(write, word, 0, WORD, before);
        order[placed] = order[i];
        order[i] = word;
    }
}

static void all_orders(struct write *write)
{
    for (enum state before = OLD; before <= ERASED; before++) {
        size_t order[MOST_WORDS], count = words(write);
        for (size_t word = 0; word < count; word++)
            put(write, order[word] = word, 0, WORD, before);
        each_order(write, order, 0, count, before);
    }
}

/* A cut at every byte, from the first on and from the last on, over old bytes and erased ones. */
static void each_byte(struct write *write)
{
    size_t count = write->store.copy_length;
    for (enum state before = OLD; before <= ERASED; before++)
        for (int backwards = 0; backwards < 2; backwards++) {
            memcpy(write->store.copies[write->copy], write->states[before], count);
            for (size_t i = 0; i < count; i++) {
                size_t at = backwards ? count - 1 - i : i;
                write->store.copies[write->copy][at] = write->states[NEW][at];
                after_cut(write);
            }
        }
    after_restart(write);
}

/* Words at random, and one new up to some byte. */
static void at_random(struct write *write, unsigned times)
{
    size_t count = words(write);
    for (unsigned i = 0; i < times; i++) {
        unsigned of_three = i % 3 == 0, rare = random_number() % 64;
        for (size_t word = 0; word < count; word++) {
            uint32_t drawn = random_number() >> 8;
            enum state state = of_three ? (enum state)(drawn % 3) : (drawn % 64 < rare) ? NEW : i % 2 == 0 ? OLD : ERASED;
            put(write, word, 0, WORD, state);
        }
        put(write, random_number() % count, 0, 1 + random_number() % (WORD - 1), NEW);
        after_cut(write);
        if (i % 50 == 0)
            after_restart(write);
    }
}

/* A store after so many writes; `fill` is what its copies had before. What is found is kept in `old`. */
static struct store written(size_t length, int fill, int writes, uint8_t *old)
{
    struct store store = new_store(length, fill);
    for (int i = 0; i < writes; i++) {
        uint8_t *payload = random_bytes(length);
        intake_store_write(store.copies[0], store.copies[1], binding, payload, length);
        if (length > 0)
            memcpy(old, payload, length);
        free(payload);
    }
    return store;
}

/* Every cut of a write over a store of each kind: never written, written once, and several times. */
static void short_cuts(size_t length)
{
    uint8_t old[MOST_WORDS * WORD];
    for (int writes = 0; writes < 4; writes++)
        for (int fill = 0; fill < 3; fill++) {
            struct store store = written(length, fill == 0 ? 0 : fill == 1 ? 0xFF : 0xA7, writes, old);
            struct write write = begin(store, writes > 0 ? old : NULL);
            each_state(&write);
            if (fill == 0)
                all_orders(&write);
            each_byte(&write);
            end(&write);
            free_store(&store);
        }
}

/* As little changes from one instant to the next: the payload with one byte changed, over two such writes. */
static void near_cuts(size_t length)
{
    struct store store = new_store(length, 0);
    uint8_t *payload = random_bytes(length), *before = allocated(length);
    for (int turn = 0; turn < 12; turn++) {
        intake_store_write(store.copies[0], store.copies[1], binding, payload, length);
        memcpy(before, payload, length);
        payload[random_number() % length] ^= (uint8_t)(1u << random_number() % 8);
        struct write write = begin(store, before);
        free(write.payload);
        write.payload = allocated(length);
        memcpy(write.payload, payload, length);
        uint32_t number = intake_number_in(write.states[NEW] + 8, 4);
        put_together(write.states[NEW], number, (uint32_t)binding, payload, length);
        each_state(&write);
        put(&write, 0, 0, store.copy_length, OLD);
        end(&write);
    }
    free(payload);
    free(before);
    free_store(&store);
}

static void long_cuts(size_t length)
{
    uint8_t *old = allocated(length);
    struct store store = written(length, 0, 3, old);
    struct write write = begin(store, old);
    each_byte(&write);
    at_random(&write, RANDOM_CUTS);
    end(&write);
    free_store(&store);
    free(old);
}

/* Many writes one after the other, most of them cut, with numbers that wrap round; the last that was whole is found. */
static void chained(size_t length)
{
    struct store store = new_store(length, 0);
    uint8_t *old = random_bytes(length);
    put_together(store.copies[0], 0xFFFFFE00, (uint32_t)binding, old, length);
    unsigned whole = 0;
    for (unsigned i = 0; i < CHAINED; i++) {
        struct write write = begin(store, or_none(old));
        for (size_t word = 0; word < words(&write); word++)
            put(&write, word, 0, WORD, i % 4 == 0 ? NEW : (enum state)(random_number() >> 7) % 3);
        if (i % 4 != 0)
            put(&write, random_number() % words(&write), 0, random_number() % WORD, NEW);
        after_cut(&write);
        if (same(store.copies[write.copy], write.states[NEW], store.copy_length)) {
            whole++;
            if (length > 0)
                memcpy(old, write.payload, length);
        }
        end(&write);
    }
    check(whole >= CHAINED / 4, "writes that were whole", length);
    check(intake_number_in(store.copies[0] + 8, 4) < CHAINED, "the number wrapped round", length);
    free(old);
    free_store(&store);
}

int main(void)
{
    static const size_t shorts[] = {0, 1, 8, 16, INTAKE_STATE_LENGTH, 24, 32};
    sums();
    for (size_t length = 0; length < 70; length++)
        for (int fill = 0; fill < 256; fill += 51)
            layout_of(length, fill);
    layout_of(INTAKE_BOX_LENGTH, 0);
    unaligned();
    bindings();
    different_bindings();
    numbers();
    full_of_one_byte();
    other_lengths();
    other_fields();
    damage(0, true);
    damage(INTAKE_STATE_LENGTH, true);
    damage(300, false);
    printf("sums, layout, bindings, numbers and damage: %u passed, %u failed so far\n", passed, failed);
    for (size_t i = 0; i < sizeof shorts / sizeof *shorts; i++)
        short_cuts(shorts[i]);
    near_cuts(INTAKE_STATE_LENGTH);
    near_cuts(32);
    chained(0);
    chained(INTAKE_STATE_LENGTH);
    printf("with every cut of short copies: %u passed, %u failed so far\n", passed, failed);
    for (size_t length = 33; length < 400; length += 61)
        long_cuts(length);
    long_cuts(INTAKE_BOX_LENGTH);
    return verdict();
}
