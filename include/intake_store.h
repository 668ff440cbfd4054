/*
 * A store that outlives a power cut, for the state record of a machine, for a box, or for any bytes of a host. C90 or later
 * and C++98 or later; no library and nothing of the archive: the functions stand here.
 *
 * Two copies are lent, and written in turn. Each has the payload and before it, in INTAKE_STORE_HEAD bytes, a sum over all that
 * follows, a mark, a running number, the binding and the length of the payload. A write goes to the copy that is not the newer
 * whole one, so a write that is cut leaves that one as it was, and the reader finds it.
 *
 *     static uint8_t first[INTAKE_STORE_LENGTH(INTAKE_STATE_LENGTH)], second[INTAKE_STORE_LENGTH(INTAKE_STATE_LENGTH)];
 *     unsigned long binding = intake_store_bind(0, sequence, length, read_back);
 *
 *     at the start: both copies as the medium has them, then
 *     found = intake_store_read(first, second, binding, state, INTAKE_STATE_LENGTH);
 *
 *     after each instant, before the next one: one copy changes, which goes to the medium
 *     if (intake_store_write(first, second, binding, state, INTAKE_STATE_LENGTH) == 0)
 *         put `first` onto the medium, and wait until it is there
 *     else
 *         put `second` onto the medium, and wait until it is there
 *
 * What the host sees to:
 *
 * - The copies stand in different units of the medium, such as sectors or blocks: a cut while one of them is written or erased
 *   leaves the other alone.
 * - A write is on the medium, and not in a cache before it, when the next one begins. Within one write the bytes may get
 *   there in any order, and the copy may be erased before.
 * - A write that the medium reports as failed is done again, or both copies are read from it again, before the next call of
 *   intake_store_write: the copies that are lent are what the medium has, or the only whole one there may be overwritten.
 * - What is read at the start is what the medium has; bytes of any value will do where nothing was written or a unit cannot be
 *   read.
 * - The medium bears the writes: ten instants a second are 864,000 a day. A host that keeps less often goes back further: after
 *   a start its machine is where it was at the last write, and the plant is not.
 * - What belongs together is one payload: a box and the host's place in its inputs, not a store each. A file that is written
 *   beside the store, such as a recording, is on the medium before the payload that counts on it, and may have more than that
 *   payload says.
 *
 * Then a cut at any byte of a write, or between any of its words in any order, leaves the old payload or the new one to be
 * found, and never a mixture, unless the sum fits by chance. Each is the state after an instant: outputs of the instant that
 * was cut may have been told and may not, so that a host that keeps first and acts then may lose them, and one that acts
 * first may repeat them.
 *
 * What is not caught:
 *
 * - Damage whose sum fits all the same: of a mixture, or of bytes changed at random, one in 4,294,967,296. A change within four
 *   adjacent bytes is always caught, and so is one of two bits in a payload of less than 500,000,000 bytes.
 * - A newer copy that is damaged later: the older one is found, and the last write is lost without notice.
 * - Both copies damaged: nothing is found, and the payload is cleared: a fresh machine, an empty box, a ledger of no litres.
 * - A medium that breaks what the host sees to: that tells a write before it is there, changes the order of two writes, or
 *   damages one copy where it writes the other.
 * - Both copies brought back from an older time, or made by somebody: a sum is no signature.
 * - A payload that was wrong before it was written: the sum is that of what is lent.
 * - Two sequences, or read-back sets, with one binding: one in 4,294,967,296.
 * - Payloads of two lengths in turn in the same copies: one of the other length is not whole for the reader, and an older one
 *   of its own may be found. Clear both copies first.
 *
 * All buffers have the lengths given and share no byte, and nobody else uses them during a call. No address needs to be
 * aligned. A payload of no bytes is allowed, by a null pointer too. uint8_t is unsigned char.
 */
#ifndef INTAKE_STORE_H
#define INTAKE_STORE_H

#include <stddef.h>

#if defined(__cplusplus) || (defined(__STDC_VERSION__) && __STDC_VERSION__ >= 199901L)
#define INTAKE_STORE_INLINE static inline
#elif defined(__GNUC__)
#define INTAKE_STORE_INLINE static __inline__
#else
#define INTAKE_STORE_INLINE static
#endif

/* A value as a byte: no compiler of either language warns of it. */
#ifdef __cplusplus
#define INTAKE_STORE_BYTE(value) static_cast<unsigned char>(value)
#else
#define INTAKE_STORE_BYTE(value) ((unsigned char)(value))
#endif

/* The bytes before the payload in a copy, and those of a copy. */
#define INTAKE_STORE_HEAD 24
#define INTAKE_STORE_LENGTH(payload) (INTAKE_STORE_HEAD + (payload))

/*
 * Where the fields of a copy begin: four bytes each, but eight of the length, lowest first. The sum is that of all bytes
 * behind it. The mark is the same in every copy, so that no copy full of one byte is whole.
 */
#define INTAKE_STORE_AT_SUM 0
#define INTAKE_STORE_AT_MARK 4
#define INTAKE_STORE_AT_NUMBER 8
#define INTAKE_STORE_AT_BINDING 12
#define INTAKE_STORE_AT_LENGTH 16

#define INTAKE_STORE_MARK 0x31746E49UL
#define INTAKE_STORE_BITS 0xFFFFFFFFUL

/*
 * The CRC-32 of bytes, with the polynomial of Ethernet, 04C11DB7; `before` is that of the bytes that stand before them, 0 if
 * there are none. That of "123456789" is CBF43926.
 */
INTAKE_STORE_INLINE unsigned long intake_store_sum(unsigned long before, const unsigned char *bytes, size_t count)
{
    static const unsigned long four_bits[16] = {
        0x00000000UL, 0x1DB71064UL, 0x3B6E20C8UL, 0x26D930ACUL, 0x76DC4190UL, 0x6B6B51F4UL, 0x4DB26158UL, 0x5005713CUL,
        0xEDB88320UL, 0xF00F9344UL, 0xD6D6A3E8UL, 0xCB61B38CUL, 0x9B64C2B0UL, 0x86D3D2D4UL, 0xA00AE278UL, 0xBDBDF21CUL,
    };
    unsigned long sum = ~before & INTAKE_STORE_BITS;
    size_t i;
    for (i = 0; i < count; i++) {
        sum ^= bytes[i] & 0xFFUL;
        sum = sum >> 4 ^ four_bits[sum & 15];
        sum = sum >> 4 ^ four_bits[sum & 15];
    }
    return sum ^ INTAKE_STORE_BITS;
}

/* The number in four bytes. */
INTAKE_STORE_INLINE unsigned long intake_store_get(const unsigned char *bytes)
{
    unsigned long number = 0;
    int i;
    for (i = 4; i-- > 0;)
        number = number << 8 | (bytes[i] & 0xFFUL);
    return number;
}

INTAKE_STORE_INLINE void intake_store_put(unsigned char *bytes, unsigned long number)
{
    int i;
    for (i = 0; i < 4; i++)
        bytes[i] = INTAKE_STORE_BYTE(number >> 8 * i & 0xFF);
}

/* A length in eight bytes. */
INTAKE_STORE_INLINE void intake_store_put_length(unsigned char *bytes, size_t length)
{
    int i;
    for (i = 0; i < 8; i++) {
        bytes[i] = INTAKE_STORE_BYTE(length & 0xFF);
        length >>= 8;
    }
}

/*
 * The binding of a payload to a sequence and its read-back set, so that what was kept of another one is not taken for this
 * one's. A payload of several machines, such as a box, folds them: the binding so far comes first, 0 at first. A host may
 * fold anything else of its own by intake_store_sum.
 */
INTAKE_STORE_INLINE unsigned long intake_store_bind(unsigned long binding, const unsigned char *sequence, size_t length,
                                                    unsigned long read_back)
{
    unsigned char head[12];
    intake_store_put(head, read_back);
    intake_store_put_length(head + 4, length);
    return intake_store_sum(intake_store_sum(binding, head, sizeof head), sequence, length);
}

/* Whether a copy holds a payload of this length, whatever it is bound to. */
INTAKE_STORE_INLINE int intake_store_is_whole(const unsigned char *copy, size_t length)
{
    unsigned char bytes[8];
    int i;
    intake_store_put_length(bytes, length);
    for (i = 0; i < 8; i++)
        if (copy[INTAKE_STORE_AT_LENGTH + i] != bytes[i])
            return 0;
    return intake_store_get(copy + INTAKE_STORE_AT_MARK) == INTAKE_STORE_MARK &&
           intake_store_get(copy + INTAKE_STORE_AT_SUM) ==
               intake_store_sum(0, copy + INTAKE_STORE_AT_MARK, INTAKE_STORE_HEAD - INTAKE_STORE_AT_MARK + length);
}

/*
 * The newer whole copy: 0 for the first, 1 for the second, 2 if none is. Numbers wrap round: of two the newer is the one that
 * comes after the other within half of all, and with equal numbers, or exactly half between them, the first copy is.
 */
INTAKE_STORE_INLINE int intake_store_newer(const unsigned char *first, const unsigned char *second, size_t length)
{
    int one = intake_store_is_whole(first, length), two = intake_store_is_whole(second, length);
    if (one && two) {
        unsigned long before = intake_store_get(first + INTAKE_STORE_AT_NUMBER);
        unsigned long ahead = (intake_store_get(second + INTAKE_STORE_AT_NUMBER) - before) & INTAKE_STORE_BITS;
        return ahead != 0 && ahead < 0x80000000UL ? 1 : 0;
    }
    return one ? 0 : two ? 1 : 2;
}

/*
 * Writes the payload into the copy that is not the newer whole one, the first if none is whole, and answers which: 0 for the
 * first, 1 for the second. The other one is not written. The number is one more than the other copy has, whole or not, so that
 * the new copy is the newer one even if the other is only whole for another binding, or is read otherwise later.
 */
INTAKE_STORE_INLINE int intake_store_write(unsigned char *first, unsigned char *second, unsigned long binding,
                                           const unsigned char *payload, size_t length)
{
    int newer = intake_store_newer(first, second, length);
    unsigned char *copy = newer == 0 ? second : first;
    const unsigned char *other = newer == 0 ? first : second;
    size_t i;
    intake_store_put(copy + INTAKE_STORE_AT_MARK, INTAKE_STORE_MARK);
    intake_store_put(copy + INTAKE_STORE_AT_NUMBER, intake_store_get(other + INTAKE_STORE_AT_NUMBER) + 1);
    intake_store_put(copy + INTAKE_STORE_AT_BINDING, binding);
    intake_store_put_length(copy + INTAKE_STORE_AT_LENGTH, length);
    for (i = 0; i < length; i++)
        copy[INTAKE_STORE_HEAD + i] = payload[i];
    intake_store_put(copy + INTAKE_STORE_AT_SUM,
                     intake_store_sum(0, copy + INTAKE_STORE_AT_MARK, INTAKE_STORE_HEAD - INTAKE_STORE_AT_MARK + length));
    return newer == 0 ? 1 : 0;
}

/*
 * Reads the payload of the newer whole copy and answers 1, if it has this binding. Else it answers 0 and the payload is bytes
 * 00, which are the state record of a fresh machine and an empty box: an older copy with this binding is not taken where a newer
 * one has another, since the machine has been another one in between. The copies are not written.
 */
INTAKE_STORE_INLINE int intake_store_read(const unsigned char *first, const unsigned char *second, unsigned long binding,
                                          unsigned char *payload, size_t length)
{
    int newer = intake_store_newer(first, second, length);
    const unsigned char *copy = newer == 1 ? second : first;
    int found = newer != 2 && intake_store_get(copy + INTAKE_STORE_AT_BINDING) == (binding & INTAKE_STORE_BITS);
    size_t i;
    for (i = 0; i < length; i++)
        payload[i] = INTAKE_STORE_BYTE(found ? copy[INTAKE_STORE_HEAD + i] : 0);
    return found;
}

#endif
