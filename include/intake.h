/*
 * The intake sequencer for hosts in C (C90 or later, with stdint.h) and C++ (C++98 or later). Link libintake.a.
 *
 * What the archive requires, each line tested by `make figures` and the host tests:
 *
 * - Target: x86-64, System V calling convention, ELF; instructions of the base set, which has SSE2. There is no other today.
 * - Functions of C: memset
 * - Stack: INTAKE_STACK_CHECK, INTAKE_STACK_TICK, INTAKE_STACK_REPLAY, INTAKE_STACK_BOX and INTAKE_STACK_UNROLL bytes below the caller's frame at
 *   the greatest depth, as measured.
 * - Code and jump tables: INTAKE_CODE_LENGTH bytes at most. No heap, no variable outside the stack, no other file.
 * - Dearest instant found: 2.9 ms, 1,061,695 reactions (AMD EPYC, family 25 model 17, 2.6 GHz; make bench-tick)
 * - Dearest round of a box found: 0.40 ms, 63,944 reactions (the same processor; make search, make figures)
 * - The same with litres to 32 farms in every bay: 0.40 ms, 63,944 reactions (the same)
 * - Dearest preview found: 15.7 ms, 3,761,088 reactions of 64 instants, six unknown inputs all asked for (the same)
 * - To plan with: 20 us an instant and 10 ns a reaction on that processor, with litres or without (docs/CEILING.md)
 */
#ifndef INTAKE_H
#define INTAKE_H

#if defined(__GNUC__) && !(defined(__x86_64__) && defined(__LP64__))
#error "libintake.a is for x86-64 with addresses of 64 bits, and for nothing else"
#endif

#include <stddef.h>
#include <stdint.h>

/* The version of this interface. The first number moves when a host must change. */
#define INTAKE_VERSION_MAJOR 2
#define INTAKE_VERSION_MINOR 5
#define INTAKE_VERSION_PATCH 0
#define INTAKE_VERSION (INTAKE_VERSION_MAJOR * 10000 + INTAKE_VERSION_MINOR * 100 + INTAKE_VERSION_PATCH)

/*
 * Bytes of stack that a call takes at most, the fourth one each call on a box, measured at depth 64 by painting and rounded
 * up, the first one intake_ceiling too; and what to give a thread of Linux that only ticks, with room for the system's own data
 * there. A host adds what its own functions take.
 */
#define INTAKE_STACK_CHECK 24576
#define INTAKE_STACK_TICK 24576
#define INTAKE_STACK_REPLAY 24576
#define INTAKE_STACK_BOX 24576
#define INTAKE_STACK_UNROLL 24576
#define INTAKE_STACK_THREAD 32768

/* Bytes of code and jump tables in the archive, rounded up. */
#define INTAKE_CODE_LENGTH 33792

/* A function of this header that needs nothing of the archive. */
#if defined(__cplusplus) || (defined(__STDC_VERSION__) && __STDC_VERSION__ >= 199901L)
#define INTAKE_INLINE static inline
#elif defined(__GNUC__)
#define INTAKE_INLINE static __inline__
#else
#define INTAKE_INLINE static
#endif

/* A value as one of another type: no compiler of either language warns of it. */
#ifdef __cplusplus
#define INTAKE_AS(type, value) static_cast<type>(value)
#else
#define INTAKE_AS(type, value) ((type)(value))
#endif

#ifdef __cplusplus
extern "C" {
#endif

/*
 * What a call answers, but for intake_ceiling: 0, or the number of the row that turns it down, by document 01, 'Turned down',
 * and document 02. The check gives 2 to 10 and 18, the tick 1 to 12 and 18; of several rows that hold, the lowest, but rows
 * 3, 4, 5, 18 and 6 go command by command from the left, and at one command in this order, so that 18 comes before 11 and 12.
 * Row 6 by the read-back set comes after them, once the whole statement was read, and before row 7. The calls on a box give
 * 13 to 17 and 19 too: 13 before all others, 14 after those of the check, 15 before 16, 17 after row 12, and 19 last of all.
 * intake_unroll gives 1, then those of the check, then 20, then 21. A replay gives what the check gives, and then 22.
 */
enum intake_number {
    INTAKE_ACCEPTED = 0,                /* accepted */
    INTAKE_BUFFER_LENGTH = 1,           /* buffer not of its length: state 17, answer 12, record 37, panel 13, preview 10, ledger 132, result 1,024, box 12,184 */
    INTAKE_SEQUENCE_LENGTH = 2,         /* sequence of no bytes or over 1,024 */
    INTAKE_UNKNOWN_COMMAND = 3,         /* command byte above 0C */
    INTAKE_CUT_SHORT = 4,               /* operand or statement missing at the end */
    INTAKE_OPERAND_RANGE = 5,           /* operand outside its range: from label 128, signal 32, exit 16 on; exit 0 */
    INTAKE_TOO_DEEP = 6,                /* depth over 64, or a seventh signal inside six, read-back ones counted */
    INTAKE_BYTES_AFTER = 7,             /* bytes after the statement */
    INTAKE_PAUSE_TWICE = 8,             /* two pauses with one label */
    INTAKE_SETPAUSE_WITHOUT_PAUSE = 9,  /* setpause whose label has no pause */
    INTAKE_NOT_WELL_FORMED = 10,        /* triggers of exclusive pauses that are not exclusive */
    INTAKE_INVALID_STATE = 11,          /* phase above 2, labels with phase 0 or 2, or phase 1 with a set not valid */
    INTAKE_OVER = 12,                   /* phase 2: the machine is over */
    INTAKE_NO_SUCH_BAY = 13,            /* bay number above 7, filled bay on admission, empty bay otherwise */
    INTAKE_ABOVE_CEILING = 14,          /* the ceilings of the bays present and its own sum to more than 65,536 */
    INTAKE_NO_POSITION = 15,            /* machine that is not waiting on saving, unknown name otherwise */
    INTAKE_POSITIONS_FULL = 16,         /* seventeenth name of a position */
    INTAKE_SEVENTH_UNKNOWN = 17,        /* seventh input of unknown status in a preview */
    INTAKE_BAD_LITRES = 18,             /* litres not whole, below 0, minus zero or above 16,777,216 */
    INTAKE_ABOVE_FARM_LIMIT = 19,       /* the total of a farm and its litres would pass 16,777,216 */
    INTAKE_HAS_SETPAUSE = 20,           /* original with a setpause, whose loops are not written out */
    INTAKE_RESULT_TOO_LARGE = 21,       /* result with its loops written out of over 1,024 bytes or depth 64 */
    INTAKE_RECORDING_LENGTH = 22        /* recording whose length is no multiple of 37 */
};

/*
 * The state record: where its fields begin, and their bytes: the phase, then a bit for each of the labels 0 to 127. A
 * machine starts by clearing its record: seventeen bytes 00 are the record of a fresh machine. The label set names the
 * pauses that the next instant resumes; byte 0 of it holds the labels 0 to 7, label 0 in the lowest bit, and byte 15 the
 * labels 120 to 127. It is empty unless the phase is INTAKE_PHASE_WAITING.
 */
enum intake_state {
    INTAKE_STATE_PHASE = 0,
    INTAKE_STATE_LABELS = 1,
    INTAKE_STATE_LABELS_LENGTH = 16,
    INTAKE_STATE_LENGTH = 17
};

enum intake_phase {
    INTAKE_PHASE_FRESH = 0,    /* the next instant begins the sequence */
    INTAKE_PHASE_WAITING = 1,  /* the next instant resumes the label set */
    INTAKE_PHASE_OVER = 2      /* there is no next instant */
};

/*
 * Power cuts. A state record that is half written when the power goes is often one of its sequence all the same: a machine that
 * waits at labels 1 and 9, restored with two of its seventeen bytes, waits at label 1 alone, and goes on so. INTAKE_INVALID_STATE
 * does not catch that, nor is a box that is half written noticed by its calls.
 *
 * A host whose state record or box is to outlive a power cut keeps it in two copies, written in turn after each instant, or
 * after each call that writes the box: each copy with a running number and a sum over all of it, bound to the sequence and its
 * read-back set. At the start it takes the newer copy that is whole, and if none is, a cleared record or box: bytes 00. What else
 * of the host belongs to that instant, such as its place in the inputs, goes into the same copy. include/intake_store.h has
 * functions that do so, what the host must see to for them, and the faults that they do not catch; host/example_box.c keeps
 * its box by them.
 */

/*
 * The answer record: where its fields begin, and their bytes. Kind and place are 0 unless the code is INTAKE_WRONG. The
 * place is the byte offset of the erring command in the sequence, lowest byte first, or INTAKE_PLACE_READ_BACK. Byte 0 of
 * the emitted set holds the signals 0 to 7, signal 0 in the lowest bit; the set is empty if the code is INTAKE_WRONG.
 *
 * The number of reactions, lowest byte first, is that of the instant's tree, of a wrong one too: each command of the
 * statement that reacts counts each time it reacts, in both runs of every signal around it, read-back ones included. A run
 * that the engine leaves out, since it would repeat the other, is counted: the number does not tell what the engine does.
 * That statement is the sequence, or its expansion when it is resumed. The number never exceeds
 * commands * (1 + loops) * 2^signals, where loops and signals are the greatest numbers of them around a command, and a
 * read-back signal counts as a command and as a signal. docs/CEILING.md has more.
 */
enum intake_answer {
    INTAKE_ANSWER_CODE = 0,
    INTAKE_ANSWER_KIND = 1,
    INTAKE_ANSWER_PLACE = 2,
    INTAKE_ANSWER_PLACE_LENGTH = 2,
    INTAKE_ANSWER_EMITTED = 4,
    INTAKE_ANSWER_EMITTED_LENGTH = 4,
    INTAKE_ANSWER_REACTIONS = 8,
    INTAKE_ANSWER_REACTIONS_LENGTH = 4,
    INTAKE_ANSWER_LENGTH = 12
};

/*
 * The record of an instant of a bay: where its fields begin, and their bytes. The number, lowest byte first, is 1 in
 * the first instant after an admission and goes up by one with each instant, coming back to a position or not, up to
 * 4,294,967,295, where it stays. The inputs are those that the tick was given, bits of read-back signals too; the
 * answer record and the state record are those after the instant.
 */
enum intake_record {
    INTAKE_RECORD_NUMBER = 0,
    INTAKE_RECORD_NUMBER_LENGTH = 4,
    INTAKE_RECORD_INPUTS = 4,
    INTAKE_RECORD_INPUTS_LENGTH = 4,
    INTAKE_RECORD_ANSWER = 8,
    INTAKE_RECORD_ANSWER_LENGTH = 12,
    INTAKE_RECORD_STATE = 20,
    INTAKE_RECORD_STATE_LENGTH = 17,
    INTAKE_RECORD_LENGTH = 37
};

/* What a panel shows of a record; the signals that are for the service only are in neither set. */
enum intake_panel {
    INTAKE_PANEL_NUMBER = 0,
    INTAKE_PANEL_NUMBER_LENGTH = 4,
    INTAKE_PANEL_CODE = 4,
    INTAKE_PANEL_INPUTS = 5,
    INTAKE_PANEL_INPUTS_LENGTH = 4,
    INTAKE_PANEL_EMITTED = 9,
    INTAKE_PANEL_EMITTED_LENGTH = 4,
    INTAKE_PANEL_LENGTH = 13
};

/*
 * A preview of a bay's next instant over all fillings of the unknown inputs: the signals that are emitted for every
 * filling, those that are emitted for none, each bit s being signal s, 1 if some filling is wrong and else 0, and the code
 * that all fillings share or else INTAKE_OPEN. A wrong filling emits nothing, so with one no signal is emitted for every
 * filling. A signal in neither set is emitted for some fillings and not for others; none is in both.
 */
enum intake_preview {
    INTAKE_PREVIEW_ALWAYS = 0,
    INTAKE_PREVIEW_ALWAYS_LENGTH = 4,
    INTAKE_PREVIEW_NEVER = 4,
    INTAKE_PREVIEW_NEVER_LENGTH = 4,
    INTAKE_PREVIEW_WRONG = 8,
    INTAKE_PREVIEW_CODE = 9,
    INTAKE_PREVIEW_LENGTH = 10
};

/*
 * What is read of a ledger: a total for each of the farms 0 to 31, four bytes each, and then the ledger's own total, their
 * rounded sum: they are added in single precision, in that order, and what comes out lies within 496 litres of the exact sum.
 * Each is a single-precision number, lowest byte first, and a whole one; intake_ledger_farm and intake_ledger_total give
 * them as integers.
 */
enum intake_ledger {
    INTAKE_LEDGER_FARMS = 0,
    INTAKE_LEDGER_FARMS_LENGTH = 128,
    INTAKE_LEDGER_TOTAL = 128,
    INTAKE_LEDGER_TOTAL_LENGTH = 4,
    INTAKE_LEDGER_LENGTH = 132
};

/* The place of an error of a read-back signal, which no command of the sequence declares. */
enum intake_place {
    INTAKE_PLACE_READ_BACK = 65535
};

/* The code of an instant. One from 2 to 16 leaves the sequence: so many less one try blocks around it would be left. */
enum intake_code {
    INTAKE_ENDED = 0,
    INTAKE_WAITING = 1, /* the machine waits; after every other code it is over */
    INTAKE_OPEN = 254,  /* of a preview and of no instant: the fillings do not share a code */
    INTAKE_WRONG = 255
};

/*
 * Kind and place are those of the first error of a wrong instant. Errors come in this order: of two parts those of the
 * first before those of the second; of a signal's two runs those of the run without the signal before those of the run
 * with it; the error of a loop or a signal itself after all errors inside it. A signal is tried without and with, and an
 * error in either run makes the instant wrong. One error is shown, and there may be others behind it. A loop's next round
 * has the places of its commands. The same sequence, state, input and read-back set always show the same error.
 */
enum intake_kind {
    INTAKE_NO_ERROR = 0,
    INTAKE_INSTANTANEOUS_LOOP = 1,        /* at a loop: its body ended in the instant in which it began */
    INTAKE_NOT_REACTIVE = 2,              /* at a signal, or a read-back one: it is emitted only if absent */
    INTAKE_NOT_STRONGLY_DETERMINISTIC = 3 /* at a signal, or a read-back one: it is emitted only if present */
};

/*
 * Read-back. A sequence that emits 'valve open' may want to test it in the same instant: the pump runs if the valve is
 * open, whichever step opened it. A test of an interface signal reads the host's input, where an output is not given. The
 * read-back set names the outputs that the sequence can read: bit s says that a test of signal s, or a suspend by it, sees
 * s present exactly if the sequence emits s in this instant, and absent if not, in an instant that is not wrong. The host is
 * told of an emitted one as of any other output.
 *
 * - Put into the set the outputs that the sequence tests, and no others: each takes one of the six signals that may stand
 *   around a command, and lets the sequence react in two runs, so that the ceiling of reactions more than doubles. A signal
 *   that the host gives does not belong there: the host's status of a read-back signal is ignored.
 * - Pass the same set to the check and to every tick of one machine. The tick takes any set and does not remember the last
 *   one, so a set that changes half way gives each instant the answers of another program.
 * - An empty set, 0, gives what the calls give without read-back: every test of an interface signal reads the input.
 *
 * In full: the sequence reacts as if each signal of the set were declared by a signal command around all of it, the lowest
 * outermost, except that an emitted one stays in the emitted set. So a signal command inside the sequence hides a
 * read-back signal of the same name, and a read-back signal can err as a declared one does, when it is emitted only if
 * absent (kind 2) or only if present (kind 3). There is no command to point at, and the place is INTAKE_PLACE_READ_BACK;
 * of several such errors in one instant the kind is that of the first. These declarations have no bytes and no depth: all
 * other places, the depth and the state record are those of the sequence itself. They count as signals: if the number of
 * signals in the set and the greatest number of signal commands around a command of the sequence are more than six in sum,
 * the number is INTAKE_TOO_DEEP. A set of seven is too much for any sequence.
 */

/*
 * Checks a sequence with its read-back set and answers INTAKE_ACCEPTED or the number of the row that turns it down. Every
 * set is allowed; bit s is signal s.
 *
 * The caller must see to it that `length` bytes from `sequence` on are readable and that nobody writes them during the
 * call. With length 0 nothing is read, `sequence` may be a null pointer, and the answer is INTAKE_SEQUENCE_LENGTH.
 * Every value of the bytes and every length is allowed. The call reads no byte outside, writes nothing, keeps nothing
 * and always returns, so any number of threads may check at the same time.
 */
uint8_t intake_check(const uint8_t *sequence, size_t length, uint32_t read_back);

/*
 * The ceiling of a sequence with its read-back set: what no instant of it exceeds in reactions, whatever its state and inputs,
 * commands * (1 + loops) * 2^signals as above at the number of reactions. It is the part that the sequence takes of what the
 * bays of a box share. 0 for a sequence that intake_check turns down; never 0 for one that it accepts. What is said of the
 * caller and of the call at intake_check holds here too.
 */
uint32_t intake_ceiling(const uint8_t *sequence, size_t length, uint32_t read_back);

/*
 * Runs one instant of the machine whose sequence and state record these are, and answers INTAKE_ACCEPTED, or the number
 * of the row that turns the call down. An accepted call writes the whole answer record and the whole state record, which
 * is then ready for the next call. A call turned down writes neither: that the bytes of both are unchanged afterwards is
 * proved, and that not even bytes of the same value are stored is tested, with records in read-only memory (host/tick.c).
 * The sequence and the read-back set stay the same through all instants of a machine. A wrong instant is accepted: its code
 * is INTAKE_WRONG.
 *
 * Bit s of `input` says that the host gives signal s, and bit s of `read_back` that the sequence reads s back; every value
 * of both is allowed. A test of a signal that neither a signal command around it nor `read_back` declares reads `input`
 * only, never what the sequence emits. The bits of `input` that are in `read_back` do not matter.
 *
 * The caller must see to it that the three buffers have the lengths given and share no byte, that the sequence is
 * readable and the two records readable and writable, and that nobody else writes the sequence or uses the records
 * during the call. A buffer of length 0 may be a null pointer. Every value of the bytes and every length is allowed, the
 * old bytes of the answer do not matter, and no address needs to be aligned. The call reads and writes no byte outside,
 * keeps nothing and always returns, so any number of threads may tick at the same time, each with its own two records.
 */
uint8_t intake_tick(const uint8_t *sequence, size_t sequence_length, uint8_t *state, size_t state_length,
                    uint32_t input, uint32_t read_back, uint8_t *answer, size_t answer_length);

/*
 * Loops written out. A panel of logic cells cannot enter the body of a loop twice in one instant, as a loop does whose body
 * ends and begins again. This call writes a sequence for it: each loop p becomes 06 04, then a copy of p, then p itself with
 * its own loops written out; in the copy pauses are setpauses and loops are their bodies, so that a round begins in the copy
 * and is resumed in p.
 *
 *     uint8_t result[INTAKE_RESULT_LENGTH];
 *     size_t result_length;
 *     uint8_t number = intake_unroll(sequence, length, read_back, result, sizeof result, &result_length);
 *     if (number == INTAKE_ACCEPTED)
 *         result[0] to result[result_length - 1] is the sequence for the panel
 *
 * Up to the last instant before the original's run is wrong, both, started with a cleared state record on the same inputs
 * and with the same read-back set, have the same numbers, codes, emitted sets and state records, and deliver the same litres
 * to each farm; the number of reactions may differ. In an instant of the result that is not wrong, one run of each signal
 * counted, no command reacts twice, begins twice, or is resumed and begins; a loop and the 04 put into it go round, and of
 * them only beginnings count. A wrong instant of the original need not be one of the result: an error of a loop inside a loop
 * is not in the copy. The places of the result are its own offsets. The result is accepted with the same read-back set.
 *
 * The numbers are INTAKE_BUFFER_LENGTH for a buffer that has not INTAKE_RESULT_LENGTH bytes, then those of intake_check, then
 * INTAKE_HAS_SETPAUSE, then INTAKE_RESULT_TOO_LARGE exactly if the result would be longer than INTAKE_RESULT_LENGTH bytes or
 * deeper than 64. The length of the result is 0 after each of them, and then every byte of the buffer keeps its value; else
 * the bytes behind the result do.
 *
 * The caller must see to it that sequence, buffer and length share no byte, that the sequence is readable and the other two
 * readable and writable, and that nobody else uses them during the call. A buffer of length 0 may be a null pointer, the
 * length may not. Every value of the bytes and every length is allowed. The call reads and writes no byte outside, keeps
 * nothing and always returns.
 */
#define INTAKE_RESULT_LENGTH 1024

uint8_t intake_unroll(const uint8_t *sequence, size_t sequence_length, uint32_t read_back, uint8_t *result,
                      size_t buffer_length, size_t *result_length);

/*
 * Replays a recording: records of INTAKE_RECORD_LENGTH bytes, one after the other, as a bay of a box leaves them or an
 * editor's simulator writes them. Is it what the sequence does on the inputs recorded? Nothing else of it is believed: a
 * fresh machine runs on the input of each record in turn, and the record must be the one that the instant leaves, byte for
 * byte: number, counted from 1 and staying at the greatest, inputs, answer and next state. Litres are in no record, and a
 * replay asks no ledger.
 *
 * Answers INTAKE_ACCEPTED and sets `*place` to 0 if every record is, and else to the place of the first that differs,
 * counted from 1. A recording of no bytes is accepted, and a record after the machine is over differs. So does one of a
 * bay that came back to a position, as a rule: a replay knows no calls but ticks. A call turned down sets `*place` to 0:
 * its numbers are those of intake_check, and then INTAKE_RECORDING_LENGTH for a length that is no multiple of
 * INTAKE_RECORD_LENGTH. Every value of the bytes, every set and every length is allowed.
 *
 * The caller must see to it that both buffers have the lengths given and are readable, that nobody writes them during the
 * call, and that `place` is none of their bytes. A buffer of length 0 may be a null pointer. The call reads no byte outside,
 * writes `*place` alone, keeps nothing and always returns. It takes the time of the check once and of an instant for each
 * record up to the first that differs, and no more memory for a longer recording.
 */
uint8_t intake_replay(const uint8_t *sequence, size_t sequence_length, uint32_t read_back, const uint8_t *recording,
                      size_t recording_length, size_t *place);

/*
 * A box holds the machines of up to INTAKE_BAY_COUNT bays, numbered from 0, each with its own sequence, read-back set,
 * set of service-only signals, state, positions and number of instants; and for each bay number, filled or empty, a ledger.
 * It is lent memory of INTAKE_BOX_LENGTH bytes, all of them 00 at first and from then on written by the calls below and by
 * nobody else; docs/FORMAT.md has the layout. One that is to outlive a power cut is kept as 'Power cuts' above says.
 *
 * The bays share a ceiling: what the instants of all bays present can take, one of each, sums to INTAKE_SHARED_CEILING
 * reactions at most. The part of a bay is fixed on admission: what intake_ceiling gives for its sequence and read-back set.
 * A release gives it back. Litres take no further part: those of all farms are found while the instant reacts. The ceiling
 * speaks of instants: a preview, which is none, takes one of them where no unknown input is asked for and up to 64 where six
 * are, each within the bay's part.
 *
 * Nothing that is done with one bay changes what another one answers or holds; only whether a bay is admitted depends on the
 * other bays, by their parts of the ceiling.
 *
 * The numbers come in this order: INTAKE_NO_SUCH_BAY for a number above 7, then INTAKE_BUFFER_LENGTH for a box of another
 * length, then INTAKE_NO_SUCH_BAY for a bay that is filled on admission or empty otherwise, which the two calls on a ledger
 * leave out, then those that each call adds. After a call turned down the bytes of every buffer are unchanged, which is
 * proved; that nothing is stored, not even bytes of the same value, is tested (host/box.c).
 *
 * The caller must see to it that the buffers of a call have the lengths given and share no byte, that what is not const
 * is readable and writable and the rest readable, and that nobody else uses them during the call: two threads do not
 * use one box at the same time, unless both only read it (intake_box_service, intake_box_panel, intake_box_preview,
 * intake_box_ledger). A buffer of length 0 may be a null pointer. Every value of the bytes, every length and every bay
 * number is allowed, also a box that no call has written: the calls read and write no byte outside the buffers and always
 * return. No address needs to be aligned.
 */
#define INTAKE_BAY_COUNT 8
#define INTAKE_BOX_LENGTH 12184
#define INTAKE_SHARED_CEILING 65536

/*
 * Admits a sequence with its read-back set to an empty bay: its machine is fresh. The bay's panel never shows a signal
 * of `service_only`; bit s is signal s, every set is allowed, and no instant depends on it. After the numbers of every
 * call on a box come those of intake_check, 2 to 10 and 18, and then INTAKE_ABOVE_CEILING if the bay's part and the parts of
 * the bays present sum to more than the shared ceiling, in an empty box too. The sequence is copied: the caller's is
 * not needed afterwards.
 */
uint8_t intake_box_admit(uint8_t *box, size_t box_length, uint32_t bay, const uint8_t *sequence, size_t sequence_length,
                         uint32_t read_back, uint32_t service_only);

/*
 * Takes the machine out of a filled bay, which is empty then, whatever the machine was doing; its positions are lost, and
 * the ledger stays.
 */
uint8_t intake_box_release(uint8_t *box, size_t box_length, uint32_t bay);

/*
 * Runs one instant of a filled bay: intake_tick on its sequence, state record and read-back set, which leaves a record
 * too: the host that keeps the records of a bay has a recording of it. The litres of an instant that is not wrong go into
 * the ledger of the bay number. After the numbers of every call on a box come INTAKE_BUFFER_LENGTH for an answer or a
 * record of another length, then those of intake_tick, and last of all INTAKE_ABOVE_FARM_LIMIT if the instant would not be
 * wrong and the total of some farm and its litres would pass INTAKE_FARM_LIMIT. In a box that these calls alone have
 * written those of intake_tick are INTAKE_ACCEPTED and INTAKE_OVER. A machine that is over stays in its bay, and keeps its
 * part of the ceiling, until it is released.
 */
uint8_t intake_box_tick(uint8_t *box, size_t box_length, uint32_t bay, uint32_t input, uint8_t *answer,
                        size_t answer_length, uint8_t *record, size_t record_length);

/*
 * Positions. A cleaning crew that leaves a sequence half way may want to come back to 'rinse done'. A filled bay keeps
 * up to INTAKE_POSITION_COUNT positions of its machine, each with a name; every number of 32 bits is a name, 0 too. A
 * position is the label set of a waiting machine and nothing of its past. Coming back sets the state record to that of a
 * machine that waits at these labels, and nothing else: the bay's number of instants goes on, its ledger and the other
 * positions stay, and what was emitted since is not undone. The next tick is intake_tick from that state record, or gives
 * INTAKE_ABOVE_FARM_LIMIT. For a sequence without setpause the ticks from there up to the next coming back or the release,
 * those that give that number left out, agree with rewriting started from the expansion of the label set in number, code,
 * kind, place, emitted set, number of reactions and phase.
 */
#define INTAKE_POSITION_COUNT 16

/*
 * Saves where the machine of a filled bay waits, which stays as it is. A name that is known is replaced, also where
 * INTAKE_POSITION_COUNT are kept. After the numbers of every call on a box come INTAKE_NO_POSITION for a machine that is
 * fresh or over and then INTAKE_POSITIONS_FULL for a further name where INTAKE_POSITION_COUNT are kept.
 */
uint8_t intake_box_save(uint8_t *box, size_t box_length, uint32_t bay, uint32_t name);

/*
 * Brings the machine of a filled bay back to a position, whatever it is doing, over too: it waits there, and the next tick
 * resumes it. The position is kept. After the numbers of every call on a box comes INTAKE_NO_POSITION for an unknown name.
 */
uint8_t intake_box_restore(uint8_t *box, size_t box_length, uint32_t bay, uint32_t name);

/*
 * Forgets a position of a filled bay, whose place is free for another; the machine stays as it is. After the numbers of
 * every call on a box comes INTAKE_NO_POSITION for an unknown name.
 */
uint8_t intake_box_forget(uint8_t *box, size_t box_length, uint32_t bay, uint32_t name);

/*
 * The two readers of a record, for a filled bay: the service sees the record whole, in a view of INTAKE_RECORD_LENGTH
 * bytes; the panel sees number, code, inputs and emitted set, in a view of INTAKE_PANEL_LENGTH, with the bay's
 * service-only signals cleared in both sets. Two records give one bay's panel the same bytes exactly if they agree in
 * number, code and, service-only signals aside, inputs and emitted set. Any bytes are taken for a record: that it is
 * the bay's own is not asked. After the numbers of every call on a box comes INTAKE_BUFFER_LENGTH for a record or a
 * view of another length. The box is not written.
 */
uint8_t intake_box_service(const uint8_t *box, size_t box_length, uint32_t bay, const uint8_t *record, size_t record_length,
                           uint8_t *view, size_t view_length);
uint8_t intake_box_panel(const uint8_t *box, size_t box_length, uint32_t bay, const uint8_t *record, size_t record_length,
                         uint8_t *view, size_t view_length);

/*
 * Previews. A float switch is out for calibration, and nobody knows what it would say: does the pump run in the next
 * instant all the same?
 *
 *     uint8_t preview[INTAKE_PREVIEW_LENGTH];
 *     uint8_t number = intake_box_preview(box, sizeof box, bay, inputs, 1 << FLOAT_SWITCH, preview, sizeof preview);
 *     if (number == INTAKE_ACCEPTED && (intake_preview_always(preview) >> PUMP & 1) != 0)
 *         the pump runs, wherever the float stands
 *     else if (number == INTAKE_ACCEPTED && (intake_preview_never(preview) >> PUMP & 1) != 0)
 *         the pump stands still, wherever the float stands
 *
 * Bit s of `unknown` says that the status of signal s is not known, and bit s of `input` does not matter then. A filling
 * gives each unknown input a status, and the preview is over the answers of intake_tick to all fillings, on the bay's
 * sequence, state record and read-back set. An intake_box_tick with the inputs of a filling would now give that answer, unless
 * it gives INTAKE_ABOVE_FARM_LIMIT and so none: a preview asks no ledger. While the machine stays, learning one more status
 * keeps every signal that is in one of the two sets where it is, and a shared code too. With no unknown input the preview has
 * the emitted set, the set of all others, whether it is wrong, and the code of that one answer. A read-back signal among the
 * unknown ones has no effect, since its status is never the host's, but counts as one of them.
 *
 * The box is not written: a preview is no instant, leaves no record, adds no litres and never gives
 * INTAKE_ABOVE_FARM_LIMIT, where the tick may. After the numbers of every call on a box come
 * INTAKE_BUFFER_LENGTH for a preview of another length, then those of intake_tick on the bay's sequence, state record and
 * read-back set, and then INTAKE_SEVENTH_UNKNOWN for more than INTAKE_UNKNOWN_COUNT unknown inputs. In a box that these
 * calls alone have written those of intake_tick are INTAKE_ACCEPTED and INTAKE_OVER. A preview takes as long as one instant of
 * the bay where no unknown input is asked for, and as 2^k only where all k are asked for, whatever the status of the others.
 */
#define INTAKE_UNKNOWN_COUNT 6

uint8_t intake_box_preview(const uint8_t *box, size_t box_length, uint32_t bay, uint32_t input, uint32_t unknown,
                           uint8_t *preview, size_t preview_length);

/*
 * The year's ledger. Command 0C s v emits signal s with litres v, a single-precision number in four bytes, lowest first,
 * that is whole, from 0 to INTAKE_FARM_LIMIT and not minus zero. The signal's number is the farm's. The litres of a farm in
 * an instant are summed exactly over the run that is chosen, as often as a command delivers in it: those of a signal that a
 * signal command declares are dropped, those of a read-back signal are kept. A wrong instant has none. An emission by 02
 * carries no litres.
 *
 * Each bay number has a ledger of its own with a year total for each farm, 0 at first: an instant of the bay that is not
 * wrong adds its litres there. Admission, release and coming back to a position leave it as it is, and only
 * intake_box_new_year clears it. In a box that these calls alone have written, a farm's total is the exact sum of its
 * deliveries since the last clearing, a whole number of at most INTAKE_FARM_LIMIT litres. A tick that would let the total of a
 * farm pass that gives INTAKE_ABOVE_FARM_LIMIT: it is no instant, and nothing is written, neither the state nor any farm's
 * total. The host switches its outputs off, the pump first, since what is pumped then is in no ledger; it may tick again with
 * other inputs, or after a new year. Where the litres of one farm in one instant are more
 * than INTAKE_FARM_LIMIT by themselves, no new year helps: from this state every tick with inputs that give those litres gives
 * it. If no other inputs are to be had, mend the sequence.
 *
 *     uint8_t ledger[INTAKE_LEDGER_LENGTH];
 *     if (intake_box_ledger(box, sizeof box, bay, ledger, sizeof ledger) == INTAKE_ACCEPTED)
 *         pay(farm, intake_ledger_farm(ledger, farm))
 *
 * The ledger's total is a rounded sum, added in single precision over the farms 0 to 31 in that order: it lies within 496
 * litres of the exact sum of the 32. A host that wants that one adds the integers of intake_ledger_farm. intake_tick, which
 * has no box, knows no ledger and never gives INTAKE_ABOVE_FARM_LIMIT. In a box that other hands have written, a farm's total
 * that is no whole number from 0 to INTAKE_FARM_LIMIT counts as 0.
 *
 * Both calls take an empty bay too: after INTAKE_NO_SUCH_BAY for a number above 7 and INTAKE_BUFFER_LENGTH for a box of
 * another length comes, for reading, INTAKE_BUFFER_LENGTH for `totals` not of INTAKE_LEDGER_LENGTH bytes. Reading does not
 * write the box.
 */
#define INTAKE_FARM_COUNT 32
#define INTAKE_FARM_LIMIT 16777216

uint8_t intake_box_ledger(const uint8_t *box, size_t box_length, uint32_t bay, uint8_t *totals, size_t totals_length);

/* Clears the ledger of a bay number, filled or empty: every total is 0. */
uint8_t intake_box_new_year(uint8_t *box, size_t box_length, uint32_t bay);

/* The number in `count` bytes, at most 4, lowest first. */
INTAKE_INLINE uint32_t intake_number_in(const uint8_t *bytes, size_t count)
{
    uint32_t number = 0;
    while (count > 0)
        number = number << 8 | bytes[--count];
    return number;
}

/* Whether bit `member` of a set of `length` bytes is there. A member beyond the set is not. */
INTAKE_INLINE int intake_has(const uint8_t *set, size_t length, unsigned member)
{
    return member / 8 < length && (set[member / 8] >> member % 8 & 1) != 0;
}

/* The fields of the answer record. */
INTAKE_INLINE uint8_t intake_answer_code(const uint8_t *answer)
{
    return answer[INTAKE_ANSWER_CODE];
}

INTAKE_INLINE uint8_t intake_answer_kind(const uint8_t *answer)
{
    return answer[INTAKE_ANSWER_KIND];
}

INTAKE_INLINE uint16_t intake_answer_place(const uint8_t *answer)
{
    return INTAKE_AS(uint16_t, intake_number_in(answer + INTAKE_ANSWER_PLACE, INTAKE_ANSWER_PLACE_LENGTH));
}

/* Bit s is signal s. */
INTAKE_INLINE uint32_t intake_answer_emitted(const uint8_t *answer)
{
    return intake_number_in(answer + INTAKE_ANSWER_EMITTED, INTAKE_ANSWER_EMITTED_LENGTH);
}

INTAKE_INLINE uint32_t intake_answer_reactions(const uint8_t *answer)
{
    return intake_number_in(answer + INTAKE_ANSWER_REACTIONS, INTAKE_ANSWER_REACTIONS_LENGTH);
}

/* Whether the instant emits the signal. */
INTAKE_INLINE int intake_emits(const uint8_t *answer, unsigned signal)
{
    return intake_has(answer + INTAKE_ANSWER_EMITTED, INTAKE_ANSWER_EMITTED_LENGTH, signal);
}

/* The fields of the state record. The label set has INTAKE_STATE_LABELS_LENGTH bytes. */
INTAKE_INLINE uint8_t intake_state_phase(const uint8_t *state)
{
    return state[INTAKE_STATE_PHASE];
}

INTAKE_INLINE const uint8_t *intake_state_labels(const uint8_t *state)
{
    return state + INTAKE_STATE_LABELS;
}

/* Whether the machine waits at the pause with the label. */
INTAKE_INLINE int intake_waits_at(const uint8_t *state, unsigned label)
{
    return intake_has(state + INTAKE_STATE_LABELS, INTAKE_STATE_LABELS_LENGTH, label);
}

/* The fields of a record. Answer and state are records of their own. */
INTAKE_INLINE uint32_t intake_record_number(const uint8_t *record)
{
    return intake_number_in(record + INTAKE_RECORD_NUMBER, INTAKE_RECORD_NUMBER_LENGTH);
}

INTAKE_INLINE uint32_t intake_record_inputs(const uint8_t *record)
{
    return intake_number_in(record + INTAKE_RECORD_INPUTS, INTAKE_RECORD_INPUTS_LENGTH);
}

INTAKE_INLINE const uint8_t *intake_record_answer(const uint8_t *record)
{
    return record + INTAKE_RECORD_ANSWER;
}

INTAKE_INLINE const uint8_t *intake_record_state(const uint8_t *record)
{
    return record + INTAKE_RECORD_STATE;
}

/* The fields of a panel's view. */
INTAKE_INLINE uint32_t intake_panel_number(const uint8_t *view)
{
    return intake_number_in(view + INTAKE_PANEL_NUMBER, INTAKE_PANEL_NUMBER_LENGTH);
}

INTAKE_INLINE uint8_t intake_panel_code(const uint8_t *view)
{
    return view[INTAKE_PANEL_CODE];
}

INTAKE_INLINE uint32_t intake_panel_inputs(const uint8_t *view)
{
    return intake_number_in(view + INTAKE_PANEL_INPUTS, INTAKE_PANEL_INPUTS_LENGTH);
}

INTAKE_INLINE uint32_t intake_panel_emitted(const uint8_t *view)
{
    return intake_number_in(view + INTAKE_PANEL_EMITTED, INTAKE_PANEL_EMITTED_LENGTH);
}

/* The fields of a preview. */
INTAKE_INLINE uint32_t intake_preview_always(const uint8_t *preview)
{
    return intake_number_in(preview + INTAKE_PREVIEW_ALWAYS, INTAKE_PREVIEW_ALWAYS_LENGTH);
}

INTAKE_INLINE uint32_t intake_preview_never(const uint8_t *preview)
{
    return intake_number_in(preview + INTAKE_PREVIEW_NEVER, INTAKE_PREVIEW_NEVER_LENGTH);
}

/* Whether some filling is wrong. */
INTAKE_INLINE int intake_preview_wrong(const uint8_t *preview)
{
    return preview[INTAKE_PREVIEW_WRONG] != 0;
}

INTAKE_INLINE uint8_t intake_preview_code(const uint8_t *preview)
{
    return preview[INTAKE_PREVIEW_CODE];
}

/* The integer of a single-precision number, in four bytes, that is whole, at least 0 and below 2^32; of others any. */
INTAKE_INLINE uint32_t intake_litres_in(const uint8_t *bytes)
{
    uint32_t bits = intake_number_in(bytes, 4), exponent = bits >> 23, digits = (bits & 0x7FFFFF) | 0x800000;
    if (exponent < 127 || exponent > 158)
        return 0;
    return exponent < 150 ? digits >> (150 - exponent) : digits << (exponent - 150);
}

/* The fields of what is read of a ledger, in litres. A farm beyond the last one has none. */
INTAKE_INLINE uint32_t intake_ledger_farm(const uint8_t *totals, unsigned farm)
{
    return farm < INTAKE_FARM_COUNT ? intake_litres_in(totals + INTAKE_LEDGER_FARMS + 4 * farm) : 0;
}

INTAKE_INLINE uint32_t intake_ledger_total(const uint8_t *totals)
{
    return intake_litres_in(totals + INTAKE_LEDGER_TOTAL);
}

/* What the number of a call means, in words. */
INTAKE_INLINE const char *intake_text(unsigned number)
{
    switch (number) {
    case INTAKE_ACCEPTED: return "accepted";
    case INTAKE_BUFFER_LENGTH: return "a buffer or the box has another length";
    case INTAKE_SEQUENCE_LENGTH: return "the sequence has no bytes, or more than 1,024";
    case INTAKE_UNKNOWN_COMMAND: return "unknown command";
    case INTAKE_CUT_SHORT: return "the sequence ends within a command";
    case INTAKE_OPERAND_RANGE: return "an operand is outside its range";
    case INTAKE_TOO_DEEP: return "commands nested more than 64 deep, or signals more than six deep";
    case INTAKE_BYTES_AFTER: return "bytes after the statement";
    case INTAKE_PAUSE_TWICE: return "two pauses have one label";
    case INTAKE_SETPAUSE_WITHOUT_PAUSE: return "a setpause has a label that no pause has";
    case INTAKE_NOT_WELL_FORMED: return "pauses that exclude each other can be set together";
    case INTAKE_INVALID_STATE: return "the state record is not one of this sequence";
    case INTAKE_OVER: return "the machine is over";
    case INTAKE_NO_SUCH_BAY: return "no bay has this number, or it is filled on admission or empty otherwise";
    case INTAKE_ABOVE_CEILING: return "the bays together could take more than 65,536 reactions in an instant";
    case INTAKE_NO_POSITION: return "the machine is not waiting and has no position to save, or no position has this name";
    case INTAKE_POSITIONS_FULL: return "the bay keeps 16 positions, and none of them has this name";
    case INTAKE_SEVENTH_UNKNOWN: return "a preview takes at most six inputs of unknown status";
    case INTAKE_BAD_LITRES: return "litres that are not a whole number from 0 to 16,777,216";
    case INTAKE_ABOVE_FARM_LIMIT: return "the year total of a farm would pass 16,777,216 litres";
    case INTAKE_HAS_SETPAUSE: return "the sequence has a setpause, so its loops are not written out";
    case INTAKE_RESULT_TOO_LARGE: return "with its loops written out the sequence has over 1,024 bytes, or is over 64 deep";
    case INTAKE_RECORDING_LENGTH: return "the recording ends within a record";
    default: return "no number of a call";
    }
}

/* What the kind of an error means, in words. */
INTAKE_INLINE const char *intake_kind_text(unsigned kind)
{
    switch (kind) {
    case INTAKE_NO_ERROR: return "no error";
    case INTAKE_INSTANTANEOUS_LOOP: return "a loop whose body ends in the instant in which it began";
    case INTAKE_NOT_REACTIVE: return "a signal that is emitted only if absent";
    case INTAKE_NOT_STRONGLY_DETERMINISTIC: return "a signal that is emitted only if present";
    default: return "no kind of an error";
    }
}

#ifdef __cplusplus
}
#endif

#endif
