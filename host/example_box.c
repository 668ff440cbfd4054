/*
 * A small host with several bays: runs the bays of up to eight run files side by side in one box, an instant of each in a
 * round, ten rounds a second, and prints a line for each instant. With --at-once it does not wait.
 *
 * A word such as 0:4:save:1 asks for a call on a position: before instant 4 of bay 0 save it under the name 1; restore comes
 * back to it, and forget forgets it. A word such as 0:6:preview:4 asks for a preview of instant 6 of bay 0 in which the status
 * of signal 2, the set 4, is not known. 0:6:newyear:0 asks for a new year of the ledger of bay 0 before its instant 6, and
 * 0:ledger for that ledger after all runs, when the bays are empty. A word such as 0:record:FILE keeps the records of bay 0 in
 * a file, for tools/show --recording, and 0:replay asks for a replay of them in the end.
 *
 * store:NAME keeps the box after each round in the files NAME.0 and NAME.1, so that it outlives a power cut: the same command
 * given again goes on from there, and shows the ledgers and replays the recordings that it finds. cut:5 ends the program after
 * five rounds as a cut does.
 *
 *     gcc -Iinclude host/example_box.c target/staticlib/libintake.a -o example_box
 *     gcc example_box.c $(pkg-config --cflags --libs intake) -o example_box, where it is installed
 *     ./example_box examples/intake.bin examples/rinse.bin
 *     ./example_box examples/clean.bin 0:4:save:1 0:7:restore:1 0:record:clean.rec
 *     ./example_box examples/clean.bin examples/tour.bin 1:ledger 1:record:tour.rec 1:replay store:box
 */
#define _POSIX_C_SOURCE 200809L /* fsync, truncate and clock_nanosleep */

#include "intake.h"
#include "intake_store.h"

#include <errno.h>
#include <inttypes.h>
#include <stdbool.h>
#include <stdio.h>
#include <stdlib.h>
#include <string.h>
#include <sys/stat.h>
#include <time.h>
#include <unistd.h>

/* The run file: the length of the sequence, the sequence, its read-back set, then an input for each instant. */
enum { MAX_FILE = 65536, LENGTH_BYTES = 2, READ_BACK_BYTES = 4, INPUT_BYTES = 4 };

/* What the box does not hold of a bay: its inputs, and where its records go, if anywhere. */
struct bay {
    uint8_t file[MAX_FILE];
    size_t count;
    size_t next; /* where the input of the next instant stands */
    size_t instant;
    bool present;
    bool told;     /* is its ledger asked for? */
    bool replayed; /* is a replay of its recording asked for? */
    const char *path;
    FILE *recording;
};

/*
 * A call on a position of a bay, a preview or a new year, before one of its instants; a preview has a set in the place of a
 * name, a new year any number.
 */
struct request {
    uint32_t bay;
    size_t instant;
    char call[8];
    uint32_t name;
    bool made;
};

enum { MAX_REQUESTS = 256 };

static uint8_t box[INTAKE_BOX_LENGTH]; /* all bytes 00: eight empty bays */
static struct bay bays[INTAKE_BAY_COUNT];
static uint32_t bay_count;
static struct request requests[MAX_REQUESTS];
static size_t request_count;
static uint8_t foreseen[INTAKE_PREVIEW_LENGTH]; /* by the last preview */

static size_t length_of(const struct bay *bay) { return intake_number_in(bay->file, LENGTH_BYTES); }

static uint32_t read_back_of(const struct bay *bay)
{
    return intake_number_in(bay->file + LENGTH_BYTES + length_of(bay), READ_BACK_BYTES);
}

static bool read_file(struct bay *bay, const char *path)
{
    FILE *stream = fopen(path, "rb");
    if (stream == NULL)
        return false;
    bay->count = fread(bay->file, 1, sizeof bay->file, stream);
    fclose(stream);
    bay->next = LENGTH_BYTES + length_of(bay) + READ_BACK_BYTES;
    return bay->count >= bay->next;
}

/* Checks the sequence and admits it, if what it can take in an instant is left of the shared ceiling. */
static void admit(uint32_t number_of_bay)
{
    struct bay *bay = &bays[number_of_bay];
    uint8_t number = intake_box_admit(box, sizeof box, number_of_bay, bay->file + LENGTH_BYTES, length_of(bay),
                                      read_back_of(bay), 0);
    bay->present = number == INTAKE_ACCEPTED;
    if (!bay->present)
        printf("%" PRIu32 " refused %u: %s\n", number_of_bay, (unsigned)number, intake_text(number));
}

/* What the next instant of a bay does for every status of the unknown inputs. */
static uint8_t preview(uint8_t *whole, size_t length, uint32_t bay, uint32_t unknown)
{
    bool given = bays[bay].count - bays[bay].next >= INPUT_BYTES;
    uint32_t input = given ? intake_number_in(bays[bay].file + bays[bay].next, INPUT_BYTES) : 0;
    return intake_box_preview(whole, length, bay, input, unknown, foreseen, sizeof foreseen);
}

static uint8_t new_year(uint8_t *whole, size_t length, uint32_t bay, uint32_t unused)
{
    (void)unused;
    return intake_box_new_year(whole, length, bay);
}

static const struct {
    const char *name;
    uint8_t (*call)(uint8_t *box, size_t box_length, uint32_t bay, uint32_t name);
} calls[] = {
    {"save", intake_box_save}, {"restore", intake_box_restore}, {"forget", intake_box_forget}, {"preview", preview},
    {"newyear", new_year},
};

/* Makes the calls that are asked for before the bay's next instant. */
static void asked_calls(uint32_t number_of_bay)
{
    for (struct request *asked = requests; asked < requests + request_count; asked++)
        for (size_t i = 0; i < sizeof calls / sizeof *calls; i++)
            if (!asked->made && asked->bay == number_of_bay && asked->instant == bays[number_of_bay].instant + 1 &&
                strcmp(asked->call, calls[i].name) == 0) {
                asked->made = true;
                uint8_t number = calls[i].call(box, sizeof box, number_of_bay, asked->name);
                printf("%" PRIu32 " %s %" PRIu32, number_of_bay, asked->call, asked->name);
                if (number != INTAKE_ACCEPTED)
                    printf(" refused %u: %s", (unsigned)number, intake_text(number));
                else if (calls[i].call == preview)
                    printf(" always %08" PRIx32 " never %08" PRIx32 " wrong %d code %u", intake_preview_always(foreseen),
                           intake_preview_never(foreseen), intake_preview_wrong(foreseen),
                           (unsigned)intake_preview_code(foreseen));
                putchar('\n');
            }
}

/*
 * One instant; a bay whose machine is over, or whose inputs are used up, is taken out. Where the ledger has no room for the
 * litres there is no instant, and the machine goes on with the next inputs.
 */
static void instant(uint32_t number_of_bay)
{
    struct bay *bay = &bays[number_of_bay];
    uint8_t number = INTAKE_OVER, answer[INTAKE_ANSWER_LENGTH], record[INTAKE_RECORD_LENGTH];
    asked_calls(number_of_bay);
    if (bay->count - bay->next >= INPUT_BYTES) {
        number = intake_box_tick(box, sizeof box, number_of_bay, intake_number_in(bay->file + bay->next, INPUT_BYTES), answer,
                                 sizeof answer, record, sizeof record);
        bay->next += INPUT_BYTES;
    }
    if (number == INTAKE_ABOVE_FARM_LIMIT) {
        printf("%" PRIu32 " refused %u: %s\n", number_of_bay, (unsigned)number, intake_text(number));
        return;
    }
    if (number != INTAKE_ACCEPTED) {
        intake_box_release(box, sizeof box, number_of_bay);
        bay->present = false;
        printf("%" PRIu32 " end\n", number_of_bay);
        return;
    }
    if (bay->recording != NULL)
        fwrite(record, 1, sizeof record, bay->recording);
    bay->instant++;
    printf("%" PRIu32 " %zu %u %u %u %08" PRIx32 "\n", number_of_bay, bay->instant, (unsigned)intake_answer_code(answer),
           (unsigned)intake_answer_kind(answer), (unsigned)intake_answer_place(answer), intake_answer_emitted(answer));
}

/* Whether a word asks for a call, which is then kept. */
static bool asks(const char *word)
{
    struct request asked = {.made = false};
    if (request_count == MAX_REQUESTS || sscanf(word, "%" SCNu32 ":%zu:%7[a-z]:%" SCNu32, &asked.bay, &asked.instant,
                                                asked.call, &asked.name) != 4)
        return false;
    requests[request_count++] = asked;
    return true;
}

/* The bay of a word such as 0:ledger or 0:record:FILE, and where the rest of it begins; INTAKE_BAY_COUNT if it is none. */
static uint32_t bay_of(const char *word, const char *asked, const char **rest)
{
    uint32_t bay;
    int end = 0;
    if (sscanf(word, "%" SCNu32 ":%n", &bay, &end) != 1 || end == 0 || bay >= INTAKE_BAY_COUNT ||
        strncmp(word + end, asked, strlen(asked)) != 0)
        return INTAKE_BAY_COUNT;
    *rest = word + end + strlen(asked);
    return bay;
}

/* Whether a word asks for a ledger, a replay or a recording. */
static bool asks_of_bay(const char *word)
{
    const char *rest;
    uint32_t ledger = bay_of(word, "ledger", &rest);
    if (ledger < INTAKE_BAY_COUNT)
        return *rest == '\0' && (bays[ledger].told = true);
    uint32_t replay = bay_of(word, "replay", &rest);
    if (replay < INTAKE_BAY_COUNT)
        return *rest == '\0' && (bays[replay].replayed = true);
    uint32_t recording = bay_of(word, "record:", &rest);
    if (recording == INTAKE_BAY_COUNT || bays[recording].path != NULL)
        return false;
    bays[recording].path = rest;
    return true;
}

/* Prints the year total of each farm that has one, and the ledger's. */
static void tell_ledger(uint32_t bay)
{
    uint8_t ledger[INTAKE_LEDGER_LENGTH];
    if (intake_box_ledger(box, sizeof box, bay, ledger, sizeof ledger) != INTAKE_ACCEPTED)
        return;
    for (unsigned farm = 0; farm < INTAKE_FARM_COUNT; farm++)
        if (intake_ledger_farm(ledger, farm) != 0)
            printf("%" PRIu32 " farm %u %" PRIu32 "\n", bay, farm, intake_ledger_farm(ledger, farm));
    printf("%" PRIu32 " total %" PRIu32 "\n", bay, intake_ledger_total(ledger));
}

/* Replays the recording of a bay from its beginning; a bay that came back to a position differs there, as a rule. */
static void tell_replay(uint32_t number_of_bay)
{
    static uint8_t records[MAX_FILE / INPUT_BYTES * INTAKE_RECORD_LENGTH];
    struct bay *bay = &bays[number_of_bay];
    size_t place, length;
    if (bay->recording == NULL)
        return;
    rewind(bay->recording);
    length = fread(records, 1, sizeof records, bay->recording);
    fseek(bay->recording, 0, SEEK_END);
    uint8_t number = intake_replay(bay->file + LENGTH_BYTES, length_of(bay), read_back_of(bay), records, length, &place);
    if (number != INTAKE_ACCEPTED)
        printf("%" PRIu32 " replay refused %u: %s\n", number_of_bay, (unsigned)number, intake_text(number));
    else if (place != 0)
        printf("%" PRIu32 " replay differs at %zu\n", number_of_bay, place);
    else
        printf("%" PRIu32 " replay accepted %zu\n", number_of_bay, length / INTAKE_RECORD_LENGTH);
}

/* Prints the ledgers and replays that are asked for. */
static void tell(void)
{
    for (uint32_t bay = 0; bay < INTAKE_BAY_COUNT; bay++)
        if (bays[bay].told)
            tell_ledger(bay);
    for (uint32_t bay = 0; bay < INTAKE_BAY_COUNT; bay++)
        if (bays[bay].replayed)
            tell_replay(bay);
}

/*
 * What is kept over a power cut, as one payload, so that all of it is of one round: the box; whether each bay is present, the
 * place in its inputs and its instants; and which requests were made. The recordings are files of their own, with a record for
 * each instant.
 */
enum {
    AT_BAYS = INTAKE_BOX_LENGTH,
    BAY_BYTES = 9,
    AT_REQUESTS = AT_BAYS + INTAKE_BAY_COUNT * BAY_BYTES,
    PAYLOAD = AT_REQUESTS + MAX_REQUESTS
};

static uint8_t payload[PAYLOAD], copies[2][INTAKE_STORE_LENGTH(PAYLOAD)];
static FILE *media[2];
static unsigned long binding;

static void put(uint8_t *at, size_t number)
{
    for (int i = 0; i < 4; i++)
        at[i] = (uint8_t)(number >> 8 * i);
}

static void gather(void)
{
    memcpy(payload, box, sizeof box);
    for (size_t i = 0; i < INTAKE_BAY_COUNT; i++) {
        uint8_t *at = payload + AT_BAYS + i * BAY_BYTES;
        at[0] = bays[i].present;
        put(at + 1, bays[i].next);
        put(at + 5, bays[i].instant);
    }
    for (size_t i = 0; i < request_count; i++)
        payload[AT_REQUESTS + i] = requests[i].made;
}

static void scatter(void)
{
    memcpy(box, payload, sizeof box);
    for (size_t i = 0; i < INTAKE_BAY_COUNT; i++) {
        const uint8_t *at = payload + AT_BAYS + i * BAY_BYTES;
        bays[i].present = at[0] != 0;
        bays[i].next = intake_number_in(at + 1, 4);
        bays[i].instant = intake_number_in(at + 5, 4);
    }
    for (size_t i = 0; i < request_count; i++)
        requests[i].made = payload[AT_REQUESTS + i] != 0;
}

/* Whether what was written to a file is on the disk. */
static bool on_disk(FILE *stream) { return fflush(stream) == 0 && fsync(fileno(stream)) == 0; }

/* Keeps all as it is after a round: first the records, which the payload counts on, and then the payload in one copy. */
static bool keep(void)
{
    for (uint32_t i = 0; i < bay_count; i++)
        if (bays[i].recording != NULL && !on_disk(bays[i].recording))
            return false;
    gather();
    int copy = intake_store_write(copies[0], copies[1], binding, payload, sizeof payload);
    rewind(media[copy]);
    return fwrite(copies[copy], 1, sizeof copies[copy], media[copy]) == sizeof copies[copy] && on_disk(media[copy]);
}

/* Opens the two files of a store, or makes them, and reads what they have. */
static bool open_store(const char *name)
{
    char path[4096];
    for (int i = 0; i < 2; i++) {
        if (snprintf(path, sizeof path, "%s.%d", name, i) >= (int)sizeof path)
            return false;
        media[i] = fopen(path, "r+b");
        if (media[i] == NULL)
            media[i] = fopen(path, "w+b");
        if (media[i] == NULL)
            return false;
        if (fread(copies[i], 1, sizeof copies[i], media[i]) < sizeof copies[i])
            clearerr(media[i]); /* a file that is cut or new is a copy that is not whole */
    }
    return true;
}

/* Takes from a recording the records of a round that was cut; whether it has all that the box counts. */
static bool shortened(const struct bay *bay)
{
    struct stat found;
    off_t length = (off_t)(bay->instant * INTAKE_RECORD_LENGTH);
    return stat(bay->path, &found) == 0 && found.st_size >= length && truncate(bay->path, length) == 0;
}

/* Opens the recordings: new ones, or those that were kept. */
static bool open_recordings(bool kept)
{
    for (struct bay *bay = bays; bay < bays + INTAKE_BAY_COUNT; bay++) {
        if (bay->path == NULL)
            continue;
        bay->recording = kept && !shortened(bay) ? NULL : fopen(bay->path, kept ? "r+b" : "w+b");
        if (bay->recording == NULL || fseek(bay->recording, 0, SEEK_END) != 0) {
            fprintf(stderr, "%s: no recording, or not all records that the box counts\n", bay->path);
            return false;
        }
    }
    return true;
}

/* Goes on from what was kept of these sequences, read-back sets and requests, or admits the sequences. */
static bool start(void)
{
    for (uint32_t i = 0; i < bay_count; i++)
        binding = intake_store_bind(binding, bays[i].file + LENGTH_BYTES, length_of(&bays[i]), read_back_of(&bays[i]));
    bool kept = media[0] != NULL && intake_store_read(copies[0], copies[1], binding, payload, sizeof payload) != 0;
    if (kept)
        scatter();
    else
        for (uint32_t i = 0; i < bay_count; i++)
            admit(i);
    if (!open_recordings(kept))
        return false;
    for (uint32_t i = 0; kept && i < bay_count; i++)
        printf("%" PRIu32 " restored %zu\n", i, bays[i].instant);
    if (kept)
        tell();
    return true;
}

/* Whether all that was written is where it should be. */
static bool closed(void)
{
    bool all = fflush(stdout) == 0 && !ferror(stdout);
    for (size_t i = 0; i < INTAKE_BAY_COUNT; i++)
        if (bays[i].recording != NULL) {
            bool written = !ferror(bays[i].recording);
            all = fclose(bays[i].recording) == 0 && written && all;
        }
    return all;
}

/* Waits for a round, a tenth of a second after the one before. */
static void wait_for(size_t round)
{
    static struct timespec at;
    if (round == 0)
        clock_gettime(CLOCK_MONOTONIC, &at);
    else
        at.tv_nsec += 100000000;
    if (at.tv_nsec >= 1000000000) {
        at.tv_nsec -= 1000000000;
        at.tv_sec++;
    }
    while (clock_nanosleep(CLOCK_MONOTONIC, TIMER_ABSTIME, &at, NULL) == EINTR)
        ;
}

/* Rounds until no bay has a machine, or up to a cut, after which nothing more is done. */
static bool rounds(bool at_once, size_t cut)
{
    bool any = bay_count > 0;
    for (size_t round = 0; any; round++) {
        fflush(stdout);
        if (round == cut)
            _exit(EXIT_SUCCESS);
        if (!at_once)
            wait_for(round);
        any = false;
        for (uint32_t i = 0; i < bay_count; i++)
            if (bays[i].present) {
                instant(i);
                any = true;
            }
        if (any && media[0] != NULL && !keep()) {
            fprintf(stderr, "the box could not be kept\n");
            return false;
        }
    }
    return true;
}

int main(int argc, char **argv)
{
    bool at_once = false;
    size_t cut = SIZE_MAX;
    for (int i = 1; i < argc; i++) {
        if (asks(argv[i])) {
            binding = intake_store_sum(binding, (const uint8_t *)argv[i], strlen(argv[i]));
        } else if (strcmp(argv[i], "--at-once") == 0) {
            at_once = true;
        } else if (strncmp(argv[i], "cut:", 4) == 0) {
            cut = strtoul(argv[i] + 4, NULL, 10);
        } else if (strncmp(argv[i], "store:", 6) == 0) {
            if (media[0] != NULL || !open_store(argv[i] + 6)) {
                fprintf(stderr, "%s: no store, or a second one\n", argv[i]);
                return EXIT_FAILURE;
            }
        } else if (!asks_of_bay(argv[i])) {
            if (bay_count == INTAKE_BAY_COUNT || !read_file(&bays[bay_count], argv[i])) {
                fprintf(stderr, "%s: no run file, or more than %d\n", argv[i], INTAKE_BAY_COUNT);
                return EXIT_FAILURE;
            }
            bay_count++;
        }
    }
    if (bay_count == 0) {
        fprintf(stderr, "usage: example_box RUN-FILE... [BAY:INSTANT:CALL:NAME...] [BAY:ledger...] [BAY:record:FILE...] "
                        "[BAY:replay...] [store:NAME] [cut:ROUNDS] [--at-once]\n");
        return EXIT_FAILURE;
    }
    if (!start() || !rounds(at_once, cut))
        return EXIT_FAILURE;
    tell();
    return closed() ? EXIT_SUCCESS : EXIT_FAILURE;
}
