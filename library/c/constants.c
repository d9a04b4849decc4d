/*
 * Every constant and macro of the header, by its name, against what calls answer: each refusal, kind, size and limit.
 * The calls are proved and the header is not, so that a slip in the header shows here. Prints each check that fails
 * and ends with 1 if one does. library/names sees that no constant of the header is left out.
 */
#include "siljuvatt.h"

#include <stdio.h>
#include <stdlib.h>
#include <string.h>

static int checks;
static int failures;
static bool provoked[65536]; /* the numbers of the refusals that a call gave */

/* The first failures are told and are enough. */
static void end_after_many(void)
{
    if (failures == 20) {
        printf("%d checks, %d failed, and no more are made\n", checks, failures);
        exit(1);
    }
}

static void same(uint32_t answer, uint32_t expected, const char *call, const char *name, int line)
{
    checks++;
    if (answer != expected) {
        failures++;
        printf("line %d: %s is %u and not %s, %u\n", line, call, (unsigned)answer, name, (unsigned)expected);
        end_after_many();
    }
}

static void same_text(const char *said, const char *expected, int line)
{
    checks++;
    if (strcmp(said, expected) != 0) {
        failures++;
        printf("line %d: \"%s\" and not \"%s\"\n", line, said, expected);
        end_after_many();
    }
}

#define SAME(call, expected) same((uint32_t)(call), (uint32_t)(expected), #call, #expected, __LINE__)
#define SAME_TEXT(said, expected) same_text(said, expected, __LINE__)

/* A refusal is its number with the top bit and no other: no kind, nothing dropped, no bus to be reset. */
static void refused(uint32_t answer, uint32_t number, const char *call, const char *name, int line)
{
    same(SILJUVATT_IS_REFUSED(answer), true, call, "refused", line);
    same(SILJUVATT_NUMBER(answer), number, call, name, line);
    same(SILJUVATT_KIND(answer), 0, call, "of no kind", line);
    same(SILJUVATT_BROKE(answer) + SILJUVATT_RESET_A(answer) + SILJUVATT_RESET_B(answer), 0, call, "no yes", line);
    same_text(siljuvatt_refusal_name(answer), name + strlen("SILJUVATT_REFUSAL_"), line);
    provoked[answer & 0xFFFF] = true;
}

#define REFUSED(call, name) refused((call), name, #call, #name, __LINE__)

/* An answer that is none of the refusals, and its kind. */
static void of_kind(uint32_t answer, uint32_t kind, const char *call, const char *name, int line)
{
    same(SILJUVATT_IS_REFUSED(answer), false, call, "accepted", line);
    same(SILJUVATT_KIND(answer), kind, call, name, line);
}

#define OF_KIND(call, kind) of_kind((call), kind, #call, #kind, __LINE__)

/* ---- Release and answers ---- */

#if SILJUVATT_VERSION < 256
#error "SILJUVATT_VERSION is no number for the preprocessor, or that of no release"
#endif

static void version(void)
{
    uint32_t linked = siljuvatt_version();

    SAME(linked, SILJUVATT_VERSION);
    SAME(linked >> 16, SILJUVATT_VERSION_MAJOR);
    SAME((linked >> 8) & 0xFF, SILJUVATT_VERSION_MINOR);
    SAME(linked & 0xFF, SILJUVATT_VERSION_PATCH);
}

/* Each macro at its bounds: the bits that it takes, and those beside them. */
static void answers(void)
{
    const uint32_t all = UINT32_C(0xFFFFFFFF), top = UINT32_C(0x80000000);

    SAME(SILJUVATT_IS_REFUSED(top), true);
    SAME(SILJUVATT_IS_REFUSED(top - 1), false);
    SAME(SILJUVATT_NUMBER(all), 0xFFFF);
    SAME(SILJUVATT_NUMBER(all ^ 0xFFFF), 0);
    SAME(SILJUVATT_KIND(all), 0xFF);
    SAME(SILJUVATT_KIND(all ^ UINT32_C(0xFF0000)), 0);
    SAME(SILJUVATT_BROKE(UINT32_C(1) << 24), 1);
    SAME(SILJUVATT_BROKE(all ^ UINT32_C(1) << 24), 0);
    SAME(SILJUVATT_RESET_A(UINT32_C(1) << 25), 1);
    SAME(SILJUVATT_RESET_A(all ^ UINT32_C(1) << 25), 0);
    SAME(SILJUVATT_RESET_B(UINT32_C(1) << 26), 1);
    SAME(SILJUVATT_RESET_B(all ^ UINT32_C(1) << 26), 0);
}

static int evaluations;

static uint32_t evaluated(uint32_t answer)
{
    evaluations++;
    return answer;
}

/*
 * A macro, and an answer of which it is 1. Its argument may be any expression and is evaluated once, and the macro may
 * stand in any expression. The answers are such that a macro without its brackets is something else.
 */
#define IN_EXPRESSIONS(macro, answer) \
    SAME(macro(yes ? answer : 0), 1); \
    SAME(-macro(answer), -1); \
    evaluations = 0; \
    SAME(macro(evaluated(answer)), 1); \
    SAME(evaluations, 1)

static void expressions(void)
{
    const bool yes = checks > 0;

    IN_EXPRESSIONS(SILJUVATT_IS_REFUSED, UINT32_C(0x80000000));
    IN_EXPRESSIONS(SILJUVATT_NUMBER, UINT32_C(0x10001));
    IN_EXPRESSIONS(SILJUVATT_KIND, UINT32_C(0x10000));
    IN_EXPRESSIONS(SILJUVATT_BROKE, UINT32_C(0x1000000));
    IN_EXPRESSIONS(SILJUVATT_RESET_A, UINT32_C(0x2000000));
    IN_EXPRESSIONS(SILJUVATT_RESET_B, UINT32_C(0x4000000));
}

/* Two kinds that are equal do not compile. */
static bool is_kind(uint32_t number)
{
    switch (number) {
    case SILJUVATT_POLL: case SILJUVATT_DATA_BLOCK: case SILJUVATT_COMMAND:
    case SILJUVATT_PACKET: case SILJUVATT_KEPT: case SILJUVATT_FILTERED:
    case SILJUVATT_SEND: case SILJUVATT_DONE: case SILJUVATT_GAVE_UP:
        return true;
    default:
        return false;
    }
}

/* ---- Formats and splitting ---- */

static uint8_t station[SILJUVATT_STATION_SIZE + 1]; /* with a byte too many to be one */
static uint8_t store[SILJUVATT_STORE_SIZE + 1];
static uint8_t packet[SILJUVATT_EXTENDED_LIMIT + 1];

#define STATION station, SILJUVATT_STATION_SIZE
#define STORE store, SILJUVATT_STORE_SIZE

static const uint8_t extended[SILJUVATT_EXTENDED_FIELDS + 1] = {1, 5, 0, 0, 2};
static const uint8_t standard[SILJUVATT_STANDARD_FIELDS + 1] = {2, 22, 1};

#define WRITE(format, fields, count, size, k, output, room) \
    siljuvatt_write_piece(format, fields, count, packet, size, k, output, room)

/* The longest image of the 256 pieces of a packet; each is written with that room, and not with one byte less. */
static uint32_t longest(uint8_t format, const uint8_t *fields, size_t count, size_t size, size_t room)
{
    uint8_t output[64];
    uint32_t pieces = siljuvatt_piece_count(format, size), most = 0;

    SAME(pieces, 256);
    for (uint32_t k = 0; k < 256; k++) {
        uint32_t length = WRITE(format, fields, count, size, k, output, room);
        REFUSED(WRITE(format, fields, count, size, k, output, length - 1), SILJUVATT_REFUSAL_ROOM);
        most = length > most ? length : most;
    }
    REFUSED(WRITE(format, fields, count, size, 256, output, room), SILJUVATT_REFUSAL_INDEX);
    return most;
}

static void splitting_extended(void)
{
    const uint8_t format = SILJUVATT_EXTENDED;
    const size_t count = SILJUVATT_EXTENDED_FIELDS, limit = SILJUVATT_EXTENDED_LIMIT, room = SILJUVATT_EXTENDED_IMAGE;
    uint8_t output[64];

    SAME(siljuvatt_piece_count(format, SILJUVATT_EXTENDED_LIMIT), 256);
    REFUSED(siljuvatt_piece_count(format, SILJUVATT_EXTENDED_LIMIT + 1), SILJUVATT_REFUSAL_SIZE);
    REFUSED(WRITE(format, extended, count, limit + 1, 0, output, room), SILJUVATT_REFUSAL_SIZE);
    REFUSED(WRITE(format, extended, SILJUVATT_EXTENDED_FIELDS + 1, 9, 0, output, room), SILJUVATT_REFUSAL_FIELD);
    REFUSED(WRITE(format, extended, SILJUVATT_EXTENDED_FIELDS - 1, 9, 0, output, room), SILJUVATT_REFUSAL_FIELD);
    SAME(longest(format, extended, count, limit, sizeof output), SILJUVATT_EXTENDED_IMAGE);
    SAME(longest(format, extended, count, limit, room), SILJUVATT_EXTENDED_IMAGE);
}

static void splitting_standard(void)
{
    const uint8_t format = SILJUVATT_STANDARD;
    const size_t count = SILJUVATT_STANDARD_FIELDS, limit = SILJUVATT_STANDARD_LIMIT, room = SILJUVATT_STANDARD_IMAGE;
    uint8_t output[64];

    SAME(siljuvatt_piece_count(format, SILJUVATT_STANDARD_LIMIT), 256);
    REFUSED(siljuvatt_piece_count(format, SILJUVATT_STANDARD_LIMIT + 1), SILJUVATT_REFUSAL_SIZE);
    REFUSED(WRITE(format, standard, count, limit + 1, 0, output, room), SILJUVATT_REFUSAL_SIZE);
    REFUSED(WRITE(format, standard, SILJUVATT_STANDARD_FIELDS + 1, 9, 0, output, room), SILJUVATT_REFUSAL_FIELD);
    REFUSED(WRITE(format, standard, SILJUVATT_STANDARD_FIELDS - 1, 9, 0, output, room), SILJUVATT_REFUSAL_FIELD);
    SAME(longest(format, standard, count, limit, sizeof output), SILJUVATT_STANDARD_IMAGE);
    SAME(longest(format, standard, count, limit, room), SILJUVATT_STANDARD_IMAGE);
}

/* ---- A station ---- */

#define RECEIVE(bus, image, length) siljuvatt_receive(STATION, STORE, bus, image, length)
#define NEW_STATION(format) SAME(siljuvatt_station_new(STATION, format), 0)

static void station_sizes(void)
{
    size_t start;

    REFUSED(siljuvatt_station_new(station, SILJUVATT_STATION_SIZE - 1, SILJUVATT_EXTENDED), SILJUVATT_REFUSAL_STATE);
    REFUSED(siljuvatt_station_new(station, SILJUVATT_STATION_SIZE + 1, SILJUVATT_EXTENDED), SILJUVATT_REFUSAL_STATE);
    NEW_STATION(SILJUVATT_EXTENDED);
    SAME(siljuvatt_open(STATION, SILJUVATT_BUS_A, extended, SILJUVATT_EXTENDED_FIELDS), 0);
    REFUSED(siljuvatt_read(STATION, store, SILJUVATT_STORE_SIZE - 1, 0, &start), SILJUVATT_REFUSAL_STORE);
    REFUSED(siljuvatt_read(STATION, store, SILJUVATT_STORE_SIZE + 1, 0, &start), SILJUVATT_REFUSAL_STORE);
    REFUSED(siljuvatt_read(STATION, store, SILJUVATT_STORE_SIZE, 0, &start), SILJUVATT_REFUSAL_NOPACKET);
}

/* Another layout than this release's is no station, whatever else is asked; nor is memory of zeros. */
static void station_layout(void)
{
    uint8_t *layout = &station[SILJUVATT_STATION_SIZE - 1];
    size_t start;

    NEW_STATION(SILJUVATT_EXTENDED);
    SAME(*layout, SILJUVATT_STATION_LAYOUT);
    for (unsigned number = 0; number < 256; number++) {
        if (number == SILJUVATT_STATION_LAYOUT) {
            continue;
        }
        *layout = (uint8_t)number;
        REFUSED(siljuvatt_open(STATION, SILJUVATT_BUS_A, extended, 5), SILJUVATT_REFUSAL_STATE);
        REFUSED(siljuvatt_close(STATION, 0), SILJUVATT_REFUSAL_STATE);
        REFUSED(RECEIVE(SILJUVATT_BUS_A, NULL, 0), SILJUVATT_REFUSAL_STATE);
        REFUSED(siljuvatt_read(STATION, STORE, 0, &start), SILJUVATT_REFUSAL_STATE);
    }
}

/* Slots are open to the last, and each has its own area of the store. */
static void slots(void)
{
    uint8_t fields[SILJUVATT_EXTENDED_FIELDS] = {1, 5, 0, 0, 2};
    const uint8_t single[] = {0x80, 0x45, 0x00, 0xC0, 0x10}; /* of source 5; byte 1 ends in the source */
    uint8_t image[sizeof single];
    uint32_t opened = 0;
    size_t start = 0;

    NEW_STATION(SILJUVATT_EXTENDED);
    REFUSED(siljuvatt_close(STATION, SILJUVATT_SLOTS - 1), SILJUVATT_REFUSAL_CLOSED);
    while (opened < 99 && !SILJUVATT_IS_REFUSED(siljuvatt_open(STATION, SILJUVATT_BUS_A, fields, sizeof fields))) {
        REFUSED(siljuvatt_open(STATION, SILJUVATT_BUS_A, fields, sizeof fields), SILJUVATT_REFUSAL_TAKEN);
        memcpy(image, single, sizeof image);
        image[1] = (uint8_t)(image[1] + opened);
        OF_KIND(RECEIVE(SILJUVATT_BUS_A, image, sizeof image), SILJUVATT_PACKET);
        SAME(siljuvatt_read(STATION, STORE, opened, &start), 0);
        SAME(start, opened * SILJUVATT_AREA_SIZE);
        opened++;
        fields[1]++;
    }
    SAME(opened, SILJUVATT_SLOTS);
    SAME(opened * SILJUVATT_AREA_SIZE, SILJUVATT_STORE_SIZE);
    REFUSED(siljuvatt_open(STATION, SILJUVATT_BUS_A, fields, sizeof fields), SILJUVATT_REFUSAL_FULL);
    REFUSED(siljuvatt_close(STATION, SILJUVATT_SLOTS), SILJUVATT_REFUSAL_CLOSED);
    SAME(siljuvatt_close(STATION, SILJUVATT_SLOTS - 1), SILJUVATT_SLOTS - 1);
}

/* The largest packet of a format, as it is split, into slot 0. */
static void largest(uint8_t format, const uint8_t *fields, size_t count, size_t size)
{
    uint8_t image[64];
    uint32_t answer = 0;

    NEW_STATION(format);
    SAME(siljuvatt_open(STATION, SILJUVATT_BUS_B, fields, count), 0);
    for (uint32_t k = 0; k < 256; k++) {
        uint32_t length = WRITE(format, fields, count, size, k, image, sizeof image);
        OF_KIND(RECEIVE(SILJUVATT_BUS_A, image, length), SILJUVATT_FILTERED);
        answer = RECEIVE(SILJUVATT_BUS_B, image, length);
        OF_KIND(answer, k < 255 ? SILJUVATT_KEPT : SILJUVATT_PACKET);
        SAME(SILJUVATT_BROKE(answer), 0);
    }
    SAME(SILJUVATT_NUMBER(answer), size);
}

/* An image of the longest length is received, and none that is longer. */
static void receiving(void)
{
    const uint8_t start[] = {0x88, 0x45, 0x00, 0x40, 0x10, 1, 2, 3, 4, 5, 6, 7, 8, 0};
    const uint8_t standard_start[] = {0x96, 0xA8, 0, 1, 2, 3, 4, 5, 6, 7, 0};
    const uint8_t bus = SILJUVATT_BUS_A;
    uint32_t answer;

    NEW_STATION(SILJUVATT_STANDARD);
    SAME(siljuvatt_open(STATION, bus, standard, SILJUVATT_STANDARD_FIELDS), 0);
    OF_KIND(RECEIVE(bus, standard_start, SILJUVATT_STANDARD_IMAGE), SILJUVATT_KEPT);
    REFUSED(RECEIVE(bus, standard_start, SILJUVATT_STANDARD_IMAGE + 1), SILJUVATT_REFUSAL_LENGTH);

    NEW_STATION(SILJUVATT_EXTENDED);
    SAME(siljuvatt_open(STATION, bus, extended, SILJUVATT_EXTENDED_FIELDS), 0);
    answer = RECEIVE(bus, start, SILJUVATT_EXTENDED_IMAGE);
    OF_KIND(answer, SILJUVATT_KEPT);
    SAME(SILJUVATT_BROKE(answer), 0);
    answer = RECEIVE(bus, start, SILJUVATT_EXTENDED_IMAGE);
    OF_KIND(answer, SILJUVATT_KEPT);
    SAME(SILJUVATT_BROKE(answer), 1);
    REFUSED(RECEIVE(bus, start, SILJUVATT_EXTENDED_IMAGE + 1), SILJUVATT_REFUSAL_LENGTH);
}

/* On the stream that is collecting after receiving(). */
static void refused_images(void)
{
    const uint8_t form[] = {0x91, 0x45, 0x00, 0xC0, 0x10, 7};
    const uint8_t remote[] = {0xC1, 0x45, 0x00, 0xC0, 0x10, 7};
    const uint8_t count[] = {0x82, 0x45, 0x00, 0xC0, 0x10, 7};
    const uint8_t surplus[] = {0x80, 0x45, 0x00, 0xC0, 0x10, 7};
    const uint8_t numbered_single[] = {0x81, 0x45, 0x00, 0xC1, 0x10, 7};
    const uint8_t end_2[] = {0x81, 0x45, 0x00, 0x82, 0x10, 9};
    const uint8_t bus = SILJUVATT_BUS_A;

    REFUSED(RECEIVE(bus, form, sizeof form), SILJUVATT_REFUSAL_FORM);
    REFUSED(RECEIVE(bus, remote, sizeof remote), SILJUVATT_REFUSAL_REMOTE);
    REFUSED(RECEIVE(bus, count, sizeof count), SILJUVATT_REFUSAL_COUNT);
    REFUSED(RECEIVE(bus, surplus, sizeof surplus), SILJUVATT_REFUSAL_SURPLUS);
    REFUSED(RECEIVE(bus, numbered_single, sizeof numbered_single), SILJUVATT_REFUSAL_PIECE);
    REFUSED(RECEIVE(bus, end_2, sizeof end_2), SILJUVATT_REFUSAL_STEP);
    REFUSED(RECEIVE(bus, end_2, sizeof end_2), SILJUVATT_REFUSAL_ORPHAN);
}

/* The area is full with the last piece made a middle: one more byte is too many. */
static void too_long(void)
{
    const uint8_t end[] = {0x81, 0x45, 0x00, 0x80, 0x10, 9};
    const uint8_t bus = SILJUVATT_BUS_A;
    uint8_t image[SILJUVATT_EXTENDED_IMAGE];

    NEW_STATION(SILJUVATT_EXTENDED);
    SAME(siljuvatt_open(STATION, bus, extended, SILJUVATT_EXTENDED_FIELDS), 0);
    for (uint32_t k = 0; k < 256; k++) {
        uint32_t length = WRITE(SILJUVATT_EXTENDED, extended, 5, SILJUVATT_AREA_SIZE, k, image, sizeof image);
        image[3] &= k < 255 ? 0xFF : 0x3F;
        OF_KIND(RECEIVE(bus, image, length), SILJUVATT_KEPT);
    }
    REFUSED(RECEIVE(bus, end, sizeof end), SILJUVATT_REFUSAL_LONG);
}

/* ---- Filters ---- */

/* How many bytes from a row's first on a call looks at: a row of zeros accepts 0 alone, and each byte widens that. */
static void row_size(void)
{
    siljuvatt_row rows[2];
    uint8_t *bytes = (uint8_t *)rows;
    uint32_t looked_at = 0;

    for (size_t i = 0; i < sizeof rows; i++) {
        memset(rows, 0, sizeof rows);
        bytes[i] = 1;
        if (siljuvatt_row_accepts(rows, 0x0001) || siljuvatt_row_accepts(rows, 0x0100)) {
            looked_at++;
        }
    }
    SAME(looked_at, SILJUVATT_ROW_SIZE);
    SAME(sizeof(siljuvatt_row), SILJUVATT_ROW_SIZE);
    SAME(sizeof rows[0].bytes, SILJUVATT_ROW_SIZE);
    SAME(rows[1].bytes - bytes, SILJUVATT_ROW_SIZE);
}

/* Of any pointer, with bytes that a char may hold as negative numbers, and with one evaluation. */
static void id_of_any_pointer(void)
{
    unsigned char image[] = {0x88, 0xC5, 0x81, 0x40, 0x90};
    char *chars = (char *)image;
    const signed char *signed_chars = (const signed char *)image;
    void *anything = image;
    int calls = 0;

    SAME(SILJUVATT_ID(image), 0xC581);
    SAME(SILJUVATT_ID(chars), 0xC581);
    SAME(SILJUVATT_ID(signed_chars), 0xC581);
    SAME(SILJUVATT_ID(anything), 0xC581);
    SAME(SILJUVATT_ID(image + 1), 0x8140);
    SAME(SILJUVATT_ID(chars++), 0xC581);
    SAME(chars - (char *)image, 1);
    SAME(SILJUVATT_ID((calls++, image)), 0xC581);
    SAME(calls, 1);
    SAME(sizeof siljuvatt_id_of(image), sizeof(uint16_t));
    SAME(sizeof SILJUVATT_ID(image), sizeof(uint16_t));
}

/* ---- A master ---- */

static uint8_t master[SILJUVATT_MASTER_SIZE + 1];
#define MASTER master, SILJUVATT_MASTER_SIZE

static void master_size(void)
{
    uint8_t *layout = &master[SILJUVATT_MASTER_SIZE - 1];

    REFUSED(siljuvatt_master_new(master, SILJUVATT_MASTER_SIZE - 1), SILJUVATT_REFUSAL_STATE);
    REFUSED(siljuvatt_master_new(master, SILJUVATT_MASTER_SIZE + 1), SILJUVATT_REFUSAL_STATE);
    SAME(siljuvatt_master_new(MASTER), 0);
    SAME(*layout, SILJUVATT_MASTER_LAYOUT);
    for (unsigned number = 0; number < 256; number++) {
        if (number == SILJUVATT_MASTER_LAYOUT) {
            continue;
        }
        *layout = (uint8_t)number;
        REFUSED(siljuvatt_master_start(MASTER, SILJUVATT_POLL, 22), SILJUVATT_REFUSAL_STATE);
        REFUSED(siljuvatt_master_reply(MASTER, SILJUVATT_BUS_A, 22, 2), SILJUVATT_REFUSAL_STATE);
        REFUSED(siljuvatt_master_timeout(MASTER), SILJUVATT_REFUSAL_STATE);
    }
}

/* How often an exchange that nobody answers is sent, a digit for each, and where: 1 for bus A, 2 for bus B. */
static uint32_t sends(uint8_t kind)
{
    uint32_t digits = 0, answer;

    SAME(siljuvatt_master_new(MASTER), 0);
    for (answer = siljuvatt_master_start(MASTER, kind, 22); digits < 9999 && SILJUVATT_KIND(answer) == SILJUVATT_SEND;
         answer = siljuvatt_master_timeout(MASTER)) {
        SAME(SILJUVATT_IS_REFUSED(answer), false);
        REFUSED(siljuvatt_master_start(MASTER, kind, 22), SILJUVATT_REFUSAL_BUSY);
        digits = 10 * digits + (SILJUVATT_NUMBER(answer) == SILJUVATT_BUS_A ? 1 : 2);
    }
    OF_KIND(answer, SILJUVATT_GAVE_UP);
    REFUSED(siljuvatt_master_timeout(MASTER), SILJUVATT_REFUSAL_IDLE);
    return digits;
}

/* The exchange is answered by that function, and by no other. */
static void answered_by(uint8_t kind, uint8_t function)
{
    SAME(siljuvatt_master_new(MASTER), 0);
    OF_KIND(siljuvatt_master_start(MASTER, kind, 22), SILJUVATT_SEND);
    for (uint8_t other = 0; other < 32; other++) {
        if (other != function) {
            REFUSED(siljuvatt_master_reply(MASTER, SILJUVATT_BUS_A, 22, other), SILJUVATT_REFUSAL_NOTAWAITED);
        }
    }
    REFUSED(siljuvatt_master_reply(MASTER, SILJUVATT_BUS_B, 22, function), SILJUVATT_REFUSAL_NOTAWAITED);
    OF_KIND(siljuvatt_master_reply(MASTER, SILJUVATT_BUS_A, 22, function), SILJUVATT_DONE);
}

static void exchanges(void)
{
    SAME(sends(SILJUVATT_POLL), 1);
    SAME(sends(SILJUVATT_DATA_BLOCK), 11);
    SAME(sends(SILJUVATT_COMMAND), 112);
    answered_by(SILJUVATT_POLL, 2);
    answered_by(SILJUVATT_DATA_BLOCK, 4);
    answered_by(SILJUVATT_COMMAND, 4);
    SAME(siljuvatt_master_new(MASTER), 0);
    SAME(SILJUVATT_NUMBER(siljuvatt_master_start(MASTER, SILJUVATT_COMMAND, 22)), SILJUVATT_BUS_A);
    SAME(SILJUVATT_NUMBER(siljuvatt_master_timeout(MASTER)), SILJUVATT_BUS_A);
    SAME(SILJUVATT_NUMBER(siljuvatt_master_timeout(MASTER)), SILJUVATT_BUS_B);
    SAME(is_kind(SILJUVATT_POLL) && !is_kind(0), true);
}

/* ---- A watch ---- */

static uint8_t watch[SILJUVATT_WATCH_SIZE + 1];
#define WATCH watch, SILJUVATT_WATCH_SIZE

static void watch_size(void)
{
    uint8_t *layout = &watch[SILJUVATT_WATCH_SIZE - 1];

    REFUSED(siljuvatt_watch_new(watch, SILJUVATT_WATCH_SIZE - 1, 0), SILJUVATT_REFUSAL_STATE);
    REFUSED(siljuvatt_watch_new(watch, SILJUVATT_WATCH_SIZE + 1, 0), SILJUVATT_REFUSAL_STATE);
    SAME(siljuvatt_watch_new(WATCH, 0), 0);
    SAME(*layout, SILJUVATT_WATCH_LAYOUT);
    for (unsigned number = 0; number < 256; number++) {
        if (number == SILJUVATT_WATCH_LAYOUT) {
            continue;
        }
        *layout = (uint8_t)number;
        REFUSED(siljuvatt_watch_heard(WATCH, SILJUVATT_BUS_A, 0), SILJUVATT_REFUSAL_STATE);
        REFUSED(siljuvatt_watch_check(WATCH, SILJUVATT_SILENCE), SILJUVATT_REFUSAL_STATE);
    }
}

/* The bus that is heard is not to be reset, and the other is. */
static void silence(void)
{
    uint32_t answer;

    SAME(siljuvatt_watch_new(WATCH, 0), 0);
    SAME(siljuvatt_watch_check(WATCH, SILJUVATT_SILENCE - 1), 0);
    SAME(siljuvatt_watch_heard(WATCH, SILJUVATT_BUS_B, 1), SILJUVATT_BUS_B);
    answer = siljuvatt_watch_check(WATCH, SILJUVATT_SILENCE);
    OF_KIND(answer, 0);
    SAME(SILJUVATT_RESET_A(answer), 1);
    SAME(SILJUVATT_RESET_B(answer), 0);
    answer = siljuvatt_watch_check(WATCH, SILJUVATT_SILENCE + 1);
    OF_KIND(answer, 0);
    SAME(SILJUVATT_RESET_A(answer), 0);
    SAME(SILJUVATT_RESET_B(answer), 1);
    SAME(siljuvatt_watch_heard(WATCH, SILJUVATT_BUS_A, 9), SILJUVATT_BUS_A);
    answer = siljuvatt_watch_check(watch, 7, 0);
    REFUSED(answer, SILJUVATT_REFUSAL_STATE);
    SAME(SILJUVATT_RESET_A(answer) + SILJUVATT_RESET_B(answer), 0);
}

/* ---- Names and texts ---- */

/* Every refusal of the list was given by a call; its name and text are told of the number and of the answer. */
#define TOLD(name, number, text) \
    SAME(provoked[SILJUVATT_REFUSAL_##name], true); \
    SAME_TEXT(siljuvatt_refusal_name(number), #name); \
    SAME_TEXT(siljuvatt_refusal_name(UINT32_C(0x80000000) + (number)), #name); \
    SAME_TEXT(siljuvatt_refusal_text(number), text); \
    SAME_TEXT(siljuvatt_refusal_text(UINT32_C(0x80000000) + (number)), text);

static void names(void)
{
    const uint32_t packet_of_7 = UINT32_C(0x40007);

    SILJUVATT_REFUSALS(TOLD)
    /* What no call gave has no name: the numbers have gaps. */
    for (uint32_t number = 0; number < 256; number++) {
        if (!provoked[number]) {
            SAME_TEXT(siljuvatt_refusal_name(number), "UNKNOWN");
            SAME_TEXT(siljuvatt_refusal_text(number), "no refusal of this release");
        }
    }
    SAME_TEXT(siljuvatt_refusal_name(UINT32_C(0x8000FFFF)), "UNKNOWN");
    SAME_TEXT(siljuvatt_refusal_name(packet_of_7), "UNKNOWN");
    SAME_TEXT(siljuvatt_refusal_text(packet_of_7), "no refusal of this release");
}

/* ---- A release with another number: what SILJUVATT_VERSION makes of its three parts ---- */

#undef SILJUVATT_VERSION_MAJOR
#undef SILJUVATT_VERSION_MINOR
#undef SILJUVATT_VERSION_PATCH
#define SILJUVATT_VERSION_MAJOR 3
#define SILJUVATT_VERSION_MINOR 4
#define SILJUVATT_VERSION_PATCH 5

static void other_version(void)
{
    SAME(SILJUVATT_VERSION, 0x030405);
    SAME(-SILJUVATT_VERSION, -0x030405);
}

int main(void)
{
    version();
    other_version();
    answers();
    expressions();
    splitting_extended();
    splitting_standard();
    station_sizes();
    station_layout();
    slots();
    largest(SILJUVATT_EXTENDED, extended, SILJUVATT_EXTENDED_FIELDS, SILJUVATT_EXTENDED_LIMIT);
    largest(SILJUVATT_STANDARD, standard, SILJUVATT_STANDARD_FIELDS, SILJUVATT_STANDARD_LIMIT);
    receiving();
    refused_images();
    too_long();
    row_size();
    id_of_any_pointer();
    master_size();
    exchanges();
    watch_size();
    silence();
    names();
    printf("%d checks, %d failed\n", checks, failures);
    return failures != 0;
}
