/*
 * The tallies, by request L5 of document 02, in both formats: each answer and each refusal of an image raises its own
 * by one and no other, none rises past 2^64 - 1, and one that stands there lets no image in. Also a station of the
 * layout before, carried over as the header says. Prints each check that fails and ends with 1 if one does.
 */
#include "siljuvatt.h"

#include <stdio.h>
#include <string.h>

static int failures;
static int checks;

static void same(uint64_t answer, uint64_t expected, const char *call, int line)
{
    checks++;
    if (answer != expected) {
        failures++;
        printf("line %d: %s is %llx and not %llx\n", line, call, (unsigned long long)answer,
               (unsigned long long)expected);
    }
}

#define SAME(call, expected) same((call), (expected), #call, __LINE__)
#define REFUSED(call, number) SAME(call, UINT32_C(0x80000000) + (number))

/* Where a station has what, as the header's last part says. */
enum { PROGRESS_AT = 4, FORMAT_AT = 128, LAYOUT_AT = 129, TALLIES_AT = 130 };

#define LARGEST UINT64_MAX
#define IDLE UINT32_C(65536)
#define COLLECTING(h) (UINT32_C(131072) + (h))

static uint8_t station[SILJUVATT_STATION_SIZE];
static uint8_t store[SILJUVATT_STORE_SIZE];
static uint8_t station_before[sizeof station], store_before[sizeof store];

#define STATION station, sizeof station
#define STORE store, sizeof store
#define RECEIVE(bus, image, length) siljuvatt_receive(STATION, STORE, bus, image, length)

struct format {
    uint8_t number;
    size_t fields_length;
    uint8_t fields[SILJUVATT_EXTENDED_FIELDS];
};

static const struct format extended = {SILJUVATT_EXTENDED, SILJUVATT_EXTENDED_FIELDS, {1, 5, 0, 0, 2}};
static const struct format standard = {SILJUVATT_STANDARD, SILJUVATT_STANDARD_FIELDS, {2, 22, 1}};

/* An image on bus A, how far its stream is before it, and the tally of what it is answered. */
struct judged {
    const struct format *format;
    size_t tally;
    uint32_t progress;
    size_t length;
    uint8_t image[SILJUVATT_EXTENDED_IMAGE];
};

#define DATA 1, 2, 3, 4, 5, 6, 7, 8

/* In standard no bits are fixed, and a sound stream never passes 2,048 bytes: 2 and 8 do not come about. */
static const struct judged judged[] = {
    {&extended, SILJUVATT_TALLY_PACKET, IDLE, 6, {0x81, 0x45, 0x00, 0xC0, 0x10, 7}},
    {&extended, SILJUVATT_TALLY_PACKET, COLLECTING(8), 6, {0x81, 0x45, 0x00, 0x81, 0x10, 9}},
    {&extended, SILJUVATT_TALLY_PACKET_BROKE, COLLECTING(8), 6, {0x81, 0x45, 0x00, 0xC0, 0x10, 7}},
    {&extended, SILJUVATT_TALLY_KEPT, IDLE, 13, {0x88, 0x45, 0x00, 0x40, 0x10, DATA}},
    {&extended, SILJUVATT_TALLY_KEPT, COLLECTING(8), 13, {0x88, 0x45, 0x00, 0x01, 0x10, DATA}},
    {&extended, SILJUVATT_TALLY_KEPT_BROKE, COLLECTING(8), 13, {0x88, 0x45, 0x00, 0x40, 0x10, DATA}},
    {&extended, SILJUVATT_TALLY_FILTERED, IDLE, 6, {0x81, 0x46, 0x00, 0xC0, 0x10, 7}},
    {&extended, SILJUVATT_TALLY_REFUSED_1, IDLE, 4, {0x81, 0x45, 0x00, 0xC0}},
    {&extended, SILJUVATT_TALLY_REFUSED_2, IDLE, 6, {0x91, 0x45, 0x00, 0xC0, 0x10, 7}},
    {&extended, SILJUVATT_TALLY_REFUSED_3, IDLE, 6, {0xC1, 0x45, 0x00, 0xC0, 0x10, 7}},
    {&extended, SILJUVATT_TALLY_REFUSED_4, IDLE, 6, {0x82, 0x45, 0x00, 0xC0, 0x10, 7}},
    {&extended, SILJUVATT_TALLY_REFUSED_5, IDLE, 6, {0x81, 0x45, 0x00, 0xC1, 0x10, 7}},
    {&extended, SILJUVATT_TALLY_REFUSED_6, IDLE, 6, {0x81, 0x45, 0x00, 0x81, 0x10, 9}},
    {&extended, SILJUVATT_TALLY_REFUSED_7, COLLECTING(8), 6, {0x81, 0x45, 0x00, 0x82, 0x10, 9}},
    {&extended, SILJUVATT_TALLY_REFUSED_8, COLLECTING(2048), 6, {0x81, 0x45, 0x00, 0x80, 0x10, 9}},
    {&extended, SILJUVATT_TALLY_REFUSED_25, IDLE, 6, {0x80, 0x45, 0x00, 0xC0, 0x10, 7}},
    {&standard, SILJUVATT_TALLY_PACKET, IDLE, 3, {0x96, 0xE1, 7}},
    {&standard, SILJUVATT_TALLY_PACKET, COLLECTING(7), 5, {0x96, 0xC3, 1, 8, 9}},
    {&standard, SILJUVATT_TALLY_PACKET_BROKE, COLLECTING(7), 3, {0x96, 0xE1, 7}},
    {&standard, SILJUVATT_TALLY_KEPT, IDLE, 10, {0x96, 0xA8, 0, 1, 2, 3, 4, 5, 6, 7}},
    {&standard, SILJUVATT_TALLY_KEPT, COLLECTING(7), 10, {0x96, 0x88, 1, 1, 2, 3, 4, 5, 6, 7}},
    {&standard, SILJUVATT_TALLY_KEPT_BROKE, COLLECTING(7), 10, {0x96, 0xA8, 0, 1, 2, 3, 4, 5, 6, 7}},
    {&standard, SILJUVATT_TALLY_FILTERED, IDLE, 3, {0x97, 0xE1, 7}},
    {&standard, SILJUVATT_TALLY_REFUSED_1, IDLE, 1, {0x96}},
    {&standard, SILJUVATT_TALLY_REFUSED_3, IDLE, 3, {0x96, 0xF1, 7}},
    {&standard, SILJUVATT_TALLY_REFUSED_4, IDLE, 3, {0x96, 0xE2, 7}},
    {&standard, SILJUVATT_TALLY_REFUSED_5, IDLE, 4, {0x96, 0xC2, 1, 8}},
    {&standard, SILJUVATT_TALLY_REFUSED_6, IDLE, 5, {0x96, 0xC3, 1, 8, 9}},
    {&standard, SILJUVATT_TALLY_REFUSED_7, COLLECTING(7), 4, {0x96, 0xC2, 2, 8}},
    {&standard, SILJUVATT_TALLY_REFUSED_25, IDLE, 3, {0x96, 0xE0, 7}},
};

enum { JUDGED = sizeof judged / sizeof judged[0] };

/* Writes a number low byte first. */
static void put(uint8_t *bytes, size_t size, uint64_t number)
{
    for (size_t i = 0; i < size; i++) {
        bytes[i] = (uint8_t)(number >> (8 * i));
    }
}

static void set_tally(size_t index, uint64_t number)
{
    put(station + TALLIES_AT + 8 * index, 8, number);
}

static uint64_t tally(size_t index)
{
    uint64_t value = 99;

    SAME(siljuvatt_tally(STATION, index, &value), 0);
    return value;
}

/* A station with the stream of an image, as far as it says. */
static void begin(const struct judged *one)
{
    memset(store, 0xEE, sizeof store);
    SAME(siljuvatt_station_new(STATION, one->format->number), 0);
    SAME(siljuvatt_open(STATION, SILJUVATT_BUS_A, one->format->fields, one->format->fields_length), 0);
    put(station + PROGRESS_AT, 4, one->progress);
}

static void remember(void)
{
    memcpy(station_before, station, sizeof station);
    memcpy(store_before, store, sizeof store);
}

/* Nothing has changed since remember(). */
static void unchanged(void)
{
    SAME((uint64_t)memcmp(station, station_before, sizeof station), 0);
    SAME((uint64_t)memcmp(store, store_before, sizeof store), 0);
}

/* The number of the refusal that a tally counts, or 0. */
static uint32_t refusal_of(size_t tally)
{
    if (tally == SILJUVATT_TALLY_REFUSED_25) {
        return 25;
    }
    return tally >= SILJUVATT_TALLY_REFUSED_1 ? (uint32_t)(tally - SILJUVATT_TALLY_REFUSED_1 + 1) : 0;
}

/* The kind of the answers that a tally counts, with the bit of "broke"; 0 if it counts a refusal. */
static uint32_t kind_of(size_t tally)
{
    const uint32_t broke = UINT32_C(1) << 24;

    switch (tally) {
    case SILJUVATT_TALLY_PACKET: return SILJUVATT_PACKET << 16;
    case SILJUVATT_TALLY_PACKET_BROKE: return SILJUVATT_PACKET << 16 | broke;
    case SILJUVATT_TALLY_KEPT: return SILJUVATT_KEPT << 16;
    case SILJUVATT_TALLY_KEPT_BROKE: return SILJUVATT_KEPT << 16 | broke;
    case SILJUVATT_TALLY_FILTERED: return SILJUVATT_FILTERED << 16;
    default: return 0;
    }
}

/* The image is answered as the tally says that it counts. */
static void answered(const struct judged *one)
{
    uint32_t answer = RECEIVE(SILJUVATT_BUS_A, one->image, one->length);

    if (kind_of(one->tally) == 0) {
        REFUSED(answer, refusal_of(one->tally));
    } else {
        SAME(answer & UINT32_C(0xFFFF0000), kind_of(one->tally));
    }
}

/* Every tally has a number of its own before the image, and after it only that of its answer is one more. */
static void raises_its_own(const struct judged *one)
{
    begin(one);
    for (size_t i = 0; i < SILJUVATT_TALLIES; i++) {
        SAME(tally(i), 0);
        set_tally(i, UINT64_C(0x0123456789ABCDFF) + (i << 40));
    }
    answered(one);
    for (size_t i = 0; i < SILJUVATT_TALLIES; i++) {
        SAME(tally(i), UINT64_C(0x0123456789ABCDFF) + (i << 40) + (i == one->tally));
    }
}

/* The carry goes through all eight bytes, and no further. */
static void carries(const struct judged *one)
{
    for (unsigned bits = 8; bits < 64; bits += 8) {
        begin(one);
        set_tally(one->tally, (UINT64_C(1) << bits) - 1);
        answered(one);
        SAME(tally(one->tally), UINT64_C(1) << bits);
        SAME(tally((one->tally + 1) % SILJUVATT_TALLIES), 0);
    }
}

/* No image is let in: whatever it would raise, and however often it comes. */
static void lets_nothing_in(const struct judged *one)
{
    remember();
    REFUSED(RECEIVE(SILJUVATT_BUS_A, one->image, one->length), SILJUVATT_REFUSAL_TALLY);
    REFUSED(RECEIVE(SILJUVATT_BUS_B, one->image, one->length), SILJUVATT_REFUSAL_TALLY);
    REFUSED(RECEIVE(SILJUVATT_BUS_A, NULL, 0), SILJUVATT_REFUSAL_TALLY);
    unchanged();
}

/* Up to 2^64 - 1, and no further; while a tally is one below that, every image is received. */
static void stops_at_the_largest(const struct judged *one)
{
    for (size_t full = 0; full < SILJUVATT_TALLIES; full++) {
        begin(one);
        set_tally(full, LARGEST - 1);
        answered(one);
        SAME(tally(full), LARGEST - 1 + (full == one->tally));
        SAME(tally(one->tally), full == one->tally ? LARGEST : 1);

        begin(one);
        set_tally(full, LARGEST);
        lets_nothing_in(one);
    }
    begin(one);
    set_tally(one->tally, LARGEST - 1);
    answered(one);
    lets_nothing_in(one);
}

/* 21, 13 and 9 come before 26, 26 before 1, and none of them raises a tally or stores anything. */
static void order(const struct format *format)
{
    begin(&(struct judged){format, 0, IDLE, 0, {0}});
    set_tally(SILJUVATT_TALLY_REFUSED_1, LARGEST);
    remember();
    REFUSED(siljuvatt_receive(STATION, store, sizeof store - 1, 2, NULL, 0), SILJUVATT_REFUSAL_STORE);
    REFUSED(RECEIVE(2, NULL, 0), SILJUVATT_REFUSAL_FIELD);
    REFUSED(RECEIVE(1, NULL, 0), SILJUVATT_REFUSAL_TALLY);
    unchanged();
    station[FORMAT_AT] = 2;
    remember();
    REFUSED(siljuvatt_receive(STATION, store, sizeof store - 1, 2, NULL, 0), SILJUVATT_REFUSAL_STATE);
    unchanged();

    begin(&(struct judged){format, 0, IDLE, 0, {0}});
    remember();
    REFUSED(siljuvatt_receive(STATION, store, sizeof store - 1, 2, NULL, 0), SILJUVATT_REFUSAL_STORE);
    REFUSED(RECEIVE(2, NULL, 0), SILJUVATT_REFUSAL_FIELD);
    unchanged();
}

/* Opening, closing, reading and the tallies themselves look at no tally, and move none. */
static void other_calls(const struct judged *single, uint64_t number)
{
    const struct format *format = single->format;
    size_t start = 9;

    begin(single);
    answered(single);
    for (size_t i = 0; i < SILJUVATT_TALLIES; i++) {
        set_tally(i, number - i % 2);
    }
    SAME(siljuvatt_open(STATION, SILJUVATT_BUS_B, format->fields, format->fields_length), 1);
    REFUSED(siljuvatt_open(STATION, SILJUVATT_BUS_B, format->fields, format->fields_length), SILJUVATT_REFUSAL_TAKEN);
    SAME(siljuvatt_read(STATION, STORE, 0, &start), 1);
    REFUSED(siljuvatt_read(STATION, STORE, 1, &start), SILJUVATT_REFUSAL_NOPACKET);
    SAME(siljuvatt_close(STATION, 1), 1);
    REFUSED(siljuvatt_close(STATION, 1), SILJUVATT_REFUSAL_CLOSED);
    for (size_t i = 0; i < SILJUVATT_TALLIES; i++) {
        SAME(tally(i), number - i % 2);
    }
}

/* STATE before INDEX; the number lent stays as it was. */
static void refused_tallies(void)
{
    uint64_t value = 7;

    SAME(siljuvatt_station_new(STATION, SILJUVATT_STANDARD), 0);
    REFUSED(siljuvatt_tally(STATION, SILJUVATT_TALLIES, &value), SILJUVATT_REFUSAL_INDEX);
    REFUSED(siljuvatt_tally(STATION, 256, &value), SILJUVATT_REFUSAL_INDEX);
    REFUSED(siljuvatt_tally(STATION, SIZE_MAX, &value), SILJUVATT_REFUSAL_INDEX);
    REFUSED(siljuvatt_tally(NULL, 0, 0, &value), SILJUVATT_REFUSAL_STATE);
    REFUSED(siljuvatt_tally(station, sizeof station - 1, 0, &value), SILJUVATT_REFUSAL_STATE);
    station[FORMAT_AT] = 2;
    REFUSED(siljuvatt_tally(STATION, 0, &value), SILJUVATT_REFUSAL_STATE);
    REFUSED(siljuvatt_tally(STATION, SILJUVATT_TALLIES, &value), SILJUVATT_REFUSAL_STATE);
    SAME(value, 7);
}

/* A station of layout 1 that collects, made as the header describes it, is refused; carried over it goes on. */
static void carried_over(void)
{
    static const uint8_t record[] = {0x09, 0x05, 0x00, 0x00, 0x08, 0x00, 0x02, 0x00}; /* of the key of `extended` */
    const uint8_t end[] = {0x81, 0x45, 0x00, 0x81, 0x10, '9'};
    uint8_t old[TALLIES_AT] = {0};
    size_t start = 9;

    memcpy(old, record, sizeof record);
    old[FORMAT_AT] = SILJUVATT_EXTENDED;
    old[LAYOUT_AT] = 1;
    memcpy(store, "00412701", 8);
    REFUSED(siljuvatt_receive(old, sizeof old, STORE, 0, end, sizeof end), SILJUVATT_REFUSAL_STATE);
    memset(station, 0, sizeof station);
    memcpy(station, old, sizeof old);
    REFUSED(RECEIVE(0, end, sizeof end), SILJUVATT_REFUSAL_STATE);

    station[LAYOUT_AT] = SILJUVATT_STATION_LAYOUT;
    SAME(RECEIVE(0, end, sizeof end), (SILJUVATT_PACKET << 16) + 9);
    SAME(siljuvatt_read(STATION, STORE, 0, &start), 9);
    SAME((uint64_t)memcmp(store + start, "004127019", 9), 0);
    SAME(tally(SILJUVATT_TALLY_PACKET), 1);
}

int main(void)
{
    for (size_t i = 0; i < JUDGED; i++) {
        raises_its_own(&judged[i]);
        carries(&judged[i]);
        stops_at_the_largest(&judged[i]);
        if (judged[i].tally == SILJUVATT_TALLY_PACKET && judged[i].progress == IDLE) {
            other_calls(&judged[i], LARGEST);
            other_calls(&judged[i], 7);
        }
    }
    order(&extended);
    order(&standard);
    refused_tallies();
    carried_over();
    printf("%d checks, %d failed\n", checks, failures);
    return failures == 0 ? 0 : 1;
}
