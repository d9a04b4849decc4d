/*
 * What the example does not show: no bytes at all (NULL, 0) wherever the header allows them, lengths that are none,
 * filters, the order of refusals, the bytes of states, counts of 9 to 15, and images too short or too long for their
 * count. Prints each check that fails and ends with 1 if one does.
 */
#include "siljuvatt.h"

#include <stdio.h>
#include <string.h>

static int failures;
static int checks;

static void same(uint32_t answer, uint32_t expected, const char *call, int line)
{
    checks++;
    if (answer != expected) {
        failures++;
        printf("line %d: %s is %08x and not %08x\n", line, call, (unsigned)answer, (unsigned)expected);
    }
}

#define SAME(call, expected) same((call), (expected), #call, __LINE__)
#define REFUSED(call, number) SAME(call, UINT32_C(0x80000000) + (number))

static const uint8_t fields[SILJUVATT_EXTENDED_FIELDS] = {1, 5, 0, 0, 2};
static const uint8_t out_of_range[SILJUVATT_EXTENDED_FIELDS] = {4, 5, 0, 0, 2};
static const uint8_t image[] = {0x81, 0x45, 0x00, 0xC0, 0x10, 0x07};
static uint8_t station[SILJUVATT_STATION_SIZE];
static uint8_t store[SILJUVATT_STORE_SIZE];

/* An empty packet is one single piece of five bytes, and needs no pointer. */
static void splitting_of_nothing(void)
{
    uint8_t output[] = {1, 2, 3, 4, 5, 6};
    const uint8_t expected[] = {0x80, 0x45, 0x00, 0xC0, 0x10, 6};

    SAME(siljuvatt_piece_count(SILJUVATT_EXTENDED, 0), 1);
    SAME(siljuvatt_write_piece(0, fields, sizeof fields, NULL, 0, 0, output, sizeof output), 5);
    SAME((uint32_t)memcmp(output, expected, sizeof expected), 0);
    REFUSED(siljuvatt_write_piece(0, NULL, 0, NULL, 0, 0, output, sizeof output), SILJUVATT_REFUSAL_FIELD);
    REFUSED(siljuvatt_write_piece(0, fields, sizeof fields, NULL, 0, 1, NULL, 0), SILJUVATT_REFUSAL_INDEX);
    REFUSED(siljuvatt_write_piece(0, fields, sizeof fields, NULL, 0, 0, NULL, 0), SILJUVATT_REFUSAL_ROOM);
    REFUSED(siljuvatt_write_piece(0, NULL, 0, NULL, 0, 9, NULL, 0), SILJUVATT_REFUSAL_FIELD);
    SAME((uint32_t)memcmp(output, expected, sizeof expected), 0);
}

static void stations_of_nothing(void)
{
    size_t start = 7;

    REFUSED(siljuvatt_station_new(NULL, 0, SILJUVATT_EXTENDED), SILJUVATT_REFUSAL_STATE);
    REFUSED(siljuvatt_open(NULL, 0, 9, NULL, 0), SILJUVATT_REFUSAL_STATE);
    REFUSED(siljuvatt_close(NULL, 0, 0), SILJUVATT_REFUSAL_STATE);
    REFUSED(siljuvatt_receive(NULL, 0, NULL, 0, 9, NULL, 0), SILJUVATT_REFUSAL_STATE);
    REFUSED(siljuvatt_read(NULL, 0, NULL, 0, 0, &start), SILJUVATT_REFUSAL_STATE);

    SAME(siljuvatt_station_new(station, sizeof station, SILJUVATT_EXTENDED), 0);
    REFUSED(siljuvatt_open(station, sizeof station, 0, NULL, 0), SILJUVATT_REFUSAL_FIELD);
    REFUSED(siljuvatt_receive(station, sizeof station, NULL, 0, 9, NULL, 0), SILJUVATT_REFUSAL_STORE);
    REFUSED(siljuvatt_receive(station, sizeof station, store, sizeof store, 9, NULL, 0), SILJUVATT_REFUSAL_FIELD);
    REFUSED(siljuvatt_receive(station, sizeof station, store, sizeof store, 0, NULL, 0), SILJUVATT_REFUSAL_LENGTH);
    REFUSED(siljuvatt_read(station, sizeof station, NULL, 0, 16, &start), SILJUVATT_REFUSAL_STORE);
    SAME((uint32_t)start, 7);
}

static void others_of_nothing(void)
{
    REFUSED(siljuvatt_master_new(NULL, 0), SILJUVATT_REFUSAL_STATE);
    REFUSED(siljuvatt_master_start(NULL, 0, 0, 64), SILJUVATT_REFUSAL_STATE);
    REFUSED(siljuvatt_master_reply(NULL, 0, 2, 64, 32), SILJUVATT_REFUSAL_STATE);
    REFUSED(siljuvatt_master_timeout(NULL, 0), SILJUVATT_REFUSAL_STATE);
    REFUSED(siljuvatt_watch_new(NULL, 0, 0), SILJUVATT_REFUSAL_STATE);
    REFUSED(siljuvatt_watch_heard(NULL, 0, 2, 0), SILJUVATT_REFUSAL_STATE);
    REFUSED(siljuvatt_watch_check(NULL, 0, 0), SILJUVATT_REFUSAL_STATE);
}

/* A format or a kind that is none, and bytes of another length than their own. */
static void numbers_and_lengths(void)
{
    uint8_t longer[SILJUVATT_STATION_SIZE + 1] = {0};
    uint8_t output[SILJUVATT_EXTENDED_IMAGE];
    uint8_t master[SILJUVATT_MASTER_SIZE];
    uint8_t watch[SILJUVATT_WATCH_SIZE];

    REFUSED(siljuvatt_piece_count(2, 4000), SILJUVATT_REFUSAL_FIELD);
    REFUSED(siljuvatt_write_piece(2, fields, sizeof fields, NULL, 0, 9, output, 0), SILJUVATT_REFUSAL_FIELD);
    REFUSED(siljuvatt_write_piece(1, fields, sizeof fields, NULL, 0, 0, output, sizeof output),
            SILJUVATT_REFUSAL_FIELD);
    REFUSED(siljuvatt_station_new(longer, sizeof longer, 2), SILJUVATT_REFUSAL_STATE);
    REFUSED(siljuvatt_station_new(station, sizeof station, 2), SILJUVATT_REFUSAL_FIELD);

    SAME(siljuvatt_master_new(master, sizeof master), 0);
    REFUSED(siljuvatt_master_start(master, sizeof master, 0, 22), SILJUVATT_REFUSAL_FIELD);
    REFUSED(siljuvatt_master_start(master, sizeof master, 4, 22), SILJUVATT_REFUSAL_FIELD);
    REFUSED(siljuvatt_master_reply(master, sizeof master, 2, 22, 4), SILJUVATT_REFUSAL_FIELD);
    SAME(siljuvatt_watch_new(watch, sizeof watch, 0), 0);
    REFUSED(siljuvatt_watch_heard(watch, sizeof watch, 2, 0), SILJUVATT_REFUSAL_FIELD);
    REFUSED(siljuvatt_watch_check(watch, sizeof watch - 1, 0), SILJUVATT_REFUSAL_STATE);
}

/* Filters look at bytes 1 and 2 of an image. Code C0 with mask BF, low bytes, is groups 1 and 3. */
static void filters(void)
{
    const siljuvatt_row zeros = {{0}};
    const siljuvatt_row row = {{0x46, 0x00, 0x00, 0xFF, 0x00, 0xFF, 0xC0, 0xBF}};

    SAME(SILJUVATT_ID(image), 0x4500);
    SAME(siljuvatt_row_accepts(&zeros, 0), true);
    SAME(siljuvatt_row_accepts(&zeros, 1), false);
    for (uint16_t group = 0; group < 4; group++) {
        uint16_t id = (uint16_t)(0x4500 | group << 6);
        SAME(siljuvatt_filter_accepts(0x00C0, 0xFFBF, id), group % 2);
        SAME(siljuvatt_row_accepts(&row, id), group % 2);
    }
    SAME(siljuvatt_filter_accepts(0x4500, 0, 0x4500), true);
    SAME(siljuvatt_filter_accepts(0x4500, 0, 0xC500), false);
}

/* Bytes that are no sound station are refused first, whatever else is wrong; nothing is written. */
static void unsound_stations(void)
{
    const size_t format_at = SILJUVATT_STATION_SIZE - 2;
    uint8_t before[SILJUVATT_STATION_SIZE];
    size_t start = 7;

    SAME(siljuvatt_station_new(station, sizeof station, SILJUVATT_EXTENDED), 0);
    SAME(siljuvatt_open(station, sizeof station, 0, fields, sizeof fields), 0);
    station[format_at] = 2;
    memcpy(before, station, sizeof before);
    REFUSED(siljuvatt_open(station, sizeof station, 2, out_of_range, sizeof out_of_range), SILJUVATT_REFUSAL_STATE);
    REFUSED(siljuvatt_close(station, sizeof station, 99), SILJUVATT_REFUSAL_STATE);
    REFUSED(siljuvatt_receive(station, sizeof station, NULL, 0, 2, NULL, 0), SILJUVATT_REFUSAL_STATE);
    REFUSED(siljuvatt_read(station, sizeof station, NULL, 0, 99, &start), SILJUVATT_REFUSAL_STATE);
    SAME((uint32_t)memcmp(station, before, sizeof before), 0);

    station[format_at] = SILJUVATT_EXTENDED;
    SAME(siljuvatt_receive(station, sizeof station, store, sizeof store, 0, image, sizeof image), 0x40001);
    SAME(siljuvatt_read(station, sizeof station, store, sizeof store, 0, &start), 1);
    SAME((uint32_t)start, 0);
    REFUSED(siljuvatt_open(station, sizeof station, 0, out_of_range, sizeof out_of_range), SILJUVATT_REFUSAL_FIELD);
    REFUSED(siljuvatt_open(station, sizeof station, 2, fields, sizeof fields), SILJUVATT_REFUSAL_FIELD);
    REFUSED(siljuvatt_open(station, sizeof station, 0, fields, sizeof fields - 1), SILJUVATT_REFUSAL_FIELD);
    REFUSED(siljuvatt_open(station, sizeof station, 0, fields, sizeof fields), SILJUVATT_REFUSAL_TAKEN);
}

/* The bytes are those that the header's last part describes, the number of their layout last. */
static void bytes_as_described(void)
{
    const uint8_t standard[SILJUVATT_STANDARD_FIELDS] = {2, 22, 1};
    const uint8_t extended[SILJUVATT_EXTENDED_FIELDS] = {1, 5, 3, 63, 31};
    uint8_t master[SILJUVATT_MASTER_SIZE], watch[SILJUVATT_WATCH_SIZE];

    SAME(siljuvatt_station_new(station, sizeof station, SILJUVATT_STANDARD), 0);
    SAME(siljuvatt_open(station, sizeof station, 1, standard, sizeof standard), 0);
    SAME((uint32_t)memcmp(station, "\x82\x56\x01\x00\x00\x00\x01\x00", 8), 0);
    SAME((uint32_t)memcmp(station + 128, "\1\1", 2), 0);
    SAME(siljuvatt_station_new(station, sizeof station, SILJUVATT_EXTENDED), 0);
    SAME(siljuvatt_open(station, sizeof station, 1, extended, sizeof extended), 0);
    SAME((uint32_t)memcmp(station, "\xFD\x05\x03\x3F\x00\x00\x01\x00", 8), 0);
    SAME(siljuvatt_close(station, sizeof station, 0), 0);
    SAME((uint32_t)memcmp(station, "\0\0\0\0\0\0\0\0", 8), 0);

    SAME(siljuvatt_master_new(master, sizeof master), 0);
    SAME(siljuvatt_master_start(master, sizeof master, SILJUVATT_DATA_BLOCK, 7), 0x70000);
    SAME(siljuvatt_master_timeout(master, sizeof master), 0x70000);
    SAME((uint32_t)memcmp(master + 64, "\2\7\2\1", 4), 0);
    SAME(siljuvatt_watch_new(watch, sizeof watch, UINT32_C(0x04030201)), 0);
    SAME(siljuvatt_watch_heard(watch, sizeof watch, 1, UINT32_C(0x08070605)), 1);
    SAME((uint32_t)memcmp(watch, "\1\2\3\4\5\6\7\x08\1", 9), 0);
}

/* What an image of a format has where. */
struct format {
    uint8_t number;
    size_t header;    /* bytes before the data */
    size_t count_at;  /* the byte whose low half is the count .. */
    uint8_t rtr;      /* .. and that has this bit */
    size_t limit;
    size_t fields_length;
    uint8_t fields[SILJUVATT_EXTENDED_FIELDS];
};

static const struct format extended = {
    SILJUVATT_EXTENDED, 5, 0, 0x40, SILJUVATT_EXTENDED_LIMIT, SILJUVATT_EXTENDED_FIELDS, {1, 5, 0, 0, 2},
};
static const struct format standard = {
    SILJUVATT_STANDARD, 2, 1, 0x10, SILJUVATT_STANDARD_LIMIT, SILJUVATT_STANDARD_FIELDS, {2, 22, 1},
};

/* An image with eight data bytes and a count of 8, and its answer where the stream is idle, or has a start. */
struct filled {
    const struct format *format;
    bool after_start;
    uint32_t answer;
    uint8_t image[SILJUVATT_EXTENDED_IMAGE + 1]; /* and a ninth */
};

#define KIND(kind) ((uint32_t)(kind) << 16)
#define DATA 1, 2, 3, 4, 5, 6, 7, 8, 9

static const struct filled filled[] = {
    {&extended, false, KIND(SILJUVATT_PACKET) + 8, {0x88, 0x45, 0x00, 0xC0, 0x10, DATA}},
    {&extended, false, KIND(SILJUVATT_KEPT), {0x88, 0x45, 0x00, 0x40, 0x10, DATA}},
    {&extended, true, KIND(SILJUVATT_KEPT), {0x88, 0x45, 0x00, 0x01, 0x10, DATA}},
    {&extended, true, KIND(SILJUVATT_PACKET) + 16, {0x88, 0x45, 0x00, 0x81, 0x10, DATA}},
    {&standard, false, KIND(SILJUVATT_PACKET) + 8, {0x96, 0xE8, DATA}},
    {&standard, false, KIND(SILJUVATT_KEPT), {0x96, 0xA8, 0, DATA}},
    {&standard, true, KIND(SILJUVATT_KEPT), {0x96, 0x88, DATA}}, /* number 1 */
    {&standard, true, KIND(SILJUVATT_PACKET) + 14, {0x96, 0xC8, DATA}},
};

#define RECEIVE(image, length) siljuvatt_receive(station, sizeof station, store, sizeof store, 0, image, length)

/* A station with one stream, idle or with a start. */
static void begin(const struct format *format, bool after_start)
{
    uint8_t start[SILJUVATT_EXTENDED_IMAGE];
    uint8_t packet[9] = {0};

    memset(store, 0xEE, sizeof store);
    SAME(siljuvatt_station_new(station, sizeof station, format->number), 0);
    SAME(siljuvatt_open(station, sizeof station, 0, format->fields, format->fields_length), 0);
    if (after_start) {
        uint32_t length = siljuvatt_write_piece(format->number, format->fields, format->fields_length, packet,
                                                sizeof packet, 0, start, sizeof start);
        SAME(RECEIVE(start, length), KIND(SILJUVATT_KEPT));
    }
}

/* A count of 9 to 15 is read as 8: answer, station and store are as with 8. */
static void read_as_8(const struct filled *piece, uint8_t count)
{
    static uint8_t station_with_8[sizeof station], store_with_8[sizeof store];
    const struct format *format = piece->format;
    uint8_t image[sizeof piece->image];

    memcpy(image, piece->image, sizeof image);
    begin(format, piece->after_start);
    SAME(RECEIVE(image, format->header + 8), piece->answer);
    memcpy(station_with_8, station, sizeof station);
    memcpy(store_with_8, store, sizeof store);

    image[format->count_at] = (uint8_t)((image[format->count_at] & 0xF0) | count);
    begin(format, piece->after_start);
    SAME(RECEIVE(image, format->header + 8), piece->answer);
    SAME((uint32_t)memcmp(station, station_with_8, sizeof station), 0);
    SAME((uint32_t)memcmp(store, store_with_8, sizeof store), 0);

    /* What is refused before the count is read. */
    begin(format, piece->after_start);
    REFUSED(RECEIVE(image, format->header + 9), SILJUVATT_REFUSAL_LENGTH);
    image[format->count_at] |= format->rtr;
    REFUSED(RECEIVE(image, format->header + 9), SILJUVATT_REFUSAL_LENGTH);
    REFUSED(RECEIVE(image, format->header + 8), SILJUVATT_REFUSAL_REMOTE);
    REFUSED(RECEIVE(image, format->header + 7), SILJUVATT_REFUSAL_REMOTE);
    if (format == &extended) {
        image[0] |= 0x10;
        REFUSED(RECEIVE(image, format->header + 7), SILJUVATT_REFUSAL_FORM);
    }
}

/* The longest packet, whose pieces are all filled: written with 8, received with 9 to 15 in turn. */
static void longest_read_as_8(const struct format *format)
{
    static uint8_t packet[SILJUVATT_EXTENDED_LIMIT];
    size_t start = 7;

    for (size_t i = 0; i < format->limit; i++) {
        packet[i] = (uint8_t)(i + i / 256);
    }
    begin(format, false);
    for (uint32_t k = 0; k < 256; k++) {
        uint8_t image[SILJUVATT_EXTENDED_IMAGE];
        uint32_t length = siljuvatt_write_piece(format->number, format->fields, format->fields_length, packet,
                                                format->limit, k, image, sizeof image);
        SAME(image[format->count_at] & 0x0F, 8);
        image[format->count_at] = (uint8_t)((image[format->count_at] & 0xF0) | (9 + k % 7));
        SAME(RECEIVE(image, length), k < 255 ? KIND(SILJUVATT_KEPT) : KIND(SILJUVATT_PACKET) + format->limit);
    }
    SAME(siljuvatt_read(station, sizeof station, store, sizeof store, 0, &start), format->limit);
    SAME((uint32_t)start, 0);
    SAME((uint32_t)memcmp(store, packet, format->limit), 0);
}

/* Request L3 of document 02, which overrules document 01. */
static void counts_of_9_to_15(void)
{
    for (size_t i = 0; i < sizeof filled / sizeof filled[0]; i++) {
        for (uint8_t count = 9; count <= 15; count++) {
            read_as_8(&filled[i], count);
        }
    }
    longest_read_as_8(&extended);
    longest_read_as_8(&standard);
}

/* Every count before every number of data bytes that it does not say; then the piece is answered as without them. */
static void wrong_lengths(const struct filled *piece)
{
    const struct format *format = piece->format;
    uint8_t image[sizeof piece->image];

    memcpy(image, piece->image, sizeof image);
    begin(format, piece->after_start);
    for (uint8_t count = 0; count <= 15; count++) {
        size_t said = count < 8 ? count : 8;
        image[format->count_at] = (uint8_t)((image[format->count_at] & 0xF0) | count);
        for (size_t data = 0; data < said; data++) {
            REFUSED(RECEIVE(image, format->header + data), SILJUVATT_REFUSAL_COUNT);
        }
        for (size_t data = said + 1; data <= 8; data++) {
            REFUSED(RECEIVE(image, format->header + data), SILJUVATT_REFUSAL_SURPLUS);
        }
    }
    SAME(RECEIVE(piece->image, format->header + 8), piece->answer);
}

/* Request L4 of document 02, which overrules document 01: too short is COUNT, too long SURPLUS, both before PIECE. */
static void too_short_or_too_long(void)
{
    const uint8_t single_1_of_none[] = {0x80, 0x45, 0x00, 0xC1, 0x10, 7};

    for (size_t i = 0; i < sizeof filled / sizeof filled[0]; i++) {
        wrong_lengths(&filled[i]);
    }
    begin(&extended, false);
    REFUSED(RECEIVE(single_1_of_none, sizeof single_1_of_none), SILJUVATT_REFUSAL_SURPLUS);
    REFUSED(RECEIVE(single_1_of_none, sizeof single_1_of_none - 1), SILJUVATT_REFUSAL_PIECE);
}

int main(void)
{
    splitting_of_nothing();
    stations_of_nothing();
    others_of_nothing();
    numbers_and_lengths();
    filters();
    unsound_stations();
    bytes_as_described();
    counts_of_9_to_15();
    too_short_or_too_long();
    printf("%d checks, %d failed\n", checks, failures);
    return failures == 0 ? 0 : 1;
}
