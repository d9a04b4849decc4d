/*
 * Faults planted in calls of the library, one at a time, by the name in PLANTED. fuzz/run links them in by --wrap, to
 * see that each is told: a read one byte behind a row, by valgrind; the same through memcpy, which AddressSanitizer
 * watches; and by fuzz/replay.c a wrong answer, a wrong byte, a wrong number, a wrong byte of the store, images too short
 * and too long taken for each other, and the bytes behind an image left unread.
 */
#include <stdlib.h>
#include <string.h>

#include "siljuvatt.h"

#define WRAPPED(result, call, arguments)                                                                               \
    result __real_siljuvatt_##call arguments;                                                                          \
    result __wrap_siljuvatt_##call arguments;                                                                          \
    result __wrap_siljuvatt_##call arguments

#define REFUSED(refusal) (UINT32_C(0x80000000) | (refusal))

static volatile uint8_t last;

static bool planted(const char *fault)
{
    const char *name = getenv("PLANTED");

    return name != NULL && strcmp(name, fault) == 0;
}

static void read_behind(const siljuvatt_row *row)
{
    volatile size_t behind = sizeof row->bytes;
    uint8_t copy[sizeof row->bytes + 1];

    if (planted("read"))
        last = row->bytes[behind];
    if (planted("memcpy")) {
        memcpy(copy, row, behind + 1);
        last = copy[behind];
    }
}

WRAPPED(bool, row_accepts, (const siljuvatt_row *row, uint16_t id))
{
    read_behind(row);
    return __real_siljuvatt_row_accepts(row, id) != planted("answer");
}

WRAPPED(uint32_t, write_piece,
        (uint8_t format, const uint8_t *fields, size_t fields_length, const uint8_t *packet, size_t packet_length,
         size_t k, uint8_t *output, size_t output_length))
{
    uint32_t answer = __real_siljuvatt_write_piece(format, fields, fields_length, packet, packet_length, k, output,
                                                   output_length);

    if (output_length != 0)
        output[output_length - 1] ^= planted("byte");
    return answer;
}

WRAPPED(uint32_t, receive,
        (uint8_t *station, size_t station_length, uint8_t *store, size_t store_length, uint8_t bus,
         const uint8_t *image, size_t image_length))
{
    uint32_t answer = __real_siljuvatt_receive(station, station_length, store, store_length, bus, image, image_length);
    const uint32_t too_short = REFUSED(SILJUVATT_REFUSAL_COUNT), too_long = REFUSED(SILJUVATT_REFUSAL_SURPLUS);

    while (planted("behind") && answer == too_long)
        answer = __real_siljuvatt_receive(station, station_length, store, store_length, bus, image, --image_length);
    if (planted("exchanged") && (answer == too_short || answer == too_long))
        answer ^= too_short ^ too_long;
    if (store_length != 0)
        store[store_length - 1] |= planted("store");
    return answer;
}

WRAPPED(uint32_t, read,
        (const uint8_t *station, size_t station_length, const uint8_t *store, size_t store_length, size_t slot,
         size_t *start))
{
    uint32_t answer = __real_siljuvatt_read(station, station_length, store, store_length, slot, start);

    *start ^= planted("number");
    return answer;
}
