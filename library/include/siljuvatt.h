/*
 * siljuvatt: satellite avionics units on their two CAN lines, to GB/T 43671-2024. For x86-64 Linux.
 *
 * Frames of both formats, split and joined; up to sixteen streams a station; acceptance filters; a master's exchanges
 * over both buses; a watch for a bus gone silent. Every function of the library is proved, for every input, against
 * the definitions that these descriptions put into words: any numbers, any bytes, any length. Nothing has to be
 * checked before a call.
 *
 * MEMORY. The library has none of its own and keeps no pointer: a call works on what it is lent and is done with it
 * when it returns. A station, a master and a watch are bytes that the caller owns (SILJUVATT_STATION_SIZE and so on):
 * they may be copied, stored and handed to another thread between two calls. A pointer must be good for as many bytes
 * as the length behind it says; where the length is 0 it is not used and may be NULL. Nothing that a call is lent to
 * write to may overlap with anything else that it is given. Two threads may call at the same time if neither is lent
 * for writing what the other uses.
 *
 * ANSWERS are numbers of 32 bits, but for the filters' bool. SILJUVATT_IS_REFUSED(answer) tells a refusal;
 * SILJUVATT_NUMBER(answer) is then its number, one of enum siljuvatt_refusal. A refused call stores nothing at all, not
 * even what was there, except that after STEP and LONG the stream's record says that it is idle. Any other answer has a
 * number, SILJUVATT_NUMBER(answer), and some have a kind, SILJUVATT_KIND(answer). Where several refusals apply the
 * answer is the first of: STATE, STORE, FIELD, and then in the order in which each function lists them. A compiler that
 * can warns of an answer that is not used.
 *
 * EXAMPLE, compiled and run by library/test: a packet is split, and a station joins its pieces.
 *
 *     #include "siljuvatt.h"
 *     #include <stdio.h>
 *
 *     static uint8_t station[SILJUVATT_STATION_SIZE], store[SILJUVATT_STORE_SIZE];
 *
 *     static int failed(uint32_t answer)
 *     {
 *         return fprintf(stderr, "refused: %s\n", siljuvatt_refusal_text(answer)), 1;
 *     }
 *
 *     int main(void)
 *     {
 *         const uint8_t fields[] = {1, 5, 0, 0, 2};      // priority, source, group, destination, function
 *         const uint8_t packet[] = {'0', '0', '4', '1', '2', '7', '0', '1', '9'};
 *         uint8_t image[SILJUVATT_EXTENDED_IMAGE];
 *         size_t start;
 *
 *         uint32_t made = siljuvatt_station_new(station, sizeof station, SILJUVATT_EXTENDED);
 *         if (SILJUVATT_IS_REFUSED(made)) return failed(made);
 *         uint32_t slot = siljuvatt_open(station, sizeof station, SILJUVATT_BUS_A, fields, sizeof fields);
 *         if (SILJUVATT_IS_REFUSED(slot)) return failed(slot);
 *         uint32_t count = siljuvatt_piece_count(SILJUVATT_EXTENDED, sizeof packet);
 *         if (SILJUVATT_IS_REFUSED(count)) return failed(count);
 *         for (size_t k = 0; k < count; k++) {           // 2
 *             uint32_t length = siljuvatt_write_piece(SILJUVATT_EXTENDED, fields, sizeof fields,
 *                                                     packet, sizeof packet, k, image, sizeof image);
 *             if (SILJUVATT_IS_REFUSED(length)) return failed(length);
 *             uint32_t answer = siljuvatt_receive(station, sizeof station, store, sizeof store, SILJUVATT_BUS_A,
 *                                                 image, length);
 *             if (SILJUVATT_IS_REFUSED(answer)) return failed(answer);
 *         }
 *         uint32_t length = siljuvatt_read(station, sizeof station, store, sizeof store, slot, &start);
 *         if (SILJUVATT_IS_REFUSED(length)) return failed(length);
 *         printf("%.*s\n", (int)length, (const char *)store + start);    // 004127019, zeros and all
 *         return 0;
 *     }
 *
 * END OF EXAMPLE. library/c/example.c is a longer one; library/README.md says how to build, install and link.
 */
#ifndef SILJUVATT_H
#define SILJUVATT_H

#include <stdbool.h>
#include <stddef.h>
#include <stdint.h>

#ifdef __cplusplus
extern "C" {
#endif

#if defined(__GNUC__)
#define SILJUVATT_USE_ANSWER __attribute__((warn_unused_result))
#else
#define SILJUVATT_USE_ANSWER
#endif

/* ---- The release ---- */

#define SILJUVATT_VERSION_MAJOR 0
#define SILJUVATT_VERSION_MINOR 2
#define SILJUVATT_VERSION_PATCH 0

/* The release that this header is of, as a number, and that of the library that is linked: they should be equal. */
#define SILJUVATT_VERSION \
    (UINT32_C(65536) * SILJUVATT_VERSION_MAJOR + 256 * SILJUVATT_VERSION_MINOR + SILJUVATT_VERSION_PATCH)
SILJUVATT_USE_ANSWER uint32_t siljuvatt_version(void);

/* ---- Answers ---- */

#define SILJUVATT_IS_REFUSED(answer) ((answer) >= UINT32_C(0x80000000))
#define SILJUVATT_NUMBER(answer) ((answer) & UINT32_C(0xFFFF))
#define SILJUVATT_KIND(answer) (((answer) >> 16) & UINT32_C(0xFF))

/*
 * Every refusal: its name, its number, when it is given. The list is the only one: enum siljuvatt_refusal has
 * SILJUVATT_REFUSAL_LENGTH = 1 and so on. The numbers have gaps, and later releases add some: a switch needs a default.
 * What is added may take over a part of another's meaning, as SURPLUS did of COUNT's. No number is ever used again for
 * something else.
 */
#define SILJUVATT_REFUSALS(REFUSAL) \
    REFUSAL(LENGTH, 1, "the image's length is outside its format's range") \
    REFUSAL(FORM, 2, "fixed bits of an extended image are wrong") \
    REFUSAL(REMOTE, 3, "RTR is 1") \
    REFUSAL(COUNT, 4, "the image is shorter than its count says; a count of 9 to 15 says 8") \
    REFUSAL(PIECE, 5, "a rule on flag, number and count is broken") \
    REFUSAL(ORPHAN, 6, "a middle or an end while its stream is not collecting") \
    REFUSAL(STEP, 7, "another number than awaited; the stream is idle now") \
    REFUSAL(LONG, 8, "the packet would pass 2,048 bytes; the stream is idle now") \
    REFUSAL(FIELD, 9, "a format, field, bus, kind or node is out of range, or the fields are of another format") \
    REFUSAL(SIZE, 10, "the packet is over the format's limit") \
    REFUSAL(INDEX, 11, "there is no piece k") \
    REFUSAL(ROOM, 12, "the output is shorter than the image") \
    REFUSAL(STORE, 13, "the store is not 32,768 bytes") \
    REFUSAL(TAKEN, 14, "the key is open already") \
    REFUSAL(FULL, 15, "all sixteen slots are open") \
    REFUSAL(CLOSED, 16, "the slot number is over 15, or the slot is closed") \
    REFUSAL(NOPACKET, 17, "the slot has no whole packet") \
    REFUSAL(BUSY, 18, "a start during an exchange") \
    REFUSAL(IDLE, 19, "a reply or a timeout with no exchange") \
    REFUSAL(NOTAWAITED, 20, "the reply does not count") \
    REFUSAL(STATE, 21, "the bytes are no sound station, master or watch of this release's layout") \
    REFUSAL(SURPLUS, 25, "the image is longer than its count says")

#define SILJUVATT_REFUSAL_NUMBER_(name, number, text) SILJUVATT_REFUSAL_##name = number,
enum siljuvatt_refusal { SILJUVATT_REFUSALS(SILJUVATT_REFUSAL_NUMBER_) };

/* The name of a refusal, as "STEP", and when it is given: of a refused answer, or of its number. "UNKNOWN" if none. */
#define SILJUVATT_REFUSAL_NAME_(name, number, text) case number: return #name;
static inline const char *siljuvatt_refusal_name(uint32_t refusal)
{
    switch (SILJUVATT_IS_REFUSED(refusal) ? SILJUVATT_NUMBER(refusal) : refusal) {
        SILJUVATT_REFUSALS(SILJUVATT_REFUSAL_NAME_)
    default: return "UNKNOWN";
    }
}

#define SILJUVATT_REFUSAL_TEXT_(name, number, text) case number: return text;
static inline const char *siljuvatt_refusal_text(uint32_t refusal)
{
    switch (SILJUVATT_IS_REFUSED(refusal) ? SILJUVATT_NUMBER(refusal) : refusal) {
        SILJUVATT_REFUSALS(SILJUVATT_REFUSAL_TEXT_)
    default: return "no refusal of this release";
    }
}

/* ---- Formats, buses and fields ---- */

/* A station works in one format. */
#define SILJUVATT_EXTENDED 0
#define SILJUVATT_STANDARD 1

#define SILJUVATT_BUS_A 0
#define SILJUVATT_BUS_B 1

/*
 * The fields of an identifier, but for flag and number, are bytes. Extended, 5: priority 0 to 3, source 0 to 63,
 * group 0 to 3, destination 0 to 63, function 0 to 31. Standard, 3: priority 0 to 3, address 0 to 63, side 0 or 1,
 * which says who sent the frame: 0 the master, 1 a slave.
 */
#define SILJUVATT_EXTENDED_FIELDS 5
#define SILJUVATT_STANDARD_FIELDS 3

/* Most bytes in a packet, and in an image. */
#define SILJUVATT_EXTENDED_LIMIT 2048
#define SILJUVATT_STANDARD_LIMIT 1792
#define SILJUVATT_EXTENDED_IMAGE 13
#define SILJUVATT_STANDARD_IMAGE 10

/* ---- Splitting ---- */

/* How many pieces a packet of size bytes is: 1 to 256. Refuses: FIELD, SIZE. */
SILJUVATT_USE_ANSWER uint32_t siljuvatt_piece_count(uint8_t format, size_t size);

/*
 * Writes the image of piece k over the head of the output and answers its length; the rest of the output stays. The
 * count in it is how many data bytes it has, at most 8. Refuses: FIELD, SIZE, INDEX, ROOM.
 */
SILJUVATT_USE_ANSWER uint32_t siljuvatt_write_piece(uint8_t format, const uint8_t *fields, size_t fields_length,
                                                    const uint8_t *packet, size_t packet_length, size_t k,
                                                    uint8_t *output, size_t output_length);

/* ---- A station: up to sixteen streams ---- */

/*
 * The bytes of a station, and the number of their layout; how many slots it has; the bytes of its store, and those of
 * the store that each slot owns: from slot * SILJUVATT_AREA_SIZE on.
 */
#define SILJUVATT_STATION_SIZE 130
#define SILJUVATT_STATION_LAYOUT 1
#define SILJUVATT_SLOTS 16
#define SILJUVATT_STORE_SIZE 32768
#define SILJUVATT_AREA_SIZE 2048

/* Kinds of siljuvatt_receive's answers, and the bit that an answer has if an older packet was dropped. */
#define SILJUVATT_PACKET 4
#define SILJUVATT_KEPT 5
#define SILJUVATT_FILTERED 6
#define SILJUVATT_BROKE(answer) (((answer) >> 24) & UINT32_C(1))

/*
 * Makes the bytes a new station of a format, every slot closed, whatever they were. Answers 0. Refuses: STATE (their
 * length), FIELD.
 */
SILJUVATT_USE_ANSWER uint32_t siljuvatt_station_new(uint8_t *station, size_t station_length, uint8_t format);

/*
 * Opens the key of a bus and fields in the lowest closed slot and answers the slot's number, 0 to 15. Refuses: STATE,
 * FIELD, TAKEN, FULL.
 */
SILJUVATT_USE_ANSWER uint32_t siljuvatt_open(uint8_t *station, size_t station_length, uint8_t bus,
                                             const uint8_t *fields, size_t fields_length);

/* Closes a slot and answers its number; no byte of the store is written. Refuses: STATE, CLOSED. */
SILJUVATT_USE_ANSWER uint32_t siljuvatt_close(uint8_t *station, size_t station_length, size_t slot);

/*
 * Receives the image of a frame on a bus. The answer's kind:
 *   SILJUVATT_PACKET    the stream has a packet, of SILJUVATT_NUMBER(answer) bytes: siljuvatt_read
 *   SILJUVATT_KEPT      more of the packet is awaited
 *   SILJUVATT_FILTERED  no slot is open with the frame's key; nothing is stored
 * SILJUVATT_BROKE(answer) is 1 if an older packet of the stream was not whole and is dropped. Only the record and the
 * area of the slot with the frame's key are written to.
 * A count of 9 to 15 in the image is read as 8, in both formats: it says eight data bytes (ISO 11898-1, classical CAN),
 * of which a standard start, middle or end has its number first. Nothing keeps which count it was.
 * Refuses: STATE, STORE, FIELD (the bus), LENGTH, FORM, REMOTE, COUNT, SURPLUS, PIECE, ORPHAN, STEP, LONG.
 */
SILJUVATT_USE_ANSWER uint32_t siljuvatt_receive(uint8_t *station, size_t station_length, uint8_t *store,
                                                size_t store_length, uint8_t bus, const uint8_t *image,
                                                size_t image_length);

/*
 * The packet of a slot: answers its length and sets *start to its place in the store, so that it is the bytes from
 * store + *start on. Nothing is copied. They stay until the next start or single of the slot's stream, or of one
 * that is opened in the slot after it. start must point to a size_t, which stays as it was if the call is refused.
 * Refuses: STATE, STORE, CLOSED, NOPACKET.
 */
SILJUVATT_USE_ANSWER uint32_t siljuvatt_read(const uint8_t *station, size_t station_length, const uint8_t *store,
                                             size_t store_length, size_t slot, size_t *start);

/* ---- Acceptance filters (extended) ---- */

/* Bytes 1 and 2 of an extended image, which must have them, as the number that filters look at: ID.28 to ID.13. */
static inline uint16_t siljuvatt_id_of(const void *image)
{
    const uint8_t *bytes = (const uint8_t *)image;
    return (uint16_t)((uint16_t)bytes[1] << 8 | bytes[2]);
}
#define SILJUVATT_ID(image) siljuvatt_id_of(image)

/* Whether a filter of 16 code and 16 mask bits accepts: each bit is the code's, or its mask bit is 1. */
SILJUVATT_USE_ANSWER bool siljuvatt_filter_accepts(uint16_t code, uint16_t mask, uint16_t id);

/* A row of Table A.1: code 0, mask 0, code 1, mask 1, code 2, mask 2, code 3, mask 3. */
#define SILJUVATT_ROW_SIZE 8
typedef struct siljuvatt_row {
    uint8_t bytes[SILJUVATT_ROW_SIZE];
} siljuvatt_row;

/* Whether the pair of filters of a row accepts: the filter of the first four bytes, or that of the last four. */
SILJUVATT_USE_ANSWER bool siljuvatt_row_accepts(const siljuvatt_row *row, uint16_t id);

/* ---- A master: exchanges with a node ---- */

#define SILJUVATT_MASTER_SIZE 68
#define SILJUVATT_MASTER_LAYOUT 1

/*
 * Kinds of exchanges. A poll is sent with function 1 and awaits a reply with function 2; the others are sent with
 * function 3 and await one with function 4.
 */
#define SILJUVATT_POLL 1
#define SILJUVATT_DATA_BLOCK 2
#define SILJUVATT_COMMAND 3

/* Kinds of answers. */
#define SILJUVATT_SEND 7    /* send on the bus SILJUVATT_NUMBER(answer) */
#define SILJUVATT_DONE 8    /* the exchange is answered */
#define SILJUVATT_GAVE_UP 9 /* the exchange has ended unanswered */

/* Makes the bytes a new master: bus A chosen for every node, no exchange. Answers 0. Refuses: STATE (their length). */
SILJUVATT_USE_ANSWER uint32_t siljuvatt_master_new(uint8_t *master, size_t master_length);

/* Starts an exchange with a node, 0 to 63: SEND. Refuses: STATE, FIELD, BUSY. */
SILJUVATT_USE_ANSWER uint32_t siljuvatt_master_start(uint8_t *master, size_t master_length, uint8_t kind,
                                                     uint8_t node);

/* A reply from a node came in on a bus, with a function: DONE. Refuses: STATE, FIELD, IDLE, NOTAWAITED. */
SILJUVATT_USE_ANSWER uint32_t siljuvatt_master_reply(uint8_t *master, size_t master_length, uint8_t bus, uint8_t node,
                                                     uint8_t function);

/* No reply came in time: SEND or GAVE_UP. Refuses: STATE, IDLE. */
SILJUVATT_USE_ANSWER uint32_t siljuvatt_master_timeout(uint8_t *master, size_t master_length);

/* ---- A watch: the silence of each bus ---- */

#define SILJUVATT_WATCH_SIZE 9
#define SILJUVATT_WATCH_LAYOUT 1

/* Times are milliseconds of a 32-bit count that may run over. */

/* Makes the bytes a watch that begins now. Answers 0. Refuses: STATE (their length). */
SILJUVATT_USE_ANSWER uint32_t siljuvatt_watch_new(uint8_t *watch, size_t watch_length, uint32_t now);

/* A bus is heard: answers the bus. Refuses: STATE, FIELD. */
SILJUVATT_USE_ANSWER uint32_t siljuvatt_watch_heard(uint8_t *watch, size_t watch_length, uint8_t bus, uint32_t now);

/*
 * Which buses have been silent for SILJUVATT_SILENCE ms or more and are to be reset: SILJUVATT_RESET_A(answer) and
 * SILJUVATT_RESET_B(answer), each 1 or 0, and 0 of a refusal. The last time of such a bus becomes now; with none
 * nothing is stored. Refuses: STATE.
 */
#define SILJUVATT_SILENCE 16000
#define SILJUVATT_RESET_A(answer) (((answer) >> 25) & UINT32_C(1))
#define SILJUVATT_RESET_B(answer) (((answer) >> 26) & UINT32_C(1))
SILJUVATT_USE_ANSWER uint32_t siljuvatt_watch_check(uint8_t *watch, size_t watch_length, uint32_t now);

/* ---- What the bytes of a station, a master and a watch are ----
 *
 * They need not be known to use the library, and belong to a release. The last byte is the number of their layout. A
 * release reads its own layout alone: a state of another one is refused as STATE, as is memory that was never made a
 * state. Of an old state make a new one: read the packets with the release that wrote it, then siljuvatt_station_new
 * and siljuvatt_open for each key (siljuvatt_master_new, siljuvatt_watch_new). The store has no layout of its own.
 *
 * A station: a record of 8 bytes for each slot, then the format (0 or 1). A record is two numbers of 32 bits, low byte
 * first, both 0 for a closed slot. The first is the key's: priority + 4 * function + 128 * bus + 256 * source +
 * 65,536 * group + 16,777,216 * destination in extended, priority + 128 * bus + 16,384 + 256 * address + 65,536 * side
 * in standard. The second is 65,536 idle, 131,072 + h collecting with h bytes, 196,608 + h done with h bytes.
 * A master: for each node its chosen bus, then the kind, the node and the send count of the exchange, all 0 if there
 * is none. A watch: the last times of bus A and bus B, each low byte first.
 */

#ifdef __cplusplus
}
#endif

#endif
