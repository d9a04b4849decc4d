/*
 * Makes the calls that the driver recorded (fuzz --record) once more, from C, through the library's header.
 *
 * Every buffer is an allocation of its own, of its very length, so that AddressSanitizer and valgrind see what lies
 * outside. After each call the answer and all that the call was lent are compared with the record; the store at the
 * end of each sequence. Ends with 1 at the first difference.
 */
#include <inttypes.h>
#include <stdio.h>
#include <stdlib.h>
#include <string.h>

#include "siljuvatt.h"

#define MAGIC "siljuvatt calls 2\n"

enum { STATION, STORE, MASTER, WATCH, PARTS, OWN = 255 };
enum { SET = 200, END_OF_SEQUENCE = 220, END_OF_FILE = 221 };

/* Bytes of exactly that length; NULL if there are none. */
struct buffer {
    uint8_t *bytes;
    size_t length;
};

static struct buffer parts[PARTS];
static uint64_t calls;

static void fail(const char *what)
{
    fprintf(stderr, "replay: call %" PRIu64 ": %s\n", calls, what);
    exit(1);
}

/* ---- Reading the record ---- */

static void read_bytes(void *to, size_t length)
{
    if (length != 0 && fread(to, 1, length, stdin) != length)
        fail("the record ends too early");
}

/* A number of some bytes, low byte first. */
static uint64_t read_number(int size)
{
    uint8_t bytes[8];
    uint64_t number = 0;

    read_bytes(bytes, (size_t)size);
    while (size-- > 0)
        number = number << 8 | bytes[size];
    return number;
}

static uint8_t read_byte(void)
{
    return (uint8_t)read_number(1);
}

static uint16_t read_16(void)
{
    return (uint16_t)read_number(2);
}

static uint32_t read_32(void)
{
    return (uint32_t)read_number(4);
}

static size_t read_size(void)
{
    return (size_t)read_number(8);
}

static struct buffer new_buffer(size_t length)
{
    struct buffer buffer = {NULL, length};

    if (length != 0 && (buffer.bytes = malloc(length)) == NULL)
        fail("no memory");
    return buffer;
}

static struct buffer read_buffer(void)
{
    struct buffer buffer = new_buffer(read_32());

    read_bytes(buffer.bytes, buffer.length);
    return buffer;
}

/* ---- What a call is lent ---- */

enum { MOST = 8, NUMBER = 254 };

/* The buffers of this call, and of each whether it is a part, the call's own, or the place of a number. */
static struct buffer lent[MOST];
static int kinds[MOST];
static int count;

static void keep(struct buffer buffer, int kind)
{
    if (count == MOST)
        fail("more is lent than there is room for");
    lent[count] = buffer;
    kinds[count++] = kind;
}

/* Bytes of a part, or some for this call alone. */
static struct buffer lend(void)
{
    int kind = read_byte();
    struct buffer buffer;

    if (kind != OWN && kind >= PARTS)
        fail("no such part");
    buffer = kind == OWN ? read_buffer() : parts[kind];
    keep(buffer, kind);
    return buffer;
}

/* The place of a number. */
static size_t *lend_number(void)
{
    struct buffer buffer = new_buffer(sizeof(size_t));
    size_t number = read_size();

    memcpy(buffer.bytes, &number, sizeof number);
    keep(buffer, NUMBER);
    return (size_t *)(void *)buffer.bytes;
}

static void compare(struct buffer got, const char *difference)
{
    struct buffer expected = read_buffer();

    if (expected.length != got.length)
        fail("a buffer has another length than recorded");
    if (got.length != 0 && memcmp(expected.bytes, got.bytes, got.length) != 0)
        fail(difference);
    free(expected.bytes);
}

/* Compares all that the call was lent. */
static void end_call(void)
{
    size_t number;
    int i;

    for (i = 0; i < count; i++) {
        if (kinds[i] == NUMBER) {
            memcpy(&number, lent[i].bytes, sizeof number);
            if (number != read_size())
                fail("a number differs");
        } else if (kinds[i] != STORE) {
            compare(lent[i], "what was lent differs");
        }
        if (kinds[i] >= PARTS)
            free(lent[i].bytes);
    }
    count = 0;
}

/* ---- Calls, with their arguments in the header's order ---- */

static uint32_t call_version(void)
{
    return siljuvatt_version();
}

static uint32_t call_piece_count(void)
{
    uint8_t format = read_byte();
    size_t size = read_size();

    return siljuvatt_piece_count(format, size);
}

static uint32_t call_write_piece(void)
{
    uint8_t format = read_byte();
    struct buffer fields = lend();
    struct buffer packet = lend();
    size_t k = read_size();
    struct buffer output = lend();

    return siljuvatt_write_piece(format, fields.bytes, fields.length, packet.bytes, packet.length, k, output.bytes,
                                 output.length);
}

static uint32_t call_station_new(void)
{
    struct buffer station = lend();
    uint8_t format = read_byte();

    return siljuvatt_station_new(station.bytes, station.length, format);
}

static uint32_t call_open(void)
{
    struct buffer station = lend();
    uint8_t bus = read_byte();
    struct buffer fields = lend();

    return siljuvatt_open(station.bytes, station.length, bus, fields.bytes, fields.length);
}

static uint32_t call_close(void)
{
    struct buffer station = lend();
    size_t slot = read_size();

    return siljuvatt_close(station.bytes, station.length, slot);
}

static uint32_t call_receive(void)
{
    struct buffer station = lend();
    struct buffer store = lend();
    uint8_t bus = read_byte();
    struct buffer image = lend();

    return siljuvatt_receive(station.bytes, station.length, store.bytes, store.length, bus, image.bytes, image.length);
}

static uint32_t call_read(void)
{
    struct buffer station = lend();
    struct buffer store = lend();
    size_t slot = read_size();
    size_t *start = lend_number();

    return siljuvatt_read(station.bytes, station.length, store.bytes, store.length, slot, start);
}

static uint32_t call_filter_accepts(void)
{
    uint16_t code = read_16();
    uint16_t mask = read_16();
    uint16_t id = read_16();

    return siljuvatt_filter_accepts(code, mask, id);
}

static uint32_t call_row_accepts(void)
{
    struct buffer row = lend();
    uint16_t id = read_16();

    if (row.length != SILJUVATT_ROW_SIZE)
        fail("a row of another length");
    return siljuvatt_row_accepts((const siljuvatt_row *)row.bytes, id);
}

static uint32_t call_master_new(void)
{
    struct buffer master = lend();

    return siljuvatt_master_new(master.bytes, master.length);
}

static uint32_t call_master_start(void)
{
    struct buffer master = lend();
    uint8_t kind = read_byte();
    uint8_t node = read_byte();

    return siljuvatt_master_start(master.bytes, master.length, kind, node);
}

static uint32_t call_master_reply(void)
{
    struct buffer master = lend();
    uint8_t bus = read_byte();
    uint8_t node = read_byte();
    uint8_t function = read_byte();

    return siljuvatt_master_reply(master.bytes, master.length, bus, node, function);
}

static uint32_t call_master_timeout(void)
{
    struct buffer master = lend();

    return siljuvatt_master_timeout(master.bytes, master.length);
}

static uint32_t call_watch_new(void)
{
    struct buffer watch = lend();
    uint32_t now = read_32();

    return siljuvatt_watch_new(watch.bytes, watch.length, now);
}

static uint32_t call_watch_heard(void)
{
    struct buffer watch = lend();
    uint8_t bus = read_byte();
    uint32_t now = read_32();

    return siljuvatt_watch_heard(watch.bytes, watch.length, bus, now);
}

static uint32_t call_watch_check(void)
{
    struct buffer watch = lend();
    uint32_t now = read_32();

    return siljuvatt_watch_check(watch.bytes, watch.length, now);
}

#define CALL(name) {#name, call_##name}
static const struct {
    const char *name;
    uint32_t (*make)(void);
} known[] = {
    CALL(version),      CALL(piece_count),  CALL(write_piece),    CALL(station_new), CALL(open),
    CALL(close),        CALL(receive),      CALL(read),           CALL(filter_accepts), CALL(row_accepts),
    CALL(master_new),   CALL(master_start), CALL(master_reply),   CALL(master_timeout), CALL(watch_new),
    CALL(watch_heard),  CALL(watch_check),
};

/* ---- The record ---- */

/* The calls by the numbers that the record gives them. */
static uint32_t (*numbered[SET])(void);

/* A line without its end. */
static void read_line(char *line, size_t size)
{
    size_t length = 0;
    int byte;

    while ((byte = read_byte()) != '\n') {
        if (length + 1 == size)
            fail("a line is too long");
        line[length++] = (char)byte;
    }
    line[length] = 0;
}

static void read_names(void)
{
    char name[64];
    size_t i, number;

    for (number = 0;; number++) {
        read_line(name, sizeof name);
        if (name[0] == 0)
            return;
        for (i = 0; i < sizeof known / sizeof known[0]; i++)
            if (number < SET && strcmp(name, known[i].name) == 0)
                numbered[number] = known[i].make;
        if (number >= SET || numbered[number] == NULL) {
            fprintf(stderr, "replay: %s\n", name);
            fail("a function that is not known here");
        }
    }
}

static void call(int function)
{
    uint32_t answer;

    calls++;
    if (function >= SET || numbered[function] == NULL)
        fail("no such function");
    answer = numbered[function]();
    if (answer != read_32())
        fail("another answer");
    end_call();
}

static void set(int part)
{
    free(parts[part].bytes);
    parts[part] = read_buffer();
}

int main(void)
{
    char magic[sizeof MAGIC - 1];
    int what;

    read_bytes(magic, sizeof magic);
    if (memcmp(magic, MAGIC, sizeof magic) != 0)
        fail("this is no record of calls");
    read_names();
    while ((what = read_byte()) != END_OF_FILE) {
        if (what >= SET && what < SET + PARTS)
            set(what - SET);
        else if (what == END_OF_SEQUENCE)
            compare(parts[STORE], "the store differs");
        else
            call(what);
    }
    if (read_number(8) != calls || calls == 0)
        fail("the record has another number of calls");
    for (what = 0; what < PARTS; what++)
        free(parts[what].bytes);
    printf("equal: %" PRIu64 " calls from C\n", calls);
    return 0;
}
