/*
 * A call that is refused stores nothing at all, not even what was there: it is made with its state, store and output in
 * pages that cannot be written. So is a check that resets nothing, and an image that no slot is open for. After STEP
 * and LONG the stream's record is idle, so that they are made with the store alone in such pages. Stations are of both
 * formats. Prints each call that fails and ends with 1 if one does.
 */
#define _DEFAULT_SOURCE
#include "siljuvatt.h"

#include <setjmp.h>
#include <signal.h>
#include <stdio.h>
#include <string.h>
#include <sys/mman.h>
#include <unistd.h>

struct lent {
    uint8_t station[SILJUVATT_STATION_SIZE];
    uint8_t output[SILJUVATT_EXTENDED_IMAGE];
    uint8_t master[SILJUVATT_MASTER_SIZE];
    uint8_t watch[SILJUVATT_WATCH_SIZE];
    size_t start;
};

/* The store has pages of its own. */
static struct lent *lent;
static uint8_t *store;
static size_t page;
static sigjmp_buf before;
static int calls;
static int failures;

static void stored(int signal)
{
    (void)signal;
    siglongjmp(before, 1);
}

static size_t in_pages(size_t size)
{
    return (size + page - 1) / page * page;
}

#define WRITABLE (PROT_READ | PROT_WRITE)

static void *map(size_t size)
{
    void *mapped = mmap(NULL, in_pages(size), WRITABLE, MAP_PRIVATE | MAP_ANONYMOUS, -1, 0);

    if (mapped == MAP_FAILED) {
        perror("mmap");
        _exit(1);
    }
    return mapped;
}

static void allow(int for_lent, int for_store)
{
    if (mprotect(lent, in_pages(sizeof *lent), for_lent) != 0
        || mprotect(store, in_pages(SILJUVATT_STORE_SIZE), for_store) != 0) {
        perror("mprotect");
        _exit(1);
    }
}

#define UNWRITTEN UINT32_C(0xFFFFFFFF)
#define KIND(kind) ((uint32_t)(kind) << 16)

static void same(uint32_t answer, uint32_t expected, const char *call, int line)
{
    calls++;
    if (answer == expected) {
        return;
    }
    failures++;
    if (answer == UNWRITTEN) {
        printf("line %d: %s stored something\n", line, call);
    } else {
        printf("line %d: %s is %08x and not %08x\n", line, call, (unsigned)answer, (unsigned)expected);
    }
}

/* The answer of the call, or UNWRITTEN, which is none, if it stored where it may not. */
#define ALLOWED(for_lent, for_store, call, expected) \
    do { \
        volatile uint32_t answer = UNWRITTEN; \
        allow(for_lent, for_store); \
        if (sigsetjmp(before, 1) == 0) { \
            answer = (call); \
        } \
        allow(WRITABLE, WRITABLE); \
        same(answer, (expected), #call, __LINE__); \
    } while (0)

#define REFUSAL(number) (UINT32_C(0x80000000) + (number))
#define READ_ONLY(call, expected) ALLOWED(PROT_READ, PROT_READ, call, expected)
#define REFUSED(call, number) READ_ONLY(call, REFUSAL(number))

/* A refusal after which the stream is idle: the store alone cannot be written. */
#define MADE_IDLE(call, number) ALLOWED(WRITABLE, PROT_READ, call, REFUSAL(number))

/* A call that is not refused, with all of it open to writing. */
#define MADE(call, expected) same((call), (expected), #call, __LINE__)

struct image {
    size_t length;
    uint8_t bytes[SILJUVATT_EXTENDED_IMAGE];
};

/* An image that is refused whatever the stream is. */
struct bad_image {
    uint32_t number;
    struct image image;
};

struct format {
    const char *name;
    uint8_t number;
    size_t limit;
    size_t longest_image;
    size_t fields_length;
    uint8_t fields[SILJUVATT_EXTENDED_FIELDS];
    uint8_t wrong[SILJUVATT_EXTENDED_FIELDS];
    struct image single;
    struct image start;
    struct image end;           /* number 1 */
    struct image later_middle;  /* number 2 */
    struct image later_end;     /* number 2 */
    size_t bad_images;
    struct bad_image bad[7];
};

static const struct format extended = {
    "extended", SILJUVATT_EXTENDED, SILJUVATT_EXTENDED_LIMIT, SILJUVATT_EXTENDED_IMAGE, SILJUVATT_EXTENDED_FIELDS,
    {1, 5, 0, 0, 2},
    {4, 5, 0, 0, 2},
    {6, {0x81, 0x45, 0x00, 0xC0, 0x10, 0x07}},
    {13, {0x88, 0x45, 0x00, 0x40, 0x10, 1, 2, 3, 4, 5, 6, 7, 8}},
    {6, {0x81, 0x45, 0x00, 0x81, 0x10, 9}},
    {13, {0x88, 0x45, 0x00, 0x02, 0x10, 1, 2, 3, 4, 5, 6, 7, 8}},
    {6, {0x81, 0x45, 0x00, 0x82, 0x10, 9}},
    7,
    {
        {SILJUVATT_REFUSAL_LENGTH, {4, {0x81, 0x45, 0x00, 0xC0}}},
        {SILJUVATT_REFUSAL_FORM, {6, {0x91, 0x45, 0x00, 0xC0, 0x10, 0x07}}},
        {SILJUVATT_REFUSAL_REMOTE, {6, {0xC1, 0x45, 0x00, 0xC0, 0x10, 0x07}}},
        {SILJUVATT_REFUSAL_COUNT, {6, {0x82, 0x45, 0x00, 0xC0, 0x10, 0x07}}},
        {SILJUVATT_REFUSAL_COUNT, {12, {0x8C, 0x45, 0x00, 0xC0, 0x10, 1, 2, 3, 4, 5, 6, 7}}},
        {SILJUVATT_REFUSAL_SURPLUS, {6, {0x80, 0x45, 0x00, 0xC0, 0x10, 0x07}}},
        {SILJUVATT_REFUSAL_PIECE, {6, {0x81, 0x45, 0x00, 0xC1, 0x10, 0x07}}},
    },
};

static const struct format standard = {
    "standard", SILJUVATT_STANDARD, SILJUVATT_STANDARD_LIMIT, SILJUVATT_STANDARD_IMAGE, SILJUVATT_STANDARD_FIELDS,
    {2, 22, 1},
    {4, 22, 1},
    {3, {0x96, 0xE1, 0x07}},
    {10, {0x96, 0xA8, 0, 1, 2, 3, 4, 5, 6, 7}},
    {5, {0x96, 0xC3, 1, 8, 9}},
    {10, {0x96, 0x88, 2, 1, 2, 3, 4, 5, 6, 7}},
    {4, {0x96, 0xC2, 2, 8}},
    6,
    {
        {SILJUVATT_REFUSAL_LENGTH, {1, {0x96}}},
        {SILJUVATT_REFUSAL_REMOTE, {3, {0x96, 0xF1, 0x07}}},
        {SILJUVATT_REFUSAL_COUNT, {3, {0x96, 0xE2, 0x07}}},
        {SILJUVATT_REFUSAL_COUNT, {9, {0x96, 0xEC, 1, 2, 3, 4, 5, 6, 7}}},
        {SILJUVATT_REFUSAL_SURPLUS, {3, {0x96, 0xE0, 0x07}}},
        {SILJUVATT_REFUSAL_PIECE, {4, {0x96, 0xC2, 1, 8}}},
    },
};

#define STATION lent->station, sizeof lent->station
#define STORE store, SILJUVATT_STORE_SIZE
#define RECEIVE(bus, image) siljuvatt_receive(STATION, STORE, bus, (image).bytes, (image).length)
#define OPEN(bus, said) siljuvatt_open(STATION, bus, said, format->fields_length)

/* That a store to such a page is noticed, and only there. */
static uint32_t store_at(volatile uint8_t *byte)
{
    *byte = 7;
    return 0;
}

static void protection(void)
{
    READ_ONLY(store_at(store), UNWRITTEN);
    READ_ONLY(store_at(lent->station), UNWRITTEN);
    ALLOWED(WRITABLE, PROT_READ, store_at(store), UNWRITTEN);
    ALLOWED(WRITABLE, PROT_READ, store_at(lent->station), 0);
}

static void splitting(const struct format *format)
{
    static uint8_t packet[SILJUVATT_EXTENDED_LIMIT + 1];
    uint8_t *output = lent->output;
    size_t room = format->longest_image;

#define WRITE(said, size, k, room) \
    siljuvatt_write_piece(format->number, said, format->fields_length, packet, size, k, output, room)
    REFUSED(WRITE(format->wrong, 9, 0, room), SILJUVATT_REFUSAL_FIELD);
    REFUSED(WRITE(format->fields, format->limit + 1, 0, room), SILJUVATT_REFUSAL_SIZE);
    REFUSED(WRITE(format->fields, 9, 2, room), SILJUVATT_REFUSAL_INDEX);
    REFUSED(WRITE(format->fields, 9, 0, room - 1), SILJUVATT_REFUSAL_ROOM);
#undef WRITE
}

static void bad_image(struct bad_image bad)
{
    REFUSED(RECEIVE(0, bad.image), bad.number);
}

static void images(const struct format *format)
{
    size_t i;

    REFUSED(siljuvatt_receive(STATION, store, 9, 0, format->single.bytes, format->single.length),
            SILJUVATT_REFUSAL_STORE);
    REFUSED(RECEIVE(2, format->single), SILJUVATT_REFUSAL_FIELD);
    for (i = 0; i < format->bad_images; i++) {
        bad_image(format->bad[i]);
    }
}

static void orphans(const struct format *format)
{
    REFUSED(RECEIVE(0, format->later_middle), SILJUVATT_REFUSAL_ORPHAN);
    REFUSED(RECEIVE(0, format->end), SILJUVATT_REFUSAL_ORPHAN);
}

/* A start is kept, the image has another number than awaited, and the stream is idle. */
static void step(const struct format *format, struct image image)
{
    MADE(RECEIVE(0, format->start), KIND(SILJUVATT_KEPT));
    MADE_IDLE(RECEIVE(0, image), SILJUVATT_REFUSAL_STEP);
    orphans(format);
}

static void receiving(const struct format *format)
{
    MADE(siljuvatt_station_new(STATION, format->number), 0);
    READ_ONLY(RECEIVE(0, format->single), KIND(SILJUVATT_FILTERED));
    MADE(OPEN(0, format->fields), 0);
    images(format);
    orphans(format);
    step(format, format->later_middle);
    step(format, format->later_end);
    MADE(RECEIVE(0, format->start), KIND(SILJUVATT_KEPT));
    images(format);
    MADE(RECEIVE(0, format->end), KIND(SILJUVATT_PACKET) + 9);
    images(format);
    orphans(format);
}

/* The stream collects 2,048 bytes, the last of them in a middle; the image would pass that, and the stream is idle. */
static void pass_limit(struct image image)
{
    static const uint8_t packet[SILJUVATT_EXTENDED_LIMIT];
    struct image piece;
    size_t k;

    for (k = 0; k < 256; k++) {
        piece.length = siljuvatt_write_piece(SILJUVATT_EXTENDED, extended.fields, extended.fields_length, packet,
                                             sizeof packet, k, piece.bytes, sizeof piece.bytes);
        if (k == 255) {
            piece.bytes[3] = 0x3F;
        }
        MADE(RECEIVE(0, piece), KIND(SILJUVATT_KEPT));
    }
    MADE_IDLE(RECEIVE(0, image), SILJUVATT_REFUSAL_LONG);
    orphans(&extended);
}

/* Extended only. The number awaited after 256 pieces is 0. */
static void too_long(void)
{
    static const struct image middle = {13, {0x88, 0x45, 0x00, 0x00, 0x10, 1, 2, 3, 4, 5, 6, 7, 8}};
    static const struct image end = {6, {0x81, 0x45, 0x00, 0x80, 0x10, 9}};
    const struct format *format = &extended;

    MADE(siljuvatt_station_new(STATION, SILJUVATT_EXTENDED), 0);
    MADE(OPEN(0, format->fields), 0);
    pass_limit(middle);
    pass_limit(end);
}

static void slots(const struct format *format)
{
    uint8_t other[SILJUVATT_EXTENDED_FIELDS] = {1, 6, 0, 0, 2};
    uint32_t i;

    REFUSED(OPEN(2, format->fields), SILJUVATT_REFUSAL_FIELD);
    REFUSED(OPEN(0, format->wrong), SILJUVATT_REFUSAL_FIELD);
    REFUSED(OPEN(0, format->fields), SILJUVATT_REFUSAL_TAKEN);
    REFUSED(siljuvatt_close(STATION, 1), SILJUVATT_REFUSAL_CLOSED);
    REFUSED(siljuvatt_close(STATION, 16), SILJUVATT_REFUSAL_CLOSED);
    REFUSED(siljuvatt_read(STATION, STORE, 1, &lent->start), SILJUVATT_REFUSAL_CLOSED);
    for (i = 1; i < 16; i++) {
        MADE(OPEN(1, other), i);
        other[1]++;
    }
    REFUSED(OPEN(1, other), SILJUVATT_REFUSAL_FULL);
    REFUSED(siljuvatt_read(STATION, STORE, 1, &lent->start), SILJUVATT_REFUSAL_NOPACKET);
    REFUSED(siljuvatt_read(STATION, store, 9, 0, &lent->start), SILJUVATT_REFUSAL_STORE);
}

static void no_state(const struct format *format)
{
    REFUSED(RECEIVE(0, format->single), SILJUVATT_REFUSAL_STATE);
    REFUSED(OPEN(0, format->fields), SILJUVATT_REFUSAL_STATE);
    REFUSED(siljuvatt_close(STATION, 0), SILJUVATT_REFUSAL_STATE);
    REFUSED(siljuvatt_read(STATION, STORE, 0, &lent->start), SILJUVATT_REFUSAL_STATE);
}

/* Another layout, no format, and records that are none. */
static void unsound(const struct format *format)
{
    REFUSED(siljuvatt_station_new(STATION, 2), SILJUVATT_REFUSAL_FIELD);
    REFUSED(siljuvatt_station_new(lent->station, SILJUVATT_STATION_SIZE - 1, format->number), SILJUVATT_REFUSAL_STATE);
    lent->station[sizeof lent->station - 1] = SILJUVATT_STATION_LAYOUT + 1;
    no_state(format);
    MADE(siljuvatt_station_new(STATION, format->number), 0);
    lent->station[sizeof lent->station - 2] = 2;
    no_state(format);
    MADE(siljuvatt_station_new(STATION, format->number), 0);
    memset(lent->station, 0xFF, SILJUVATT_SLOTS * 8);
    no_state(format);
}

static void stations(const struct format *format)
{
    int failed = failures;

    splitting(format);
    receiving(format);
    slots(format);
    unsound(format);
    if (failures != failed) {
        printf("these %d in the %s format\n", failures - failed, format->name);
    }
}

#define MASTER lent->master, sizeof lent->master

static void unsound_master(void)
{
    REFUSED(siljuvatt_master_start(MASTER, SILJUVATT_POLL, 22), SILJUVATT_REFUSAL_STATE);
    REFUSED(siljuvatt_master_reply(MASTER, 0, 22, 4), SILJUVATT_REFUSAL_STATE);
    REFUSED(siljuvatt_master_timeout(MASTER), SILJUVATT_REFUSAL_STATE);
}

static void masters(void)
{
    REFUSED(siljuvatt_master_new(lent->master, SILJUVATT_MASTER_SIZE - 1), SILJUVATT_REFUSAL_STATE);
    MADE(siljuvatt_master_new(MASTER), 0);
    REFUSED(siljuvatt_master_start(MASTER, 4, 22), SILJUVATT_REFUSAL_FIELD);
    REFUSED(siljuvatt_master_start(MASTER, SILJUVATT_POLL, 64), SILJUVATT_REFUSAL_FIELD);
    REFUSED(siljuvatt_master_reply(MASTER, 0, 22, 2), SILJUVATT_REFUSAL_IDLE);
    REFUSED(siljuvatt_master_timeout(MASTER), SILJUVATT_REFUSAL_IDLE);
    MADE(siljuvatt_master_start(MASTER, SILJUVATT_COMMAND, 22), KIND(SILJUVATT_SEND));
    REFUSED(siljuvatt_master_start(MASTER, SILJUVATT_POLL, 22), SILJUVATT_REFUSAL_BUSY);
    REFUSED(siljuvatt_master_reply(MASTER, 2, 22, 4), SILJUVATT_REFUSAL_FIELD);
    REFUSED(siljuvatt_master_reply(MASTER, 1, 22, 4), SILJUVATT_REFUSAL_NOTAWAITED);
    lent->master[0] = 2;
    unsound_master();
    MADE(siljuvatt_master_new(MASTER), 0);
    lent->master[sizeof lent->master - 1] = SILJUVATT_MASTER_LAYOUT + 1;
    unsound_master();
}

#define WATCH lent->watch, sizeof lent->watch

static void watches(void)
{
    REFUSED(siljuvatt_watch_new(lent->watch, SILJUVATT_WATCH_SIZE - 1, 0), SILJUVATT_REFUSAL_STATE);
    MADE(siljuvatt_watch_new(WATCH, 1000), 0);
    REFUSED(siljuvatt_watch_heard(WATCH, 2, 2000), SILJUVATT_REFUSAL_FIELD);
    REFUSED(siljuvatt_watch_heard(lent->watch, SILJUVATT_WATCH_SIZE - 1, 0, 2000), SILJUVATT_REFUSAL_STATE);
    REFUSED(siljuvatt_watch_check(lent->watch, SILJUVATT_WATCH_SIZE + 1, 2000), SILJUVATT_REFUSAL_STATE);
    READ_ONLY(siljuvatt_watch_check(WATCH, 16999), 0);
    MADE(siljuvatt_watch_check(WATCH, 17000), UINT32_C(3) << 25);
    lent->watch[sizeof lent->watch - 1] = SILJUVATT_WATCH_LAYOUT + 1;
    REFUSED(siljuvatt_watch_heard(WATCH, 0, 2000), SILJUVATT_REFUSAL_STATE);
    REFUSED(siljuvatt_watch_check(WATCH, 40000), SILJUVATT_REFUSAL_STATE);
}

int main(void)
{
    struct sigaction action;

    memset(&action, 0, sizeof action);
    action.sa_handler = stored;
    sigaction(SIGSEGV, &action, NULL);
    sigaction(SIGBUS, &action, NULL);
    page = (size_t)sysconf(_SC_PAGESIZE);
    lent = map(sizeof *lent);
    store = map(SILJUVATT_STORE_SIZE);
    protection();
    stations(&extended);
    stations(&standard);
    too_long();
    masters();
    watches();
    printf("%d calls, %d failed\n", calls, failures);
    return failures != 0;
}
