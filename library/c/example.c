/*
 * A bench in small: two boards send at the same time, one on each bus, and each board's packets come out whole.
 * Then a lost frame and how it is told, a command that goes over to the other bus, and a bus that falls silent.
 *
 *     cc -std=c11 -I library/include library/c/example.c crates/siljuvatt/out/libsiljuvatt.a -o example && ./example
 *
 * It prints what it does, and ends with 1 if an answer is not as the comments say.
 */
#include "siljuvatt.h"

#include <stdio.h>
#include <stdlib.h>
#include <string.h>

enum { MOST_PIECES = 8 };

/* A station is bytes of ours, and so is its store. Here they stand for the whole run; a stack or a heap would do. */
static uint8_t station[SILJUVATT_STATION_SIZE];
static uint8_t store[SILJUVATT_STORE_SIZE];

/* The pieces of a packet as the images of their frames. */
struct pieces {
    uint32_t count;
    uint32_t lengths[MOST_PIECES];
    uint8_t images[MOST_PIECES][SILJUVATT_EXTENDED_IMAGE];
};

/* Priority, source, group, destination, function: what tells one stream of a bus from another. */
static const uint8_t board_5[SILJUVATT_EXTENDED_FIELDS] = {1, 5, 0, 0, 2};
static const uint8_t board_6[SILJUVATT_EXTENDED_FIELDS] = {2, 6, 0, 0, 2};

/* Packets are bytes, never numbers: the zeros in front of a serial are part of it. */
static const char serial_5[] = "serial 004127019 lot 07";
static const char serial_6[] = "serial 000958340 lot 12 rev 003";

static void expect(bool holds, const char *what)
{
    if (!holds) {
        fprintf(stderr, "not as expected: %s\n", what);
        exit(1);
    }
}

static bool is(uint32_t answer, enum siljuvatt_refusal refusal)
{
    return SILJUVATT_IS_REFUSED(answer) && SILJUVATT_NUMBER(answer) == (uint32_t)refusal;
}

static void print_refusal(const char *what, uint32_t answer)
{
    printf("%srefused %u %s\n", what, (unsigned)SILJUVATT_NUMBER(answer), siljuvatt_refusal_name(answer));
}

/* Opens a stream for each board. A key is a bus and fields; slots are given from 0 on. */
static void open_streams(void)
{
    uint32_t answer = siljuvatt_station_new(station, sizeof station, SILJUVATT_EXTENDED);
    expect(answer == 0, "a new station");

    answer = siljuvatt_open(station, sizeof station, SILJUVATT_BUS_A, board_5, sizeof board_5);
    expect(answer == 0, "board 5 has slot 0");
    answer = siljuvatt_open(station, sizeof station, SILJUVATT_BUS_B, board_6, sizeof board_6);
    expect(answer == 1, "board 6 has slot 1");
    printf("open: board 5 on bus A in slot 0, board 6 on bus B in slot 1\n");

    /* The same key again is refused, and nothing has changed. */
    answer = siljuvatt_open(station, sizeof station, SILJUVATT_BUS_B, board_6, sizeof board_6);
    expect(is(answer, SILJUVATT_REFUSAL_TAKEN), "the key is taken");
    print_refusal("open: board 6 again is ", answer);
}

/* Splits a packet: how many pieces, then the image of each, written to memory of ours. */
static void split(const uint8_t *fields, const char *text, struct pieces *pieces)
{
    const uint8_t *packet = (const uint8_t *)text;
    size_t size = strlen(text);

    pieces->count = siljuvatt_piece_count(SILJUVATT_EXTENDED, size);
    expect(!SILJUVATT_IS_REFUSED(pieces->count) && pieces->count <= MOST_PIECES, "a number of pieces");
    for (uint32_t k = 0; k < pieces->count; k++) {
        uint32_t length = siljuvatt_write_piece(SILJUVATT_EXTENDED, fields, SILJUVATT_EXTENDED_FIELDS, packet, size, k,
                                                pieces->images[k], sizeof pieces->images[k]);
        /* An answer is a length only if it is no refusal. */
        expect(!SILJUVATT_IS_REFUSED(length), "a piece");
        pieces->lengths[k] = length;
    }
    printf("split: \"%s\", %u bytes, is %u pieces\n", text, (unsigned)size, (unsigned)pieces->count);
}

/* Hands piece k to the station, as a driver does that has heard it on a bus, and prints the answer. */
static uint32_t hear(uint8_t bus, const struct pieces *pieces, uint32_t k)
{
    uint32_t answer = siljuvatt_receive(station, sizeof station, store, sizeof store, bus, pieces->images[k],
                                        pieces->lengths[k]);
    printf("bus %c, piece %u: ", bus == SILJUVATT_BUS_A ? 'A' : 'B', (unsigned)k);
    if (SILJUVATT_IS_REFUSED(answer)) {
        print_refusal("", answer);
        return answer;
    }
    if (SILJUVATT_KIND(answer) == SILJUVATT_PACKET) {
        printf("packet of %u bytes", (unsigned)SILJUVATT_NUMBER(answer));
    } else {
        printf("%s", SILJUVATT_KIND(answer) == SILJUVATT_KEPT ? "kept" : "filtered");
    }
    printf("%s\n", SILJUVATT_BROKE(answer) ? ", an older packet is dropped" : "");
    return answer;
}

/* Reads a slot's packet where it lies: nothing is copied. */
static void read_packet(size_t slot, const char *text)
{
    size_t start = 0;
    uint32_t length = siljuvatt_read(station, sizeof station, store, sizeof store, slot, &start);
    expect(!SILJUVATT_IS_REFUSED(length), "a packet is there");
    expect(start == slot * SILJUVATT_AREA_SIZE, "it lies at the head of the slot's area");
    expect(length == strlen(text) && memcmp(store + start, text, length) == 0, "it is the packet that was sent");
    printf("slot %u: \"%.*s\"\n", (unsigned)slot, (int)length, (const char *)store + start);
}

/* Frames of the two boards in turn: neither disturbs the other. */
static void receive_both(const struct pieces *five, const struct pieces *six)
{
    for (uint32_t k = 0; k < six->count; k++) {
        uint32_t answer;
        if (k < five->count) {
            answer = hear(SILJUVATT_BUS_A, five, k);
            expect(SILJUVATT_KIND(answer) == (k + 1 < five->count ? SILJUVATT_KEPT : SILJUVATT_PACKET), "of board 5");
        }
        answer = hear(SILJUVATT_BUS_B, six, k);
        expect(SILJUVATT_KIND(answer) == (k + 1 < six->count ? SILJUVATT_KEPT : SILJUVATT_PACKET), "of board 6");
    }
    read_packet(0, serial_5);
    read_packet(1, serial_6);
}

/* Piece 1 of board 6 is lost: piece 2 is refused, and so is what follows, up to the next start. */
static void lose_a_piece(const struct pieces *six)
{
    uint32_t answer = hear(SILJUVATT_BUS_B, six, 0);
    expect(SILJUVATT_KIND(answer) == SILJUVATT_KEPT && !SILJUVATT_BROKE(answer), "a start after a whole packet");
    answer = hear(SILJUVATT_BUS_B, six, 2);
    expect(is(answer, SILJUVATT_REFUSAL_STEP), "1 is awaited");
    answer = hear(SILJUVATT_BUS_B, six, 3);
    expect(is(answer, SILJUVATT_REFUSAL_ORPHAN), "none is collected");

    size_t start = 0;
    answer = siljuvatt_read(station, sizeof station, store, sizeof store, 1, &start);
    expect(is(answer, SILJUVATT_REFUSAL_NOPACKET), "no packet of board 6");
    print_refusal("slot 1: ", answer);
    read_packet(0, serial_5); /* board 5's is as it was */
}

/* A start before the end drops the packet that was begun; the new one is whole. */
static void begin_again(const struct pieces *six)
{
    expect(SILJUVATT_KIND(hear(SILJUVATT_BUS_B, six, 0)) == SILJUVATT_KEPT, "a start");
    uint32_t answer = hear(SILJUVATT_BUS_B, six, 0);
    expect(SILJUVATT_KIND(answer) == SILJUVATT_KEPT && SILJUVATT_BROKE(answer), "an older packet is dropped");
    for (uint32_t k = 1; k < six->count; k++) {
        expect(!SILJUVATT_IS_REFUSED(hear(SILJUVATT_BUS_B, six, k)), "the new packet's pieces");
    }
    read_packet(1, serial_6);
}

static void expect_send(uint32_t answer, uint8_t bus)
{
    expect(!SILJUVATT_IS_REFUSED(answer) && SILJUVATT_KIND(answer) == SILJUVATT_SEND, "to send");
    expect(SILJUVATT_NUMBER(answer) == bus, "on that bus");
    printf("send on bus %c\n", bus == SILJUVATT_BUS_A ? 'A' : 'B');
}

/* A command is sent twice on the chosen bus and then once on the other, which stays chosen. */
static void command(void)
{
    const uint8_t node = 22, answer_function = 4;
    uint8_t master[SILJUVATT_MASTER_SIZE];
    expect(siljuvatt_master_new(master, sizeof master) == 0, "a new master");

    printf("command to node %d: ", node);
    expect_send(siljuvatt_master_start(master, sizeof master, SILJUVATT_COMMAND, node), SILJUVATT_BUS_A);
    printf("timeout: ");
    expect_send(siljuvatt_master_timeout(master, sizeof master), SILJUVATT_BUS_A);
    printf("timeout: ");
    expect_send(siljuvatt_master_timeout(master, sizeof master), SILJUVATT_BUS_B);

    /* A late reply to an earlier send does not count. */
    uint32_t answer = siljuvatt_master_reply(master, sizeof master, SILJUVATT_BUS_A, node, answer_function);
    expect(is(answer, SILJUVATT_REFUSAL_NOTAWAITED), "a reply on bus A");
    print_refusal("reply on bus A: ", answer);
    answer = siljuvatt_master_reply(master, sizeof master, SILJUVATT_BUS_B, node, answer_function);
    expect(SILJUVATT_KIND(answer) == SILJUVATT_DONE && !SILJUVATT_IS_REFUSED(answer), "a reply on bus B");
    printf("reply on bus B: done\n");

    printf("poll of node %d: ", node);
    expect_send(siljuvatt_master_start(master, sizeof master, SILJUVATT_POLL, node), SILJUVATT_BUS_B);
}

/* A bus that was silent for 16,000 ms is to be reset. The count may run over between two times. */
static void silence(void)
{
    const uint32_t begin = UINT32_C(4294967000);
    uint8_t watch[SILJUVATT_WATCH_SIZE];
    expect(siljuvatt_watch_new(watch, sizeof watch, begin) == 0, "a new watch");
    uint32_t answer = siljuvatt_watch_heard(watch, sizeof watch, SILJUVATT_BUS_B, begin + 9000);
    expect(answer == SILJUVATT_BUS_B, "bus B is heard");
    answer = siljuvatt_watch_check(watch, sizeof watch, begin + SILJUVATT_SILENCE - 1);
    expect(answer == 0, "no bus is silent");
    printf("watch: after 15,999 ms no bus is to be reset\n");
    answer = siljuvatt_watch_check(watch, sizeof watch, begin + SILJUVATT_SILENCE);
    expect(SILJUVATT_RESET_A(answer) && !SILJUVATT_RESET_B(answer), "bus A is silent");
    printf("watch: after 16,000 ms bus A is to be reset\n");
}

int main(void)
{
    struct pieces five, six;

    open_streams();
    split(board_5, serial_5, &five);
    split(board_6, serial_6, &six);
    receive_both(&five, &six);
    lose_a_piece(&six);
    begin_again(&six);
    command();
    silence();
    return 0;
}
