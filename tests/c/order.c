/* In which order channels are served (document 02, A4): each stands in the line of a rank while it has a packet of that rank ready, is
 * served from the head, and goes to the tail if it has more. A node of 16 channels that all send; a channel's number is its index. */
#include <string.h>

#include "check.h"
#include "peatwimple.h"

enum { RECORDS = PEAT_RECORDS, SLOTS = PEAT_SLOTS, PAYLOAD = 4, TIMEOUT = 5, PACKET = 12 + PAYLOAD };
enum { OCTETS = RECORDS * SLOTS * PAYLOAD, LENGTHS = RECORDS * SLOTS, LINE = PEAT_LINES / 3 };
enum { RESENT = 1, NEW = 2 };

static const PeatNode NODE = {64, PEAT_PROTOCOL};

static PeatChannel table[RECORDS];
static uint8_t memory[OCTETS];
static uint16_t lengths[LENGTHS];
static uint8_t lines[PEAT_LINES], before[PEAT_LINES];

static const PeatLent LENT = {table, RECORDS, memory, OCTETS, lengths, LENGTHS, lines, PEAT_LINES};

/* Whose packet is handed out next; as many as there are records if none is. */
static size_t served(void) {
    uint8_t packet[PACKET];
    PeatSaid said = peat_lent_next_packet(&LENT, NODE, packet, sizeof packet);
    CHECK(said.number == (said.index < RECORDS ? PEAT_DONE : PEAT_NOTHING));
    return said.index;
}

static void acknowledge(size_t index, uint8_t kind, uint8_t number) {
    PeatFields fields = {64, PEAT_PROTOCOL, PEAT_VERSION, 0, PEAT_WHOLE, 0, 0, 0, 0, 65};
    uint8_t ack[PEAT_ACK_OCTETS], none[PEAT_ACK_OCTETS];
    fields.kind = kind;
    fields.channel = (uint16_t)index;
    fields.number = number;
    CHECK(peat_write_packet(fields, NULL, 0, NULL, 0, ack, sizeof ack).answer == PEAT_DONE);
    CHECK(peat_lent_arrival(&LENT, NODE, ack, sizeof ack, none, sizeof none).number == PEAT_DONE);
}

/* A unit of so many octets. */
static void transfer(size_t index, size_t count) {
    static const uint8_t unit[SLOTS * PAYLOAD];
    CHECK(peat_lent_transfer(&LENT, index, unit, count).number == PEAT_DONE);
}

static void ticks(int count) {
    while (count-- > 0) {
        CHECK(peat_lent_tick(&LENT).number == PEAT_DONE);
    }
}

/* All channels are open, with this window. */
static void open_all(size_t window) {
    PeatSettings settings[RECORDS];
    size_t index;
    for (index = 0; index < RECORDS; index++) {
        PeatSettings one = {{(uint16_t)index, 65, PEAT_SENDS, PEAT_NO_PREFIX, PEAT_NO_PREFIX}, {1, SLOTS, PAYLOAD, SLOTS, TIMEOUT, 9, 9, 0, 0, 0, 0}};
        settings[index] = one;
        settings[index].limits.window = window;
    }
    CHECK(peat_lent_settings(&LENT, settings, RECORDS).number == PEAT_DONE);
    for (index = 0; index < RECORDS; index++) {
        CHECK(peat_lent_open(&LENT, index).number == PEAT_DONE);
        CHECK(served() == index);
        acknowledge(index, PEAT_CONTROL_ACK, 0);
    }
}

/* The line of a rank with these in it, from the head on; an index of RECORDS is nobody. */
static void line_of(uint8_t line[LINE], uint8_t first, uint8_t second, uint8_t third) {
    const uint8_t indexes[3] = {first, second, third};
    memset(line, 0, LINE);
    while (line[0] < 3 && indexes[line[0]] < RECORDS) {
        line[line[0] + 1] = indexes[line[0]];
        line[0]++;
    }
}

static int is_line(size_t rank, uint8_t first, uint8_t second, uint8_t third) {
    uint8_t line[LINE];
    line_of(line, first, second, third);
    return memcmp(lines + rank * LINE, line, LINE) == 0;
}

/* A window of 1, and each packet acknowledged at once: so each comes back behind all others. */
static void sixteen_take_turns(void) {
    size_t turn;
    open_all(1);
    for (turn = 0; turn < 2 * RECORDS; turn++) {
        transfer(turn % RECORDS, 1);
    }
    for (turn = 0; turn < 2 * RECORDS; turn++) {
        CHECK(served() == turn % RECORDS);
        acknowledge(turn % RECORDS, PEAT_DATA_ACK, (uint8_t)(turn / RECORDS + 1));
    }
    CHECK(served() == RECORDS);
}

/* The first packet that waits to be resent is acknowledged, and its channel leaves; the second ends its timer later. */
static void out_by_an_ack_and_back_last(void) {
    open_all(4);
    transfer(0, 1);
    transfer(1, 1);
    transfer(2, 1);
    CHECK(served() == 0 && served() == 1 && served() == 2);
    ticks(1);
    transfer(0, 1);
    CHECK(served() == 0);
    ticks(TIMEOUT - 1);
    CHECK(is_line(RESENT, 0, 1, 2));
    acknowledge(0, PEAT_DATA_ACK, 1);
    CHECK(is_line(RESENT, 1, 2, RECORDS));
    ticks(1);
    CHECK(is_line(RESENT, 1, 2, 0));
    CHECK(served() == 1 && served() == 2 && served() == 0);
}

/* Those who join in one tick stand by index, whatever the order in which their packets went out. */
static void by_index_in_a_tick(void) {
    open_all(4);
    transfer(5, 1);
    transfer(3, 1);
    transfer(9, 1);
    CHECK(served() == 5 && served() == 3 && served() == 9);
    ticks(TIMEOUT);
    CHECK(is_line(RESENT, 3, 5, 9));
    CHECK(served() == 3 && served() == 5 && served() == 9);
}

/* 11 at the head: nobody moves, no smaller packet goes before, and with room the same packet goes out. */
static void too_small_for_the_head(void) {
    uint8_t packet[PACKET];
    size_t room;
    open_all(4);
    transfer(2, 3);
    transfer(0, 0);
    memcpy(before, lines, sizeof lines);
    for (room = 0; room < 15; room++) {
        PeatSaid said = peat_lent_next_packet(&LENT, NODE, packet, room);
        CHECK(said.number == PEAT_SMALL && said.length == 15 && said.index == 2);
        CHECK(memcmp(lines, before, sizeof lines) == 0);
    }
    CHECK(peat_lent_next_packet(&LENT, NODE, packet, 15).number == PEAT_DONE && packet[6] == 2);
    CHECK(served() == 0 && served() == RECORDS);
}

/* The channel of index 0 has a unit of 100 segments to send; so many of them are out when that of index 1 has an event. */
static void busy_and_fan(size_t out) {
    size_t packet;
    open_all(64);
    transfer(0, 100 * PAYLOAD);
    for (packet = 0; packet < out; packet++) {
        CHECK(served() == 0);
    }
    transfer(1, 1);
    CHECK(served() == 1 || served() == 1);
}

/* Not even one who is ready and does not stand in its line, as only a caller can make it. */
static void a_question_moves_nobody(void) {
    open_all(4);
    transfer(2, 1);
    transfer(1, 1);
    memcpy(before, lines, sizeof lines);
    CHECK(peat_lent_would_transfer(&LENT, 0, 1).number == PEAT_DONE);
    CHECK(peat_lent_would_transfer(&LENT, 1, 1).number == PEAT_DONE);
    CHECK(peat_lent_would_transfer(&LENT, 1, SIZE_MAX).number == PEAT_LONG);
    CHECK(memcmp(lines, before, sizeof lines) == 0);
    line_of(lines + NEW * LINE, 2, RECORDS, RECORDS);
    CHECK(peat_lent_would_transfer(&LENT, 1, 1).number == PEAT_DONE);
    CHECK(served() == 2 && served() == RECORDS);
}

/* Lines that the caller wrote: who stands with nothing ready is passed over and stays, who does not stand is not served, until a tick puts
 * all right. */
static void passed_over(void) {
    open_all(4);
    transfer(0, 1);
    transfer(1, 1);
    transfer(2, 1);
    line_of(lines + RESENT * LINE, 1, 0, RECORDS);
    line_of(lines + NEW * LINE, 3, 2, 1);
    CHECK(served() == 2 && served() == 1 && served() == RECORDS);
    CHECK(is_line(RESENT, 0, RECORDS, RECORDS) && is_line(NEW, 3, RECORDS, RECORDS));
    ticks(1);
    CHECK(is_line(RESENT, RECORDS, RECORDS, RECORDS) && is_line(NEW, 0, RECORDS, RECORDS));
    CHECK(served() == 0);
}

int main(void) {
    size_t out;
    sixteen_take_turns();
    out_by_an_ack_and_back_last();
    by_index_in_a_tick();
    too_small_for_the_head();
    for (out = 0; out < 64; out++) {
        busy_and_fan(out);
    }
    a_question_moves_nobody();
    passed_over();
    return wrong;
}
