/* The answer names the channel that was served, and with 11 tells the octets wanted: a node with three senders, and a receiver of packets such
 * as the third's. peat_would_transfer tells what a transfer would answer, and nothing changes. */
#include <string.h>

#include "check.h"
#include "peatwimple.h"

enum { RECORDS = 4, SLOTS = 4, PAYLOAD = 8, OCTETS = RECORDS * SLOTS * PAYLOAD, LENGTHS = RECORDS * SLOTS };

static const PeatNode NODE = {64, PEAT_PROTOCOL};

static PeatChannel table[RECORDS];
static uint8_t memory[OCTETS];
static uint16_t lengths[LENGTHS];
static uint8_t lines[PEAT_LINES];

static const PeatLent LENT = {table, RECORDS, memory, OCTETS, lengths, LENGTHS, lines, PEAT_LINES};

static int says(PeatSaid said, uint32_t number, size_t index) {
    return said.number == number && said.index == index;
}

/* 11, so many octets wanted, by this channel. */
static int wants(PeatSaid said, size_t length, size_t index) {
    return says(said, PEAT_SMALL, index) && said.length == length && said.reason == 0 && said.confirmed == 0;
}

/* Each record has the channel numbered one more than its index. Those of index 0, 1 and 2 send to the node itself, that of index 3 receives. */
static void make(void) {
    PeatSettings settings[RECORDS];
    size_t index;
    for (index = 0; index < RECORDS; index++) {
        PeatSettings one = {{(uint16_t)(index + 1), 64, PEAT_SENDS, PEAT_NO_PREFIX, PEAT_NO_PREFIX}, {2, SLOTS, PAYLOAD, 2, 1, 1, 0, 0, 0, 0, 0}};
        settings[index] = one;
    }
    settings[3].addresses.direction = PEAT_RECEIVES;
    CHECK(says(peat_lent_settings(&LENT, settings, RECORDS), PEAT_DONE, RECORDS));
    CHECK(says(peat_lent_settings(&LENT, settings, RECORDS - 1), PEAT_SETTINGS, RECORDS));
}

/* The Ack that the other end of this sender's channel would write. */
static void ack_of(size_t index, uint8_t kind, uint8_t number, uint8_t ack[PEAT_ACK_OCTETS]) {
    PeatFields fields = {64, PEAT_PROTOCOL, PEAT_VERSION, 0, PEAT_WHOLE, 0, 0, 0, 0, 64};
    fields.kind = kind;
    fields.channel = (uint16_t)(index + 1);
    fields.number = number;
    CHECK(peat_write_packet(fields, NULL, 0, NULL, 0, ack, PEAT_ACK_OCTETS).answer == PEAT_DONE);
}

/* A packet of so many octets is made one for the receiver. */
static void readdress(uint8_t *packet, size_t count) {
    uint16_t sum;
    packet[6] = RECORDS;
    sum = peat_crc(packet, count - 2);
    packet[count - 2] = (uint8_t)(sum >> 8);
    packet[count - 1] = (uint8_t)sum;
}

static void open_all(void) {
    uint8_t packet[12 + PAYLOAD], ack[PEAT_ACK_OCTETS], none[PEAT_ACK_OCTETS];
    size_t index;
    CHECK(says(peat_lent_next_packet(&LENT, NODE, packet, sizeof packet), PEAT_NOTHING, RECORDS));
    for (index = 0; index < RECORDS; index++) {
        CHECK(says(peat_lent_open(&LENT, index), PEAT_DONE, index));
        CHECK(says(peat_lent_open(&LENT, index), PEAT_STATE, index));
    }
    CHECK(says(peat_lent_open(&LENT, RECORDS + 1), PEAT_NO_CHANNEL, RECORDS));
    for (index = 0; index < 3; index++) {
        CHECK(says(peat_lent_next_packet(&LENT, NODE, packet, sizeof packet), PEAT_DONE, index));
        ack_of(index, PEAT_CONTROL_ACK, 0, ack);
        CHECK(says(peat_lent_arrival(&LENT, NODE, ack, sizeof ack, none, sizeof none), PEAT_DONE, index));
    }
    /* One like the last Open is for the receiver here. */
    readdress(packet, 12);
    CHECK(says(peat_lent_arrival(&LENT, NODE, packet, 12, ack, sizeof ack), PEAT_DONE, 3));
}

/* Each of three senders has a unit out; their acks come in another order. */
static void whose_unit_was_confirmed(void) {
    static const size_t order[3] = {1, 2, 0};
    uint8_t packet[12 + PAYLOAD], ack[PEAT_ACK_OCTETS], none[PEAT_ACK_OCTETS];
    size_t index, turn;
    for (index = 0; index < 3; index++) {
        CHECK(says(peat_lent_transfer(&LENT, index, (const uint8_t *)"event", 5), PEAT_DONE, index));
        CHECK(wants(peat_lent_next_packet(&LENT, NODE, packet, 16), 17, index));
        CHECK(says(peat_lent_next_packet(&LENT, NODE, packet, sizeof packet), PEAT_DONE, index));
    }
    readdress(packet, 17);
    CHECK(wants(peat_lent_arrival(&LENT, NODE, packet, 17, ack, 11), 12, RECORDS));
    CHECK(says(peat_lent_arrival(&LENT, NODE, packet, 16, ack, sizeof ack), PEAT_SHORT, RECORDS));
    CHECK(says(peat_lent_arrival(&LENT, NODE, packet, 17, ack, sizeof ack), PEAT_DONE, 3));
    CHECK(says(peat_lent_arrival(&LENT, NODE, packet, 17, ack, sizeof ack), PEAT_REPEATED, 3));
    for (turn = 0; turn < 3; turn++) {
        PeatSaid said;
        ack_of(order[turn], PEAT_DATA_ACK, 1, ack);
        said = peat_lent_arrival(&LENT, NODE, ack, sizeof ack, none, sizeof none);
        CHECK(says(said, PEAT_DONE, order[turn]) && said.confirmed == 1 && said.length == 0);
        CHECK(says(peat_lent_arrival(&LENT, NODE, ack, sizeof ack, none, sizeof none), PEAT_IGNORED, order[turn]));
    }
}

static void units_wanted(void) {
    uint8_t unit[5] = {0};
    CHECK(wants(peat_lent_take(&LENT, 3, unit, 4), 5, 3));
    CHECK(wants(peat_lent_take(&LENT, 3, NULL, 0), 5, 3));
    CHECK(says(peat_lent_take(&LENT, 3, unit, 5), PEAT_DONE, 3) && memcmp(unit, "event", 5) == 0);
    CHECK(says(peat_lent_take(&LENT, 3, unit, 5), PEAT_NOTHING, 3));
    CHECK(says(peat_lent_take(&LENT, 0, unit, 5), PEAT_STATE, 0));
}

/* Of a count of octets: the question, and then the transfer. */
static void asked(size_t count, uint32_t number) {
    static PeatChannel before[RECORDS];
    static const uint8_t unit[64];
    memcpy(before, table, sizeof table);
    CHECK(says(peat_lent_would_transfer(&LENT, 1, count), number, 1));
    CHECK(memcmp(before, table, sizeof table) == 0);
    CHECK(says(peat_lent_transfer(&LENT, 1, unit, count), number, 1));
}

static void the_question(void) {
    uint8_t memory_before[OCTETS];
    memcpy(memory_before, memory, OCTETS);
    CHECK(says(peat_lent_would_transfer(&LENT, 0, SIZE_MAX), PEAT_LONG, 0));
    CHECK(says(peat_lent_would_transfer(&LENT, 0, 16), PEAT_DONE, 0));
    CHECK(says(peat_lent_would_transfer(&LENT, 3, 0), PEAT_STATE, 3));
    CHECK(says(peat_lent_would_transfer(&LENT, SIZE_MAX, 0), PEAT_NO_CHANNEL, RECORDS));
    CHECK(says(peat_would_transfer(table, 3, memory, OCTETS, lengths, LENGTHS, lines, PEAT_LINES, 0, 0), PEAT_SETTINGS, 3));
    CHECK(memcmp(memory_before, memory, OCTETS) == 0);
    asked(17, PEAT_LONG);
    asked(9, PEAT_DONE);
    asked(8, PEAT_DONE);
    asked(16, PEAT_NO_ROOM);
    asked(0, PEAT_DONE);
    asked(0, PEAT_NO_ROOM);
}

/* The senders of index 1 and 2 have segments out and no resend left: both go inactive, and the lower is named. */
static void a_tick(void) {
    uint8_t packet[12 + PAYLOAD], unit[16];
    PeatSaid said;
    CHECK(says(peat_lent_transfer(&LENT, 2, NULL, 0), PEAT_DONE, 2));
    while (peat_lent_next_packet(&LENT, NODE, packet, sizeof packet).number == PEAT_DONE) {
    }
    said = peat_lent_tick(&LENT);
    CHECK(says(said, PEAT_INACTIVE, 1) && said.reason == PEAT_RETRIES && said.length == 0);
    CHECK(says(peat_lent_would_transfer(&LENT, 0, 0), PEAT_DONE, 0));
    CHECK(says(peat_lent_would_transfer(&LENT, 1, 0), PEAT_STATE, 1));
    CHECK(says(peat_lent_would_transfer(&LENT, 2, 0), PEAT_STATE, 2));
    CHECK(says(peat_lent_tick(&LENT), PEAT_DONE, RECORDS));
    CHECK(wants(peat_lent_reclaim(&LENT, 1, unit, 8), 9, 1));
    CHECK(says(peat_lent_reclaim(&LENT, 1, unit, sizeof unit), PEAT_DONE, 1));
    CHECK(says(peat_lent_open(&LENT, 1), PEAT_UNTAKEN, 1));
}

int main(void) {
    make();
    open_all();
    whose_unit_was_confirmed();
    units_wanted();
    the_question();
    a_tick();
    return wrong;
}
