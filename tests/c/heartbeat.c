/* Heartbeats (document 02, A2): who makes them and when, what answers them, and what follows when nothing does. A node with a sender and a
 * receiver; the other node is made up of single packets. A channel's number is its index. */
#include <string.h>

#include "check.h"
#include "peatwimple.h"

enum { RECORDS = 2, SENDER = 0, RECEIVER = 1, SLOTS = 4, PAYLOAD = 4, PREFIX = 3 };
enum { OCTETS = RECORDS * SLOTS * PAYLOAD, LENGTHS = RECORDS * SLOTS, PACKET = 12 + PREFIX + PAYLOAD };
enum { INTERVAL = 3, TIMEOUT = 2, RETRIES = 1 };

static const PeatNode NODE = {64, PEAT_PROTOCOL};

static PeatChannel table[RECORDS];
static uint8_t memory[OCTETS];
static uint16_t lengths[LENGTHS];
static uint8_t lines[PEAT_LINES];

static const PeatLent LENT = {table, RECORDS, memory, OCTETS, lengths, LENGTHS, lines, PEAT_LINES};

static int says(PeatSaid said, uint32_t number, size_t index) {
    return said.number == number && said.index == index;
}

/* What a packet of this kind for this channel is answered, with so much room for a reply. */
static PeatSaid arrive_in(size_t index, uint8_t kind, uint8_t number, uint8_t *reply, size_t room) {
    PeatFields fields = {64, PEAT_PROTOCOL, PEAT_VERSION, 0, PEAT_WHOLE, 0, 0, 0, 0, 65};
    uint8_t packet[12];
    fields.kind = kind;
    fields.channel = (uint16_t)index;
    fields.number = number;
    CHECK(peat_write_packet(fields, NULL, 0, NULL, 0, packet, sizeof packet).answer == PEAT_DONE);
    return peat_lent_arrival(&LENT, NODE, packet, sizeof packet, reply, room);
}

static PeatSaid arrive(size_t index, uint8_t kind, uint8_t number) {
    uint8_t reply[12 + PREFIX];
    return arrive_in(index, kind, number, reply, sizeof reply);
}

/* The packet that goes out next is of this kind and channel. */
static int hands_out(size_t index, uint8_t kind) {
    uint8_t packet[PACKET];
    PeatSaid said = peat_lent_next_packet(&LENT, NODE, packet, sizeof packet);
    return says(said, PEAT_DONE, index) && (packet[2] & 7) == kind && packet[6] == index;
}

static int hands_out_nothing(void) {
    uint8_t packet[PACKET];
    return says(peat_lent_next_packet(&LENT, NODE, packet, sizeof packet), PEAT_NOTHING, RECORDS);
}

static void ticks(int count) {
    while (count-- > 0) {
        CHECK(says(peat_lent_tick(&LENT), PEAT_DONE, RECORDS));
    }
}

/* Both channels are open; one has this interval, the other none. */
static void open_both(size_t lively, uint16_t retries) {
    static const PeatSettings settings[RECORDS] = {
        {{SENDER, 65, PEAT_SENDS, PEAT_NO_PREFIX, {PREFIX, {1, 2, 3}}}, {2, SLOTS, PAYLOAD, 2, TIMEOUT, 9, RETRIES, 0, 0, 0, 0}},
        {{RECEIVER, 65, PEAT_RECEIVES, PEAT_NO_PREFIX, {PREFIX, {1, 2, 3}}}, {2, SLOTS, PAYLOAD, 2, TIMEOUT, 9, RETRIES, 0, 0, 0, 0}},
    };
    PeatSettings these[RECORDS];
    memcpy(these, settings, sizeof settings);
    these[lively].limits.interval = INTERVAL;
    these[lively].limits.retries = retries;
    CHECK(says(peat_lent_settings(&LENT, these, RECORDS), PEAT_DONE, RECORDS));
    CHECK(says(peat_lent_open(&LENT, SENDER), PEAT_DONE, SENDER));
    CHECK(says(peat_lent_open(&LENT, RECEIVER), PEAT_DONE, RECEIVER));
    CHECK(hands_out(SENDER, PEAT_OPEN_COMMAND));
    CHECK(says(arrive(SENDER, PEAT_CONTROL_ACK, 0), PEAT_DONE, SENDER));
    CHECK(says(arrive(RECEIVER, PEAT_OPEN_COMMAND, 0), PEAT_DONE, RECEIVER));
    CHECK(table[lively].pulse.left == INTERVAL && table[1 - lively].pulse.left == 0);
}

/* A Heartbeat after tick 3, again after tick 5; tick 7 answers 9. */
static void dies(size_t index) {
    PeatSaid said;
    ticks(2);
    CHECK(lines[0] == 0);
    ticks(1);
    CHECK(lines[0] == 1 && lines[1] == index);
    CHECK(hands_out(index, PEAT_HEARTBEAT));
    ticks(2);
    CHECK(hands_out(index, PEAT_HEARTBEAT));
    ticks(1);
    said = peat_lent_tick(&LENT);
    CHECK(says(said, PEAT_INACTIVE, index) && said.reason == PEAT_UNANSWERED);
    CHECK(table[index].phase.state == PEAT_CLOSED && table[index].phase.reason == PEAT_UNANSWERED);
    CHECK(table[index].pulse.left == 0 && table[index].pulse.beat.state == PEAT_LONE_NONE);
    CHECK(table[1 - index].phase.state == PEAT_OPEN);
}

/* Units that were accepted and never went out, as the Heartbeat goes first: all are there to be reclaimed. */
static void a_sender_without_an_answer(void) {
    uint8_t unit[8];
    open_both(SENDER, RETRIES);
    CHECK(says(peat_lent_transfer(&LENT, SENDER, (const uint8_t *)"fan 3", 5), PEAT_DONE, SENDER));
    CHECK(says(peat_lent_transfer(&LENT, SENDER, NULL, 0), PEAT_DONE, SENDER));
    dies(SENDER);
    CHECK(hands_out_nothing());
    CHECK(says(peat_lent_open(&LENT, SENDER), PEAT_UNTAKEN, SENDER));
    CHECK(peat_lent_reclaim(&LENT, SENDER, unit, sizeof unit).length == 5 && memcmp(unit, "fan 3", 5) == 0);
    CHECK(says(peat_lent_reclaim(&LENT, SENDER, unit, sizeof unit), PEAT_DONE, SENDER));
    CHECK(says(peat_lent_reclaim(&LENT, SENDER, unit, sizeof unit), PEAT_NOTHING, SENDER));
}

/* Its complete unit, of no octets, stays to be taken. */
static void a_receiver_without_an_answer(void) {
    uint8_t unit[8];
    open_both(RECEIVER, RETRIES);
    CHECK(says(arrive(RECEIVER, PEAT_DATA, 1), PEAT_DONE, RECEIVER));
    dies(RECEIVER);
    CHECK(says(peat_lent_take(&LENT, RECEIVER, unit, sizeof unit), PEAT_DONE, RECEIVER));
    CHECK(says(peat_lent_take(&LENT, RECEIVER, unit, sizeof unit), PEAT_NOTHING, RECEIVER));
}

/* An Ack in time, also while the Heartbeat waits to be resent; others are ignored. */
static void an_answer_in_time(size_t index) {
    int round;
    open_both(index, RETRIES);
    for (round = 0; round < 20; round++) {
        CHECK(says(arrive(index, PEAT_HEARTBEAT_ACK, 0), PEAT_IGNORED, index));
        ticks(INTERVAL);
        CHECK(says(arrive(index, PEAT_HEARTBEAT_ACK, 0), PEAT_IGNORED, index));
        CHECK(hands_out(index, PEAT_HEARTBEAT));
        ticks(TIMEOUT);
        CHECK(says(arrive(index, PEAT_HEARTBEAT_ACK, 1), PEAT_IGNORED, index));
        CHECK(says(arrive(index, PEAT_HEARTBEAT_ACK, 0), PEAT_DONE, index));
        CHECK(hands_out_nothing());
        ticks(INTERVAL - TIMEOUT);
        CHECK(hands_out(index, PEAT_HEARTBEAT));
        CHECK(says(arrive(index, PEAT_HEARTBEAT_ACK, 0), PEAT_DONE, index));
    }
    CHECK(table[index].phase.state == PEAT_OPEN);
}

/* The retries of Data and of the Heartbeat run out in one tick. */
static void data_first(void) {
    PeatSaid said;
    open_both(SENDER, 0);
    ticks(INTERVAL);
    CHECK(says(peat_lent_transfer(&LENT, SENDER, NULL, 0), PEAT_DONE, SENDER));
    CHECK(hands_out(SENDER, PEAT_HEARTBEAT));
    CHECK(hands_out(SENDER, PEAT_DATA));
    ticks(TIMEOUT - 1);
    said = peat_lent_tick(&LENT);
    CHECK(says(said, PEAT_INACTIVE, SENDER) && said.reason == PEAT_RETRIES);
}

/* Data that goes out starts the interval anew. */
static void data_is_heard_of(void) {
    uint8_t number;
    open_both(SENDER, RETRIES);
    for (number = 1; number < 20; number++) {
        ticks(INTERVAL - 1);
        CHECK(says(peat_lent_transfer(&LENT, SENDER, NULL, 0), PEAT_DONE, SENDER));
        CHECK(table[SENDER].pulse.left == 1);
        CHECK(hands_out(SENDER, PEAT_DATA));
        CHECK(table[SENDER].pulse.left == INTERVAL);
        CHECK(says(arrive(SENDER, PEAT_DATA_ACK, number), PEAT_DONE, SENDER));
    }
}

/* Both ends answer with the number of the Heartbeat, where they have no interval too; 11 for a reply buffer of 11 + N. */
static void answers(size_t index) {
    uint8_t reply[12 + PREFIX], before[12 + PREFIX];
    PeatSaid said;
    open_both(1 - index, RETRIES);
    memset(reply, 0xEE, sizeof reply);
    memset(before, 0xEE, sizeof before);
    said = arrive_in(index, PEAT_HEARTBEAT, 9, reply, 11 + PREFIX);
    CHECK(says(said, PEAT_SMALL, index) && said.length == 12 + PREFIX);
    said = arrive_in(index, PEAT_HEARTBEAT, 9, reply, 11);
    CHECK(says(said, PEAT_SMALL, RECORDS) && said.length == 12);
    CHECK(memcmp(reply, before, sizeof reply) == 0);
    said = arrive_in(index, PEAT_HEARTBEAT, 9, reply, 12 + PREFIX);
    CHECK(says(said, PEAT_DONE, index) && said.length == 12 + PREFIX);
    CHECK(reply[0] == 65 && reply[2] == (0x58 | PEAT_HEARTBEAT_ACK) && reply[6] == index && reply[7] == 9 && reply[8] == PREFIX);
    said = arrive_in(index, PEAT_HEARTBEAT_ACK, 0, reply, 12);
    CHECK(says(said, PEAT_IGNORED, index));
    CHECK(says(arrive(RECORDS, PEAT_HEARTBEAT, 0), PEAT_NO_CHANNEL, RECORDS));
}

/* Out of OPEN no Heartbeat is answered, and none is left. */
static void out_of_open(void) {
    open_both(SENDER, RETRIES);
    ticks(INTERVAL);
    CHECK(says(peat_lent_close(&LENT, SENDER), PEAT_DONE, SENDER));
    CHECK(table[SENDER].pulse.left == 0 && table[SENDER].pulse.beat.state == PEAT_LONE_NONE);
    CHECK(says(arrive(SENDER, PEAT_HEARTBEAT, 0), PEAT_STATE, SENDER));
    CHECK(says(arrive(SENDER, PEAT_HEARTBEAT_ACK, 0), PEAT_STATE, SENDER));
    CHECK(hands_out(SENDER, PEAT_CLOSE_COMMAND));
    open_both(RECEIVER, RETRIES);
    ticks(INTERVAL);
    CHECK(says(arrive(RECEIVER, PEAT_CLOSE_COMMAND, 0), PEAT_DONE, RECEIVER));
    CHECK(says(arrive(RECEIVER, PEAT_HEARTBEAT, 0), PEAT_STATE, RECEIVER));
    CHECK(hands_out_nothing());
}

int main(void) {
    a_sender_without_an_answer();
    a_receiver_without_an_answer();
    an_answer_in_time(SENDER);
    an_answer_in_time(RECEIVER);
    data_first();
    data_is_heard_of();
    answers(SENDER);
    answers(RECEIVER);
    out_of_open();
    return wrong;
}
