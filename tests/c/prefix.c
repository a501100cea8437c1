/* Channels to another region (document 02, A7): which records are apart, whose packets are whose, and how much room a reply and a packet need
 * that have a prefix. A node of two receivers that the remote prefix tells apart, and a sender. */
#include <string.h>

#include "check.h"
#include "peatwimple.h"

enum { RECORDS = 3, SLOTS = 2, PAYLOAD = 8, OCTETS = RECORDS * SLOTS * PAYLOAD, LENGTHS = RECORDS * SLOTS };

/* Octets of the own prefix of the records of index 1 and 2, and of what they send without payload. */
enum { OWN = 3, ALONE = 12 + OWN };

static const PeatNode NODE = {64, PEAT_PROTOCOL};
static const uint8_t FAR[2] = {7, 0};

static PeatChannel table[RECORDS];
static uint8_t memory[OCTETS];
static uint16_t lengths[LENGTHS];
static uint8_t lines[PEAT_LINES];

static const PeatLent LENT = {table, RECORDS, memory, OCTETS, lengths, LENGTHS, lines, PEAT_LINES};

#define FAR_PREFIX {2, {7, 0}}
#define OWN_PREFIX {OWN, {1, 2, 3}}
#define LIMITS {1, SLOTS, PAYLOAD, 1, 9, 9, 0, 0, 0, 0, 0}

static const PeatSettings SETTINGS[RECORDS] = {
    {{1, 65, PEAT_RECEIVES, PEAT_NO_PREFIX, PEAT_NO_PREFIX}, LIMITS},
    {{1, 65, PEAT_RECEIVES, FAR_PREFIX, OWN_PREFIX}, LIMITS},
    {{2, 65, PEAT_SENDS, FAR_PREFIX, OWN_PREFIX}, LIMITS},
};

static int says(PeatSaid said, uint32_t number, size_t length, size_t index) {
    return said.number == number && said.length == length && said.index == index;
}

/* A packet from the other node, behind this prefix: an Ack is for the sender, all else for a receiver. Gives its octets. */
static size_t from(const uint8_t *prefix, size_t count, uint8_t kind, uint8_t number, uint8_t packet[64]) {
    PeatFields fields = {64, PEAT_PROTOCOL, PEAT_VERSION, 0, PEAT_WHOLE, 0, 1, 0, 0, 65};
    PeatWriting writing;
    fields.kind = kind;
    fields.channel = kind == PEAT_DATA_ACK || kind == PEAT_CONTROL_ACK ? 2 : 1;
    fields.number = number;
    writing = peat_write_packet(fields, prefix, count, (const uint8_t *)"event", kind == PEAT_DATA ? 5 : 0, packet, 64);
    CHECK(writing.answer == PEAT_DONE);
    return writing.length;
}

static uint32_t settings_with(PeatSettings one) {
    PeatSettings settings[RECORDS];
    memcpy(settings, SETTINGS, sizeof settings);
    settings[1] = one;
    return peat_lent_settings(&LENT, settings, RECORDS).number;
}

static void which_records_are_apart(void) {
    PeatSettings one = SETTINGS[1];
    CHECK(settings_with(one) == PEAT_DONE);
    one.addresses.remote_prefix = SETTINGS[0].addresses.remote_prefix;
    CHECK(settings_with(one) == PEAT_SETTINGS);
    one = SETTINGS[1];
    one.addresses.own_prefix = SETTINGS[0].addresses.own_prefix;
    CHECK(settings_with(one) == PEAT_DONE);
    one = SETTINGS[1];
    one.addresses.remote_prefix.octets[2] = 1;
    CHECK(settings_with(one) == PEAT_SETTINGS);
    one = SETTINGS[1];
    one.addresses.own_prefix.length = PEAT_PREFIX + 1;
    CHECK(settings_with(one) == PEAT_SETTINGS);
    one.addresses.own_prefix.length = PEAT_PREFIX;
    CHECK(settings_with(one) == PEAT_DONE);
}

/* A receiver at index 1 beside the sender at index 2: the direction does not tell them apart (document 02, A2), nor does the own prefix with it.
 * A number, a remote address or a remote prefix of its own does. */
static void whatever_their_directions(void) {
    PeatSettings one = SETTINGS[1];
    one.addresses.channel = 2;
    CHECK(settings_with(one) == PEAT_SETTINGS);
    one.addresses.own_prefix = SETTINGS[0].addresses.own_prefix;
    CHECK(settings_with(one) == PEAT_SETTINGS);
    one.addresses.remote = 66;
    CHECK(settings_with(one) == PEAT_DONE);
    one.addresses.remote = 65;
    one.addresses.remote_prefix.octets[1] = 1;
    CHECK(settings_with(one) == PEAT_DONE);
    one.addresses.remote_prefix = SETTINGS[2].addresses.remote_prefix;
    CHECK(settings_with(one) == PEAT_SETTINGS);
    one.addresses.channel = 3;
    CHECK(settings_with(one) == PEAT_DONE);
}

/* 14 comes before the second test for 11, and that before 5: the channel is CLOSED. */
static void room_for_a_reply(void) {
    uint8_t packet[64], reply[ALONE], clear[ALONE] = {0};
    size_t count = from(FAR, 1, PEAT_DATA, 1, packet);
    memset(reply, 0, sizeof reply);
    CHECK(says(peat_lent_arrival(&LENT, NODE, packet, count, reply, 11), PEAT_SMALL, 12, RECORDS));
    CHECK(says(peat_lent_arrival(&LENT, NODE, packet, count, reply, 12), PEAT_NO_CHANNEL, 0, RECORDS));
    count = from(FAR, 2, PEAT_DATA, 1, packet);
    CHECK(says(peat_lent_arrival(&LENT, NODE, packet, count, reply, 11), PEAT_SMALL, 12, RECORDS));
    CHECK(says(peat_lent_arrival(&LENT, NODE, packet, count, reply, ALONE - 1), PEAT_SMALL, ALONE, 1));
    CHECK(says(peat_lent_arrival(&LENT, NODE, packet, count, reply, ALONE), PEAT_STATE, 0, 1));
    CHECK(memcmp(reply, clear, sizeof reply) == 0);
}

/* Two receivers of one channel number and one address. */
static void whose_packet_it_is(void) {
    static const uint8_t head[13] = {65, PEAT_PROTOCOL, 0x5F, 0, 0, 0, 1, 0, OWN, 1, 2, 3, 64};
    uint8_t packet[64], reply[ALONE], unit[PAYLOAD];
    size_t count = from(FAR, 2, PEAT_OPEN_COMMAND, 0, packet);
    CHECK(says(peat_lent_open(&LENT, 0), PEAT_DONE, 0, 0) && says(peat_lent_open(&LENT, 1), PEAT_DONE, 0, 1));
    CHECK(says(peat_lent_arrival(&LENT, NODE, packet, count, reply, sizeof reply), PEAT_DONE, ALONE, 1));
    CHECK(memcmp(reply, head, sizeof head) == 0 && reply[13] * 256 + reply[14] == peat_crc(reply, 13));
    count = from(NULL, 0, PEAT_OPEN_COMMAND, 0, packet);
    CHECK(says(peat_lent_arrival(&LENT, NODE, packet, count, reply, 12), PEAT_DONE, 12, 0));
    count = from(FAR, 2, PEAT_DATA, 1, packet);
    CHECK(says(peat_lent_arrival(&LENT, NODE, packet, count, reply, sizeof reply), PEAT_DONE, ALONE, 1));
    CHECK(says(peat_lent_arrival(&LENT, NODE, packet, count, reply, sizeof reply), PEAT_REPEATED, ALONE, 1));
    CHECK(says(peat_lent_take(&LENT, 0, unit, sizeof unit), PEAT_NOTHING, 0, 0));
    CHECK(says(peat_lent_take(&LENT, 1, unit, sizeof unit), PEAT_DONE, 5, 1) && memcmp(unit, "event", 5) == 0);
}

/* What a sender hands out has its own prefix, and the Acks for it are found by the remote one. They need 12 octets for no reply. */
static void a_sender(void) {
    uint8_t packet[64], none[12];
    size_t count;
    CHECK(says(peat_lent_open(&LENT, 2), PEAT_DONE, 0, 2));
    CHECK(says(peat_lent_next_packet(&LENT, NODE, packet, ALONE - 1), PEAT_SMALL, ALONE, 2));
    CHECK(says(peat_lent_next_packet(&LENT, NODE, packet, ALONE), PEAT_DONE, ALONE, 2));
    count = from(NULL, 0, PEAT_CONTROL_ACK, 0, packet);
    CHECK(says(peat_lent_arrival(&LENT, NODE, packet, count, none, sizeof none), PEAT_NO_CHANNEL, 0, RECORDS));
    count = from(FAR, 2, PEAT_CONTROL_ACK, 0, packet);
    CHECK(says(peat_lent_arrival(&LENT, NODE, packet, count, none, sizeof none), PEAT_DONE, 0, 2));
    CHECK(says(peat_lent_transfer(&LENT, 2, (const uint8_t *)"event", 5), PEAT_DONE, 0, 2));
    CHECK(says(peat_lent_next_packet(&LENT, NODE, packet, ALONE + 4), PEAT_SMALL, ALONE + 5, 2));
    CHECK(says(peat_lent_next_packet(&LENT, NODE, packet, ALONE + 5), PEAT_DONE, ALONE + 5, 2));
    CHECK(packet[8] == OWN && packet[11] == 3 && packet[12] == 64 && memcmp(packet + 13, "event", 5) == 0);
    count = from(FAR, 2, PEAT_DATA_ACK, 1, packet);
    CHECK(peat_lent_arrival(&LENT, NODE, packet, count, none, sizeof none).confirmed == 1);
    CHECK(says(peat_lent_arrival(&LENT, NODE, packet, count, none, sizeof none), PEAT_IGNORED, 0, 2));
}

/* Settings alone look for records that agree. In a table that was overwritten so, an Ack still finds the sender, behind the receiver. */
static void an_overwritten_table(void) {
    uint8_t packet[64], none[12];
    size_t count = from(FAR, 2, PEAT_DATA_ACK, 1, packet);
    table[1].addresses.channel = 2;
    CHECK(says(peat_lent_arrival(&LENT, NODE, packet, count, none, sizeof none), PEAT_IGNORED, 0, 2));
    CHECK(says(peat_lent_tick(&LENT), PEAT_DONE, 0, RECORDS));
}

/* A prefix as long as can be said is written; one octet more is 4, before all else. */
static void the_writer(void) {
    static const uint8_t prefix[PEAT_PREFIX + 1] = {0};
    static const PeatFields fields = {64, PEAT_PROTOCOL, PEAT_VERSION, 0, PEAT_WHOLE, PEAT_DATA, 1, 1, 0, 65};
    PeatFields strange = fields;
    uint8_t out[12 + PEAT_PREFIX];
    CHECK(peat_write_packet(fields, prefix, PEAT_PREFIX, NULL, 0, out, sizeof out).answer == PEAT_DONE);
    CHECK(peat_read_packet(out, sizeof out).prefix == PEAT_PREFIX);
    strange.version = 0;
    CHECK(peat_write_packet(strange, prefix, PEAT_PREFIX, NULL, 0, out, 0).answer == PEAT_STRANGE);
    CHECK(peat_write_packet(strange, prefix, PEAT_PREFIX + 1, NULL, 0, out, 0).answer == PEAT_LACKING);
}

int main(void) {
    which_records_are_apart();
    whatever_their_directions();
    CHECK(peat_lent_settings(&LENT, SETTINGS, RECORDS).number == PEAT_DONE);
    room_for_a_reply();
    whose_packet_it_is();
    a_sender();
    an_overwritten_table();
    the_writer();
    return wrong;
}
