/* A pointer with a count of 0 is not followed: a node of which nothing is lent is refused by every call with 13, and an empty unit is sent from
 * nowhere and taken to nowhere. Records that were never set are refused, and nothing of what is lent changes. */
#include <string.h>

#include "check.h"
#include "peatwimple.h"

static const PeatNode NODE = {64, PEAT_PROTOCOL};
static const PeatFields FIELDS = {64, PEAT_PROTOCOL, PEAT_VERSION, 0, PEAT_WHOLE, PEAT_DATA, 1, 1, 0, 65};

static int says(PeatSaid said, uint32_t number, size_t index) {
    return said.number == number && said.reason == 0 && said.length == 0 && said.confirmed == 0 && said.index == index;
}

#define NONE NULL, 0, NULL, 0, NULL, 0, NULL, 0

static void nothing_is_lent(void) {
    CHECK(says(peat_settings(NONE, NULL, 0), PEAT_SETTINGS, 0));
    CHECK(says(peat_open(NONE, 0), PEAT_SETTINGS, 0));
    CHECK(says(peat_close(NONE, 0), PEAT_SETTINGS, 0));
    CHECK(says(peat_transfer(NONE, 0, NULL, 0), PEAT_SETTINGS, 0));
    CHECK(says(peat_would_transfer(NONE, 0, 0), PEAT_SETTINGS, 0));
    CHECK(says(peat_take(NONE, 0, NULL, 0), PEAT_SETTINGS, 0));
    CHECK(says(peat_reclaim(NONE, 0, NULL, 0), PEAT_SETTINGS, 0));
    CHECK(says(peat_next_packet(NONE, NODE, NULL, 0), PEAT_SETTINGS, 0));
    CHECK(says(peat_arrival(NONE, NODE, NULL, 0, NULL, 0), PEAT_SETTINGS, 0));
    CHECK(says(peat_tick(NONE), PEAT_SETTINGS, 0));
    CHECK(peat_read_packet(NULL, 0).answer == PEAT_SHORT);
    CHECK(peat_write_packet(FIELDS, NULL, 0, NULL, 0, NULL, 0).length == 12);
}

#define LENT table, 17, memory, sizeof memory, lengths, 4, lines, PEAT_LINES

/* Octets of any value as records, one more than a table may have. */
static void never_set(int octet) {
    static PeatChannel table[17], before[17];
    uint8_t memory[8] = {0};
    uint16_t lengths[4] = {0};
    uint8_t lines[PEAT_LINES] = {0}, packet[12] = {0}, out[16] = {0}, clear[16] = {0};

    memset(table, octet, sizeof table);
    memset(before, octet, sizeof before);
    CHECK(says(peat_open(LENT, 0), PEAT_SETTINGS, 17));
    CHECK(says(peat_transfer(LENT, 0, packet, 1), PEAT_SETTINGS, 17));
    CHECK(says(peat_next_packet(LENT, NODE, out, sizeof out), PEAT_SETTINGS, 17));
    CHECK(says(peat_arrival(LENT, NODE, packet, sizeof packet, out, sizeof out), PEAT_SETTINGS, 17));
    CHECK(says(peat_tick(table, 1, memory, sizeof memory, lengths, 4, lines, PEAT_LINES), PEAT_SETTINGS, 1));
    CHECK(memcmp(table, before, sizeof table) == 0);
    CHECK(memcmp(out, clear, sizeof out) == 0);
}

#undef LENT

/* The next packet to the node itself, and its ack. Gives how many units that confirmed. */
static size_t exchange(const PeatLent *lent) {
    uint8_t packet[16], ack[PEAT_ACK_OCTETS + 1];
    PeatSaid out = peat_lent_next_packet(lent, NODE, packet, sizeof packet);
    PeatSaid there = peat_lent_arrival(lent, NODE, packet, out.length, ack, sizeof ack);
    PeatSaid back = peat_lent_arrival(lent, NODE, ack, there.length, packet, sizeof packet);
    CHECK(out.number == PEAT_DONE && there.number == PEAT_DONE && back.number == PEAT_DONE);
    return back.confirmed;
}

/* Both ends are the node's. What comes back has a prefix of one octet, which alone tells them apart. */
static void an_empty_unit(void) {
    static const PeatSettings settings[2] = {
        {{1, 64, PEAT_SENDS, {1, {7}}, PEAT_NO_PREFIX}, {1, 2, 1, 1, 9, 9, 0, 0, 0, 0, 0}},
        {{1, 64, PEAT_RECEIVES, PEAT_NO_PREFIX, {1, {7}}}, {1, 2, 1, 1, 9, 9, 0, 0, 0, 0, 0}},
    };
    static PeatChannel table[2];
    static uint8_t memory[4], lines[PEAT_LINES];
    static uint16_t lengths[4];
    static const PeatLent lent = {table, 2, memory, sizeof memory, lengths, 4, lines, sizeof lines};

    CHECK(says(peat_lent_settings(&lent, settings, 2), PEAT_DONE, 2));
    CHECK(says(peat_lent_open(&lent, 0), PEAT_DONE, 0));
    CHECK(says(peat_lent_open(&lent, 1), PEAT_DONE, 1));
    CHECK(exchange(&lent) == 0);
    CHECK(says(peat_lent_transfer(&lent, 0, NULL, 0), PEAT_DONE, 0));
    CHECK(exchange(&lent) == 1);
    CHECK(says(peat_lent_take(&lent, 1, NULL, 0), PEAT_DONE, 1));
    CHECK(says(peat_lent_take(&lent, 1, NULL, 0), PEAT_NOTHING, 1));
}

int main(void) {
    int octet;
    nothing_is_lent();
    an_empty_unit();
    for (octet = 0; octet < 256 && !wrong; octet++) {
        never_set(octet);
    }
    return wrong;
}
