/* What passes by value between C and the library, field by field: PeatFields of 12 octets in, PeatReading of 40 and PeatWriting of 16 out, a
 * PeatNode of 2 in, a PeatSaid of 32 out. On x86-64 those of up to 16 octets go through registers, the others through memory. */
#include <string.h>

#include "check.h"
#include "peatwimple.h"

static const PeatFields FIELDS = {65, 238, PEAT_VERSION, 0, PEAT_FIRST, PEAT_DATA, 0x0102, 250, 0, 64};

/* Field by field: the octet past the last is nobody's. */
static int same(PeatFields a, PeatFields b) {
    return a.destination == b.destination && a.protocol == b.protocol && a.version == b.version && a.secondary == b.secondary &&
           a.flags == b.flags && a.kind == b.kind && a.channel == b.channel && a.number == b.number && a.reserved == b.reserved &&
           a.source == b.source;
}

static void a_packet_alone(void) {
    static const uint8_t payload[5] = {1, 2, 3, 4, 5};
    static const uint8_t prefix[3] = {7, 8, 9};
    static const uint8_t head[13] = {65, 238, 0x48, 0, 5, 1, 2, 250, 3, 7, 8, 9, 64};
    uint8_t out[23];
    PeatWriting writing;
    PeatReading reading;

    memset(out, 0xEE, sizeof out);
    writing = peat_write_packet(FIELDS, prefix, 3, payload, 5, out, sizeof out);
    CHECK(writing.answer == PEAT_DONE && writing.length == 20);
    CHECK(memcmp(out, head, 13) == 0 && memcmp(out + 13, payload, 5) == 0);
    CHECK(out[18] * 256 + out[19] == peat_crc(out, 18));
    CHECK(out[20] == 0xEE && out[21] == 0xEE && out[22] == 0xEE);

    reading = peat_read_packet(out, 20);
    CHECK(reading.answer == PEAT_DONE && reading.prefix == 3 && reading.start == 13 && reading.length == 5);
    CHECK(same(reading.fields, FIELDS));
    reading = peat_read_packet(out, 19);
    CHECK(reading.answer == PEAT_SHORT && reading.prefix == 0 && reading.start == 0 && reading.length == 0);
    CHECK(reading.fields.channel == 0);
    writing = peat_write_packet(FIELDS, prefix, 3, payload, 5, out, 19);
    CHECK(writing.answer == PEAT_SMALL && writing.length == 20);
}

static void check_sums(void) {
    CHECK(peat_crc((const uint8_t *)"123456789", 9) == 0x29B1);
    CHECK(peat_crc(NULL, 0) == 0xFFFF);
}

#define LENT table, 1, memory, sizeof memory, lengths, 2, lines, PEAT_LINES

/* An Open goes out with the node's octets in it, and retries that are used up come back with their reason. */
static void a_node(void) {
    static const PeatNode node = {64, 238};
    static const PeatSettings settings = {{0x0102, 65, PEAT_SENDS, PEAT_NO_PREFIX, PEAT_NO_PREFIX}, {2, 2, 3, 1, 1, 1, 0, 0, 0, 0, 0}};
    PeatChannel table[1];
    uint8_t memory[6] = {0}, lines[PEAT_LINES] = {0}, out[16];
    uint16_t lengths[2] = {0};
    PeatSaid said;

    memset(table, 0xAA, sizeof table);
    said = peat_settings(LENT, &settings, 1);
    CHECK(said.number == PEAT_DONE && said.reason == 0 && said.length == 0 && said.confirmed == 0);
    CHECK(table[0].phase.state == PEAT_CLOSED && table[0].addresses.channel == 0x0102 && table[0].limits.payload == 3);
    said = peat_open(LENT, 0);
    CHECK(said.number == PEAT_DONE && table[0].phase.state == PEAT_ENABLED);
    said = peat_next_packet(LENT, node, out, sizeof out);
    CHECK(said.number == PEAT_DONE && said.length == 12 && said.confirmed == 0 && said.index == 0);
    CHECK(out[0] == 65 && out[1] == 238 && out[9] == 64);
    said = peat_tick(LENT);
    CHECK(said.number == PEAT_INACTIVE && said.reason == PEAT_RETRIES && said.length == 0);
    CHECK(table[0].phase.state == PEAT_CLOSED && table[0].phase.reason == PEAT_RETRIES);
}

int main(void) {
    a_packet_alone();
    check_sums();
    a_node();
    return wrong;
}
