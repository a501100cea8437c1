/* The lines (document 02, A4): settings empty them, whatever they held; lines of another size, and lines in which this table's channels
 * cannot stand so, are refused with 13, and all that is lent stays. Sound ones count as they are. The order that they make is in order.c. */
#include <string.h>

#include "check.h"
#include "peatwimple.h"

enum { RECORDS = 2, SLOTS = 2, PAYLOAD = 4, OCTETS = RECORDS * SLOTS * PAYLOAD, LENGTHS = RECORDS * SLOTS, LINE = PEAT_LINES / 3 };

static const PeatNode NODE = {64, PEAT_PROTOCOL};
static const PeatSettings SETTINGS[RECORDS] = {
    {{1, 64, PEAT_SENDS, PEAT_NO_PREFIX, PEAT_NO_PREFIX}, {1, SLOTS, PAYLOAD, 1, 9, 9, 0, 0, 0, 0, 0}},
    {{2, 64, PEAT_RECEIVES, PEAT_NO_PREFIX, PEAT_NO_PREFIX}, {1, SLOTS, PAYLOAD, 1, 9, 9, 0, 0, 0, 0, 0}},
};

/* All that a node lends. The octet past the lines shows that a call stays within them. */
typedef struct Lent {
    PeatChannel table[RECORDS];
    uint8_t memory[OCTETS];
    uint16_t lengths[LENGTHS];
    uint8_t lines[PEAT_LINES + 1];
} Lent;

static Lent lent, before;

#define LENT_WITH(octets) lent.table, RECORDS, lent.memory, OCTETS, lent.lengths, LENGTHS, lent.lines, (octets)

static const PeatLent LENT = {LENT_WITH(PEAT_LINES)};

static int untouched(void) { return memcmp(&lent, &before, sizeof lent) == 0; }

static int is_refused(PeatSaid said) { return said.number == PEAT_SETTINGS && said.index == RECORDS && untouched(); }

static void settings_empty_them(void) {
    static const uint8_t clear[PEAT_LINES] = {0};
    memset(&lent, 255, sizeof lent);
    memcpy(&before, &lent, sizeof lent);
    CHECK(is_refused(peat_settings(LENT_WITH(PEAT_LINES - 1), SETTINGS, RECORDS)));
    CHECK(is_refused(peat_settings(LENT_WITH(PEAT_LINES + 1), SETTINGS, RECORDS)));
    CHECK(is_refused(peat_settings(LENT_WITH(0), SETTINGS, RECORDS)));
    CHECK(is_refused(peat_lent_settings(&LENT, SETTINGS, RECORDS - 1)));
    CHECK(peat_lent_settings(&LENT, SETTINGS, RECORDS).number == PEAT_DONE);
    CHECK(memcmp(lent.lines, clear, PEAT_LINES) == 0 && lent.lines[PEAT_LINES] == 255);
}

/* Every call but settings, with lines of so many octets. */
static void every_call_refuses(size_t octets) {
    uint8_t packet[12] = {0}, out[16];
    memcpy(&before, &lent, sizeof lent);
    CHECK(is_refused(peat_open(LENT_WITH(octets), 0)));
    CHECK(is_refused(peat_close(LENT_WITH(octets), 0)));
    CHECK(is_refused(peat_transfer(LENT_WITH(octets), 0, packet, 1)));
    CHECK(is_refused(peat_would_transfer(LENT_WITH(octets), 0, 1)));
    CHECK(is_refused(peat_take(LENT_WITH(octets), 1, out, sizeof out)));
    CHECK(is_refused(peat_reclaim(LENT_WITH(octets), 0, out, sizeof out)));
    CHECK(is_refused(peat_next_packet(LENT_WITH(octets), NODE, out, sizeof out)));
    CHECK(is_refused(peat_arrival(LENT_WITH(octets), NODE, packet, sizeof packet, out, sizeof out)));
    CHECK(is_refused(peat_tick(LENT_WITH(octets))));
}

/* A line that begins with these octets, the other two being empty. */
static void stand(size_t rank, uint8_t count, uint8_t first, uint8_t second, uint8_t third) {
    uint8_t *line = lent.lines + rank * LINE;
    memset(lent.lines, 0, PEAT_LINES);
    line[0] = count;
    line[1] = first;
    line[2] = second;
    line[3] = third;
}

/* An index that no record has, one twice, somebody past those who stand, and more than a line holds. */
static void spoilt_in(size_t rank) {
    stand(rank, 1, RECORDS, 0, 0);
    every_call_refuses(PEAT_LINES);
    stand(rank, 2, 1, 1, 0);
    every_call_refuses(PEAT_LINES);
    stand(rank, 2, 1, 0, 1);
    every_call_refuses(PEAT_LINES);
    stand(rank, 0, 0, 0, 0);
    lent.lines[rank * LINE + LINE - 1] = 1;
    every_call_refuses(PEAT_LINES);
    stand(rank, 17, 1, 0, 0);
    every_call_refuses(PEAT_LINES);
}

/* These stand in a line, and nobody else. */
static int is_line(size_t rank, uint8_t count, uint8_t first, uint8_t second) {
    uint8_t line[LINE] = {0};
    line[0] = count;
    line[1] = first;
    line[2] = second;
    return memcmp(lent.lines + rank * LINE, line, LINE) == 0;
}

/* The receiver and the sender stand in a line, where nothing of theirs is ready: nobody is served. Each Open directive puts its own channel
 * right, and that alone: the sender has an Open ready then, the receiver never has anything. */
static void sound_in(size_t rank) {
    uint8_t out[16];
    size_t other;
    CHECK(peat_lent_settings(&LENT, SETTINGS, RECORDS).number == PEAT_DONE);
    stand(rank, 2, 1, 0, 0);
    CHECK(peat_lent_next_packet(&LENT, NODE, out, sizeof out).number == PEAT_NOTHING);
    CHECK(is_line(rank, 2, 1, 0));
    CHECK(peat_lent_open(&LENT, 0).number == PEAT_DONE);
    for (other = 1; other < 3; other++) {
        CHECK(other == rank ? is_line(other, 1, 1, 0) : is_line(other, 0, 0, 0));
    }
    CHECK(rank == 0 ? is_line(0, 2, 1, 0) : is_line(0, 1, 0, 0));
    CHECK(peat_lent_open(&LENT, 1).number == PEAT_DONE);
    CHECK(is_line(0, 1, 0, 0) && is_line(1, 0, 0, 0) && is_line(2, 0, 0, 0));
}

int main(void) {
    size_t rank;
    settings_empty_them();
    every_call_refuses(PEAT_LINES - 1);
    every_call_refuses(PEAT_LINES + 1);
    every_call_refuses(0);
    for (rank = 0; rank < 3; rank++) {
        spoilt_in(rank);
        sound_in(rank);
    }
    return wrong;
}
