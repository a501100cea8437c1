/* Two nodes, a hall's host and a cooling station, each with one channel: the host publishes a unit, the station takes it, and the host is told
 * that it is confirmed. What is a link between two machines elsewhere is here a buffer.
 *
 *   cc -Iinclude examples/c/one_unit.c target/staticlib/libhost.a -o one_unit */
#include <stdio.h>
#include <stdlib.h>

#include "peatwimple.h"

enum { SLOTS = 8, PAYLOAD = 16, PACKET = PAYLOAD + 12 };

/* A node with all that it lends, and that written down once. */
typedef struct End {
    PeatNode node;
    PeatChannel table[1];
    uint8_t memory[SLOTS * PAYLOAD];
    uint16_t lengths[SLOTS];
    uint8_t lines[PEAT_LINES];
    PeatLent lent;
} End;

static PeatSaid expect(const char *what, PeatSaid said) {
    if (said.number != PEAT_DONE) {
        printf("%s: answer %u\n", what, (unsigned)said.number);
        exit(1);
    }
    return said;
}

static void make(End *end, uint8_t own, uint8_t remote, uint8_t direction) {
    PeatSettings settings = {{7, remote, direction, PEAT_NO_PREFIX, PEAT_NO_PREFIX}, {4, SLOTS, PAYLOAD, 4, 10, 50, 2, 0, 0, 0, 0}};
    PeatLent lent = {end->table, 1, end->memory, sizeof end->memory, end->lengths, SLOTS, end->lines, PEAT_LINES};
    end->lent = lent;
    end->node.address = own;
    end->node.protocol = PEAT_PROTOCOL;
    expect("settings", peat_lent_settings(&end->lent, &settings, 1));
    expect("open", peat_lent_open(&end->lent, 0));
}

/* One packet from one end to the other, and the ack back. Gives how many units the ack confirmed. */
static size_t exchange(End *from, End *to, const char *what) {
    uint8_t packet[PACKET], ack[PEAT_ACK_OCTETS];
    PeatSaid out = expect("next packet", peat_lent_next_packet(&from->lent, from->node, packet, sizeof packet));
    PeatSaid in = expect("arrival", peat_lent_arrival(&to->lent, to->node, packet, out.length, ack, sizeof ack));
    PeatSaid back = expect("arrival of the ack", peat_lent_arrival(&from->lent, from->node, ack, in.length, packet, sizeof packet));
    printf("%s: %zu octets over the link, acknowledged\n", what, out.length);
    return back.confirmed;
}

int main(void) {
    static const uint8_t event[] = "pump fan 3 stopped";
    static End host, station;
    uint8_t unit[64];
    size_t confirmed;
    PeatSaid said;

    make(&host, 64, 65, PEAT_SENDS);
    make(&station, 65, 64, PEAT_RECEIVES);
    exchange(&host, &station, "Open");

    expect("transfer", peat_lent_transfer(&host.lent, 0, event, sizeof event - 1));
    printf("the host publishes '%s'\n", (const char *)event);
    confirmed = exchange(&host, &station, "first segment");
    printf("units confirmed: %zu\n", confirmed);
    confirmed = exchange(&host, &station, "last segment");
    printf("units confirmed: %zu\n", confirmed);

    said = expect("take", peat_lent_take(&station.lent, 0, unit, sizeof unit));
    printf("the station takes '%.*s'\n", (int)said.length, (const char *)unit);

    expect("close", peat_lent_close(&host.lent, 0));
    exchange(&host, &station, "Close");
    said = peat_lent_reclaim(&host.lent, 0, unit, sizeof unit);
    printf("nothing is left to reclaim: answer %u\n", (unsigned)said.number);
    return said.number == PEAT_NOTHING ? 0 : 1;
}
