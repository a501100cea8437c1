/* Flow Control (document 02, A5): what a receiver states, in Acks and in packets of its own, and how far a sender then sends. Two nodes with one
 * channel, a host that sends and a station that receives; where one of them is to be told what the other would not say, single packets are made up.
 * Units have one segment, of no octets. */
#include <string.h>

#include "check.h"
#include "peatwimple.h"

enum { HOST = 64, STATION = 65, CHANNEL = 7, WINDOW = 4, SLOTS = 8, PAYLOAD = 4, TIMEOUT = 2, RETRIES = 1 };

/* Octets of a packet with no payload, and of one with one. */
enum { BARE = 12, STATING = 13 };

/* A node with all that it lends. */
typedef struct End {
    PeatNode node;
    PeatChannel table[1];
    uint8_t memory[SLOTS * PAYLOAD];
    uint16_t lengths[SLOTS];
    uint8_t lines[PEAT_LINES];
    PeatLent lent;
} End;

/* A packet on its way, and its octets. */
typedef struct Packet {
    uint8_t octets[12 + PEAT_PREFIX + PAYLOAD];
    size_t count;
} Packet;

static End host, station;

/* What stands before the source address, both ways: nothing, but where a test is of that. */
static PeatPrefix prefix;

static const PeatLimits USED = {WINDOW, SLOTS, PAYLOAD, 1, TIMEOUT, 9, RETRIES, 0, 1, 0, 0};

static int says(PeatSaid said, uint32_t number, size_t length) {
    return said.number == number && said.length == length && said.index == 0;
}

static PeatSaid make(End *end, uint8_t own, uint8_t remote, uint8_t direction, PeatLimits limits) {
    PeatSettings settings = {{CHANNEL, 0, 0, PEAT_NO_PREFIX, PEAT_NO_PREFIX}, {0, 0, 0, 0, 0, 0, 0, 0, 0, 0, 0}};
    PeatLent lent = {end->table, 1, end->memory, sizeof end->memory, end->lengths, SLOTS, end->lines, PEAT_LINES};
    settings.addresses.remote = remote;
    settings.addresses.direction = direction;
    settings.addresses.remote_prefix = settings.addresses.own_prefix = prefix;
    settings.limits = limits;
    end->lent = lent;
    end->node.address = own;
    end->node.protocol = PEAT_PROTOCOL;
    return peat_lent_settings(&end->lent, &settings, 1);
}

/* The packet is of this type and number, and states a number, or none (-1). */
static int is(const Packet *packet, uint8_t kind, uint8_t number, int stated) {
    PeatReading reading = peat_read_packet(packet->octets, packet->count);
    if (reading.answer != PEAT_DONE || reading.fields.kind != kind || reading.fields.number != number) {
        return 0;
    }
    return stated < 0 ? reading.length == 0 : reading.length == 1 && packet->octets[reading.start] == stated;
}

/* A packet that this end may get. */
static Packet made_up(const End *to, uint8_t kind, uint8_t number, int stated) {
    PeatFields fields = {0, PEAT_PROTOCOL, PEAT_VERSION, 0, PEAT_WHOLE, 0, CHANNEL, 0, 0, 0};
    uint8_t octet = (uint8_t)stated;
    Packet packet;
    fields.destination = to->node.address;
    fields.source = to->node.address == HOST ? STATION : HOST;
    fields.kind = kind;
    fields.number = number;
    packet.count =
        peat_write_packet(fields, prefix.octets, prefix.length, &octet, stated < 0 ? 0 : 1, packet.octets, sizeof packet.octets).length;
    return packet;
}

static PeatSaid arrive_in(End *to, Packet packet, Packet *reply, size_t room) {
    PeatSaid said = peat_lent_arrival(&to->lent, to->node, packet.octets, packet.count, reply->octets, room);
    reply->count = said.length;
    return said;
}

static PeatSaid arrive(End *to, Packet packet) {
    Packet reply;
    return arrive_in(to, packet, &reply, sizeof reply.octets);
}

/* A packet arrives that is answered with 0 and a reply. Gives the reply. */
static Packet replied(End *to, Packet packet) {
    Packet reply;
    PeatSaid said = arrive_in(to, packet, &reply, sizeof reply.octets);
    CHECK(said.number == PEAT_DONE && said.length >= BARE && said.index == 0);
    return reply;
}

static Packet handed_out(End *from) {
    Packet packet;
    PeatSaid said = peat_lent_next_packet(&from->lent, from->node, packet.octets, sizeof packet.octets);
    CHECK(said.number == PEAT_DONE && said.index == 0);
    packet.count = said.length;
    return packet;
}

static int hands_out_nothing(End *from) {
    Packet packet;
    PeatSaid said = peat_lent_next_packet(&from->lent, from->node, packet.octets, sizeof packet.octets);
    return said.number == PEAT_NOTHING && said.index == 1;
}

static void transfer(size_t count) {
    while (count-- > 0) {
        CHECK(says(peat_lent_transfer(&host.lent, 0, NULL, 0), PEAT_DONE, 0));
    }
}

static void take(void) { CHECK(says(peat_lent_take(&station.lent, 0, NULL, 0), PEAT_DONE, 0)); }

static void ticks(End *end, int count) {
    while (count-- > 0) {
        CHECK(peat_lent_tick(&end->lent).number == PEAT_DONE);
    }
}

/* Both ends are open. */
static void open_both(PeatLimits limits) {
    Packet packet, reply;
    CHECK(make(&host, HOST, STATION, PEAT_SENDS, limits).number == PEAT_DONE);
    CHECK(make(&station, STATION, HOST, PEAT_RECEIVES, limits).number == PEAT_DONE);
    CHECK(says(peat_lent_open(&host.lent, 0), PEAT_DONE, 0));
    CHECK(says(peat_lent_open(&station.lent, 0), PEAT_DONE, 0));
    packet = handed_out(&host);
    CHECK(is(&packet, PEAT_OPEN_COMMAND, 0, -1));
    reply = replied(&station, packet);
    CHECK(is(&reply, PEAT_CONTROL_ACK, 0, limits.flow == 1 ? (int)limits.window : -1));
    CHECK(says(arrive(&host, reply), PEAT_DONE, 0));
    CHECK(host.table[0].pulse.flow.recorded == (limits.flow == 1 ? limits.window : 0));
}

/* So many units go over and are confirmed; what the Acks state is left in stated. */
static void send(size_t count, uint8_t first, uint8_t *stated) {
    size_t at;
    transfer(count);
    for (at = 0; at < count; at++) {
        Packet packet = handed_out(&host), reply = replied(&station, packet);
        PeatSaid said = arrive(&host, reply);
        CHECK(is(&packet, PEAT_DATA, (uint8_t)(first + at), -1));
        CHECK(reply.count == STATING && is(&reply, PEAT_DATA_ACK, (uint8_t)(first + at), reply.octets[10]));
        CHECK(says(said, PEAT_DONE, 0) && said.confirmed == 1);
        CHECK(host.table[0].pulse.flow.recorded == reply.octets[10]);
        stated[at] = reply.octets[10];
    }
}

/* Both ends are open, and every slot of the station has a unit that is not taken. */
static void fill(PeatLimits limits) {
    uint8_t stated[SLOTS];
    open_both(limits);
    send(SLOTS, 1, stated);
}

/* The station's Flow Control, with this number and stating this, goes over, and is answered. */
static void flow_control(uint8_t number, uint8_t stated) {
    Packet packet = handed_out(&station), reply = replied(&host, packet);
    CHECK(packet.count == STATING && is(&packet, PEAT_FLOW_CONTROL, number, stated));
    CHECK(reply.count == BARE && is(&reply, PEAT_FLOW_CONTROL, number, -1));
    CHECK(host.table[0].pulse.flow.recorded == stated);
    CHECK(says(arrive(&station, reply), PEAT_DONE, 0));
}

static void settings(void) {
    PeatLimits limits = USED;
    for (limits.flow = 0; limits.flow < 2; limits.flow++) {
        CHECK(make(&host, HOST, STATION, PEAT_SENDS, limits).number == PEAT_DONE);
    }
    CHECK(limits.flow == 2 && make(&host, HOST, STATION, PEAT_SENDS, limits).number == PEAT_SETTINGS);
    limits.flow = 256;
    CHECK(make(&host, HOST, STATION, PEAT_RECEIVES, limits).number == PEAT_SETTINGS);
    /* Nor does a record stand that was spoilt so. */
    CHECK(peat_lent_tick(&host.lent).number == PEAT_DONE);
    host.table[0].limits.flow = 2;
    CHECK(peat_lent_tick(&host.lent).number == PEAT_SETTINGS);
    host.table[0].limits.flow = 0;
    host.table[0].pulse.flow.packet.state = PEAT_LONE_AGAIN + 1;
    CHECK(peat_lent_tick(&host.lent).number == PEAT_SETTINGS);
}

/* Of every type but Data at most so many octets of payload, when written and when read. */
static void packets_alone(void) {
    static const size_t most[8] = {65535, 1, 0, 0, 0, 0, 1, 1};
    static const uint8_t payload[2] = {9, 9};
    PeatFields fields = {HOST, PEAT_PROTOCOL, PEAT_VERSION, 0, PEAT_WHOLE, 0, CHANNEL, 0, 0, STATION};
    uint8_t kind, out[16], check;
    size_t count;
    for (kind = 1; kind < 8; kind++) {
        fields.kind = kind;
        for (count = 0; count <= 2; count++) {
            uint32_t answer = count <= most[kind] ? PEAT_DONE : PEAT_STRANGE;
            CHECK(peat_write_packet(fields, NULL, 0, payload, count, out, sizeof out).answer == answer);
            /* The same as Data, which may have any, and then of this type. */
            fields.kind = PEAT_DATA;
            CHECK(peat_write_packet(fields, NULL, 0, payload, count, out, sizeof out).length == BARE + count);
            fields.kind = kind;
            out[2] |= kind;
            check = (uint8_t)(peat_crc(out, 10 + count) >> 8);
            out[11 + count] = (uint8_t)peat_crc(out, 10 + count);
            out[10 + count] = check;
            CHECK(peat_read_packet(out, BARE + count).answer == answer);
        }
    }
    fields.kind = 8;
    CHECK(peat_write_packet(fields, NULL, 0, NULL, 0, out, sizeof out).answer == PEAT_LACKING);
}

/* Slots for all at first, then for fewer than the window, then for none. Each take then has something to tell until the window is all there is. */
static void what_a_receiver_states(void) {
    static const uint8_t expected[SLOTS] = {5, 6, 7, 8, 8, 8, 8, 8};
    uint8_t stated[SLOTS];
    int taken;
    open_both(USED);
    send(SLOTS, 1, stated);
    CHECK(memcmp(stated, expected, SLOTS) == 0);
    transfer(1);
    CHECK(hands_out_nothing(&host) && hands_out_nothing(&station));
    for (taken = 1; taken <= WINDOW; taken++) {
        take();
        CHECK(station.lines[0] == 1 && station.lines[1] == 0);
        flow_control(SLOTS, (uint8_t)(SLOTS + taken));
        CHECK(hands_out_nothing(&station));
    }
    for (; taken <= SLOTS; taken++) {
        take();
        CHECK(hands_out_nothing(&station));
    }
    CHECK(says(arrive(&host, replied(&station, handed_out(&host))), PEAT_DONE, 0));
}

/* As many slots as the window: each unit that is held has one number less stated, and each take tells it. Numbers go round at 256. */
static void past_255(void) {
    PeatLimits limits = USED;
    uint8_t stated;
    int number;
    limits.window = SLOTS;
    open_both(limits);
    for (number = 1; number <= 600; number++) {
        send(1, (uint8_t)number, &stated);
        CHECK(stated == (uint8_t)(number + SLOTS - 1));
        take();
        flow_control((uint8_t)number, (uint8_t)(number + SLOTS));
    }
}

/* While one is ready or out no other is made, and what it did not tell the next one tells. */
static void one_at_a_time(void) {
    Packet packet;
    PeatFlow *flow = &station.table[0].pulse.flow;
    fill(USED);
    CHECK(flow->last == SLOTS && flow->packet.state == PEAT_LONE_NONE);
    take();
    take();
    CHECK(flow->packet.state == PEAT_LONE_READY && flow->number == 0 && flow->stated == 0);
    CHECK(says(arrive(&station, made_up(&station, PEAT_FLOW_CONTROL, SLOTS, -1)), PEAT_IGNORED, 0));
    CHECK(says(peat_lent_next_packet(&station.lent, station.node, packet.octets, BARE), PEAT_SMALL, STATING));
    packet = handed_out(&station);
    CHECK(is(&packet, PEAT_FLOW_CONTROL, SLOTS, 10));
    CHECK(flow->packet.state == PEAT_LONE_OUT && flow->number == SLOTS && flow->stated == 10);
    take();
    CHECK(hands_out_nothing(&station));
    CHECK(says(arrive(&station, made_up(&station, PEAT_FLOW_CONTROL, SLOTS + 1, -1)), PEAT_IGNORED, 0));
    CHECK(says(arrive(&station, replied(&host, packet)), PEAT_DONE, 0));
    CHECK(host.table[0].pulse.flow.recorded == 10);
    flow_control(SLOTS, 11);
    CHECK(hands_out_nothing(&station));
    CHECK(says(arrive(&station, made_up(&station, PEAT_FLOW_CONTROL, SLOTS, -1)), PEAT_IGNORED, 0));
}

/* A resend keeps its number, whatever was sent meanwhile, and states the number of now. What counts on its Ack is what it stated first. */
static void again(void) {
    Packet packet;
    fill(USED);
    take();
    packet = handed_out(&station);
    CHECK(is(&packet, PEAT_FLOW_CONTROL, SLOTS, 9));
    packet = replied(&station, made_up(&station, PEAT_HEARTBEAT, 77, -1));
    CHECK(is(&packet, PEAT_HEARTBEAT_ACK, 77, -1));
    take();
    ticks(&station, TIMEOUT);
    packet = handed_out(&station);
    CHECK(is(&packet, PEAT_FLOW_CONTROL, SLOTS, 10));
    replied(&station, made_up(&station, PEAT_HEARTBEAT, 77, -1));
    CHECK(says(arrive(&station, replied(&host, packet)), PEAT_DONE, 0));
    flow_control(77, 10);
    CHECK(hands_out_nothing(&station));
}

static int is_none(PeatLone lone) { return lone.state == PEAT_LONE_NONE && lone.timer == 0 && lone.tries == 0; }

/* Zeros, field by field: the octets between them are nobody's. */
static int is_clear(PeatPulse pulse) {
    return pulse.left == 0 && is_none(pulse.beat) && is_none(pulse.flow.packet) && pulse.flow.number == 0 && pulse.flow.stated == 0 &&
           pulse.flow.last == 0 && pulse.flow.recorded == 0;
}

/* A Heartbeat, if there is an interval, then Flow Control, which starts that anew, and then nothing. */
static void hands_out_beside(uint16_t interval, uint8_t number) {
    Packet packet = handed_out(&station);
    if (interval != 0) {
        CHECK(is(&packet, PEAT_HEARTBEAT, 0, -1));
        packet = handed_out(&station);
    }
    CHECK(is(&packet, PEAT_FLOW_CONTROL, number, 9));
    CHECK(station.table[0].pulse.left == interval);
    CHECK(hands_out_nothing(&station));
}

/* Nobody answers: out after the take and the interval, again after two ticks, and the fourth answers 9. Units stay to be taken, and nothing more is
 * told. A Heartbeat that is spent in the same tick does not give the reason. */
static void without_an_answer(uint16_t interval, uint8_t number) {
    PeatLimits limits = USED;
    PeatSaid said;
    int left;
    limits.interval = interval;
    fill(limits);
    take();
    ticks(&station, interval);
    hands_out_beside(interval, number);
    ticks(&station, TIMEOUT);
    hands_out_beside(interval, number);
    ticks(&station, TIMEOUT - 1);
    said = peat_lent_tick(&station.lent);
    CHECK(says(said, PEAT_INACTIVE, 0) && said.reason == PEAT_RETRIES);
    CHECK(station.table[0].phase.state == PEAT_CLOSED && station.table[0].phase.reason == PEAT_RETRIES);
    for (left = SLOTS - 1; left > 0; left--) {
        take();
    }
    CHECK(hands_out_nothing(&station) && is_clear(station.table[0].pulse));
}

/* Room for a reply is asked for by the packet's type, whatever it would be answered; and type 6 and Acks are as the channel has it. */
static void used(void) {
    Packet reply, before;
    open_both(USED);
    memset(&reply, 0xEE, sizeof reply);
    memcpy(&before, &reply, sizeof before);
    CHECK(says(arrive_in(&station, made_up(&station, PEAT_DATA, 1, -1), &reply, BARE), PEAT_SMALL, STATING));
    CHECK(says(arrive_in(&station, made_up(&station, PEAT_OPEN_COMMAND, 9, -1), &reply, BARE), PEAT_SMALL, STATING));
    CHECK(says(arrive_in(&station, made_up(&station, PEAT_CLOSE_COMMAND, 0, -1), &reply, BARE), PEAT_SMALL, STATING));
    CHECK(memcmp(reply.octets, before.octets, sizeof reply.octets) == 0);
    CHECK(says(arrive_in(&station, made_up(&station, PEAT_HEARTBEAT, 0, -1), &reply, BARE), PEAT_DONE, BARE));
    CHECK(says(arrive_in(&host, made_up(&host, PEAT_FLOW_CONTROL, 9, 4), &reply, BARE), PEAT_DONE, BARE));
    CHECK(is(&reply, PEAT_FLOW_CONTROL, 9, -1));
    CHECK(says(arrive_in(&host, made_up(&host, PEAT_DATA_ACK, 9, 4), &reply, BARE), PEAT_IGNORED, 0));
    CHECK(says(arrive(&host, made_up(&host, PEAT_DATA_ACK, 9, -1)), PEAT_STRANGE, 0));
    CHECK(says(arrive(&host, made_up(&host, PEAT_CONTROL_ACK, 0, -1)), PEAT_STRANGE, 0));
    CHECK(arrive(&host, made_up(&host, PEAT_FLOW_CONTROL, 9, -1)).number == PEAT_NO_CHANNEL);
    CHECK(arrive(&station, made_up(&station, PEAT_FLOW_CONTROL, 9, 4)).number == PEAT_NO_CHANNEL);
    reply = replied(&station, made_up(&station, PEAT_DATA, 1, -1));
    CHECK(says(arrive_in(&station, made_up(&station, PEAT_DATA, 1, -1), &reply, STATING), PEAT_REPEATED, STATING));
    CHECK(is(&reply, PEAT_DATA_ACK, 1, 5));
}

/* A prefix of N octets comes on top, and the number stated stands at 10 + N. */
static void with_a_prefix(void) {
    static const PeatPrefix three = {3, {1, 2, 3}}, none = PEAT_NO_PREFIX;
    Packet reply;
    prefix = three;
    open_both(USED);
    CHECK(says(arrive_in(&station, made_up(&station, PEAT_DATA, 1, -1), &reply, STATING + 2), PEAT_SMALL, STATING + 3));
    CHECK(says(arrive_in(&station, made_up(&station, PEAT_DATA, 1, -1), &reply, STATING + 3), PEAT_DONE, STATING + 3));
    CHECK(is(&reply, PEAT_DATA_ACK, 1, 5) && reply.octets[13] == 5);
    CHECK(says(arrive_in(&host, made_up(&host, PEAT_FLOW_CONTROL, 1, 4), &reply, BARE + 2), PEAT_SMALL, BARE + 3));
    CHECK(says(arrive_in(&host, made_up(&host, PEAT_FLOW_CONTROL, 1, 4), &reply, BARE + 3), PEAT_DONE, BARE + 3));
    CHECK(says(arrive_in(&station, made_up(&station, PEAT_FLOW_CONTROL, 1, -1), &reply, BARE), PEAT_IGNORED, 0));
    prefix = none;
}

static void not_used(void) {
    PeatLimits limits = USED;
    Packet packet, reply;
    limits.flow = 0;
    open_both(limits);
    transfer(1);
    packet = handed_out(&host);
    CHECK(says(arrive_in(&station, packet, &reply, BARE), PEAT_DONE, BARE));
    CHECK(is(&reply, PEAT_DATA_ACK, 1, -1));
    CHECK(says(arrive(&host, made_up(&host, PEAT_DATA_ACK, 1, 5)), PEAT_STRANGE, 0));
    CHECK(says(arrive(&host, made_up(&host, PEAT_CONTROL_ACK, 0, 5)), PEAT_STRANGE, 0));
    CHECK(says(arrive(&host, made_up(&host, PEAT_FLOW_CONTROL, 1, 5)), PEAT_STRANGE, 0));
    CHECK(says(arrive(&station, made_up(&station, PEAT_FLOW_CONTROL, 1, -1)), PEAT_STRANGE, 0));
    CHECK(says(arrive(&host, reply), PEAT_DONE, 0));
    take();
    CHECK(hands_out_nothing(&station) && host.table[0].pulse.flow.recorded == 0);
}

/* Numbers handed out from this one on, and then nothing. */
static void hands_out(uint8_t first, uint8_t last) {
    for (; first <= last; first++) {
        Packet packet = handed_out(&host);
        CHECK(is(&packet, PEAT_DATA, first, -1));
    }
    CHECK(hands_out_nothing(&host));
}

/* With a window of 8 the Ack of the Open states 4. */
static void what_a_sender_obeys(void) {
    static const uint8_t ignored[] = {3, 0, 132, 255, 13};
    const uint8_t *recorded = &host.table[0].pulse.flow.recorded;
    PeatLimits limits = USED;
    size_t at;
    limits.window = SLOTS;
    limits.retries = 9;
    CHECK(make(&host, HOST, STATION, PEAT_SENDS, limits).number == PEAT_DONE);
    CHECK(says(peat_lent_open(&host.lent, 0), PEAT_DONE, 0));
    handed_out(&host);
    CHECK(says(arrive(&host, made_up(&host, PEAT_CONTROL_ACK, 0, 4)), PEAT_DONE, 0));
    transfer(SLOTS);
    hands_out(1, 4);
    for (at = 0; at < sizeof ignored; at++) {
        CHECK(says(arrive(&host, made_up(&host, PEAT_FLOW_CONTROL, 0, ignored[at])), PEAT_DONE, BARE));
        CHECK(*recorded == 4 && hands_out_nothing(&host));
    }
    CHECK(says(arrive(&host, made_up(&host, PEAT_FLOW_CONTROL, 0, 5)), PEAT_DONE, BARE));
    CHECK(host.lines[34] == 1);
    hands_out(5, 5);
    /* What was sent is resent all the same; an Ack that is ignored states nothing. */
    ticks(&host, TIMEOUT);
    hands_out(1, 5);
    CHECK(says(arrive(&host, made_up(&host, PEAT_DATA_ACK, 6, 8)), PEAT_IGNORED, 0));
    CHECK(*recorded == 5 && hands_out_nothing(&host));
    CHECK(says(arrive(&host, made_up(&host, PEAT_DATA_ACK, 2, 7)), PEAT_DONE, 0));
    CHECK(*recorded == 7);
    hands_out(6, 7);
    CHECK(says(arrive(&host, made_up(&host, PEAT_DATA_ACK, 1, 5)), PEAT_DONE, 0));
    CHECK(*recorded == 7 && host.table[0].window.start == 3 && hands_out_nothing(&host));
}

/* In OPEN alone; the Ack of a Close carries k, and a Close takes back what waits. */
static void out_of_open(void) {
    Packet packet, reply;
    CHECK(make(&station, STATION, HOST, PEAT_RECEIVES, USED).number == PEAT_DONE);
    CHECK(says(arrive(&station, made_up(&station, PEAT_FLOW_CONTROL, 0, -1)), PEAT_STATE, 0));
    fill(USED);
    take();
    CHECK(says(peat_lent_close(&host.lent, 0), PEAT_DONE, 0));
    CHECK(is_clear(host.table[0].pulse));
    CHECK(says(arrive(&host, made_up(&host, PEAT_FLOW_CONTROL, 0, 9)), PEAT_STATE, 0));
    packet = handed_out(&host);
    reply = replied(&station, packet);
    CHECK(is(&packet, PEAT_CLOSE_COMMAND, 0, -1) && is(&reply, PEAT_CONTROL_ACK, 0, WINDOW));
    CHECK(says(arrive_in(&station, packet, &reply, STATING), PEAT_REPEATED, STATING));
    CHECK(is(&reply, PEAT_CONTROL_ACK, 0, WINDOW));
    CHECK(hands_out_nothing(&station) && is_clear(station.table[0].pulse));
    take();
    CHECK(hands_out_nothing(&station) && is_clear(station.table[0].pulse));
    CHECK(says(arrive(&host, reply), PEAT_DONE, 0));
    CHECK(host.table[0].phase.state == PEAT_CLOSED && is_clear(host.table[0].pulse));
}

int main(void) {
    settings();
    packets_alone();
    what_a_receiver_states();
    past_255();
    one_at_a_time();
    again();
    without_an_answer(0, SLOTS);
    without_an_answer(3, 0);
    used();
    with_a_prefix();
    not_used();
    what_a_sender_obeys();
    out_of_open();
    return wrong;
}
