/* How much stack the calls take, as the header says: each runs on a stack of its own, filled beforehand with an octet that then tells how far
 * down it was written. Prints the most that a call took, over a table of 16 records with 128 slots each and the longest prefixes; fails over
 * what the header names. */
#define _XOPEN_SOURCE 700
#include <string.h>
#include <ucontext.h>

#include "check.h"
#include "peatwimple.h"

enum { ENOUGH = 16 * 1024, STACK = 8 * ENOUGH, UNTOUCHED = 0xA5 };
enum { RECORDS = 16, SLOTS = 128, PAYLOAD = 16, OCTETS = RECORDS * SLOTS * PAYLOAD, LENGTHS = RECORDS * SLOTS };

static const PeatNode NODE = {64, PEAT_PROTOCOL};

static PeatSettings settings[RECORDS];
static PeatChannel table[RECORDS];
static uint8_t memory[OCTETS];
static uint16_t lengths[LENGTHS];
static uint8_t lines[PEAT_LINES];
static const PeatLent LENT = {table, RECORDS, memory, OCTETS, lengths, LENGTHS, lines, PEAT_LINES};
static uint8_t packet[12 + PEAT_PREFIX + PAYLOAD], reply[PEAT_ACK_OCTETS + PEAT_PREFIX + 1], unit[3 * PAYLOAD];

/* What the last call answered, and the octets of the packet that was handed out last and of the last reply. */
static uint32_t answer;
static size_t packet_octets, reply_octets;

#define LONGEST {PEAT_PREFIX, {1, 2, 3, 4, 5, 6, 7, 8, 9, 10, 11, 12, 13, 14, 15}}

/* The last record sends to the first, and what they exchange goes through every step that files, sends, acknowledges and gathers. The last octet
 * of what comes back is another, which alone tells the two apart. */
static void settle(void) { answer = peat_lent_settings(&LENT, settings, RECORDS).number; }
static void open_sender(void) { answer = peat_lent_open(&LENT, RECORDS - 1).number; }
static void open_receiver(void) { answer = peat_lent_open(&LENT, 0).number; }
static void close_sender(void) { answer = peat_lent_close(&LENT, RECORDS - 1).number; }
static void ask(void) { answer = peat_lent_would_transfer(&LENT, RECORDS - 1, sizeof unit).number; }
static void transfer(void) { answer = peat_lent_transfer(&LENT, RECORDS - 1, unit, sizeof unit).number; }
static void take(void) { answer = peat_lent_take(&LENT, 0, unit, sizeof unit).number; }
static void reclaim(void) { answer = peat_lent_reclaim(&LENT, RECORDS - 1, unit, sizeof unit).number; }
static void tick(void) { answer = peat_lent_tick(&LENT).number; }
static void acknowledge(void) { answer = peat_lent_arrival(&LENT, NODE, reply, reply_octets, packet, sizeof packet).number; }

static void arrive(void) {
    PeatSaid said = peat_lent_arrival(&LENT, NODE, packet, packet_octets, reply, sizeof reply);
    answer = said.number;
    reply_octets = said.length;
}

static void hand_out(void) {
    PeatSaid said = peat_lent_next_packet(&LENT, NODE, packet, sizeof packet);
    answer = said.number;
    packet_octets = said.length;
}

static void nothing(void) { answer = PEAT_DONE; }

/* The octets of stack that a call takes, with what it takes to start it there. */
static size_t taken_by(void (*call)(void)) {
    static uint8_t stack[STACK];
    ucontext_t here, there;
    size_t untouched = 0;
    memset(stack, UNTOUCHED, STACK);
    CHECK(getcontext(&there) == 0);
    there.uc_stack.ss_sp = stack;
    there.uc_stack.ss_size = STACK;
    there.uc_link = &here;
    makecontext(&there, call, 0);
    CHECK(swapcontext(&here, &there) == 0);
    CHECK(answer == PEAT_DONE);
    while (untouched < STACK && stack[untouched] == UNTOUCHED) {
        untouched++;
    }
    return STACK - untouched;
}

static void make(void) {
    size_t index;
    for (index = 0; index < RECORDS; index++) {
        PeatSettings one = {{(uint16_t)index, 64, PEAT_RECEIVES, LONGEST, LONGEST}, {SLOTS, SLOTS, PAYLOAD, 3, 9, 9, 3, 2, 1, 0, 0}};
        settings[index] = one;
    }
    settings[RECORDS - 1].addresses.channel = 0;
    settings[RECORDS - 1].addresses.direction = PEAT_SENDS;
    settings[RECORDS - 1].addresses.remote_prefix.octets[PEAT_PREFIX - 1] = 16;
    settings[0].addresses.own_prefix.octets[PEAT_PREFIX - 1] = 16;
}

int main(void) {
    static void (*const calls[])(void) = {
        settle,   open_sender, open_receiver, hand_out, arrive,       acknowledge,                  /* both ends open */
        ask,      transfer,    hand_out,      arrive,   acknowledge,                                /* the first segment */
        hand_out, arrive,      hand_out,      arrive,   take,                                       /* the other two */
        hand_out, arrive,      acknowledge,                                                         /* Flow Control, as one was taken */
        tick,     tick,        hand_out,      arrive,   acknowledge,                                /* a Heartbeat of the receiver */
        hand_out, arrive,      acknowledge,                                                         /* and one of the sender */
        transfer, tick,        close_sender,  hand_out, arrive,       acknowledge, reclaim,         /* another unit, not sent */
    };
    size_t call, most = 0, start;
    make();
    start = taken_by(nothing);
    for (call = 0; call < sizeof calls / sizeof *calls; call++) {
        size_t taken = taken_by(calls[call]) - start;
        most = taken > most ? taken : most;
    }
    printf("the most stack that a call took: %zu octets\n", most);
    CHECK(most <= ENOUGH);
    return wrong;
}
