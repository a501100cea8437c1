/* Peatwimple: a SpaceWire-R node for C. Every call's source is proved to give what docs/PROMISES.md says, which also says what that rests on.
 *
 * The library keeps no state and allocates nothing. All that it works on is lent by the caller, for the time of one call, as pointers
 * with counts; a count is of elements, not of octets. The caller sees to four things, and to no other:
 *   - each pointer is good for its count of elements, and aligned; with a count of 0 it is not followed;
 *   - what a call may change (a pointer without const) overlaps nothing else that is lent to the same call;
 *   - no other thread uses what is lent while the call runs. Calls on other tables may run at the same time;
 *   - the stack has room: 16 KB do. Up to 15.7 KB was measured for a call (tests/c/stack.c), which is no proved bound.
 * Any octets, any records, any counts may be lent: what is wrong is refused by number and never undefined.
 *
 * A node is lent in four parts, the same ones in every call; PeatLent, below, holds all four:
 *   table    1 to 16 records, one for each channel; a call's index counts from 0
 *   memory   exactly slots * payload octets for each record, one after another in table order
 *   lengths  exactly one 16-bit number for each slot, in table order
 *   lines    exactly 51 octets, 17 for each of three ranks (Control, Heartbeats and Flow Control; resent Data; new Data): how many channels
 *            stand in that line, 0 to 16, then their indexes from the head on, none of them twice, then zeros. peat_settings empties them;
 *            a call that answers 0, 9 or 15 puts its own channel into a line or takes it out, a tick any channel. 13 and the next packet
 *            alone depend on them
 * Every call but peat_settings first tests these sizes, the lines, and the standing condition of each record (docs/CONDITION.md): else 13.
 *
 * A refusal is any answer but 0, 9 and 15. It leaves table, memory, lengths, lines and buffer as they were, to the last octet. A call that
 * writes a packet, a reply or a unit writes it at the front of the lent buffer and leaves the octets past its end. No call but peat_settings
 * and peat_tick changes another channel than the one it serves, whose index the answer tells, or puts another into a line or takes it out.
 * peat_transfer and peat_arrival alone change memory or lengths: the other calls that take them without const go through the same function,
 * and leave them as they were. peat_would_transfer changes nothing at all, the lines neither.
 *
 * With 11 the answer's length says how many octets were wanted, and none was written: what is to be read from a buffer, or sent, is told
 * by 0 and 15 alone.
 *
 * A Heartbeat asks the other end whether it is still there. An end, be it a sender or a receiver, makes one when its interval has passed in
 * OPEN and it has sent neither Data nor an Ack nor Flow Control meanwhile; it has the timeout and the retries of any packet. One that gets no
 * answer closes its channel with the reason PEAT_UNANSWERED, and units stay as in any close. So receivers hand out packets, too: a subscriber's
 * box whose channels have an interval, or use Flow Control, calls peat_tick and peat_next_packet as a host does, and sends what it is given. An
 * end whose interval is 0 makes no Heartbeat, and answers those that arrive.
 *
 * Flow Control, on a channel whose ends are both set to use it, tells the sender how far it may send. The number stated is the highest that the
 * receiver accepts: the smaller of its start + k - 1 and its oldest not taken + slots - 1, modulo 256; with full slots it is the start less 1,
 * that is none. The Acks of Data and of an Open carry it, as one octet of payload; that of a Close carries k, which means nothing. A take in
 * OPEN that changes it makes a Flow Control packet ready, with the one octet: it has the timeout and the retries of any packet, and one that
 * gets no answer closes its channel with the reason PEAT_RETRIES. The sender records what is stated, and new Data past it is not ready; Data
 * that was sent is resent all the same.
 *
 * A pair of routes: a sender may name another sender of the table as its spare. On both, and on no other channel, a unit has a leading octet in
 * front of its own: 0 as it was transferred. It is filed, sent, taken and reclaimed with the unit. So M x P octets are one too many there, and an
 * empty unit is one octet. Nothing is moved from one route to the other yet.
 *
 * A packet has 12 + N + X octets: N, 0 to 15, are of the prefix of its source address, X of its payload. What goes out has the own prefix of
 * its channel, and begins with the other node's logical address. The destination identifiers before that (000, 4.2.2.1), by which it is led
 * to another region, are the driver's: the library neither writes nor reads them. They are the octets of the channel's remote prefix, and
 * the answer's index names the channel, of a next packet and of a reply. */
#ifndef PEATWIMPLE_H
#define PEATWIMPLE_H

#include <stddef.h>
#include <stdint.h>

#include "peatwimple_records.h"

#ifdef __cplusplus
extern "C" {
#endif

/* ---- the node ---- */

/* Makes the table afresh, one record of each of the settings, CLOSED and empty. It reads no old record, and alone may drop held units. The
 * memory and lengths are only measured: their octets may be anything, and so may those of the lines, which it sets to 0.
 *   13  not 1 to 16 settings; not as many as records; one out of its bounds, a prefix or flow too; two that agree in channel, remote and remote
 *       prefix, whatever their directions; a spare that is no other sending record, or that a receiver names; lead other than 1 on a pair and
 *       0 elsewhere; memory, lengths or lines not of their size
 *   0   else, and the lines are empty */
PeatSaid peat_settings(PeatChannel *table, size_t records, const uint8_t *memory, size_t octets, const uint16_t *lengths, size_t slots,
                       uint8_t *lines, size_t line_octets, const PeatSettings *settings, size_t count);

/* An Open directive for the channel of this index.
 *   13, 14  sizes, lines or records; no record has the index
 *   5       the channel is not CLOSED
 *   10      units are unreclaimed (sender) or untaken (receiver)
 *   0       ENABLED, a new opening: window start 1, no mark, no timer, no Heartbeat, no Flow Control, no reason; at a sender an Open is ready */
PeatSaid peat_open(PeatChannel *table, size_t records, uint8_t *memory, size_t octets, uint16_t *lengths, size_t slots, uint8_t *lines,
                   size_t line_octets, size_t index);

/* A Close directive.
 *   13, 14  as above
 *   5       a receiver; a sender in CLOSED or CLOSING; one in ENABLED that keeps a Close already
 *   0       in ENABLED: kept until the Open is acknowledged. In OPEN: CLOSING, a Close is ready, no Data and no Heartbeat goes out any
 *           more; every unconfirmed unit is still held, whole */
PeatSaid peat_close(PeatChannel *table, size_t records, uint8_t *memory, size_t octets, uint16_t *lengths, size_t slots, uint8_t *lines,
                    size_t line_octets, size_t index);

/* A unit of any length, 0 too, for a sender to hold and send. The unit is only read, and need not be kept.
 *   13, 14  as above
 *   5       a receiver; a sender that is not OPEN
 *   6, 7    the unit, with its leading octet if it has one, has over M segments; slots held and slots needed are over the slots
 *   0       accepted: its segments lie in the memory, with their lengths; a slot's octets past its segment stay */
PeatSaid peat_transfer(PeatChannel *table, size_t records, uint8_t *memory, size_t octets, uint16_t *lengths, size_t slots, uint8_t *lines,
                       size_t line_octets, size_t index, const uint8_t *unit, size_t count);

/* What peat_transfer would answer now to a unit of count octets: 13, 14, 5, 6, 7 or 0, by the same tests. Nothing changes, whatever the
 * answer. */
PeatSaid peat_would_transfer(PeatChannel *table, size_t records, uint8_t *memory, size_t octets, uint16_t *lengths, size_t slots,
                             uint8_t *lines, size_t line_octets, size_t index, size_t count);

/* The oldest complete unit of a receiver, in any state.
 *   13, 14  as above
 *   5       a sender
 *   12, 11  no complete unit is held; it is longer than the buffer, and still held: length tells its octets
 *   0       the unit at the front of out, its octets counted by length; its slots are free. In OPEN, where Flow Control is used and the number
 *           stated is now another, a Flow Control packet is ready, unless there is one that is ready or not acknowledged */
PeatSaid peat_take(PeatChannel *table, size_t records, uint8_t *memory, size_t octets, uint16_t *lengths, size_t slots, uint8_t *lines,
                   size_t line_octets, size_t index, uint8_t *out, size_t count);

/* The oldest unit of a sender in CLOSED that was not confirmed, whole.
 *   13, 14  as above
 *   5       a receiver; a sender that is not CLOSED
 *   12, 11  no unit is held; it is longer than the buffer, and still held: length tells its octets
 *   0       the unit at the front of out, its octets counted by length; its slots are free */
PeatSaid peat_reclaim(PeatChannel *table, size_t records, uint8_t *memory, size_t octets, uint16_t *lengths, size_t slots, uint8_t *lines,
                      size_t line_octets, size_t index, uint8_t *out, size_t count);

/* The packet that goes out next: Control, Heartbeats and Flow Control before resent Data before new Data; of a rank that of the first in its line
 * who has one ready; within a channel the Heartbeat before Flow Control, and of Data the lowest segment. Of a receiver it is a Heartbeat or Flow
 * Control, and nothing else. Data or Flow Control that is handed out starts the channel's interval anew, a Heartbeat does not. New Data is ready
 * if it is within the window and, where Flow Control is used, no further past the start than the number recorded, modulo 256; none is if that is
 * 128 or more past it. Flow Control states the number of now; its Sequence Number is that of the packet that its channel sent last in OPEN, be it
 * an Ack, a Heartbeat or Flow Control, and of a resend the one that it had.
 *
 * A channel joins the line of a rank at the tail when it has a packet of that rank ready and had none before; those that join in one tick stand
 * by index. It leaves when it has none any more. When its packet is handed out it goes to the tail if it has another of that rank ready. So of a
 * table and lines that the calls alone have written: who has a packet ready stands in its line, and while it stands there at most 15 packets of
 * that rank go out before its own. Lines that a caller has written into count as they are: who stands there with nothing ready is passed over,
 * who has something ready and does not stand is not served of that rank, until a call that serves it and answers 0, 9 or 15 (peat_would_transfer
 * apart), or a tick, puts that right. 12 + N + P octets hold any packet of a channel whose own prefix has N.
 *   13      as above
 *   12      no channel that stands in a line has a packet of its rank ready; the index is that of no channel
 *   11      the one that goes next is longer than the buffer, and is still ready: length tells its octets, index whose it is. Its channel
 *           keeps its place
 *   0       the packet at the front of out, its octets counted by length; its timer runs from the timeout on */
PeatSaid peat_next_packet(PeatChannel *table, size_t records, uint8_t *memory, size_t octets, uint16_t *lengths, size_t slots,
                          uint8_t *lines, size_t line_octets, PeatNode node, uint8_t *out, size_t count);

/* A packet that came in: any octets, any number of them. The packet is only read. With 0 or 15 and a length other than 0 the reply is to be
 * sent: it has 12 + N octets, N being those of the channel's own prefix, and that to Data, Open or Close one more where Flow Control is used, at
 * 10 + N: the number stated, as it is after the call, or of a Close k. Type 6 is Flow Control with one octet of payload, the Ack of it with none.
 * Up to and with 14 the index is that of no channel, below that of the channel found.
 *   13      as above
 *   11      the reply buffer has under 12 octets, whatever came: length is 12
 *   1, 2, 4, 3  the packet is refused alone; 3 also for Data with flags first or continuation and no payload, for two octets of payload or more
 *           in a Data Ack, a Control Ack or type 6, and for another node's destination or protocol ID
 *   14      no record has its channel number, source and prefix: Data, Control and Acks of Flow Control look for a receiver, Data Acks,
 *           Control Acks and Flow Control for a sender, Heartbeats and their Acks for either
 *   11      whatever would be answered, the reply buffer has too few octets, and length tells how many are wanted: for Data, Open and Close
 *           12 + N, and one more where Flow Control is used; for a Heartbeat and for Flow Control, be it used or not, 12 + N
 *   3       Data with a payload over P; where Flow Control is not used type 6, and a Data Ack or Control Ack with a payload; where it is used
 *           one without
 *   5       the state does not allow it
 *   16      an ack that nothing waits for
 *   15      a second Open before Data, a further Close, or Data held already or at most k behind the window: the reply alone is written,
 *           an Ack. In OPEN the channel's interval starts anew, and the Ack is the packet sent last
 *   8       new Data as many slots or more past the oldest segment not yet taken
 *   9       the channel went inactive for the reason told, Data more than k behind the window being one: CLOSED, units complete by then
 *           stay to be taken, unfinished ones go. No reply is written. With the reason flags the segment was filed, else no octet and
 *           no length has changed
 *   0       Data: filed in its slot, and a Data Ack is the reply. Open or Close: its state, and a Control Ack is the reply. A Heartbeat, in
 *           OPEN and whatever its number: a Heartbeat Ack with that number is the reply. Flow Control, in OPEN and whatever its number: what
 *           it states is recorded as below, and the Ack of it, of type 6 with that number, is the reply. In OPEN each of these replies starts
 *           the channel's interval anew, and is the packet sent last. A Control Ack: its state, no reply; where that is OPEN, what it states
 *           is recorded, whatever it is. A Data Ack: recorded, and what it states as below, no reply; confirmed tells how many units it
 *           confirmed, whose slots are free. A Heartbeat Ack: the Heartbeat that waited for it is gone, no reply. An Ack of Flow Control: so
 *           is that packet, no reply; another is ready if the number stated is now another than when that one was first handed out
 * A number that is stated is recorded if it is at most k past the highest number sent, modulo 256, and not less far past it than the one
 * recorded, unless that one is more than k past it. */
PeatSaid peat_arrival(PeatChannel *table, size_t records, uint8_t *memory, size_t octets, uint16_t *lengths, size_t slots, uint8_t *lines,
                      size_t line_octets, PeatNode node, const uint8_t *packet, size_t packet_count, uint8_t *reply, size_t reply_count);

/* One tick of every timer of every channel, receivers too: a packet whose timer ends is ready again, or with no resend left its channel goes
 * inactive; a receiver whose close timer ends is CLOSED. Then, in OPEN, of the interval: as it ends a Heartbeat is ready, unless there is one
 * that is ready or not acknowledged, and it starts anew. Each channel then joins and leaves the lines, in table order.
 *   13  as above
 *   9   some channel went inactive, by the retries of a sender's packets, of a receiver's Flow Control or of a Heartbeat; all were ticked, and
 *       each record says its own reason, PEAT_UNANSWERED only where no other packet of its channel was spent in this tick. A sender's units
 *       are still held, a receiver's complete ones stay to be taken. The index is the lowest of those that went inactive in this tick, and
 *       the reason is that channel's
 *   0   all were ticked; the index is that of no channel */
PeatSaid peat_tick(PeatChannel *table, size_t records, const uint8_t *memory, size_t octets, const uint16_t *lengths, size_t slots,
                   uint8_t *lines, size_t line_octets);

/* ---- the packet alone ----
 * Nothing of a node is asked: addresses and protocol ID are plain fields. */

/* The check sum of any octets: x^16+x^12+x^5+1, all ones at the start, top bit first, not inverted. Nothing is written. */
uint16_t peat_crc(const uint8_t *octets, size_t count);

/* Reads a packet where it lies: 1, 2, 4, 3 in this order, else 0. Nothing is written. 3 is also for Data that does not end its unit (flags
 * first or continuation) and has no payload, and for a payload of two octets or more in a Data Ack, a Control Ack or type 6, of any in the other
 * types but Data. No type is 4. Every prefix that a packet can announce is read: one that is not all there is 1. */
PeatReading peat_read_packet(const uint8_t *packet, size_t count);

/* Writes a packet with this prefix and this payload: 4 (as when read, and for a type over 7 or a prefix over 15 octets), 3 (as when read, and for
 * a payload over 65,535 octets), 11 in this order and out as it was, with 11 its whole length being told; else 0, the packet at the front of out
 * and its octets past it as they were. */
PeatWriting peat_write_packet(PeatFields fields, const uint8_t *prefix, size_t prefix_count, const uint8_t *payload, size_t payload_count,
                              uint8_t *out, size_t count);

/* ---- what is lent, written once ----
 * A caller who lends the same node in every call writes it down once, in a PeatLent. peat_lent_NAME is peat_NAME with that struct for the eight
 * arguments it holds: it answers the same, and leaves the same. The struct itself is only read. */

typedef struct PeatLent {
    PeatChannel *table;
    size_t records;
    uint8_t *memory;
    size_t octets;
    uint16_t *lengths;
    size_t slots; /* of the whole table: as many as there are lengths */
    uint8_t *lines;
    size_t line_octets;
} PeatLent;

#define PEAT_LENT lent->table, lent->records, lent->memory, lent->octets, lent->lengths, lent->slots, lent->lines, lent->line_octets

static inline PeatSaid peat_lent_settings(const PeatLent *lent, const PeatSettings *settings, size_t count) {
    return peat_settings(PEAT_LENT, settings, count);
}

static inline PeatSaid peat_lent_open(const PeatLent *lent, size_t index) { return peat_open(PEAT_LENT, index); }

static inline PeatSaid peat_lent_close(const PeatLent *lent, size_t index) { return peat_close(PEAT_LENT, index); }

static inline PeatSaid peat_lent_transfer(const PeatLent *lent, size_t index, const uint8_t *unit, size_t count) {
    return peat_transfer(PEAT_LENT, index, unit, count);
}

static inline PeatSaid peat_lent_would_transfer(const PeatLent *lent, size_t index, size_t count) {
    return peat_would_transfer(PEAT_LENT, index, count);
}

static inline PeatSaid peat_lent_take(const PeatLent *lent, size_t index, uint8_t *out, size_t count) {
    return peat_take(PEAT_LENT, index, out, count);
}

static inline PeatSaid peat_lent_reclaim(const PeatLent *lent, size_t index, uint8_t *out, size_t count) {
    return peat_reclaim(PEAT_LENT, index, out, count);
}

static inline PeatSaid peat_lent_next_packet(const PeatLent *lent, PeatNode node, uint8_t *out, size_t count) {
    return peat_next_packet(PEAT_LENT, node, out, count);
}

static inline PeatSaid peat_lent_arrival(const PeatLent *lent, PeatNode node, const uint8_t *packet, size_t packet_count, uint8_t *reply,
                                         size_t reply_count) {
    return peat_arrival(PEAT_LENT, node, packet, packet_count, reply, reply_count);
}

static inline PeatSaid peat_lent_tick(const PeatLent *lent) { return peat_tick(PEAT_LENT); }

#undef PEAT_LENT

#ifdef __cplusplus
}
#endif

#endif
