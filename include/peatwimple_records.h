/* The numbers and records that the calls of peatwimple.h take and give. A caller includes that file, which includes this one. */
#ifndef PEATWIMPLE_RECORDS_H
#define PEATWIMPLE_RECORDS_H

#include <stddef.h>
#include <stdint.h>

/* ---- numbers ---- */

/* Answers (document 01, Answer numbers). */
enum {
    PEAT_DONE = 0,       /* done */
    PEAT_SHORT = 1,      /* under 12 octets, or not 12 + N + X */
    PEAT_DAMAGED = 2,    /* the check sum is wrong */
    PEAT_STRANGE = 3,    /* another header field is unexpected, or the payload is too long, or there is one where none may be, or none where
                          * Flow Control asks for one */
    PEAT_LACKING = 4,    /* secondary header, or, to be written, a type over 7 or a prefix of over 15 octets */
    PEAT_STATE = 5,      /* the state, or the direction, does not allow it */
    PEAT_LONG = 6,       /* the unit has over M segments */
    PEAT_NO_ROOM = 7,    /* slots held and slots needed are over the slots */
    PEAT_FULL = 8,       /* the receive slots are full */
    PEAT_INACTIVE = 9,   /* this call made a channel inactive: CLOSED, with a reason */
    PEAT_UNTAKEN = 10,   /* units are untaken or unreclaimed */
    PEAT_SMALL = 11,     /* the lent buffer is too small */
    PEAT_NOTHING = 12,   /* there is nothing to hand out */
    PEAT_SETTINGS = 13,  /* bad settings, sizes that do not fit, lines that are none of the table's, or a record that lacks its standing condition */
    PEAT_NO_CHANNEL = 14, /* no such channel */
    PEAT_REPEATED = 15,  /* acknowledged, not accepted */
    PEAT_IGNORED = 16    /* the ack is ignored */
};

/* Directions. */
enum { PEAT_SENDS = 0, PEAT_RECEIVES = 1 };

/* States of a channel (000, 4.4.3 and 4.5.2). */
enum { PEAT_CLOSED = 0, PEAT_ENABLED = 1, PEAT_OPEN = 2, PEAT_CLOSING = 3 };

/* Why a channel went inactive. */
enum {
    PEAT_NO_REASON = 0,      /* it did not */
    PEAT_RETRIES = 1,        /* the retries of Data, an Open, a Close or a Flow Control packet were used up */
    PEAT_LATE_OPEN = 2,      /* an Open came after Data was accepted */
    PEAT_CONTROL_NUMBER = 3, /* a Control packet had another number than 0 */
    PEAT_DATA_NUMBER = 4,    /* Data had a number neither in the window nor at most k behind it */
    PEAT_BROKEN_FLAGS = 5,   /* the flags of segments in a row do not make units */
    PEAT_UNANSWERED = 6      /* the retries of a Heartbeat were used up */
};

/* States of a packet that is sent alone. */
enum { PEAT_LONE_NONE = 0, PEAT_LONE_READY = 1, PEAT_LONE_OUT = 2, PEAT_LONE_AGAIN = 3 };

/* Packet types, sequence flags and the version (000, 4.2.3). */
enum {
    PEAT_DATA = 0,
    PEAT_DATA_ACK = 1,
    PEAT_OPEN_COMMAND = 2,
    PEAT_CLOSE_COMMAND = 3,
    PEAT_HEARTBEAT = 4,
    PEAT_HEARTBEAT_ACK = 5,
    PEAT_FLOW_CONTROL = 6, /* Flow Control with one octet of payload, the Ack of it with none */
    PEAT_CONTROL_ACK = 7
};
enum { PEAT_CONTINUATION = 0, PEAT_FIRST = 1, PEAT_LAST = 2, PEAT_WHOLE = 3 };

#define PEAT_VERSION 1    /* what every packet has */
#define PEAT_PROTOCOL 5   /* the protocol ID of SpaceWire-R (000, 4.2.3.3), unless the node is set otherwise */
#define PEAT_RECORDS 16   /* most records in a table */
#define PEAT_LINES 51     /* octets of the lines */
#define PEAT_SLOTS 128    /* slots that a record has a mark for, used or not */
#define PEAT_PREFIX 15    /* most octets of a prefix */
#define PEAT_ACK_OCTETS 12 /* room that every reply buffer needs; of a channel whose own prefix has N octets a reply needs 12 + N, and where
                            * Flow Control is used 13 + N */

/* ---- records ----
 * The caller fills PeatSettings and PeatNode. PeatChannel is made by peat_settings and changed by the calls alone; its phase's state and
 * reason are for the caller to read. */

/* The node's own settings, given by value. */
typedef struct PeatNode {
    uint8_t address;  /* own logical address */
    uint8_t protocol; /* protocol ID */
} PeatNode;

/* What stands before the source address in packets from another region (000, 4.2.3.9.2): length octets, 0 to 15, and 0 in every octet past
 * them. All zeros, PEAT_NO_PREFIX where one is initialised, is no prefix. */
typedef struct PeatPrefix {
    uint8_t length;
    uint8_t octets[PEAT_PREFIX];
} PeatPrefix;

#define PEAT_NO_PREFIX {0, {0}}

/* Which channel it is, to which node, and whether this end sends or receives. No two records of a table may agree in channel, remote and
 * remote_prefix; the direction and the own prefix tell none apart. */
typedef struct PeatAddresses {
    uint16_t channel;
    uint8_t remote; /* the other node's logical address */
    uint8_t direction;
    PeatPrefix remote_prefix; /* what packets from the other node have, and the driver puts before those to it */
    PeatPrefix own_prefix;    /* what packets to the other node have */
} PeatAddresses;

/* What the settings fix. */
typedef struct PeatLimits {
    size_t window;     /* k: a power of two, 1 to 128 */
    size_t slots;      /* k to 128 */
    size_t payload;    /* P, the most payload octets: 1 to 1,024 */
    size_t segments;   /* M, the most segments in a unit: 1 to slots */
    uint16_t timeout;  /* ticks until a packet that is not acknowledged is ready again: at least 1 */
    uint16_t closing;  /* ticks that a receiver stays in CLOSING: at least 1 */
    uint16_t retries;  /* resends allowed to a packet: 0 to 255 */
    uint16_t interval; /* ticks in OPEN after which this end makes a Heartbeat, if it has sent neither Data nor an Ack nor Flow Control meanwhile and
                        * none of its own is under way; 0: it makes none. Each end has its own, and answers those of the other whatever its own is */
    uint16_t flow;     /* 1: Flow Control is used, 0: it is not. The other end's must be the same: else every Ack of Data, Open or Close is refused
                        * with 3 */
    uint16_t spare;    /* of a sender: its spare, by the index and 1 more of another sending record of the table; 0: it names none */
    uint16_t lead;     /* 1 exactly if the record names a spare or is named as one: a unit of it has a leading octet, else 0 */
} PeatLimits;

typedef struct PeatSettings {
    PeatAddresses addresses;
    PeatLimits limits;
} PeatSettings;

/* One packet that is sent alone: a sender's Open or Close, a receiver's Flow Control, or the Heartbeat of either end. Its timer runs while it is
 * out; tries are the resends left to it. */
typedef struct PeatLone {
    uint8_t state;
    uint16_t timer;
    uint16_t tries;
} PeatLone;

/* Where an opening stands. */
typedef struct PeatPhase {
    uint8_t state;
    uint8_t reason;   /* why the channel last went inactive */
    uint8_t kept;     /* a Close directive waits for the Open's ack */
    uint8_t accepted; /* Data was accepted in this opening */
    PeatLone control; /* a sender's Open or Close */
} PeatPhase;

/* Flow Control (document 02, A5): of a receiver the packet that is sent, of a sender what it has recorded. */
typedef struct PeatFlow {
    PeatLone packet;  /* a receiver's, ready or not acknowledged */
    uint8_t number;   /* its Sequence Number, while it is out or waits to be resent, else 0 */
    uint8_t stated;   /* and the number that it stated when it was first handed out, else 0 */
    uint8_t last;     /* the number of the packet that a receiver has sent last in OPEN, an Ack, a Heartbeat or Flow Control, whether that is used or
                       * not; of a sender it means nothing */
    uint8_t recorded; /* a sender's: the number up to which it may send, as the receiver stated it; 0 where Flow Control is not used */
} PeatFlow;

/* The Heartbeat of an end, and Flow Control; all zeros out of OPEN, in a record that peat_settings and the calls alone have written. */
typedef struct PeatPulse {
    uint16_t left; /* ticks until the interval ends, and a Heartbeat is made if there is none; 0: no interval runs */
    PeatLone beat; /* the Heartbeat that is ready or not acknowledged */
    PeatFlow flow;
} PeatPulse;

/* behind: segments kept before the start (sent and passed, but their unit is not confirmed; or received and not taken). A sender has ahead
 * segments from the start on, of which flight were handed out; way of the receiver's last behind are of a unit that is not finished. */
typedef struct PeatWindow {
    uint8_t start; /* the window's first number */
    size_t place;  /* the place on the ring of slots where that segment lies */
    size_t behind;
    size_t ahead;
    size_t flight;
    size_t way;
} PeatWindow;

/* By place: ticks left to a segment that is out (0: none runs), and the resends left to it. */
typedef struct PeatTimers {
    uint16_t closing; /* the receiver's close timer */
    uint16_t left[PEAT_SLOTS];
    uint16_t tries[PEAT_SLOTS];
} PeatTimers;

typedef struct PeatChannel {
    PeatAddresses addresses;
    PeatLimits limits;
    PeatPhase phase;
    PeatPulse pulse;
    PeatWindow window;
    PeatTimers timers;
    uint8_t marks[PEAT_SLOTS]; /* by place: 0 for a slot not in use, else the segment's flags and 1 more */
    uint8_t acked[PEAT_SLOTS]; /* by place: not 0 once acknowledged */
} PeatChannel;

/* What a call of the node answers. A call that serves one channel tells its index, also where that channel's own step refused. Where none
 * was served the index is as many as the table has records: with 13 and 14, when an arrival is refused before its channel is found, with 12
 * of peat_next_packet, and by peat_settings. What it is of a tick stands at peat_tick. */
typedef struct PeatSaid {
    uint32_t number;  /* the answer */
    uint32_t reason;  /* with 9 why the channel of the index went inactive, else 0 */
    size_t length;    /* with 0 and 15 the octets written, with 11 the octets wanted, else 0 */
    size_t confirmed; /* with 0 the units that a Data Ack confirmed, else 0 */
    size_t index;     /* the channel that the call served */
} PeatSaid;

/* ---- the packet alone ---- */

/* The header's fields but for the lengths of prefix and payload, which are those of the prefix and of the payload. */
typedef struct PeatFields {
    uint8_t destination;
    uint8_t protocol;
    uint8_t version;
    uint8_t secondary;
    uint8_t flags;
    uint8_t kind; /* packet type */
    uint16_t channel;
    uint8_t number;
    uint8_t reserved;
    uint8_t source;
} PeatFields;

/* With 0 the fields, how many octets the prefix has, which stand from octet 9 on, where the payload begins in the packet, and how many octets
 * it has; else zeros. */
typedef struct PeatReading {
    uint32_t answer;
    PeatFields fields;
    size_t prefix;
    size_t start; /* 10 + prefix */
    size_t length;
} PeatReading;

/* With 0 the octets written, with 11 the whole length of the packet, else 0. */
typedef struct PeatWriting {
    uint32_t answer;
    size_t length;
} PeatWriting;

#endif
