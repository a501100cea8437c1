/* Prints how the header's records lie in memory: each record with its size and alignment, then each field with its place and size. What it
 * prints must be tests/layout.txt, with which the Rust records are compared too (rust/proved/tests/layout.rs). */
#include <stdio.h>

#include "peatwimple.h"

#define WHOLE(record)                                                                                                                      \
    do {                                                                                                                                   \
        struct aligned {                                                                                                                   \
            char before;                                                                                                                   \
            Peat##record it;                                                                                                               \
        };                                                                                                                                 \
        printf("%s %zu %zu\n", #record, sizeof(Peat##record), offsetof(struct aligned, it));                                               \
    } while (0)

#define FIELD(record, field)                                                                                                               \
    printf("%s.%s %zu %zu\n", #record, #field, offsetof(Peat##record, field), sizeof(((Peat##record *)0)->field))

static void what_the_caller_fills(void) {
    WHOLE(Node);
    FIELD(Node, address);
    FIELD(Node, protocol);
    WHOLE(Prefix);
    FIELD(Prefix, length);
    FIELD(Prefix, octets);
    WHOLE(Addresses);
    FIELD(Addresses, channel);
    FIELD(Addresses, remote);
    FIELD(Addresses, direction);
    FIELD(Addresses, remote_prefix);
    FIELD(Addresses, own_prefix);
    WHOLE(Limits);
    FIELD(Limits, window);
    FIELD(Limits, slots);
    FIELD(Limits, payload);
    FIELD(Limits, segments);
    FIELD(Limits, timeout);
    FIELD(Limits, closing);
    FIELD(Limits, retries);
    FIELD(Limits, interval);
    FIELD(Limits, flow);
    FIELD(Limits, spare);
    FIELD(Limits, lead);
    WHOLE(Settings);
    FIELD(Settings, addresses);
    FIELD(Settings, limits);
}

static void parts_of_a_channel(void) {
    WHOLE(Lone);
    FIELD(Lone, state);
    FIELD(Lone, timer);
    FIELD(Lone, tries);
    WHOLE(Phase);
    FIELD(Phase, state);
    FIELD(Phase, reason);
    FIELD(Phase, kept);
    FIELD(Phase, accepted);
    FIELD(Phase, control);
    WHOLE(Flow);
    FIELD(Flow, packet);
    FIELD(Flow, number);
    FIELD(Flow, stated);
    FIELD(Flow, last);
    FIELD(Flow, recorded);
    WHOLE(Pulse);
    FIELD(Pulse, left);
    FIELD(Pulse, beat);
    FIELD(Pulse, flow);
    WHOLE(Window);
    FIELD(Window, start);
    FIELD(Window, place);
    FIELD(Window, behind);
    FIELD(Window, ahead);
    FIELD(Window, flight);
    FIELD(Window, way);
    WHOLE(Timers);
    FIELD(Timers, closing);
    FIELD(Timers, left);
    FIELD(Timers, tries);
}

static void channel_and_answer(void) {
    WHOLE(Channel);
    FIELD(Channel, addresses);
    FIELD(Channel, limits);
    FIELD(Channel, phase);
    FIELD(Channel, pulse);
    FIELD(Channel, window);
    FIELD(Channel, timers);
    FIELD(Channel, marks);
    FIELD(Channel, acked);
    WHOLE(Said);
    FIELD(Said, number);
    FIELD(Said, reason);
    FIELD(Said, length);
    FIELD(Said, confirmed);
    FIELD(Said, index);
}

static void packet_alone(void) {
    WHOLE(Fields);
    FIELD(Fields, destination);
    FIELD(Fields, protocol);
    FIELD(Fields, version);
    FIELD(Fields, secondary);
    FIELD(Fields, flags);
    FIELD(Fields, kind);
    FIELD(Fields, channel);
    FIELD(Fields, number);
    FIELD(Fields, reserved);
    FIELD(Fields, source);
    WHOLE(Reading);
    FIELD(Reading, answer);
    FIELD(Reading, fields);
    FIELD(Reading, prefix);
    FIELD(Reading, start);
    FIELD(Reading, length);
    WHOLE(Writing);
    FIELD(Writing, answer);
    FIELD(Writing, length);
}

int main(void) {
    what_the_caller_fills();
    parts_of_a_channel();
    channel_and_answer();
    packet_alone();
    return 0;
}
