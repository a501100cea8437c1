//! Flow Control among the calls of a node (document 02, A5): tests in their order,
//! lookup, reply buffers and lines.

use super::*;
use crate::packet::kind::{FLOW_CONTROL, HEARTBEAT};
use crate::prefix::Prefix;
use crate::support::{packet_with, written_from};

/// These settings with Flow Control.
fn flowing(settings: Settings) -> Settings {
    Settings {
        flow: 1,
        ..settings
    }
}

/// These settings with an own prefix of three octets.
fn far(settings: Settings) -> Settings {
    Settings {
        own_prefix: Prefix::new(&[1, 2, 3]).unwrap(),
        ..settings
    }
}

/// Opens a transmit end of index 0 and a receive end of index 1.
fn both_open(table: [Settings; 2]) -> Rig {
    let mut rig = Rig::new(&table);
    let stated = &[4][..table[0].flow as usize];
    rig.open(0);
    rig.next().unwrap();
    let ack = packet_with(table[0].channel, CONTROL_ACK, 0, stated);
    assert_eq!(rig.arrive(&ack), 0);
    rig.open(1);
    assert_eq!(rig.arrive(&packet_for(table[1].channel, OPEN, 0)), 0);
    rig
}

/// The answer number, the length and the index of an arrival with this much room.
fn answered(rig: &Rig, packet: &[u8], room: usize) -> (u8, usize, Option<usize>) {
    let mut node = rig.node.clone();
    let mut reply = vec![NOISE; room];
    let answer = node.arrival(packet, &mut reply);
    if ![0, 9, 15].contains(&answer.number) {
        assert_eq!((&node, reply), (&rig.node, vec![NOISE; room]));
    }
    (answer.number, answer.length, answer.index)
}

/// "A Flow Control packet looks for a sending record, its Ack for a receiving one": the
/// payload tells which it is, and none found is 14.
#[test]
fn records_are_found_by_the_payload() {
    let mut rig = both_open([flowing(SENDING), flowing(RECEIVING)]);
    let type_6 = |channel, payload: &[u8]| packet_with(channel, FLOW_CONTROL, 0, payload);
    assert_eq!(rig.arrive(&type_6(1, &[4])), 0);
    assert_eq!(rig.arrive(&type_6(1, &[])), 14);
    assert_eq!(rig.arrive(&type_6(2, &[4])), 14);
    assert_eq!(rig.arrive(&type_6(2, &[])), 16);
    for payload in [&[][..], &[4]] {
        assert_eq!(rig.arrive(&type_6(3, payload)), 14);
        assert_eq!(rig.arrive(&type_6(0x0101, payload)), 14);
        let fields = Fields {
            kind: FLOW_CONTROL,
            ..THERE.header(HERE.own, 2 - payload.len() as u16)
        };
        assert_eq!(rig.arrive(&written_from(&[7], &fields, payload)), 14);
        let stranger = Fields {
            source: 66,
            ..fields
        };
        assert_eq!(rig.arrive(&written(&stranger, payload)), 14);
        let misled = Fields {
            destination: 9,
            ..fields
        };
        assert_eq!(rig.arrive(&written(&misled, payload)), 3);
    }
}

/// "A buffer too short for the reply gives 11 once the channel is known": 13 + N for
/// Data and Control, 12 + N for a Heartbeat and a Flow Control packet, 12 for Acks,
/// whatever would be answered.
#[test]
fn reply_buffers() {
    let rig = both_open([far(flowing(SENDING)), far(flowing(RECEIVING))]);
    let cases = [
        (whole(1, b"u"), 16, 0),
        (whole(1, &[0; 17]), 16, 3),
        (whole(99, b"u"), 16, 9),
        (alone(OPEN, 0), 16, 15),
        (alone(CLOSE, 0), 16, 0),
        (alone(CLOSE, 1), 16, 9),
        (packet_for(2, HEARTBEAT, 0), 15, 0),
        (packet_for(1, HEARTBEAT, 0), 15, 0),
        (packet_with(1, FLOW_CONTROL, 0, &[4]), 15, 0),
        (packet_for(2, FLOW_CONTROL, 0), 12, 16),
        (packet_with(1, DATA_ACK, 0, &[4]), 12, 16),
        (packet_with(1, CONTROL_ACK, 0, &[4]), 12, 5),
        (packet_for(1, DATA_ACK, 0), 12, 3),
    ];
    for (packet, wanted, number) in cases {
        let known = usize::from(packet[6]) - 1;
        assert_eq!(answered(&rig, &packet, 11), (11, 12, None));
        for room in 12..wanted {
            assert_eq!(answered(&rig, &packet, room), (11, wanted, Some(known)));
        }
        assert_eq!(answered(&rig, &packet, wanted).0, number);
    }
}

/// Where it is off: 12 + N for Data, Control, a Heartbeat and a Flow Control packet too,
/// before that one's 3; before 11 comes 14.
#[test]
fn reply_buffers_where_it_is_off() {
    let rig = both_open([far(SENDING), far(RECEIVING)]);
    let cases = [
        (whole(1, b"u"), 15, 0),
        (whole(1, &[0; 17]), 15, 3),
        (packet_with(1, FLOW_CONTROL, 0, &[4]), 15, 3),
        (packet_for(2, FLOW_CONTROL, 0), 12, 3),
        (packet_with(1, DATA_ACK, 0, &[4]), 12, 3),
        (packet_with(2, FLOW_CONTROL, 0, &[4]), 12, 14),
        (packet_with(9, DATA_ACK, 0, &[4]), 12, 14),
    ];
    for (packet, wanted, number) in cases {
        assert_eq!(answered(&rig, &packet, 11).0, 11);
        for room in 12..wanted {
            assert_eq!(answered(&rig, &packet, room).0, 11);
        }
        assert_eq!(answered(&rig, &packet, wanted).0, number);
    }
}

/// 11 comes before the state, too.
#[test]
fn reply_buffers_in_closed() {
    let rig = Rig::new(&[flowing(SENDING), flowing(RECEIVING)]);
    assert_eq!(answered(&rig, &whole(1, b"u"), 12), (11, 13, Some(1)));
    assert_eq!(answered(&rig, &whole(1, b"u"), 13), (5, 0, Some(1)));
    let packet = packet_with(1, FLOW_CONTROL, 0, &[4]);
    assert_eq!(answered(&rig, &packet, 12), (5, 0, Some(0)));
}

/// A reply that states a number has the own prefix before it.
#[test]
fn a_reply_with_prefix_and_number() {
    let mut rig = both_open([SENDING, far(flowing(RECEIVING))]);
    let mut reply = [NOISE; 18];
    let answer = rig.node.arrival(&whole(1, b"u"), &mut reply);
    assert_eq!(answer, Answer::written(16).at(1));
    let body = [65, 238, 0x59, 0, 1, 0, 2, 1, 3, 1, 2, 3, 64, 5];
    assert_eq!((&reply[..14], &reply[16..]), (&body[..], &[NOISE; 2][..]));
}

/// Each channel has its own setting: the table may mix them.
#[test]
fn each_channel_has_its_own() {
    let mut rig = both_open([SENDING, flowing(RECEIVING)]);
    rig.transfer(0, b"u");
    assert_eq!(rig.next(), Ok((DATA, 1)));
    assert_eq!(rig.arrive(&alone(DATA_ACK, 1)), 0);
    assert_eq!(rig.carried(&whole(1, b"u")), (0, vec![5]));
}

/// A receive end with Flow Control and full slots.
fn fill(rig: &mut Rig, index: usize) {
    let channel = index as u16;
    rig.open(index);
    assert_eq!(rig.arrive(&packet_for(channel, OPEN, 0)), 0);
    for number in 1..=8 {
        let fields = Fields {
            kind: DATA,
            number,
            ..THERE.header(HERE.own, channel)
        };
        assert_eq!(rig.arrive(&written(&fields, b"u")), 0);
    }
}

/// "it ranks with Control": in one line with Opens, Closes and Heartbeats of others,
/// before all Data, and a take puts it there.
#[test]
fn it_ranks_with_control() {
    let table = [
        sending(0),
        flowing(receiving(1)),
        sending(2),
        flowing(receiving(3)),
    ];
    let mut rig = Rig::new(&table);
    open_all(&mut rig, &[0]);
    fill(&mut rig, 1);
    fill(&mut rig, 3);
    rig.transfer(0, b"a");
    assert!(rig.take(3).is_ok());
    rig.open(2);
    assert!(rig.take(1).is_ok());
    assert_eq!(standing(&rig), [vec![3, 2, 1], vec![], vec![0]]);
    assert_eq!(next(&mut rig), (3, FLOW_CONTROL, 8));
    assert_eq!(next(&mut rig), (2, OPEN, 0));
    assert_eq!(next(&mut rig), (1, FLOW_CONTROL, 8));
    assert_eq!(next(&mut rig), (0, DATA, 1));
    assert!(rig.take(3).is_ok());
    assert_eq!(standing(&rig), [vec![], vec![], vec![]]);
    assert_eq!(rig.arrive(&packet_for(3, FLOW_CONTROL, 8)), 0);
    assert_eq!(standing(&rig), [vec![3], vec![], vec![]]);
    assert_eq!(rig.arrive(&packet_for(3, CLOSE, 0)), 0);
    assert_eq!(standing(&rig), [vec![], vec![], vec![]]);
}

/// A channel that has more rejoins at the tail: after its Heartbeat its Flow Control
/// packet waits for those who stand there.
#[test]
fn it_rejoins_after_the_heartbeat() {
    let lively = Settings {
        interval: 3,
        ..flowing(receiving(0))
    };
    let mut rig = Rig::new(&[lively, sending(1)]);
    fill(&mut rig, 0);
    assert!(rig.take(0).is_ok());
    rig.ticks(3);
    rig.open(1);
    assert_eq!(next(&mut rig), (0, HEARTBEAT, 0));
    assert_eq!(next(&mut rig), (1, OPEN, 0));
    assert_eq!(next(&mut rig), (0, FLOW_CONTROL, 0));
}

/// A sender whose next number is past the one recorded stands in no line of new Data,
/// and joins at the tail when it may go on.
#[test]
fn a_sender_held_back_stands_in_no_line() {
    let mut rig = Rig::new(&[flowing(sending(0)), sending(1)]);
    rig.open(0);
    rig.next().unwrap();
    let ack = packet_with(0, CONTROL_ACK, 0, &[0]);
    assert_eq!(rig.arrive(&ack), 0);
    open_all(&mut rig, &[1]);
    for index in [0, 0, 1, 1] {
        rig.transfer(index, b"u");
    }
    assert_eq!(standing(&rig), [vec![], vec![], vec![1]]);
    assert_eq!(rig.arrive(&packet_with(0, FLOW_CONTROL, 0, &[1])), 0);
    assert_eq!(standing(&rig), [vec![], vec![], vec![1, 0]]);
    for expected in [(1, DATA, 1), (0, DATA, 1), (1, DATA, 2)] {
        assert_eq!(next(&mut rig), expected);
    }
    assert_eq!(rig.next(), Err(12));
    assert_eq!(rig.arrive(&packet_with(0, DATA_ACK, 1, &[2])), 0);
    assert_eq!(next(&mut rig), (0, DATA, 2));
}

/// A tick names a receive end whose Flow Control packet gets no answer.
#[test]
fn a_tick_names_a_receive_end() {
    let fragile = Settings {
        retries: 0,
        ..flowing(receiving(1))
    };
    let mut rig = Rig::new(&[sending(0), fragile]);
    fill(&mut rig, 1);
    assert!(rig.take(1).is_ok());
    assert_eq!(next(&mut rig), (1, FLOW_CONTROL, 8));
    rig.ticks(3);
    let answer = rig.node.tick();
    assert_eq!((answer.number, answer.index), (9, Some(1)));
    assert_eq!(rig.node.reason(1), Some(Reason::Retries));
}
