//! Heartbeats among the calls of a node (document 02, A2).

use super::*;
use crate::packet::kind::{HEARTBEAT, HEARTBEAT_ACK};
use crate::prefix::Prefix;
use crate::support::written_from;

/// The remote prefix of a channel to another region.
const FAR: [u8; 2] = [7, 0];

/// These settings with a Heartbeat.
fn lively(settings: Settings) -> Settings {
    Settings {
        interval: 3,
        ..settings
    }
}

/// A transmit and a receive end, both in OPEN.
fn both_open(table: [Settings; 2]) -> Rig {
    let mut rig = Rig::new(&table);
    rig.open(0);
    rig.next().unwrap();
    assert_eq!(rig.arrive(&alone(CONTROL_ACK, 0)), 0);
    rig.open(1);
    assert_eq!(rig.arrive(&alone(OPEN, 0)), 0);
    rig
}

/// "the Transmit TEP shall generate a Heartbeat Ack Packet that has the same
/// Sequence Number" (000, 4.4.4.7), and so shall the Receive TEP (4.5.3.6), also
/// where this end makes none itself.
#[test]
fn a_heartbeat_is_answered_in_open() {
    let mut rig = both_open([SENDING, RECEIVING]);
    for (index, channel) in [(0, 1), (1, 2)] {
        for number in [0, 1, 9, 255] {
            let mut reply = [NOISE; 14];
            let packet = packet_for(channel, HEARTBEAT, number);
            let answer = rig.node.arrival(&packet, &mut reply);
            assert_eq!(answer, Answer::written(12).at(index));
            let body = [65, 238, 0x5D, 0, 0, 0, channel as u8, number, 0, 64];
            assert_eq!((&reply[..10], &reply[12..]), (&body[..], &[NOISE; 2][..]));
        }
    }
}

/// It moves no Data: what is in flight, held or complete stays. A receive end keeps
/// the number of its Ack, the last that it transmitted, and no more (A5).
#[test]
fn a_heartbeat_moves_no_data() {
    let mut rig = both_open([SENDING, RECEIVING]);
    rig.transfer(0, b"a");
    rig.next().unwrap();
    rig.arrive(&whole(2, b"b"));
    let before = [0, 1].map(|index| rig.node.sight(index).unwrap());
    for channel in [1, 2] {
        assert_eq!(rig.arrive(&packet_for(channel, HEARTBEAT, 1)), 0);
        assert_eq!(rig.arrive(&packet_for(channel, HEARTBEAT_ACK, 1)), 16);
    }
    let [sending, mut receiving] = before;
    assert_eq!(rig.node.sight(0), Some(sending));
    assert_eq!(std::mem::replace(&mut receiving.last_number, 1), 2);
    assert_eq!(rig.node.sight(1), Some(receiving));
}

/// Heartbeats belong to OPEN (000, 4.4.4.4 and 4.5.3.7); elsewhere they give 5, and
/// so do their Acks.
#[test]
fn elsewhere_the_state_does_not_allow_it() {
    let mut rig = Rig::new(&[lively(SENDING), lively(RECEIVING)]);
    let refused = |rig: &mut Rig, channel| {
        for kind in [HEARTBEAT, HEARTBEAT_ACK] {
            let answer = rig.arrival(&packet_for(channel, kind, 0));
            let told = (answer.number, answer.index);
            assert_eq!(told, (5, Some(usize::from(channel) - 1)));
        }
    };
    for channel in [1, 2] {
        refused(&mut rig, channel);
        rig.open(usize::from(channel) - 1);
        refused(&mut rig, channel);
    }
    rig.next().unwrap();
    refused(&mut rig, 1);
    rig.arrive(&alone(CONTROL_ACK, 0));
    rig.close(0);
    refused(&mut rig, 1);
    rig.arrive(&alone(OPEN, 0));
    rig.arrive(&alone(CLOSE, 0));
    refused(&mut rig, 2);
    rig.ticks(4);
    refused(&mut rig, 2);
}

/// A packet of either type finds the record of its channel number, remote address
/// and prefix, whatever the direction.
#[test]
fn no_record_gives_14() {
    let mut rig = both_open([SENDING, RECEIVING]);
    for kind in [HEARTBEAT, HEARTBEAT_ACK] {
        assert_eq!(rig.arrive(&packet_for(3, kind, 0)), 14);
        assert_eq!(rig.arrive(&packet_for(0x0101, kind, 0)), 14);
        let fields = Fields {
            kind,
            ..THERE.header(HERE.own, 1)
        };
        assert_eq!(rig.arrive(&written_from(&FAR, &fields, b"")), 14);
        let stranger = Fields {
            source: 66,
            ..fields
        };
        assert_eq!(rig.arrive(&written(&stranger, b"")), 14);
    }
}

/// A reply to a Heartbeat needs 12 + N octets, tested once the channel is known;
/// to its Ack none is due.
#[test]
fn reply_buffers() {
    let own_prefix = Prefix::new(&[1, 2, 3]).unwrap();
    let far = |settings| Settings {
        own_prefix,
        ..settings
    };
    let mut rig = both_open([far(SENDING), far(RECEIVING)]);
    for (index, channel) in [(0, 1), (1, 2)] {
        let heartbeat = packet_for(channel, HEARTBEAT, 0);
        for (room, wanted, known) in [(11, 12, None), (12, 15, Some(index)), (14, 15, Some(index))]
        {
            let mut reply = vec![NOISE; room];
            let small = rig.node.arrival(&heartbeat, &mut reply);
            assert_eq!(
                (small.number, small.length, small.index),
                (11, wanted, known)
            );
            assert_eq!(reply, vec![NOISE; room]);
        }
        let mut reply = [NOISE; 15];
        let answer = rig.node.arrival(&heartbeat, &mut reply);
        assert_eq!(answer, Answer::written(15).at(index));
        assert_eq!(reply[7..13], [0, 3, 1, 2, 3, 64]);
        let ack = packet_for(channel, HEARTBEAT_ACK, 0);
        assert_eq!(rig.node.arrival(&ack, &mut [0; 11]).number, 11);
        assert_eq!(rig.node.arrival(&ack, &mut [0; 12]).number, 16);
    }
    rig.close(0);
    let small = rig.node.arrival(&packet_for(1, HEARTBEAT, 0), &mut [0; 14]);
    assert_eq!((small.number, small.length), (11, 15));
}

/// Both ends of a node hand out: number 0, flags 11, no payload, the own prefix.
#[test]
fn both_ends_hand_out() {
    let own_prefix = Prefix::new(&FAR).unwrap();
    let far = Settings {
        own_prefix,
        ..lively(RECEIVING)
    };
    let mut rig = both_open([lively(SENDING), far]);
    rig.ticks(3);
    assert_eq!(standing(&rig), [vec![0, 1], vec![], vec![]]);
    let packet = rig.next_packet().unwrap();
    assert_eq!(packet[..10], [65, 238, 0x5C, 0, 0, 0, 1, 0, 0, 64]);
    let small = rig.node.next_packet(&mut [0; 13]);
    assert_eq!((small.number, small.length, small.index), (11, 14, Some(1)));
    let packet = rig.next_packet().unwrap();
    assert_eq!(packet[..12], [65, 238, 0x5C, 0, 0, 0, 2, 0, 2, 7, 0, 64]);
    assert_eq!(packet.len(), 14);
    assert_eq!(rig.next(), Err(12));
    assert_eq!(rig.arrive(&packet_for(2, HEARTBEAT_ACK, 0)), 0);
}

/// "A Heartbeat ranks with Control": in one line with the Opens and Closes of
/// others, before all Data.
#[test]
fn it_ranks_with_control() {
    let table = [
        lively(sending(0)),
        sending(1),
        sending(2),
        lively(receiving(3)),
    ];
    let mut rig = Rig::new(&table);
    open_all(&mut rig, &[0, 1]);
    rig.open(3);
    assert_eq!(rig.arrive(&packet_for(3, OPEN, 0)), 0);
    rig.transfer(0, b"a");
    rig.transfer(1, b"b");
    rig.ticks(2);
    rig.close(1);
    rig.ticks(1);
    rig.open(2);
    assert_eq!(standing(&rig), [vec![1, 0, 3, 2], vec![], vec![0]]);
    assert_eq!(next(&mut rig), (1, CLOSE, 0));
    assert_eq!(next(&mut rig), (0, HEARTBEAT, 0));
    assert_eq!(next(&mut rig), (3, HEARTBEAT, 0));
    assert_eq!(next(&mut rig), (2, OPEN, 0));
    assert_eq!(next(&mut rig), (0, DATA, 1));
}

/// One that is acknowledged, or whose channel leaves OPEN, leaves the line.
#[test]
fn it_leaves_the_line() {
    let table = [lively(sending(0)), lively(sending(1)), lively(receiving(2))];
    let mut rig = Rig::new(&table);
    open_all(&mut rig, &[0, 1]);
    rig.open(2);
    assert_eq!(rig.arrive(&packet_for(2, OPEN, 0)), 0);
    rig.ticks(3);
    for channel in [0, 1, 2] {
        assert_eq!(next(&mut rig), (channel, HEARTBEAT, 0));
    }
    rig.ticks(4);
    assert_eq!(standing(&rig)[0], [0, 1, 2]);
    assert_eq!(rig.arrive(&packet_for(0, HEARTBEAT_ACK, 0)), 0);
    assert_eq!(standing(&rig)[0], [1, 2]);
    rig.close(1);
    assert_eq!(standing(&rig)[0], [1, 2]);
    assert_eq!(next(&mut rig), (1, CLOSE, 0));
    assert_eq!(rig.arrive(&packet_for(2, CLOSE, 0)), 0);
    assert_eq!(standing(&rig)[0], [0; 0]);
}

/// A tick may make a receive end inactive, too, and names it.
#[test]
fn a_tick_names_a_receive_end() {
    let fragile = |settings| Settings {
        retries: 0,
        ..lively(settings)
    };
    let mut rig = both_open([SENDING, fragile(RECEIVING)]);
    rig.ticks(3);
    assert_eq!(rig.next(), Ok((HEARTBEAT, 0)));
    rig.ticks(3);
    let answer = rig.node.tick();
    assert_eq!((answer.number, answer.index), (9, Some(1)));
    assert_eq!(rig.node.reason(1), Some(Reason::Heartbeat));
    assert_eq!(rig.node.reason(0), Some(Reason::None));
}
