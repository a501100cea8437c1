//! How a receive end states the highest number that it accepts, and how a transmit
//! end obeys.

mod packet;
mod stated;

use crate::packet::kind::{CLOSE, FLOW_CONTROL, HEARTBEAT, HEARTBEAT_ACK, OPEN};
use crate::settings::Settings;
use crate::sight::{CourseSight, FlowSight};
use crate::state::{Reason, State};
use crate::support::{alone, data, packet_for, packet_with, whole, Rig, NOISE, RECEIVING};

/// k 4, slots 8, with Flow Control.
const FLOWING: Settings = Settings {
    flow: 1,
    ..RECEIVING
};

/// A receive end in OPEN with these window and slots.
fn receiver(window: u32, slots: u32) -> Rig {
    Rig::receiving(Settings {
        window,
        slots,
        most_segments: slots.min(4),
        ..FLOWING
    })
}

/// What the Acks of whole units with these numbers state.
fn states<const N: usize>(rig: &mut Rig, numbers: [u8; N]) -> [u8; N] {
    numbers.map(|number| {
        let (answer, stated) = rig.carried(&whole(number, b"u"));
        assert!([0, 15].contains(&answer));
        assert_eq!(stated.len(), 1);
        stated[0]
    })
}

/// Takes so many units.
fn takes(rig: &mut Rig, count: usize) {
    for _ in 0..count {
        assert!(rig.take(0).is_ok());
    }
}

/// The Sequence Number of the next packet, a Flow Control packet, and the number that
/// it states.
fn stated_next(rig: &mut Rig) -> (u8, u8) {
    let packet = rig.next_packet().unwrap();
    assert_eq!((packet.len(), packet[2] & 0b111), (13, FLOW_CONTROL));
    (packet[7], packet[10])
}

/// The answer to a Flow Control Ack.
fn ack(rig: &mut Rig, number: u8) -> u8 {
    rig.arrive(&packet_for(RECEIVING.channel, FLOW_CONTROL, number))
}

/// The state and the reason of channel 0.
fn standing(rig: &Rig) -> (State, Reason) {
    let state = rig.node.state(0).unwrap();
    (state, rig.node.reason(0).unwrap())
}

/// "k 4, slots 8, units of one segment: the Acks of Data 1 to 8, untaken, state 5, 6,
/// 7, 8, 8, 8, 8, 8; then each take makes a Flow Control packet numbered 8 with one
/// more, once the one before is answered."
#[test]
fn the_run_of_the_bar() {
    let mut rig = receiver(4, 8);
    let numbers = [1, 2, 3, 4, 5, 6, 7, 8];
    assert_eq!(states(&mut rig, numbers), [5, 6, 7, 8, 8, 8, 8, 8]);
    assert_eq!(rig.next(), Err(12));
    for stated in 9..=12 {
        takes(&mut rig, 1);
        assert_eq!(stated_next(&mut rig), (8, stated));
        assert_eq!(rig.next(), Err(12));
        assert_eq!(ack(&mut rig, 8), 0);
        assert_eq!(rig.next(), Err(12));
    }
    takes(&mut rig, 4);
    assert_eq!(rig.next(), Err(12));
}

/// The same, all taken before the first is answered: one more tells the rest.
#[test]
fn one_more_once_it_is_answered() {
    let mut rig = receiver(4, 8);
    states(&mut rig, [1, 2, 3, 4, 5, 6, 7, 8]);
    takes(&mut rig, 1);
    assert_eq!(stated_next(&mut rig), (8, 9));
    takes(&mut rig, 7);
    assert_eq!(rig.next(), Err(12));
    assert_eq!(ack(&mut rig, 8), 0);
    assert_eq!(stated_next(&mut rig), (8, 12));
    assert_eq!(ack(&mut rig, 8), 0);
    assert_eq!(rig.next(), Err(12));
}

/// "A reply buffer of 12 gives 11": the Ack has an octet more.
#[test]
fn a_reply_buffer_of_12_gives_11() {
    let mut rig = receiver(4, 8);
    let before = rig.node.clone();
    let packets = [
        whole(1, b"u"),
        whole(99, b"u"),
        whole(1, &[0; 17]),
        alone(OPEN, 0),
        alone(CLOSE, 0),
        alone(CLOSE, 9),
    ];
    for packet in packets {
        let mut reply = [NOISE; 12];
        let small = rig.node.arrival(&packet, &mut reply);
        assert_eq!((small.number, small.length, small.index), (11, 13, Some(0)));
        assert_eq!((&rig.node, reply), (&before, [NOISE; 12]));
    }
    let mut reply = [NOISE; 13];
    let answer = rig.node.arrival(&whole(1, b"u"), &mut reply);
    assert_eq!((answer.number, answer.length), (0, 13));
    assert_eq!(reply[..11], [65, 238, 0x59, 0, 1, 0, 2, 1, 0, 64, 5]);
}
