//! The number stated: "the smaller of start + k - 1 and oldest untaken + slots - 1,
//! round 256; full slots give start less 1" (document 02, A5; 000, 4.2.4.4).

use super::*;
use crate::packet::flags::{CONTINUATION, FIRST, LAST, WHOLE};

/// What a rig would state, by a repeated Ack: Data behind the window.
fn stated(rig: &mut Rig) -> u8 {
    let start = rig.node.sight(0).unwrap().start.unwrap();
    let (answer, stated) = rig.carried(&whole((start - 1) as u8, b"u"));
    assert_eq!((answer, stated.len()), (15, 1));
    stated[0]
}

/// "the initial value of the MASN is carried in the Control Ack Packet for the
/// received Open Command": k. A second Open gets it, too, and the Acks of a Close.
#[test]
fn acks_of_control_state_k() {
    for window in [1, 2, 4, 8, 16, 32, 64, 128] {
        let mut rig = Rig::new(&[Settings {
            window,
            slots: 128,
            ..FLOWING
        }]);
        let k = vec![window as u8];
        rig.open(0);
        assert_eq!(rig.carried(&alone(OPEN, 0)), (0, k.clone()));
        assert_eq!(rig.carried(&alone(OPEN, 0)), (15, k.clone()));
        states(&mut rig, [1, 2]);
        assert_eq!(rig.carried(&alone(CLOSE, 0)), (0, k.clone()));
        assert_eq!(rig.carried(&alone(CLOSE, 0)), (15, k));
    }
}

/// Full slots: the one before the window start. 000's "shall be within the current
/// sliding window" would state 2, which gets 8.
#[test]
fn full_slots_state_none() {
    let mut rig = receiver(1, 1);
    assert_eq!(states(&mut rig, [1]), [1]);
    assert_eq!(rig.arrive(&whole(2, b"u")), 8);
    takes(&mut rig, 1);
    assert_eq!(stated(&mut rig), 2);
    assert_eq!(states(&mut rig, [2]), [2]);
    let mut rig = receiver(4, 4);
    assert_eq!(states(&mut rig, [1, 2, 3, 4]), [4, 4, 4, 4]);
    assert_eq!(rig.arrive(&whole(5, b"u")), 8);
}

/// By the record after the arrival, with 0 and 15 alike: beyond a gap the start does
/// not move, and one that fills it moves it past all.
#[test]
fn by_the_record_after_the_arrival() {
    let mut rig = receiver(4, 8);
    assert_eq!(states(&mut rig, [3, 2, 3, 4]), [4, 4, 4, 4]);
    assert_eq!(states(&mut rig, [1, 1, 4]), [8, 8, 8]);
}

/// The oldest untaken may be of an unfinished unit.
#[test]
fn an_unfinished_unit_is_untaken() {
    let mut rig = receiver(4, 4);
    let pieces = [(1, FIRST), (2, CONTINUATION), (3, LAST), (4, WHOLE)];
    for (number, flags) in pieces {
        let (_, stated) = rig.carried(&data(number, flags, b"u"));
        assert_eq!(stated, [4]);
    }
    takes(&mut rig, 1);
    assert_eq!(stated(&mut rig), 7);
    takes(&mut rig, 1);
    assert_eq!(stated(&mut rig), 8);
}

/// What is stated gets no 8, what lies past it in the window does, at every place and
/// past number 255.
#[test]
fn what_is_stated_has_room() {
    for (window, slots) in [(1, 1), (1, 3), (2, 2), (2, 5), (4, 4), (4, 7)] {
        let mut rig = receiver(window, slots);
        for segment in 1..600_u64 {
            let start = segment as u8;
            let highest = stated(&mut rig).wrapping_sub(start);
            for past in 0..window as u8 {
                let mut tried = rig.clone();
                let has_room = highest < 128 && past <= highest;
                let expected = if has_room { 0 } else { 8 };
                let found = tried.arrive(&whole(start.wrapping_add(past), b"u"));
                assert_eq!(found, expected, "{segment} {past}");
            }
            if highest >= 128 {
                takes(&mut rig, 1 + segment as usize % slots as usize);
            }
            assert_eq!(rig.arrive(&whole(start, b"u")), 0);
        }
    }
}

/// "not Heartbeat Ack, not Flow Control Ack": these carry nothing (000, 4.2.4.1 c).
#[test]
fn a_heartbeat_ack_states_nothing() {
    let mut rig = receiver(4, 8);
    let heartbeat = packet_for(RECEIVING.channel, HEARTBEAT, 3);
    assert_eq!(rig.carried(&heartbeat), (0, vec![]));
    let mut reply = [NOISE; 12];
    assert_eq!(rig.node.arrival(&heartbeat, &mut reply).length, 12);
}

/// Where Flow Control is off no Ack states anything, and no take makes a packet.
#[test]
fn off() {
    let mut rig = Rig::receiving(RECEIVING);
    for number in 1..=8 {
        assert_eq!(rig.carried(&whole(number, b"u")), (0, vec![]));
    }
    takes(&mut rig, 3);
    assert_eq!(rig.next(), Err(12));
    assert_eq!(rig.node.sight(0).unwrap().flow_control, None);
    assert_eq!(rig.node.sight(0).unwrap().last_number, 8);
    assert_eq!(rig.carried(&alone(CLOSE, 0)), (0, vec![]));
}
