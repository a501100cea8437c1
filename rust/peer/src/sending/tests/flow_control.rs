//! A transmit end obeys the number that the other end states (document 02, A5; 000,
//! 4.4.4.6).

use super::*;
use crate::packet::kind::{FLOW_CONTROL, HEARTBEAT};
use crate::support::stating;

/// k 4, slots 8, with Flow Control.
const FLOWING: Settings = Settings { flow: 1, ..SENDING };

/// A transmit end in OPEN whose Open's Ack stated this number.
fn opened(settings: Settings, stated: u8) -> Rig {
    Rig::sending_by(settings, &stating(CONTROL_ACK, 0, stated))
}

/// The same, with so many units of one segment.
fn loaded(settings: Settings, stated: u8, units: usize) -> Rig {
    let mut rig = opened(settings, stated);
    for _ in 0..units {
        assert_eq!(rig.transfer(0, b"u"), 0);
    }
    rig
}

/// The number recorded.
fn recorded(rig: &Rig) -> u8 {
    rig.node.sight(0).unwrap().recorded
}

/// The answer to a Data Ack.
fn ack(rig: &mut Rig, number: u8, stated: u8) -> u8 {
    rig.arrive(&stating(DATA_ACK, number, stated))
}

/// The answer to a Flow Control packet.
fn flow(rig: &mut Rig, number: u8, stated: u8) -> u8 {
    rig.arrive(&stating(FLOW_CONTROL, number, stated))
}

/// A transmit end whose window starts at this segment, with so many units more, all
/// before it acknowledged, and its own number before the start recorded: "none".
fn stopped_at(settings: Settings, start: u64, units: usize) -> Rig {
    let mut rig = opened(settings, 1);
    for segment in 1..start {
        assert_eq!(rig.transfer(0, b"u"), 0);
        assert_eq!(rig.next(), Ok((DATA, segment as u8)));
        let next = segment + u64::from(segment + 1 < start);
        assert_eq!(ack(&mut rig, segment as u8, next as u8), 0);
    }
    (0..units).for_each(|_| assert_eq!(rig.transfer(0, b"u"), 0));
    rig
}

/// "is within the range of the current sliding window and is less than or equal to the
/// MASN": whichever ends first.
#[test]
fn new_data_up_to_the_number_and_the_window() {
    let cases: [(u8, &[u8]); 9] = [
        (0, &[]),
        (1, &[1]),
        (2, &[1, 2]),
        (4, &[1, 2, 3, 4]),
        (5, &[1, 2, 3, 4]),
        (128, &[1, 2, 3, 4]),
        (129, &[]),
        (200, &[]),
        (255, &[]),
    ];
    for (stated, numbers) in cases {
        let mut rig = loaded(FLOWING, stated, 6);
        assert_eq!(recorded(&rig), stated);
        assert_eq!(rig.all_data(), numbers);
    }
}

/// Past number 255 as before it, and 128 and more ahead of the start is behind it.
#[test]
fn round_256() {
    for start in [2, 100, 127, 128, 129, 250, 254, 255, 256, 257, 600] {
        let rig = stopped_at(FLOWING, start, 6);
        for past in 0..=4 {
            let mut rig = rig.clone();
            assert_eq!(rig.next(), Err(12));
            let stated = (start + past) as u8;
            assert_eq!(flow(&mut rig, 0, stated.wrapping_sub(1)), 0);
            let numbers: Vec<u8> = (0..past).map(|one| (start + one) as u8).collect();
            assert_eq!(rig.all_data(), numbers);
        }
    }
}

/// "k = slots = 4, four untaken, MASN 4, start 5": the number lies one before the
/// start, and 5 is not sent.
#[test]
fn a_number_before_the_start_means_none() {
    let settings = Settings {
        slots: 4,
        ..FLOWING
    };
    let mut rig = loaded(settings, 4, 4);
    assert_eq!(rig.all_data(), [1, 2, 3, 4]);
    for number in 1..=4 {
        assert_eq!(ack(&mut rig, number, 4), 0);
    }
    assert_eq!(rig.transfer(0, b"u"), 0);
    assert_eq!(rig.next(), Err(12));
    assert_eq!(flow(&mut rig, 4, 5), 0);
    assert_eq!(rig.next(), Ok((DATA, 5)));
}

/// A Data Ack that is taken states how far it may go on; the start moves as well.
#[test]
fn data_acks_are_recorded() {
    let mut rig = loaded(FLOWING, 2, 8);
    assert_eq!(rig.all_data(), [1, 2]);
    assert_eq!(ack(&mut rig, 2, 3), 0);
    assert_eq!(recorded(&rig), 3);
    assert_eq!(rig.all_data(), [3]);
    assert_eq!(ack(&mut rig, 1, 6), 0);
    assert_eq!(rig.all_data(), [4, 5, 6]);
}

/// One that is ignored, or comes where it has no place, changes no record: what it
/// states is not recorded.
#[test]
fn acks_that_are_not_taken_are_not_recorded() {
    let mut rig = loaded(FLOWING, 2, 8);
    assert_eq!(rig.all_data(), [1, 2]);
    assert_eq!([3, 0, 255].map(|number| ack(&mut rig, number, 4)), [16; 3]);
    assert_eq!(rig.arrive(&stating(CONTROL_ACK, 0, 4)), 5);
    assert_eq!(recorded(&rig), 2);
    assert_eq!(ack(&mut rig, 1, 2), 0);
    assert_eq!(ack(&mut rig, 1, 4), 16);
    assert_eq!((recorded(&rig), rig.next()), (2, Err(12)));
}

/// "exactly if (m - h) modulo 256 is at most k and not below (recorded - h) modulo
/// 256", h being the highest number sent, acknowledged or not; a number elsewhere is
/// acknowledged all the same and not recorded.
#[test]
fn what_is_recorded() {
    let mut rig = loaded(FLOWING, 4, 8);
    assert_eq!(rig.all_data(), [1, 2, 3, 4]);
    let cases = [
        (5, 5),
        (4, 5),
        (3, 5),
        (9, 5),
        (8, 8),
        (7, 8),
        (132, 8),
        (255, 8),
    ];
    for (stated, expected) in cases {
        assert_eq!(flow(&mut rig, 9, stated), 0);
        assert_eq!(recorded(&rig), expected, "{stated}");
    }
    for number in [4, 3, 2] {
        assert_eq!(ack(&mut rig, number, 4), 0);
        assert_eq!((recorded(&rig), rig.next()), (8, Err(12)));
    }
    assert_eq!(ack(&mut rig, 1, 5), 0);
    assert_eq!(rig.all_data(), [5, 6, 7, 8]);
}

/// A number recorded that lies elsewhere yields, also to a lower one: what was ready
/// and not yet sent is then taken back.
#[test]
fn a_number_recorded_elsewhere_yields() {
    let mut rig = loaded(FLOWING, 100, 8);
    assert_eq!(rig.next(), Ok((DATA, 1)));
    assert_eq!(rig.node.lines()[34..36], [1, 0]);
    assert_eq!(flow(&mut rig, 0, 1), 0);
    assert_eq!((recorded(&rig), rig.next()), (1, Err(12)));
    assert_eq!(rig.node.lines()[34..36], [0, 0]);
    assert_eq!(flow(&mut rig, 0, 2), 0);
    assert_eq!(rig.node.lines()[34..36], [1, 0]);
    assert_eq!(rig.all_data(), [2]);
}

/// "A resent Data packet is not held back by the number."
#[test]
fn resends_are_not_held_back() {
    let mut rig = loaded(FLOWING, 100, 3);
    assert_eq!(rig.all_data(), [1, 2, 3]);
    rig.ticks(4);
    assert_eq!(ack(&mut rig, 1, 3), 0);
    assert_eq!(recorded(&rig), 3);
    assert_eq!(rig.all_data(), [2, 3]);
    let mut rig = loaded(FLOWING, 1, 3);
    assert_eq!(rig.all_data(), [1]);
    rig.ticks(4);
    assert_eq!(rig.all_data(), [1]);
}

/// "the Transmit TEP shall generate a Flow Control Ack Packet having the same Sequence
/// Number": type 6 without payload, whatever was stated, and it restarts the Heartbeat
/// timer as any Ack does.
#[test]
fn a_flow_control_packet_is_answered_in_open() {
    let lively = Settings {
        interval: 100,
        ..FLOWING
    };
    let mut rig = opened(lively, 4);
    for (number, stated) in [(0, 4), (7, 0), (255, 255), (7, 99)] {
        rig.ticks(5);
        let mut reply = [NOISE; 14];
        let packet = stating(FLOW_CONTROL, number, stated);
        let answer = rig.node.arrival(&packet, &mut reply);
        assert_eq!((answer.number, answer.length), (0, 12));
        assert_eq!(reply[..10], [65, 238, 0x5E, 0, 0, 0, 1, number, 0, 64]);
        assert_eq!(reply[12..], [NOISE; 2]);
        assert_eq!(rig.node.sight(0).unwrap().heartbeat_timer, 100);
    }
    let heartbeat = packet_for(SENDING.channel, HEARTBEAT, 7);
    assert_eq!(rig.carried(&heartbeat), (0, vec![]));
}

/// It belongs to OPEN (000, 4.4.3.4); elsewhere it gives 5, and records nothing.
#[test]
fn elsewhere_the_state_does_not_allow_it() {
    let mut rig = Rig::new(&[FLOWING]);
    assert_eq!(flow(&mut rig, 0, 4), 5);
    rig.open(0);
    assert_eq!(flow(&mut rig, 0, 4), 5);
    rig.next().unwrap();
    assert_eq!(flow(&mut rig, 0, 4), 5);
    assert_eq!(ack(&mut rig, 1, 4), 5);
    assert_eq!(rig.arrive(&stating(CONTROL_ACK, 1, 4)), 16);
    assert_eq!(recorded(&rig), 0);
    assert_eq!(rig.arrive(&stating(CONTROL_ACK, 0, 2)), 0);
    assert_eq!(recorded(&rig), 2);
    rig.close(0);
    assert_eq!((recorded(&rig), flow(&mut rig, 0, 4)), (0, 5));
    rig.next().unwrap();
    assert_eq!(rig.arrive(&stating(CONTROL_ACK, 0, 9)), 0);
    assert_eq!((recorded(&rig), flow(&mut rig, 0, 4)), (0, 5));
    assert_eq!(standing(&rig), (State::Closed, Reason::None));
}

/// An Open whose Close is kept never comes to OPEN, and records nothing.
#[test]
fn a_kept_close_records_nothing() {
    let mut rig = Rig::new(&[FLOWING]);
    rig.open(0);
    rig.close(0);
    rig.next().unwrap();
    assert_eq!(rig.arrive(&stating(CONTROL_ACK, 0, 4)), 0);
    assert_eq!(recorded(&rig), 0);
    assert_eq!(rig.next(), Ok((CLOSE, 0)));
}

/// A new opening records anew.
#[test]
fn a_new_opening_records_anew() {
    let mut rig = opened(FLOWING, 4);
    rig.close(0);
    rig.next().unwrap();
    assert_eq!(rig.arrive(&stating(CONTROL_ACK, 0, 4)), 0);
    rig.open(0);
    assert_eq!(rig.next(), Ok((OPEN, 0)));
    assert_eq!(rig.arrive(&stating(CONTROL_ACK, 0, 1)), 0);
    rig.transfer(0, b"u");
    rig.transfer(0, b"u");
    assert_eq!(rig.all_data(), [1]);
}

/// Where it is used an Ack without the octet is 3, before the state (5).
#[test]
fn an_ack_that_states_nothing_gives_3() {
    let mut rig = Rig::new(&[FLOWING]);
    let refused = |rig: &mut Rig| {
        for kind in [DATA_ACK, CONTROL_ACK] {
            let answer = rig.arrival(&alone(kind, 0));
            assert_eq!((answer.number, answer.index), (3, Some(0)));
        }
        let ack = packet_for(SENDING.channel, FLOW_CONTROL, 0);
        assert_eq!(rig.arrive(&ack), 14);
    };
    refused(&mut rig);
    rig.open(0);
    rig.next().unwrap();
    refused(&mut rig);
    assert_eq!(rig.arrive(&stating(CONTROL_ACK, 0, 4)), 0);
    refused(&mut rig);
    rig.transfer(0, b"u");
    rig.next().unwrap();
    assert_eq!(acks(&mut rig, [1]), [3]);
    assert_eq!(ack(&mut rig, 1, 5), 0);
    rig.close(0);
    refused(&mut rig);
}

/// Where it is off nothing is recorded, and an Ack with the octet is 3.
#[test]
fn off() {
    let mut rig = Rig::sending(SENDING);
    (0..6).for_each(|_| assert_eq!(rig.transfer(0, b"u"), 0));
    assert_eq!(rig.all_data(), [1, 2, 3, 4]);
    assert_eq!((ack(&mut rig, 1, 5), flow(&mut rig, 0, 5)), (3, 3));
    assert_eq!(recorded(&rig), 0);
    assert_eq!(acks(&mut rig, [1]), [0]);
    assert_eq!((recorded(&rig), rig.all_data()), (0, vec![5]));
}

/// k 128, all sent and no Ack come back: the number stated may lie 255 past the start,
/// which reads as behind it. What was sent is resent all the same.
#[test]
fn resends_at_the_widest_window() {
    let settings = Settings {
        window: 128,
        slots: 128,
        ..FLOWING
    };
    let mut rig = loaded(settings, 128, 128);
    let all: Vec<u8> = (1..=128).collect();
    assert_eq!(rig.all_data(), all);
    assert_eq!(flow(&mut rig, 128, 0), 0);
    assert_eq!((recorded(&rig), rig.next()), (0, Err(12)));
    rig.ticks(4);
    assert_eq!(rig.all_data(), all);
    assert_eq!(ack(&mut rig, 1, 0), 0);
    assert_eq!(rig.transfer(0, b"u"), 0);
    assert_eq!(rig.next(), Err(12));
    for number in 2..=128 {
        assert_eq!(ack(&mut rig, number, 0), 0);
    }
    assert_eq!(rig.next(), Ok((DATA, 129)));
}

/// k 128: a number from the start less 1 to the last of the window.
#[test]
fn the_widest_window() {
    let settings = Settings {
        window: 128,
        slots: 128,
        ..FLOWING
    };
    for (stated, count) in [(0, 0), (1, 1), (127, 127), (128, 128), (129, 0)] {
        let mut rig = loaded(settings, stated, 128);
        assert_eq!(rig.all_data().len(), count);
    }
}
