mod data;
mod directives;
mod flow_control;
mod leading;
mod timers;
mod units;

use crate::packet::kind::{CLOSE, CONTROL_ACK, DATA, DATA_ACK, OPEN};
use crate::settings::Settings;
use crate::state::{Reason, State};
use crate::support::{alone, packet_for, Rig, NOISE, NOISE_LENGTH, SENDING};

/// The state and the reason of channel 0.
fn standing(rig: &Rig) -> (State, Reason) {
    let state = rig.node.state(0).unwrap();
    (state, rig.node.reason(0).unwrap())
}

/// The answer numbers of Data Acks with these numbers.
fn acks<const N: usize>(rig: &mut Rig, numbers: [u8; N]) -> [u8; N] {
    numbers.map(|number| rig.arrive(&alone(DATA_ACK, number)))
}

/// How many units the Data Acks with these numbers confirm.
fn confirms<const N: usize>(rig: &mut Rig, numbers: [u8; N]) -> [usize; N] {
    numbers.map(|number| {
        let answer = rig.arrival(&alone(DATA_ACK, number));
        assert_eq!((answer.number, answer.length), (0, 0));
        answer.confirmed
    })
}

/// Closes a channel in OPEN by directive and ack.
fn shut(rig: &mut Rig) {
    assert_eq!(rig.close(0), 0);
    assert_eq!(rig.next(), Ok((CLOSE, 0)));
    assert_eq!(rig.arrive(&alone(CONTROL_ACK, 0)), 0);
    assert_eq!(standing(rig), (State::Closed, Reason::None));
}
