mod control;
mod flags;
mod numbers;
mod room;
mod units;

use crate::packet::flags::{CONTINUATION, FIRST, LAST, WHOLE};
use crate::packet::kind::{CLOSE, CONTROL_ACK, DATA_ACK, OPEN};
use crate::settings::Settings;
use crate::state::{Reason, State};
use crate::support::{alone, data, packet_for, whole, Rig, NOISE, NOISE_LENGTH, RECEIVING};

/// The state and the reason of channel 0.
fn standing(rig: &Rig) -> (State, Reason) {
    let state = rig.node.state(0).unwrap();
    (state, rig.node.reason(0).unwrap())
}

/// The answer numbers of whole units of one octet with these numbers.
fn wholes<const N: usize>(rig: &mut Rig, numbers: [u8; N]) -> [u8; N] {
    numbers.map(|number| rig.arrive(&whole(number, &[number])))
}

/// The answer numbers of one-octet segments with these numbers and flags.
fn pieces<const N: usize>(rig: &mut Rig, pieces: [(u8, u8); N]) -> [u8; N] {
    pieces.map(|(number, flags)| rig.arrive(&data(number, flags, &[number])))
}

/// All units that are there to be taken.
fn taken(rig: &mut Rig) -> Vec<Vec<u8>> {
    let units = std::iter::from_fn(|| rig.take(0).ok()).collect();
    assert_eq!(rig.take(0), Err(12));
    units
}

/// An end in OPEN whose window starts at this segment, all before it taken.
fn started_at(settings: Settings, start: u64) -> Rig {
    let mut rig = Rig::receiving(settings);
    for segment in 1..start {
        assert_eq!(wholes(&mut rig, [segment as u8]), [0]);
        assert_eq!(rig.take(0), Ok(vec![segment as u8]));
    }
    rig
}
