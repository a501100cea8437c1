//! Type 6, and the numbers that the other end states (document 02, A5).

use super::*;
use peer::sight::SegmentSight;

/// Whether a packet of type 6 comes: often where its Ack is waited for, seldom where
/// Flow Control is not used.
pub(super) fn is_flow_turn(settings: &Settings, sight: &Sight, noise: &mut Noise) -> bool {
    let waits = sight.flow_first.is_some();
    let seldom = match settings.flow {
        _ if waits => 4,
        1 => 12,
        _ => 40,
    };
    noise.one_in(seldom)
}

/// Type 6: for a sender the Flow Control packet, which may have any number, for a
/// receiver its Ack, mostly of the one that is waited for.
pub(super) fn flow_control(
    settings: &Settings,
    sight: &Sight,
    breaks: bool,
    noise: &mut Noise,
) -> (u8, u8) {
    let first = sight.flow_first.map(|first| first.number);
    let number = match settings.direction {
        Direction::Receiving if !breaks => first.unwrap_or(sight.last_number),
        _ => noise.octet(),
    };
    (kind::FLOW_CONTROL, number)
}

/// The number that the other end states, in an octet, if a packet of this type has one:
/// an Ack where Flow Control is used, and type 6 for a sender. One that breaks the
/// exchange may have one where none is due, or none where one is.
pub(super) fn stated(
    kind: u8,
    settings: &Settings,
    sight: &Sight,
    breaks: bool,
    noise: &mut Noise,
) -> Vec<u8> {
    let states = match kind {
        kind::DATA_ACK | kind::CONTROL_ACK => settings.flow == 1,
        kind::FLOW_CONTROL => settings.direction == Direction::Sending,
        _ => return Vec::new(),
    };
    match states != (breaks && noise.one_in(6)) {
        // Also one with which an opening begins that is out of all reason.
        true if breaks && kind == kind::CONTROL_ACK => vec![noise.octet()],
        true => vec![number_stated(settings, sight, breaks, noise)],
        false => Vec::new(),
    }
}

/// From the highest number sent to k past it; one that breaks the exchange lies
/// anywhere.
fn number_stated(settings: &Settings, sight: &Sight, breaks: bool, noise: &mut Noise) -> u8 {
    let start = sight.start.unwrap_or(1);
    let is_sent = |one: &&SegmentSight| one.course.is_none_or(|course| course.hand_outs > 0);
    let from_start = sight.held.iter().filter(|one| one.number >= start);
    let highest = start + from_start.filter(is_sent).count() as u64 - 1;
    let window = settings.window as usize;
    let near = match noise.below(3) {
        0 => noise.below(window + 1),
        _ => window,
    };
    let near = (highest as u8).wrapping_add(near as u8);
    match noise.below(3) {
        0 if breaks => noise.octet(),
        1 if breaks => near.wrapping_sub(window as u8 + 1),
        _ => near,
    }
}
