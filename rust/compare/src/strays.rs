//! Packets that no node sent: such as the other end of a record might send
//! now, and such as break one clause of the tests.

use link::Noise;
use peer::packet::{flags, kind, Fields, VERSION};
use peer::settings::{Direction, Settings};
use peer::sight::Sight;
use peer::state::State;

use crate::packets::assemble;
use crate::twin::Twin;

mod clauses;
mod stating;

use stating::{flow_control, is_flow_turn, stated};

pub use clauses::{Clause, CLAUSES};

/// A packet from the other end of this record: one that goes on with the
/// exchange, or, so many times in a hundred, one that may break it.
pub fn from_other_end(twin: &Twin, index: usize, breaking: usize, noise: &mut Noise) -> Vec<u8> {
    let settings = &twin.settings[index];
    let sight = twin.peer.sight(index).expect("a record");
    let state = twin.state(index);
    let breaks = noise.percent(breaking);
    let (kind, number) = match (settings.direction, breaks) {
        _ if noise.one_in(10) => heartbeat(&sight, breaks, noise),
        _ if is_flow_turn(settings, &sight, noise) => flow_control(settings, &sight, breaks, noise),
        (Direction::Receiving, false) => forward(state, settings, &sight, noise),
        (Direction::Receiving, true) => any_forward(settings, &sight, noise),
        (Direction::Sending, false) => ack(state, &sight, noise),
        (Direction::Sending, true) => any_ack(&sight, noise),
    };
    let (flags, payload) = if kind == kind::DATA {
        let (flags, length) = shape(settings, &sight, breaks, noise);
        (flags, noise.octets(length))
    } else {
        (flags::WHOLE, stated(kind, settings, &sight, breaks, noise))
    };
    let fields = Fields {
        destination: twin.node.address,
        protocol: twin.node.protocol,
        version: VERSION,
        flags,
        kind,
        channel: settings.channel,
        number,
        source: settings.remote,
        ..Fields::default()
    };
    let prefix = settings.remote_prefix.said();
    assemble(&fields, prefix, &payload)
}

/// The window start's number; 1 while there is none.
fn start_of(sight: &Sight) -> u8 {
    sight.start.unwrap_or(1) as u8
}

/// What either end would send: a Heartbeat, or the Ack of this end's own, which is
/// mostly waited for. One that breaks the exchange may have any number.
fn heartbeat(sight: &Sight, breaks: bool, noise: &mut Noise) -> (u8, u8) {
    let waits = sight.heartbeat.is_some_and(|course| course.hand_outs > 0);
    let kind = match waits != noise.one_in(8) {
        true => kind::HEARTBEAT_ACK,
        false => kind::HEARTBEAT,
    };
    match breaks {
        true => (kind, noise.octet()),
        false => (kind, 0),
    }
}

/// What a transmit end would send: the kind and the number.
fn forward(state: State, settings: &Settings, sight: &Sight, noise: &mut Noise) -> (u8, u8) {
    let start = start_of(sight);
    match state {
        State::Closed | State::Enabled => (kind::OPEN, 0),
        State::Closing => (kind::CLOSE, 0),
        State::Open if !sight.accepted && noise.one_in(8) => (kind::OPEN, 0),
        State::Open if noise.one_in(4) => {
            let ahead = noise.below(settings.window as usize) as u8;
            (kind::DATA, start.wrapping_add(ahead))
        }
        State::Open if noise.one_in(6) => {
            let behind = 1 + noise.below(settings.window as usize) as u8;
            (kind::DATA, start.wrapping_sub(behind))
        }
        State::Open => (kind::DATA, start),
    }
}

/// Data at the edges of the window, and Control at any time.
fn any_forward(settings: &Settings, sight: &Sight, noise: &mut Noise) -> (u8, u8) {
    let (start, window) = (start_of(sight), settings.window as u8);
    let number = match noise.below(5) {
        0 => start.wrapping_add(window),
        1 => start.wrapping_sub(window).wrapping_sub(1),
        2 => start.wrapping_add(noise.below(usize::from(window)) as u8),
        3 => noise.octet(),
        _ => 0,
    };
    let kinds = [kind::DATA, kind::DATA, kind::DATA, kind::OPEN, kind::CLOSE];
    match noise.one_of(&kinds) {
        kind::DATA => (kind::DATA, number),
        control if noise.one_in(2) => (control, number),
        control => (control, 0),
    }
}

/// What a receive end would send back.
fn ack(state: State, sight: &Sight, noise: &mut Noise) -> (u8, u8) {
    if state != State::Open {
        return (kind::CONTROL_ACK, 0);
    }
    let start = sight.start.unwrap_or(1);
    let from_start = sight.held.iter().filter(|one| one.number >= start);
    let waits = |course: peer::sight::CourseSight| course.hand_outs > 0;
    let waiting = from_start.filter(|one| one.course.is_some_and(waits));
    let numbers: Vec<u64> = waiting.map(|one| one.number).collect();
    match numbers.as_slice() {
        [first, ..] if noise.one_in(2) => (kind::DATA_ACK, *first as u8),
        [] => (kind::DATA_ACK, start as u8),
        some => (kind::DATA_ACK, noise.one_of(some) as u8),
    }
}

/// Any Ack; out of OPEN often the one that is waited for.
fn any_ack(sight: &Sight, noise: &mut Noise) -> (u8, u8) {
    if sight.control.is_some() && noise.one_in(2) {
        return (kind::CONTROL_ACK, 0);
    }
    let near = start_of(sight).wrapping_add(noise.below(20) as u8);
    let number = noise.one_of(&[near, near, near.wrapping_sub(18), 0]);
    (noise.one_of(&[kind::DATA_ACK, kind::CONTROL_ACK]), number)
}

/// Flags and length of Data: flags that go on with the unfinished unit.
fn shape(settings: &Settings, sight: &Sight, breaks: bool, noise: &mut Noise) -> (u8, usize) {
    let most = settings.most_payload as usize;
    if breaks && noise.one_in(2) {
        return (noise.octet() & 0b11, noise.below(most + 2));
    }
    let last_now = sight.unfinished + 1 >= settings.most_segments as usize;
    let ends = last_now || noise.one_in(3);
    let flags = match (sight.unfinished == 0, ends) {
        (true, true) => flags::WHOLE,
        (true, false) => flags::FIRST,
        (false, true) => flags::LAST,
        (false, false) => flags::CONTINUATION,
    };
    // A segment that does not end its unit is not empty (document 02, A8).
    let least = usize::from(!ends);
    (flags, noise.below(most + 1).max(least))
}
