//! The Heartbeat of a record (document 02, A2): what a call was for it, told from the
//! proved library's records before and after; and what it must be after a call that
//! the peer cannot be asked.

use peer::packet::kind;
use proved::record::{direction, lone, reason, state, Channel, Lone, Pulse, Timers};
use proved::Said;

use crate::call::Call;
use crate::lines::{is_waiting, Next};
use crate::tally::Tally;
use crate::twin::Twin;

mod cases;

pub use cases::HEARTBEATS;

/// The packet type of an arrival.
fn kind_of(call: &Call) -> Option<u8> {
    match call {
        Call::Arrival(packet) => packet.get(2).map(|control| control & 0b111),
        _ => None,
    }
}

/// Panics unless the Heartbeat of every record is what the rules make of it. The call
/// was not answered 13; the packet that it handed out is told, if it did.
pub fn check_pulses(
    call: &Call,
    said: Said,
    out: Option<Next>,
    before: &[Channel],
    now: &[Channel],
) {
    for (index, (old, new)) in before.iter().zip(now).enumerate() {
        let is_tick = matches!(call, Call::Tick);
        let is_open = (
            old.phase.state == state::OPEN,
            new.phase.state == state::OPEN,
        );
        if is_tick && is_open.0 {
            check_end(index, old, new);
        }
        let may_clear = is_tick || said.index == index && matches!(said.number, 0 | 9);
        let expected = match is_open {
            _ if matches!(call, Call::Settings(_)) => Pulse::default(),
            (false, true) => started(old),
            (true, false) => Pulse::default(),
            // Where there is none an overwritten one means nothing: what goes on from
            // there, or closes, may clear it.
            (false, false) if may_clear && new.pulse == Pulse::default() => new.pulse,
            (false, false) => old.pulse,
            (true, true) if is_tick => ticked(old),
            (true, true) if said.index != index => old.pulse,
            (true, true) => stepped(call, said, out, old),
        };
        // Flow Control, which lies there too, is looked at in `flows`.
        let flow = new.pulse.flow;
        let expected = Pulse { flow, ..expected };
        assert_eq!(new.pulse, expected, "{index}: {call:?}, {said:?}");
    }
}

/// In a tick in OPEN the timers of Data, or of a receiver's Flow Control packet, come
/// first, then the Heartbeat's: one of them that ends with no resend left closes the
/// channel, for its reason, and nothing else does.
fn check_end(index: usize, old: &Channel, new: &Channel) {
    let ends = |left: u16, tries: u16| left == 1 && tries == 0;
    let Timers { left, tries, .. } = &old.timers;
    let is_dead = |one: Lone| one.state == lone::OUT && ends(one.timer.max(1), one.tries);
    let is_first = match old.addresses.direction {
        direction::SENDS => left
            .iter()
            .zip(tries)
            .any(|(&left, &tries)| ends(left, tries)),
        _ => is_dead(old.pulse.flow.packet),
    };
    let (state, reason) = match (is_first, is_dead(old.pulse.beat)) {
        (true, _) => (state::CLOSED, reason::RETRIES),
        (false, true) => (state::CLOSED, reason::UNANSWERED),
        (false, false) => (state::OPEN, old.phase.reason),
    };
    assert_eq!(
        (new.phase.state, new.phase.reason),
        (state, reason),
        "{index}"
    );
}

/// "Upon transitioning into the OPEN state, [..] start the [..] Heartbeat timer".
fn started(record: &Channel) -> Pulse {
    Pulse {
        left: record.limits.interval,
        ..Pulse::default()
    }
}

/// A call of its own in OPEN: Data, Flow Control or an Ack that goes out restarts the
/// interval, the Heartbeat that goes out starts its timer, and its Ack ends it.
fn stepped(call: &Call, said: Said, out: Option<Next>, record: &Channel) -> Pulse {
    let Channel { limits, pulse, .. } = record;
    let is_heartbeat_ack = kind_of(call) == Some(kind::HEARTBEAT_ACK);
    match (call, said.number, out.map(|next| next.rank)) {
        (Call::NextPacket, 0, Some(0)) if is_waiting(&pulse.beat) => Pulse {
            beat: Lone {
                state: lone::OUT,
                timer: limits.timeout,
                tries: match pulse.beat.state {
                    lone::AGAIN => pulse.beat.tries.saturating_sub(1),
                    _ => limits.retries,
                },
            },
            ..*pulse
        },
        (Call::NextPacket, 0, Some(_)) => Pulse {
            left: limits.interval,
            ..*pulse
        },
        (Call::Arrival(_), 0, _) if is_heartbeat_ack => Pulse {
            beat: Lone::blank(),
            ..*pulse
        },
        (Call::Arrival(_), 0 | 15, _) if said.length > 0 => Pulse {
            left: limits.interval,
            ..*pulse
        },
        _ => *pulse,
    }
}

/// A tick in OPEN that the channel survives: the Heartbeat's timer, then the interval.
fn ticked(record: &Channel) -> Pulse {
    let Pulse { left, beat, flow } = record.pulse;
    let beat = match (beat.state, beat.timer) {
        (lone::OUT, 0 | 1) => Lone {
            state: lone::AGAIN,
            timer: 0,
            ..beat
        },
        (lone::OUT, timer) => Lone {
            timer: timer - 1,
            ..beat
        },
        _ => beat,
    };
    match (left, beat.state) {
        (0, _) => Pulse { left, beat, flow },
        (1, lone::NONE) => Pulse {
            left: record.limits.interval,
            beat: Lone {
                state: lone::READY,
                timer: 0,
                tries: 0,
            },
            flow,
        },
        (1, _) => Pulse {
            left: record.limits.interval,
            beat,
            flow,
        },
        _ => Pulse {
            left: left - 1,
            beat,
            flow,
        },
    }
}
