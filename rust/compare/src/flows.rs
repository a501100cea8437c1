//! Flow Control of a record (document 02, A5): what a call was for it, told from the
//! proved library's records before and after; and what it must be after a call that the
//! peer cannot be asked.

use peer::packet::{kind, read};
use proved::record::{direction, lone, state, Channel, Flow, Lone, Pulse};
use proved::Said;

use crate::call::Call;
use crate::lines::{is_waiting, Next};

mod cases;

pub use cases::FLOWS;

/// The number stated: the last of the window, or the last that there is room for if
/// that is before it; with full slots the one before the start.
pub fn stated(record: &Channel) -> u8 {
    let Channel { limits, window, .. } = record;
    let ahead = limits.window.min(limits.slots - window.behind);
    window.start.wrapping_add(ahead as u8).wrapping_sub(1)
}

/// The highest number that a sender has sent.
pub fn highest(record: &Channel) -> u8 {
    let sent = record.window.flight as u8;
    record.window.start.wrapping_add(sent).wrapping_sub(1)
}

fn receives(record: &Channel) -> bool {
    record.addresses.direction == direction::RECEIVES
}

/// Type, number and the number stated of an arrival that can be read.
fn said_of(call: &Call) -> Option<(u8, u8, Option<u8>)> {
    let Call::Arrival(packet) = call else {
        return None;
    };
    let reading = read(packet).ok()?;
    let stated = reading.payload_of(packet).first().copied();
    Some((reading.fields.kind, reading.fields.number, stated))
}

/// Panics unless Flow Control of every record is what the rules make of it. The call
/// was not answered 13; the packet that it handed out is told, if it did.
pub fn check_flows(
    call: &Call,
    said: Said,
    out: Option<Next>,
    before: &[Channel],
    now: &[Channel],
) {
    for (index, (old, new)) in before.iter().zip(now).enumerate() {
        let is_tick = matches!(call, Call::Tick);
        let serves = is_tick || said.index == index;
        let is_open = |record: &Channel| record.phase.state == state::OPEN;
        let expected = match (is_open(old), is_open(new)) {
            _ if matches!(call, Call::Settings(_)) => Flow::blank(),
            (true, false) => Flow::blank(),
            // As with an overwritten Heartbeat, what goes on from there may clear it.
            (false, false) if serves && new.pulse == Pulse::default() => Flow::blank(),
            (false, false) => old.pulse.flow,
            (false, true) => opened(call, old),
            (true, true) if is_tick => ticked(old),
            (true, true) if !serves => old.pulse.flow,
            (true, true) => stepped(call, said, out, old, new),
        };
        // A sender's last number means nothing.
        let last = if receives(new) {
            expected.last
        } else {
            new.pulse.flow.last
        };
        let expected = Flow { last, ..expected };
        assert_eq!(new.pulse.flow, expected, "{index}: {call:?}, {said:?}");
    }
}

/// "the initial value [..] is carried in the Control Ack Packet for the received Open
/// Command" (000, 4.5.3.5), which is numbered 0.
fn opened(call: &Call, record: &Channel) -> Flow {
    let stated = said_of(call).and_then(|(_, _, stated)| stated);
    let records = !receives(record) && record.limits.flow == 1;
    Flow {
        recorded: stated.filter(|_| records).unwrap_or(0),
        ..Flow::blank()
    }
}

/// A tick in OPEN that the channel survives.
fn ticked(record: &Channel) -> Flow {
    let flow = record.pulse.flow;
    let packet = match (flow.packet.state, flow.packet.timer) {
        _ if !receives(record) => flow.packet,
        (lone::OUT, 0 | 1) => Lone {
            state: lone::AGAIN,
            timer: 0,
            ..flow.packet
        },
        (lone::OUT, timer) => Lone {
            timer: timer - 1,
            ..flow.packet
        },
        _ => flow.packet,
    };
    Flow { packet, ..flow }
}

/// Panics unless the Ack of a Flow Control packet, where that is used, is answered by
/// its number, and ignored if none is out.
fn check_ack(call: &Call, said: Said, record: &Channel) {
    if let (Some((kind::FLOW_CONTROL, number, None)), 1) = (said_of(call), record.limits.flow) {
        let flow = &record.pulse.flow;
        let is_out = [lone::OUT, lone::AGAIN].contains(&flow.packet.state);
        let expected = match is_out && number == flow.number {
            true => 0,
            false => 16,
        };
        assert_eq!(said.number, expected, "{flow:?}, {number}");
    }
}

/// A call of its own in OPEN.
fn stepped(call: &Call, said: Said, out: Option<Next>, old: &Channel, new: &Channel) -> Flow {
    let flow = old.pulse.flow;
    check_ack(call, said, old);
    if !matches!(said.number, 0 | 15) {
        return flow;
    }
    match (call, said_of(call)) {
        (Call::NextPacket, _) if receives(old) && out.is_some() => handed_out(old),
        (Call::Take(_), _) if old.limits.flow == 1 && stated(old) != stated(new) => made(flow),
        (_, Some((kind::FLOW_CONTROL, _, None))) => acknowledged(flow, stated(new)),
        (_, Some((_, number, _))) if receives(old) && said.length > 0 => Flow {
            last: number,
            ..flow
        },
        (_, Some((kind::DATA_ACK | kind::FLOW_CONTROL, _, Some(stated)))) => Flow {
            recorded: recorded(old, stated),
            ..flow
        },
        _ => flow,
    }
}

/// The Heartbeat, numbered 0, goes before the Flow Control packet, which has the number
/// of the last packet sent and keeps it when it is resent.
fn handed_out(record: &Channel) -> Flow {
    let Channel { limits, pulse, .. } = record;
    let flow = pulse.flow;
    if is_waiting(&pulse.beat) {
        return Flow { last: 0, ..flow };
    }
    let (number, stated, tries) = match flow.packet.state {
        lone::AGAIN => (
            flow.number,
            flow.stated,
            flow.packet.tries.saturating_sub(1),
        ),
        _ => (flow.last, stated(record), limits.retries),
    };
    let packet = Lone {
        state: lone::OUT,
        timer: limits.timeout,
        tries,
    };
    Flow {
        packet,
        number,
        stated,
        last: number,
        ..flow
    }
}

const READY: Lone = Lone {
    state: lone::READY,
    timer: 0,
    tries: 0,
};

/// A take has changed the number stated: one is made, with no numbers yet, unless there
/// is one.
fn made(flow: Flow) -> Flow {
    match flow.packet.state {
        lone::NONE => Flow {
            packet: READY,
            number: 0,
            stated: 0,
            ..flow
        },
        _ => flow,
    }
}

/// Its Ack, and the number stated now.
fn acknowledged(flow: Flow, stated: u8) -> Flow {
    let again = flow.stated != stated;
    Flow {
        packet: if again { READY } else { Lone::blank() },
        number: 0,
        stated: 0,
        ..flow
    }
}

/// What is recorded once this number is stated: it, if it lies from the highest number
/// sent to k past it and not below the one recorded, which yields if it lies elsewhere.
pub fn recorded(record: &Channel, stated: u8) -> u8 {
    let old = record.pulse.flow.recorded;
    let past = |number: u8| usize::from(number.wrapping_sub(highest(record)));
    let window = record.limits.window;
    let yields = past(old) > window || past(stated) >= past(old);
    match past(stated) <= window && yields {
        true => stated,
        false => old,
    }
}
