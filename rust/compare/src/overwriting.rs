//! Records and lines overwritten by the caller. The peer keeps no such record,
//! so the answer is held against docs/CONDITION.md: 13 exactly if a record lacks
//! its condition or the lines are not sound, and then nothing has changed. Else
//! the records as they are decide who stands in a line and who is served.

use link::Noise;
use proved::record::{Addresses, Channel, Flow, Lone, Pulse};
use proved::Said;

use crate::call::{unlawful, Call};
use crate::condition::{are_lines, is_lawful};
use crate::flows::{check_flows, highest};
use crate::found::check_found;
use crate::lines::{after, next, other_lines};
use crate::pulses::check_pulses;
use crate::strays::from_other_end;
use crate::tally::Tally;
use crate::twin::Twin;

/// A case of [`overwrite_and_call`].
pub const ANOTHER_HEARTBEAT: &str = "overwritten: a Heartbeat that no call left there";

/// And another.
pub const ANOTHER_FLOW: &str = "overwritten: Flow Control that no call left there";

/// A field of a record, set to a number as far as its type holds it.
type Field = fn(&mut Channel, u64);

const FIELDS: [Field; 43] = [
    |record, number| record.addresses.direction = number as u8,
    |record, number| record.addresses.remote_prefix.length = number as u8,
    |record, number| record.addresses.own_prefix.length = number as u8,
    |record, number| record.addresses.remote_prefix.octets[number as usize % 15] = number as u8,
    |record, number| record.addresses.own_prefix.octets[number as usize % 15] = number as u8,
    |record, number| record.limits.window = number as usize,
    |record, number| record.limits.slots = number as usize,
    |record, number| record.limits.payload = number as usize,
    |record, number| record.limits.segments = number as usize,
    |record, number| record.limits.timeout = number as u16,
    |record, number| record.limits.closing = number as u16,
    |record, number| record.limits.retries = number as u16,
    |record, number| record.limits.interval = number as u16,
    |record, number| record.limits.flow = number as u16,
    |record, number| record.limits.spare = number as u16,
    |record, number| record.limits.lead = number as u16,
    |record, number| record.phase.state = number as u8,
    |record, number| record.phase.reason = number as u8,
    |record, number| record.phase.kept = number as u8,
    |record, number| record.phase.accepted = number as u8,
    |record, number| record.phase.control.state = number as u8,
    |record, number| record.phase.control.timer = number as u16,
    |record, number| record.phase.control.tries = number as u16,
    |record, number| record.pulse.left = number as u16,
    |record, number| record.pulse.beat.state = number as u8,
    |record, number| record.pulse.beat.timer = number as u16,
    |record, number| record.pulse.beat.tries = number as u16,
    |record, number| record.pulse.flow.packet.state = number as u8,
    |record, number| record.pulse.flow.packet.timer = number as u16,
    |record, number| record.pulse.flow.packet.tries = number as u16,
    |record, number| record.pulse.flow.number = number as u8,
    |record, number| record.pulse.flow.stated = number as u8,
    |record, number| record.pulse.flow.last = number as u8,
    |record, number| record.pulse.flow.recorded = number as u8,
    |record, number| record.window.start = number as u8,
    |record, number| record.window.place = number as usize,
    |record, number| record.window.behind = number as usize,
    |record, number| record.window.ahead = number as usize,
    |record, number| record.window.flight = number as usize,
    |record, number| record.window.way = number as usize,
    |record, number| record.marks[(number >> 8) as usize % 128] = number as u8,
    |record, number| record.acked[(number >> 8) as usize % 128] = number as u8,
    |record, number| record.timers.left[(number >> 16) as usize % 128] = number as u16,
];

/// Numbers at the edges of what the fields may hold.
const EDGES: [u64; 20] = [
    0,
    1,
    2,
    3,
    4,
    5,
    6,
    64,
    65,
    127,
    128,
    129,
    255,
    256,
    1_024,
    1_025,
    65_535,
    65_536,
    1 << 32,
    u64::MAX,
];

/// Table, memory, lengths and lines.
type Kept = (Vec<Channel>, Vec<u8>, Vec<u16>, Vec<u8>);

fn kept(twin: &Twin) -> Kept {
    (
        twin.table.clone(),
        twin.memory.clone(),
        twin.lengths.clone(),
        twin.lines.clone(),
    )
}

/// Overwrites something, makes any call of the proved library, looks at the
/// answer, and puts everything back.
pub fn overwrite_and_call(twin: &mut Twin, noise: &mut Noise, tally: &mut Tally) {
    let index = noise.below(twin.table.len());
    let packet = from_other_end(twin, index, 30, noise);
    let kept = kept(twin);
    let shared = noise.one_in(4);
    if shared {
        share(twin, index, noise);
    } else if noise.one_in(4) {
        overwrite_heartbeat(&mut twin.table[index], noise);
        tally.case(ANOTHER_HEARTBEAT);
    } else if noise.one_in(3) {
        overwrite_flow(&mut twin.table[index], noise);
        tally.case(ANOTHER_FLOW);
    } else {
        (0..1 + noise.below(2)).for_each(|_| overwrite(twin, noise));
    }
    if noise.one_in(4) {
        twin.table[index].marks = [5; 128];
    }
    let unit = [7; 3];
    let settings = twin.settings.clone();
    let call = match noise.below(10) {
        _ if shared && noise.one_in(2) => Call::Arrival(&packet),
        0 => Call::Settings(&settings),
        1 => Call::Open(index),
        2 => Call::Close(index),
        3 => Call::Transfer(index, &unit),
        4 => Call::Take(index),
        5 => Call::Reclaim(index),
        6 => Call::NextPacket,
        7 => Call::Arrival(&packet),
        8 => Call::WouldTransfer(index, 3),
        _ => Call::Tick,
    };
    check(twin, call, tally);
    (twin.table, twin.memory, twin.lengths, twin.lines) = kept;
}

/// A Heartbeat and an interval such as a record may have, but no call left there.
fn overwrite_heartbeat(record: &mut Channel, noise: &mut Noise) {
    record.limits.interval = noise.one_of(&[0, 1, 2, 65_535]);
    record.pulse = Pulse {
        left: noise.one_of(&[0, 1, 2, 65_535]),
        beat: Lone {
            state: noise.below(4) as u8,
            timer: noise.one_of(&[0, 1, 2, 65_535]),
            tries: noise.one_of(&[0, 1, 2, 65_535]),
        },
        ..record.pulse
    };
}

/// Flow Control such as a record may have, but no call left there: used or not.
fn overwrite_flow(record: &mut Channel, noise: &mut Noise) {
    let near = highest(record).wrapping_add(noise.below(8) as u8);
    let any = |noise: &mut Noise| if noise.one_in(3) { noise.octet() } else { near };
    record.limits.flow = noise.below(2) as u16;
    record.pulse.flow = Flow {
        packet: Lone {
            state: noise.below(4) as u8,
            timer: noise.one_of(&[0, 1, 2, 65_535]),
            tries: noise.one_of(&[0, 1, 2, 65_535]),
        },
        number: any(noise),
        stated: any(noise),
        last: any(noise),
        recorded: any(noise),
    };
}

fn overwrite(twin: &mut Twin, noise: &mut Noise) {
    let small = noise.below(10) as u64;
    let edge = noise.one_of(&EDGES);
    let any = noise.number();
    let number = noise.one_of(&[small, small, edge, any]);
    if noise.one_in(8) {
        let slot = noise.below(twin.lengths.len());
        twin.lengths[slot] = number as u16;
    } else if noise.one_in(8) {
        overwrite_lines(twin, number, noise);
    } else {
        let record = noise.below(twin.table.len());
        noise.one_of(&FIELDS)(&mut twin.table[record], number);
    }
}

/// Another record is addressed as this one, which settings refuse; its direction
/// stays.
fn share(twin: &mut Twin, index: usize, noise: &mut Noise) {
    let other = noise.below(twin.table.len());
    let direction = twin.table[other].addresses.direction;
    twin.table[other].addresses = Addresses {
        direction,
        ..twin.table[index].addresses
    };
}

/// Others stand in the lines than before, which the peer still has; or, as often,
/// any octet of them is another: what stands there may then be no channel, or past
/// those who stand.
fn overwrite_lines(twin: &mut Twin, number: u64, noise: &mut Noise) {
    if noise.one_in(2) {
        twin.lines = other_lines(twin.peer.lines(), twin.table.len(), noise);
    } else {
        let place = noise.below(twin.lines.len());
        twin.lines[place] = number as u8;
    }
}

/// The order after a call that was not answered 13: whose packet was next, and
/// the lines. And the Heartbeats, and Flow Control.
fn check_order(twin: &Twin, call: &Call, said: Said, before: &Kept, tally: &mut Tally) {
    let (table, _, _, lines) = before;
    let chosen = match call {
        Call::NextPacket => next(lines, table),
        _ => None,
    };
    if let Call::NextPacket = call {
        let index = chosen.map_or(table.len(), |next| next.index);
        assert_eq!(said.index, index, "another than the lines choose");
        assert_eq!(said.number == 12, chosen.is_none());
    }
    let out = chosen.filter(|_| said.number == 0);
    let expected = after(call, said, lines, &twin.table, out);
    assert_eq!(twin.lines, expected, "{call:?}: {said:?}");
    check_pulses(call, said, out, table, &twin.table);
    check_flows(call, said, out, table, &twin.table);
    if lines != twin.peer.lines() {
        tally.case("13: overwritten lines are sound, and count");
    }
}

fn is_sound(twin: &Twin) -> bool {
    are_lines(&twin.lines, twin.table.len())
        && is_lawful(&twin.table, twin.memory.len(), &twin.lengths)
}

/// Makes a call of the proved library alone over what is lent as it is.
fn check(twin: &mut Twin, call: Call, tally: &mut Tally) {
    let lawful = is_sound(twin);
    let before = kept(twin);
    let mut out = [0xA5; 64];
    let said = call.of_proved(twin.lent(&mut out));
    tally.alone += 1;
    tally.answer(call.name(), said.number);
    if matches!(call, Call::Arrival(_)) && said.number == 13 {
        tally.answer("not read", 13);
    }
    if let Call::Settings(_) = call {
        assert_eq!(said.number, 0, "settings read no old record");
        tally.case("13: settings over an overwritten table are accepted");
    } else if lawful {
        assert_ne!(said.number, 13, "{call:?}");
        tally.case("13: an overwritten record has its condition, and keeps it");
    } else {
        assert_eq!(out, [0xA5; 64]);
        return check_refused(twin, &call, said, &before, tally);
    }
    if let Call::Arrival(packet) = call {
        check_found(&before.0, twin.node, packet, said, tally);
    }
    check_order(twin, &call, said, &before, tally);
    assert!(is_sound(twin), "{call:?} did not keep the condition");
}

/// 13, and nothing has changed.
fn check_refused(twin: &Twin, call: &Call, said: Said, before: &Kept, tally: &mut Tally) {
    tally.case(match are_lines(&before.3, before.0.len()) {
        true => "13: an overwritten record lacks its condition",
        false => "13: overwritten lines are not sound",
    });
    assert_eq!(said, unlawful(twin.table.len()), "{call:?}");
    assert!(kept(twin) == *before, "a refusal changed something");
}
