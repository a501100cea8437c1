//! Which cases of Flow Control a call was, for the table that is printed.

use super::*;
use crate::lines::{is_held_back, is_ready};
use crate::tally::Tally;
use crate::twin::Twin;
use proved::record::reason;

/// Every case of Flow Control that a run must have had. That its retries and the
/// Heartbeat's are used up in one tick is too seldom: `tests/flow_controls.rs` has it.
pub const FLOWS: [&str; 33] = [
    FULL,
    OF_CLOSE,
    MADE,
    OUT,
    BEHIND_HEARTBEAT,
    AFTER_HEARTBEAT,
    RESENT,
    RESENT_ANEW,
    ANSWERED,
    ACKED,
    ONE_MORE,
    LATE,
    IGNORED,
    NONE_OUT,
    DEAD,
    UNTAKEN,
    GONE,
    HELD_BACK,
    ON_BY_FLOW,
    ON_BY_ACK,
    LOWER,
    BEHIND,
    BEYOND,
    YIELDS,
    BY_FLOW,
    BY_ANSWER,
    SMALL,
    MISMATCH[0],
    MISMATCH[1],
    MISMATCH[2],
    MISMATCH[3],
    MISMATCH[4],
    MISMATCH[5],
];

const FULL: &str = "flow control: with full slots the number stated is the start less 1";
const OF_CLOSE: &str = "flow control: the Ack of a Close states k";
const MADE: &str = "flow control: made by a take";
const OUT: &str = "flow control: handed out";
const BEHIND_HEARTBEAT: &str = "flow control: waits behind the channel's Heartbeat";
const AFTER_HEARTBEAT: &str = "flow control: numbered 0 after a Heartbeat";
const RESENT: &str = "flow control: resent";
const RESENT_ANEW: &str = "flow control: resent with another number stated than at first";
const ANSWERED: &str = "flow control: answered by a sender";
const ACKED: &str = "flow control: acknowledged, and no other made";
const ONE_MORE: &str = "flow control: acknowledged, and one more made";
const LATE: &str = "flow control: acknowledged while it waits to be resent";
const IGNORED: &str = "flow control: its Ack ignored for the number";
const NONE_OUT: &str = "flow control: an Ack ignored, and none is out";
const DEAD: &str = "flow control: retries used up, and a receiver is inactive";
const FIRST: &str = "flow control: its retries are used up before the Heartbeat's";
const UNTAKEN: &str = "flow control: retries used up, and complete units are untaken";
const GONE: &str = "flow control: gone by a Close that arrives";
const HELD_BACK: &str = "flow control: 12, and new Data is held back by the number";
const ON_BY_FLOW: &str = "flow control: new Data goes on after a Flow Control packet";
const ON_BY_ACK: &str = "flow control: new Data goes on after a Data Ack";
const LOWER: &str = "number stated: below the one recorded, and not recorded";
const BEHIND: &str = "number stated: behind the highest sent, and not recorded";
const BEYOND: &str = "number stated: over k past the highest sent, and not recorded";
const YIELDS: &str = "number stated: recorded, as the one before lies elsewhere";
const BY_FLOW: &str = "interval: restarted by a Flow Control packet";
const BY_ANSWER: &str = "interval: restarted by the Ack of a Flow Control packet";
const SMALL: &str = "flow control: 11 for a reply buffer of 12, and 13 are wanted";

/// Of each type that has an octet for the number: with it and without.
const MISMATCH: [&str; 6] = [
    "flow control: 3 for a Data Ack without the number",
    "flow control: 3 for a Data Ack with a number, as it is not used",
    "flow control: 3 for a Control Ack without the number",
    "flow control: 3 for a Control Ack with a number, as it is not used",
    "flow control: 3 for an Ack of type 6, as it is not used",
    "flow control: 3 for a Flow Control packet, as it is not used",
];

impl Twin {
    /// After a call that both answered alike, with so much room for a reply: what it
    /// was for Flow Control.
    pub(crate) fn note_flows(
        &self,
        call: &Call,
        said: Said,
        octets: &[u8],
        room: usize,
        tally: &mut Tally,
    ) {
        if said.number == 13 {
            return;
        }
        if let Call::Tick = call {
            let records = self.before.iter().zip(&self.table);
            return records.for_each(|(old, new)| note_tick(old, new, tally));
        }
        if (call.name(), said.number) == ("next_packet", 12) {
            let held_back = self.table.iter().any(is_held_back);
            return note_all(&[(held_back, HELD_BACK)], tally);
        }
        let Some(new) = self.table.get(said.index) else {
            return;
        };
        let old = &self.before[said.index];
        match call {
            Call::NextPacket if said.number == 0 => note_next(old, new, octets, tally),
            Call::Take(_) => {
                let made = [old, new].map(|one| one.pulse.flow.packet.state);
                note_all(&[(made == [lone::NONE, lone::READY], MADE)], tally);
            }
            Call::Arrival(_) => {
                let small = (said.number, said.length, room) == (11, 13, 12);
                note_all(&[(small, SMALL)], tally);
                note_arrival(call, said, old, new, tally);
                note_reply(new, octets, tally);
            }
            _ => {}
        }
    }
}

fn note_tick(old: &Channel, new: &Channel, tally: &mut Tally) {
    let ends = |one: Lone| one.state == lone::OUT && (one.timer, one.tries) == (1, 0);
    let inactive = old.phase.state == state::OPEN && new.phase.reason == reason::RETRIES;
    let dead = receives(new) && inactive && ends(old.pulse.flow.packet);
    let cases = [
        (dead, DEAD),
        (dead && ends(old.pulse.beat), FIRST),
        (dead && new.window.behind > 0, UNTAKEN),
    ];
    note_all(&cases, tally);
}

fn note_next(old: &Channel, new: &Channel, octets: &[u8], tally: &mut Tally) {
    let (before, after) = (old.pulse.flow, new.pulse.flow);
    let goes = receives(old) && octets[2] & 0b111 == kind::FLOW_CONTROL;
    let state = before.packet.state;
    let first = goes && state == lone::READY;
    let again = goes && state == lone::AGAIN;
    let said = octets.get(octets.len() - 3).copied();
    let numbered = old.window.start > 1 && after.number == 0;
    let waits = receives(old) && !goes && is_waiting(&before.packet);
    let cases = [
        (first, OUT),
        (first && numbered && before.last == 0, AFTER_HEARTBEAT),
        (again, RESENT),
        (again && said != Some(before.stated), RESENT_ANEW),
        (waits, BEHIND_HEARTBEAT),
        (goes && new.pulse.left > old.pulse.left, BY_FLOW),
    ];
    note_all(&cases, tally);
}

fn note_arrival(call: &Call, said: Said, old: &Channel, new: &Channel, tally: &mut Tally) {
    let Some((kind, number, stated)) = said_of(call) else {
        return;
    };
    let uses = old.limits.flow == 1;
    match (kind, said.number, stated) {
        (kind::DATA_ACK | kind::CONTROL_ACK | kind::FLOW_CONTROL, 3, _) => {
            let place = match kind {
                kind::DATA_ACK => 0,
                kind::CONTROL_ACK => 2,
                _ => 4,
            };
            tally.case(MISMATCH[place + usize::from(stated.is_some())]);
        }
        (kind::FLOW_CONTROL, _, None) => note_ack(said, number, old, new, tally),
        (kind::FLOW_CONTROL, 0, Some(stated)) => {
            let on = !is_ready(old, 2) && is_ready(new, 2);
            let restarted = new.pulse.left > old.pulse.left;
            let cases = [(true, ANSWERED), (on, ON_BY_FLOW), (restarted, BY_ANSWER)];
            note_all(&cases, tally);
            note_stated(old, stated, tally);
        }
        (kind::DATA_ACK, 0, Some(stated)) => {
            let on = is_held_back(old) && is_ready(new, 2);
            note_all(&[(on, ON_BY_ACK)], tally);
            note_stated(old, stated, tally);
        }
        (kind::CLOSE, 0, _) => {
            let gone = uses && old.pulse.flow.packet.state != lone::NONE;
            note_all(&[(gone, GONE)], tally);
        }
        _ => {}
    }
}

/// The Ack of a Flow Control packet.
fn note_ack(said: Said, number: u8, old: &Channel, new: &Channel, tally: &mut Tally) {
    let (before, after) = (old.pulse.flow.packet, new.pulse.flow.packet);
    let is_out = [lone::OUT, lone::AGAIN].contains(&before.state);
    let done = said.number == 0;
    let ignored = said.number == 16;
    let cases = [
        (done && after.state == lone::NONE, ACKED),
        (done && after.state == lone::READY, ONE_MORE),
        (done && before.state == lone::AGAIN, LATE),
        (
            ignored && is_out && number != old.pulse.flow.number,
            IGNORED,
        ),
        (ignored && !is_out, NONE_OUT),
    ];
    note_all(&cases, tally);
}

/// A number is stated to a sender in OPEN.
fn note_stated(old: &Channel, stated: u8, tally: &mut Tally) {
    let past = |number: u8| usize::from(number.wrapping_sub(highest(old)));
    let (window, recorded) = (old.limits.window, old.pulse.flow.recorded);
    let told = past(stated) <= window;
    let elsewhere = past(recorded) > window;
    let cases = [
        (told && !elsewhere && past(stated) < past(recorded), LOWER),
        (past(stated) >= 256 - window, BEHIND),
        (!told && past(stated) < 256 - window, BEYOND),
        (told && elsewhere, YIELDS),
    ];
    note_all(&cases, tally);
}

/// The reply of a receiver, if there is one that states a number.
fn note_reply(new: &Channel, octets: &[u8], tally: &mut Tally) {
    let states = receives(new) && octets.len() > 12 && octets[4] == 1;
    let Some(stated) = octets
        .get(octets.len().saturating_sub(3))
        .filter(|_| states)
    else {
        return;
    };
    let is_open = new.phase.state == state::OPEN;
    let full = is_open && *stated == new.window.start.wrapping_sub(1);
    let closing = !is_open && usize::from(*stated) == new.limits.window;
    note_all(&[(full, FULL), (closing, OF_CLOSE)], tally);
}

fn note_all(cases: &[(bool, &'static str)], tally: &mut Tally) {
    for (_, case) in cases.iter().filter(|(is_so, _)| *is_so) {
        tally.case(case);
    }
}
