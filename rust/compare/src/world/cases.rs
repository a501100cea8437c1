//! Which cases a call was, for the table that is printed.

use super::*;
use crate::found::{BY_DIRECTION, FIRST};
use crate::overwriting::{ANOTHER_FLOW, ANOTHER_HEARTBEAT};
use proved::Said;

/// Every case that a run must have had, beside those with a list of their own.
pub const CASES: [&str; 31] = [
    "inactive: retries",
    "inactive: late Open",
    "inactive: Control number",
    "inactive: Data number",
    "inactive: flags",
    "inactive: Heartbeat",
    "confirmed: no unit by a Data Ack",
    "confirmed: one unit by a Data Ack",
    "confirmed: several units by a Data Ack",
    "index: a tick names another than the first",
    "index: a unit of another than the first is confirmed",
    "question: what the transfer then answers",
    "transferred: behind a leading octet",
    "transferred: no octet, behind a leading one",
    "transferred: too long by the leading octet alone",
    "wrapped: Data number 0 accepted",
    "wrapped: the ack of number 0 recorded",
    "taken: a unit of no octets",
    "taken: a unit of segments",
    "reclaimed: a unit of no octets",
    "reclaimed: a unit of segments",
    "room: exactly 12 octets for a reply",
    "13: an overwritten record lacks its condition",
    "13: an overwritten record has its condition, and keeps it",
    "13: overwritten lines are not sound",
    "13: overwritten lines are sound, and count",
    "13: settings over an overwritten table are accepted",
    BY_DIRECTION,
    FIRST,
    ANOTHER_HEARTBEAT,
    ANOTHER_FLOW,
];

impl World {
    /// The line of an arrival, by the packet's kind if it was read.
    pub(super) fn note_arrival(
        &mut self,
        node: usize,
        packet: &[u8],
        room: usize,
        outcome: &Outcome,
    ) {
        let said = outcome.said;
        let line = match packet.get(2).map(|control| control & 0b111) {
            _ if !self.reads(node, packet, said) => "not read",
            Some(kind::DATA) => "read Data",
            Some(kind::DATA_ACK) => "read Data Ack",
            Some(kind::OPEN) => "read Open",
            Some(kind::CLOSE) => "read Close",
            Some(kind::HEARTBEAT) => "read Heartbeat",
            Some(kind::HEARTBEAT_ACK) => "read Heartbeat Ack",
            Some(kind::FLOW_CONTROL) if packet[3..5] == [0, 0] => "read Flow Control Ack",
            Some(kind::FLOW_CONTROL) => "read Flow Control",
            _ => "read Control Ack",
        };
        self.tally.answer(line, said.number);
        if room == 12 {
            self.tally.case("room: exactly 12 octets for a reply");
        }
        self.note_prefixes(node, packet, room, said);
        match (line, said.number) {
            (_, 9) => self.tally.case(reason_case(said.reason)),
            ("read Data", 0) if packet[7] == 0 => {
                self.tally.case("wrapped: Data number 0 accepted")
            }
            ("read Data Ack", 0) => self.note_ack(packet[7], said),
            _ => {}
        }
    }

    /// Whether a packet so answered passed all tests before 14.
    fn reads(&self, node: usize, packet: &[u8], said: Said) -> bool {
        let own = self.twins[node].node;
        match said.number {
            1 | 2 | 4 | 13 => false,
            // The first test wants 12, the one behind 14 more.
            11 => said.length > 12,
            // Either a field unexpected, or Data that is too long for its channel, or
            // what Flow Control asks for or forbids there.
            3 => peer::packet::read(packet).is_ok_and(|reading| {
                let fields = reading.fields;
                fields.destination == own.address && fields.protocol == own.protocol
            }),
            _ => true,
        }
    }

    fn note_ack(&mut self, number: u8, said: Said) {
        if number == 0 {
            self.tally.case("wrapped: the ack of number 0 recorded");
        }
        if said.confirmed > 0 && said.index > 0 {
            self.tally
                .case("index: a unit of another than the first is confirmed");
        }
        self.tally.case(match said.confirmed {
            0 => "confirmed: no unit by a Data Ack",
            1 => "confirmed: one unit by a Data Ack",
            _ => "confirmed: several units by a Data Ack",
        });
    }

    /// A unit that was given away, of so many segments.
    pub(super) fn note_unit(
        &mut self,
        outcome: Outcome,
        segments: usize,
        empty: &'static str,
        several: &'static str,
    ) {
        if outcome.said.number != 0 {
            return;
        }
        if outcome.octets.is_empty() {
            self.tally.case(empty);
        }
        if segments > 1 {
            self.tally.case(several);
        }
    }
}

pub(super) fn reason_case(reason: u32) -> &'static str {
    match reason {
        1 => "inactive: retries",
        2 => "inactive: late Open",
        3 => "inactive: Control number",
        4 => "inactive: Data number",
        5 => "inactive: flags",
        _ => "inactive: Heartbeat",
    }
}
