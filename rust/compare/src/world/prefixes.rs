//! Which cases of prefixes a call was (document 02, A7).

use super::*;
use peer::packet::{read, Fields};
use proved::Said;

/// Every case of prefixes that a run must have had.
pub const PREFIXES: [&str; 6] = [EXACT, SMALL, ACK, UNKNOWN, AMONG_TWO, PACKET];

const EXACT: &str = "prefix: exactly the octets that a reply has";
const SMALL: &str = "prefix: an octet too few for a reply";
const ACK: &str = "prefix: 12 octets for an Ack are enough";
const UNKNOWN: &str = "prefix: 14 where a reply would not fit either";
const AMONG_TWO: &str = "prefix: found among two that differ in no more";
const PACKET: &str = "prefix: an octet too few for the next packet";

impl World {
    /// The octets of the own prefix of the record that a call served; 0 if none
    /// was.
    fn own_prefix(&self, node: usize, said: Said) -> usize {
        let served = self.twins[node].settings.get(said.index);
        served.map_or(0, |one| one.own_prefix.said().len())
    }

    /// Of an arrival: how much room there was for a reply, and whose packet it was.
    pub(super) fn note_prefixes(&mut self, node: usize, packet: &[u8], room: usize, said: Said) {
        let own = self.own_prefix(node, said);
        let case = match said.number {
            0 | 15 if own > 0 && said.length == room => EXACT,
            11 if own > 0 && said.length == room + 1 => SMALL,
            0 if own > 0 && said.length == 0 && room == 12 => ACK,
            14 if room == 12 && self.lacks_its_prefix(node, packet) => UNKNOWN,
            _ => "",
        };
        if !case.is_empty() {
            self.tally.case(case);
        }
        if said.number == 0 && self.has_another(node, said.index) {
            self.tally.case(AMONG_TWO);
        }
    }

    /// Of the next packet.
    pub(super) fn note_next(&mut self, node: usize, room: usize, said: Said) {
        if said.number == 11 && said.length == room + 1 && self.own_prefix(node, said) > 0 {
            self.tally.case(PACKET);
        }
    }

    /// Whether a receiving record whose replies have a prefix would be found for
    /// this packet but for the packet's own.
    fn lacks_its_prefix(&self, node: usize, packet: &[u8]) -> bool {
        let Ok(reading) = read(packet) else {
            return false;
        };
        let Fields {
            channel,
            source,
            kind,
            ..
        } = reading.fields;
        let mut settings = self.twins[node].settings.iter();
        kind == kind::DATA
            && settings.any(|one| {
                (one.channel, one.remote, one.direction) == (channel, source, Direction::Receiving)
                    && one.own_prefix.length > 0
            })
    }

    /// Whether another record differs from this one in the remote prefix alone.
    fn has_another(&self, node: usize, index: usize) -> bool {
        let settings = &self.twins[node].settings;
        let address = |one: &Settings| (one.channel, one.remote, one.direction);
        let alike = |other: &&Settings| address(other) == address(&settings[index]);
        settings.iter().filter(alike).count() > 1
    }
}
