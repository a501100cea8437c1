//! Settings of a node and of its channels (document 01, A channel's record and
//! memory; 000, 5.3).

use crate::answer::{refuse_if, Refusal};
use crate::packet::{flags, Fields, VERSION};
use crate::prefix::Prefix;

#[cfg(test)]
mod tests;

/// The most records in a table.
pub const MOST_RECORDS: usize = 16;

/// The protocol ID where nothing else is set (000, 4.2.3.3).
pub const DEFAULT_PROTOCOL: u8 = 5;

/// What the whole node has in common.
#[derive(Clone, Copy, Debug, PartialEq, Eq)]
pub struct NodeSettings {
    /// The node's own logical address.
    pub own: u8,
    /// The protocol ID of its packets.
    pub protocol: u8,
}

impl NodeSettings {
    /// A node with this address and the protocol ID of 000.
    pub fn new(own: u8) -> NodeSettings {
        NodeSettings {
            own,
            protocol: DEFAULT_PROTOCOL,
        }
    }

    /// The fields that all packets of a channel to this remote address have in
    /// common, with the flags of a packet that is not Data.
    pub(crate) fn header(&self, remote: u8, channel: u16) -> Fields {
        Fields {
            destination: remote,
            protocol: self.protocol,
            version: VERSION,
            flags: flags::WHOLE,
            channel,
            source: self.own,
            ..Fields::default()
        }
    }
}

/// Which end of a channel a record is.
#[derive(Clone, Copy, Debug, PartialEq, Eq)]
pub enum Direction {
    /// The transmit end.
    Sending,
    /// The receive end.
    Receiving,
}

/// The settings of one channel. The numbers are wider than their ranges, so
/// that a caller can ask for what must be refused.
#[derive(Clone, Copy, Debug, PartialEq, Eq)]
pub struct Settings {
    /// Which end the record is.
    pub direction: Direction,
    /// The channel number (000, 4.2.3.6).
    pub channel: u16,
    /// The logical address of the other end.
    pub remote: u8,
    /// The prefix that packets from the other end have (document 02, A7).
    pub remote_prefix: Prefix,
    /// The prefix that packets to the other end have.
    pub own_prefix: Prefix,
    /// The window k, a power of two, 1 to 128 (document 02, A1).
    pub window: u32,
    /// The slots, k to 128.
    pub slots: u32,
    /// P, the most payload octets of a segment, 1 to 1,024.
    pub most_payload: u32,
    /// M, the most segments of a unit, 1 to slots.
    pub most_segments: u32,
    /// The timeout of a packet, 1 to 65,535 ticks.
    pub timeout: u32,
    /// The close timeout, 1 to 65,535 ticks. That it outlasts all resends of a
    /// Close (000, 4.5.2.5) binds the project's document, not the node.
    pub close_timeout: u32,
    /// The resends allowed to a packet, 0 to 255.
    pub retries: u32,
    /// The initial value of the Heartbeat timer of this end, to 65,535 ticks;
    /// 0 if it makes no Heartbeat (document 02, A2; 000, 4.4.4.7 and 4.5.3.6).
    pub interval: u32,
    /// Whether the channel uses Flow Control: 0 if not, 1 if it does (document 02,
    /// A5; 000, 4.4.4.6 and 4.5.3.5).
    pub flow: u32,
    /// The spare of a sending record, 0 if it names none, else that record's index
    /// and 1 more (document 02, A13).
    pub spare: u32,
    /// Whether a unit has a leading octet, which is so on a pair: 0 if not, 1 if it
    /// has (A13).
    pub lead: u32,
}

impl Settings {
    /// Whether every number lies in its range.
    fn in_range(&self) -> bool {
        self.window.is_power_of_two()
            && self.window <= 128
            && (self.window..=128).contains(&self.slots)
            && (1..=1_024).contains(&self.most_payload)
            && (1..=self.slots).contains(&self.most_segments)
            && (1..=65_535).contains(&self.timeout)
            && (1..=65_535).contains(&self.close_timeout)
            && self.retries <= 255
            && self.interval <= 65_535
            && self.flow <= 1
            && self.lead <= 1
            && self.remote_prefix.in_range()
            && self.own_prefix.in_range()
    }

    /// "No two records may have equal channel number, remote address and
    /// direction", and "Two records are equal only if their prefixes are too"
    /// (document 02, A7): the remote ones, for no arrival shows the own ones.
    /// Nor does the direction tell two apart (A2): "Where no field tells its end,
    /// records that differ only in direction give 13", and no field of a
    /// Heartbeat or of its Ack does.
    fn clashes(&self, other: &Settings) -> bool {
        self.is_named(other.channel, other.remote, other.remote_prefix.said())
    }

    /// Whether these are the record's channel number, remote address and prefix.
    fn is_named(&self, channel: u16, remote: u8, prefix: &[u8]) -> bool {
        self.channel == channel && self.remote == remote && self.remote_prefix.said() == prefix
    }

    /// Whether packets of this channel, remote address and prefix, for an end
    /// of this direction, or of either, are for this record.
    pub(crate) fn serves(
        &self,
        direction: Option<Direction>,
        channel: u16,
        remote: u8,
        prefix: &[u8],
    ) -> bool {
        direction.is_none_or(|end| end == self.direction) && self.is_named(channel, remote, prefix)
    }

    /// Whether the channel uses Flow Control.
    pub(crate) fn uses_flow_control(&self) -> bool {
        self.flow == 1
    }

    /// The octets of memory that this channel needs: slots times P.
    pub(crate) fn octets(&self) -> usize {
        self.slots as usize * self.most_payload as usize
    }
}

/// Tests the settings of a whole table (13).
pub(crate) fn test_table(table: &[Settings]) -> Result<(), Refusal> {
    let count_fits = (1..=MOST_RECORDS).contains(&table.len());
    let in_range = table.iter().all(Settings::in_range);
    let clash = table
        .iter()
        .enumerate()
        .any(|(place, one)| table[..place].iter().any(|other| one.clashes(other)));
    let paired = (0..table.len()).all(|place| spare_fits(table, place) && lead_fits(table, place));
    refuse_if(
        !count_fits || !in_range || clash || !paired,
        Refusal::Settings,
    )
}

/// "A named spare channel" is another sending record of the table, and what names
/// it sends (document 02, A13).
fn spare_fits(table: &[Settings], place: usize) -> bool {
    let one = &table[place];
    if one.spare == 0 {
        return true;
    }
    let index = one.spare as usize - 1;
    let sends = |record: &Settings| record.direction == Direction::Sending;
    index != place && sends(one) && table.get(index).is_some_and(sends)
}

/// "Each has a leading octet on both routes": a record has it exactly if it names a
/// spare or is named as one.
fn lead_fits(table: &[Settings], place: usize) -> bool {
    let named = table.iter().any(|one| one.spare as usize == place + 1);
    let on_pair = table[place].spare != 0 || named;
    table[place].lead == u32::from(on_pair)
}

/// The octets of memory and the number of lengths that a caller lends to a
/// node with such a table. It means something for good settings only.
pub fn storage(table: &[Settings]) -> (usize, usize) {
    let octets = table.iter().map(Settings::octets).sum();
    let lengths = table.iter().map(|one| one.slots as usize).sum();
    (octets, lengths)
}
