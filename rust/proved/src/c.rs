//! What the static library exports, as its C declarations say. A slice goes as
//! a pointer and a count of its elements.

use crate::record::{Channel, Node, Settings};

/// `PeatFields`: the header's fields but for the prefix and the lengths of prefix
/// and payload.
#[repr(C)]
#[derive(Clone, Copy, Debug, Default, PartialEq, Eq)]
pub struct Fields {
    /// Destination logical address.
    pub destination: u8,
    /// Protocol ID.
    pub protocol: u8,
    /// Protocol version number.
    pub version: u8,
    /// Secondary header flag.
    pub secondary: u8,
    /// Sequence flags.
    pub flags: u8,
    /// Packet type.
    pub kind: u8,
    /// Channel number.
    pub channel: u16,
    /// Sequence number.
    pub number: u8,
    /// Reserved spare.
    pub reserved: u8,
    /// Source logical address.
    pub source: u8,
}

/// `PeatReading`: what reading a packet gave. All but the answer is 0 when it
/// was refused.
#[repr(C)]
#[derive(Clone, Copy, Debug, Default, PartialEq, Eq)]
pub struct Reading {
    /// The answer number of document 01.
    pub answer: u32,
    /// The header's fields.
    pub fields: Fields,
    /// How many octets the prefix has; they stand from octet 9 on.
    pub prefix: usize,
    /// The payload's first octet.
    pub start: usize,
    /// The payload's length.
    pub length: usize,
}

/// `PeatWriting`: what writing a packet gave.
#[repr(C)]
#[derive(Clone, Copy, Debug, Default, PartialEq, Eq)]
pub struct Writing {
    /// The answer number of document 01.
    pub answer: u32,
    /// With 0 the octets written, with 11 the octets wanted, else 0.
    pub length: usize,
}

/// `PeatSaid`: what a call of the node answers.
#[repr(C)]
#[derive(Clone, Copy, Debug, Default, PartialEq, Eq)]
pub struct Said {
    /// The answer number of document 01.
    pub number: u32,
    /// With 9 why the channel went inactive, else 0.
    pub reason: u32,
    /// With 0 and 15 the octets written, with 11 the octets wanted, else 0.
    pub length: usize,
    /// With 0 the units that a Data Ack confirmed, else 0.
    pub confirmed: usize,
    /// The index of the channel that the call served; as many as the table has
    /// records where it served none. Of a tick, the lowest of those that went
    /// inactive in it.
    pub index: usize,
}

impl Said {
    /// Octets that the call wrote at the front of its buffer.
    pub fn written(self) -> usize {
        match self.number {
            0 | 15 => self.length,
            _ => 0,
        }
    }
}

extern "C" {
    pub fn peat_crc(octets: *const u8, count: usize) -> u16;
    pub fn peat_read_packet(packet: *const u8, count: usize) -> Reading;
    pub fn peat_write_packet(
        fields: Fields,
        prefix: *const u8,
        prefix_count: usize,
        payload: *const u8,
        payload_count: usize,
        out: *mut u8,
        out_count: usize,
    ) -> Writing;

    pub fn peat_settings(
        table: *mut Channel,
        records: usize,
        memory: *const u8,
        octets: usize,
        lengths: *const u16,
        slots: usize,
        lines: *mut u8,
        line_octets: usize,
        settings: *const Settings,
        count: usize,
    ) -> Said;
    pub fn peat_open(
        table: *mut Channel,
        records: usize,
        memory: *mut u8,
        octets: usize,
        lengths: *mut u16,
        slots: usize,
        lines: *mut u8,
        line_octets: usize,
        index: usize,
    ) -> Said;
    pub fn peat_close(
        table: *mut Channel,
        records: usize,
        memory: *mut u8,
        octets: usize,
        lengths: *mut u16,
        slots: usize,
        lines: *mut u8,
        line_octets: usize,
        index: usize,
    ) -> Said;
    pub fn peat_transfer(
        table: *mut Channel,
        records: usize,
        memory: *mut u8,
        octets: usize,
        lengths: *mut u16,
        slots: usize,
        lines: *mut u8,
        line_octets: usize,
        index: usize,
        unit: *const u8,
        count: usize,
    ) -> Said;
    pub fn peat_would_transfer(
        table: *mut Channel,
        records: usize,
        memory: *mut u8,
        octets: usize,
        lengths: *mut u16,
        slots: usize,
        lines: *mut u8,
        line_octets: usize,
        index: usize,
        count: usize,
    ) -> Said;
    pub fn peat_take(
        table: *mut Channel,
        records: usize,
        memory: *mut u8,
        octets: usize,
        lengths: *mut u16,
        slots: usize,
        lines: *mut u8,
        line_octets: usize,
        index: usize,
        out: *mut u8,
        count: usize,
    ) -> Said;
    pub fn peat_reclaim(
        table: *mut Channel,
        records: usize,
        memory: *mut u8,
        octets: usize,
        lengths: *mut u16,
        slots: usize,
        lines: *mut u8,
        line_octets: usize,
        index: usize,
        out: *mut u8,
        count: usize,
    ) -> Said;
    pub fn peat_next_packet(
        table: *mut Channel,
        records: usize,
        memory: *mut u8,
        octets: usize,
        lengths: *mut u16,
        slots: usize,
        lines: *mut u8,
        line_octets: usize,
        node: Node,
        out: *mut u8,
        count: usize,
    ) -> Said;
    pub fn peat_arrival(
        table: *mut Channel,
        records: usize,
        memory: *mut u8,
        octets: usize,
        lengths: *mut u16,
        slots: usize,
        lines: *mut u8,
        line_octets: usize,
        node: Node,
        packet: *const u8,
        packet_count: usize,
        reply: *mut u8,
        reply_count: usize,
    ) -> Said;
    pub fn peat_tick(
        table: *mut Channel,
        records: usize,
        memory: *const u8,
        octets: usize,
        lengths: *const u16,
        slots: usize,
        lines: *mut u8,
        line_octets: usize,
    ) -> Said;
}
