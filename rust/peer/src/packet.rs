//! One packet alone: from octets to fields and back (document 01, The packet;
//! 000, 4.2). Addresses, protocol ID, channel and sequence number are plain
//! fields here; whose they are is for a node to judge.

use crate::answer::{refuse_if, Refusal};
use crate::crc::crc;
use crate::prefix::MOST_PREFIX;

#[cfg(test)]
mod tests;

/// Octets of the header but for the prefix (000, 4.2.2.2).
pub const HEADER_LENGTH: usize = 10;

/// Octets of the header before the prefix (000, 4.2.3.9.1).
pub const PREFIX_START: usize = 9;

/// Octets after the payload (000, 4.2.2.2).
pub const TRAILER_LENGTH: usize = 2;

/// The most that the two octets of the payload length can say (000, 4.2.3.5).
pub const MOST_PAYLOAD: usize = 65_535;

/// The version of the protocol, "01" (000, 4.2.3.4.2).
pub const VERSION: u8 = 0b01;

/// Packet types (000, 4.2.3.4.5, Table 4-2).
pub mod kind {
    /// Data Packet.
    pub const DATA: u8 = 0;
    /// Data Ack Packet.
    pub const DATA_ACK: u8 = 1;
    /// Control Packet, Open Command.
    pub const OPEN: u8 = 2;
    /// Control Packet, Close Command.
    pub const CLOSE: u8 = 3;
    /// Heartbeat Packet (document 02, A2).
    pub const HEARTBEAT: u8 = 4;
    /// Heartbeat Ack Packet (document 02, A2).
    pub const HEARTBEAT_ACK: u8 = 5;
    /// Flow Control Packet or its Ack (document 02, A5). Which of them, its payload
    /// tells: the packet has one, its Ack has none (000, 4.2.4.1).
    pub const FLOW_CONTROL: u8 = 6;
    /// Control Ack Packet.
    pub const CONTROL_ACK: u8 = 7;
}

/// Sequence flags (000, 4.2.3.4.4, Table 4-1).
pub mod flags {
    /// An intermediate segment.
    pub const CONTINUATION: u8 = 0b00;
    /// The first segment.
    pub const FIRST: u8 = 0b01;
    /// The last segment.
    pub const LAST: u8 = 0b10;
    /// A whole unit; also every packet that is not Data.
    pub const WHOLE: u8 = 0b11;
}

/// The header's fields but for the prefix and its length, and the payload's
/// length, which goes with the payload. Each part of Packet Control and Address Control is a number of its
/// own, so that a writer can be asked for what it must refuse.
#[derive(Clone, Copy, Debug, Default, PartialEq, Eq)]
pub struct Fields {
    /// Destination logical address (000, 4.2.3.2).
    pub destination: u8,
    /// Protocol ID (000, 4.2.3.3).
    pub protocol: u8,
    /// Protocol version number, 2 bits (000, 4.2.3.4.2).
    pub version: u8,
    /// Secondary header flag, 1 bit (000, 4.2.3.4.3).
    pub secondary: u8,
    /// Sequence flags, 2 bits (000, 4.2.3.4.4).
    pub flags: u8,
    /// Packet type, 3 bits (000, 4.2.3.4.5).
    pub kind: u8,
    /// Channel number (000, 4.2.3.6).
    pub channel: u16,
    /// Sequence number (000, 4.2.3.7).
    pub number: u8,
    /// Reserved spare, 4 bits (000, 4.2.3.8.2).
    pub reserved: u8,
    /// Source logical address (000, 4.2.3.9.3).
    pub source: u8,
}

/// What a good packet says, and where its prefix and its payload lie in it.
#[derive(Clone, Copy, Debug, PartialEq, Eq)]
pub struct Reading {
    /// The header's fields.
    pub fields: Fields,
    /// The prefix's length N; it begins at [`PREFIX_START`].
    pub prefix: usize,
    /// The payload's first octet, 10 + N.
    pub start: usize,
    /// The payload's length X.
    pub length: usize,
}

impl Reading {
    /// The prefix of the packet that was read.
    pub fn prefix_of<'a>(&self, packet: &'a [u8]) -> &'a [u8] {
        &packet[PREFIX_START..][..self.prefix]
    }

    /// The payload of the packet that was read.
    pub fn payload_of<'a>(&self, packet: &'a [u8]) -> &'a [u8] {
        &packet[self.start..][..self.length]
    }
}

/// Reads a packet by the tests 1, 2, 4, 3 (document 01, The packet). Prefix and
/// payload stay where they lie.
pub fn read(packet: &[u8]) -> Result<Reading, Refusal> {
    let (prefix, length) = lengths(packet)?;
    test_crc(packet)?;
    let fields = fields_of(packet, prefix);
    test_base(&fields)?;
    test_header(&fields, length)?;
    Ok(Reading {
        fields,
        prefix,
        start: HEADER_LENGTH + prefix,
        length,
    })
}

/// Writes a packet at the front of `out` by the tests 4, 3, 11 (document 01,
/// The packet), and gives its length. Octets past it stay; so does the whole
/// buffer at a refusal. A prefix that the header has no place for is 4 as well.
pub fn write(
    fields: &Fields,
    prefix: &[u8],
    payload: &[u8],
    out: &mut [u8],
) -> Result<usize, Refusal> {
    refuse_if(prefix.len() > MOST_PREFIX, Refusal::NotInBase)?;
    test_base(fields)?;
    test_header(fields, payload.len())?;
    let wanted = HEADER_LENGTH + prefix.len() + payload.len() + TRAILER_LENGTH;
    let packet = out.get_mut(..wanted).ok_or(Refusal::Buffer { wanted })?;
    let (body, trailer) = packet.split_at_mut(wanted - TRAILER_LENGTH);
    let (front, rest) = body.split_at_mut(PREFIX_START);
    front.copy_from_slice(&front_of(fields, payload.len() as u16, prefix.len() as u8));
    let (before_source, rest) = rest.split_at_mut(prefix.len());
    before_source.copy_from_slice(prefix);
    rest[0] = fields.source;
    rest[1..].copy_from_slice(payload);
    trailer.copy_from_slice(&crc(body).to_be_bytes());
    Ok(wanted)
}

/// Test 1: the lengths N and X of a packet of exactly 12 + N + X octets
/// (document 02, A7).
fn lengths(packet: &[u8]) -> Result<(usize, usize), Refusal> {
    let around = HEADER_LENGTH + TRAILER_LENGTH;
    let held = packet.len().checked_sub(around).ok_or(Refusal::Length)?;
    let prefix = usize::from(packet[8] & 0b1111);
    let payload = usize::from(u16::from_be_bytes([packet[3], packet[4]]));
    refuse_if(held != prefix + payload, Refusal::Length)?;
    Ok((prefix, payload))
}

/// Test 2: the trailer is the CRC of all before it, high octet first.
fn test_crc(packet: &[u8]) -> Result<(), Refusal> {
    let (body, trailer) = packet.split_at(packet.len() - TRAILER_LENGTH);
    refuse_if(trailer != crc(body).to_be_bytes(), Refusal::Crc)
}

/// Test 4: what 000 has and this lacks: secondary headers. Every prefix that can be
/// read is read (document 02, A7), and so is every type that has a name (A2, A5).
fn test_base(fields: &Fields) -> Result<(), Refusal> {
    let lacking = fields.kind > kind::CONTROL_ACK;
    refuse_if(fields.secondary != 0 || lacking, Refusal::NotInBase)
}

/// Test 3: the other header fields, the payload length among them. Only Data has
/// flags other than 11 (000, 4.2.3.4.4).
fn test_header(fields: &Fields, payload: usize) -> Result<(), Refusal> {
    let data = fields.kind == kind::DATA;
    let flags_fit = if data {
        fields.flags <= flags::WHOLE
    } else {
        fields.flags == flags::WHOLE
    };
    refuse_if(
        fields.version != VERSION
            || !flags_fit
            || fields.reserved != 0
            || !payload_fits(fields, payload),
        Refusal::Header,
    )
}

/// Whether a packet may have a payload of so many octets (000, 4.2.4.1). Data with
/// flags 01 or 00 has one (document 02, A8). A Data Ack, a Control Ack and what
/// belongs to Flow Control may have the one octet of the number stated (A5); whether
/// they must is for their channel to judge.
fn payload_fits(fields: &Fields, payload: usize) -> bool {
    let unfinished = [flags::FIRST, flags::CONTINUATION].contains(&fields.flags);
    match fields.kind {
        kind::DATA => payload <= MOST_PAYLOAD && !(unfinished && payload == 0),
        kind::DATA_ACK | kind::CONTROL_ACK | kind::FLOW_CONTROL => payload <= 1,
        _ => payload == 0,
    }
}

/// The fields of a packet of 12 + N octets or more (document 01, The packet).
fn fields_of(packet: &[u8], prefix: usize) -> Fields {
    let packet_control = packet[2];
    Fields {
        destination: packet[0],
        protocol: packet[1],
        version: packet_control >> 6,
        secondary: packet_control >> 5 & 0b1,
        flags: packet_control >> 3 & 0b11,
        kind: packet_control & 0b111,
        channel: u16::from_be_bytes([packet[5], packet[6]]),
        number: packet[7],
        reserved: packet[8] >> 4,
        source: packet[PREFIX_START + prefix],
    }
}

/// The header's octets before the prefix, of fields that have passed the tests
/// 4 and 3.
fn front_of(fields: &Fields, length: u16, prefix: u8) -> [u8; PREFIX_START] {
    let [length_high, length_low] = length.to_be_bytes();
    let [channel_high, channel_low] = fields.channel.to_be_bytes();
    [
        fields.destination,
        fields.protocol,
        fields.version << 6 | fields.secondary << 5 | fields.flags << 3 | fields.kind,
        length_high,
        length_low,
        channel_high,
        channel_low,
        fields.number,
        fields.reserved << 4 | prefix,
    ]
}
