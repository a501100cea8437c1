//! Packets by their fields (document 01, The packet; document 02, A7), sound ones
//! and others.

use crate::words;

/// The numbers of the replay's two channels. Data Acks and Control Acks belong to
/// the sending one, Data and Control to the receiving one; Heartbeats and their
/// Acks to either; a Flow Control packet to the sending one, its Ack to the other.
#[derive(Clone, Copy, Debug)]
pub struct Numbers {
    /// Of channel 0.
    pub sending: u16,
    /// Of channel 1.
    pub receiving: u16,
}

/// Document 01 has "both numbered 1"; "the replay's channel 1 is then numbered 2"
/// (document 02, A2). Where this changes, `traces rewrite` writes the octets of
/// the files anew.
pub const NUMBERS: Numbers = Numbers {
    sending: 1,
    receiving: 2,
};

/// The packet types by their codes (000, Table 4-2).
const TYPES: [&str; 8] = [
    "data",
    "data-ack",
    "open",
    "close",
    "heartbeat",
    "heartbeat-ack",
    "flow-control",
    "control-ack",
];

/// The code of Data.
pub const DATA: u8 = 0;
/// The code of Data Ack.
pub const DATA_ACK: u8 = 1;
/// The code of Open.
pub const OPEN: u8 = 2;
/// The code of Close.
pub const CLOSE: u8 = 3;
/// The code of Heartbeat.
pub const HEARTBEAT: u8 = 4;
/// The code of Heartbeat Ack.
pub const HEARTBEAT_ACK: u8 = 5;
/// The code of Flow Control and its Ack.
pub const FLOW_CONTROL: u8 = 6;
/// The code of Control Ack.
pub const CONTROL_ACK: u8 = 7;

/// The flags by their codes (document 01, The packet).
const FLAGS: [&str; 4] = ["continuation", "first", "last", "whole"];

/// A packet as it is written down: nothing here need be right.
#[derive(Clone, Debug)]
pub struct Packet {
    destination: u8,
    protocol: u8,
    version: u8,
    /// The secondary header flag.
    pub secondary: u8,
    /// The sequence flags.
    pub flags: u8,
    kind: u8,
    /// The payload length that it claims, if not the true one.
    length: Option<u16>,
    /// The channel number.
    pub channel: u16,
    /// The sequence number.
    pub number: u8,
    reserved: u8,
    /// The prefix length that it announces, if not the true one.
    announced: Option<u8>,
    /// The prefix of the source address.
    pub prefix: Vec<u8>,
    source: u8,
    /// The payload.
    pub payload: Vec<u8>,
    wrong_crc: bool,
    /// How many octets of it are left.
    kept: usize,
}

impl Packet {
    /// A packet of this type from the remote node, sound and empty, numbered 0. A
    /// Heartbeat or its Ack, of which "no field tells its end" (document 02, A2), is
    /// for the receiving channel, and so is type 6, which without payload is the Ack of
    /// Flow Control (A5).
    pub fn new(kind: u8, numbers: Numbers) -> Packet {
        let channel = match kind {
            DATA_ACK | CONTROL_ACK => numbers.sending,
            _ => numbers.receiving,
        };
        Packet {
            destination: 64,
            protocol: 238,
            version: 0b01,
            secondary: 0,
            flags: 0b11,
            kind,
            length: None,
            channel,
            number: 0,
            reserved: 0,
            announced: None,
            prefix: Vec::new(),
            source: 65,
            payload: Vec::new(),
            wrong_crc: false,
            kept: usize::MAX,
        }
    }

    /// The packet of these words: its type, then what differs from a sound and
    /// empty one numbered 0.
    pub fn read(words: &[String], round: u64, numbers: Numbers) -> Result<Packet, String> {
        let (kind, settings) = words.split_first().ok_or("no packet type")?;
        let mut packet = Packet::new(place(kind, &TYPES)?, numbers);
        for setting in settings {
            let (field, value) = setting
                .split_once('=')
                .ok_or(format!("'{setting}' sets no field"))?;
            match (field, value) {
                ("channel", "sending") => packet.channel = numbers.sending,
                ("channel", "receiving") => packet.channel = numbers.receiving,
                _ => packet.set(field, value, round)?,
            }
        }
        Ok(packet)
    }

    fn set(&mut self, field: &str, value: &str, round: u64) -> Result<(), String> {
        match field {
            "destination" => self.destination = words::narrow(value, round)?,
            "protocol" => self.protocol = words::narrow(value, round)?,
            "version" => self.version = words::narrow(value, round)?,
            "secondary" => self.secondary = words::narrow(value, round)?,
            "flags" => self.flags = place(value, &FLAGS)?,
            "length" => self.length = Some(words::narrow(value, round)?),
            "channel" => self.channel = words::narrow(value, round)?,
            "number" => self.number = words::number(value, round)? as u8,
            "reserved" => self.reserved = words::narrow(value, round)?,
            "announced" => self.announced = Some(words::narrow(value, round)?),
            "prefix" => self.prefix = words::octets(value)?,
            "source" => self.source = words::narrow(value, round)?,
            "payload" => self.payload = words::octets(value)?,
            "crc" if value == "wrong" => self.wrong_crc = true,
            "kept" => self.kept = words::narrow(value, round)?,
            _ => return Err(format!("'{field}={value}' is no field")),
        }
        Ok(())
    }

    /// Its octets, field by field: Packet Control and Address Control are one
    /// each, the CRC is the last.
    pub fn fields(&self) -> Vec<Vec<u8>> {
        let length = self.length.unwrap_or(self.payload.len() as u16);
        let announced = self.announced.unwrap_or(self.prefix.len() as u8);
        let mut fields = vec![
            vec![self.destination],
            vec![self.protocol],
            vec![self.version << 6 | self.secondary << 5 | self.flags << 3 | self.kind],
            length.to_be_bytes().to_vec(),
            self.channel.to_be_bytes().to_vec(),
            vec![self.number],
            vec![self.reserved << 4 | announced],
            self.prefix.clone(),
            vec![self.source],
            self.payload.clone(),
        ];
        let wrong = u16::from(self.wrong_crc);
        let crc = crc(&fields.concat()) ^ wrong;
        fields.push(crc.to_be_bytes().to_vec());
        let mut left = self.kept;
        for field in &mut fields {
            field.truncate(left);
            left -= field.len();
        }
        fields.retain(|field| !field.is_empty());
        fields
    }
}

/// Where this name stands among these, which is its code.
fn place(name: &str, names: &[&str]) -> Result<u8, String> {
    let place = names.iter().position(|other| *other == name);
    Ok(place.ok_or(format!("'{name}' is none of {names:?}"))? as u8)
}

/// The check sum (document 01, The packet): x^16+x^12+x^5+1, start all ones,
/// top bit first, no final inversion.
pub fn crc(octets: &[u8]) -> u16 {
    octets.iter().fold(0xFFFF, |sum, octet| {
        (0..8).fold(sum ^ (u16::from(*octet) << 8), |sum, _| {
            (sum << 1) ^ ((sum >> 15) * 0x1021)
        })
    })
}

#[cfg(test)]
mod tests {
    use super::*;

    fn octets(line: &str, numbers: Numbers) -> Vec<u8> {
        let packet = Packet::read(&words::split(line), 0, numbers);
        packet.expect("a packet").fields().concat()
    }

    /// "CRC of ASCII "123456789" is 29B1 hexadecimal, of no octets FFFF."
    #[test]
    fn check_sums_of_document_01() {
        assert_eq!(crc(b"123456789"), 0x29B1);
        assert_eq!(crc(b""), 0xFFFF);
    }

    /// "Packet Control of a first, middle, last, whole segment: 48, 40, 50, 58"
    #[test]
    fn packet_control_of_document_01() {
        let control = |flags| octets(&format!("data flags={flags}"), NUMBERS)[2];
        let controls = ["first", "continuation", "last", "whole"].map(control);
        assert_eq!(controls, [0x48, 0x40, 0x50, 0x58]);
    }

    #[test]
    fn each_field_in_its_place() {
        let line = "close destination=1 protocol=2 version=2 secondary=1 flags=first length=772 \
                    channel=1286 number=7 reserved=8 announced=9 prefix=0A source=11 payload=0C0D";
        let head = [1, 2, 0b1010_1011, 3, 4, 5, 6, 7, 0x89, 10, 11, 12, 13];
        assert_eq!(octets(line, NUMBERS)[..13], head);
        let cut = format!("{line} kept=5");
        assert_eq!(octets(&cut, NUMBERS), head[..5]);
    }

    /// "The whole has exactly 12 + X octets", and N more of a prefix, which
    /// stands at octet 9.
    #[test]
    fn prefixes() {
        let alone = octets("open", NUMBERS);
        for count in 0..=15 {
            let packet = octets(&format!("open prefix=07*{count}"), NUMBERS);
            assert_eq!(packet.len(), alone.len() + count);
            assert_eq!(usize::from(packet[8]), count);
            assert!(packet[9..9 + count].iter().all(|octet| *octet == 7));
            assert_eq!(packet[9 + count], alone[9]);
        }
    }

    /// A channel number stands in one place only.
    #[test]
    fn channel_numbers_by_type() {
        let channels = TYPES.map(|kind| octets(kind, NUMBERS)[6]);
        assert_eq!(channels, [2, 1, 2, 2, 2, 2, 2, 1]);
        let numbers = Numbers {
            sending: 3,
            receiving: 4,
        };
        let channels = TYPES.map(|kind| octets(kind, numbers)[6]);
        assert_eq!(channels, [4, 3, 4, 4, 4, 4, 4, 3]);
        let named = ["sending", "receiving", "9"];
        let named = named.map(|end| octets(&format!("heartbeat channel={end}"), numbers)[6]);
        assert_eq!(named, [3, 4, 9]);
    }
}
