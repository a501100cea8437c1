//! Packets that break chosen clauses of the tests 4 and 3, or the length by the
//! prefix that they announce, and no others.

use link::Noise;
use peer::packet::{flags, kind, Fields, VERSION};

/// The clauses that a packet breaks.
#[derive(Clone, Copy, Debug, Default, PartialEq, Eq)]
pub struct Faults {
    /// 4: a secondary header.
    pub secondary: bool,
    /// 4, to be written: a prefix over 15 octets. 1, to be read: another prefix
    /// length than the prefix has.
    pub prefix: bool,
    /// 4, to be written: a type over 7. A packet cannot say one, so that it has no such
    /// fault.
    pub kind: bool,
    /// 3: another version.
    pub version: bool,
    /// 3: flags that the type may not have.
    pub flags: bool,
    /// 3: reserved bits.
    pub reserved: bool,
    /// 3: more payload than a type that is not Data may have: one octet at a Data Ack,
    /// a Control Ack and Flow Control (document 02, A5), none at the others.
    pub payload: bool,
    /// 3: Data with flags 01 or 00 and no payload.
    pub empty: bool,
}

/// Every type but Data.
const OTHERS: [u8; 7] = [
    kind::DATA_ACK,
    kind::OPEN,
    kind::CLOSE,
    kind::HEARTBEAT,
    kind::HEARTBEAT_ACK,
    kind::FLOW_CONTROL,
    kind::CONTROL_ACK,
];

/// How far a subfield's wrong value may reach.
#[derive(Clone, Copy, Debug, PartialEq, Eq)]
pub enum Reach {
    /// No further than its bits: a packet can say it.
    Bits,
    /// As far as an octet: only a writer can be asked for it.
    Octet,
}

impl Faults {
    /// Every combination of clauses.
    pub fn all() -> impl Iterator<Item = Faults> {
        (0..=255).map(Faults::of_number)
    }

    /// Half the time none, else one alone or any combination: of all the
    /// combinations few are without test 4.
    pub fn some(noise: &mut Noise) -> Faults {
        let number = match noise.below(4) {
            0 => 1 << noise.below(8),
            1 => noise.octet(),
            _ => 0,
        };
        Faults::of_number(number)
    }

    fn of_number(number: u8) -> Faults {
        let bit = |place: u8| number >> place & 1 == 1;
        // Only Data with flags that it may have can be empty where it must not.
        let other_type_or_flags = bit(2) || bit(4) || bit(6);
        Faults {
            secondary: bit(0),
            prefix: bit(1),
            kind: bit(2),
            version: bit(3),
            flags: bit(4),
            reserved: bit(5),
            payload: bit(6),
            empty: bit(7) && !other_type_or_flags,
        }
    }

    /// What document 01 answers to them: test 4 comes before test 3, and in a
    /// packet that is read test 1 before either.
    pub fn answer(self, reach: Reach) -> u32 {
        if self.prefix && reach == Reach::Bits {
            1
        } else if self.secondary || self.prefix || self.kind && reach == Reach::Octet {
            4
        } else if self.version || self.flags || self.reserved || self.payload || self.empty {
            3
        } else {
            0
        }
    }

    /// Fields that have these faults and no others.
    pub fn fields(self, reach: Reach, noise: &mut Noise) -> Fields {
        let kind = self.a_kind(reach, noise);
        Fields {
            destination: noise.octet(),
            protocol: noise.octet(),
            version: subfield(self.version, VERSION, 2, reach, noise),
            secondary: subfield(self.secondary, 0, 1, reach, noise),
            flags: self.some_flags(kind, reach, noise),
            kind,
            channel: noise.number() as u16,
            number: noise.octet(),
            reserved: subfield(self.reserved, 0, 4, reach, noise),
            source: noise.octet(),
        }
    }

    /// A prefix for fields with these faults. What can be read has none that is
    /// too long.
    pub fn a_prefix(self, reach: Reach, noise: &mut Noise) -> Vec<u8> {
        let count = noise.one_of(&[16, 16, 17, 31, 32, 255, 256, 300]);
        match (self.prefix, reach) {
            (true, Reach::Octet) => noise.octets(count),
            _ => noise.prefix(),
        }
    }

    /// A payload length for fields with these faults, about as long as said.
    pub fn payload_length(self, fields: &Fields, about: usize) -> usize {
        let unfinished = [flags::FIRST, flags::CONTINUATION].contains(&fields.flags);
        if self.empty {
            return 0;
        }
        if fields.kind == kind::DATA {
            return about.max(usize::from(unfinished));
        }
        let most = match fields.kind {
            kind::DATA_ACK | kind::CONTROL_ACK | kind::FLOW_CONTROL => 1,
            _ => 0,
        };
        match self.payload {
            true => about.max(most + 1),
            false => about % (most + 1),
        }
    }

    fn a_kind(self, reach: Reach, noise: &mut Noise) -> u8 {
        let only_bits = reach == Reach::Bits;
        if self.kind && !only_bits {
            noise.octet().max(8)
        } else if self.empty {
            kind::DATA
        } else if self.payload || (self.flags && only_bits) || noise.one_in(2) {
            // On Data no payload is wrong, nor are flags of two bits.
            noise.one_of(&OTHERS)
        } else {
            kind::DATA
        }
    }

    fn some_flags(self, kind: u8, reach: Reach, noise: &mut Noise) -> u8 {
        if kind != kind::DATA {
            subfield(self.flags, flags::WHOLE, 2, reach, noise)
        } else if self.flags {
            noise.octet().max(4)
        } else if self.empty {
            noise.one_of(&[flags::FIRST, flags::CONTINUATION])
        } else {
            noise.octet() & 0b11
        }
    }
}

/// The right value of a subfield, or one of the wrong ones.
fn subfield(wrong: bool, right: u8, bits: u32, reach: Reach, noise: &mut Noise) -> u8 {
    let wide = reach == Reach::Octet && noise.one_in(2);
    let most = if wide { 255 } else { (1 << bits) - 1 };
    let mut value = right;
    while wrong && value == right {
        value = noise.octet() & most;
    }
    value
}
