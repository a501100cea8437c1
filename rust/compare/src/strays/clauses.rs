//! Packets that are good but for one clause.

use link::Noise;
use peer::packet::kind;

use crate::damage::{announced, repair};

/// A clause that a packet breaks, and its name.
pub type Clause = (&'static str, fn(&mut Vec<u8>, &mut Noise));

/// Every clause of the tests 1, 2, 4, 3 and 14 that a packet alone can break.
pub const CLAUSES: [Clause; 18] = [
    ("clause: under 12 octets", |packet, noise| {
        packet.truncate(noise.below(12));
    }),
    ("clause: an octet more", |packet, noise| {
        packet.push(noise.octet());
        repair(packet);
    }),
    ("clause: the check sum", |packet, noise| {
        let place = noise.below(packet.len());
        packet[place] ^= 1 << noise.below(8);
    }),
    ("clause: a secondary header", |packet, _| {
        set(packet, 2, |one| one | 0x20)
    }),
    ("clause: a prefix not as announced", |packet, noise| {
        let other = 1 + noise.below(15) as u8;
        set(packet, 8, |one| one ^ other);
    }),
    (
        "clause: flags of Flow Control or its Ack",
        |packet, noise| {
            let (flags, octets) = (noise.below(3) as u8, noise.below(2));
            set_payload(packet, &noise.octets(octets));
            set(packet, 2, |one| one & !0x1F | flags << 3 | 6);
        },
    ),
    ("clause: Flow Control with two octets", |packet, noise| {
        set_payload(packet, &noise.octets(2));
        set(packet, 2, |one| one & !7 | 0x18 | 6);
    }),
    ("clause: the version", |packet, _| {
        set(packet, 2, |one| one ^ 0x80)
    }),
    (
        "clause: flags of another type than Data",
        |packet, noise| {
            let flags = noise.below(3) as u8;
            set_payload(packet, &[]);
            set(packet, 2, |one| one & !0x1F | flags << 3 | 7);
        },
    ),
    ("clause: reserved bits", |packet, _| {
        set(packet, 8, |one| one | 0x80)
    }),
    ("clause: an empty middle", |packet, noise| {
        let flags = noise.below(2) as u8;
        set_payload(packet, &[]);
        set(packet, 2, |one| one & !0x1F | flags << 3);
    }),
    ("clause: an Ack with two octets", |packet, noise| {
        let kind = noise.one_of(&[kind::DATA_ACK, kind::CONTROL_ACK]);
        set_payload(packet, &noise.octets(2));
        set(packet, 2, |one| one & !7 | 0x18 | kind);
    }),
    (
        "clause: flags of a Heartbeat or its Ack",
        |packet, noise| {
            let (flags, kind) = (noise.below(3) as u8, 4 + noise.below(2) as u8);
            set_payload(packet, &[]);
            set(packet, 2, |one| one & !0x1F | flags << 3 | kind);
        },
    ),
    (
        "clause: a Heartbeat or its Ack with payload",
        |packet, noise| {
            let kind = 4 + noise.below(2) as u8;
            set_payload(packet, &[noise.octet()]);
            set(packet, 2, |one| one & !7 | 0x18 | kind);
        },
    ),
    ("clause: the destination", |packet, _| {
        set(packet, 0, |one| one ^ 1)
    }),
    ("clause: the protocol ID", |packet, _| {
        set(packet, 1, |one| one ^ 1)
    }),
    ("clause: channel or source unknown", |packet, noise| {
        let place = noise.one_of(&[5, 6, 9 + announced(packet)]);
        set(packet, place, |one| one ^ 0x10);
    }),
    ("clause: another prefix", |packet, noise| {
        let other = other_prefix(&packet[9..9 + announced(packet)], noise);
        packet.splice(9..9 + announced(packet), other.iter().copied());
        set(packet, 8, |one| one & 0xF0 | other.len() as u8);
    }),
];

/// A prefix like this one but for an octet, or for its length, or any other.
fn other_prefix(prefix: &[u8], noise: &mut Noise) -> Vec<u8> {
    let mut other = prefix.to_vec();
    match noise.below(4) {
        0 if !prefix.is_empty() => other[noise.below(prefix.len())] ^= 1,
        1 if !prefix.is_empty() => other.truncate(prefix.len() - 1),
        2 if prefix.len() < 15 => other.push(0),
        _ => other = noise.prefix(),
    }
    other
}

/// Gives a packet another payload, of under 256 octets.
fn set_payload(packet: &mut Vec<u8>, payload: &[u8]) {
    let start = 10 + announced(packet);
    packet.splice(start..packet.len() - 2, payload.iter().copied());
    packet[3..5].copy_from_slice(&[0, payload.len() as u8]);
}

/// Changes an octet of a packet and makes the check sum fit.
fn set(packet: &mut [u8], place: usize, change: impl FnOnce(u8) -> u8) {
    packet[place] = change(packet[place]);
    repair(packet);
}
