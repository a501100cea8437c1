//! What can happen to a packet on its way.

// All are of one type, also those that leave the length as it is.
#![allow(clippy::ptr_arg)]

use link::{Damage, Noise};
use peer::crc::crc;

/// Every kind of damage.
const DAMAGES: [Damage; 14] = [
    flip_bits,
    change_octet,
    change_octet_and_repair,
    change_header_and_repair,
    change_length,
    change_length_and_repair,
    cut,
    cut_and_repair,
    cut_and_fit,
    lengthen,
    lengthen_and_repair,
    change_prefix_length_and_repair,
    move_source_and_repair,
    write_crc_another_way,
];

/// Any of them.
pub fn any(packet: &mut Vec<u8>, noise: &mut Noise) {
    noise.one_of(&DAMAGES)(packet, noise);
}

/// Makes the last two octets the CRC of those before them.
pub fn repair(packet: &mut [u8]) {
    if let Some(body) = packet.len().checked_sub(2) {
        let trailer = crc(&packet[..body]).to_be_bytes();
        packet[body..].copy_from_slice(&trailer);
    }
}

/// The octets of the prefix that a packet announces.
pub fn announced(packet: &[u8]) -> usize {
    packet.get(8).map_or(0, |octet| usize::from(octet & 0b1111))
}

fn set_length(packet: &mut [u8], length: usize) {
    if packet.len() > 4 {
        packet[3..5].copy_from_slice(&(length as u16).to_be_bytes());
    }
}

fn flip_bits(packet: &mut Vec<u8>, noise: &mut Noise) {
    for _ in 0..=noise.below(4) {
        let place = noise.below(packet.len());
        packet[place] ^= 1 << noise.below(8);
    }
}

fn change_octet(packet: &mut Vec<u8>, noise: &mut Noise) {
    let place = noise.below(packet.len());
    packet[place] = noise.octet();
}

fn change_octet_and_repair(packet: &mut Vec<u8>, noise: &mut Noise) {
    change_octet(packet, noise);
    repair(packet);
}

fn change_header_and_repair(packet: &mut Vec<u8>, noise: &mut Noise) {
    for _ in 0..=noise.below(2) {
        packet[noise.below(10)] = noise.octet();
    }
    repair(packet);
}

/// A length near the right one, or with its octets the other way round.
fn change_length(packet: &mut Vec<u8>, noise: &mut Noise) {
    let right = packet.len().saturating_sub(12 + announced(packet));
    let near = [
        right.wrapping_add(1),
        right.wrapping_sub(1),
        right.wrapping_add(2),
        right.wrapping_add(10),
        right.wrapping_add(12),
        right.wrapping_add(256),
        usize::from((right as u16).swap_bytes()),
    ];
    set_length(packet, noise.one_of(&near));
}

fn change_length_and_repair(packet: &mut Vec<u8>, noise: &mut Noise) {
    change_length(packet, noise);
    repair(packet);
}

fn cut(packet: &mut Vec<u8>, noise: &mut Noise) {
    let count = if noise.one_in(2) {
        packet.len() - 1
    } else {
        noise.below(packet.len())
    };
    packet.truncate(count);
}

fn cut_and_repair(packet: &mut Vec<u8>, noise: &mut Noise) {
    cut(packet, noise);
    repair(packet);
}

/// A cut packet that says its new length; under 12 octets it cannot.
fn cut_and_fit(packet: &mut Vec<u8>, noise: &mut Noise) {
    cut(packet, noise);
    let length = packet.len().saturating_sub(12 + announced(packet));
    set_length(packet, length);
    repair(packet);
}

fn lengthen(packet: &mut Vec<u8>, noise: &mut Noise) {
    let count = 1 + noise.below(16);
    packet.extend(noise.octets(count));
}

/// The octets go in before the source address, as a prefix would, or before the
/// one that is there. Half the time it is announced.
fn lengthen_and_repair(packet: &mut Vec<u8>, noise: &mut Noise) {
    let count = 1 + noise.below(15);
    let prefix = noise.octets(count);
    let longer = announced(packet) + count;
    packet.splice(9..9, prefix);
    if noise.one_in(2) {
        packet[8] = packet[8] & 0xF0 | longer as u8 & 0b1111;
    }
    repair(packet);
}

/// Another prefix is announced than the one that is there.
fn change_prefix_length_and_repair(packet: &mut Vec<u8>, noise: &mut Noise) {
    packet[8] ^= 1 + noise.below(15) as u8;
    repair(packet);
}

/// The prefix gains octets of what follows, or loses some to it, and both lengths
/// say so: another source, and all else sound.
fn move_source_and_repair(packet: &mut Vec<u8>, noise: &mut Noise) {
    let both = packet.len() - 12;
    let prefix = noise.below(both.min(15) + 1);
    packet[8] = packet[8] & 0xF0 | prefix as u8;
    set_length(packet, both - prefix);
    repair(packet);
}

/// The CRC as other readings of the standard would have it.
fn write_crc_another_way(packet: &mut Vec<u8>, noise: &mut Noise) {
    let body = packet.len() - 2;
    let right = crc(&packet[..body]);
    let others = [
        right.swap_bytes(),
        !right,
        right.reverse_bits(),
        0,
        0xFFFF,
        crc(&packet[..10]),
        crc(&packet[1..body]),
    ];
    packet[body..].copy_from_slice(&noise.one_of(&others).to_be_bytes());
}
