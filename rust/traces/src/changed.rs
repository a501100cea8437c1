//! Traces that something happened to.

// All are of one type, also those that leave the length as it is.
#![allow(clippy::ptr_arg)]

use link::Noise;

use crate::packet::crc;

/// Where the seeds of these inputs start.
const SEED: u64 = 0xC4A9_0000;

/// One thing that may happen to an input; the other input may be drawn upon.
type Change = fn(&mut Vec<u8>, &[u8], &mut Noise);

const CHANGES: [Change; 12] = [
    flip_bits,
    change_octet,
    drop_octets,
    insert_octets,
    cut,
    drop_record,
    repeat_record,
    swap_records,
    change_packet,
    prefix_packet,
    go_on_with_other,
    mix_with_other,
];

/// The changed trace with this number, always the same.
pub fn input(traces: &[Vec<u8>], place: u64) -> Vec<u8> {
    let noise = &mut Noise::new(SEED + place);
    let mut octets = traces[place as usize % traces.len()].clone();
    for _ in 0..=noise.below(3) {
        let other = &traces[noise.below(traces.len())];
        let change = noise.one_of(&CHANGES);
        if !octets.is_empty() {
            change(&mut octets, other, noise);
        }
    }
    octets
}

/// The octets of each record; the last may be cut.
fn records(mut octets: &[u8]) -> Vec<Vec<u8>> {
    let mut records = Vec::new();
    while !octets.is_empty() {
        let length = match octets {
            [low, high, ..] => 4 + usize::from(u16::from_le_bytes([*low, *high])),
            _ => 4,
        };
        let (record, rest) = octets.split_at(length.min(octets.len()));
        records.push(record.to_vec());
        octets = rest;
    }
    records
}

fn flip_bits(octets: &mut Vec<u8>, _: &[u8], noise: &mut Noise) {
    for _ in 0..=noise.below(4) {
        let place = noise.below(octets.len());
        octets[place] ^= 1 << noise.below(8);
    }
}

fn change_octet(octets: &mut Vec<u8>, _: &[u8], noise: &mut Noise) {
    let place = noise.below(octets.len());
    octets[place] = noise.octet();
}

fn drop_octets(octets: &mut Vec<u8>, _: &[u8], noise: &mut Noise) {
    let place = noise.below(octets.len());
    let end = octets.len().min(place + 1 + noise.below(6));
    octets.drain(place..end);
}

fn insert_octets(octets: &mut Vec<u8>, _: &[u8], noise: &mut Noise) {
    let place = noise.below(octets.len());
    let count = 1 + noise.below(6);
    octets.splice(place..place, noise.octets(count));
}

fn cut(octets: &mut Vec<u8>, _: &[u8], noise: &mut Noise) {
    octets.truncate(noise.below(octets.len()));
}

fn drop_record(octets: &mut Vec<u8>, _: &[u8], noise: &mut Noise) {
    let mut records = records(octets);
    records.remove(noise.below(records.len()));
    *octets = records.concat();
}

fn repeat_record(octets: &mut Vec<u8>, _: &[u8], noise: &mut Noise) {
    let mut records = records(octets);
    let record = records[noise.below(records.len())].clone();
    records.insert(noise.below(records.len()), record);
    *octets = records.concat();
}

fn swap_records(octets: &mut Vec<u8>, _: &[u8], noise: &mut Noise) {
    let mut records = records(octets);
    let (one, other) = (noise.below(records.len()), noise.below(records.len()));
    records.swap(one, other);
    *octets = records.concat();
}

/// Changes a header field of a packet, and makes its check sum right again.
fn change_packet(octets: &mut Vec<u8>, _: &[u8], noise: &mut Noise) {
    with_packet(octets, noise, |packet, noise| {
        let place = noise.below(10);
        packet[place] = match noise.below(3) {
            0 => packet[place] ^ 1 << noise.below(8),
            1 => packet[place].wrapping_add(1),
            _ => packet[place].wrapping_sub(1),
        };
    });
}

/// Gives a packet a prefix, and makes its check sum right again.
fn prefix_packet(octets: &mut Vec<u8>, _: &[u8], noise: &mut Noise) {
    with_packet(octets, noise, |packet, noise| {
        let count = 1 + noise.below(15);
        packet[8] = count as u8;
        packet.splice(9..9, noise.octets(count));
    });
}

/// Does something to one of the packets, which does not make it shorter, and makes
/// its check sum right again.
fn with_packet(
    octets: &mut Vec<u8>,
    noise: &mut Noise,
    change: impl FnOnce(&mut Vec<u8>, &mut Noise),
) {
    let mut records = records(octets);
    let packets: Vec<usize> = (0..records.len())
        .filter(|place| records[*place].len() >= 16 && records[*place][2..4] == [1, 0])
        .collect();
    if packets.is_empty() {
        return;
    }
    let record = &mut records[noise.one_of(&packets)];
    let old = record.len();
    let mut packet = record.split_off(4);
    packet.truncate(packet.len() - 2);
    change(&mut packet, noise);
    packet.extend(crc(&packet).to_be_bytes());
    record.append(&mut packet);
    let longer = (record.len() - old) as u16;
    let length = u16::from_le_bytes([record[0], record[1]]).saturating_add(longer);
    record[..2].copy_from_slice(&length.to_le_bytes());
    *octets = records.concat();
}

/// Stops somewhere, and goes on with the other from the start or the middle.
fn go_on_with_other(octets: &mut Vec<u8>, other: &[u8], noise: &mut Noise) {
    let mut first = records(octets);
    let second = records(other);
    first.truncate(noise.below(first.len()));
    let from = noise.below(second.len() + 1) * noise.below(2);
    first.extend_from_slice(&second[from..]);
    *octets = first.concat();
}

/// The records of both, each in their order.
fn mix_with_other(octets: &mut Vec<u8>, other: &[u8], noise: &mut Noise) {
    let mut first = records(octets).into_iter().peekable();
    let mut second = records(other).into_iter().peekable();
    octets.clear();
    while first.peek().is_some() || second.peek().is_some() {
        let record = if noise.one_in(2) {
            first.next()
        } else {
            second.next()
        };
        octets.extend(record.into_iter().flatten());
    }
}
