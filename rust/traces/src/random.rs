//! Inputs made by chance: octets, records, and calls that make sense.

use link::Noise;

use crate::packet::{
    Packet, CLOSE, CONTROL_ACK, DATA, DATA_ACK, FLOW_CONTROL, HEARTBEAT, HEARTBEAT_ACK, NUMBERS,
    OPEN,
};
use crate::record::Record;

/// Where the seeds of these inputs start.
const SEED: u64 = 0x5EED_0000;

/// The flags of segments by number, from 0: units of 1, 2, 1 and 4 segments over
/// and over, from segment 1 on.
const UNITS: [u8; 8] = [0b10, 0b11, 0b01, 0b10, 0b11, 0b01, 0b00, 0b00];

/// One in so many inputs is long.
const LONG: u64 = 60;

/// The input with this number, always the same: octets, records and calls take
/// turns.
pub fn input(place: u64) -> Vec<u8> {
    let noise = &mut Noise::new(SEED + place);
    let size = if place % LONG < 3 { 4_000 } else { 250 };
    let count = noise.below(size);
    match place % 3 {
        0 => noise.octets(8 * count),
        1 => records(noise, count),
        _ => calls(noise, count),
    }
}

/// Records with heads that fit and bodies that need not; the last may be cut.
fn records(noise: &mut Noise, count: usize) -> Vec<u8> {
    let mut octets = Vec::new();
    for _ in 0..count {
        let kind = noise.below(10) as u8;
        let length = noise.one_of(&[0, 1, 1, 2, 12, 40]);
        octets.extend([length, 0, kind, u8::from(noise.one_in(50))]);
        let mut body = noise.octets(length.into());
        if let Some(index) = body.first_mut().filter(|_| kind != 1) {
            *index %= 3;
        }
        octets.extend(body);
    }
    let less = noise.below(4) * noise.below(8);
    octets.truncate(octets.len().saturating_sub(less));
    octets
}

/// What a host and a station would do that guess at the node's state and are
/// wrong at times.
fn calls(noise: &mut Noise, count: usize) -> Vec<u8> {
    let mut guess = Guess {
        patience: noise.one_of(&[1, 4, 30]),
        ..Guess::default()
    };
    let mut octets = [guess.reopened_sender(), guess.reopened_receiver()].concat();
    for _ in 0..count {
        octets.extend(guess.call(noise));
    }
    octets
}

/// What the next numbers may be.
#[derive(Default)]
struct Guess {
    /// The next Data for channel 1.
    data: u8,
    /// The next ack for channel 0.
    ack: u8,
    /// The station takes a unit once in so many times that it could.
    patience: usize,
}

impl Guess {
    fn call(&mut self, noise: &mut Noise) -> Vec<u8> {
        match noise.below(80) {
            0..=1 => self.reopened_sender(),
            2..=3 => self.reopened_receiver(),
            4..=6 => lone(noise.one_of(&[0, 1, 2, 3, 4, 5, 6, 7]), noise),
            7 => request(noise.one_of(&["open", "close", "reclaim"]), noise.below(2)),
            8 => damaged(self.data(noise), noise),
            9..=34 => self.data(noise),
            35..=44 if noise.one_in(self.patience) => request("take", 1),
            45..=55 => self.acked(noise),
            56..=63 => transfer(noise),
            64..=67 => bare("tick"),
            _ => bare("next"),
        }
    }

    fn data(&mut self, noise: &mut Noise) -> Vec<u8> {
        let mut packet = Packet::new(DATA, NUMBERS);
        packet.payload = vec![0x41; noise.below(18)];
        packet.number = near(self.data, noise);
        packet.flags = UNITS[usize::from(packet.number) % UNITS.len()];
        packet.flags ^= u8::from(noise.one_in(100));
        if packet.number == self.data {
            self.data = self.data.wrapping_add(1);
        }
        arrival(&packet)
    }

    fn acked(&mut self, noise: &mut Noise) -> Vec<u8> {
        let mut packet = Packet::new(DATA_ACK, NUMBERS);
        packet.number = near(self.ack, noise);
        if packet.number == self.ack {
            self.ack = self.ack.wrapping_add(1);
        }
        arrival(&packet)
    }

    /// Closes and opens channel 0, whatever it holds.
    fn reopened_sender(&mut self) -> Vec<u8> {
        self.ack = 1;
        let answer = arrival(&Packet::new(CONTROL_ACK, NUMBERS));
        let closed = [request("close", 0), bare("next"), answer.clone()];
        let emptied = vec![request("reclaim", 0); 8];
        let opened = [request("open", 0), bare("next"), answer];
        [closed.concat(), emptied.concat(), opened.concat()].concat()
    }

    /// Closes and opens channel 1, whatever it holds.
    fn reopened_receiver(&mut self) -> Vec<u8> {
        self.data = 1;
        let closed = [
            arrival(&Packet::new(CLOSE, NUMBERS)),
            bare("tick").repeat(4),
        ];
        let emptied = vec![request("take", 1); 8];
        let opened = [request("open", 1), arrival(&Packet::new(OPEN, NUMBERS))];
        [closed.concat(), emptied.concat(), opened.concat()].concat()
    }
}

/// This number most times, else one not far from it.
fn near(number: u8, noise: &mut Noise) -> u8 {
    if noise.one_in(3) {
        number.wrapping_sub(4).wrapping_add(noise.below(8) as u8)
    } else if noise.one_in(60) {
        noise.octet()
    } else {
        number
    }
}

/// A record with one bit of its body changed.
fn damaged(mut record: Vec<u8>, noise: &mut Noise) -> Vec<u8> {
    let place = 4 + noise.below(record.len() - 4);
    record[place] ^= 1 << noise.below(8);
    record
}

/// A packet of any type with no payload, numbered 0 most times, and at times with
/// a prefix, which the replay's channels do not have, or with a secondary header. A
/// Heartbeat or its Ack may be for either channel. An Ack, Flow Control or its Ack may
/// have an octet or two.
fn lone(kind: u8, noise: &mut Noise) -> Vec<u8> {
    let mut packet = Packet::new(kind, NUMBERS);
    packet.number = u8::from(noise.one_in(8));
    if [HEARTBEAT, HEARTBEAT_ACK, FLOW_CONTROL].contains(&kind) && noise.one_in(2) {
        packet.channel = NUMBERS.sending;
    }
    if [DATA_ACK, FLOW_CONTROL, CONTROL_ACK].contains(&kind) && noise.one_in(2) {
        packet.payload = vec![0x04; noise.one_of(&[1, 1, 2])];
    }
    packet.secondary = u8::from(noise.one_in(8));
    if noise.one_in(4) {
        packet.prefix = vec![0; noise.one_of(&[1, 2, 14, 15])];
    }
    arrival(&packet)
}

fn transfer(noise: &mut Noise) -> Vec<u8> {
    let unit = vec![0x42; noise.below(68)];
    Record::new("transfer", vec![vec![0], unit]).octets()
}

fn arrival(packet: &Packet) -> Vec<u8> {
    Record::new("arrival", packet.fields()).octets()
}

fn request(name: &str, index: usize) -> Vec<u8> {
    Record::new(name, vec![vec![index as u8]]).octets()
}

fn bare(name: &str) -> Vec<u8> {
    Record::new(name, vec![]).octets()
}
