//! Random calls of all kinds, most of which make no sense.

use std::collections::BTreeSet;

use link::Noise;
use peer::answer::Answer;
use peer::crc::crc;
use peer::node::Node;
use peer::packet::{flags, kind};
use peer::prefix::Prefix;
use peer::settings::{Direction, Settings};
use peer::state::{Reason, State};

use crate::calls::{behind, checked, data, new_node, prefix, ADDRESSES};

/// The directions of the channels. A channel's number is its index.
const ENDS: [Direction; 4] = [
    Direction::Sending,
    Direction::Receiving,
    Direction::Receiving,
    Direction::Sending,
];

/// A table of four channels with small windows, and these remote prefixes.
fn table(noise: &mut Noise, prefixes: &[Prefix; 4]) -> Vec<Settings> {
    let settings = |index: usize| {
        let window = noise.one_of(&[1, 2, 4, 8]);
        let slots = window + noise.below(6) as u32;
        Settings {
            direction: ENDS[index],
            channel: index as u16,
            remote: ADDRESSES[1],
            remote_prefix: prefixes[index],
            own_prefix: prefix(noise),
            window,
            slots,
            most_payload: 1 + noise.below(5) as u32,
            most_segments: 1 + noise.below(slots as usize) as u32,
            timeout: 1 + noise.below(4) as u32,
            close_timeout: 1 + noise.below(4) as u32,
            retries: noise.below(3) as u32,
            interval: noise.below(4) as u32,
            flow: noise.below(2) as u32,
            spare: 0,
            lead: 0,
        }
    };
    [0, 1, 2, 3].map(settings).to_vec()
}

/// A node and what is likely to make sense to it.
struct Player {
    node: Node,
    noise: Noise,
    /// The remote prefix of each channel.
    prefixes: [Prefix; 4],
    /// Whether each channel uses Flow Control.
    flows: [bool; 4],
    /// The number of the last Data, Control or Ack of these that each channel accepted.
    accepted: [u8; 4],
}

impl Player {
    fn new(seed: u64) -> Player {
        let mut noise = Noise::new(seed);
        let prefixes = [(); 4].map(|()| prefix(&mut noise));
        let table = table(&mut noise, &prefixes);
        let node = new_node(0, &table, &mut noise);
        Player {
            node,
            noise,
            prefixes,
            flows: [0, 1, 2, 3].map(|index: usize| table[index].flow == 1),
            accepted: [0; 4],
        }
    }

    /// A packet that is good but for its place in the exchange; rarely another
    /// octet is wrong, too.
    fn packet(&mut self) -> Vec<u8> {
        let noise = &mut self.noise;
        let kind = kind_of(noise);
        let channel = channel_for(kind, noise);
        let number = match noise.below(12) {
            0 => noise.octet(),
            1 | 2 => 0,
            3 | 4 => noise.below(9) as u8,
            _ => self.accepted[channel].wrapping_add(noise.below(3) as u8),
        };
        let region = match noise.percent(97) {
            true => self.prefixes[channel],
            false => prefix(noise),
        };
        let channel = channel as u16;
        let packet = if kind == kind::DATA {
            let length = noise.below(6);
            let all = [flags::WHOLE, flags::FIRST, flags::LAST, flags::CONTINUATION];
            let flags = all[noise.below(4).min(noise.below(4)).min(noise.below(4))];
            let least = usize::from(flags < flags::LAST);
            let payload = noise.octets(length.max(least));
            data(0, channel, kind, number, flags, &payload)
        } else {
            let named = kind == kind::DATA_ACK || kind == kind::FLOW_CONTROL || noise.percent(3);
            let number = if named { number } else { 0 };
            let stated = self.stated(kind, usize::from(channel), number);
            data(0, channel, kind, number, flags::WHOLE, stated.as_slice())
        };
        let noise = &mut self.noise;
        let mut packet = behind(&region, &packet);
        if noise.percent(4) {
            spoil(&mut packet, noise);
        }
        packet
    }

    /// The number that a packet of this kind and number states, mostly if it should: one
    /// that lets the other end send a little, or any.
    fn stated(&mut self, kind: u8, channel: usize, number: u8) -> Option<u8> {
        let noise = &mut self.noise;
        let should = match kind {
            kind::DATA_ACK | kind::CONTROL_ACK => self.flows[channel],
            kind::FLOW_CONTROL => ENDS[channel] == Direction::Sending,
            _ => return None,
        };
        let stated = match noise.percent(90) {
            true => number.wrapping_add(noise.below(10) as u8),
            false => noise.octet(),
        };
        (should != noise.percent(3)).then_some(stated)
    }

    /// One random call; gives its answer number.
    fn call(&mut self) -> u8 {
        let index = self.noise.below(4) + usize::from(self.noise.percent(1));
        let small = self.noise.percent(5);
        let buffer = if small { self.noise.below(30) } else { 128 };
        let choice = self.noise.below(20);
        let length = self.noise.below(40).min(self.noise.below(40));
        let octets = match choice {
            0..=9 => self.packet(),
            _ => self.noise.octets(length),
        };
        let (memory, lengths) = (self.node.memory().to_vec(), self.node.lengths().to_vec());
        let before = self.node.clone();
        let (answer, _) = checked(&mut self.node, buffer, |node, out| match choice {
            0..=9 => node.arrival(&octets, out),
            10 | 11 => node.open(index),
            12 => node.close(index),
            13 | 14 => node.transfer(index, &octets),
            15 => node.take(index, out),
            16 => node.reclaim(index, out),
            17 => node.tick(),
            _ => node.next_packet(out),
        });
        if !matches!(choice, 0..=9 | 13 | 14) {
            assert!(memory == self.node.memory() && lengths == self.node.lengths());
        }
        if let (0..=9, 0, Some(index)) = (choice, answer.number, answer.index) {
            self.note(index, &octets);
        }
        match choice {
            17 => self.check_tick(&before, answer),
            _ => self.check_others(&before, answer),
        }
        if let 13 | 14 = choice {
            assert_eq!(before.would_transfer(index, octets.len()), answer);
        }
        answer.number
    }

    /// A channel has accepted this packet.
    fn note(&mut self, index: usize, packet: &[u8]) {
        let others = [kind::HEARTBEAT, kind::HEARTBEAT_ACK, kind::FLOW_CONTROL];
        if !others.contains(&(packet[2] & 0b111)) {
            self.accepted[index] = packet[7];
        }
    }

    /// "an arrival or request reads and changes its own channel alone", the one
    /// that the answer names.
    fn check_others(&self, before: &Node, answer: Answer) {
        for index in (0..4).filter(|&index| answer.index != Some(index)) {
            assert_eq!(self.node.state(index), before.state(index));
            assert_eq!(self.node.sight(index), before.sight(index));
        }
    }

    /// The answer names the lowest of the channels that went inactive.
    fn check_tick(&self, before: &Node, answer: Answer) {
        let went = |&index: &usize| {
            before.reason(index) == Some(Reason::None)
                && self.node.reason(index) != Some(Reason::None)
        };
        assert_eq!(answer.index, (0..4).find(went));
        assert_eq!(answer.number == 9, answer.index.is_some());
    }

    /// A reason stands in CLOSED alone, and each direction has its own but for the
    /// Heartbeat, and but for the retries where a receive end uses Flow Control.
    fn check(&self) {
        for index in 0..4 {
            let sending = self.node.direction(index) == Some(Direction::Sending);
            match self.node.reason(index).unwrap() {
                Reason::None => continue,
                Reason::Heartbeat => {}
                Reason::Retries => assert!(sending || self.flows[index]),
                _ => assert!(!sending),
            }
            assert_eq!(self.node.state(index), Some(State::Closed));
        }
    }
}

/// The kind of a packet: Data as often as all others together.
fn kind_of(noise: &mut Noise) -> u8 {
    match noise.percent(50) {
        true => kind::DATA,
        false => noise.one_of(&[1, 2, 3, 4, 5, 6, 7]),
    }
}

/// A channel that packets of this kind are for; rarely any.
fn channel_for(kind: u8, noise: &mut Noise) -> usize {
    match kind {
        _ if noise.percent(3) => noise.below(4),
        kind::HEARTBEAT | kind::HEARTBEAT_ACK | kind::FLOW_CONTROL => noise.below(4),
        kind::DATA_ACK | kind::CONTROL_ACK => noise.one_of(&[0, 3]),
        _ => noise.one_of(&[1, 2]),
    }
}

/// Another octet somewhere, and mostly a trailer that fits it.
fn spoil(packet: &mut [u8], noise: &mut Noise) {
    let body = packet.len() - 2;
    packet[noise.below(body)] = noise.octet();
    if noise.percent(80) {
        let trailer = crc(&packet[..body]).to_be_bytes();
        packet[body..].copy_from_slice(&trailer);
    }
}

/// All answers but 13 are given, and whatever is refused changes nothing.
#[test]
fn random_calls() {
    let mut seen = BTreeSet::new();
    let mut reasons = Vec::new();
    for seed in 0..60 {
        let mut player = Player::new(1_000 + seed);
        for _ in 0..3_000 {
            seen.insert(player.call());
            player.check();
            let index = player.noise.below(4);
            let reason = player.node.reason(index).unwrap();
            if !reasons.contains(&reason) {
                reasons.push(reason);
            }
        }
    }
    let all: BTreeSet<u8> = (0..=16).filter(|&number| number != 13).collect();
    assert_eq!(seen, all);
    assert_eq!(reasons.len(), 7);
}
