//! A node of one channel with what it lends, for the tests beside this.
#![allow(dead_code)] // each test uses a part of it

use proved::record::{direction, state, LINES};
use proved::{calls, storage, Addresses, Channel, Limits, Node, Said, Settings};

pub const HOST: Node = Node {
    address: 64,
    protocol: 238,
};
pub const STATION: Node = Node {
    address: 65,
    protocol: 238,
};
pub const LIMITS: Limits = Limits {
    window: 4,
    slots: 8,
    payload: 16,
    segments: 3,
    timeout: 5,
    closing: 7,
    retries: 2,
    interval: 0,
    flow: 0,
    spare: 0,
    lead: 0,
};

/// What untouched octets of a buffer hold.
const UNTOUCHED: u8 = 0xEE;

pub struct End {
    pub node: Node,
    pub table: [Channel; 1],
    pub memory: Vec<u8>,
    pub lengths: Vec<u16>,
    pub lines: Vec<u8>,
}

impl End {
    /// As settings make it, without prefixes.
    pub fn made(node: Node, remote: Node, direction: u8, limits: Limits) -> Self {
        let addresses = Addresses {
            channel: 0x0102,
            remote: remote.address,
            direction,
            ..Addresses::default()
        };
        End::of(node, Settings { addresses, limits })
    }

    /// As these settings make it.
    pub fn of(node: Node, settings: Settings) -> Self {
        let (octets, lengths) = storage(&[settings]);
        let mut end = End {
            node,
            table: [Channel::blank()],
            memory: vec![0; octets],
            lengths: vec![0; lengths],
            lines: vec![255; LINES],
        };
        let said = calls::settings(
            &mut end.table,
            &end.memory,
            &end.lengths,
            &mut end.lines,
            &[settings],
        );
        assert_eq!(said, unserved(0));
        end
    }

    /// After an Open directive.
    pub fn enabled(node: Node, remote: Node, direction: u8, limits: Limits) -> Self {
        let mut end = End::made(node, remote, direction, limits);
        assert_eq!(end.open(), done(0, 0));
        end
    }

    pub fn record(&mut self) -> &mut Channel {
        &mut self.table[0]
    }

    pub fn open(&mut self) -> Said {
        calls::open(
            &mut self.table,
            &mut self.memory,
            &mut self.lengths,
            &mut self.lines,
            0,
        )
    }

    pub fn close(&mut self) -> Said {
        calls::close(
            &mut self.table,
            &mut self.memory,
            &mut self.lengths,
            &mut self.lines,
            0,
        )
    }

    pub fn tick(&mut self) -> Said {
        calls::tick(
            &mut self.table,
            &self.memory,
            &self.lengths,
            &mut self.lines,
        )
    }

    pub fn transfer(&mut self, unit: &[u8]) -> Said {
        let (memory, lengths, lines) = (&mut self.memory, &mut self.lengths, &mut self.lines);
        calls::transfer(&mut self.table, memory, lengths, lines, 0, unit)
    }

    /// The answer, and the unit.
    pub fn take(&mut self) -> (Said, Vec<u8>) {
        let mut out = [UNTOUCHED; 64];
        let (memory, lengths, lines) = (&mut self.memory, &mut self.lengths, &mut self.lines);
        let said = calls::take(&mut self.table, memory, lengths, lines, 0, &mut out);
        (said, written(&out, said))
    }

    /// The answer, and the unit.
    pub fn reclaim(&mut self) -> (Said, Vec<u8>) {
        let mut out = [UNTOUCHED; 64];
        let (memory, lengths, lines) = (&mut self.memory, &mut self.lengths, &mut self.lines);
        let said = calls::reclaim(&mut self.table, memory, lengths, lines, 0, &mut out);
        (said, written(&out, said))
    }

    /// The answer, and the packet that goes out next.
    pub fn next(&mut self) -> (Said, Vec<u8>) {
        let mut out = [UNTOUCHED; 64];
        let (memory, lengths, lines) = (&mut self.memory, &mut self.lengths, &mut self.lines);
        let said = calls::next_packet(&mut self.table, memory, lengths, lines, self.node, &mut out);
        (said, written(&out, said))
    }

    /// The packet that goes out next; there is one.
    pub fn packet(&mut self) -> Vec<u8> {
        let (said, packet) = self.next();
        assert_eq!(said, done(packet.len(), 0));
        packet
    }

    /// What a packet is answered, and the reply.
    pub fn arrival(&mut self, packet: &[u8]) -> (Said, Vec<u8>) {
        let mut reply = [UNTOUCHED; 30];
        let (table, memory) = (&mut self.table, &mut self.memory);
        let (lengths, lines) = (&mut self.lengths, &mut self.lines);
        let said = calls::arrival(table, memory, lengths, lines, self.node, packet, &mut reply);
        (said, written(&reply, said))
    }
}

/// The octets written; those past them are untouched.
fn written(buffer: &[u8], said: Said) -> Vec<u8> {
    let (front, past) = buffer.split_at(said.written());
    assert!(past.iter().all(|octet| *octet == UNTOUCHED));
    front.to_vec()
}

/// Done by the one channel.
pub fn done(length: usize, confirmed: usize) -> Said {
    Said {
        length,
        confirmed,
        ..Said::default()
    }
}

/// Refused by the one channel.
pub fn refused(number: u32) -> Said {
    Said {
        number,
        ..Said::default()
    }
}

/// Answered where no channel was served: the index is the count of records.
pub fn unserved(number: u32) -> Said {
    Said {
        number,
        index: 1,
        ..Said::default()
    }
}

/// A host and a station with an open channel from the one to the other.
pub fn both_open(limits: Limits) -> (End, End) {
    let mut host = End::enabled(HOST, STATION, direction::SENDS, limits);
    let mut station = End::enabled(STATION, HOST, direction::RECEIVES, limits);
    let (said, ack) = station.arrival(&host.packet());
    // With Flow Control the Ack states a number.
    assert_eq!(said, done(12 + usize::from(limits.flow), 0));
    assert_eq!(host.arrival(&ack), (done(0, 0), vec![]));
    assert_eq!(host.record().phase.state, state::OPEN);
    assert_eq!(station.record().phase.state, state::OPEN);
    (host, station)
}
