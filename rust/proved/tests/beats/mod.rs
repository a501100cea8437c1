//! What the tests of Heartbeats and of Flow Control share: packets for an end, and what
//! it hands out.
#![allow(dead_code)] // each test uses a part of it

use crate::ends::{both_open, unserved, End, LIMITS};
use proved::record::reason;
use proved::{write_packet, Addresses, Fields, Limits, Said};

/// Packet types.
pub const DATA: u8 = 0;
pub const DATA_ACK: u8 = 1;
pub const OPEN: u8 = 2;
pub const CLOSE: u8 = 3;
pub const HEARTBEAT: u8 = 4;
pub const HEARTBEAT_ACK: u8 = 5;
pub const FLOW_CONTROL: u8 = 6;
pub const CONTROL_ACK: u8 = 7;

pub const LIVELY: Limits = Limits {
    timeout: 2,
    retries: 1,
    interval: 3,
    ..LIMITS
};

/// The one channel went inactive by its Heartbeat.
pub const UNANSWERED: Said = Said {
    number: 9,
    reason: reason::UNANSWERED as u32,
    length: 0,
    confirmed: 0,
    index: 0,
};

/// Both ends of an open channel.
pub fn both(limits: Limits) -> [End; 2] {
    let (host, station) = both_open(limits);
    [host, station]
}

/// A packet of this type for an end, from the other.
pub fn packet_for(end: &mut End, kind: u8, number: u8) -> Vec<u8> {
    packet_with(end, kind, number, &[])
}

/// The same, with a payload.
pub fn packet_with(end: &mut End, kind: u8, number: u8, payload: &[u8]) -> Vec<u8> {
    let Addresses {
        channel,
        remote,
        remote_prefix,
        ..
    } = end.record().addresses;
    let fields = Fields {
        destination: end.node.address,
        protocol: end.node.protocol,
        version: 1,
        flags: 3,
        kind,
        channel,
        number,
        source: remote,
        ..Fields::default()
    };
    let mut packet = vec![0; 12 + remote_prefix.said().len() + payload.len()];
    let writing = write_packet(fields, remote_prefix.said(), payload, &mut packet);
    assert_eq!((writing.answer, writing.length), (0, packet.len()));
    packet
}

/// What a Heartbeat Ack is answered.
pub fn ack(end: &mut End) -> Said {
    let ack = packet_for(end, HEARTBEAT_ACK, 0);
    let (said, reply) = end.arrival(&ack);
    assert!(reply.is_empty());
    said
}

/// The type of the packet that goes out next, if one does.
pub fn next(end: &mut End) -> Option<u8> {
    let (said, packet) = end.next();
    assert!([0, 12].contains(&said.number));
    packet.get(2).map(|control| control & 0b111)
}

/// So many ticks in which nothing goes inactive.
pub fn ticks(end: &mut End, count: usize) {
    for _ in 0..count {
        assert_eq!(end.tick(), unserved(0));
    }
}
