//! Channels to another region (document 02, A7), through the linked library: which
//! records are apart, whose packets are whose, and how much room is needed.

mod ends;

use ends::{done, refused, unserved, End, HOST, LIMITS, STATION};
use proved::record::{direction, LINES, PREFIX};
use proved::{calls, read_packet, storage, write_packet};
use proved::{Addresses, Channel, Fields, Node, Prefix, Said, Settings};

/// The prefix of the station as the host sees it.
const FAR: [u8; 2] = [7, 0];
/// The prefix of the host as the station sees it.
const NEAR: [u8; 3] = [1, 2, 3];

/// Data number 0 lies just behind a start of 1, and is acknowledged.
const BEHIND: Said = Said {
    number: 15,
    reason: 0,
    length: 14,
    confirmed: 0,
    index: 0,
};

/// Of one end of a channel: what the other is behind, and what it is behind itself.
fn settings(remote: Node, direction: u8, remote_prefix: &[u8], own_prefix: &[u8]) -> Settings {
    let addresses = Addresses {
        channel: 0x0102,
        remote: remote.address,
        direction,
        remote_prefix: Prefix::of(remote_prefix).expect("not over 15"),
        own_prefix: Prefix::of(own_prefix).expect("not over 15"),
    };
    let limits = LIMITS;
    Settings { addresses, limits }
}

/// Both ends after an Open directive.
fn both_enabled() -> (End, End) {
    let of_host = settings(STATION, direction::SENDS, &FAR, &NEAR);
    let of_station = settings(HOST, direction::RECEIVES, &NEAR, &FAR);
    let (mut host, mut station) = (End::of(HOST, of_host), End::of(STATION, of_station));
    assert_eq!([host.open(), station.open()], [done(0, 0); 2]);
    (host, station)
}

/// Both ends with an open channel.
fn both_open() -> (End, End) {
    let (mut host, mut station) = both_enabled();
    let (said, ack) = station.arrival(&host.packet());
    assert_eq!(said, done(14, 0));
    assert_eq!(host.arrival(&ack), (done(0, 0), vec![]));
    (host, station)
}

/// 11, so many octets wanted, by the one channel.
fn small(wanted: usize) -> Said {
    Said {
        length: wanted,
        ..refused(11)
    }
}

/// What a packet is answered with so much room for a reply, and nothing changes.
fn arrival_in(end: &mut End, packet: &[u8], room: usize) -> Said {
    let before = *end.record();
    let mut reply = vec![0xEE; room];
    let (table, memory) = (&mut end.table, &mut end.memory);
    let said = calls::arrival(
        table,
        memory,
        &mut end.lengths,
        &mut end.lines,
        end.node,
        packet,
        &mut reply,
    );
    assert!(said.number != 11 || *end.record() == before && reply == vec![0xEE; room]);
    said
}

/// The packet as it would come from behind this prefix.
fn behind(prefix: &[u8], packet: &[u8]) -> Vec<u8> {
    let reading = read_packet(packet);
    let payload = &packet[reading.start..][..reading.length];
    written(reading.fields, prefix, payload)
}

/// A packet that can be written.
fn written(fields: Fields, prefix: &[u8], payload: &[u8]) -> Vec<u8> {
    let mut out = vec![0; 12 + prefix.len() + payload.len()];
    let writing = write_packet(fields, prefix, payload, &mut out);
    assert_eq!((writing.answer, writing.length), (0, out.len()));
    out
}

/// What settings for these records are answered.
fn settings_of(asked: &[Settings]) -> u32 {
    let mut table = vec![Channel::blank(); asked.len()];
    let (octets, lengths) = storage(asked);
    let (memory, lengths, mut lines) = (vec![0; octets], vec![0; lengths], [0; LINES]);
    calls::settings(&mut table, &memory, &lengths, &mut lines, asked).number
}

#[test]
fn which_records_are_apart() {
    let with = |remote: &[u8], own: &[u8]| settings(STATION, direction::SENDS, remote, own);
    let apart = [&[][..], &[0], &[0, 0], &[7], &[7, 0], &[0; 14], &[0; 15]];
    assert_eq!(settings_of(&apart.map(|prefix| with(prefix, &NEAR))), 0);
    for prefix in apart {
        let others = [with(prefix, &NEAR), with(prefix, &FAR)];
        assert_eq!(settings_of(&others), 13);
        assert_eq!(settings_of(&[others[0], with(&[9; 3], prefix)]), 0);
        let turned = |remote: &[u8]| settings(STATION, direction::RECEIVES, remote, &FAR);
        assert_eq!(settings_of(&[others[0], turned(prefix)]), 13);
        assert_eq!(settings_of(&[others[0], turned(&[9; 3])]), 0);
    }
}

#[test]
fn a_unit_to_another_region() {
    let (mut host, mut station) = both_open();
    assert_eq!(host.transfer(b"fan 3"), done(0, 0));
    let packet = host.packet();
    assert_eq!(packet[..5], [65, 238, 0x58, 0, 5]);
    assert_eq!(packet[5..13], [1, 2, 1, 3, 1, 2, 3, 64]);
    assert_eq!(packet[13..18], *b"fan 3");
    let (said, ack) = station.arrival(&packet);
    assert_eq!(said, done(14, 0));
    assert_eq!(ack[5..12], [1, 2, 1, 2, 7, 0, 65]);
    assert_eq!(station.take(), (done(5, 0), b"fan 3".to_vec()));
    assert_eq!(host.arrival(&ack), (done(0, 1), vec![]));
}

#[test]
fn packets_of_other_prefixes() {
    let (mut host, mut station) = both_open();
    host.transfer(b"fan 3");
    let packet = host.packet();
    for prefix in [&[][..], &[1], &[1, 2, 4], &[1, 2, 3, 0], &FAR, &[1; 15]] {
        let said = station.arrival(&behind(prefix, &packet)).0;
        assert_eq!(said, unserved(14));
    }
    let (said, ack) = station.arrival(&behind(&NEAR, &packet));
    assert_eq!(said, done(14, 0));
    assert_eq!(host.arrival(&behind(&NEAR, &ack)).0, unserved(14));
    assert_eq!(host.arrival(&ack).0, done(0, 1));
}

/// Under 12 octets nothing is looked at; 14 comes before the second test, and
/// payload over P and the state behind it. It goes by the packet's kind, whatever
/// would be answered.
#[test]
fn room_for_a_reply() {
    let (mut host, mut station) = both_enabled();
    let open = host.packet();
    let fields = read_packet(&open).fields;
    let data = Fields { kind: 0, ..fields };
    let cases = [
        (written(data, &NEAR, &[7; LIMITS.payload + 1]), refused(3)),
        (written(data, &NEAR, &[7; LIMITS.payload]), refused(5)),
        (open, done(14, 0)),
        (written(data, &NEAR, b"fan 3"), BEHIND),
    ];
    for (packet, said) in cases {
        let first = Said {
            length: 12,
            ..unserved(11)
        };
        assert_eq!(arrival_in(&mut station, &packet, 11), first);
        let stranger = behind(&FAR, &packet);
        assert_eq!(arrival_in(&mut station, &stranger, 12), unserved(14));
        assert_eq!(arrival_in(&mut station, &packet, 12), small(14));
        assert_eq!(arrival_in(&mut station, &packet, 13), small(14));
        assert_eq!(arrival_in(&mut station, &packet, 14), said);
    }
}

/// No reply is due to an Ack: 12 octets are enough.
#[test]
fn an_ack_needs_12() {
    let (mut host, mut station) = both_open();
    host.transfer(b"fan 3");
    let ack = station.arrival(&host.packet()).1;
    assert_eq!(arrival_in(&mut host, &ack, 11).number, 11);
    assert_eq!(arrival_in(&mut host, &ack, 12), done(0, 1));
    assert_eq!(arrival_in(&mut host, &ack, 12), refused(16));
}

#[test]
fn room_for_a_packet() {
    let (mut host, _) = both_open();
    host.transfer(b"fan 3");
    let mut out = [0xEE; 20];
    for room in [0, 12, 15, 19] {
        let (table, memory) = (&mut host.table, &mut host.memory);
        let out = &mut out[..room];
        let said = calls::next_packet(table, memory, &mut host.lengths, &mut host.lines, HOST, out);
        assert_eq!(said, small(20));
    }
    assert_eq!(out, [0xEE; 20]);
    assert_eq!(host.packet().len(), 20);
}

/// Every length that can be announced; one octet more is 4, before 3 and 11.
#[test]
fn a_packet_alone() {
    let octets: Vec<u8> = (1..=16).collect();
    let fields = Fields {
        version: 1,
        flags: 3,
        source: 65,
        ..Fields::default()
    };
    for count in 0..=PREFIX {
        let mut out = vec![0; 15 + count];
        let prefix = &octets[..count];
        assert_eq!(write_packet(fields, prefix, b"abc", &mut out).answer, 0);
        let reading = read_packet(&out);
        assert_eq!((reading.answer, reading.fields), (0, fields));
        assert_eq!((reading.prefix, reading.start), (count, 10 + count));
        assert_eq!(out[9..9 + count], *prefix);
        let short = write_packet(fields, prefix, b"abc", &mut out[1..]);
        assert_eq!((short.answer, short.length), (11, 15 + count));
    }
    let strange = Fields::default();
    assert_eq!(write_packet(strange, &octets[1..], b"", &mut []).answer, 3);
    assert_eq!(write_packet(strange, &octets, b"", &mut []).answer, 4);
}
