//! Heartbeats and their Acks that arrive (document 02, A2): where they are answered,
//! and the room that the reply needs.

mod beats;
mod ends;

use beats::{ack, both, next, packet_for, ticks, CLOSE, HEARTBEAT, HEARTBEAT_ACK, LIVELY};
use ends::{done, refused, End, HOST, LIMITS, STATION};
use proved::record::{direction, state};
use proved::{calls, Addresses, Prefix, Pulse, Said, Settings};

/// Both ends answer in OPEN, whatever the number, also where they make none themselves;
/// in any other state 5.
#[test]
fn a_heartbeat_is_answered() {
    for mut end in both(LIMITS) {
        let (own, remote) = (end.node.address, end.record().addresses.remote);
        for number in [0, 1, 255] {
            let heartbeat = packet_for(&mut end, HEARTBEAT, number);
            let (said, reply) = end.arrival(&heartbeat);
            assert_eq!(said, done(12, 0));
            assert_eq!(reply[..10], [remote, 238, 0x5D, 0, 0, 1, 2, number, 0, own]);
        }
        end.record().phase.state = state::CLOSED;
        for kind in [HEARTBEAT, HEARTBEAT_ACK] {
            let packet = packet_for(&mut end, kind, 0);
            assert_eq!(end.arrival(&packet), (refused(5), vec![]));
        }
    }
}

/// In ENABLED and CLOSING 5, too; CLOSING leaves the Heartbeat behind.
#[test]
fn only_open_has_heartbeats() {
    let mut host = End::enabled(HOST, STATION, direction::SENDS, LIVELY);
    let mut station = End::enabled(STATION, HOST, direction::RECEIVES, LIVELY);
    for end in [&mut host, &mut station] {
        ticks(end, 9);
        let heartbeat = packet_for(end, HEARTBEAT, 0);
        assert_eq!(end.arrival(&heartbeat).0, refused(5));
        assert_eq!(end.record().pulse, Pulse::default());
    }
    let [mut host, mut station] = both(LIVELY);
    for end in [&mut host, &mut station] {
        ticks(end, 3);
        assert_eq!(next(end), Some(HEARTBEAT));
    }
    assert_eq!(host.close(), done(0, 0));
    let close = packet_for(&mut station, CLOSE, 0);
    assert_eq!(station.arrival(&close).0, done(12, 0));
    for end in [&mut host, &mut station] {
        assert_eq!(end.record().pulse, Pulse::default());
        assert_eq!(ack(end), refused(5));
    }
    assert_eq!((next(&mut host), next(&mut station)), (Some(CLOSE), None));
}

/// The answer with so much room for a reply, of which nothing is written.
fn arrival_in(end: &mut End, packet: &[u8], room: usize) -> Said {
    let mut reply = vec![0xEE; room];
    let (table, memory) = (&mut end.table, &mut end.memory);
    let (lengths, lines) = (&mut end.lengths, &mut end.lines);
    let said = calls::arrival(table, memory, lengths, lines, end.node, packet, &mut reply);
    assert_eq!(reply, vec![0xEE; room]);
    said
}

/// 11 + N octets are too few for the reply to a Heartbeat; its Ack needs 12.
#[test]
fn a_reply_buffer_of_11_and_n() {
    let addresses = Addresses {
        channel: 0x0102,
        remote: HOST.address,
        direction: direction::RECEIVES,
        own_prefix: Prefix::of(&[1, 2, 3]).expect("not over 15"),
        ..Addresses::default()
    };
    let limits = LIVELY;
    let mut station = End::of(STATION, Settings { addresses, limits });
    station.open();
    let small = |length, index| Said {
        number: 11,
        length,
        index,
        ..Said::default()
    };
    let heartbeat = packet_for(&mut station, HEARTBEAT, 0);
    assert_eq!(arrival_in(&mut station, &heartbeat, 11), small(12, 1));
    assert_eq!(arrival_in(&mut station, &heartbeat, 14), small(15, 0));
    assert_eq!(arrival_in(&mut station, &heartbeat, 15), refused(5));
    station.record().phase.state = state::OPEN;
    assert_eq!(arrival_in(&mut station, &heartbeat, 14), small(15, 0));
    let (said, reply) = station.arrival(&heartbeat);
    assert_eq!((said, &reply[8..13]), (done(15, 0), &[3, 1, 2, 3, 65][..]));
    let ack = packet_for(&mut station, HEARTBEAT_ACK, 0);
    assert_eq!(arrival_in(&mut station, &ack, 11), small(12, 1));
    assert_eq!(arrival_in(&mut station, &ack, 12), refused(16));
}
