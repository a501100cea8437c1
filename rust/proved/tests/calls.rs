//! Every call of the node through the C interface: one unit goes from a host to a
//! station and is confirmed. What passes by value is looked at field by field: a
//! `Node` of two octets, which lies in every packet, and a `Said` of 32.

mod ends;

use ends::{both_open, done, refused, unserved, End, HOST, LIMITS, STATION};
use proved::record::{direction, reason, state};
use proved::{calls, Node, Said};

#[test]
fn one_unit_through() {
    let (mut host, mut station) = both_open(LIMITS);
    let unit = b"pump fan 3 stopped";
    assert_eq!(host.transfer(unit), done(0, 0));
    for (confirmed, length) in [(0, 28), (1, 14)] {
        let packet = host.packet();
        assert_eq!(packet.len(), length);
        let (said, ack) = station.arrival(&packet);
        assert_eq!(said, done(12, 0));
        assert_eq!(host.arrival(&ack), (done(0, confirmed), vec![]));
    }
    assert_eq!(station.take(), (done(18, 0), unit.to_vec()));
    assert_eq!(station.take().0, refused(12));
}

#[test]
fn several_units_confirmed_by_one_ack() {
    let (mut host, mut station) = both_open(LIMITS);
    for unit in [b"a", b"b", b"c"] {
        assert_eq!(host.transfer(unit), done(0, 0));
    }
    let packets = [host.packet(), host.packet(), host.packet()];
    let acks = packets.map(|packet| station.arrival(&packet).1);
    assert_eq!(host.arrival(&acks[2]).0, done(0, 0));
    assert_eq!(host.arrival(&acks[1]).0, done(0, 0));
    assert_eq!(host.arrival(&acks[0]).0, done(0, 3));
}

#[test]
fn the_node_by_value_lies_in_its_packets() {
    let mut host = End::enabled(HOST, STATION, direction::SENDS, LIMITS);
    let open = host.packet();
    assert_eq!([open[0], open[1], open[9]], [65, 238, 64]);
    assert_eq!(open[5..7], [1, 2]);
    let mut station = End::enabled(STATION, HOST, direction::RECEIVES, LIMITS);
    let others = [(65, 5), (66, 238), (238, 65)];
    for (address, protocol) in others {
        station.node = Node { address, protocol };
        assert_eq!(station.arrival(&open).0, unserved(3));
    }
    station.node = STATION;
    let (said, ack) = station.arrival(&open);
    assert_eq!(said, done(12, 0));
    assert_eq!([ack[0], ack[1], ack[9]], [64, 238, 65]);
}

#[test]
fn nine_with_its_reason_then_reclaimed() {
    let (mut host, _) = both_open(LIMITS);
    assert_eq!(host.transfer(b"held"), done(0, 0));
    for _ in 0..2 {
        host.packet();
        assert!((0..5).all(|_| host.tick() == unserved(0)));
    }
    host.packet();
    assert!((0..4).all(|_| host.tick() == unserved(0)));
    let inactive = Said {
        number: 9,
        reason: u32::from(reason::RETRIES),
        ..Said::default()
    };
    assert_eq!(host.tick(), inactive);
    assert_eq!(host.record().phase.reason, reason::RETRIES);
    assert_eq!(host.open(), refused(10));
    assert_eq!(host.reclaim(), (done(4, 0), b"held".to_vec()));
    assert_eq!(host.reclaim().0, refused(12));
    assert_eq!(host.open(), done(0, 0));
}

#[test]
fn closed_by_its_ack() {
    let (mut host, mut station) = both_open(LIMITS);
    assert_eq!(host.close(), done(0, 0));
    assert_eq!(host.close(), refused(5));
    let close = host.packet();
    let (said, ack) = station.arrival(&close);
    assert_eq!(said, done(12, 0));
    let repeated = Said {
        number: 15,
        length: 12,
        ..Said::default()
    };
    assert_eq!(station.arrival(&close), (repeated, ack.clone()));
    assert_eq!(host.arrival(&ack).0, done(0, 0));
    assert_eq!(host.record().phase.state, state::CLOSED);
}

#[test]
fn empty_slices_are_refused() {
    let (t, mem, lens, lines) = (&mut [][..], &mut [][..], &mut [][..], &mut [][..]);
    // As many as there are records is 0 here.
    let none = refused(13);
    assert_eq!(calls::settings(t, mem, lens, lines, &[]), none);
    assert_eq!(calls::open(t, mem, lens, lines, 0), none);
    assert_eq!(calls::close(t, mem, lens, lines, 0), none);
    assert_eq!(calls::transfer(t, mem, lens, lines, 0, &[]), none);
    assert_eq!(calls::would_transfer(t, mem, lens, lines, 0, 0), none);
    assert_eq!(calls::take(t, mem, lens, lines, 0, &mut []), none);
    assert_eq!(calls::reclaim(t, mem, lens, lines, 0, &mut []), none);
    let next = calls::next_packet(t, mem, lens, lines, HOST, &mut []);
    assert_eq!(next, none);
    let came = calls::arrival(t, mem, lens, lines, HOST, &[], &mut []);
    assert_eq!(came, none);
    assert_eq!(calls::tick(t, mem, lens, lines), none);
}
