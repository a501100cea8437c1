//! Flow Control (document 02, A5): the run of the request, a sender that stops at the
//! number recorded, and what either end refuses.

mod beats;
mod ends;

use beats::{packet_for, packet_with, ticks, CONTROL_ACK, DATA, DATA_ACK, FLOW_CONTROL};
use ends::{both_open, done, refused, End, HOST, LIMITS, STATION};
use proved::record::{direction, reason, state};
use proved::{calls, Limits, Said};

/// k 4, 8 slots, units of one segment.
const STATING: Limits = Limits {
    segments: 1,
    flow: 1,
    ..LIMITS
};

/// A station that has accepted Data 1 to this number, and given away none.
fn untaken(most: u8) -> End {
    let (_, mut station) = both_open(STATING);
    for number in 1..=most {
        let data = packet_with(&mut station, DATA, number, b"a");
        assert_eq!(station.arrival(&data).0, done(13, 0));
    }
    station
}

/// The number of the Flow Control packet that goes out next and the number that it
/// states, if one goes out.
fn stated(station: &mut End) -> Option<(u8, u8)> {
    let (said, packet) = station.next();
    if said.number == 12 {
        return None;
    }
    assert_eq!(said, done(13, 0));
    assert_eq!(packet[..5], [HOST.address, 238, 0x5E, 0, 1]);
    Some((packet[7], packet[10]))
}

/// The Ack of a Flow Control packet of this number.
fn answered(station: &mut End, number: u8) -> Said {
    let ack = packet_for(station, FLOW_CONTROL, number);
    station.arrival(&ack).0
}

/// The Acks of Data 1 to 8 state 5, 6, 7, 8, 8, 8, 8, 8.
#[test]
fn the_acks_state_how_far_there_is_room() {
    let (_, mut station) = both_open(STATING);
    let stated = [1, 2, 3, 4, 5, 6, 7, 8].map(|number| {
        let data = packet_with(&mut station, DATA, number, b"a");
        let (said, ack) = station.arrival(&data);
        assert_eq!((said, ack[2], ack[7]), (done(13, 0), 0x59, number));
        ack[10]
    });
    assert_eq!(stated, [5, 6, 7, 8, 8, 8, 8, 8]);
    // The ninth is in the window, and there is no room: nothing allowed it.
    let ninth = packet_with(&mut station, DATA, 9, b"a");
    assert_eq!(station.arrival(&ninth).0, refused(8));
    // A repeat's Ack states the number of now.
    let eighth = packet_with(&mut station, DATA, 8, b"a");
    let (said, ack) = station.arrival(&eighth);
    assert_eq!((said.number, ack[10]), (15, 8));
}

/// Then each take makes a Flow Control packet numbered 8 with one more, once the one
/// before is answered; and none when the window's end is stated.
#[test]
fn each_take_makes_one() {
    let mut station = untaken(8);
    assert_eq!(stated(&mut station), None);
    for more in 9..=12 {
        assert_eq!(station.take().0, done(1, 0));
        assert_eq!(stated(&mut station), Some((8, more)));
        assert_eq!(stated(&mut station), None);
        assert_eq!(answered(&mut station, 8), done(0, 0));
        assert_eq!(stated(&mut station), None);
    }
    for _ in 0..4 {
        assert_eq!(station.take().0, done(1, 0));
        assert_eq!(stated(&mut station), None);
    }
}

/// While one is not answered no other is made; it is resent with the number of now, and
/// on its Ack there is one more, for it did not state that at first.
#[test]
fn one_at_a_time() {
    let mut station = untaken(8);
    assert_eq!(station.take().0, done(1, 0));
    assert_eq!(stated(&mut station), Some((8, 9)));
    for _ in 0..2 {
        assert_eq!(station.take().0, done(1, 0));
        assert_eq!(stated(&mut station), None);
    }
    ticks(&mut station, LIMITS.timeout.into());
    assert_eq!(stated(&mut station), Some((8, 11)));
    assert_eq!(answered(&mut station, 7), refused(16));
    assert_eq!(answered(&mut station, 8), done(0, 0));
    assert_eq!(stated(&mut station), Some((8, 11)));
    assert_eq!(answered(&mut station, 8), done(0, 0));
    assert_eq!(stated(&mut station), None);
    assert_eq!(answered(&mut station, 8), refused(16));
}

/// Its retries are used up: inactive, and what is untaken stays.
#[test]
fn nobody_answers() {
    let mut station = untaken(8);
    assert_eq!(station.take().0, done(1, 0));
    for _ in 0..LIMITS.retries {
        assert_eq!(stated(&mut station), Some((8, 9)));
        ticks(&mut station, LIMITS.timeout.into());
    }
    assert_eq!(stated(&mut station), Some((8, 9)));
    ticks(&mut station, usize::from(LIMITS.timeout) - 1);
    let said = station.tick();
    let expected = (9, u32::from(reason::RETRIES), 0);
    assert_eq!((said.number, said.reason, said.index), expected);
    assert_eq!(station.record().phase.state, state::CLOSED);
    for _ in 0..7 {
        assert_eq!(station.take().0, done(1, 0));
    }
    assert_eq!(station.take().0, refused(12));
}

/// Data of this number goes over, and its Ack comes back.
fn one_over(host: &mut End, station: &mut End, number: u8) {
    let data = host.packet();
    assert_eq!((data[2], data[7]), (0x58, number));
    let (said, ack) = station.arrival(&data);
    assert_eq!(said, done(13, 0));
    assert_eq!(host.arrival(&ack).0, done(0, 1));
}

/// A host with ten units sends eight of them to a station that takes none, and goes on
/// with each Flow Control packet.
#[test]
fn a_sender_stops_and_goes_on() {
    let roomy = Limits {
        slots: 16,
        ..STATING
    };
    let mut host = End::enabled(HOST, STATION, direction::SENDS, roomy);
    let mut station = End::enabled(STATION, HOST, direction::RECEIVES, STATING);
    let (said, ack) = station.arrival(&host.packet());
    assert_eq!((said, ack[2], ack[10]), (done(13, 0), 0x5F, 4));
    assert_eq!(host.arrival(&ack).0, done(0, 0));
    for _ in 0..10 {
        assert_eq!(host.transfer(b"a"), done(0, 0));
    }
    for number in 1..=8 {
        one_over(&mut host, &mut station, number);
    }
    for number in [9, 10] {
        assert_eq!(host.next().0.number, 12);
        assert_eq!(station.take().0, done(1, 0));
        let (said, ack) = host.arrival(&station.packet());
        assert_eq!((said, ack[2]), (done(12, 0), 0x5E));
        assert_eq!(station.arrival(&ack).0, done(0, 0));
        one_over(&mut host, &mut station, number);
    }
}

/// A reply buffer of 12 is too short for the Ack of Data or Control: 13 are wanted, once
/// the channel is known. What has no such Ack needs 12.
#[test]
fn a_reply_buffer_of_12() {
    let mut station = untaken(1);
    let small = |length, index| Said {
        number: 11,
        length,
        index,
        ..Said::default()
    };
    let data = packet_with(&mut station, DATA, 2, b"a");
    let strange = packet_with(&mut station, DATA, 2, &[0; 17]);
    let ack = packet_for(&mut station, FLOW_CONTROL, 1);
    let heartbeat = packet_for(&mut station, 4, 0);
    let before = *station.record();
    for (packet, room, expected) in [
        (&data, 11, small(12, 1)),
        (&data, 12, small(13, 0)),
        (&strange, 12, small(13, 0)),
        (&strange, 13, refused(3)),
        (&ack, 12, refused(16)),
        (&heartbeat, 11, small(12, 1)),
    ] {
        let mut reply = vec![0xEE; room];
        let (table, memory) = (&mut station.table, &mut station.memory);
        let (lengths, lines) = (&mut station.lengths, &mut station.lines);
        let said = calls::arrival(table, memory, lengths, lines, STATION, packet, &mut reply);
        assert_eq!(said, expected);
        assert_eq!(reply, vec![0xEE; room]);
        assert_eq!(*station.record(), before);
    }
    assert_eq!(station.arrival(&data).0, done(13, 0));
    assert_eq!(station.arrival(&heartbeat).0, done(12, 0));
}

/// Where Flow Control is used a Data Ack or Control Ack has the octet, and where it is
/// not none has, nor is there a type 6: 3, whatever the state. Type 6 with the octet
/// looks for a sender, without it for a receiver: 14.
#[test]
fn octet_and_switch() {
    for flow in [0, 1] {
        let limits = Limits { flow, ..STATING };
        let (mut host, mut station) = both_open(limits);
        for (kind, octets) in [
            (DATA_ACK, 0),
            (DATA_ACK, 1),
            (CONTROL_ACK, 0),
            (CONTROL_ACK, 1),
        ] {
            let ack = packet_with(&mut host, kind, 1, &[9; 1][..octets]);
            let fits = octets == usize::from(flow);
            let expected = match (fits, kind) {
                (false, _) => 3,
                (true, DATA_ACK) => 16,
                (true, _) => 5,
            };
            assert_eq!(host.arrival(&ack).0, refused(expected));
        }
        let [to_host, to_station] = [&mut host, &mut station]
            .map(|end| [0, 1].map(|octets| packet_with(end, FLOW_CONTROL, 0, &[4; 1][..octets])));
        let unknown = Said {
            index: 1,
            ..refused(14)
        };
        let (sends, receives) = match flow {
            0 => (refused(3), refused(3)),
            _ => (done(12, 0), refused(16)),
        };
        assert_eq!(host.arrival(&to_host[0]).0, unknown);
        assert_eq!(host.arrival(&to_host[1]).0, sends);
        assert_eq!(station.arrival(&to_station[0]).0, receives);
        assert_eq!(station.arrival(&to_station[1]).0, unknown);
    }
}
