//! "Arrivals test 11, 1, 2, 4, 3, 14, Data payload over P (3), state (5),
//! number (9, 15, 16), room (8), flags (9)."

use super::*;
use crate::crc::crc;
use crate::packet::kind::{FLOW_CONTROL, HEARTBEAT, HEARTBEAT_ACK};

/// The packet with some octets changed and the trailer made right again.
fn changed(packet: &[u8], changes: &[(usize, u8)]) -> Vec<u8> {
    let mut packet = packet.to_vec();
    for &(place, octet) in changes {
        packet[place] = octet;
    }
    let body = packet.len() - 2;
    let trailer = crc(&packet[..body]).to_be_bytes();
    packet[body..].copy_from_slice(&trailer);
    packet
}

/// The packet with a wrong trailer.
fn damaged(packet: &[u8]) -> Vec<u8> {
    let mut packet = packet.to_vec();
    *packet.last_mut().unwrap() ^= 1;
    packet
}

/// 11 comes first of all, for every packet, also one that needs no reply.
#[test]
fn a_reply_buffer_under_12_octets_gives_11() {
    let mut rig = Rig::new(&[SENDING, RECEIVING]);
    rig.open(0);
    rig.next().unwrap();
    rig.open(1);
    let before = rig.node.clone();
    let mut reply = [NOISE; 11];
    for packet in [
        vec![],
        alone(CONTROL_ACK, 0),
        alone(OPEN, 0),
        alone(DATA_ACK, 1),
    ] {
        let small = rig.node.arrival(&packet, &mut reply);
        assert_eq!((small.number, small.length, small.index), (11, 12, None));
    }
    assert_eq!((&rig.node, reply), (&before, [NOISE; 11]));
    let mut reply = [NOISE; 12];
    assert_eq!(rig.node.arrival(&[], &mut reply).number, 1);
    assert_eq!(rig.node.arrival(&alone(OPEN, 0), &mut reply).number, 0);
}

/// 1 before 2: a packet that is too long has a wrong trailer as well. A prefix
/// that is announced and missing is 1, too.
#[test]
fn length_before_crc() {
    let mut rig = Rig::receiving(RECEIVING);
    let mut packet = damaged(&whole(1, b"abc"));
    assert_eq!(rig.arrive(&packet), 2);
    packet.push(0);
    assert_eq!(rig.arrive(&packet), 1);
    assert_eq!(rig.arrive(&packet[..11]), 1);
    let missing = changed(&whole(1, b"abc"), &[(8, 1)]);
    assert_eq!(rig.arrive(&missing), 1);
}

/// 2 before 4, 4 before 3.
#[test]
fn crc_before_base_before_header() {
    let mut rig = Rig::receiving(RECEIVING);
    let cases = [
        (changed(&whole(1, b""), &[(2, 0x78)]), 4),
        (changed(&whole(1, b""), &[(2, 0x7E)]), 4),
        (changed(&whole(1, b""), &[(2, 0xBE), (0, 9)]), 4),
        (changed(&whole(1, b""), &[(2, 0x9E)]), 3),
        (changed(&whole(1, b""), &[(2, 0x98)]), 3),
        (changed(&whole(1, b""), &[(8, 0x10)]), 3),
        (changed(&alone(OPEN, 0), &[(2, 0x4A)]), 3),
        (changed(&whole(1, b"a"), &[(2, 0x5A)]), 3),
        (changed(&whole(1, b"ab"), &[(2, 0x5F)]), 3),
        (changed(&whole(1, b"ab"), &[(2, 0x5E)]), 3),
        (changed(&whole(1, b"a"), &[(2, 0x5C)]), 3),
        (changed(&whole(1, b""), &[(2, 0x4D)]), 3),
    ];
    for (packet, number) in cases {
        assert_eq!(rig.arrive(&damaged(&packet)), 2);
        assert_eq!(rig.arrive(&packet), number);
    }
}

/// The destination address and the protocol ID of another node give 3, before
/// 14; "Alone" only are they plain fields.
#[test]
fn a_packet_for_another_node_gives_3() {
    let mut rig = Rig::receiving(RECEIVING);
    for change in [(0, 65), (0, 0), (1, 5), (1, 0)] {
        let packet = changed(&whole(1, b"a"), &[change]);
        assert_eq!(rig.arrive(&packet), 3);
        let packet = changed(&packet, &[(5, 9)]);
        assert_eq!(rig.arrive(&packet), 3);
    }
}

/// "Data and Control look for a receiving record, Acks for a sending one; none
/// found is 14." A record has its channel number, remote address, remote prefix
/// and direction.
#[test]
fn no_record_for_the_packet_gives_14() {
    let mut rig = Rig::receiving(RECEIVING);
    for changes in [[(5, 1)], [(6, 1)], [(6, 3)], [(9, 64)]] {
        let packet = changed(&whole(1, b"a"), &changes);
        assert_eq!(rig.arrive(&packet), 14);
        let open = changed(&alone(OPEN, 0), &changes);
        assert_eq!(rig.arrive(&open), 14);
    }
    let ack = packet_for(RECEIVING.channel, DATA_ACK, 1);
    assert_eq!(rig.arrive(&ack), 14);
}

/// A payload of two octets in any packet but Data is refused with 3 before any record
/// is looked for, and so is one of one octet in a Control or Heartbeat packet or in a
/// Heartbeat Ack.
#[test]
fn a_payload_where_none_may_be_comes_before_14() {
    let mut rig = Rig::receiving(RECEIVING);
    for kind in 1..=7 {
        let packet = changed(&whole(1, b"ab"), &[(2, 0x58 | kind), (6, 9)]);
        assert_eq!(rig.arrive(&packet), 3);
    }
    for kind in [OPEN, CLOSE, HEARTBEAT, HEARTBEAT_ACK] {
        let packet = changed(&whole(1, b"a"), &[(2, 0x58 | kind), (6, 9)]);
        assert_eq!(rig.arrive(&packet), 3);
    }
    for kind in [DATA_ACK, CONTROL_ACK, FLOW_CONTROL] {
        let packet = changed(&whole(1, b"a"), &[(2, 0x58 | kind), (6, 9)]);
        assert_eq!(rig.arrive(&packet), 14);
    }
}

/// 14 before payload over P (3), which comes before the state (5).
#[test]
fn no_record_then_payload_over_p_then_state() {
    let mut rig = Rig::new(&[RECEIVING]);
    let long = whole(1, &[0; 17]);
    assert_eq!(rig.arrive(&changed(&long, &[(6, 1)])), 14);
    assert_eq!(rig.arrive(&long), 3);
    assert_eq!(rig.arrive(&whole(99, &[0; 16])), 5);
}

/// Number before room before flags.
#[test]
fn number_then_room_then_flags() {
    let mut rig = Rig::receiving(Settings {
        slots: 4,
        ..RECEIVING
    });
    for number in 1..=4 {
        assert_eq!(rig.arrive(&whole(number, b"a")), 0);
    }
    assert_eq!(rig.arrive(&data(4, flags::LAST, b"a")), 15);
    assert_eq!(rig.arrive(&data(5, flags::LAST, b"a")), 8);
    assert_eq!(rig.take(0), Ok(b"a".to_vec()));
    assert_eq!(rig.arrive(&data(5, flags::LAST, b"a")), 9);
}

/// "9 writes no reply", and an answer with a reply writes 12 octets of it.
#[test]
fn replies() {
    let mut rig = Rig::receiving(RECEIVING);
    let mut reply = [NOISE; 20];
    let answer = rig.node.arrival(&whole(1, b"a"), &mut reply);
    assert_eq!((answer.number, answer.length, answer.confirmed), (0, 12, 0));
    assert_eq!(reply[12..], [NOISE; 8]);
    let mut reply = [NOISE; 20];
    let answer = rig.node.arrival(&alone(CLOSE, 1), &mut reply);
    assert_eq!((answer.number, answer.length, answer.confirmed), (9, 0, 0));
    assert_eq!(reply, [NOISE; 20]);
}
