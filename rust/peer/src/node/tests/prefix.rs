//! Channels to nodes of another region (document 02, A7).

use super::*;
use crate::prefix::Prefix;
use crate::support::{channel_of, written_from};

/// The remote prefix here.
const FAR: [u8; 2] = [7, 0];

/// The own prefix here, of another length.
const NEAR: [u8; 3] = [1, 2, 3];

fn regional(settings: Settings) -> Settings {
    Settings {
        remote_prefix: Prefix::new(&FAR).unwrap(),
        own_prefix: Prefix::new(&NEAR).unwrap(),
        ..settings
    }
}

/// A packet from behind this prefix.
fn from(prefix: &[u8], kind: u8, number: u8, payload: &[u8]) -> Vec<u8> {
    let fields = Fields {
        kind,
        number,
        ..THERE.header(HERE.own, channel_of(kind))
    };
    written_from(prefix, &fields, payload)
}

/// A rig of one sending channel in OPEN.
fn sender() -> Rig {
    let mut rig = Rig::new(&[regional(SENDING)]);
    rig.open(0);
    assert_eq!(rig.next(), Ok((OPEN, 0)));
    assert_eq!(rig.arrive(&from(&FAR, CONTROL_ACK, 0, b"")), 0);
    rig
}

/// A rig of one receiving channel in OPEN.
fn receiver() -> Rig {
    let mut rig = Rig::new(&[regional(RECEIVING)]);
    rig.open(0);
    assert_eq!(rig.arrive(&from(&FAR, OPEN, 0, b"")), 0);
    rig
}

/// Every packet that goes out has the own prefix: 12 + N + X octets.
#[test]
fn what_goes_out_has_the_own_prefix() {
    let mut rig = sender();
    rig.transfer(0, b"ab");
    let packet = rig.next_packet().unwrap();
    let body = [65, 238, 0x58, 0, 2, 0, 1, 1, 3, 1, 2, 3, 64, b'a', b'b'];
    assert_eq!((&packet[..15], packet.len()), (&body[..], 17));
    rig.close(0);
    let packet = rig.next_packet().unwrap();
    assert_eq!(packet[..13], [65, 238, 0x5B, 0, 0, 0, 1, 0, 3, 1, 2, 3, 64]);
}

/// A next packet needs 12 + N + X octets.
#[test]
fn a_buffer_too_small_for_the_next_packet() {
    let mut rig = sender();
    rig.transfer(0, b"ab");
    let before = rig.node.clone();
    let mut out = [NOISE; 17];
    for room in [0, 12, 14, 16] {
        let small = rig.node.next_packet(&mut out[..room]);
        assert_eq!((small.number, small.length, small.index), (11, 17, Some(0)));
    }
    assert_eq!((&rig.node, out), (&before, [NOISE; 17]));
    assert_eq!(rig.node.next_packet(&mut out).length, 17);
}

/// So has a reply, whatever the packet's own prefix; the payload is what lies
/// behind that.
#[test]
fn a_reply_has_the_own_prefix() {
    let mut rig = receiver();
    let mut reply = [NOISE; 20];
    let data = from(&FAR, DATA, 1, b"ab");
    for number in [0, 15] {
        let answer = rig.node.arrival(&data, &mut reply);
        assert_eq!((answer.number, answer.length), (number, 15));
        assert_eq!(reply[..13], [65, 238, 0x59, 0, 0, 0, 2, 1, 3, 1, 2, 3, 64]);
        assert_eq!(reply[15..], [NOISE; 5]);
    }
    assert_eq!(rig.take(0), Ok(b"ab".to_vec()));
}

/// Lookup compares the prefix with the record's remote one.
#[test]
fn another_prefix_gives_14() {
    let mut rig = receiver();
    for prefix in [&[][..], &[7], &[7, 1], &[0, 7], &[7, 0, 0], &NEAR, &[0; 15]] {
        let answer = rig.arrival(&from(prefix, DATA, 1, b"ab"));
        assert_eq!((answer.number, answer.index), (14, None));
        assert_eq!(rig.arrive(&from(prefix, CLOSE, 0, b"")), 14);
    }
    let mut rig = sender();
    rig.transfer(0, b"a");
    rig.next().unwrap();
    assert_eq!(rig.arrive(&from(&NEAR, DATA_ACK, 1, b"")), 14);
    assert_eq!(rig.arrive(&from(&FAR, DATA_ACK, 1, b"")), 0);
}

/// Records that differ in the remote prefix alone.
#[test]
fn packets_find_their_records() {
    let table = [RECEIVING, regional(RECEIVING)];
    let mut rig = Rig::new(&table);
    rig.open(0);
    rig.open(1);
    let answer = rig.arrival(&from(&FAR, OPEN, 0, b""));
    assert_eq!(answer, Answer::written(15).at(1));
    let answer = rig.arrival(&from(&[], OPEN, 0, b""));
    assert_eq!(answer, Answer::written(12).at(0));
}

/// "A reply buffer under 12 + N octets, N being that of the reply, now gives
/// 11, tested once the channel is known": after 14, before payload over P (3)
/// and the state (5), whatever would be answered.
#[test]
fn a_reply_buffer_under_12_and_n() {
    let mut rig = receiver();
    let packets = [
        from(&FAR, DATA, 1, b"ab"),
        from(&FAR, DATA, 100, b"ab"),
        from(&FAR, DATA, 1, &[0; 17]),
        from(&FAR, OPEN, 0, b""),
        from(&FAR, CLOSE, 9, b""),
    ];
    let before = rig.node.clone();
    for packet in packets {
        for room in 12..15 {
            let mut reply = vec![NOISE; room];
            let small = rig.node.arrival(&packet, &mut reply);
            assert_eq!((small.number, small.length, small.index), (11, 15, Some(0)));
            assert_eq!((&rig.node, reply), (&before, vec![NOISE; room]));
        }
        let small = rig.node.arrival(&packet, &mut [NOISE; 11]);
        assert_eq!((small.number, small.length, small.index), (11, 12, None));
    }
    let stranger = from(&NEAR, DATA, 1, b"ab");
    assert_eq!(rig.node.arrival(&stranger, &mut [0; 12]).number, 14);
    let long = from(&FAR, DATA, 1, &[0; 17]);
    assert_eq!(rig.node.arrival(&long, &mut [0; 15]).number, 3);
}

/// No reply is due to an Ack, so there is no N: 12 octets are enough.
#[test]
fn an_ack_needs_12() {
    let mut rig = sender();
    rig.transfer(0, b"a");
    rig.next().unwrap();
    let ack = from(&FAR, DATA_ACK, 1, b"");
    assert_eq!(rig.node.arrival(&ack, &mut [0; 11]).number, 11);
    let answer = rig.node.arrival(&ack, &mut [0; 12]);
    assert_eq!(answer, Answer::confirmed(1).at(0));
    assert_eq!(rig.node.arrival(&ack, &mut [0; 12]).number, 16);
}
