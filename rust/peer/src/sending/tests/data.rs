//! Units, the window and Data Acks.

use super::*;
use crate::packet::read;

/// "Units are accepted in OPEN only."
#[test]
fn units_are_accepted_in_open_only() {
    let mut rig = Rig::new(&[SENDING]);
    assert_eq!(rig.transfer(0, b"a"), 5);
    rig.open(0);
    assert_eq!(rig.transfer(0, b"a"), 5);
    rig.next().unwrap();
    rig.arrive(&alone(CONTROL_ACK, 0));
    assert_eq!(rig.transfer(0, b"a"), 0);
    rig.close(0);
    assert_eq!(rig.transfer(0, b"a"), 5);
}

/// "Packet Control of a first, middle, last, whole segment: 48, 40, 50, 58
/// hexadecimal plus the type."
#[test]
fn data_packets_to_the_octet() {
    let mut rig = Rig::sending(SENDING);
    let unit: Vec<u8> = (0..34).collect();
    rig.transfer(0, &unit);
    rig.transfer(0, b"");
    let lengths_and_controls = [(16, 0x48), (16, 0x40), (2, 0x50), (0, 0x58)];
    for (number, (length, control)) in (1..).zip(lengths_and_controls) {
        let packet = rig.next_packet().unwrap();
        let header = [65, 238, control, 0, length, 0, 1, number, 0, 64];
        assert_eq!(packet[..10], header);
        assert!(read(&packet).is_ok());
        let from = 16 * (usize::from(number) - 1);
        let payload = unit.iter().skip(from).take(length.into());
        assert!(packet[10..packet.len() - 2].iter().eq(payload));
    }
}

/// "Only the k numbers from the window start may be sent."
#[test]
fn only_k_numbers_may_be_sent() {
    let mut rig = Rig::sending(SENDING);
    for _ in 0..8 {
        assert_eq!(rig.transfer(0, b"a"), 0);
    }
    assert_eq!(rig.all_data(), [1, 2, 3, 4]);
    assert_eq!(acks(&mut rig, [2, 3]), [0, 0]);
    assert_eq!(rig.all_data(), []);
    assert_eq!(acks(&mut rig, [1]), [0]);
    assert_eq!(rig.all_data(), [5, 6, 7]);
}

/// "A Data Ack for a number sent, in the window and not yet acknowledged, is
/// recorded [..]. Any other ack is ignored (16)."
#[test]
fn any_other_ack_is_ignored() {
    let mut rig = Rig::sending(SENDING);
    rig.transfer(0, &[0; 64]);
    rig.transfer(0, b"b");
    assert_eq!(acks(&mut rig, [1]), [16]);
    assert_eq!(rig.next(), Ok((DATA, 1)));
    assert_eq!(rig.next(), Ok((DATA, 2)));
    assert_eq!(acks(&mut rig, [0, 3, 5, 255]), [16, 16, 16, 16]);
    assert_eq!(acks(&mut rig, [2, 2, 1, 1, 2]), [0, 16, 0, 16, 16]);
}

/// "the start moves past every leading acknowledged number"
#[test]
fn the_start_moves_past_all_that_was_acknowledged() {
    let mut rig = Rig::sending(SENDING);
    for _ in 0..8 {
        rig.transfer(0, b"a");
    }
    rig.all_data();
    assert_eq!(confirms(&mut rig, [3, 4, 1, 2]), [0, 0, 1, 3]);
    assert_eq!(rig.all_data(), [5, 6, 7, 8]);
    assert_eq!(confirms(&mut rig, [8, 7, 6, 5]), [0, 0, 0, 4]);
}

/// "A unit is confirmed when the start has passed its last segment": not when
/// it lies acknowledged beyond a gap.
#[test]
fn a_unit_beyond_a_gap_is_not_confirmed() {
    let mut rig = Rig::sending(SENDING);
    rig.transfer(0, &[0; 20]);
    rig.transfer(0, b"b");
    rig.all_data();
    assert_eq!(confirms(&mut rig, [3, 1, 2]), [0, 0, 2]);
}

/// "its slots are then free for use again": the slots of the whole unit, and
/// not before.
#[test]
fn slots_are_free_when_the_unit_is_confirmed() {
    let mut rig = Rig::sending(SENDING);
    assert_eq!(rig.transfer(0, &[0; 64]), 0);
    assert_eq!(rig.transfer(0, &[0; 64]), 0);
    assert_eq!(rig.transfer(0, b""), 7);
    rig.all_data();
    assert_eq!(confirms(&mut rig, [1, 2, 3]), [0, 0, 0]);
    assert_eq!(rig.transfer(0, b""), 7);
    assert_eq!(confirms(&mut rig, [4]), [1]);
    assert_eq!(rig.transfer(0, &[0; 49]), 0);
    assert_eq!(rig.transfer(0, b""), 7);
}

/// "M 4: 64 accepted, 65 gives 6"; 6 comes before 7.
#[test]
fn a_unit_over_m_segments_gives_6() {
    let mut rig = Rig::sending(SENDING);
    assert_eq!(rig.transfer(0, &[0; 65]), 6);
    assert_eq!(rig.transfer(0, &[0; 64]), 0);
    assert_eq!(rig.transfer(0, &[0; 64]), 0);
    assert_eq!(rig.transfer(0, &[0; 65]), 6);
    assert_eq!(rig.transfer(0, &[0; 64]), 7);
}

/// "Control Acks belong to ENABLED and CLOSING": one in OPEN is no Data Ack,
/// not even for Data number 0.
#[test]
fn data_number_0_follows_255() {
    let mut rig = Rig::sending(Settings {
        slots: 7,
        ..SENDING
    });
    for number in 1..=255 {
        rig.transfer(0, b"a");
        assert_eq!(rig.next(), Ok((DATA, number)));
        assert_eq!(confirms(&mut rig, [number]), [1]);
    }
    for _ in 0..4 {
        rig.transfer(0, b"a");
    }
    assert_eq!(rig.all_data(), [0, 1, 2, 3]);
    assert_eq!(rig.arrive(&alone(CONTROL_ACK, 0)), 5);
    assert_eq!(acks(&mut rig, [255, 4]), [16, 16]);
    assert_eq!(confirms(&mut rig, [2, 0, 1]), [0, 1, 2]);
}

/// "Filing it, at a transfer [..], writes its octets and length; the slot's
/// octets past it stay."
#[test]
fn a_transfer_files_its_segments() {
    let mut rig = Rig::sending(Settings {
        window: 2,
        slots: 3,
        most_payload: 4,
        most_segments: 3,
        ..SENDING
    });
    let quiet = NOISE;
    rig.transfer(0, b"abcdef");
    let memory = [b'a', b'b', b'c', b'd', b'e', b'f', quiet, quiet];
    assert_eq!(rig.node.memory()[..8], memory);
    assert_eq!(rig.node.memory()[8..], [quiet; 4]);
    assert_eq!(rig.node.lengths(), [4, 2, NOISE_LENGTH]);
    rig.all_data();
    confirms(&mut rig, [1, 2]);
    rig.transfer(0, b"ghijkl");
    assert_eq!(rig.node.memory(), b"klcdef\xA5\xA5ghij");
    assert_eq!(rig.node.lengths(), [2, 2, 4]);
}

/// Slots that do not divide 256: the slot follows the segment, not its number.
#[test]
fn slots_past_number_255() {
    let mut rig = Rig::sending(Settings {
        window: 1,
        slots: 3,
        most_payload: 1,
        most_segments: 3,
        ..SENDING
    });
    for segment in 1..1_000_usize {
        let octet = [segment as u8];
        assert_eq!(rig.transfer(0, &octet), 0);
        assert_eq!(rig.node.memory()[(segment - 1) % 3], octet[0]);
        let packet = rig.next_packet().unwrap();
        assert_eq!((packet[7], packet[10]), (octet[0], octet[0]));
        assert_eq!(confirms(&mut rig, octet), [1]);
    }
}
