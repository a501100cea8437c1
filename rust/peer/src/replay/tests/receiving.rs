//! Traces of channel 1, which receives, with answers derived by hand.

use super::*;
use crate::crc::crc;

/// From CLOSED through every state and back.
#[test]
fn one_opening() {
    check(&[
        (arrival(alone(OPEN, 0)), 5),
        (unit(1), 5),
        (close(1), 5),
        (take(1), 12),
        (reclaim(1), 5),
        (record(5, &[1, 9]), 5),
        (open(1), 0),
        (open(1), 5),
        (close(1), 5),
        (unit(1), 5),
        (arrival(alone(CLOSE, 0)), 5),
        (arrival(alone(OPEN, 0)), 0),
        (arrival(alone(OPEN, 0)), 15),
        (unit(0), 15),
        (arrival(alone(OPEN, 0)), 15),
        (unit(1), 0),
        (unit(1), 15),
        (unit(3), 0),
        (unit(3), 15),
        (take(1), 0),
        (take(1), 12),
        (arrival(alone(CLOSE, 0)), 0),
        (arrival(alone(CLOSE, 0)), 15),
        (arrival(alone(OPEN, 0)), 5),
        (unit(2), 5),
        (open(1), 5),
        (tick(), 0),
        (tick(), 0),
        (tick(), 0),
        (arrival(alone(CLOSE, 0)), 15),
        (tick(), 0),
        (arrival(alone(CLOSE, 0)), 5),
        (take(1), 12),
        (open(1), 0),
    ]);
}

/// Eight slots: the ninth unit waits until one is taken.
#[test]
fn full_slots() {
    let mut trace = opened_receiver();
    trace.extend((1..=8).map(|number| (unit(number), 0)));
    trace.extend([
        (unit(9), 8),
        (unit(12), 8),
        (unit(8), 15),
        (unit(5), 15),
        (take(1), 0),
        (unit(10), 8),
        (unit(9), 0),
        (unit(9), 15),
        (unit(10), 8),
        (take(1), 0),
        (take(1), 0),
        (unit(11), 0),
        (unit(10), 0),
        (unit(12), 8),
        (unit(7), 9),
        (unit(12), 5),
    ]);
    trace.extend([0; 8].map(|number| (take(1), number)));
    trace.push((take(1), 12));
    check(&trace);
}

/// Numbers in the window, behind it, and elsewhere.
#[test]
fn numbers_of_data() {
    let cases = [
        (4, 0),
        (5, 9),
        (251, 9),
        (252, 9),
        (253, 15),
        (0, 15),
        (128, 9),
    ];
    for (number, answer) in cases {
        let mut trace = opened_receiver();
        trace.push((unit(number), answer));
        trace.push((unit(1), if answer == 9 { 5 } else { 0 }));
        check(&trace);
    }
}

/// Control packets with a number other than 0 end every state but CLOSED.
#[test]
fn numbers_of_control() {
    check(&[
        (arrival(alone(OPEN, 1)), 5),
        (open(1), 0),
        (arrival(alone(CLOSE, 1)), 9),
        (arrival(alone(OPEN, 0)), 5),
        (open(1), 0),
        (arrival(alone(OPEN, 255)), 9),
        (open(1), 0),
        (arrival(alone(OPEN, 0)), 0),
        (unit(1), 0),
        (arrival(alone(CLOSE, 2)), 9),
        (open(1), 10),
        (take(1), 0),
        (open(1), 0),
        (arrival(alone(OPEN, 0)), 0),
        (arrival(alone(OPEN, 3)), 9),
        (open(1), 0),
        (arrival(alone(OPEN, 0)), 0),
        (arrival(alone(CLOSE, 0)), 0),
        (arrival(alone(CLOSE, 4)), 9),
        (arrival(alone(CLOSE, 0)), 5),
        (open(1), 0),
        (arrival(alone(OPEN, 0)), 0),
    ]);
}

/// An Open after Data was accepted.
#[test]
fn a_late_open() {
    let mut trace = opened_receiver();
    trace.extend([
        (segment(2, LAST), 0),
        (arrival(alone(OPEN, 0)), 9),
        (take(1), 12),
        (open(1), 0),
        (arrival(alone(OPEN, 0)), 0),
    ]);
    check(&trace);
}

/// Units of one to four segments, and breaks.
#[test]
fn flags_of_data() {
    let mut trace = opened_receiver();
    trace.extend([
        (segment(4, LAST), 0),
        (segment(2, CONTINUATION), 0),
        (segment(3, CONTINUATION), 0),
        (take(1), 12),
        (segment(1, FIRST), 0),
        (take(1), 0),
        (segment(5, WHOLE), 0),
        (segment(6, FIRST), 0),
        (segment(7, LAST), 0),
        (segment(9, WHOLE), 0),
        (segment(10, LAST), 0),
        (segment(11, WHOLE), 0),
        (segment(8, WHOLE), 9),
        (segment(12, WHOLE), 5),
        (take(1), 0),
        (take(1), 0),
        (take(1), 0),
        (open(1), 10),
        (take(1), 0),
        (take(1), 12),
        (open(1), 0),
        (arrival(alone(OPEN, 0)), 0),
        (segment(1, FIRST), 0),
        (segment(2, CONTINUATION), 0),
        (segment(3, CONTINUATION), 0),
        (segment(4, CONTINUATION), 9),
        (take(1), 12),
        (open(1), 0),
        (arrival(alone(OPEN, 0)), 0),
        (segment(1, LAST), 9),
    ]);
    check(&trace);
}

/// A Close drops what is unfinished and what lies beyond a gap.
#[test]
fn a_close_while_segments_are_missing() {
    let mut trace = opened_receiver();
    trace.extend([
        (unit(1), 0),
        (segment(2, FIRST), 0),
        (unit(4), 0),
        (arrival(alone(CLOSE, 0)), 0),
        (take(1), 0),
        (take(1), 12),
    ]);
    trace.extend([0; 4].map(|number| (tick(), number)));
    trace.extend(opened_receiver());
    trace.extend([(unit(4), 0), (unit(2), 0), (take(1), 12), (unit(1), 0)]);
    trace.extend([(take(1), 0), (take(1), 0), (take(1), 12)]);
    check(&trace);
}

/// The packet with one octet changed and the trailer made right again.
fn changed(packet: &[u8], place: usize, octet: u8) -> Vec<u8> {
    let mut packet = packet.to_vec();
    packet[place] = octet;
    let body = packet.len() - 2;
    let trailer = crc(&packet[..body]).to_be_bytes();
    packet[body..].copy_from_slice(&trailer);
    packet
}

/// Packets that are refused before any channel is looked at, or that have no
/// channel here.
#[test]
fn headers() {
    let good = whole(1, b"u");
    let mut wrong_crc = good.clone();
    wrong_crc[12] ^= 0x80;
    let cases = [
        (good[..12].to_vec(), 1),
        (changed(&good, 4, 2), 1),
        (wrong_crc, 2),
        (changed(&good, 2, 0x5C), 3),
        (changed(&good, 2, 0x5D), 3),
        (changed(&good, 2, 0x5E), 14),
        (changed(&good, 2, 0x78), 4),
        (changed(&good, 8, 0x0F), 1),
        (changed(&good, 2, 0x18), 3),
        (changed(&good, 2, 0x1E), 3),
        (changed(&good, 8, 0x80), 3),
        (changed(&good, 2, 0x59), 14),
        (changed(&good, 2, 0x5A), 3),
        (changed(&good, 0, 65), 3),
        (changed(&good, 1, 5), 3),
        (changed(&good, 6, 1), 14),
        (changed(&good, 6, 3), 14),
        (changed(&good, 9, 64), 14),
        (whole(1, &[0; 17]), 3),
        (whole(1, &[0; 16]), 0),
    ];
    let mut trace = opened_receiver();
    trace.extend(cases.map(|(packet, answer)| (arrival(packet), answer)));
    check(&trace);
}

/// The two channels share addresses, and nothing else.
#[test]
fn both_channels() {
    let mut trace = opened_sender();
    trace.extend(opened_receiver());
    trace.extend([
        (arrival(packet_for(1, CLOSE, 0)), 14),
        (arrival(packet_for(2, DATA_ACK, 1)), 14),
        (transfer(b"A"), 0),
        (unit(1), 0),
        (next(), 0),
        (data_ack(1), 0),
        (take(1), 0),
        (arrival(alone(CLOSE, 0)), 0),
        (transfer(b"B"), 0),
        (next(), 0),
        (tick(), 0),
        (tick(), 0),
        (tick(), 0),
        (arrival(alone(CLOSE, 0)), 15),
        (tick(), 0),
        (arrival(alone(CLOSE, 0)), 5),
        (next(), 0),
        (open(1), 0),
        (open(0), 5),
    ]);
    check(&trace);
}

/// 600 units, one by one: number 0 follows 255, twice.
#[test]
fn past_number_255() {
    let mut trace = opened_receiver();
    for segment in 1..=600_u32 {
        let number = (segment % 256) as u8;
        trace.extend([
            (unit(number), 0),
            (unit(number), 15),
            (take(1), 0),
            (take(1), 12),
        ]);
    }
    check(&trace);
}
