//! The input, record by record.

use super::*;

/// "The trace 00 00 02 00, 02 00 05 00 00 41 prints, whole: .."
#[test]
fn the_example_of_document_01() {
    let trace = [0x00, 0x00, 0x02, 0x00, 0x02, 0x00, 0x05, 0x00, 0x00, 0x41];
    assert_eq!(replay(&trace), "rec answer\n1 0\n2 5\nend ok\n");
}

#[test]
fn an_empty_trace() {
    assert_eq!(replay(&[]), "rec answer\nend ok\n");
}

/// "A cut record ends the output with `end short`."
#[test]
fn a_cut_record() {
    let trace = [tick(), transfer(b"abc")].concat();
    for length in 0..trace.len() {
        let expected = match length {
            0 => "rec answer\nend ok\n",
            1..=3 => "rec answer\nend short\n",
            4 => "rec answer\n1 0\nend ok\n",
            _ => "rec answer\n1 0\nend short\n",
        };
        assert_eq!(replay(&trace[..length]), expected);
    }
}

/// "body length (2 octets, little-endian), kind (2, little-endian)"
#[test]
fn lengths_and_kinds_are_little_endian() {
    let long = record(2, &[0; 0x0102]);
    assert_eq!(long[..4], [0x02, 0x01, 0x02, 0x00]);
    assert_eq!(replay(&long), "rec answer\n1 0\nend ok\n");
    let unknown = record(0x0102, &[]);
    assert_eq!(unknown, [0, 0, 0x02, 0x01]);
    assert_eq!(replay(&unknown), "rec answer\n1 14\nend ok\n");
}

/// "An unknown kind or a missing index answers 14."
#[test]
fn unknown_kinds_and_missing_indices() {
    check(&[
        (record(0, &[]), 14),
        (record(0, &[0]), 14),
        (record(9, &[1, 2, 3]), 14),
        (record(0x0200, &[]), 14),
        (record(u16::MAX, &[]), 14),
        (record(3, &[]), 14),
        (record(4, &[]), 14),
        (record(5, &[]), 14),
        (record(6, &[]), 14),
        (record(8, &[]), 14),
    ]);
}

/// Channels 0 and 1 are all there are.
#[test]
fn other_indices() {
    for index in [2, 16, 255] {
        check(&[
            (open(index), 14),
            (close(index), 14),
            (record(5, &[index, 1]), 14),
            (take(index), 14),
            (reclaim(index), 14),
        ]);
    }
}

/// "unused body octets are ignored"
#[test]
fn unused_body_octets() {
    check(&[
        (record(2, b"tick"), 0),
        (record(7, b"next"), 12),
        (record(3, &[0, 9, 9]), 0),
        (record(3, &[0, 9, 9]), 5),
        (record(4, &[0, 1]), 0),
        (record(6, &[1, 0]), 12),
        (record(8, &[1, 0]), 5),
    ]);
}

/// An arrival has no index: its body is the packet, and an empty one is short.
#[test]
fn an_empty_arrival() {
    check(&[(record(1, &[]), 1), (record(1, &[0; 11]), 1)]);
}

/// The 64 octets are the lent buffers: a body is read whole, and a long packet
/// or unit is judged for what it is.
#[test]
fn bodies_longer_than_the_buffers() {
    let long = arrival(whole(1, &[0; 88]));
    assert_eq!(long.len(), 4 + 100);
    check(&[
        (long.clone(), 3),
        (arrival(whole(1, &[0; 65_523])), 3),
        (transfer(&[0; 65]), 5),
        (open(0), 0),
        (next(), 0),
        (control_ack(), 0),
        (transfer(&[0; 65]), 6),
        (transfer(&[0; 60_000]), 6),
        (transfer(&[0; 64]), 0),
    ]);
}

/// The packets of the replay's channels, octet by octet: own address 64,
/// remote 65, protocol ID 238, channel numbers 1 and 2.
#[test]
fn packets_by_their_octets() {
    let packet = |octets: &[u8]| record(1, octets);
    let open_command = b"\x40\xEE\x5A\x00\x00\x00\x02\x00\x00\x41\x48\x56";
    let for_channel_0 = b"\x40\xEE\x58\x00\x01\x00\x01\x01\x00\x41A\x21\x49";
    let whole_unit = b"\x40\xEE\x58\x00\x01\x00\x02\x01\x00\x41A\xCF\x9B";
    let control_ack = b"\x40\xEE\x5F\x00\x00\x00\x01\x00\x00\x41\x9B\x34";
    let data_ack = b"\x40\xEE\x59\x00\x00\x00\x01\x01\x00\x41\x2C\xCF";
    check(&[
        (open(1), 0),
        (packet(open_command), 0),
        (packet(for_channel_0), 14),
        (packet(whole_unit), 0),
        (take(1), 0),
        (open(0), 0),
        (packet(control_ack), 16),
        (next(), 0),
        (packet(control_ack), 0),
        (transfer(b"A"), 0),
        (packet(data_ack), 16),
        (next(), 0),
        (packet(data_ack), 0),
    ]);
}
