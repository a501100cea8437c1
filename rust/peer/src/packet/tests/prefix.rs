//! The prefix of a packet alone (document 02, A7; 000, 4.2.3.8 and 4.2.3.9).

use super::*;

/// Octets of prefixes, none like another.
const PREFIX: [u8; 16] = [9, 8, 0, 255, 1, 2, 3, 4, 5, 6, 7, 64, 65, 66, 0, 77];

#[test]
fn every_octet_has_its_place() {
    let packet = written_from(&[5, 6], &data(flags::FIRST), b"ab");
    let body = [64, 238, 0x48, 0, 2, 0x12, 0x34, 7, 2, 5, 6, 65, b'a', b'b'];
    assert_eq!(packet[..14], body);
    assert_eq!(packet[14..], crc(&body).to_be_bytes());
}

/// "Round trips of demand 2 hold for every N".
#[test]
fn what_is_written_is_read() {
    for prefix in 0..=MOST_PREFIX {
        for length in [0, 1, 2, 255, 256, MOST_PAYLOAD] {
            let payload = vec![0x5A; length];
            let fields = data(flags::LAST);
            let packet = written_from(&PREFIX[..prefix], &fields, &payload);
            let reading = Reading {
                fields,
                prefix,
                start: 10 + prefix,
                length,
            };
            assert_eq!(read(&packet), Ok(reading));
            assert_eq!(reading.prefix_of(&packet), &PREFIX[..prefix]);
            assert_eq!(reading.payload_of(&packet), payload);
        }
    }
}

/// "the length rule becomes 12 + N + X": a prefix that is announced and missing
/// is 1, and so is one that is there and not announced.
#[test]
fn a_packet_has_the_prefix_that_it_announces() {
    let packet = written_from(&PREFIX[..3], &data(flags::WHOLE), b"abc");
    for announced in 0..=15 {
        let changed = changed(&packet, &[(8, announced)]);
        let read = read(&changed).map(|reading| reading.prefix);
        let expected = match announced {
            3 => Ok(3),
            _ => Err(Refusal::Length),
        };
        assert_eq!(read, expected);
    }
    for count in 0..packet.len() {
        assert_eq!(read(&packet[..count]), Err(Refusal::Length));
    }
}

/// The two lengths are told apart: what one has too much the other may lack.
#[test]
fn an_octet_of_the_prefix_may_be_one_of_the_payload() {
    let packet = written_from(&PREFIX[..3], &data(flags::WHOLE), b"abc");
    let reading = read(&changed(&packet, &[(8, 4), (4, 2)])).unwrap();
    assert_eq!((reading.prefix, reading.start, reading.length), (4, 14, 2));
    assert_eq!(reading.fields.source, b'a');
}

/// The upper half of Address Control stays reserved.
#[test]
fn reserved_bits_beside_a_prefix() {
    let packet = written_from(&PREFIX[..3], &data(flags::WHOLE), b"abc");
    for reserved in 1..=15 {
        let changed = changed(&packet, &[(8, reserved << 4 | 3)]);
        assert_eq!(read(&changed), Err(Refusal::Header));
    }
}

/// Over 15 octets there is no prefix: 4, before 3 and 11. Then 11 tells the
/// whole length.
#[test]
fn writing_tests_the_prefix_first() {
    let version = Fields {
        version: 0,
        ..data(flags::WHOLE)
    };
    for prefix in [&PREFIX[..], &[0; 4_096]] {
        let refusal = refused_from(prefix, version, &[0; 65_536], 0);
        assert_eq!(refusal, Refusal::NotInBase);
    }
    assert_eq!(
        refused_from(&PREFIX[..15], version, b"", 0),
        Refusal::Header
    );
    let small = Refusal::Buffer { wanted: 30 };
    for room in [0, 12, 15, 29] {
        let refusal = refused_from(&PREFIX[..15], data(flags::WHOLE), b"abc", room);
        assert_eq!(refusal, small);
    }
}
