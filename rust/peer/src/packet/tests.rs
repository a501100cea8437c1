use super::*;

mod prefix;

/// Octets that no call may touch are filled with this.
const NOISE: u8 = 0xA5;

fn data(flags: u8) -> Fields {
    Fields {
        destination: 64,
        protocol: 238,
        version: VERSION,
        flags,
        kind: kind::DATA,
        channel: 0x1234,
        number: 7,
        source: 65,
        ..Fields::default()
    }
}

fn alone(kind: u8) -> Fields {
    Fields {
        kind,
        ..data(flags::WHOLE)
    }
}

fn written(fields: &Fields, payload: &[u8]) -> Vec<u8> {
    written_from(&[], fields, payload)
}

fn written_from(prefix: &[u8], fields: &Fields, payload: &[u8]) -> Vec<u8> {
    let mut out = vec![NOISE; 12 + prefix.len() + payload.len()];
    assert_eq!(write(fields, prefix, payload, &mut out), Ok(out.len()));
    out
}

/// The packet with some octets changed and the trailer made right again.
fn changed(packet: &[u8], changes: &[(usize, u8)]) -> Vec<u8> {
    let mut packet = packet.to_vec();
    for &(place, octet) in changes {
        packet[place] = octet;
    }
    let body = packet.len() - TRAILER_LENGTH;
    let trailer = crc(&packet[..body]).to_be_bytes();
    packet[body..].copy_from_slice(&trailer);
    packet
}

fn refused(fields: Fields, payload: &[u8], room: usize) -> Refusal {
    refused_from(&[], fields, payload, room)
}

fn refused_from(prefix: &[u8], fields: Fields, payload: &[u8], room: usize) -> Refusal {
    let mut out = vec![NOISE; room];
    let refusal = write(&fields, prefix, payload, &mut out).unwrap_err();
    assert!(out.iter().all(|&octet| octet == NOISE));
    refusal
}

#[test]
fn packet_control_of_data_segments() {
    let controls = [
        (flags::FIRST, 0x48),
        (flags::CONTINUATION, 0x40),
        (flags::LAST, 0x50),
        (flags::WHOLE, 0x58),
    ];
    for (flags, control) in controls {
        assert_eq!(written(&data(flags), b"x")[2], control);
    }
}

#[test]
fn every_octet_has_its_place() {
    let packet = written(&data(flags::FIRST), b"abc");
    let body = [64, 238, 0x48, 0, 3, 0x12, 0x34, 7, 0, 65, b'a', b'b', b'c'];
    assert_eq!(packet[..13], body);
    assert_eq!(packet[13..], crc(&body).to_be_bytes());
}

#[test]
fn what_is_written_is_read() {
    for length in [0, 1, 2, 255, 256, 1_024, MOST_PAYLOAD] {
        let payload = vec![0x5A; length];
        let fields = data(flags::LAST);
        let packet = written(&fields, &payload);
        let reading = Reading {
            fields,
            prefix: 0,
            start: 10,
            length,
        };
        assert_eq!(read(&packet), Ok(reading));
        assert_eq!(reading.payload_of(&packet), payload);
    }
}

#[test]
fn every_type_without_payload_is_read() {
    for kind in 0..=7 {
        let packet = written(&alone(kind), b"");
        assert_eq!(read(&packet).unwrap().fields, alone(kind));
    }
}

#[test]
fn an_empty_segment_ends_its_unit() {
    for unfinished in [flags::FIRST, flags::CONTINUATION] {
        let full = written(&data(unfinished), b"x");
        let emptied = [&full[..10], &full[11..]].concat();
        let empty = changed(&emptied, &[(3, 0), (4, 0)]);
        assert_eq!(read(&empty), Err(Refusal::Header));
        assert_eq!(refused(data(unfinished), b"", 12), Refusal::Header);
    }
    for ends in [flags::LAST, flags::WHOLE] {
        assert_eq!(read(&written(&data(ends), b"")).unwrap().length, 0);
    }
}

#[test]
fn octets_past_the_packet_stay() {
    let mut out = [NOISE; 20];
    assert_eq!(write(&data(flags::WHOLE), &[], b"abc", &mut out), Ok(15));
    assert_eq!(out[15..], [NOISE; 5]);
    assert_eq!(write(&data(flags::WHOLE), &[1, 2], b"a", &mut out), Ok(15));
    assert_eq!(out[15..], [NOISE; 5]);
}

#[test]
fn length_is_tested_first() {
    let packet = written(&data(flags::WHOLE), b"abc");
    for count in 0..packet.len() {
        assert_eq!(read(&packet[..count]), Err(Refusal::Length));
    }
    let longer = [&packet[..], &[0]].concat();
    assert_eq!(read(&longer), Err(Refusal::Length));
}

#[test]
fn every_changed_bit_but_of_the_lengths_is_a_wrong_crc() {
    let packet = written_from(&[1, 2], &data(flags::WHOLE), b"abc");
    for place in 0..packet.len() {
        for bit in 0..8 {
            let mut damaged = packet.clone();
            damaged[place] ^= 1 << bit;
            let of_lengths = [3, 4].contains(&place) || place == 8 && bit < 4;
            let refusal = match of_lengths {
                true => Refusal::Length,
                false => Refusal::Crc,
            };
            assert_eq!(read(&damaged), Err(refusal));
        }
    }
}

#[test]
fn reading_tests_4_before_3() {
    let packet = written(&alone(kind::OPEN), b"");
    let cases = [
        (vec![(2, 0x7A)], Refusal::NotInBase),
        (vec![(2, 0x7E)], Refusal::NotInBase),
        (vec![(2, 0xBE)], Refusal::NotInBase),
        (vec![(2, 0x7A), (8, 0xF0)], Refusal::NotInBase),
        (vec![(2, 0x9A)], Refusal::Header),
        (vec![(2, 0x9E)], Refusal::Header),
        (vec![(2, 0x4E)], Refusal::Header),
        (vec![(2, 0x4A)], Refusal::Header),
        (vec![(2, 0x44)], Refusal::Header),
        (vec![(2, 0x55)], Refusal::Header),
        (vec![(8, 0x10)], Refusal::Header),
    ];
    for (changes, refusal) in cases {
        assert_eq!(read(&changed(&packet, &changes)), Err(refusal));
    }
}

/// Of all but Data no payload is over one octet, and only Acks of Data and Control
/// and what belongs to Flow Control have that (000, 4.2.4.1).
#[test]
fn payloads_of_all_but_data() {
    for length in [1, 2, 255, 256, MOST_PAYLOAD] {
        let payload = vec![0x5A; length];
        let packet = written(&data(flags::WHOLE), &payload);
        for kind in 1..=7 {
            let other = changed(&packet, &[(2, 0x58 | kind)]);
            if length == 1 && [1, 6, 7].contains(&kind) {
                let reading = read(&other).unwrap();
                assert_eq!((reading.fields, reading.start), (alone(kind), 10));
                assert_eq!(reading.payload_of(&other), payload);
                assert_eq!(written(&alone(kind), &payload), other);
            } else {
                assert_eq!(read(&other), Err(Refusal::Header));
                let refusal = refused(alone(kind), &payload, 12 + length);
                assert_eq!(refusal, Refusal::Header);
            }
        }
    }
}

/// Every number stated comes back, from behind every prefix.
#[test]
fn a_number_stated_is_read() {
    let prefix = [7; 15];
    for (stated, kind) in (0..=255).flat_map(|stated| [1, 6, 7].map(|kind| (stated, kind))) {
        let prefix = &prefix[..usize::from(stated) % 16];
        let packet = written_from(prefix, &alone(kind), &[stated]);
        assert_eq!(packet.len(), 13 + prefix.len());
        let reading = read(&packet).unwrap();
        assert_eq!(reading.fields, alone(kind));
        assert_eq!(reading.prefix_of(&packet), prefix);
        assert_eq!(reading.payload_of(&packet), [stated]);
    }
}

#[test]
fn writing_tests_4_then_3_then_11() {
    let whole = data(flags::WHOLE);
    let secondary = Fields {
        secondary: 2,
        version: 0,
        ..whole
    };
    let reserved = Fields {
        reserved: 16,
        ..whole
    };
    let version = Fields {
        version: 5,
        ..whole
    };
    assert_eq!(refused(secondary, b"", 0), Refusal::NotInBase);
    assert_eq!(refused(alone(14), b"x", 0), Refusal::NotInBase);
    assert_eq!(refused(alone(6), b"xy", 0), Refusal::Header);
    let stating = Refusal::Buffer { wanted: 13 };
    assert_eq!(refused(alone(6), b"x", 12), stating);
    assert_eq!(refused(alone(8), b"x", 0), Refusal::NotInBase);
    assert_eq!(refused(reserved, b"", 0), Refusal::Header);
    assert_eq!(refused(version, b"", 0), Refusal::Header);
    assert_eq!(refused(data(4), b"", 0), Refusal::Header);
    assert_eq!(refused(whole, &[0; 65_536], 0), Refusal::Header);
    let small = Refusal::Buffer { wanted: 15 };
    assert_eq!(refused(whole, b"abc", 14), small);
    assert_eq!(refused(whole, b"abc", 0), small);
}
