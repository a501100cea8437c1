//! The proved packet reader, packet writer and check sum beside the peer's.

use compare::check;
use compare::counts::{Counts, OF_READING, OF_WRITING};
use compare::damage::repair;
use compare::faults::{Faults, Reach};
use compare::packets::{any_packet, any_request, assemble, faulty_packet, faulty_request, Request};
use link::Noise;
use peer::packet::{flags, kind, Fields, VERSION};

/// Packets read and packets written when PEAT_PACKETS does not ask for more.
const LEAST_PACKETS: u64 = 120_000;

fn packets_wanted() -> u64 {
    let Ok(asked) = std::env::var("PEAT_PACKETS") else {
        return LEAST_PACKETS;
    };
    let asked: u64 = asked.parse().expect("PEAT_PACKETS is a number");
    asked.max(LEAST_PACKETS)
}

fn data(flags: u8) -> Fields {
    Fields {
        destination: 64,
        protocol: 238,
        version: VERSION,
        flags,
        kind: kind::DATA,
        channel: 1,
        number: 255,
        source: 65,
        ..Fields::default()
    }
}

/// Fields whose subfields are those of these two octets, but for the prefix.
fn with_controls(packet_control: u8, address_control: u8) -> Fields {
    Fields {
        version: packet_control >> 6,
        secondary: packet_control >> 5 & 1,
        flags: packet_control >> 3 & 3,
        kind: packet_control & 7,
        reserved: address_control >> 4,
        ..data(0)
    }
}

#[test]
fn packets_of_every_sort() {
    let noise = &mut Noise::new(0x5057_1E00);
    let mut counts = Counts::default();
    for _ in 0..packets_wanted() {
        let packet = any_packet(noise);
        counts.add("reading", check::reading(&packet));
        counts.add("writing", check::writing(&any_request(noise), noise));
        if noise.one_in(8) {
            let part = noise.below(packet.len() + 1);
            check::check_sum(&packet[part..]);
            check::check_sum(&packet[..part]);
        }
    }
    print!("{counts}");
    counts.assert_answers("reading", &OF_READING);
    counts.assert_answers("writing", &OF_WRITING);
}

#[test]
fn every_combination_of_clauses() {
    let noise = &mut Noise::new(0x5057_1E01);
    for faults in Faults::all() {
        for _ in 0..40 {
            let packet = faulty_packet(faults, noise);
            let answer = faults.answer(Reach::Bits);
            assert_eq!(check::reading(&packet), answer, "{faults:?}");
            // Over-long Data is a fault of its own, not among these.
            let request = faulty_request(faults, noise);
            let answer = faults.answer(Reach::Octet);
            let too_long = request.payload.len() > 65_535 && answer == 0;
            let answer = if too_long { 3 } else { answer };
            assert_eq!(check::writing(&request, noise), answer, "{faults:?}");
        }
    }
}

#[test]
fn every_packet_control_and_address_control() {
    let noise = &mut Noise::new(0x5057_1E02);
    let mut counts = Counts::default();
    for controls in 0..=u16::MAX {
        let [packet_control, address_control] = controls.to_be_bytes();
        let fields = with_controls(packet_control, address_control);
        let count = usize::from(address_control & 15);
        let prefix = noise.octets(count);
        let packet = assemble(&fields, &prefix, &[]);
        assert_eq!([packet[2], packet[8]], controls.to_be_bytes());
        let request = Request {
            fields,
            prefix,
            payload: Vec::new(),
            room: 12 + count,
        };
        counts.add("reading", check::reading(&packet));
        counts.add("writing", check::writing(&request, noise));
        // The same without its prefix, which is still announced.
        let mut cut = [&packet[..9], &packet[9 + count..]].concat();
        repair(&mut cut);
        counts.add("reading what is cut", check::reading(&cut));
    }
    print!("{counts}");
    counts.assert_answers("reading", &[0, 3, 4]);
    counts.assert_answers("writing", &[0, 3, 4]);
    counts.assert_answers("reading what is cut", &[0, 1, 3, 4]);
}

/// Prefixes of every length, and one octet more, around payloads and buffers that
/// just fit or just do not.
#[test]
fn every_length_of_a_prefix() {
    let noise = &mut Noise::new(0x5057_1E08);
    let mut counts = Counts::default();
    for (count, length) in (0..=17).flat_map(|count| (0..20).map(move |length| (count, length))) {
        let (prefix, payload) = (noise.octets(count), noise.octets(length));
        let fields = data(flags::LAST);
        for room in [
            11 + length,
            12 + length,
            11 + count + length,
            12 + count + length,
        ] {
            let (prefix, payload) = (prefix.clone(), payload.clone());
            let request = Request {
                fields,
                prefix,
                payload,
                room,
            };
            counts.add("writing", check::writing(&request, noise));
        }
        // More than 15 cannot be announced.
        for announced in (0..16).filter(|_| count < 16) {
            let mut packet = assemble(&fields, &prefix, &payload);
            packet[8] = announced;
            repair(&mut packet);
            counts.add("reading", check::reading(&packet));
        }
    }
    counts.assert_answers("writing", &[0, 4, 11]);
    counts.assert_answers("reading", &[0, 1]);
}

#[test]
fn every_packet_control_with_one_octet() {
    let noise = &mut Noise::new(0x5057_1E03);
    for packet_control in 0..=255 {
        let fields = with_controls(packet_control, 0);
        let payload = noise.octets(1);
        check::reading(&assemble(&fields, &[], &payload));
        let request = Request {
            fields,
            prefix: Vec::new(),
            payload,
            room: 13,
        };
        check::writing(&request, noise);
    }
}

/// Which types may have a payload, and how much: those of document 02, A5, one octet.
#[test]
fn every_type_with_few_octets() {
    let noise = &mut Noise::new(0x5057_1E09);
    for (kind, length) in (0..8).flat_map(|kind| (0..4).map(move |length| (kind, length))) {
        let most = match kind {
            kind::DATA => 3,
            kind::DATA_ACK | kind::CONTROL_ACK | kind::FLOW_CONTROL => 1,
            _ => 0,
        };
        let answer = if length <= most { 0 } else { 3 };
        let fields = Fields {
            kind,
            ..data(flags::WHOLE)
        };
        let (prefix, payload) = (noise.prefix(), noise.octets(length));
        let packet = assemble(&fields, &prefix, &payload);
        assert_eq!(check::reading(&packet), answer, "type {kind}, {length}");
        let request = Request {
            fields,
            room: 12 + prefix.len() + length,
            prefix,
            payload,
        };
        assert_eq!(check::writing(&request, noise), answer);
    }
}

#[test]
fn every_value_of_each_subfield_asked_of_the_writer() {
    let noise = &mut Noise::new(0x5057_1E04);
    let places: [fn(&mut Fields) -> &mut u8; 5] = [
        |fields| &mut fields.version,
        |fields| &mut fields.secondary,
        |fields| &mut fields.flags,
        |fields| &mut fields.kind,
        |fields| &mut fields.reserved,
    ];
    for place in places {
        for (value, length) in (0..=255).flat_map(|value| [(value, 0), (value, 5)]) {
            let mut fields = data(flags::WHOLE);
            *place(&mut fields) = value;
            let payload = noise.octets(length);
            let room = 12 + length;
            let request = Request {
                fields,
                prefix: Vec::new(),
                payload,
                room,
            };
            check::writing(&request, noise);
        }
    }
}

#[test]
fn the_longest_payloads() {
    let noise = &mut Noise::new(0x5057_1E05);
    for length in 65_533..=65_537 {
        let payload = noise.octets(length);
        for kind in [kind::DATA, kind::CONTROL_ACK] {
            let fields = Fields {
                kind,
                ..data(flags::WHOLE)
            };
            let prefix = noise.prefix();
            let whole = 12 + prefix.len() + length;
            // Over 65,535 octets, X is what is left of the length in 16 bits.
            check::reading(&assemble(&fields, &prefix, &payload));
            for room in [0, whole - 1, whole, whole + 1] {
                let request = Request {
                    fields,
                    prefix: prefix.clone(),
                    payload: payload.clone(),
                    room,
                };
                check::writing(&request, noise);
            }
        }
    }
}

#[test]
fn what_the_proved_writer_writes_the_proved_reader_reads() {
    let noise = &mut Noise::new(0x5057_1E06);
    for _ in 0..5_000 {
        let sound = Faults::default();
        let fields = sound.fields(Reach::Bits, noise);
        let length = sound.payload_length(&fields, noise.below(400));
        let fields = check::to_proved(&fields);
        let (prefix, payload) = (noise.prefix(), noise.octets(length));
        let whole = 12 + prefix.len() + length;
        let room = whole + noise.below(9);
        let mut out = noise.octets(room);
        let writing = proved::write_packet(fields, &prefix, &payload, &mut out);
        assert_eq!((writing.answer, writing.length), (0, whole));
        let reading = proved::read_packet(&out[..writing.length]);
        let start = 10 + prefix.len();
        let expected = proved::Reading {
            answer: 0,
            fields,
            prefix: prefix.len(),
            start,
            length,
        };
        assert_eq!(reading, expected);
        assert_eq!(out[9..9 + prefix.len()], prefix);
        assert_eq!(out[start..start + length], payload);
    }
}

#[test]
fn check_sums_of_wholes_and_parts() {
    assert_eq!(proved::crc(b"123456789"), 0x29B1);
    assert_eq!(proved::crc(b""), 0xFFFF);
    let noise = &mut Noise::new(0x5057_1E07);
    let octets = noise.octets(80);
    for end in 0..=octets.len() {
        for start in 0..=end {
            check::check_sum(&octets[start..end]);
        }
    }
    for octet in 0..=255 {
        check::check_sum(&[octet]);
    }
    check::check_sum(&noise.octets(70_000));
}
