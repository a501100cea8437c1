//! One call made of both libraries; a difference is a panic.

use crate::packets::Request;
use link::Noise;
use peer::answer::Refusal;

/// Octets around a lent buffer that no call may touch.
const MARGIN: usize = 16;

/// Compares reading this packet, and gives the answer.
#[track_caller]
pub fn reading(packet: &[u8]) -> u32 {
    let expected = reading_of_peer(packet);
    let given = proved::read_packet(packet);
    assert_eq!(given, expected, "reading {}", shown(packet));
    given.answer
}

/// Compares writing this packet into a buffer full of noise, every octet of
/// the buffer and of its margins, and gives the answer.
#[track_caller]
pub fn writing(request: &Request, noise: &mut Noise) -> u32 {
    let before = noise.octets(request.room + 2 * MARGIN);
    let lent = MARGIN..MARGIN + request.room;
    let mut by_peer = before.clone();
    let expected = writing_of_peer(request, &mut by_peer[lent.clone()]);
    let mut by_proved = before.clone();
    let fields = to_proved(&request.fields);
    let Request {
        prefix, payload, ..
    } = request;
    let given = proved::write_packet(fields, prefix, payload, &mut by_proved[lent]);

    let what = format!(
        "writing {:?} with {} octets behind {} into {}",
        request.fields,
        payload.len(),
        prefix.len(),
        request.room
    );
    assert_eq!(given, expected, "{what}");
    assert!(by_proved == by_peer, "{what}: the octets differ");
    let written = if given.answer == 0 { given.length } else { 0 };
    let end = MARGIN + written;
    assert!(by_proved[..MARGIN] == before[..MARGIN], "{what}: before it");
    assert!(by_proved[end..] == before[end..], "{what}: past its end");
    given.answer
}

/// Compares the check sum over these octets.
#[track_caller]
pub fn check_sum(octets: &[u8]) {
    let (given, expected) = (proved::crc(octets), peer::crc::crc(octets));
    assert_eq!(given, expected, "the check sum of {}", shown(octets));
}

/// The same fields as the proved library takes them.
pub fn to_proved(fields: &peer::packet::Fields) -> proved::Fields {
    proved::Fields {
        destination: fields.destination,
        protocol: fields.protocol,
        version: fields.version,
        secondary: fields.secondary,
        flags: fields.flags,
        kind: fields.kind,
        channel: fields.channel,
        number: fields.number,
        reserved: fields.reserved,
        source: fields.source,
    }
}

fn reading_of_peer(packet: &[u8]) -> proved::Reading {
    match peer::packet::read(packet) {
        Ok(reading) => proved::Reading {
            answer: 0,
            fields: to_proved(&reading.fields),
            prefix: reading.prefix,
            start: reading.start,
            length: reading.length,
        },
        Err(refusal) => proved::Reading {
            answer: refusal.number(),
            ..proved::Reading::default()
        },
    }
}

fn writing_of_peer(request: &Request, out: &mut [u8]) -> proved::Writing {
    let Request {
        fields,
        prefix,
        payload,
        ..
    } = request;
    let result = peer::packet::write(fields, prefix, payload, out);
    proved::Writing {
        answer: result.err().map_or(0, Refusal::number),
        length: result.unwrap_or_else(Refusal::wanted),
    }
}

/// Enough of these octets to know them by.
fn shown(octets: &[u8]) -> String {
    let front = &octets[..octets.len().min(16)];
    format!("{} octets: {front:02x?}", octets.len())
}
