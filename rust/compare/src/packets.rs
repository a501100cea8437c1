//! Packets to read, and requests to write them.

use crate::damage::{self, repair};
use crate::faults::{Faults, Reach};
use link::Noise;
use peer::packet::Fields;

/// A packet to be written, and the size of the buffer lent for it.
pub struct Request {
    /// The header's fields.
    pub fields: Fields,
    /// The prefix of the source address.
    pub prefix: Vec<u8>,
    /// The payload.
    pub payload: Vec<u8>,
    /// The buffer's size.
    pub room: usize,
}

/// Any packet to read: sound, faulty, damaged, or nothing but noise.
pub fn any_packet(noise: &mut Noise) -> Vec<u8> {
    if noise.one_in(32) {
        let count = noise.below(64);
        return noise.octets(count);
    }
    let mut packet = faulty_packet(Faults::some(noise), noise);
    if noise.one_in(2) {
        damage::any(&mut packet, noise);
    }
    packet
}

/// A packet whose CRC is right and whose header has these faults.
pub fn faulty_packet(faults: Faults, noise: &mut Noise) -> Vec<u8> {
    let fields = faults.fields(Reach::Bits, noise);
    let prefix = faults.a_prefix(Reach::Bits, noise);
    let about = some_length(65_535, noise);
    let payload = noise.octets(faults.payload_length(&fields, about));
    let mut packet = assemble(&fields, &prefix, &payload);
    if faults.prefix {
        packet[8] ^= 1 + noise.below(15) as u8;
        repair(&mut packet);
    }
    packet
}

/// Any request to write.
pub fn any_request(noise: &mut Noise) -> Request {
    let faults = Faults::some(noise);
    let mut request = faulty_request(faults, noise);
    request.room = some_room(&request, noise);
    request
}

/// A request whose header has these faults; the buffer is large enough.
pub fn faulty_request(faults: Faults, noise: &mut Noise) -> Request {
    let fields = faults.fields(Reach::Octet, noise);
    let prefix = faults.a_prefix(Reach::Octet, noise);
    let about = some_length(65_537, noise);
    let payload = noise.octets(faults.payload_length(&fields, about));
    let room = 12 + prefix.len() + payload.len() + noise.below(32);
    Request {
        fields,
        prefix,
        payload,
        room,
    }
}

/// The octets of a packet whose subfields fit their bits, right or wrong. The
/// peer's writer would refuse the wrong ones. The prefix is not over 15 octets.
pub fn assemble(fields: &Fields, prefix: &[u8], payload: &[u8]) -> Vec<u8> {
    let packet_control =
        fields.version * 64 + fields.secondary * 32 + fields.flags * 8 + fields.kind;
    let mut packet = vec![fields.destination, fields.protocol, packet_control];
    packet.extend((payload.len() as u16).to_be_bytes());
    packet.extend(fields.channel.to_be_bytes());
    packet.push(fields.number);
    packet.push(fields.reserved * 16 + prefix.len() as u8);
    packet.extend(prefix);
    packet.push(fields.source);
    packet.extend(payload);
    packet.extend([0, 0]);
    repair(&mut packet);
    packet
}

/// Payload lengths of 0 to 1,100 octets, short ones more often as the time goes
/// with the octets, and now and then one of the five up to `most`.
fn some_length(most: usize, noise: &mut Noise) -> usize {
    if noise.one_in(8_000) {
        return most - noise.below(5);
    }
    let bound = noise.one_of(&[3, 40, 40, 300, 1_101]);
    noise.below(bound)
}

/// Buffers for a packet: empty, too small, as without its prefix, exact, larger.
fn some_room(request: &Request, noise: &mut Noise) -> usize {
    let without = 12 + request.payload.len();
    let whole = without + request.prefix.len();
    let smaller = noise.below(whole);
    let larger = whole + 1 + noise.below(64);
    let small = [0, 11, 12, without, smaller, whole - 1];
    noise.one_of(&[&small[..], &[whole, whole, larger, larger, larger]].concat())
}
