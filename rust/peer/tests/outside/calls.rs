//! Calls that are checked for what document 01 says of all calls.

use link::Noise;
use peer::answer::Answer;
use peer::crc::crc;
use peer::lines::LINE_OCTETS;
use peer::node::Node;
use peer::packet::{flags, write, Fields, VERSION};
use peer::prefix::Prefix;
use peer::settings::{storage, NodeSettings, Settings};

/// The protocol ID of all nodes here.
pub const PROTOCOL: u8 = 238;

/// The logical addresses of the two nodes.
pub const ADDRESSES: [u8; 2] = [64, 65];

/// A packet without payload for one of the two nodes, from the other.
pub fn packet(node: usize, channel: u16, kind: u8, number: u8) -> Vec<u8> {
    data(node, channel, kind, number, flags::WHOLE, &[])
}

/// A packet for one of the two nodes, from the other.
pub fn data(node: usize, channel: u16, kind: u8, number: u8, flags: u8, payload: &[u8]) -> Vec<u8> {
    let fields = Fields {
        destination: ADDRESSES[node],
        protocol: PROTOCOL,
        version: VERSION,
        flags,
        kind,
        channel,
        number,
        source: ADDRESSES[1 - node],
        ..Fields::default()
    };
    let mut out = vec![0; 12 + payload.len()];
    write(&fields, &[], payload, &mut out).expect("it fits");
    out
}

/// The packet as it comes from behind this prefix (000, 4.2.3.9).
pub fn behind(prefix: &Prefix, packet: &[u8]) -> Vec<u8> {
    let (head, rest) = packet[..packet.len() - 2].split_at(9);
    let mut packet = [head, prefix.said(), rest].concat();
    packet[8] = prefix.length;
    let trailer = crc(&packet).to_be_bytes();
    [&packet[..], &trailer].concat()
}

/// The payload of a packet, wherever it begins.
pub fn payload_of(packet: &[u8]) -> &[u8] {
    let prefix = usize::from(packet[8] & 0b1111);
    &packet[10 + prefix..packet.len() - 2]
}

/// A prefix made by chance; many are empty.
pub fn prefix(noise: &mut Noise) -> Prefix {
    Prefix::new(&noise.prefix()).expect("not over 15")
}

/// One of the two nodes, with noise in its storage.
pub fn new_node(node: usize, table: &[Settings], noise: &mut Noise) -> Node {
    let settings = NodeSettings {
        own: ADDRESSES[node],
        protocol: PROTOCOL,
    };
    let (octets, lengths) = storage(table);
    let memory = noise.octets(octets);
    let lengths = (0..lengths).map(|_| noise.octet().into()).collect();
    let lines = vec![0xA5; LINE_OCTETS];
    let mut node = Node::new(settings, table.len(), memory, lengths, lines);
    assert_eq!(node.settings(table).number, 0);
    node
}

/// Makes a call with a buffer of this size; gives the answer and the octets
/// written. "All but 0, 9 and 15 change no record and no octet"; "9 writes no
/// reply"; "A written packet or unit leaves octets past its end untouched."
pub fn checked(
    node: &mut Node,
    buffer: usize,
    call: impl FnOnce(&mut Node, &mut [u8]) -> Answer,
) -> (Answer, Vec<u8>) {
    const QUIET: u8 = 0xA5;
    let before = node.clone();
    let mut out = vec![QUIET; buffer];
    let answer = call(node, &mut out);
    if ![0, 9, 15].contains(&answer.number) {
        assert!(*node == before, "{answer:?} changed something");
    }
    match answer.number {
        0 | 15 => {}
        11 => assert!(answer.length > buffer, "{answer:?} wants no more"),
        _ => assert_eq!((answer.length, answer.confirmed), (0, 0)),
    }
    let past = out.split_off(answer.octets());
    assert!(past.iter().all(|&octet| octet == QUIET));
    (answer, out)
}

/// Takes until nothing is left.
pub fn take_all(node: &mut Node, index: usize) -> Vec<Vec<u8>> {
    units(|out| node.take(index, out))
}

/// Reclaims until nothing is left.
pub fn reclaim_all(node: &mut Node, index: usize) -> Vec<Vec<u8>> {
    units(|out| node.reclaim(index, out))
}

fn units(mut call: impl FnMut(&mut [u8]) -> Answer) -> Vec<Vec<u8>> {
    let mut units = Vec::new();
    loop {
        let mut out = vec![0; 1_024];
        let answer = call(&mut out);
        if answer.number == 12 {
            return units;
        }
        assert_eq!(answer.number, 0);
        out.truncate(answer.length);
        units.push(out);
    }
}
