//! Whose packet an arrival is, by a table as it lies there. The caller may have
//! overwritten it, so that two records agree in all that settings tell them apart
//! by (document 02, A2): a packet still finds its record by the direction that its
//! type asks for, of type 6 its type and its payload (A5), and a Heartbeat or its Ack,
//! which asks for none, the first.

use peer::packet::{kind, read, Fields};
use proved::record::{direction, Addresses, Channel, Node};
use proved::Said;

use crate::tally::Tally;

/// A case of [`check_found`].
pub const BY_DIRECTION: &str = "overwritten: found by its direction alone";

/// And another.
pub const FIRST: &str = "overwritten: a Heartbeat or its Ack finds the first of two";

/// Panics unless the answer names the record that the packet is for, or none if it
/// is for none. The reply fits.
pub fn check_found(table: &[Channel], node: Node, packet: &[u8], said: Said, tally: &mut Tally) {
    let found = find(table, node, packet);
    assert_eq!(said.index, found.unwrap_or(table.len()), "{said:?}");
    let Some(index) = found else {
        return;
    };
    let own = &table[index].addresses;
    let turned = |one: &Channel| {
        one.addresses.direction != own.direction && names(&one.addresses) == names(own)
    };
    if table.iter().any(turned) {
        tally.case(match packet[2] & 0b111 {
            kind::HEARTBEAT | kind::HEARTBEAT_ACK => FIRST,
            _ => BY_DIRECTION,
        });
    }
}

/// "Data and Control look for a receiving record, Acks for a sending one", a
/// Heartbeat and its Ack for either, a Flow Control packet, which has a payload, for a
/// sending one and its Ack for a receiving one; what cannot be read, or is for another
/// node, looks for none.
fn find(table: &[Channel], node: Node, packet: &[u8]) -> Option<usize> {
    let reading = read(packet).ok()?;
    let Fields {
        destination,
        protocol,
        kind,
        channel,
        source,
        ..
    } = reading.fields;
    let end = match kind {
        kind::HEARTBEAT | kind::HEARTBEAT_ACK => None,
        kind::DATA_ACK | kind::CONTROL_ACK => Some(direction::SENDS),
        kind::FLOW_CONTROL if reading.length > 0 => Some(direction::SENDS),
        _ => Some(direction::RECEIVES),
    };
    let prefix = reading.prefix_of(packet);
    let mut records = table.iter();
    let found = records.position(|record| {
        let addresses = &record.addresses;
        end.is_none_or(|end| end == addresses.direction)
            && names(addresses) == (channel, source, prefix)
    });
    found.filter(|_| (destination, protocol) == (node.address, node.protocol))
}

/// What tells two records of accepted settings apart.
fn names(addresses: &Addresses) -> (u16, u8, &[u8]) {
    let Addresses {
        channel, remote, ..
    } = *addresses;
    (channel, remote, addresses.remote_prefix.said())
}
