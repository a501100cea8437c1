mod arrivals;
mod channels;
mod flow_control;
mod heartbeat;
mod lines;
mod lines_written;
mod packets;
mod prefix;
mod requests;
mod served;
mod table;

use super::*;
use crate::packet::kind::{CLOSE, CONTROL_ACK, DATA, DATA_ACK, OPEN};
use crate::packet::{flags, Fields};
use crate::support::{
    alone, data, packet_for, unset_node, whole, written, Rig, HERE, NOISE, NOISE_LENGTH, RECEIVING,
    SENDING, THERE,
};

/// Sending settings with this channel number.
fn sending(channel: u16) -> Settings {
    Settings { channel, ..SENDING }
}

/// Receiving settings with this channel number.
fn receiving(channel: u16) -> Settings {
    Settings {
        channel,
        ..RECEIVING
    }
}

/// Opens these sending channels, numbered as their index, and has the Opens
/// acknowledged.
fn open_all(rig: &mut Rig, indices: &[usize]) {
    for &index in indices {
        assert_eq!(rig.open(index), 0);
    }
    for &index in indices {
        rig.next().unwrap();
        let ack = packet_for(index as u16, CONTROL_ACK, 0);
        assert_eq!(rig.arrive(&ack), 0);
    }
}

/// Who stands in each line, from the head on.
fn standing(rig: &Rig) -> [Vec<usize>; 3] {
    let lines = rig.node.lines();
    [0, 1, 2].map(|rank| {
        let line = &lines[17 * rank..][..17];
        let (standing, free) = line[1..].split_at(line[0].into());
        assert!(free.iter().all(|&octet| octet == 0));
        standing.iter().map(|&index| index.into()).collect()
    })
}

/// The channel number, kind and sequence number of the next packet.
fn next(rig: &mut Rig) -> (u8, u8, u8) {
    let packet = rig.next_packet().unwrap();
    (packet[6], packet[2] & 0b111, packet[7])
}
