//! The order of channels (document 02, A4) where chance seldom comes to it. Every
//! call is made of both libraries, and the lines are compared after each.

mod nodes;

use compare::call::Call;
use compare::lines::{octets_of, standing};
use nodes::{settings, Nodes};
use peer::packet::{flags, kind, write, Fields, VERSION};
use peer::settings::Settings;

/// Sixteen channels from node 0, with windows of 4, all open.
fn sixteen() -> Nodes {
    let table: Vec<Settings> = (0..16).map(|channel| settings(channel, 4, 9)).collect();
    Nodes::open(&table)
}

/// The channels of the next packets, of so many. A channel's number is its index.
fn order(nodes: &mut Nodes, count: usize) -> Vec<u8> {
    let packets = (0..count).map(|_| nodes.packet().expect("a packet")[6]);
    packets.collect()
}

fn transfer(nodes: &mut Nodes, index: usize) {
    assert_eq!(nodes.call(0, Call::Transfer(index, b"unit"), 0), 0);
}

/// An ack from the other end of this channel arrives at node 0.
fn ack(nodes: &mut Nodes, channel: u16, kind: u8, number: u8) {
    let node = nodes.twins[0].node;
    let fields = Fields {
        destination: node.address,
        protocol: node.protocol,
        version: VERSION,
        flags: flags::WHOLE,
        kind,
        channel,
        number,
        source: nodes.twins[0].settings[0].remote,
        ..Fields::default()
    };
    let mut packet = [0; 12];
    write(&fields, &[], &[], &mut packet).expect("it fits");
    assert_eq!(nodes.call(0, Call::Arrival(&packet), 12), 0);
}

/// Who joins last waits for fifteen packets of its rank, and no more, though all
/// the others have more to send.
#[test]
fn the_last_of_sixteen() {
    let mut nodes = sixteen();
    for index in (0..16).chain(0..16).rev() {
        transfer(&mut nodes, index);
    }
    let turn: Vec<u8> = (0..16).rev().collect();
    assert_eq!(order(&mut nodes, 32), turn.repeat(2));
    assert!(nodes.packet().is_none());
    assert_eq!(nodes.tally.waited, 15);
}

/// All sixteen are ready to be resent in one tick, and new Data waits: it goes
/// behind, in the order in which it came.
#[test]
fn sixteen_join_in_one_tick() {
    let mut nodes = sixteen();
    for index in [7, 3, 15, 0, 12, 1, 2, 9, 8, 4, 11, 5, 6, 14, 13, 10] {
        transfer(&mut nodes, index);
        assert_eq!(order(&mut nodes, 1), [index as u8]);
    }
    transfer(&mut nodes, 9);
    transfer(&mut nodes, 2);
    for _ in 0..4 {
        assert_eq!(nodes.call(0, Call::Tick, 0), 0);
    }
    let by_index: Vec<u8> = (0..16).collect();
    assert_eq!(order(&mut nodes, 16), by_index);
    assert_eq!(order(&mut nodes, 2), [9, 2]);
}

/// An Open that waits to be resent gets its late Ack, which brings the kept Close:
/// ready before and after, the channel keeps its place.
#[test]
fn a_kept_close_has_the_opens_place() {
    let table: Vec<Settings> = (0..3).map(|channel| settings(channel, 4, 9)).collect();
    let mut nodes = Nodes::open(&table);
    let again = nodes.twins[0].settings.clone();
    assert_eq!(nodes.call(0, Call::Settings(&again), 0), 0);
    for call in [Call::Open(1), Call::Close(1), Call::Open(2)] {
        assert_eq!(nodes.call(0, call, 0), 0);
    }
    assert_eq!(order(&mut nodes, 2), [1, 2]);
    for _ in 0..4 {
        assert_eq!(nodes.call(0, Call::Tick, 0), 0);
    }
    assert_eq!(nodes.call(0, Call::Open(0), 0), 0);
    ack(&mut nodes, 1, kind::CONTROL_ACK, 0);
    assert_eq!(standing(&nodes.twins[0].lines, 0), [1, 2, 0]);
    let close = nodes.packet().expect("a Close");
    assert_eq!((close[6], close[2] & 0b111), (1, kind::CLOSE));
    assert_eq!(order(&mut nodes, 2), [2, 0]);
}

/// Lines that the caller wrote: a channel that stands in the line of new Data
/// alone sends that before what it has to resend, and is then put right.
#[test]
fn new_data_before_resent_data() {
    let mut nodes = sixteen();
    for _ in 0..2 {
        transfer(&mut nodes, 5);
    }
    let first = nodes.packet().expect("Data");
    for _ in 0..4 {
        assert_eq!(nodes.call(0, Call::Tick, 0), 0);
    }
    nodes.twins[0].write_lines(octets_of([vec![5], vec![3], vec![4, 5]]));
    let second = nodes.packet().expect("Data");
    assert_eq!([first[7], second[7]], [1, 2]);
    let lines = octets_of([vec![], vec![3, 5], vec![4]]);
    assert_eq!(nodes.twins[0].lines, lines);
    ack(&mut nodes, 5, kind::DATA_ACK, 2);
    assert_eq!(nodes.packet().expect("Data"), first);
    assert_eq!(nodes.call(0, Call::NextPacket, 64), 12);
}
