//! Heartbeats where chance does not come to: the last retry, the longest interval,
//! every prefix, and a table of receivers. Every call is made of both libraries and
//! compared.

mod nodes;

use compare::call::Call;
use nodes::{settings, Nodes};
use peer::packet::kind::{DATA, HEARTBEAT, HEARTBEAT_ACK};
use peer::prefix::Prefix;
use peer::settings::Settings;
use peer::state::{Reason, State};

/// A channel that makes Heartbeats at both ends.
fn lively(channel: u16, interval: u32, timeout: u32, retries: u32) -> Settings {
    Settings {
        interval,
        ..settings(channel, timeout, retries)
    }
}

/// The type of a packet.
fn kind(packet: &[u8]) -> u8 {
    packet[2] & 0b111
}

fn ticks(nodes: &mut Nodes, node: usize, count: u32) {
    for _ in 0..count {
        assert_eq!(nodes.call(node, Call::Tick, 0), 0);
    }
}

/// A Heartbeat is handed out by this node; its octets.
fn heartbeat(nodes: &mut Nodes, node: usize) -> Vec<u8> {
    let packet = nodes.packet_of(node).expect("a Heartbeat");
    assert_eq!((kind(&packet), packet[7]), (HEARTBEAT, 0));
    packet
}

/// 1 and the retries, then 9, at both ends.
#[test]
fn the_last_retry() {
    for (node, retries) in [0, 1, 2, 254, 255]
        .into_iter()
        .flat_map(|one| [(0, one), (1, one)])
    {
        let mut nodes = Nodes::open(&[lively(1, 1, 1, retries)]);
        ticks(&mut nodes, node, 1);
        for _ in 0..retries {
            heartbeat(&mut nodes, node);
            ticks(&mut nodes, node, 1);
        }
        heartbeat(&mut nodes, node);
        assert_eq!(nodes.call(node, Call::Tick, 0), 9, "{retries} retries");
        assert_eq!(nodes.twins[node].peer.reason(0), Some(Reason::Heartbeat));
    }
}

/// Interval 3, timeout 2, retries 1: a Heartbeat after tick 3, again after tick 5, and
/// tick 7 answers 9. What is held stays: of a sender a unit that did not go out, of a
/// receiver a complete one.
#[test]
fn the_numbers_of_a_run() {
    for node in [0, 1] {
        let mut nodes = Nodes::open(&[lively(1, 3, 2, 1)]);
        if node == 1 {
            assert_eq!(nodes.call(0, Call::Transfer(0, b"unit"), 0), 0);
            nodes.exchange();
        }
        ticks(&mut nodes, node, 2);
        assert_eq!(nodes.packet_of(node), None);
        ticks(&mut nodes, node, 1);
        heartbeat(&mut nodes, node);
        ticks(&mut nodes, node, 1);
        assert_eq!(nodes.packet_of(node), None);
        ticks(&mut nodes, node, 1);
        heartbeat(&mut nodes, node);
        if node == 0 {
            assert_eq!(nodes.call(0, Call::Transfer(0, b"unit"), 0), 0);
        }
        ticks(&mut nodes, node, 1);
        let said = nodes.twins[node].call(Call::Tick, 0, &mut nodes.tally).said;
        assert_eq!((said.number, said.reason, said.index), (9, 6, 0));
        assert_eq!(nodes.twins[node].state(0), State::Closed);
        let unit = [Call::Reclaim(0), Call::Take(0)][node];
        assert_eq!(nodes.call(node, unit, 4), 0);
        assert_eq!(nodes.call(node, unit, 4), 12);
    }
}

/// Data's retries and the Heartbeat's run out in one tick: Data's.
#[test]
fn data_runs_out_first() {
    let mut nodes = Nodes::open(&[lively(1, 1, 2, 0)]);
    ticks(&mut nodes, 0, 1);
    assert_eq!(nodes.call(0, Call::Transfer(0, b"unit"), 0), 0);
    heartbeat(&mut nodes, 0);
    assert_eq!(nodes.packet().map(|packet| kind(&packet)), Some(DATA));
    ticks(&mut nodes, 0, 1);
    let said = nodes.twins[0].call(Call::Tick, 0, &mut nodes.tally).said;
    assert_eq!((said.number, said.reason), (9, 1));
    assert_eq!(nodes.call(0, Call::Reclaim(0), 4), 0);
}

/// An interval of 65,535 ticks, at both ends.
#[test]
fn the_longest_interval() {
    let mut nodes = Nodes::open(&[lively(1, 65_535, 3, 0)]);
    for node in [0, 1] {
        ticks(&mut nodes, node, 65_534);
        assert_eq!(nodes.packet_of(node), None);
        ticks(&mut nodes, node, 1);
        heartbeat(&mut nodes, node);
    }
}

/// Every length of either prefix: what a Heartbeat and its Ack have, and the least
/// room for the reply; and an octet less.
#[test]
fn every_pair_of_prefixes() {
    let octets: Vec<u8> = (100..115).collect();
    let prefix = |count: usize| Prefix::new(&octets[..count]).expect("not over 15");
    for (own, remote) in (0..16).flat_map(|own| (0..16).map(move |remote| (own, remote))) {
        let mut nodes = Nodes::open(&[Settings {
            own_prefix: prefix(own),
            remote_prefix: prefix(remote),
            ..lively(1, 1, 9, 3)
        }]);
        for (node, there, back) in [(0, own, remote), (1, remote, own)] {
            ticks(&mut nodes, node, 1);
            assert_eq!(nodes.call(node, Call::NextPacket, 11 + there), 11);
            let packet = heartbeat(&mut nodes, node);
            assert_eq!(packet.len(), 12 + there);
            let arrival = Call::Arrival(&packet);
            assert_eq!(nodes.call(1 - node, arrival, 11 + back), 11);
            let outcome = nodes.twins[1 - node].call(arrival, 12 + back, &mut nodes.tally);
            assert_eq!(outcome.said.number, 0);
            assert_eq!(kind(&outcome.octets), HEARTBEAT_ACK);
            assert_eq!(outcome.octets.len(), 12 + back);
            assert_eq!(nodes.call(node, Call::Arrival(&outcome.octets), 12), 0);
            assert_eq!(nodes.call(node, Call::Arrival(&outcome.octets), 12), 16);
        }
    }
}

/// Sixteen receivers make their Heartbeats in one tick, and stand by index; so they do
/// again when they are resent.
#[test]
fn a_table_of_receivers() {
    let table: Vec<Settings> = (0..16).map(|channel| lively(channel, 2, 3, 1)).collect();
    let mut nodes = Nodes::open(&table);
    ticks(&mut nodes, 1, 2);
    for channel in 0..16 {
        assert_eq!(heartbeat(&mut nodes, 1)[6], channel);
    }
    assert_eq!(nodes.packet_of(1), None);
    ticks(&mut nodes, 1, 3);
    for channel in 0..16 {
        assert_eq!(heartbeat(&mut nodes, 1)[6], channel);
    }
    ticks(&mut nodes, 1, 2);
    let said = nodes.twins[1].call(Call::Tick, 0, &mut nodes.tally).said;
    assert_eq!((said.number, said.reason, said.index), (9, 6, 0));
    for index in 0..16 {
        assert_eq!(nodes.twins[1].peer.reason(index), Some(Reason::Heartbeat));
    }
}
