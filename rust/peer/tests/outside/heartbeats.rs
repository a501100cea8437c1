//! Heartbeats between two nodes (document 02, A2): "A quiet channel and a dead one
//! look alike."

use peer::node::Node;
use peer::packet::kind::{CLOSE, HEARTBEAT, HEARTBEAT_ACK};
use peer::state::{Reason, State};

use crate::calls::packet;
use crate::traps::{opened, opened_with, ticks};

/// The next packet of a node, if there is one.
pub fn sent(node: &mut Node) -> Option<Vec<u8>> {
    let mut out = [0; 64];
    let answer = node.next_packet(&mut out);
    (answer.number == 0).then(|| out[..answer.length].to_vec())
}

/// A node's answer to a packet, and its ack.
pub fn received(node: &mut Node, packet: &[u8]) -> (u8, Vec<u8>) {
    let mut reply = [0; 64];
    let answer = node.arrival(packet, &mut reply);
    (answer.number, reply[..answer.octets()].to_vec())
}

/// All packets of both nodes go to the other and their acks come back; gives the
/// kinds, by node.
fn exchange_all(nodes: &mut [Node; 2]) -> Vec<(usize, u8)> {
    let mut kinds = Vec::new();
    for from in [0, 1] {
        while let Some(packet) = sent(&mut nodes[from]) {
            kinds.push((from, packet[2] & 0b111));
            let (_, ack) = received(&mut nodes[1 - from], &packet);
            if !ack.is_empty() {
                assert_eq!(received(&mut nodes[from], &ack).0, 0);
            }
        }
    }
    kinds
}

/// A quiet channel lives, whichever end asks. The Ack that an end writes puts off its
/// own Heartbeat.
#[test]
fn a_quiet_channel_lives() {
    let cases = [
        ([3, 0], vec![0]),
        ([0, 3], vec![1]),
        ([3, 3], vec![0, 1]),
        ([3, 5], vec![0]),
    ];
    for (intervals, who) in cases {
        let mut nodes = opened_with(intervals);
        for _ in 0..30 {
            ticks(&mut nodes, 3);
            let all: Vec<(usize, u8)> = who.iter().map(|&node| (node, HEARTBEAT)).collect();
            assert_eq!(exchange_all(&mut nodes), all);
        }
        let states = [0, 1].map(|node| nodes[node].state(0));
        assert_eq!(states, [Some(State::Open); 2]);
    }
}

/// Its octets, and those of its Ack.
#[test]
fn what_goes_over_the_link() {
    let mut nodes = opened_with([1, 0]);
    ticks(&mut nodes, 1);
    let packet = sent(&mut nodes[0]).unwrap();
    assert_eq!(
        packet[..10],
        [65, 238, 0x58 | HEARTBEAT, 0, 0, 0, 1, 0, 0, 64]
    );
    let (number, ack) = received(&mut nodes[1], &packet);
    assert_eq!((number, ack.len()), (0, 12));
    assert_eq!(
        ack[..10],
        [64, 238, 0x58 | HEARTBEAT_ACK, 0, 0, 0, 1, 0, 0, 65]
    );
}

/// How many ticks a node takes to go inactive, if its packets go to this other one.
fn lives(node: &mut Node, mut other: Option<&mut Node>) -> Option<usize> {
    (1..=100).find(|_| {
        while let Some(packet) = sent(node) {
            let ack = other.as_mut().map(|other| received(other, &packet).1);
            if let Some(ack) = ack.filter(|ack| !ack.is_empty()) {
                assert_eq!(received(node, &ack).0, 0);
            }
        }
        node.tick().number == 9
    })
}

/// Timeout 4, retries 2: that the link is cut both ends learn, if they ask. Without
/// a Heartbeat a quiet end never does.
#[test]
fn a_cut_link_is_noticed_at_both_ends() {
    for node in [0, 1] {
        let mut nodes = opened_with([5, 5]);
        assert_eq!(lives(&mut nodes[node], None), Some(5 + 3 * 4));
        assert_eq!(nodes[node].state(0), Some(State::Closed));
        assert_eq!(nodes[node].reason(0), Some(Reason::Heartbeat));
        assert_eq!(lives(&mut opened()[node], None), None);
    }
}

/// An end that has closed answers no Heartbeat (5), so the other closes, too.
#[test]
fn an_end_that_has_closed_does_not_answer() {
    let mut nodes = opened_with([3, 0]);
    let [sender, receiver] = &mut nodes;
    assert_eq!(lives(sender, Some(receiver)), None);
    let odd = packet(1, 1, CLOSE, 9);
    assert_eq!(received(receiver, &odd), (9, vec![]));
    assert!(lives(sender, Some(receiver)).is_some_and(|ticks| ticks <= 3 + 3 * 4));
    assert_eq!(sender.reason(0), Some(Reason::Heartbeat));
}
