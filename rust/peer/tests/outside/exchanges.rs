//! The exchanges of 000, Appendix B.

use peer::node::Node;
use peer::packet::kind;
use peer::settings::Settings;
use peer::state::{Reason, State};

use crate::calls::take_all;
use crate::heartbeats;
use crate::traps::{exchange, opened, opened_as, received, sent, ticks, SENDING};

/// B.2, normal case: Open, Data, Close, each with its ack.
#[test]
fn normal_case() {
    let mut nodes = opened();
    for unit in [b"a", b"b", b"c"] {
        assert_eq!(nodes[0].transfer(0, unit).number, 0);
    }
    for number in 1..=3 {
        assert_eq!(exchange(&mut nodes), Some((kind::DATA, number)));
    }
    assert_eq!(take_all(&mut nodes[1], 0), [b"a", b"b", b"c"]);
    assert_eq!(nodes[0].close(0).number, 0);
    assert_eq!(exchange(&mut nodes), Some((kind::CLOSE, 0)));
    assert_eq!(nodes[0].state(0), Some(State::Closed));
    assert_eq!(nodes[1].state(0), Some(State::Closing));
    ticks(&mut nodes, 9);
    for node in &nodes {
        assert_eq!(node.state(0), Some(State::Closed));
        assert_eq!(node.reason(0), Some(Reason::None));
    }
}

/// B.3, data error: the damaged packet gets no ack, its timer ends, it is
/// resent; the later ones were accepted meanwhile.
#[test]
fn data_error_case() {
    let mut nodes = opened();
    for unit in [b"a", b"b", b"c"] {
        nodes[0].transfer(0, unit);
    }
    let mut damaged = sent(&mut nodes).unwrap();
    damaged[10] ^= 1;
    assert_eq!(received(&mut nodes, &damaged), (2, vec![]));
    assert_eq!(exchange(&mut nodes), Some((kind::DATA, 2)));
    assert_eq!(exchange(&mut nodes), Some((kind::DATA, 3)));
    assert_eq!(take_all(&mut nodes[1], 0), Vec::<Vec<u8>>::new());
    ticks(&mut nodes, 3);
    assert_eq!(exchange(&mut nodes), None);
    ticks(&mut nodes, 1);
    let resent = sent(&mut nodes).unwrap();
    let (number, ack) = received(&mut nodes, &resent);
    assert_eq!((resent[7], number), (1, 0));
    assert_eq!(nodes[0].arrival(&ack, &mut [0; 12]).confirmed, 3);
    assert_eq!(take_all(&mut nodes[1], 0), [b"a", b"b", b"c"]);
}

/// B.4, ack error: the packet is resent, not accepted again, and acknowledged
/// again.
#[test]
fn ack_error_case() {
    let mut nodes = opened();
    nodes[0].transfer(0, b"a");
    let packet = sent(&mut nodes).unwrap();
    let (number, mut ack) = received(&mut nodes, &packet);
    assert_eq!(number, 0);
    ack[7] ^= 2;
    assert_eq!(nodes[0].arrival(&ack, &mut [0; 12]).number, 2);
    ticks(&mut nodes, 4);
    let resent = sent(&mut nodes).unwrap();
    let (number, ack) = received(&mut nodes, &resent);
    assert_eq!(number, 15);
    assert_eq!(nodes[0].arrival(&ack, &mut [0; 12]).confirmed, 1);
    assert_eq!(take_all(&mut nodes[1], 0), [b"a"]);
}

/// B.5, flow control case, as far as its text goes: what goes to the receiver has its
/// number, what comes back its number and the one stated.
#[test]
fn flow_control_case() {
    let settings = Settings {
        slots: 4,
        flow: 1,
        ..SENDING
    };
    let mut nodes = opened_as(settings, 0);
    let exchanged = |nodes: &mut [Node; 2], units: usize| {
        let mut told = Vec::new();
        for _ in 0..units {
            assert_eq!(nodes[0].transfer(0, b"u").number, 0);
        }
        while let Some(packet) = sent(nodes) {
            let (_, ack) = received(nodes, &packet);
            told.push((packet[7], ack[7], ack[10]));
            assert_eq!(nodes[0].arrival(&ack, &mut [0; 12]).number, 0);
        }
        told
    };
    let first = [(1, 1, 4), (2, 2, 4), (3, 3, 4), (4, 4, 4)];
    assert_eq!(exchanged(&mut nodes, 4), first);
    assert_eq!(exchanged(&mut nodes, 2), []);
    assert_eq!(nodes[1].take(0, &mut [0; 16]).number, 0);
    let packet = heartbeats::sent(&mut nodes[1]).unwrap();
    assert_eq!(packet[2] & 0b111, kind::FLOW_CONTROL);
    assert_eq!((packet[7], packet[10]), (4, 5));
    let (number, ack) = heartbeats::received(&mut nodes[0], &packet);
    assert_eq!((number, ack.len(), ack[7]), (0, 12, 4));
    assert_eq!(nodes[1].arrival(&ack, &mut [0; 12]).number, 0);
    assert_eq!(exchanged(&mut nodes, 0), [(5, 5, 5)]);
    assert_eq!(take_all(&mut nodes[1], 0).len(), 4);
}

/// A lost Close ack: CLOSING acknowledges the resent Close.
#[test]
fn a_lost_close_ack() {
    let mut nodes = opened();
    nodes[0].close(0);
    let packet = sent(&mut nodes).unwrap();
    assert_eq!(received(&mut nodes, &packet).0, 0);
    ticks(&mut nodes, 4);
    let resent = sent(&mut nodes).unwrap();
    let (number, ack) = received(&mut nodes, &resent);
    assert_eq!(number, 15);
    assert_eq!(nodes[0].arrival(&ack, &mut [0; 12]).number, 0);
    assert_eq!(nodes[0].state(0), Some(State::Closed));
}
