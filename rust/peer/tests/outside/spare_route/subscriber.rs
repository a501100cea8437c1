//! "A unit may have reached the subscriber already", who can tell by its octets.

use link::Noise;
use peer::node::Node;
use peer::packet::kind::{DATA, OPEN};
use peer::settings::{Direction, Settings};
use peer::state::{Reason, State};

use super::pair;
use crate::calls::{new_node, take_all, ADDRESSES};
use crate::heartbeats::{received, sent};
use crate::traps::exchange;

/// A host with a channel and its spare, and their subscriber; all are OPEN.
fn opened() -> [Node; 2] {
    let turned = pair().map(|sending| Settings {
        direction: Direction::Receiving,
        remote: ADDRESSES[0],
        spare: 0,
        lead: 0,
        ..sending
    });
    let mut noise = Noise::new(7);
    let mut nodes = [
        new_node(0, &pair(), &mut noise),
        new_node(1, &turned, &mut noise),
    ];
    for index in [0, 1] {
        assert_eq!(nodes[0].open(index).number, 0);
        assert_eq!(nodes[1].open(index).number, 0);
        assert_eq!(exchange(&mut nodes), Some((OPEN, 0)));
    }
    nodes
}

/// Of four units the first is confirmed, the second arrives and its Acks are lost, the
/// third is lost each time, and the fourth waits: the route is cut.
fn cut_off(nodes: &mut [Node; 2]) {
    for unit in [b"a", b"b"] {
        assert_eq!(nodes[0].transfer(0, unit).number, 0);
    }
    assert_eq!(exchange(nodes), Some((DATA, 1)));
    let second = sent(&mut nodes[0]).expect("Data");
    assert_eq!(received(&mut nodes[1], &second).0, 0);
    assert_eq!(nodes[0].transfer(0, b"c").number, 0);
    while nodes[0].tick().number == 0 {
        while sent(&mut nodes[0]).is_some() {}
    }
    assert_eq!(nodes[0].state(0), Some(State::Closed));
    assert_eq!(nodes[0].reason(0), Some(Reason::Retries));
}

/// What the subscriber keeps of the units that it takes: without the leading octet, and
/// not those that may be repeats and are like one that it has.
fn keep(kept: &mut Vec<Vec<u8>>, taken: &[Vec<u8>]) -> Vec<Vec<u8>> {
    let mut repeats = Vec::new();
    for unit in taken {
        let (&leading, octets) = unit.split_first().expect("a leading octet");
        if leading == 1 && kept.iter().any(|one| one == octets) {
            repeats.push(octets.to_vec());
        } else {
            kept.push(octets.to_vec());
        }
    }
    repeats
}

/// What comes over the spare route begins with 1 if it was moved, with 0 if not; the
/// other octets tell which the subscriber has already. None is lost.
#[test]
fn the_subscriber_knows_a_repeat() {
    let mut nodes = opened();
    cut_off(&mut nodes);
    let mut kept = Vec::new();
    let taken = take_all(&mut nodes[1], 0);
    assert_eq!(taken, [b"\0a", b"\0b"]);
    assert_eq!(keep(&mut kept, &taken), Vec::<Vec<u8>>::new());

    assert_eq!(nodes[0].transfer(1, b"x").number, 0);
    let answer = nodes[0].move_units(0);
    assert_eq!((answer.number, answer.length), (0, 2));
    assert_eq!(nodes[0].transfer(1, b"b").number, 0);
    for number in 1..=4 {
        assert_eq!(exchange(&mut nodes), Some((DATA, number)));
    }
    let taken = take_all(&mut nodes[1], 1);
    assert_eq!(taken, [b"\0x", b"\x01b", b"\x01c", b"\0b"]);
    assert_eq!(keep(&mut kept, &taken), [b"b"]);
    assert_eq!(kept, [b"a", b"b", b"x", b"c", b"b"]);
}

/// A spare with an end of another P goes by its own: long units arrive whole.
#[test]
fn long_units_arrive_whole() {
    let mut nodes = opened();
    let units: [Vec<u8>; 2] = [(0..63).collect(), (100..147).collect()];
    for unit in &units {
        assert_eq!(nodes[0].transfer(0, unit).number, 0);
    }
    while nodes[0].tick().number == 0 {
        while sent(&mut nodes[0]).is_some() {}
    }
    assert_eq!(nodes[0].move_units(0).length, 2);
    while exchange(&mut nodes).is_some() {}
    let moved = units.map(|unit| [&[1], &unit[..]].concat());
    assert_eq!(take_all(&mut nodes[1], 1), moved);
}
