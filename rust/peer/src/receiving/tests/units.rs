//! Units that are taken, and those that are dropped.

use super::*;

/// "A unit is complete when the start has passed its last segment."
#[test]
fn a_unit_is_complete_when_the_start_has_passed_it() {
    let mut rig = Rig::receiving(RECEIVING);
    assert_eq!(rig.take(0), Err(12));
    assert_eq!(pieces(&mut rig, [(2, LAST), (3, WHOLE)]), [0, 0]);
    assert_eq!(rig.take(0), Err(12));
    assert_eq!(pieces(&mut rig, [(1, FIRST)]), [0]);
    assert_eq!(rig.take(0), Ok(vec![1, 2]));
    assert_eq!(rig.take(0), Ok(vec![3]));
    assert_eq!(rig.take(0), Err(12));
}

/// An empty unit is taken as a unit: 0 with length 0, and not 12.
#[test]
fn an_empty_unit() {
    let mut rig = Rig::receiving(RECEIVING);
    assert_eq!(rig.arrive(&whole(1, b"")), 0);
    assert_eq!(rig.take(0), Ok(vec![]));
    assert_eq!(rig.take(0), Err(12));
}

/// "complete units stay to be taken after the channel closes. Unfinished ones
/// are dropped on leaving OPEN."
#[test]
fn complete_units_stay_and_unfinished_ones_are_dropped() {
    let ways = [
        alone(CLOSE, 0),
        alone(CLOSE, 1),
        alone(OPEN, 0),
        whole(99, b""),
    ];
    for way in ways {
        let mut rig = Rig::receiving(RECEIVING);
        assert_eq!(wholes(&mut rig, [1, 2, 5]), [0, 0, 0]);
        assert_eq!(pieces(&mut rig, [(3, FIRST)]), [0]);
        rig.arrive(&way);
        assert_ne!(rig.node.state(0), Some(State::Open));
        assert_eq!(rig.take(0), Ok(vec![1]));
        rig.ticks(4);
        assert_eq!(rig.node.state(0), Some(State::Closed));
        assert_eq!(rig.open(0), 10);
        assert_eq!(rig.take(0), Ok(vec![2]));
        assert_eq!(rig.take(0), Err(12));
        assert_eq!(rig.open(0), 0);
    }
}

/// "Open while units are untaken" gives 10, after 5.
#[test]
fn open_while_units_are_untaken() {
    let mut rig = Rig::receiving(RECEIVING);
    wholes(&mut rig, [1]);
    assert_eq!(rig.open(0), 5);
    rig.arrive(&alone(CLOSE, 0));
    assert_eq!(rig.open(0), 5);
    rig.ticks(4);
    assert_eq!(rig.open(0), 10);
    assert_eq!(taken(&mut rig), [[1]]);
    assert_eq!(rig.open(0), 0);
}

/// After a close the next opening starts from number 1 and slot 0, whatever
/// lay in the slots.
#[test]
fn the_next_opening_starts_from_1() {
    let mut rig = started_at(RECEIVING, 4);
    assert_eq!(pieces(&mut rig, [(4, FIRST), (6, WHOLE)]), [0, 0]);
    rig.arrive(&alone(CLOSE, 0));
    rig.ticks(4);
    rig.open(0);
    assert_eq!(rig.arrive(&alone(OPEN, 0)), 0);
    assert_eq!(rig.arrive(&alone(OPEN, 0)), 15);
    assert_eq!(rig.arrive(&whole(4, b"new")), 0);
    assert_eq!(rig.arrive(&whole(1, b"abc")), 0);
    assert_eq!(rig.node.memory()[..3], *b"abc");
    assert_eq!(rig.take(0), Ok(b"abc".to_vec()));
    assert_eq!(rig.take(0), Err(12));
}

/// No state forbids taking.
#[test]
fn taking_in_every_state() {
    let mut rig = Rig::new(&[RECEIVING]);
    assert_eq!(rig.take(0), Err(12));
    rig.open(0);
    assert_eq!(rig.take(0), Err(12));
    rig.arrive(&alone(OPEN, 0));
    wholes(&mut rig, [1, 2, 3]);
    assert_eq!(rig.take(0), Ok(vec![1]));
    rig.arrive(&alone(CLOSE, 0));
    assert_eq!(rig.take(0), Ok(vec![2]));
    rig.ticks(4);
    assert_eq!(rig.take(0), Ok(vec![3]));
    assert_eq!(rig.take(0), Err(12));
}

/// A lent buffer too small gives 11 and the unit stays; 12 comes before 11.
#[test]
fn a_buffer_too_small_for_the_unit() {
    let mut rig = Rig::receiving(RECEIVING);
    assert_eq!(rig.node.take(0, &mut []).number, 12);
    assert_eq!(pieces(&mut rig, [(1, FIRST), (2, LAST)]), [0, 0]);
    let before = rig.node.clone();
    let mut out = [NOISE; 3];
    assert_eq!(rig.node.take(0, &mut out[..1]).number, 11);
    assert_eq!((&rig.node, out), (&before, [NOISE; 3]));
    let answer = rig.node.take(0, &mut out[..2]);
    assert_eq!((answer.number, answer.length), (0, 2));
    assert_eq!(out, [1, 2, NOISE]);
}
