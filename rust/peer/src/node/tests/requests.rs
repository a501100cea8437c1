//! "Requests test 14, then direction and state (5), then 10, 6, 7, 12, 11
//! where they apply."

use super::*;

/// 14 comes before the direction and the state.
#[test]
fn no_such_channel() {
    let mut rig = Rig::new(&[SENDING, RECEIVING]);
    for index in [2, 15, 16, 255, usize::MAX] {
        assert_eq!([rig.open(index), rig.close(index)], [14, 14]);
        assert_eq!(rig.transfer(index, &[0; 1_000]), 14);
        assert_eq!(rig.take(index), Err(14));
        assert_eq!(rig.reclaim(index), Err(14));
        assert_eq!(rig.node.take(index, &mut []).number, 14);
        assert_eq!(rig.node.state(index), None);
        assert_eq!(rig.node.reason(index), None);
        assert_eq!(rig.node.direction(index), None);
    }
}

/// 5 comes before 6, 7, 12 and 11.
#[test]
fn direction_and_state_come_first() {
    let mut rig = Rig::new(&[SENDING, RECEIVING]);
    assert_eq!(rig.transfer(0, &[0; 65]), 5);
    assert_eq!(rig.transfer(1, &[0; 65]), 5);
    assert_eq!(rig.node.take(0, &mut []).number, 5);
    assert_eq!(rig.node.reclaim(1, &mut []).number, 5);
    rig.open(0);
    assert_eq!(rig.node.reclaim(0, &mut []).number, 5);
}

/// 12 comes before 11; a buffer of just the unit's size will do.
#[test]
fn nothing_comes_before_the_buffer() {
    let mut rig = Rig::sending(SENDING);
    rig.transfer(0, b"abc");
    rig.close(0);
    rig.next().unwrap();
    rig.arrive(&alone(CONTROL_ACK, 0));
    let before = rig.node.clone();
    let small = rig.node.reclaim(0, &mut [0; 2]);
    assert_eq!((small.number, small.length), (11, 3));
    assert_eq!(rig.node, before);
    let answer = rig.node.reclaim(0, &mut [0; 3]);
    assert_eq!((answer.number, answer.length), (0, 3));
    assert_eq!(rig.node.reclaim(0, &mut []).number, 12);
}

/// An empty unit fits into an empty buffer.
#[test]
fn an_empty_unit_needs_no_buffer() {
    let mut rig = Rig::receiving(RECEIVING);
    rig.arrive(&whole(1, b""));
    let answer = rig.node.take(0, &mut []);
    assert_eq!((answer.number, answer.length), (0, 0));
}

/// A call that writes no packet and no unit comes with length 0.
#[test]
fn lengths_of_calls_that_write_nothing() {
    let mut rig = Rig::new(&[SENDING]);
    let node = &mut rig.node;
    let ack = alone(CONTROL_ACK, 0);
    let data_ack = alone(DATA_ACK, 1);
    let out = &mut [0; 64];
    assert_eq!(node.open(0), Answer::DONE.at(0));
    assert_eq!(node.next_packet(out), Answer::written(12).at(0));
    assert_eq!(node.arrival(&ack, out), Answer::DONE.at(0));
    assert_eq!(node.transfer(0, b"abc"), Answer::DONE.at(0));
    assert_eq!(node.next_packet(out), Answer::written(15).at(0));
    assert_eq!(node.tick(), Answer::DONE);
    assert_eq!(node.arrival(&data_ack, out), Answer::confirmed(1).at(0));
    assert_eq!(node.close(0), Answer::DONE.at(0));
}

/// The question gives what the transfer then gives, and 14, 5, 6 and 7 in this
/// order; asking has changed nothing.
#[test]
fn what_a_transfer_would_answer() {
    let mut rig = Rig::new(&[SENDING, RECEIVING]);
    let asked = |rig: &Rig, index: usize, octets: usize| {
        let before = rig.node.clone();
        let answer = rig.node.would_transfer(index, octets);
        assert_eq!(rig.node, before);
        (answer.number, answer.index)
    };
    assert_eq!(asked(&rig, 2, 65), (14, None));
    assert_eq!(asked(&rig, 0, 65), (5, Some(0)));
    assert_eq!(asked(&rig, 1, 65), (5, Some(1)));
    rig.open(0);
    rig.next().unwrap();
    rig.arrive(&alone(CONTROL_ACK, 0));
    for (held, octets, number) in [
        (0, usize::MAX, 6),
        (0, 65, 6),
        (0, 64, 0),
        (4, 64, 0),
        (8, 65, 6),
        (8, 64, 7),
        (8, 0, 7),
    ] {
        assert_eq!(rig.node.sight(0).unwrap().held.len(), held);
        assert_eq!(asked(&rig, 0, octets), (number, Some(0)));
        if octets < 100 {
            assert_eq!(rig.transfer(0, &vec![0; octets]), number);
        }
    }
}
