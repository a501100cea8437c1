//! "a channel joins the line of a rank when it first has a ready packet of that
//! rank, is served from the head, and rejoins at the tail if it has more; two
//! that join in the same call stand by index" (document 02, A4).

use super::*;

/// As many sending channels as a table has at most, all in OPEN, numbered as
/// their index.
fn sixteen(window: u32) -> Rig {
    let table = (0..16).map(|channel| Settings {
        window,
        ..sending(channel)
    });
    let mut rig = Rig::new(&table.collect::<Vec<_>>());
    open_all(&mut rig, &(0..16).collect::<Vec<_>>());
    assert_eq!(rig.node.lines(), [0; LINE_OCTETS]);
    rig
}

/// The channels of the next packets, of so many.
fn order(rig: &mut Rig, count: usize) -> Vec<u8> {
    (0..count).map(|_| next(rig).0).collect()
}

fn ack(rig: &mut Rig, channel: u8, number: u8) -> u8 {
    rig.arrive(&packet_for(channel.into(), DATA_ACK, number))
}

/// "in the order in which they are queued" (001, 3.1.3), whatever the index.
#[test]
fn who_joins_first_is_served_first() {
    let mut rig = Rig::new(&[sending(0), receiving(1), sending(2), sending(3)]);
    for index in [3, 1, 0, 2] {
        rig.open(index);
    }
    assert_eq!(standing(&rig), [vec![3, 0, 2], vec![], vec![]]);
    assert_eq!(order(&mut rig, 3), [3, 0, 2]);
    assert_eq!(rig.next(), Err(12));
    assert_eq!(standing(&rig), [vec![], vec![], vec![]]);
}

/// A resent Control ranks with Control, behind those who stood there before.
#[test]
fn a_resent_open_joins_at_the_tail() {
    let mut rig = Rig::new(&[sending(0), sending(1)]);
    rig.open(0);
    assert_eq!(order(&mut rig, 1), [0]);
    rig.ticks(3);
    rig.open(1);
    rig.ticks(1);
    assert_eq!(order(&mut rig, 2), [1, 0]);
}

/// "rejoins at the tail if it has more": two busy channels take turns.
#[test]
fn who_has_more_rejoins_at_the_tail() {
    let mut rig = Rig::new(&[sending(0), sending(1), sending(2)]);
    open_all(&mut rig, &[0, 1, 2]);
    for index in [1, 1, 1, 0, 0, 2] {
        rig.transfer(index, b"a");
    }
    assert_eq!(standing(&rig)[2], [1, 0, 2]);
    assert_eq!(order(&mut rig, 6), [1, 0, 2, 1, 0, 1]);
}

/// A window of 1: acknowledged at once, each comes back behind all others.
#[test]
fn sixteen_take_turns() {
    let mut rig = sixteen(1);
    for index in (0..16).chain(0..16) {
        assert_eq!(rig.transfer(index, b"a"), 0);
    }
    for (turn, channel) in (0..16).chain(0..16).enumerate() {
        let number = turn as u8 / 16 + 1;
        assert_eq!(next(&mut rig), (channel, DATA, number));
        assert_eq!(ack(&mut rig, channel, number), 0);
    }
    assert_eq!(rig.next(), Err(12));
}

/// A channel whose next number is past the window stands in no line, and
/// joins when an Ack moves the window.
#[test]
fn past_the_window_nobody_stands() {
    let mut rig = Rig::new(&[sending(0), sending(1)]);
    open_all(&mut rig, &[0, 1]);
    (0..6).for_each(|_| assert_eq!(rig.transfer(0, b"a"), 0));
    assert_eq!(order(&mut rig, 4), [0; 4]);
    assert_eq!(standing(&rig)[2], [0; 0]);
    rig.transfer(1, b"a");
    assert_eq!(ack(&mut rig, 0, 2), 0);
    assert_eq!(standing(&rig)[2], [1]);
    assert_eq!(ack(&mut rig, 0, 1), 0);
    assert_eq!(standing(&rig)[2], [1, 0]);
}

/// "two that join in the same call stand by index": only a tick makes several
/// join.
#[test]
fn those_who_join_in_a_tick_stand_by_index() {
    let mut rig = sixteen(4);
    for index in [5, 3, 9] {
        rig.transfer(index, b"a");
    }
    assert_eq!(order(&mut rig, 3), [5, 3, 9]);
    rig.ticks(3);
    rig.transfer(7, b"a");
    assert_eq!(order(&mut rig, 1), [7]);
    rig.ticks(1);
    assert_eq!(standing(&rig)[1], [3, 5, 9]);
    rig.ticks(3);
    assert_eq!(standing(&rig)[1], [3, 5, 9, 7]);
    assert_eq!(order(&mut rig, 4), [3, 5, 9, 7]);
}

/// Out by an Ack, back in at the tail.
#[test]
fn who_leaves_by_an_ack_comes_back_last() {
    let mut rig = Rig::new(&[sending(0), sending(1), sending(2)]);
    open_all(&mut rig, &[0, 1, 2]);
    for index in [0, 0, 1, 2] {
        rig.transfer(index, b"a");
    }
    assert_eq!(order(&mut rig, 3), [0, 1, 2]);
    rig.ticks(1);
    assert_eq!(order(&mut rig, 1), [0]);
    rig.ticks(3);
    assert_eq!(standing(&rig)[1], [0, 1, 2]);
    assert_eq!(ack(&mut rig, 0, 1), 0);
    assert_eq!(standing(&rig)[1], [1, 2]);
    rig.ticks(1);
    assert_eq!(order(&mut rig, 3), [1, 2, 0]);
}

/// Out by a close and by inactivity, of every line.
#[test]
fn who_leaves_open_leaves_the_lines() {
    let fragile = Settings {
        retries: 0,
        ..sending(1)
    };
    let mut rig = Rig::new(&[sending(0), fragile]);
    open_all(&mut rig, &[0, 1]);
    for index in [1, 1, 0, 0] {
        rig.transfer(index, b"a");
    }
    assert_eq!(order(&mut rig, 2), [1, 0]);
    rig.ticks(3);
    assert_eq!(standing(&rig), [vec![], vec![], vec![1, 0]]);
    assert_eq!(rig.tick(), 9);
    assert_eq!(standing(&rig), [vec![], vec![0], vec![0]]);
    rig.close(0);
    assert_eq!(standing(&rig), [vec![0], vec![], vec![]]);
}

/// A channel that is ready before and after a call keeps its place, also if the
/// packet is another one: the late Ack of an Open that waits to be resent brings
/// the kept Close.
#[test]
fn who_is_ready_before_and_after_keeps_its_place() {
    let mut rig = Rig::new(&[sending(0), sending(1)]);
    rig.open(1);
    rig.close(1);
    assert_eq!(next(&mut rig), (1, OPEN, 0));
    rig.ticks(4);
    rig.open(0);
    assert_eq!(rig.arrive(&packet_for(1, CONTROL_ACK, 0)), 0);
    assert_eq!(next(&mut rig), (1, CLOSE, 0));
    assert_eq!(next(&mut rig), (0, OPEN, 0));
}

/// 11 leaves the lines; the same packet then goes out, given room.
#[test]
fn small_buffers_move_nobody() {
    let mut rig = Rig::new(&[sending(0), sending(1)]);
    open_all(&mut rig, &[0, 1]);
    rig.transfer(1, b"abc");
    rig.transfer(0, b"");
    let small = rig.node.next_packet(&mut [0; 14]);
    assert_eq!((small.number, small.length, small.index), (11, 15, Some(1)));
    assert_eq!(standing(&rig)[2], [1, 0]);
    assert_eq!(order(&mut rig, 2), [1, 0]);
}

/// The logging channel and the fan channel: the fan's event waits for one packet
/// at most.
#[test]
fn a_busy_channel_keeps_nobody_waiting() {
    let busy = Settings {
        window: 64,
        slots: 64,
        ..sending(0)
    };
    for sent in 0..10 {
        let mut rig = Rig::new(&[busy, sending(1)]);
        open_all(&mut rig, &[0, 1]);
        (0..40).for_each(|_| assert_eq!(rig.transfer(0, b"log"), 0));
        assert_eq!(order(&mut rig, sent), vec![0; sent]);
        rig.transfer(1, b"fan");
        assert_eq!(order(&mut rig, 2), [0, 1]);
    }
}

/// Asking moves nobody.
#[test]
fn a_question_moves_nobody() {
    let mut rig = Rig::new(&[sending(0), sending(1)]);
    open_all(&mut rig, &[0, 1]);
    rig.transfer(1, b"a");
    let before = rig.node.clone();
    for (index, octets) in [(0, 1), (1, 1), (1, 1_000), (2, 0)] {
        rig.node.would_transfer(index, octets);
        assert_eq!(rig.node, before);
    }
}
