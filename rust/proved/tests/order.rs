//! In which order channels are served (document 02, A4): "a channel joins the line
//! of a rank when it first has a ready packet of that rank, is served from the
//! head, and rejoins at the tail if it has more; two that join in the same call
//! stand by index".

mod senders;

use senders::{Senders, LIMITS};

/// The ranks.
const RESENT: usize = 1;
const NEW: usize = 2;

/// A window of 1, and each packet acknowledged at once: so each comes back behind
/// all others.
#[test]
fn sixteen_take_turns() {
    let mut senders = Senders::open(16, 1);
    for index in (0..16).chain(0..16) {
        senders.transfer(index, 1);
    }
    for (number, index) in (0..32).map(|turn| (turn / 16 + 1, turn % 16)) {
        assert_eq!(senders.served(), Some(index));
        senders.data_ack(index, number as u8);
    }
    assert_eq!(senders.served(), None);
}

/// The first that waits to be resent is acknowledged, and its channel leaves; the
/// second ends its timer later, and the channel stands last.
#[test]
fn who_leaves_by_an_ack_comes_back_last() {
    let mut senders = Senders::open(3, 4);
    for index in [0, 1, 2] {
        senders.transfer(index, 1);
    }
    assert_eq!(senders.order(3), [0, 1, 2]);
    senders.ticks(1);
    senders.transfer(0, 1);
    assert_eq!(senders.order(1), [0]);
    senders.ticks(LIMITS.timeout - 1);
    assert_eq!(senders.standing(RESENT), [0, 1, 2]);
    senders.data_ack(0, 1);
    assert_eq!(senders.standing(RESENT), [1, 2]);
    senders.ticks(1);
    assert_eq!(senders.standing(RESENT), [1, 2, 0]);
    assert_eq!(senders.order(3), [1, 2, 0]);
}

/// The order in which their packets went out does not count.
#[test]
fn those_who_join_in_a_tick_stand_by_index() {
    let mut senders = Senders::open(16, 4);
    for index in [5, 3, 9] {
        senders.transfer(index, 1);
    }
    assert_eq!(senders.order(3), [5, 3, 9]);
    senders.ticks(LIMITS.timeout);
    assert_eq!(senders.standing(RESENT), [3, 5, 9]);
    assert_eq!(senders.order(3), [3, 5, 9]);
}

/// 11 at the head: nobody moves, no smaller packet goes before, and with room the
/// same packet goes out.
#[test]
fn small_buffers_move_nobody() {
    let mut senders = Senders::open(3, 4);
    senders.transfer(2, 3);
    senders.transfer(0, 0);
    let before = senders.lines;
    for room in [0, 12, 14] {
        let said = senders.next(room);
        assert_eq!((said.number, said.length, said.index), (11, 15, 2));
        assert_eq!(senders.lines, before);
    }
    let said = senders.next(15);
    assert_eq!((said.number, said.length, said.index), (0, 15, 2));
    assert_eq!(senders.served(), Some(0));
}

/// A unit of 100 segments keeps the link busy; however many of them are out, the
/// fan's event waits for one packet at most.
#[test]
fn a_busy_channel_keeps_nobody_waiting() {
    const BUSY: usize = 0;
    const FAN: usize = 1;
    for out in 0..64 {
        let mut senders = Senders::open(2, 64);
        senders.transfer(BUSY, 100 * LIMITS.payload);
        assert_eq!(senders.order(out), vec![BUSY; out]);
        senders.transfer(FAN, 1);
        let order = senders.order(2);
        assert!(order.contains(&FAN), "{out} were out: {order:?}");
    }
}

/// Not even one who is ready and does not stand in its line, as only a caller can
/// make it.
#[test]
fn a_question_moves_nobody() {
    let mut senders = Senders::open(3, 4);
    for index in [2, 1] {
        senders.transfer(index, 1);
    }
    let before = senders.lines;
    let asked = [(0, 1, 0), (1, 1, 0), (2, 1, 0), (2, 513, 6), (3, 0, 14)];
    for (index, octets, number) in asked {
        assert_eq!(senders.ask(index, octets), number);
        assert_eq!(senders.lines, before);
    }
    senders.stand(NEW, &[]);
    assert_eq!(senders.ask(1, 1), 0);
    assert_eq!(senders.served(), None);
}

/// Lines that the caller wrote: who stands with nothing ready is passed over and
/// stays, who has something ready and does not stand is not served, until a tick
/// puts all right.
#[test]
fn who_is_not_ready_is_passed_over() {
    let mut senders = Senders::open(4, 4);
    for index in [0, 1, 2] {
        senders.transfer(index, 1);
    }
    senders.stand(RESENT, &[1, 0]);
    senders.stand(NEW, &[3, 2, 1]);
    assert_eq!(senders.order(2), [2, 1]);
    assert_eq!(senders.served(), None);
    assert_eq!(senders.standing(RESENT), [0]);
    assert_eq!(senders.standing(NEW), [3]);
    senders.ticks(1);
    assert_eq!(senders.standing(RESENT), []);
    assert_eq!(senders.order(1), [0]);
}
