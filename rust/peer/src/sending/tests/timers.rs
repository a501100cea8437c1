//! Timers, retries and what is ready.

use super::*;

/// "A packet's timer starts at the timeout when it is handed out [..]. On a
/// tick each timer falls by one. If one ends [..] the packet is ready again."
#[test]
fn a_packet_is_ready_again_after_its_timeout() {
    let mut rig = Rig::sending(SENDING);
    rig.transfer(0, b"a");
    rig.ticks(9);
    assert_eq!(rig.all_data(), [1]);
    rig.ticks(3);
    assert_eq!(rig.next(), Err(12));
    rig.ticks(1);
    assert_eq!(rig.all_data(), [1]);
}

/// "An independent Transmit timer shall be maintained for each outstanding
/// Packet" (000, 4.4.4.5).
#[test]
fn each_packet_has_its_own_timer() {
    let mut rig = Rig::sending(SENDING);
    rig.transfer(0, b"a");
    rig.transfer(0, b"b");
    assert_eq!(rig.next(), Ok((DATA, 1)));
    rig.ticks(2);
    assert_eq!(rig.next(), Ok((DATA, 2)));
    rig.ticks(2);
    assert_eq!(rig.all_data(), [1]);
    rig.ticks(2);
    assert_eq!(rig.all_data(), [2]);
}

/// "the retries are the resends allowed to it": with retries 2 the third timer
/// that ends makes the channel inactive.
#[test]
fn used_up_retries_make_the_channel_inactive() {
    let mut rig = Rig::sending(SENDING);
    rig.transfer(0, b"a");
    for _ in 0..2 {
        assert_eq!(rig.all_data(), [1]);
        rig.ticks(4);
    }
    assert_eq!(rig.all_data(), [1]);
    rig.ticks(3);
    assert_eq!(rig.tick(), 9);
    assert_eq!(standing(&rig), (State::Closed, Reason::Retries));
}

/// With retries 0 the first timer that ends does.
#[test]
fn no_retries() {
    let settings = Settings {
        retries: 0,
        ..SENDING
    };
    let mut rig = Rig::sending(settings);
    rig.transfer(0, b"a");
    rig.next().unwrap();
    rig.ticks(3);
    assert_eq!(rig.tick(), 9);
    let mut rig = Rig::new(&[settings]);
    rig.open(0);
    rig.next().unwrap();
    rig.ticks(3);
    assert_eq!(rig.tick(), 9);
    assert_eq!(standing(&rig), (State::Closed, Reason::Retries));
}

/// The Close has retries of its own, apart from the Open's.
#[test]
fn open_and_close_have_their_own_retries() {
    let mut rig = Rig::new(&[SENDING]);
    rig.open(0);
    rig.close(0);
    for _ in 0..2 {
        assert_eq!(rig.next(), Ok((OPEN, 0)));
        rig.ticks(4);
    }
    assert_eq!(rig.next(), Ok((OPEN, 0)));
    assert_eq!(rig.arrive(&alone(CONTROL_ACK, 0)), 0);
    for _ in 0..2 {
        assert_eq!(rig.next(), Ok((CLOSE, 0)));
        rig.ticks(4);
    }
    assert_eq!(rig.next(), Ok((CLOSE, 0)));
    rig.ticks(3);
    assert_eq!(rig.tick(), 9);
    assert_eq!(standing(&rig), (State::Closed, Reason::Retries));
}

/// A packet that waits to be handed out has no timer: it may wait for ever.
#[test]
fn a_ready_packet_wears_nothing_out() {
    let mut rig = Rig::new(&[SENDING]);
    rig.open(0);
    rig.ticks(100);
    assert_eq!(rig.next(), Ok((OPEN, 0)));
    rig.ticks(4);
    rig.ticks(100);
    assert_eq!(rig.next(), Ok((OPEN, 0)));
}

/// "An acknowledged packet has no timer and is not ready"
#[test]
fn an_acknowledged_packet_is_not_sent_again() {
    let mut rig = Rig::sending(SENDING);
    rig.transfer(0, b"a");
    rig.transfer(0, b"b");
    rig.all_data();
    assert_eq!(acks(&mut rig, [2]), [0]);
    rig.ticks(4);
    assert_eq!(rig.all_data(), [1]);
}

/// An ack of a packet that waits to be resent is recorded, and the packet is
/// not resent.
#[test]
fn an_ack_between_the_timer_and_the_resend_is_recorded() {
    let mut rig = Rig::sending(SENDING);
    rig.transfer(0, b"a");
    rig.all_data();
    rig.ticks(4);
    assert_eq!(confirms(&mut rig, [1]), [1]);
    assert_eq!(rig.next(), Err(12));
    let mut rig = Rig::new(&[SENDING]);
    rig.open(0);
    rig.next().unwrap();
    rig.ticks(4);
    assert_eq!(rig.arrive(&alone(CONTROL_ACK, 0)), 0);
    assert_eq!(rig.node.state(0), Some(State::Open));
    assert_eq!(rig.next(), Err(12));
}

/// "in CLOSED nothing is [ready]": neither what waited nor what was sent.
#[test]
fn in_closed_nothing_is_ready() {
    let mut rig = Rig::sending(Settings {
        retries: 0,
        ..SENDING
    });
    rig.transfer(0, &[0; 64]);
    assert_eq!(rig.next(), Ok((DATA, 1)));
    rig.ticks(1);
    assert_eq!(rig.next(), Ok((DATA, 2)));
    rig.ticks(2);
    assert_eq!(rig.tick(), 9);
    assert_eq!(rig.next(), Err(12));
    rig.ticks(20);
    assert_eq!(rig.next(), Err(12));
    assert_eq!(acks(&mut rig, [1]), [5]);
}

/// All timers fall in a tick, then one that has used up its retries closes the
/// channel, also if another that ended in it may still be resent.
#[test]
fn one_used_up_packet_is_enough() {
    let mut rig = Rig::sending(Settings {
        retries: 1,
        ..SENDING
    });
    rig.transfer(0, b"a");
    assert_eq!(rig.all_data(), [1]);
    rig.ticks(4);
    rig.transfer(0, b"b");
    assert_eq!(rig.all_data(), [1, 2]);
    rig.ticks(3);
    assert_eq!(rig.tick(), 9);
    assert_eq!(rig.reclaim(0), Ok(b"a".to_vec()));
    assert_eq!(rig.reclaim(0), Ok(b"b".to_vec()));
}

/// The largest timeout and the most retries.
#[test]
fn the_largest_timeout() {
    let mut rig = Rig::sending(Settings {
        timeout: 65_535,
        retries: 0,
        ..SENDING
    });
    rig.transfer(0, b"a");
    rig.all_data();
    for _ in 1..65_535 {
        assert_eq!(rig.node.tick().number, 0);
    }
    assert_eq!(rig.node.tick().number, 9);
}
