//! When a Heartbeat is made, and what becomes of it, at both ends.

mod restarts;

use crate::packet::kind::{CLOSE, CONTROL_ACK, DATA, DATA_ACK, HEARTBEAT, HEARTBEAT_ACK, OPEN};
use crate::settings::{Direction, Settings};
use crate::state::{Reason, State};
use crate::support::{alone, packet_for, whole, Rig, RECEIVING, SENDING};

/// These settings with a Heartbeat.
fn lively(settings: Settings) -> Settings {
    Settings {
        interval: 3,
        timeout: 2,
        retries: 1,
        ..settings
    }
}

/// A channel of each direction in OPEN, with settings made from these.
fn both(made: impl Fn(Settings) -> Settings) -> [Rig; 2] {
    let sending = Rig::sending(made(SENDING));
    [sending, Rig::receiving(made(RECEIVING))]
}

/// A packet of this kind for the channel of a rig.
fn packet(rig: &Rig, kind: u8, number: u8) -> Vec<u8> {
    let channel = match rig.node.direction(0) {
        Some(Direction::Sending) => SENDING.channel,
        _ => RECEIVING.channel,
    };
    packet_for(channel, kind, number)
}

/// The answer to a Heartbeat Ack of this number.
fn ack(rig: &mut Rig, number: u8) -> u8 {
    let ack = packet(rig, HEARTBEAT_ACK, number);
    rig.arrive(&ack)
}

/// The state and the reason of channel 0.
fn standing(rig: &Rig) -> (State, Reason) {
    let state = rig.node.state(0).unwrap();
    (state, rig.node.reason(0).unwrap())
}

/// "A Heartbeat that gets no answer closes the channel with its own recorded
/// reason."
#[test]
fn no_answer_closes_the_channel() {
    for mut rig in both(lively) {
        rig.ticks(2);
        assert_eq!(rig.next(), Err(12));
        rig.ticks(1);
        assert_eq!(rig.next(), Ok((HEARTBEAT, 0)));
        rig.ticks(1);
        assert_eq!(rig.next(), Err(12));
        rig.ticks(1);
        assert_eq!(rig.next(), Ok((HEARTBEAT, 0)));
        rig.ticks(1);
        assert_eq!(standing(&rig), (State::Open, Reason::None));
        assert_eq!(rig.tick(), 9);
        assert_eq!(standing(&rig), (State::Closed, Reason::Heartbeat));
        assert_eq!(rig.next(), Err(12));
        rig.ticks(20);
        assert_eq!(standing(&rig), (State::Closed, Reason::Heartbeat));
        assert_eq!(rig.open(0), 0);
        assert_eq!(standing(&rig), (State::Enabled, Reason::None));
    }
}

/// "a sender closed so holds its units as in any close": all that are not
/// confirmed, here one that never went out.
#[test]
fn a_sender_closed_so_holds_its_units() {
    let mut rig = Rig::sending(Settings {
        window: 1,
        ..lively(SENDING)
    });
    for unit in [b"a", b"b"] {
        assert_eq!(rig.transfer(0, unit), 0);
    }
    assert_eq!(rig.next(), Ok((DATA, 1)));
    assert_eq!(rig.arrive(&alone(DATA_ACK, 1)), 0);
    rig.ticks(3);
    assert_eq!(rig.next(), Ok((HEARTBEAT, 0)));
    rig.ticks(2);
    assert_eq!(rig.next(), Ok((HEARTBEAT, 0)));
    rig.ticks(1);
    assert_eq!(rig.tick(), 9);
    assert_eq!(standing(&rig), (State::Closed, Reason::Heartbeat));
    assert_eq!(rig.open(0), 10);
    assert_eq!(rig.reclaim(0), Ok(b"b".to_vec()));
    assert_eq!(rig.reclaim(0), Err(12));
}

/// "complete units stay to be taken after the channel closes. Unfinished ones are
/// dropped on leaving OPEN."
#[test]
fn a_receiver_closed_so_keeps_its_complete_units() {
    let mut rig = Rig::receiving(lively(RECEIVING));
    assert_eq!(rig.arrive(&whole(1, b"a")), 0);
    assert_eq!(rig.arrive(&whole(3, b"c")), 0);
    rig.ticks(3);
    rig.next().unwrap();
    rig.ticks(2);
    rig.next().unwrap();
    rig.ticks(1);
    assert_eq!(rig.tick(), 9);
    assert_eq!(rig.take(0), Ok(b"a".to_vec()));
    assert_eq!(rig.take(0), Err(12));
}

/// An interval of n ends in the n-th tick after it was set.
#[test]
fn the_interval_ends_in_its_last_tick() {
    for interval in [1, 2, 7, 65_535] {
        let made = |settings| Settings {
            interval,
            ..settings
        };
        for mut rig in both(made) {
            for _ in 1..interval {
                assert_eq!(rig.node.tick().number, 0);
            }
            assert_eq!(rig.next(), Err(12));
            rig.ticks(1);
            assert_eq!(rig.next(), Ok((HEARTBEAT, 0)));
        }
    }
}

/// An interval of 0 makes none.
#[test]
fn without_an_interval_none_is_made() {
    for mut rig in both(|settings| settings) {
        rig.ticks(100);
        assert_eq!(rig.next(), Err(12));
        assert_eq!(rig.node.sight(0).unwrap().heartbeat_timer, 0);
    }
}

/// A Heartbeat that is made in a tick is not ticked in it, and its timer is the
/// timeout from when it is handed out.
#[test]
fn its_timer_starts_when_it_is_handed_out() {
    let hasty = |settings| Settings {
        interval: 1,
        timeout: 1,
        retries: 0,
        ..settings
    };
    for mut rig in both(hasty) {
        rig.ticks(20);
        assert_eq!(rig.next(), Ok((HEARTBEAT, 0)));
        assert_eq!(rig.tick(), 9);
        assert_eq!(standing(&rig), (State::Closed, Reason::Heartbeat));
    }
}

/// While one is ready, out or waits to be resent, no other is made. The timer goes
/// on meanwhile.
#[test]
fn there_is_never_a_second_one() {
    let hasty = |settings| Settings {
        interval: 2,
        timeout: 5,
        retries: 1,
        ..settings
    };
    for mut rig in both(hasty) {
        rig.ticks(9);
        assert_eq!(rig.next(), Ok((HEARTBEAT, 0)));
        rig.ticks(4);
        assert_eq!(rig.next(), Err(12));
        rig.ticks(3);
        assert_eq!(ack(&mut rig, 0), 0);
        assert_eq!(rig.next(), Err(12));
        rig.ticks(1);
        assert_eq!(rig.next(), Err(12));
        rig.ticks(1);
        assert_eq!(rig.next(), Ok((HEARTBEAT, 0)));
    }
}

/// Its Ack is numbered 0 and comes after it was handed out, also while it waits to
/// be resent; any other is ignored.
#[test]
fn its_ack() {
    for mut rig in both(lively) {
        assert_eq!(ack(&mut rig, 0), 16);
        rig.ticks(3);
        assert_eq!(ack(&mut rig, 0), 16);
        rig.next().unwrap();
        assert_eq!(
            [1, 255, 0, 0].map(|number| ack(&mut rig, number)),
            [16, 16, 0, 16]
        );
        rig.ticks(3);
        rig.next().unwrap();
        rig.ticks(2);
        assert_eq!(ack(&mut rig, 0), 0);
        assert_eq!(rig.next(), Err(12));
        rig.ticks(1);
        assert_eq!(rig.next(), Ok((HEARTBEAT, 0)));
    }
}

/// An Ack in time keeps the channel, and each Heartbeat has its own retries.
#[test]
fn an_ack_keeps_the_channel() {
    for mut rig in both(lively) {
        for _ in 0..20 {
            rig.ticks(3);
            assert_eq!(rig.next(), Ok((HEARTBEAT, 0)));
            rig.ticks(2);
            assert_eq!(rig.next(), Ok((HEARTBEAT, 0)));
            rig.ticks(1);
            assert_eq!(ack(&mut rig, 0), 0);
        }
        assert_eq!(standing(&rig), (State::Open, Reason::None));
    }
}

/// Data's retries and the Heartbeat's that run out in one tick: Data's timers come
/// first.
#[test]
fn data_runs_out_before_the_heartbeat() {
    for (data_late, reason) in [(0, Reason::Retries), (1, Reason::Heartbeat)] {
        let mut rig = Rig::sending(Settings {
            retries: 0,
            ..lively(SENDING)
        });
        rig.transfer(0, b"a");
        rig.ticks(3);
        assert_eq!(rig.next(), Ok((HEARTBEAT, 0)));
        rig.ticks(data_late);
        assert_eq!(rig.next(), Ok((DATA, 1)));
        rig.ticks(1 - data_late);
        assert_eq!(rig.tick(), 9);
        assert_eq!(standing(&rig), (State::Closed, reason));
        assert_eq!(rig.reclaim(0), Ok(b"a".to_vec()));
    }
}

/// One that is ready stays so, whatever goes out meanwhile: an Ack, or Data, which
/// goes before it only where the caller wrote into the lines.
#[test]
fn nothing_takes_it_back() {
    for mut rig in both(lively) {
        rig.ticks(3);
        let heartbeat = packet(&rig, HEARTBEAT, 0);
        assert_eq!(rig.arrive(&heartbeat), 0);
        assert_eq!(rig.next(), Ok((HEARTBEAT, 0)));
    }
    let mut rig = Rig::sending(lively(SENDING));
    rig.transfer(0, b"a");
    rig.ticks(3);
    rig.node.lines_mut()[0] = 0;
    assert_eq!(rig.next(), Ok((DATA, 1)));
    assert_eq!(rig.next(), Ok((HEARTBEAT, 0)));
}

/// Leaving OPEN leaves the Heartbeat behind, ready or unanswered: by a Close
/// directive, a Close that arrives, and inactivity.
#[test]
fn it_is_gone_outside_open() {
    for hand_out in [false, true] {
        for mut rig in both(lively) {
            rig.ticks(3);
            if hand_out {
                rig.next().unwrap();
            }
            let sending = rig.node.direction(0) == Some(Direction::Sending);
            match sending {
                true => assert_eq!(rig.close(0), 0),
                false => assert_eq!(rig.arrive(&alone(CLOSE, 0)), 0),
            }
            let sight = rig.node.sight(0).unwrap();
            assert_eq!((sight.heartbeat_timer, sight.heartbeat), (0, None));
            assert_eq!(ack(&mut rig, 0), 5);
            let next = if sending { Ok((CLOSE, 0)) } else { Err(12) };
            assert_eq!(rig.next(), next);
        }
    }
    let mut rig = Rig::receiving(lively(RECEIVING));
    rig.ticks(3);
    assert_eq!(rig.arrive(&whole(100, b"")), 9);
    assert_eq!(rig.next(), Err(12));
    assert_eq!(ack(&mut rig, 0), 5);
}

/// A new opening begins its interval when it comes to OPEN, with no Heartbeat from
/// before.
#[test]
fn a_new_opening_begins_anew() {
    let mut rig = Rig::receiving(lively(RECEIVING));
    rig.ticks(2);
    rig.arrive(&alone(OPEN, 1));
    rig.open(0);
    rig.ticks(20);
    assert_eq!(rig.next(), Err(12));
    assert_eq!(rig.arrive(&alone(OPEN, 0)), 0);
    rig.ticks(2);
    assert_eq!(rig.next(), Err(12));
    rig.ticks(1);
    assert_eq!(rig.next(), Ok((HEARTBEAT, 0)));
}

/// An Open whose Close is kept never comes to OPEN, and makes none.
#[test]
fn a_kept_close_makes_none() {
    let mut rig = Rig::new(&[lively(SENDING)]);
    rig.open(0);
    rig.close(0);
    rig.next().unwrap();
    assert_eq!(rig.arrive(&alone(CONTROL_ACK, 0)), 0);
    assert_eq!(rig.node.sight(0).unwrap().heartbeat_timer, 0);
    rig.ticks(3);
    assert_eq!(rig.next(), Ok((CLOSE, 0)));
    assert_eq!(rig.next(), Err(12));
}
