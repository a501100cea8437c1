//! The Flow Control packet: when one is made, its number, timer, retries and Ack (000,
//! 4.5.3.5 and 4.5.3.7).

use super::*;

/// A receive end with full slots, k 4 and slots 4.
fn full() -> Rig {
    full_with(FLOWING)
}

fn full_with(settings: Settings) -> Rig {
    let mut rig = Rig::receiving(Settings {
        slots: 4,
        ..settings
    });
    states(&mut rig, [1, 2, 3, 4]);
    rig
}

/// "While one is out no other", nor while one is ready or waits to be resent.
#[test]
fn there_is_never_a_second_one() {
    let mut rig = full();
    takes(&mut rig, 2);
    assert_eq!(stated_next(&mut rig), (4, 6));
    takes(&mut rig, 1);
    assert_eq!(rig.next(), Err(12));
    rig.ticks(4);
    takes(&mut rig, 1);
    assert_eq!(stated_next(&mut rig), (4, 8));
    assert_eq!(rig.next(), Err(12));
}

/// A take that changes nothing makes none: the window ends before the room does.
#[test]
fn a_take_that_changes_nothing_makes_none() {
    let mut rig = receiver(4, 8);
    states(&mut rig, [1, 2, 3, 4]);
    takes(&mut rig, 4);
    assert_eq!(rig.take(0), Err(12));
    assert_eq!(rig.next(), Err(12));
}

/// Nor does a take that is refused, or one out of OPEN.
#[test]
fn none_is_made_out_of_open() {
    let mut rig = full();
    assert_eq!(rig.node.take(0, &mut []).number, 11);
    assert_eq!(rig.next(), Err(12));
    assert_eq!(rig.arrive(&alone(CLOSE, 0)), 0);
    takes(&mut rig, 1);
    assert_eq!(rig.next(), Err(12));
    rig.ticks(4);
    takes(&mut rig, 1);
    assert_eq!(rig.next(), Err(12));
}

/// It stays ready though an Ack states the number meanwhile, and states the number of
/// when it is handed out.
#[test]
fn an_ack_does_not_take_it_back() {
    let mut rig = full();
    takes(&mut rig, 1);
    assert_eq!(states(&mut rig, [4, 5]), [5, 5]);
    assert_eq!(stated_next(&mut rig.clone()), (5, 5));
    takes(&mut rig, 1);
    assert_eq!(stated_next(&mut rig), (5, 6));
}

/// "the same as that of the last Packet transmitted from the Receive TEP": Acks, with
/// 15 too and of Heartbeats, whose number the other end chose; Heartbeats; Flow Control
/// packets.
#[test]
fn its_number() {
    let lively = Settings {
        interval: 3,
        timeout: 9,
        ..FLOWING
    };
    let numbered = |before: &dyn Fn(&mut Rig)| {
        let mut rig = full_with(lively);
        before(&mut rig);
        takes(&mut rig, 1);
        stated_next(&mut rig).0
    };
    let channel = RECEIVING.channel;
    assert_eq!(numbered(&|_| {}), 4);
    assert_eq!(numbered(&|rig| _ = states(rig, [2])), 2);
    let heartbeat = packet_for(channel, HEARTBEAT, 77);
    assert_eq!(numbered(&|rig| _ = rig.arrive(&heartbeat)), 77);
    let unanswered = [packet_for(channel, HEARTBEAT_ACK, 9), whole(5, b"u")];
    for packet in unanswered {
        assert_eq!(numbered(&|rig| _ = rig.arrive(&packet)), 4);
    }
    let beat = |rig: &mut Rig| {
        rig.ticks(3);
        assert_eq!(rig.next(), Ok((HEARTBEAT, 0)));
    };
    assert_eq!(numbered(&beat), 0);
    let mut rig = full();
    takes(&mut rig, 1);
    assert_eq!(stated_next(&mut rig), (4, 5));
    assert_eq!(states(&mut rig, [2]), [5]);
    assert_eq!(rig.node.sight(0).unwrap().last_number, 2);
    rig.ticks(4);
    assert_eq!(stated_next(&mut rig), (4, 5));
    assert_eq!(rig.node.sight(0).unwrap().last_number, 4);
    assert_eq!(ack(&mut rig, 4), 0);
    takes(&mut rig, 1);
    assert_eq!(stated_next(&mut rig), (4, 6));
}

/// After the Open alone it would be 0, but nothing is there to take; a second opening
/// begins so again.
#[test]
fn the_last_number_begins_at_0() {
    let mut rig = full();
    assert_eq!(rig.node.sight(0).unwrap().last_number, 4);
    assert_eq!(rig.arrive(&alone(OPEN, 0)), 9);
    assert_eq!(rig.node.sight(0).unwrap().last_number, 0);
    takes(&mut rig, 4);
    rig.open(0);
    assert_eq!(rig.node.sight(0).unwrap().last_number, 0);
    assert_eq!(rig.carried(&alone(OPEN, 0)), (0, vec![4]));
    assert_eq!(rig.node.sight(0).unwrap().last_number, 0);
}

/// "the Receive TEP shall retransmit the Packet with the original Sequence Number",
/// and with the number stated of now.
#[test]
fn a_resend_keeps_its_number_and_states_that_of_now() {
    let mut rig = full();
    takes(&mut rig, 1);
    assert_eq!(stated_next(&mut rig), (4, 5));
    assert_eq!(states(&mut rig, [5]), [5]);
    takes(&mut rig, 2);
    rig.ticks(3);
    assert_eq!(rig.next(), Err(12));
    rig.ticks(1);
    assert_eq!(stated_next(&mut rig), (4, 7));
    let sight = rig.node.sight(0).unwrap();
    let first = FlowSight {
        number: 4,
        stated: 5,
    };
    let course = CourseSight {
        hand_outs: 2,
        timer: Some(4),
    };
    assert_eq!(sight.flow_first, Some(first));
    assert_eq!(sight.flow_control, Some(course));
    assert_eq!(sight.last_number, 4);
}

/// Its Ack: of its number and after it was handed out, also while it waits to be
/// resent; any other is ignored. Nothing is written for it.
#[test]
fn its_ack() {
    let mut rig = full();
    assert_eq!(ack(&mut rig, 4), 16);
    takes(&mut rig, 1);
    assert_eq!(ack(&mut rig, 4), 16);
    assert_eq!(stated_next(&mut rig), (4, 5));
    assert_eq!([0, 3, 5].map(|number| ack(&mut rig, number)), [16; 3]);
    rig.ticks(4);
    let answer = rig.arrival(&packet_for(RECEIVING.channel, FLOW_CONTROL, 4));
    assert_eq!((answer.number, answer.length), (0, 0));
    assert_eq!(rig.node.sight(0).unwrap().flow_first, None);
    assert_eq!((ack(&mut rig, 4), rig.next()), (16, Err(12)));
}

/// On its Ack one more is made if the number stated differs from the one that it
/// stated when it was first handed out, also if a resend has stated it; and none
/// if it does not.
#[test]
fn one_more_if_the_number_differs_from_the_first() {
    let mut rig = full();
    takes(&mut rig, 1);
    assert_eq!(stated_next(&mut rig), (4, 5));
    takes(&mut rig, 1);
    rig.ticks(4);
    assert_eq!(stated_next(&mut rig), (4, 6));
    assert_eq!(ack(&mut rig, 4), 0);
    assert_eq!(stated_next(&mut rig), (4, 6));
    assert_eq!(ack(&mut rig, 4), 0);
    assert_eq!(rig.next(), Err(12));
}

/// "differs" compares octets: a move by exactly 256 is not seen.
#[test]
fn a_move_by_256_is_not_seen() {
    for (segments, next) in [(256, Some((0, 4))), (257, None), (258, Some((2, 6)))] {
        let mut rig = full();
        takes(&mut rig, 1);
        assert_eq!(stated_next(&mut rig), (4, 5));
        takes(&mut rig, 3);
        for segment in 5..=segments {
            assert_eq!(rig.arrive(&whole(segment as u8, b"u")), 0);
            takes(&mut rig, 1);
        }
        assert_eq!(ack(&mut rig, 4), 0);
        match next {
            Some(packet) => assert_eq!(stated_next(&mut rig), packet),
            None => assert_eq!(rig.next(), Err(12)),
        }
    }
}

/// "If the retry count [..] exceeds the maximum retry count, the Receive TEP shall
/// declare the Transport Channel to be inactive": reason retries.
#[test]
fn no_answer_closes_the_channel() {
    let mut rig = full();
    takes(&mut rig, 1);
    for _ in 0..2 {
        assert_eq!(stated_next(&mut rig), (4, 5));
        rig.ticks(4);
    }
    assert_eq!(stated_next(&mut rig), (4, 5));
    rig.ticks(3);
    assert_eq!(rig.tick(), 9);
    assert_eq!(standing(&rig), (State::Closed, Reason::Retries));
    assert_eq!((rig.next(), ack(&mut rig, 4)), (Err(12), 5));
    takes(&mut rig, 3);
    assert_eq!(rig.open(0), 0);
}

/// Each one has its own retries.
#[test]
fn an_ack_keeps_the_channel() {
    let mut rig = receiver(4, 128);
    for number in 1..=128 {
        rig.arrive(&whole(number, b"u"));
    }
    for stated in 129..=132 {
        takes(&mut rig, 1);
        for _ in 0..2 {
            assert_eq!(stated_next(&mut rig), (128, stated));
            rig.ticks(4);
        }
        assert_eq!(stated_next(&mut rig), (128, stated));
        assert_eq!(ack(&mut rig, 128), 0);
    }
    assert_eq!(standing(&rig), (State::Open, Reason::None));
}

/// Its retries and the Heartbeat's that run out in one tick: reason retries.
#[test]
fn it_runs_out_before_the_heartbeat() {
    for (late, reason) in [(0, Reason::Retries), (1, Reason::Heartbeat)] {
        let mut rig = full_with(Settings {
            interval: 3,
            retries: 0,
            timeout: 2,
            ..FLOWING
        });
        takes(&mut rig, 1);
        rig.ticks(3);
        assert_eq!(rig.next(), Ok((HEARTBEAT, 0)));
        rig.ticks(late);
        assert_eq!(stated_next(&mut rig), (0, 5));
        rig.ticks(1 - late);
        assert_eq!(rig.tick(), 9);
        assert_eq!(standing(&rig), (State::Closed, reason));
    }
}

/// Handing it out restarts the Heartbeat timer, a resend too: "(an Ack or Flow Control
/// Packet)" (000, 4.5.3.6). Making it and its Ack do not.
#[test]
fn it_restarts_the_heartbeat_timer() {
    let mut rig = full_with(Settings {
        interval: 100,
        ..FLOWING
    });
    let left = |rig: &Rig| rig.node.sight(0).unwrap().heartbeat_timer;
    rig.ticks(5);
    takes(&mut rig, 1);
    assert_eq!(left(&rig), 95);
    stated_next(&mut rig);
    assert_eq!(left(&rig), 100);
    rig.ticks(4);
    assert_eq!(left(&rig), 96);
    stated_next(&mut rig);
    assert_eq!(left(&rig), 100);
    rig.ticks(1);
    assert_eq!(ack(&mut rig, 4), 0);
    assert_eq!(left(&rig), 99);
}

/// "ranks with Control, last in a channel": after the Heartbeat.
#[test]
fn after_the_heartbeat() {
    let mut rig = full_with(Settings {
        interval: 3,
        ..FLOWING
    });
    takes(&mut rig, 1);
    rig.ticks(3);
    assert_eq!(rig.next(), Ok((HEARTBEAT, 0)));
    assert_eq!(stated_next(&mut rig), (0, 5));
    rig.ticks(4);
    assert_eq!(rig.next(), Ok((HEARTBEAT, 0)));
    assert_eq!(stated_next(&mut rig), (0, 5));
}

/// A buffer of 12 octets is too small for it, and leaves it ready.
#[test]
fn it_has_13_octets() {
    let mut rig = full();
    takes(&mut rig, 1);
    let before = rig.node.clone();
    let mut out = [NOISE; 13];
    let small = rig.node.next_packet(&mut out[..12]);
    assert_eq!((small.number, small.length, small.index), (11, 13, Some(0)));
    assert_eq!((&rig.node, out), (&before, [NOISE; 13]));
    assert_eq!(rig.node.next_packet(&mut out).length, 13);
    assert_eq!(out[..11], [65, 238, 0x5E, 0, 1, 0, 2, 4, 0, 64, 5]);
}

/// Leaving OPEN leaves it behind, ready or unanswered.
#[test]
fn it_is_gone_outside_open() {
    for hand_out in [false, true] {
        for leaving in [alone(CLOSE, 0), whole(100, b"u")] {
            let mut rig = full();
            takes(&mut rig, 1);
            if hand_out {
                stated_next(&mut rig);
            }
            rig.arrive(&leaving);
            let sight = rig.node.sight(0).unwrap();
            assert_eq!((sight.flow_control, sight.flow_first), (None, None));
            assert_eq!(sight.last_number, 0);
            assert_eq!((ack(&mut rig, 4), rig.next()), (5, Err(12)));
        }
    }
}

/// A receive end looks at no Flow Control packet, and its Ack has no payload.
#[test]
fn a_packet_for_the_other_end_gives_14() {
    let mut rig = full();
    takes(&mut rig, 1);
    stated_next(&mut rig);
    let packet = packet_with(RECEIVING.channel, FLOW_CONTROL, 4, &[5]);
    assert_eq!(rig.arrive(&packet), 14);
    assert_eq!(rig.arrive(&packet_for(9, FLOW_CONTROL, 4)), 14);
}
