//! Directives and Control packets.

use super::*;

/// "An Open directive in CLOSED leads to ENABLED; any other directive gives
/// 5."
#[test]
fn directives() {
    let mut rig = Rig::new(&[RECEIVING]);
    assert_eq!(rig.close(0), 5);
    assert_eq!(rig.open(0), 0);
    assert_eq!(standing(&rig), (State::Enabled, Reason::None));
    assert_eq!([rig.open(0), rig.close(0)], [5, 5]);
    rig.arrive(&alone(OPEN, 0));
    assert_eq!([rig.open(0), rig.close(0)], [5, 5]);
    rig.arrive(&alone(CLOSE, 0));
    assert_eq!(rig.node.state(0), Some(State::Closing));
    assert_eq!([rig.open(0), rig.close(0)], [5, 5]);
}

/// A receive end takes no units to send, and has none to reclaim.
#[test]
fn requests_of_the_other_direction_give_5() {
    let mut rig = Rig::receiving(RECEIVING);
    assert_eq!(rig.transfer(0, b"a"), 5);
    assert_eq!(rig.reclaim(0), Err(5));
    assert_eq!(rig.next(), Err(12));
}

/// "ENABLED: an Open numbered 0 is acknowledged and leads to OPEN, window
/// start 1."
#[test]
fn an_open_in_enabled_leads_to_open() {
    let mut rig = Rig::new(&[RECEIVING]);
    rig.open(0);
    let answer = rig.arrival(&alone(OPEN, 0));
    assert_eq!((answer.number, answer.length), (0, 12));
    assert_eq!(standing(&rig), (State::Open, Reason::None));
    assert_eq!(wholes(&mut rig, [1, 4, 255]), [0, 0, 15]);
}

/// The octets of an ack: its packet's number and channel, back to the source
/// (000, 4.5.3.4, 4.2.3.1).
#[test]
fn acks_to_the_octet() {
    let mut rig = Rig::new(&[RECEIVING]);
    rig.open(0);
    let mut reply = [NOISE; 12];
    rig.node.arrival(&alone(OPEN, 0), &mut reply);
    assert_eq!(reply[..10], [65, 238, 0x5F, 0, 0, 0, 2, 0, 0, 64]);
    rig.node.arrival(&whole(2, b"x"), &mut reply);
    assert_eq!(reply[..10], [65, 238, 0x59, 0, 0, 0, 2, 2, 0, 64]);
}

/// "In OPEN a second such Open is acknowledged (15) while no Data was accepted
/// (house)"; Data behind the window is not accepted, so it does not count.
#[test]
fn a_second_open_is_acknowledged_while_no_data_was_accepted() {
    let mut rig = Rig::receiving(RECEIVING);
    let answer = rig.arrival(&alone(OPEN, 0));
    assert_eq!((answer.number, answer.length), (15, 12));
    assert_eq!(wholes(&mut rig, [0]), [15]);
    assert_eq!(rig.arrive(&alone(OPEN, 0)), 15);
    assert_eq!(standing(&rig), (State::Open, Reason::None));
}

/// "after that it makes the channel inactive", also when the Data accepted
/// lies beyond a gap.
#[test]
fn a_late_open_makes_the_channel_inactive() {
    for number in [1, 4] {
        let mut rig = Rig::receiving(RECEIVING);
        assert_eq!(wholes(&mut rig, [number]), [0]);
        assert_eq!(rig.arrive(&alone(OPEN, 0)), 9);
        assert_eq!(standing(&rig), (State::Closed, Reason::LateOpen));
    }
}

/// The Open is late also when all Data was taken.
#[test]
fn an_open_is_late_although_all_was_taken() {
    let mut rig = started_at(RECEIVING, 2);
    assert_eq!(rig.arrive(&alone(OPEN, 0)), 9);
}

/// "A Control packet with another number makes the channel inactive in ENABLED
/// and OPEN." 000, 4.5.2.5 and 4.5.3.4 (2) d say so of CLOSING too.
#[test]
fn another_control_number_makes_the_channel_inactive() {
    for kind in [OPEN, CLOSE] {
        for number in [1, 128, 255] {
            let mut enabled = Rig::new(&[RECEIVING]);
            enabled.open(0);
            let open = Rig::receiving(RECEIVING);
            let mut closing = Rig::receiving(RECEIVING);
            closing.arrive(&alone(CLOSE, 0));
            for mut rig in [enabled, open, closing] {
                assert_eq!(rig.arrive(&alone(kind, number)), 9);
                assert_eq!(standing(&rig), (State::Closed, Reason::ControlNumber));
                rig.ticks(10);
                assert_eq!(standing(&rig), (State::Closed, Reason::ControlNumber));
            }
        }
    }
}

/// An Open that is late and has another number: its number is the reason, as
/// 000, 4.5.3.4 (2) c speaks of number 0.
#[test]
fn a_late_open_with_another_number() {
    let mut rig = started_at(RECEIVING, 2);
    assert_eq!(rig.arrive(&alone(OPEN, 1)), 9);
    assert_eq!(standing(&rig), (State::Closed, Reason::ControlNumber));
}

/// "Other packets there, all packets in CLOSED, and Data or a Close numbered 0
/// in ENABLED give 5."
#[test]
fn packets_that_the_state_does_not_allow() {
    let mut rig = Rig::new(&[RECEIVING]);
    for number in [0, 1, 255] {
        let packets = [
            alone(OPEN, number),
            alone(CLOSE, number),
            whole(number, b"a"),
        ];
        assert_eq!(packets.map(|packet| rig.arrive(&packet)), [5, 5, 5]);
    }
    rig.open(0);
    assert_eq!(rig.arrive(&alone(CLOSE, 0)), 5);
    assert_eq!(wholes(&mut rig, [0, 1, 100]), [5, 5, 5]);
    rig.arrive(&alone(OPEN, 0));
    rig.arrive(&alone(CLOSE, 0));
    assert_eq!(rig.arrive(&alone(OPEN, 0)), 5);
    assert_eq!(wholes(&mut rig, [0, 1, 100]), [5, 5, 5]);
}

/// Acks of Data and of Control look for a sending record.
#[test]
fn acks_find_no_channel() {
    let mut rig = Rig::receiving(RECEIVING);
    let answers =
        [DATA_ACK, CONTROL_ACK].map(|kind| rig.arrive(&packet_for(RECEIVING.channel, kind, 0)));
    assert_eq!(answers, [14, 14]);
}

/// "A Close in OPEN is acknowledged and leads to CLOSING, where further Closes
/// numbered 0 are acknowledged (15) until the close timer, started there, ends
/// and leads to CLOSED."
#[test]
fn a_close_leads_to_closing_and_the_close_timer_to_closed() {
    let mut rig = Rig::receiving(RECEIVING);
    let answer = rig.arrival(&alone(CLOSE, 0));
    assert_eq!((answer.number, answer.length), (0, 12));
    assert_eq!(standing(&rig), (State::Closing, Reason::None));
    rig.ticks(3);
    let answer = rig.arrival(&alone(CLOSE, 0));
    assert_eq!((answer.number, answer.length), (15, 12));
    assert_eq!(rig.node.state(0), Some(State::Closing));
    rig.ticks(1);
    assert_eq!(standing(&rig), (State::Closed, Reason::None));
    assert_eq!(rig.arrive(&alone(CLOSE, 0)), 5);
}

/// The close timer has its own setting, 1 to 65,535 ticks.
#[test]
fn the_close_timeout_is_a_setting_of_its_own() {
    for close_timeout in [1, 2, 65_535] {
        let mut rig = Rig::receiving(Settings {
            close_timeout,
            ..RECEIVING
        });
        rig.arrive(&alone(CLOSE, 0));
        for _ in 1..close_timeout {
            assert_eq!(rig.node.tick().number, 0);
            assert_eq!(rig.node.state(0), Some(State::Closing));
        }
        assert_eq!(rig.node.tick().number, 0);
        assert_eq!(standing(&rig), (State::Closed, Reason::None));
    }
}

/// A receive end that makes no Heartbeat has no timer but the close timer: ticks do
/// not wear it out.
#[test]
fn ticks_leave_the_other_states() {
    let mut rig = Rig::new(&[RECEIVING]);
    rig.ticks(20);
    rig.open(0);
    rig.ticks(20);
    assert_eq!(rig.arrive(&alone(OPEN, 0)), 0);
    rig.ticks(20);
    assert_eq!(wholes(&mut rig, [1]), [0]);
}

/// The record's reason stands until the next accepted Open directive.
#[test]
fn the_reason_stands_until_the_next_open() {
    let mut rig = Rig::receiving(RECEIVING);
    rig.arrive(&alone(CLOSE, 7));
    rig.ticks(3);
    rig.arrive(&alone(OPEN, 0));
    assert_eq!(rig.close(0), 5);
    assert_eq!(standing(&rig), (State::Closed, Reason::ControlNumber));
    assert_eq!(rig.open(0), 0);
    assert_eq!(standing(&rig), (State::Enabled, Reason::None));
}
