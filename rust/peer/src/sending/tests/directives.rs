//! Directives, Control packets and their acks.

use super::*;

/// "CLOSED: an Open directive leads to ENABLED, an Open (number 0) becomes
/// ready."
#[test]
fn an_open_directive_makes_an_open_ready() {
    let mut rig = Rig::new(&[SENDING]);
    assert_eq!(rig.next(), Err(12));
    assert_eq!(rig.open(0), 0);
    assert_eq!(standing(&rig), (State::Enabled, Reason::None));
    assert_eq!(rig.next(), Ok((OPEN, 0)));
    assert_eq!(rig.next(), Err(12));
}

/// The octets of an Open: flags 11, no payload (000, 4.2.3.4.4, 4.2.4.1).
#[test]
fn an_open_to_the_octet() {
    let mut rig = Rig::new(&[SENDING]);
    rig.open(0);
    let packet = rig.next_packet().unwrap();
    assert_eq!(packet[..10], [65, 238, 0x5A, 0, 0, 0, 1, 0, 0, 64]);
    assert_eq!(packet.len(), 12);
}

/// "Its Control Ack, numbered 0 and after the Open was handed out, leads to
/// OPEN."
#[test]
fn the_ack_of_the_open_leads_to_open() {
    let mut rig = Rig::new(&[SENDING]);
    rig.open(0);
    assert_eq!(rig.arrive(&alone(CONTROL_ACK, 0)), 16);
    assert_eq!(rig.next(), Ok((OPEN, 0)));
    assert_eq!(rig.arrive(&alone(CONTROL_ACK, 1)), 16);
    assert_eq!(rig.node.state(0), Some(State::Enabled));
    assert_eq!(rig.arrive(&alone(CONTROL_ACK, 0)), 0);
    assert_eq!(rig.node.state(0), Some(State::Open));
}

/// "A Close directive in ENABLED is kept until the Open is acknowledged, then
/// CLOSING": never OPEN between, so no unit is accepted.
#[test]
fn a_close_directive_in_enabled_is_kept() {
    let mut rig = Rig::new(&[SENDING]);
    rig.open(0);
    assert_eq!(rig.close(0), 0);
    assert_eq!(rig.node.state(0), Some(State::Enabled));
    assert_eq!(rig.next(), Ok((OPEN, 0)));
    assert_eq!(rig.arrive(&alone(CONTROL_ACK, 0)), 0);
    assert_eq!(rig.node.state(0), Some(State::Closing));
    assert_eq!(rig.transfer(0, b"a"), 5);
    assert_eq!(rig.next(), Ok((CLOSE, 0)));
    assert_eq!(rig.arrive(&alone(CONTROL_ACK, 0)), 0);
    assert_eq!(standing(&rig), (State::Closed, Reason::None));
}

/// A kept Close is forgotten when the Open's retries run out.
#[test]
fn a_kept_close_is_forgotten_with_its_opening() {
    let mut rig = Rig::new(&[Settings {
        retries: 0,
        timeout: 1,
        ..SENDING
    }]);
    rig.open(0);
    rig.close(0);
    rig.next().unwrap();
    assert_eq!(rig.tick(), 9);
    assert_eq!(standing(&rig), (State::Closed, Reason::Retries));
    assert_eq!(rig.open(0), 0);
    assert_eq!(standing(&rig), (State::Enabled, Reason::None));
    rig.next().unwrap();
    assert_eq!(rig.arrive(&alone(CONTROL_ACK, 0)), 0);
    assert_eq!(rig.node.state(0), Some(State::Open));
}

/// "in OPEN, CLOSING at once"
#[test]
fn a_close_directive_in_open_leads_to_closing() {
    let mut rig = Rig::sending(SENDING);
    assert_eq!(rig.close(0), 0);
    assert_eq!(rig.node.state(0), Some(State::Closing));
}

/// The octets of a Close: number 0 as that of an Open (000, 4.4.4.4).
#[test]
fn a_close_to_the_octet() {
    let mut rig = Rig::sending(SENDING);
    rig.close(0);
    let packet = rig.next_packet().unwrap();
    assert_eq!(packet[..10], [65, 238, 0x5B, 0, 0, 0, 1, 0, 0, 64]);
}

/// "CLOSING stops all Data sending and timers and makes a Close ready"
#[test]
fn closing_stops_data_and_its_timers() {
    let mut rig = Rig::sending(Settings {
        retries: 1,
        ..SENDING
    });
    rig.transfer(0, b"a");
    rig.transfer(0, b"b");
    assert_eq!(rig.next(), Ok((DATA, 1)));
    rig.ticks(3);
    assert_eq!(rig.close(0), 0);
    rig.ticks(10);
    assert_eq!(rig.next(), Ok((CLOSE, 0)));
    assert_eq!(rig.next(), Err(12));
    rig.ticks(4);
    assert_eq!(rig.next(), Ok((CLOSE, 0)));
    assert_eq!(rig.next(), Err(12));
}

/// "its ack, by the same rule, leads to CLOSED"; "A close by ack or close
/// timer is not that [inactive]."
#[test]
fn the_ack_of_the_close_leads_to_closed() {
    let mut rig = Rig::sending(SENDING);
    rig.close(0);
    assert_eq!(rig.arrive(&alone(CONTROL_ACK, 0)), 16);
    assert_eq!(rig.next(), Ok((CLOSE, 0)));
    assert_eq!(rig.arrive(&alone(CONTROL_ACK, 255)), 16);
    assert_eq!(rig.arrive(&alone(CONTROL_ACK, 0)), 0);
    assert_eq!(standing(&rig), (State::Closed, Reason::None));
    assert_eq!(rig.next(), Err(12));
}

/// A repeat of the Open's ack is ignored until the Close was handed out; after
/// that nothing tells it from the Close's own (000 has the same hole).
#[test]
fn a_repeated_ack_of_the_open_is_taken_for_that_of_the_close() {
    let mut rig = Rig::sending(SENDING);
    rig.close(0);
    assert_eq!(rig.arrive(&alone(CONTROL_ACK, 0)), 16);
    rig.next().unwrap();
    assert_eq!(rig.arrive(&alone(CONTROL_ACK, 0)), 0);
    assert_eq!(rig.node.state(0), Some(State::Closed));
}

/// "Other directives, a second Close too, give 5."
#[test]
fn other_directives_give_5() {
    let mut rig = Rig::new(&[SENDING]);
    assert_eq!(rig.close(0), 5);
    rig.open(0);
    assert_eq!(rig.open(0), 5);
    assert_eq!([rig.close(0), rig.close(0), rig.open(0)], [0, 5, 5]);
    let mut rig = Rig::sending(SENDING);
    assert_eq!(rig.open(0), 5);
    assert_eq!([rig.close(0), rig.close(0), rig.open(0)], [0, 5, 5]);
}

/// "Control Acks belong to ENABLED and CLOSING, Data Acks to OPEN; elsewhere
/// they give 5." State comes before number.
#[test]
fn acks_in_states_they_do_not_belong_to_give_5() {
    let both = |rig: &mut Rig, number| {
        [CONTROL_ACK, DATA_ACK].map(|kind| rig.arrive(&alone(kind, number)))
    };
    let mut rig = Rig::new(&[SENDING]);
    assert_eq!(both(&mut rig, 0), [5, 5]);
    assert_eq!(both(&mut rig, 7), [5, 5]);
    rig.open(0);
    assert_eq!(both(&mut rig, 7), [16, 5]);
    rig.next().unwrap();
    rig.arrive(&alone(CONTROL_ACK, 0));
    assert_eq!(both(&mut rig, 0), [5, 16]);
    assert_eq!(both(&mut rig, 7), [5, 16]);
    rig.close(0);
    assert_eq!(both(&mut rig, 7), [16, 5]);
}

/// A transmit end hears nothing but acks: Data and Control look for a
/// receiving record.
#[test]
fn other_packets_find_no_channel() {
    let mut rig = Rig::sending(SENDING);
    let answers = [DATA, OPEN, CLOSE].map(|kind| rig.arrive(&packet_for(SENDING.channel, kind, 0)));
    assert_eq!(answers, [14, 14, 14]);
}
