//! "Whenever the Transmit TEP transmits a Packet (a Control, Data, or Ack Packet),
//! the Transmit TEP shall restart the Transmit Heartbeat timer" (000, 4.4.4.7), and
//! the Receive TEP for "an Ack or Flow Control Packet" (4.5.3.6).

use super::*;

/// Ticks to go until a Heartbeat is made.
fn left(rig: &Rig) -> u32 {
    rig.node.sight(0).unwrap().heartbeat_timer
}

/// A slow Heartbeat, so that it does not come in between.
fn slow(settings: Settings) -> Settings {
    Settings {
        interval: 100,
        timeout: 4,
        retries: 9,
        ..settings
    }
}

/// OPEN starts it.
#[test]
fn open_starts_it() {
    for mut rig in both(slow) {
        assert_eq!(left(&rig), 100);
        rig.ticks(7);
        assert_eq!(left(&rig), 93);
    }
}

/// Data does, new and resent; a transfer, its Ack and what is not handed out do
/// not.
#[test]
fn data_restarts_it() {
    let mut rig = Rig::sending(slow(SENDING));
    rig.ticks(7);
    rig.transfer(0, b"a");
    assert_eq!(rig.node.next_packet(&mut [0; 12]).number, 11);
    assert_eq!(left(&rig), 93);
    assert_eq!(rig.next(), Ok((DATA, 1)));
    assert_eq!(left(&rig), 100);
    rig.ticks(4);
    assert_eq!(left(&rig), 96);
    assert_eq!(rig.next(), Ok((DATA, 1)));
    assert_eq!(left(&rig), 100);
    rig.ticks(1);
    assert_eq!(rig.arrive(&alone(DATA_ACK, 1)), 0);
    assert_eq!(rig.arrive(&alone(DATA_ACK, 1)), 16);
    assert_eq!(rig.next(), Err(12));
    assert_eq!(left(&rig), 99);
}

/// Every Ack that is written does, with 15 too; a take does not, nor what gets no
/// Ack.
#[test]
fn acks_restart_it() {
    let mut rig = Rig::receiving(Settings {
        slots: 4,
        ..slow(RECEIVING)
    });
    let steps = [
        (alone(OPEN, 0), 15, 100),
        (whole(1, b"a"), 0, 100),
        (whole(1, b"a"), 15, 100),
        (whole(0, b"a"), 15, 100),
        (whole(2, &[0; 17]), 3, 99),
        (whole(3, b"c"), 0, 100),
        (whole(5, b"e"), 8, 99),
        (packet_for(RECEIVING.channel, HEARTBEAT, 9), 0, 100),
        (packet_for(RECEIVING.channel, HEARTBEAT_ACK, 0), 16, 99),
        (packet_for(9, HEARTBEAT, 0), 14, 98),
    ];
    for (packet, number, after) in steps {
        rig.ticks(1);
        assert_eq!((rig.arrive(&packet), left(&rig)), (number, after));
    }
    assert_eq!(rig.take(0), Ok(b"a".to_vec()));
    assert_eq!(left(&rig), 98);
    assert_eq!(rig.arrive(&alone(CLOSE, 0)), 0);
    assert_eq!(left(&rig), 0);
    assert_eq!(rig.arrive(&alone(CLOSE, 0)), 15);
    assert_eq!(left(&rig), 0);
}

/// A Heartbeat Ack that a transmit end writes does, too.
#[test]
fn a_heartbeat_ack_restarts_it() {
    let mut rig = Rig::sending(slow(SENDING));
    rig.ticks(7);
    let heartbeat = packet(&rig, HEARTBEAT, 0);
    assert_eq!(rig.arrive(&heartbeat), 0);
    assert_eq!(left(&rig), 100);
}

/// The Heartbeat itself does when it is made, and neither when it is handed out
/// nor when its Ack comes.
#[test]
fn a_heartbeat_restarts_it_when_it_is_made() {
    for mut rig in both(lively) {
        rig.ticks(3);
        assert_eq!(left(&rig), 3);
        rig.ticks(1);
        assert_eq!(rig.next(), Ok((HEARTBEAT, 0)));
        assert_eq!(left(&rig), 2);
        assert_eq!(ack(&mut rig, 0), 0);
        assert_eq!(left(&rig), 2);
    }
}

/// A channel that is never quiet makes no Heartbeat.
#[test]
fn a_busy_channel_makes_none() {
    let mut rig = Rig::sending(lively(SENDING));
    for number in 1..=50 {
        rig.transfer(0, b"a");
        assert_eq!(rig.next(), Ok((DATA, number)));
        assert_eq!(rig.arrive(&alone(DATA_ACK, number)), 0);
        rig.ticks(2);
        assert_eq!(rig.next(), Err(12));
    }
}
