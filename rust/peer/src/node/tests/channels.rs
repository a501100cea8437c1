//! "an arrival or request reads and changes its own channel alone [..]. A tick
//! treats each channel alone."

use super::*;
use crate::prefix::Prefix;

/// A packet finds its record by channel number, remote address and direction.
#[test]
fn packets_find_their_records() {
    let other_remote = Settings {
        remote: 66,
        ..RECEIVING
    };
    let table = [SENDING, RECEIVING, receiving(3), other_remote];
    let mut rig = Rig::new(&table);
    for index in 0..4 {
        rig.open(index);
    }
    rig.next().unwrap();
    let far = Fields {
        kind: OPEN,
        source: 66,
        ..THERE.header(HERE.own, RECEIVING.channel)
    };
    let cases = [
        (alone(OPEN, 0), 1),
        (packet_for(3, OPEN, 0), 2),
        (alone(CONTROL_ACK, 0), 0),
        (written(&far, &[]), 3),
    ];
    for (packet, index) in cases {
        let before = rig.node.clone();
        assert_eq!(rig.node.arrival(&packet, &mut [0; 12]).number, 0);
        assert_eq!(rig.node.state(index), Some(State::Open));
        for other in (0..4).filter(|&other| other != index) {
            assert_eq!(rig.node.channels[other], before.channels[other]);
        }
    }
}

/// The ack goes back to the source of its packet.
#[test]
fn an_ack_goes_to_the_remote_address() {
    let mut rig = Rig::new(&[Settings {
        remote: 200,
        channel: 0x1234,
        ..RECEIVING
    }]);
    rig.open(0);
    let open = Fields {
        kind: OPEN,
        source: 200,
        ..THERE.header(HERE.own, 0x1234)
    };
    let mut reply = [0; 12];
    assert_eq!(rig.node.arrival(&written(&open, &[]), &mut reply).number, 0);
    assert_eq!(reply[..10], [200, 238, 0x5F, 0, 0, 0x12, 0x34, 0, 0, 64]);
}

/// "A tick answers 9 if any channel went inactive in it, else 0." All channels
/// are ticked, also those behind one that went inactive.
#[test]
fn a_tick_ticks_all_channels() {
    let fragile = Settings {
        retries: 0,
        ..sending(0)
    };
    let mut rig = Rig::new(&[fragile, sending(1), receiving(2)]);
    for index in 0..3 {
        rig.open(index);
    }
    rig.next().unwrap();
    rig.next().unwrap();
    rig.arrive(&packet_for(2, OPEN, 0));
    rig.arrive(&packet_for(2, CLOSE, 0));
    rig.ticks(3);
    assert_eq!(rig.tick(), 9);
    let states = [0, 1, 2].map(|index| rig.node.state(index).unwrap());
    assert_eq!(states, [State::Closed, State::Enabled, State::Closed]);
    let reasons = [0, 1, 2].map(|index| rig.node.reason(index).unwrap());
    assert_eq!(reasons, [Reason::Retries, Reason::None, Reason::None]);
    assert_eq!(next(&mut rig), (1, OPEN, 0));
    assert_eq!(rig.tick(), 0);
}

/// Requests change their own channel alone.
#[test]
fn requests_change_their_own_channel_alone() {
    let table: Vec<Settings> = (0..16).map(sending).collect();
    let mut rig = Rig::new(&table);
    open_all(&mut rig, &(0..16).collect::<Vec<usize>>());
    for index in 0..16 {
        let before = rig.node.clone();
        assert_eq!(rig.transfer(index, &[index as u8; 20]), 0);
        assert_eq!(rig.close(index), 0);
        for other in (0..16).filter(|&other| other != index) {
            assert_eq!(rig.node.channels[other], before.channels[other]);
            let part = other * 128..(other + 1) * 128;
            assert_eq!(rig.node.memory()[part.clone()], before.memory()[part]);
        }
    }
}

/// One node may have both ends of a channel to itself, if a prefix tells them
/// apart: what one end has as its own is the other's remote one.
#[test]
fn a_node_may_talk_to_itself() {
    let sending = Settings {
        remote: HERE.own,
        remote_prefix: Prefix::new(&[7]).unwrap(),
        ..SENDING
    };
    let receiving = Settings {
        direction: Direction::Receiving,
        remote_prefix: sending.own_prefix,
        own_prefix: sending.remote_prefix,
        ..sending
    };
    let mut node = unset_node(&[sending, receiving]);
    let mut alike = receiving;
    alike.remote_prefix = sending.remote_prefix;
    assert_eq!(node.settings(&[sending, alike]).number, 13);
    assert_eq!(node.settings(&[sending, receiving]).number, 0);
    node.open(0);
    node.open(1);
    node.transfer(0, b"none");
    let (mut packet, mut reply) = ([0; 64], [0; 64]);
    let mut turn = |node: &mut Node| {
        let length = node.next_packet(&mut packet).length;
        let length = node.arrival(&packet[..length], &mut reply).length;
        node.arrival(&reply[..length], &mut packet)
    };
    assert_eq!(turn(&mut node), Answer::DONE.at(0));
    assert_eq!(node.transfer(0, b"hello"), Answer::DONE.at(0));
    assert_eq!(turn(&mut node), Answer::confirmed(1).at(0));
    let mut unit = [0; 5];
    assert_eq!(node.take(1, &mut unit), Answer::written(5).at(1));
    assert_eq!(&unit, b"hello");
}
