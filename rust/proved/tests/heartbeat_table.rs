//! Heartbeats in a table (document 02, A2): a receiver stands in the line of Control
//! and hands out its own, and a tick names it when it goes inactive.

mod ends;

use ends::{HOST, LIMITS};
use proved::record::{direction, LINES};
use proved::{storage, write_packet, Addresses, Channel, Fields, Limits, NodeTable, Outcome};
use proved::{Reason, Settings, State};

/// Packet types.
const OPEN: u8 = 2;
const HEARTBEAT: u8 = 4;
const HEARTBEAT_ACK: u8 = 5;
const CONTROL_ACK: u8 = 7;

const REMOTE: u8 = 65;

/// Channel 0 sends and makes none, channels 1 and 2 receive and send, and make them.
fn settings() -> [Settings; 3] {
    let ends = [
        (0, direction::SENDS, 0),
        (1, direction::RECEIVES, 3),
        (2, direction::SENDS, 3),
    ];
    ends.map(|(channel, direction, interval)| Settings {
        addresses: Addresses {
            channel,
            remote: REMOTE,
            direction,
            ..Addresses::default()
        },
        limits: Limits {
            timeout: 2,
            retries: 0,
            interval,
            ..LIMITS
        },
    })
}

/// A packet from the other node.
fn packet(channel: u16, kind: u8) -> [u8; 12] {
    let fields = Fields {
        destination: HOST.address,
        protocol: HOST.protocol,
        version: 1,
        flags: 3,
        kind,
        channel,
        source: REMOTE,
        ..Fields::default()
    };
    let mut packet = [0; 12];
    assert_eq!(write_packet(fields, &[], &[], &mut packet).answer, 0);
    packet
}

/// Index and type of the packet that goes out next.
fn next(node: &mut NodeTable) -> Option<(usize, u8)> {
    let mut out = [0; 40];
    let answer = node.next_packet(&mut out);
    let index = answer.index?;
    assert_eq!((answer.length(), out[6]), (12, index as u8));
    Some((index, out[2] & 0b111))
}

fn arrive(node: &mut NodeTable, channel: u16, kind: u8) {
    let answer = node.arrival(&packet(channel, kind), &mut [0; 12]);
    assert_eq!((answer.number(), answer.index), (0, Some(channel.into())));
}

/// A node whose channels 1 and 2 are open.
fn with_open(play: impl FnOnce(&mut NodeTable)) {
    let settings = settings();
    let (octets, lengths) = storage(&settings);
    let mut table = [Channel::blank(); 3];
    let (mut memory, mut lengths) = (vec![0; octets], vec![0; lengths]);
    let mut lines = [0; LINES];
    let (memory, lengths) = (&mut memory[..], &mut lengths[..]);
    let made = NodeTable::settings(HOST, &mut table, memory, lengths, &mut lines, &settings);
    let mut node = made.expect("these settings are good");
    for index in [1, 2] {
        assert_eq!(node.open(index).number(), 0);
    }
    arrive(&mut node, 1, OPEN);
    assert_eq!(next(&mut node), Some((2, OPEN)));
    arrive(&mut node, 2, CONTROL_ACK);
    play(&mut node);
}

/// Two join the line of Control in one tick, by index; an Open joins behind them.
#[test]
fn a_receiver_hands_out_its_heartbeat() {
    with_open(|node| {
        for _ in 0..3 {
            assert_eq!(next(node), None);
            assert_eq!(node.tick().number(), 0);
        }
        assert_eq!(node.open(0).number(), 0);
        assert_eq!(next(node), Some((1, HEARTBEAT)));
        assert_eq!(next(node), Some((2, HEARTBEAT)));
        assert_eq!(next(node), Some((0, OPEN)));
        assert_eq!(next(node), None);
        arrive(node, 1, HEARTBEAT_ACK);
        arrive(node, 2, HEARTBEAT_ACK);
    });
}

/// The receiver gets no answer, the sender does: the tick names the receiver.
#[test]
fn a_tick_names_a_receiver() {
    with_open(|node| {
        (0..3).for_each(|_| assert_eq!(node.tick().number(), 0));
        while next(node).is_some() {}
        arrive(node, 2, HEARTBEAT_ACK);
        assert_eq!(node.tick().number(), 0);
        let answer = node.tick();
        assert_eq!(answer.index, Some(1));
        assert_eq!(answer.outcome, Outcome::Inactive(Reason::Unanswered));
        assert_eq!(node.reason(1), Some(Reason::Unanswered));
        assert_eq!(node.state(1), Some(State::Closed));
        assert_eq!((node.reason(2), node.state(2)), (None, Some(State::Open)));
        assert_eq!(Reason::Unanswered.to_string(), "Heartbeat unanswered");
    });
}
