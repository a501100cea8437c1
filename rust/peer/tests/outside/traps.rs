//! "Traps of this trade", between two nodes.

use link::Noise;
use peer::node::Node;
use peer::packet::kind;
use peer::prefix::Prefix;
use peer::settings::{Direction, Settings};
use peer::state::State;

use crate::calls::{new_node, reclaim_all, take_all, ADDRESSES};

/// Settings of the channel of all traps.
pub const SENDING: Settings = Settings {
    direction: Direction::Sending,
    channel: 1,
    remote: ADDRESSES[1],
    remote_prefix: Prefix::NONE,
    own_prefix: Prefix::NONE,
    window: 4,
    slots: 8,
    most_payload: 16,
    most_segments: 4,
    timeout: 4,
    close_timeout: 9,
    retries: 2,
    interval: 0,
    flow: 0,
    spare: 0,
    lead: 0,
};

/// A sender and a receiver, both OPEN.
pub fn opened() -> [Node; 2] {
    opened_with([0, 0])
}

/// The same, which make Heartbeats after these intervals.
pub fn opened_with(intervals: [u32; 2]) -> [Node; 2] {
    let sending = Settings {
        interval: intervals[0],
        ..SENDING
    };
    opened_as(sending, intervals[1])
}

/// The same with these settings at both ends, but for the receiver's interval.
pub fn opened_as(sending: Settings, interval: u32) -> [Node; 2] {
    let receiving = Settings {
        direction: Direction::Receiving,
        remote: ADDRESSES[0],
        interval,
        ..sending
    };
    let mut noise = Noise::new(7);
    let mut nodes = [
        new_node(0, &[sending], &mut noise),
        new_node(1, &[receiving], &mut noise),
    ];
    for node in &mut nodes {
        assert_eq!(node.open(0).number, 0);
    }
    assert_eq!(exchange(&mut nodes), Some((kind::OPEN, 0)));
    nodes
}

/// The next packet of the sender, which may be lost.
pub fn sent(nodes: &mut [Node; 2]) -> Option<Vec<u8>> {
    let mut out = [0; 64];
    let answer = nodes[0].next_packet(&mut out);
    (answer.number == 0).then(|| out[..answer.length].to_vec())
}

/// The receiver's answer to a packet, and its ack, which may be lost.
pub fn received(nodes: &mut [Node; 2], packet: &[u8]) -> (u8, Vec<u8>) {
    let mut reply = [0; 64];
    let answer = nodes[1].arrival(packet, &mut reply);
    (answer.number, reply[..answer.length].to_vec())
}

/// The next packet goes there and its ack comes back; its kind and number.
pub fn exchange(nodes: &mut [Node; 2]) -> Option<(u8, u8)> {
    let packet = sent(nodes)?;
    let (_, ack) = received(nodes, &packet);
    nodes[0].arrival(&ack, &mut [0; 12]);
    Some((packet[2] & 0b111, packet[7]))
}

/// So many ticks for both nodes.
pub fn ticks(nodes: &mut [Node; 2], count: usize) {
    for _ in 0..count {
        for node in nodes.iter_mut() {
            assert_eq!(node.tick().number, 0);
        }
    }
}

/// "Not acknowledging a repeat behind the window: one lost ack then kills the
/// channel."
#[test]
fn one_lost_ack_does_not_kill_the_channel() {
    let mut nodes = opened();
    nodes[0].transfer(0, b"a");
    let first = sent(&mut nodes).unwrap();
    let (number, _lost) = received(&mut nodes, &first);
    assert_eq!(number, 0);
    assert_eq!(take_all(&mut nodes[1], 0), [b"a"]);
    ticks(&mut nodes, 4);
    let again = sent(&mut nodes).unwrap();
    assert_eq!(again, first);
    let (number, ack) = received(&mut nodes, &again);
    assert_eq!((number, ack.len()), (15, 12));
    assert_eq!(nodes[0].arrival(&ack, &mut [0; 12]).confirmed, 1);
    assert_eq!(take_all(&mut nodes[1], 0), Vec::<Vec<u8>>::new());
}

/// "Freeing slots segment by segment, so a half-confirmed unit cannot be
/// reclaimed."
#[test]
fn a_half_confirmed_unit_can_be_reclaimed() {
    let mut nodes = opened();
    let unit: Vec<u8> = (0..50).collect();
    nodes[0].transfer(0, &unit);
    nodes[0].transfer(0, &unit);
    assert_eq!(exchange(&mut nodes), Some((kind::DATA, 1)));
    assert_eq!(exchange(&mut nodes), Some((kind::DATA, 2)));
    assert_eq!(nodes[0].transfer(0, b"").number, 7);
    nodes[0].close(0);
    assert_eq!(exchange(&mut nodes), Some((kind::CLOSE, 0)));
    assert_eq!(nodes[0].state(0), Some(State::Closed));
    assert_eq!(reclaim_all(&mut nodes[0], 0), [unit.clone(), unit]);
}

/// "Taking number 0 for Control only: Data number 0 follows 255."
#[test]
fn data_number_0_follows_255() {
    let mut nodes = opened();
    for segment in 1..=520_u32 {
        nodes[0].transfer(0, &segment.to_be_bytes());
        let number = (segment % 256) as u8;
        assert_eq!(exchange(&mut nodes), Some((kind::DATA, number)));
        assert_eq!(take_all(&mut nodes[1], 0), [segment.to_be_bytes()]);
    }
    assert_eq!(nodes[0].state(0), Some(State::Open));
}

/// "Counting an acknowledged segment beyond a gap as confirmed."
#[test]
fn a_segment_beyond_a_gap_is_not_confirmed() {
    let mut nodes = opened();
    nodes[0].transfer(0, b"a");
    nodes[0].transfer(0, b"b");
    let _lost = sent(&mut nodes).unwrap();
    let second = sent(&mut nodes).unwrap();
    let (_, ack) = received(&mut nodes, &second);
    let answer = nodes[0].arrival(&ack, &mut [0; 12]);
    assert_eq!((answer.number, answer.confirmed), (0, 0));
    assert_eq!(take_all(&mut nodes[1], 0), Vec::<Vec<u8>>::new());
    nodes[0].close(0);
    assert_eq!(exchange(&mut nodes), Some((kind::CLOSE, 0)));
    assert_eq!(reclaim_all(&mut nodes[0], 0), [b"a", b"b"]);
}
