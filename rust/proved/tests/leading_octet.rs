//! The leading octet of a unit on a pair of routes (document 02, A13).

mod ends;

use ends::{HOST, LIMITS};
use proved::record::{direction, LINES};
use proved::{storage, Addresses, Channel, Limits, NodeTable, Outcome};
use proved::{Prefix, Refusal, Settings};

/// M times P octets.
const MOST: usize = LIMITS.payload * LIMITS.segments;

/// Channel 0 sends to channel 1, to and from the node itself. Channel 2 sends to
/// nobody; it is the spare of channel 0, if that names one.
fn settings(spare: u16) -> [Settings; 3] {
    let lead = u16::from(spare != 0);
    let back = Prefix::of(&[7]).expect("not over 15");
    let of = |channel, direction, [remote_prefix, own_prefix]: [Prefix; 2], limits| Settings {
        addresses: Addresses {
            channel,
            remote: HOST.address,
            direction,
            remote_prefix,
            own_prefix,
        },
        limits,
    };
    let led = Limits { lead, ..LIMITS };
    let first = Limits { spare, ..led };
    [
        of(1, direction::SENDS, [back, Prefix::NONE], first),
        of(1, direction::RECEIVES, [Prefix::NONE, back], LIMITS),
        of(2, direction::SENDS, [back, Prefix::NONE], led),
    ]
}

/// Such a node, once channels 0 and 1 are OPEN.
fn open(spare: u16, play: impl FnOnce(&mut NodeTable)) {
    let settings = settings(spare);
    let (octets, lengths) = storage(&settings);
    let mut table = [Channel::blank(); 3];
    let (mut memory, mut lengths) = (vec![0xAA; octets], vec![0xBBBB; lengths]);
    let mut lines = [0xCC; LINES];
    let made = NodeTable::settings(
        HOST,
        &mut table,
        &mut memory,
        &mut lengths,
        &mut lines,
        &settings,
    );
    let mut node = made.expect("these settings are good");
    assert_eq!(node.open(0).outcome, Outcome::DONE);
    assert_eq!(node.open(1).outcome, Outcome::DONE);
    exchange(&mut node);
    play(&mut node);
}

/// The next packet to the node itself, and its ack.
fn exchange(node: &mut NodeTable) {
    let (mut packet, mut ack) = ([0; 28], [0; 13]);
    let out = node.next_packet(&mut packet);
    let there = node.arrival(&packet[..out.length()], &mut ack);
    node.arrival(&ack[..there.length()], &mut packet);
}

/// The unit that is taken at channel 1 after so many packets.
fn taken(node: &mut NodeTable, packets: usize) -> Vec<u8> {
    (0..packets).for_each(|_| exchange(node));
    let mut unit = [0xEE; MOST];
    let length = node.take(1, &mut unit).length();
    unit[..length].to_vec()
}

/// 0 and then the unit's octets, at every length round a segment's end.
#[test]
fn a_unit_is_filed_behind_it() {
    open(3, |node| {
        for octets in [1, 2, 14, 15, 16, 17, 30, 31, 32, MOST - 1] {
            let unit: Vec<u8> = (1..=octets as u8).collect();
            assert_eq!(node.transfer(0, &unit).outcome, Outcome::DONE);
            let filed = [&[0], &unit[..]].concat();
            let segments = filed.len().div_ceil(LIMITS.payload);
            assert_eq!(taken(node, segments), filed, "{octets} octets");
        }
    });
}

/// An empty unit is one segment of one octet.
#[test]
fn an_empty_unit_is_the_octet_alone() {
    open(3, |node| {
        assert_eq!(node.transfer(0, b"").outcome, Outcome::DONE);
        assert_eq!(taken(node, 1), [0]);
    });
}

/// M times P octets give 6, one octet less 0; the question answers the same.
#[test]
fn six_comes_one_octet_sooner() {
    let long = Outcome::Refused(Refusal::Long);
    open(3, |node| {
        for octets in [MOST, MOST + 1, 131_071, 131_072, usize::MAX - 1, usize::MAX] {
            assert_eq!(node.would_transfer(0, octets).outcome, long);
        }
        assert_eq!(node.transfer(0, &[7; MOST]).outcome, long);
        assert_eq!(node.would_transfer(0, MOST - 1).outcome, Outcome::DONE);
        assert_eq!(node.transfer(0, &[7; MOST - 1]).outcome, Outcome::DONE);
    });
    open(0, |node| {
        assert_eq!(node.would_transfer(0, MOST + 1).outcome, long);
        assert_eq!(node.transfer(0, &[7; MOST]).outcome, Outcome::DONE);
        assert_eq!(taken(node, 3), [7; MOST]);
    });
}

/// What is reclaimed begins with it too.
#[test]
fn it_is_reclaimed_with_the_unit() {
    open(3, |node| {
        assert_eq!(node.transfer(0, b"fan").outcome, Outcome::DONE);
        assert_eq!(node.close(0).outcome, Outcome::DONE);
        exchange(node);
        let mut unit = [0xEE; 5];
        assert_eq!(node.reclaim(0, &mut unit).length(), 4);
        assert_eq!(&unit, b"\0fan\xEE");
    });
}
