//! The node as a type: what it answers in words, and that settings alone make it.

mod ends;

use ends::{HOST, LIMITS, STATION};
use proved::record::{direction, LINES};
use proved::{storage, Addresses, Answer, Channel, NodeTable, Outcome};
use proved::{Prefix, Reason, Refusal, Said, Settings, State};

/// Channel 0 sends, channel 1 receives, to and from the node itself. What comes
/// back has a prefix, which alone tells the two ends apart.
fn settings() -> [Settings; 2] {
    let back = Prefix::of(&[7]).expect("not over 15");
    let ends = [
        (direction::SENDS, back, Prefix::NONE),
        (direction::RECEIVES, Prefix::NONE, back),
    ];
    ends.map(|(direction, remote_prefix, own_prefix)| Settings {
        addresses: Addresses {
            channel: 1,
            remote: HOST.address,
            direction,
            remote_prefix,
            own_prefix,
        },
        limits: LIMITS,
    })
}

fn with_node(play: impl FnOnce(&mut NodeTable)) {
    let (octets, lengths) = storage(&settings());
    let mut table = [Channel::blank(); 2];
    let (mut memory, mut lengths) = (vec![0xAA; octets], vec![0xBBBB; lengths]);
    let mut lines = [0xCC; LINES];
    let made = NodeTable::settings(
        HOST,
        &mut table,
        &mut memory,
        &mut lengths,
        &mut lines,
        &settings(),
    );
    play(&mut made.expect("these settings are good"));
}

/// What the channel of this index gave.
fn at(index: usize, outcome: Outcome) -> Answer {
    let index = Some(index);
    Answer { index, outcome }
}

/// The next packet to the node itself, and its ack.
fn exchange(node: &mut NodeTable) -> [Answer; 3] {
    let (mut packet, mut ack) = ([0; 28], [0; 13]);
    let out = node.next_packet(&mut packet);
    let there = node.arrival(&packet[..out.length()], &mut ack);
    let back = node.arrival(&ack[..there.length()], &mut packet);
    [out, there, back]
}

#[test]
fn a_unit_to_itself() {
    with_node(|node| {
        assert_eq!(node.open(0), at(0, Outcome::DONE));
        assert_eq!(node.open(1), at(1, Outcome::DONE));
        assert_eq!(node.state(0), Some(State::Enabled));
        let early = node.transfer(0, b"early");
        assert_eq!(early, at(0, Outcome::Refused(Refusal::State)));
        exchange(node);
        assert_eq!([node.state(0), node.state(1)], [Some(State::Open); 2]);
        assert_eq!(node.transfer(0, b"event"), at(0, Outcome::DONE));
        let done = |length, confirmed| Outcome::Done { length, confirmed };
        let expected = [at(0, done(17, 0)), at(1, done(13, 0)), at(0, done(0, 1))];
        assert_eq!(exchange(node), expected);
        let mut unit = [0; 6];
        let small = Outcome::Refused(Refusal::Small { wanted: 5 });
        assert_eq!(node.take(1, &mut unit[..4]), at(1, small));
        assert_eq!(node.take(1, &mut unit).length(), 5);
        assert_eq!(&unit, b"event\0");
        assert_eq!(node.close(0), at(0, Outcome::DONE));
        exchange(node);
        assert_eq!(node.state(0), Some(State::Closed));
        assert_eq!(node.state(1), Some(State::Closing));
        let outcome = Outcome::Refused(Refusal::NoChannel);
        let index = None;
        assert_eq!(node.open(2), Answer { index, outcome });
        assert_eq!((node.state(2), node.reason(2)), (None, None));
    });
}

#[test]
fn a_channel_goes_inactive() {
    with_node(|node| {
        node.open(0);
        let mut packet = [0; 28];
        let ticks = (0..3).flat_map(|_| {
            node.next_packet(&mut packet);
            (0..5).map(|_| node.tick()).collect::<Vec<_>>()
        });
        let last = ticks.last();
        let inactive = Outcome::Inactive(Reason::Retries);
        assert_eq!(last, Some(at(0, inactive)));
        assert_eq!(node.reason(0), Some(Reason::Retries));
        assert_eq!(node.state(0), Some(State::Closed));
        let nothing = Outcome::Refused(Refusal::Nothing);
        assert_eq!(node.reclaim(0, &mut packet), at(0, nothing));
        assert_eq!(node.records()[0].addresses, settings()[0].addresses);
    });
}

#[test]
fn bad_settings_make_no_node() {
    let mut table = [Channel::blank(); 2];
    let (octets, lengths) = storage(&settings());
    let (mut memory, mut slots, mut lines) = (vec![0; octets], vec![0; lengths], [0; LINES]);
    let twice = [settings()[0]; 2];
    let made = NodeTable::settings(
        STATION,
        &mut table,
        &mut memory,
        &mut slots,
        &mut lines,
        &twice,
    );
    assert_eq!(made.err(), Some(Refusal::Settings));
    let less = &mut memory[1..];
    let made = NodeTable::settings(
        STATION,
        &mut table,
        less,
        &mut slots,
        &mut lines,
        &settings(),
    );
    assert_eq!(made.err(), Some(Refusal::Settings));
    let less = &mut lines[1..];
    let made = NodeTable::settings(
        STATION,
        &mut table,
        &mut memory,
        &mut slots,
        less,
        &settings(),
    );
    assert_eq!(made.err(), Some(Refusal::Settings));
}

#[test]
fn every_number_has_its_name() {
    for number in 0..=16 {
        let reason = if number == 9 { 4 } else { 0 };
        let (length, confirmed, index) = (7, 0, 1);
        let said = Said {
            number,
            reason,
            length,
            confirmed,
            index,
        };
        let answer = Answer::of(said, 2);
        assert_eq!((answer.number(), answer.index), (number, Some(1)));
        let written = matches!(number, 0 | 15);
        assert_eq!(answer.length(), if written { 7 } else { 0 });
        assert_eq!(answer.wanted(), (number == 11).then_some(7));
        assert_eq!(Answer::of(said, 1).index, None);
    }
    let named = (0..=20).filter_map(|number| Refusal::of(number, 0));
    let named: Vec<u32> = named.map(Refusal::number).collect();
    assert_eq!(named, [1, 2, 3, 4, 5, 6, 7, 8, 10, 11, 12, 13, 14, 16]);
}
