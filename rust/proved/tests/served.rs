//! The answer names the channel that the call served, and with 11 tells the octets
//! wanted: three senders of one node, and the receivers of its own packets.

mod ends;

use ends::{HOST, LIMITS};
use proved::record::{direction, LINES};
use proved::{storage, Addresses, Answer, Channel, NodeTable, Outcome};
use proved::{Prefix, Reason, Refusal, Settings};

/// Octets of an Ack: it has a prefix of one.
const ACK: usize = 13;

const RETRIES: Outcome = Outcome::Inactive(Reason::Retries);

/// Channels 0 to 2 send, channels 3 to 5 receive, to and from the node itself. What
/// comes back has a prefix, which alone tells the two ends of a channel apart.
fn settings() -> Vec<Settings> {
    let back = Prefix::of(&[7]).expect("not over 15");
    let ends = [
        (direction::SENDS, back, Prefix::NONE),
        (direction::RECEIVES, Prefix::NONE, back),
    ];
    let channels = ends
        .into_iter()
        .flat_map(|end| (1..4).map(move |channel| (channel, end)));
    let made = channels.map(|(channel, end)| Settings {
        addresses: Addresses {
            channel,
            remote: HOST.address,
            direction: end.0,
            remote_prefix: end.1,
            own_prefix: end.2,
        },
        limits: LIMITS,
    });
    made.collect()
}

/// A node whose channels are all open.
fn with_open(play: impl FnOnce(&mut NodeTable)) {
    let settings = settings();
    let (octets, lengths) = storage(&settings);
    let mut table = [Channel::blank(); 6];
    let (mut memory, mut lengths) = (vec![0; octets], vec![0; lengths]);
    let mut lines = [0; LINES];
    let made = NodeTable::settings(
        HOST,
        &mut table,
        &mut memory,
        &mut lengths,
        &mut lines,
        &settings,
    );
    let mut node = made.expect("these settings are good");
    for index in 0..6 {
        assert_eq!(node.open(index).index, Some(index));
    }
    for index in 0..3 {
        let open = packet(&mut node, index);
        let ack = arrives(&mut node, &open, index + 3);
        assert!(is_done_by(node.arrival(&ack, &mut [0; 12]), index));
    }
    play(&mut node);
}

/// Whether a call was done by this channel.
fn is_done_by(answer: Answer, index: usize) -> bool {
    answer.index == Some(index) && answer.number() == 0
}

/// The next packet, which is of this channel.
fn packet(node: &mut NodeTable, index: usize) -> Vec<u8> {
    let mut out = [0; 28];
    let answer = node.next_packet(&mut out);
    assert!(is_done_by(answer, index), "{answer:?}");
    out[..answer.length()].to_vec()
}

/// The ack of a packet that this channel accepts.
fn arrives(node: &mut NodeTable, packet: &[u8], index: usize) -> [u8; ACK] {
    let mut ack = [0; ACK];
    let answer = node.arrival(packet, &mut ack);
    assert!(is_done_by(answer, index), "{answer:?}");
    ack
}

fn small(index: Option<usize>, wanted: usize) -> Answer {
    let outcome = Outcome::Refused(Refusal::Small { wanted });
    Answer { index, outcome }
}

#[test]
fn whose_unit_is_confirmed() {
    with_open(|node| {
        let acks = [0, 1, 2].map(|index| {
            assert!(is_done_by(node.transfer(index, b"event"), index));
            let packet = packet(node, index);
            arrives(node, &packet, index + 3)
        });
        for index in [1, 2, 0] {
            let answer = node.arrival(&acks[index], &mut [0; 12]);
            assert_eq!((answer.index, answer.confirmed()), (Some(index), 1));
            let again = node.arrival(&acks[index], &mut [0; 12]);
            let outcome = Outcome::Refused(Refusal::Ignored);
            let index = Some(index);
            assert_eq!(again, Answer { index, outcome });
        }
    });
}

#[test]
fn octets_wanted() {
    with_open(|node| {
        assert!(is_done_by(node.transfer(2, b"event"), 2));
        let mut out = [0xEE; 17];
        assert_eq!(node.next_packet(&mut out[..16]), small(Some(2), 17));
        assert_eq!(node.arrival(&[], &mut out[..11]), small(None, 12));
        let packet = packet(node, 2);
        assert_eq!(node.arrival(&packet, &mut out[..11]), small(None, 12));
        assert_eq!(node.arrival(&packet, &mut out[..12]), small(Some(5), ACK));
        arrives(node, &packet, 5);
        assert_eq!(node.take(5, &mut out[..4]), small(Some(5), 5));
        assert_eq!(node.take(5, &mut []), small(Some(5), 5));
        assert_eq!(out, [0xEE; 17]);
    });
}

/// Retries that are used up in one tick: the lowest index, and its reason. What
/// is then reclaimed tells its octets first.
#[test]
fn a_tick_names_the_lowest() {
    with_open(|node| {
        for index in [1, 2] {
            node.transfer(index, b"held");
        }
        let mut last = Vec::new();
        for _ in 0..=LIMITS.retries {
            packet(node, 1);
            packet(node, 2);
            let quiet = (1..LIMITS.timeout).all(|_| node.tick().index.is_none());
            assert!(quiet);
            last.push(node.tick());
        }
        let outcomes = [Outcome::DONE, Outcome::DONE, RETRIES];
        let indices = [None, None, Some(1)];
        let expected = indices.into_iter().zip(outcomes);
        let expected = expected.map(|(index, outcome)| Answer { index, outcome });
        assert!(last.into_iter().eq(expected));
        assert_eq!(
            [1, 2].map(|index| node.reason(index)),
            [Some(Reason::Retries); 2]
        );
        let mut out = [0; 4];
        assert_eq!(node.reclaim(2, &mut out[..3]), small(Some(2), 4));
        assert_eq!(node.reclaim(2, &mut out).length(), 4);
    });
}

/// What a transfer would answer, and then does.
#[test]
fn a_question_changes_nothing() {
    with_open(|node| {
        let asked = |node: &mut NodeTable, index, count| {
            let before = node.records().to_vec();
            let answer = node.would_transfer(index, count);
            assert_eq!(node.records(), before);
            answer
        };
        for (octets, number) in [(49, 6), (48, 0), (48, 0), (49, 6), (33, 7), (32, 0), (0, 7)] {
            let answer = asked(node, 1, octets);
            assert_eq!((answer.index, answer.number()), (Some(1), number));
            assert_eq!(node.transfer(1, &vec![1; octets]), answer);
        }
        assert_eq!(asked(node, 0, usize::MAX).number(), 6);
        assert_eq!(asked(node, 3, 1).number(), 5);
        let beyond = asked(node, 6, 1);
        assert_eq!((beyond.index, beyond.number()), (None, 14));
    });
}
