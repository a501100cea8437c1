//! What chance does not come to: the last retry, the longest timers, the largest
//! table and the longest unit. Every call is made of both libraries and compared.

mod nodes;

use compare::call::Call;
use link::Noise;
use nodes::{settings, Nodes};
use peer::prefix::Prefix;
use peer::settings::Settings;
use peer::state::{Reason, State};

/// Every length of either prefix, with the least room for what goes over and
/// for what comes back; and an octet less.
#[test]
fn every_pair_of_prefixes() {
    let octets: Vec<u8> = (100..115).collect();
    let prefix = |count: usize| Prefix::new(&octets[..count]).expect("not over 15");
    for (own, remote) in (0..16).flat_map(|own| (0..16).map(move |remote| (own, remote))) {
        let mut nodes = Nodes::open(&[Settings {
            own_prefix: prefix(own),
            remote_prefix: prefix(remote),
            ..settings(1, 9, 3)
        }]);
        assert_eq!(nodes.call(0, Call::Transfer(0, b"abc"), 0), 0);
        assert_eq!(nodes.call(0, Call::NextPacket, 14 + own), 11);
        let data = nodes.packet().expect("Data");
        assert_eq!(data.len(), 15 + own);
        assert_eq!(nodes.call(1, Call::Arrival(&data), 11 + remote), 11);
        let arrival = Call::Arrival(&data);
        let outcome = nodes.twins[1].call(arrival, 12 + remote, &mut nodes.tally);
        assert_eq!(
            (outcome.said.number, outcome.octets.len()),
            (0, 12 + remote)
        );
        assert_eq!(nodes.call(0, Call::Arrival(&outcome.octets), 12), 0);
        assert_eq!(nodes.call(1, Call::Take(0), 3), 0);
    }
}

/// "the retries are the resends allowed to it": 1 and the retries, then 9.
#[test]
fn the_last_retry() {
    for retries in [0, 1, 2, 254, 255] {
        let mut nodes = Nodes::open(&[settings(1, 1, retries)]);
        assert_eq!(nodes.call(0, Call::Transfer(0, b"unit"), 0), 0);
        for _ in 0..retries {
            assert!(nodes.packet().is_some());
            assert_eq!(nodes.call(0, Call::Tick, 0), 0);
        }
        assert!(nodes.packet().is_some());
        assert_eq!(nodes.call(0, Call::Tick, 0), 9, "{retries} retries");
        assert_eq!(nodes.twins[0].peer.reason(0), Some(Reason::Retries));
        assert_eq!(nodes.call(0, Call::Reclaim(0), 4), 0);
    }
}

/// Of the channels that go inactive in one tick, the answer names the lowest.
#[test]
fn several_inactive_in_one_tick() {
    let table = [(1, 3), (2, 0), (3, 0)];
    let mut nodes = Nodes::open(&table.map(|(channel, retries)| settings(channel, 1, retries)));
    for index in [2, 1, 0] {
        assert_eq!(nodes.call(0, Call::Transfer(index, b"unit"), 0), 0);
    }
    while nodes.packet().is_some() {}
    let said = nodes.twins[0].call(Call::Tick, 0, &mut nodes.tally).said;
    assert_eq!((said.number, said.index, said.reason), (9, 1, 1));
    let reasons = [0, 1, 2].map(|index| nodes.twins[0].peer.reason(index));
    let expected = [Reason::None, Reason::Retries, Reason::Retries];
    assert_eq!(reasons, expected.map(Some));
}

/// Timers of 65,535 ticks: of a segment, of a Close, and of a receiver in CLOSING.
#[test]
fn the_longest_timers() {
    let mut nodes = Nodes::open(&[settings(1, 65_535, 0), settings(2, 65_535, 0)]);
    assert_eq!(nodes.call(0, Call::Transfer(0, b"unit"), 0), 0);
    assert_eq!(nodes.call(0, Call::Close(1), 0), 0);
    let close = nodes.packet().expect("a Close");
    assert_eq!(nodes.call(1, Call::Arrival(&close), 12), 0);
    assert!(nodes.packet().is_some(), "Data");
    for _ in 1..65_535 {
        assert_eq!(nodes.call(0, Call::Tick, 0), 0);
        assert_eq!(nodes.call(1, Call::Tick, 0), 0);
    }
    assert_eq!(nodes.twins[1].state(1), State::Closing);
    assert_eq!(nodes.call(0, Call::Tick, 0), 9);
    assert_eq!(nodes.call(1, Call::Tick, 0), 0);
    for index in [0, 1] {
        assert_eq!(nodes.twins[0].peer.reason(index), Some(Reason::Retries));
    }
    assert_eq!(nodes.twins[1].state(1), State::Closed);
}

/// 16 channels of 128 slots with 1,024 octets each: 2 MiB of memory. A unit has
/// all slots of its channel, and one octet more is over M.
#[test]
fn the_largest_table_and_the_longest_unit() {
    let largest = |channel| Settings {
        window: 128,
        slots: 128,
        most_payload: 1_024,
        most_segments: 128,
        ..settings(channel, 9, 3)
    };
    let table: Vec<Settings> = (0..16).map(largest).collect();
    let mut nodes = Nodes::open(&table);
    let longest = 128 * 1_024;
    let unit = Noise::new(8).octets(longest + 1);
    for index in [15, 0] {
        assert_eq!(nodes.call(0, Call::WouldTransfer(index, longest + 1), 0), 6);
        assert_eq!(nodes.call(0, Call::Transfer(index, &unit), 0), 6);
        assert_eq!(nodes.call(0, Call::WouldTransfer(index, longest), 0), 0);
        let unit = &unit[..longest];
        assert_eq!(nodes.call(0, Call::Transfer(index, unit), 0), 0);
        assert_eq!(nodes.call(0, Call::Transfer(index, &[]), 0), 7);
    }
    nodes.exchange();
    for index in [15, 0] {
        assert_eq!(nodes.call(1, Call::Take(index), longest - 1), 11);
        let tally = &mut nodes.tally;
        let outcome = nodes.twins[1].call(Call::Take(index), longest, tally);
        assert_eq!(outcome.said.number, 0);
        assert!(outcome.octets == unit[..longest]);
    }
}
