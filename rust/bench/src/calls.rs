//! The cost of each call, and of the test for 13 alone.

use std::hint::black_box;

use peer::settings::{Direction, Settings};
use proved::record::Channel;

use crate::pair::{each, table, Pair, WINDOW};
use crate::side::Side;

/// P of the channels whose calls are timed.
pub const PAYLOAD: usize = 64;

/// Copies of a table for a call that can be made of each but once.
const COPIES: usize = 16;

/// What is timed, in the order of docs/PROMISES.md, then the test for 13.
pub const NAMES: [&str; 17] = [
    "settings",
    "open",
    "close",
    "transfer",
    "take",
    "reclaim",
    "tick, nothing in flight",
    "tick, 64 in flight",
    "tick, 64 in flight in every channel",
    "next_packet",
    "next_packet, every channel in line",
    "arrival of Data",
    "arrival of a Data Ack",
    "13 alone: open answered 14, nothing held",
    "13 alone: the same with 64 held",
    "13 alone: the same with 1 slot a record",
    "13 alone: next_packet answered 12",
];

/// Nanoseconds of each, once round.
pub fn round<S: Side>(channels: usize) -> [f64; NAMES.len()] {
    let mut pair = Pair::<S>::new(channels, PAYLOAD);
    let [settings, open, close] = changes_of_state(&pair.host, channels);
    let quiet = ticks(&mut pair.host);
    let [nothing, idle] = tests_alone(&mut pair.host);
    let [slot, _] = tests_alone(&mut slotless::<S>(channels));
    let transfer = pair.transfers();
    let next_packet = pair.packets();
    let busy = ticks(&mut pair.host);
    let held = refused(&mut pair.host, 14, |side| side.open(99).number);
    let data = pair.data();
    let ack = pair.acks();
    let take = pair.takes();
    let reclaim = pair.reclaims();
    let [from_line, busiest] = crowded::<S>(channels);
    [
        settings,
        open,
        close,
        transfer,
        take,
        reclaim,
        quiet,
        busy,
        busiest,
        next_packet,
        from_line,
        data,
        ack,
        nothing,
        held,
        slot,
        idle,
    ]
}

/// Settings, the Open directive of a closed channel, and the Close of an open one.
fn changes_of_state<S: Side>(host: &S, channels: usize) -> [f64; 3] {
    let closed = S::new(64, &table(Direction::Sending, 65, channels, PAYLOAD));
    let settings = settings_of(closed.clone());
    let open = once(&closed, |side| side.open(0).number);
    let close = once(host, |side| side.close(0).number);
    [settings, open, close]
}

/// Calls that are refused after the test for 13: a request with 14, the next
/// packet with 12.
fn tests_alone<S: Side>(side: &mut S) -> [f64; 2] {
    let request = refused(side, 14, |side| side.open(99).number);
    let packet = refused(side, 12, |side| side.next_packet(&mut [0; 12]).number);
    [request, packet]
}

/// The next packet while every channel stands in line (document 02, A4), and a
/// tick when each has a whole window in flight.
fn crowded<S: Side>(channels: usize) -> [f64; 2] {
    let mut pair = Pair::<S>::new(channels, PAYLOAD);
    pair.queue();
    let from_line = pair.packets();
    pair.drain();
    [from_line, ticks(&mut pair.host)]
}

/// A node whose records have but one slot each, to tell the cost of looking at
/// slots from that of the records.
fn slotless<S: Side>(channels: usize) -> S {
    let table = table(Direction::Sending, 65, channels, PAYLOAD);
    let one = |settings| Settings {
        window: 1,
        slots: 1,
        most_segments: 1,
        ..settings
    };
    S::new(64, &table.into_iter().map(one).collect::<Vec<_>>())
}

/// Nanoseconds to copy a record by value: a yardstick, no call.
pub fn record_copied() -> f64 {
    let record = Channel::blank();
    each(WINDOW, || {
        for _ in 0..WINDOW {
            black_box(*black_box(&record));
        }
    })
}

fn settings_of<S: Side>(mut side: S) -> f64 {
    each(COPIES, || {
        for _ in 0..COPIES {
            assert_eq!(side.settings().number, 0);
        }
    })
}

/// A call that changes the state, made of copies.
fn once<S: Side>(side: &S, call: impl Fn(&mut S) -> u32) -> f64 {
    let mut copies = vec![side.clone(); COPIES];
    each(COPIES, || {
        for copy in &mut copies {
            assert_eq!(call(copy), 0);
        }
    })
}

fn ticks<S: Side>(side: &mut S) -> f64 {
    each(WINDOW, || {
        for _ in 0..WINDOW {
            assert_eq!(side.tick().number, 0);
        }
    })
}

fn refused<S: Side>(side: &mut S, number: u32, call: impl Fn(&mut S) -> u32) -> f64 {
    each(WINDOW, || {
        for _ in 0..WINDOW {
            assert_eq!(call(side), number);
        }
    })
}
