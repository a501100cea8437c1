//! The window of 128 (document 02, A1), through the linked library: which windows
//! settings take, a ring as full as the window is wide, and a repeat that is as
//! far behind as a number can be.

mod ends;

use ends::{both_open, done, refused, End, LIMITS, STATION};
use proved::record::{direction, LINES, SLOTS};
use proved::{calls, Addresses, Channel, Limits, Settings};

const WIDEST: Limits = Limits {
    window: 128,
    slots: SLOTS,
    payload: 1,
    ..LIMITS
};

/// What settings with this window and 128 slots are answered.
fn settings_with(window: usize) -> u32 {
    let addresses = Addresses {
        channel: 1,
        remote: STATION.address,
        direction: direction::SENDS,
        ..Addresses::default()
    };
    let limits = Limits { window, ..WIDEST };
    let mut table = [Channel::blank()];
    let asked = [Settings { addresses, limits }];
    calls::settings(
        &mut table,
        &[0; SLOTS],
        &[0; SLOTS],
        &mut [0; LINES],
        &asked,
    )
    .number
}

#[test]
fn windows_that_settings_take() {
    let taken: Vec<usize> = (0..300).filter(|&k| settings_with(k) == 0).collect();
    assert_eq!(taken, [1, 2, 4, 8, 16, 32, 64, 128]);
    assert_eq!([96, 128, 256].map(settings_with), [13, 0, 13]);
}

/// So many units of one octet go from end to end; the packets that carried them.
fn exchanged(host: &mut End, station: &mut End, count: usize) -> Vec<Vec<u8>> {
    (0..count)
        .map(|place| {
            assert_eq!(host.transfer(&[place as u8]), done(0, 0));
            let packet = host.packet();
            let (said, ack) = station.arrival(&packet);
            assert_eq!(said, done(12, 0));
            assert_eq!(host.arrival(&ack).0, done(0, 1));
            packet
        })
        .collect()
}

/// 128 segments are out at once, and are acknowledged from the last to the first.
#[test]
fn a_whole_window_in_flight() {
    let (mut host, mut station) = both_open(WIDEST);
    for place in 0..SLOTS {
        assert_eq!(host.transfer(&[place as u8]), done(0, 0));
    }
    let packets: Vec<_> = (0..SLOTS).map(|_| host.packet()).collect();
    assert_eq!(host.next().0.number, 12);
    let acks: Vec<_> = packets.iter().map(|one| station.arrival(one).1).collect();
    let (first, others) = acks.split_first().expect("there are 128");
    for ack in others.iter().rev() {
        assert_eq!(host.arrival(ack).0, done(0, 0));
    }
    assert_eq!(host.arrival(first).0, done(0, SLOTS));
}

/// With 128 untaken the start's slot is the oldest segment's: the next Data has no
/// room, and is no repeat.
#[test]
fn a_full_ring_at_a_window_of_128() {
    let (mut host, mut station) = both_open(WIDEST);
    let packets = exchanged(&mut host, &mut station, SLOTS);
    assert_eq!(host.transfer(b"!"), done(0, 0));
    let next = host.packet();
    assert_eq!(station.arrival(&next).0, refused(8));
    assert_eq!(station.arrival(&packets[0]).0.number, 15);
    assert_eq!(station.arrival(&packets[127]).0.number, 15);
    assert_eq!(station.take(), (done(1, 0), vec![0]));
    assert_eq!(station.arrival(&next).0, done(12, 0));
}

/// Segment 1 again: 128 behind at start 129, and answered 15. At 130 it would pass
/// as new, which the lateness premise excludes; with a unit untaken there is no
/// room for it.
#[test]
fn a_repeat_128_behind() {
    for (moved, untaken, answer) in [(128, 0, 15), (129, 0, 0), (129, 1, 8)] {
        let (mut host, mut station) = both_open(WIDEST);
        let mut packets = Vec::new();
        for place in 0..moved {
            packets.extend(exchanged(&mut host, &mut station, 1));
            if place + untaken < moved {
                assert_eq!(station.take().0, done(1, 0));
            }
        }
        assert_eq!(station.record().window.start, moved as u8 + 1);
        assert_eq!(station.arrival(&packets[0]).0.number, answer);
    }
}
