//! Every element of a record's four arrays is written at Rust's place for it: a
//! ring of all 128 slots is filled, handed out and acknowledged, a window of 64 at
//! a time, and each element is looked at by its place. `read` shows the same of
//! what the library reads.

mod ends;

use ends::{both_open, done, End, LIMITS};
use proved::record::SLOTS;
use proved::Limits;

const WIDE: Limits = Limits {
    window: 64,
    slots: SLOTS,
    payload: 1,
    timeout: 1_000,
    retries: 200,
    interval: 0,
    ..LIMITS
};

/// The next 64 segments go out, with a tick after each, and are acknowledged from
/// the last to the first.
fn one_window(host: &mut End, station: &mut End, places: std::ops::Range<usize>) {
    let mut acks = Vec::new();
    for place in places.clone() {
        let packet = host.packet();
        assert_eq!(host.record().timers.left[place], 1_000);
        assert_eq!(host.record().timers.tries[place], 200);
        acks.push(station.arrival(&packet).1);
        host.tick();
    }
    // The older a packet is, the less is left to it.
    for place in places.clone() {
        let age = (places.end - place) as u16;
        assert_eq!(host.record().timers.left[place], 1_000 - age);
    }
    let (first, others) = acks.split_first().expect("there are 64");
    for (place, ack) in places.clone().skip(1).zip(others).rev() {
        assert_eq!(host.record().acked[place], 0);
        assert_eq!(host.arrival(ack).0, done(0, 0));
        assert_ne!(host.record().acked[place], 0);
        assert_eq!(host.record().timers.left[place], 0);
    }
    assert!(host.record().marks[places.clone()]
        .iter()
        .all(|mark| *mark == 4));
    assert_eq!(host.arrival(first).0, done(0, 64));
    assert_eq!(host.record().marks[places], [0; 64]);
}

#[test]
fn every_place_of_a_senders_ring() {
    let (mut host, mut station) = both_open(WIDE);
    for place in 0..SLOTS {
        assert_eq!(host.record().marks[place], 0);
        assert_eq!(host.transfer(&[place as u8]), done(0, 0));
        assert_eq!(host.record().marks[place], 4);
        assert_eq!(host.memory[place], place as u8);
        assert_eq!(host.lengths[place], 1);
    }
    one_window(&mut host, &mut station, 0..64);
    one_window(&mut host, &mut station, 64..128);
    assert_eq!(station.record().marks, [4; SLOTS]);
    for place in 0..SLOTS {
        assert_eq!(station.take(), (done(1, 0), vec![place as u8]));
        assert_eq!(station.record().marks[place], 0);
    }
}
