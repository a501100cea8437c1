//! What the library reads of a record lies at the places that this crate says.
//!
//! As with `written`, Rattle's layout is seen by its effects: one field of a
//! record in good standing is overwritten at Rust's place for it, and a call must
//! notice exactly that. Fields that the standing condition bounds
//! (docs/CONDITION.md) must then be refused with 13, each by a value that no
//! other clause would refuse; the others must change what the call does in the
//! way that document 01 says. Elements of arrays are overwritten one by one.

mod ends;

use ends::{both_open, done, refused, unserved, End, HOST, LIMITS, STATION};
use proved::record::{direction, lone, reason, state, LINES, PREFIX, SLOTS};
use proved::{calls, Channel, Limits, Pulse, Said, Settings};

const INACTIVE: Said = Said {
    number: 9,
    reason: reason::RETRIES as u32,
    length: 0,
    confirmed: 0,
    index: 0,
};

const UNANSWERED: Said = Said {
    reason: reason::UNANSWERED as u32,
    ..INACTIVE
};

type Overwrite = fn(&mut Channel);

/// A host that holds six segments, four of them in flight.
fn sending() -> End {
    let (mut host, _) = both_open(LIMITS);
    for octets in [40, 20, 1] {
        assert_eq!(host.transfer(&vec![7; octets]), done(0, 0));
    }
    for _ in 0..4 {
        host.packet();
    }
    host
}

/// A station that holds a whole unit and the first segment of another.
fn receiving() -> End {
    let (mut host, mut station) = both_open(LIMITS);
    host.transfer(b"a");
    host.transfer(&[7; 40]);
    for _ in 0..2 {
        assert_eq!(station.arrival(&host.packet()).0, done(12, 0));
    }
    station
}

/// A host whose Open is ready.
fn enabled() -> End {
    End::enabled(HOST, STATION, direction::SENDS, LIMITS)
}

/// A station in CLOSING that holds a whole unit.
fn leaving() -> End {
    let (mut host, mut station) = both_open(LIMITS);
    host.transfer(b"a");
    let ack = station.arrival(&host.packet()).1;
    assert_eq!(host.arrival(&ack).0, done(0, 1));
    host.close();
    assert_eq!(station.arrival(&host.packet()).0, done(12, 0));
    assert_eq!(station.record().phase.state, state::CLOSING);
    station
}

/// Refused by 13 after each of these, and changed by none of the refusals.
fn all_refused(end: fn() -> End, overwrites: &[Overwrite]) {
    for (place, overwrite) in overwrites.iter().enumerate() {
        let mut end = end();
        assert_eq!(end.tick(), unserved(0));
        overwrite(end.record());
        let before = *end.record();
        assert_eq!(end.tick(), unserved(13), "overwrite {place}");
        assert_eq!(*end.record(), before, "overwrite {place}");
    }
}

#[test]
fn what_the_condition_bounds_of_either_end() {
    let either: [Overwrite; 25] = [
        |record| record.addresses.direction = 2,
        |record| record.addresses.remote_prefix.length = 16,
        |record| record.addresses.remote_prefix.octets[14] = 1,
        |record| record.addresses.own_prefix.length = 16,
        |record| record.addresses.own_prefix.octets[14] = 1,
        |record| record.limits.window = 3,
        |record| record.limits.slots = 7,
        |record| record.limits.payload = 15,
        |record| record.limits.segments = 9,
        |record| record.limits.timeout = 0,
        |record| record.limits.closing = 0,
        |record| record.limits.retries = 256,
        |record| record.limits.flow = 2,
        |record| record.limits.flow = 0x0100,
        |record| (record.limits.spare, record.limits.lead) = (17, 1),
        |record| record.limits.lead = 2,
        |record| record.limits.lead = 0x0100,
        |record| record.limits.spare = 1,
        |record| record.phase.state = 4,
        |record| record.phase.reason = 7,
        |record| record.phase.kept = 2,
        |record| record.phase.accepted = 2,
        |record| record.phase.control.state = 4,
        |record| record.pulse.beat.state = 4,
        |record| record.pulse.flow.packet.state = 4,
    ];
    all_refused(sending, &either);
    all_refused(receiving, &either);
}

#[test]
fn what_the_condition_bounds_of_one_end() {
    let of_a_sender: [Overwrite; 5] = [
        |record| record.window.place = 8,
        |record| record.window.behind = 3,
        |record| record.window.ahead = 9,
        |record| record.window.flight = 5,
        |record| record.window.way = 1,
    ];
    all_refused(sending, &of_a_sender);
    let of_a_receiver: [Overwrite; 4] = [
        |record| record.window.behind = 3,
        |record| record.window.ahead = 1,
        |record| record.window.flight = 1,
        |record| record.window.way = 3,
    ];
    all_refused(receiving, &of_a_receiver);
    let out_of_open: [Overwrite; 2] = [
        |record| record.window.start = 2,
        |record| record.phase.control.state = lone::NONE,
    ];
    all_refused(enabled, &out_of_open);
    let of_a_receiver_out_of_open: [Overwrite; 2] = [
        |record| record.window.start = 2,
        |record| record.window.way = 1,
    ];
    all_refused(leaving, &of_a_receiver_out_of_open);
}

#[test]
fn settings_are_read_field_by_field() {
    let mut table = [Channel::blank()];
    let mut say = |change: fn(&mut Settings)| {
        let mut settings = [Settings {
            limits: LIMITS,
            ..Settings::default()
        }];
        change(&mut settings[0]);
        calls::settings(&mut table, &[0; 128], &[0; 8], &mut [0; LINES], &settings).number
    };
    assert_eq!(say(|_| ()), 0);
    assert_eq!(say(|of| of.addresses.direction = 2), 13);
    assert_eq!(say(|of| of.addresses.remote_prefix.length = 16), 13);
    assert_eq!(say(|of| of.addresses.remote_prefix.length = 15), 0);
    assert_eq!(say(|of| of.addresses.own_prefix.length = 16), 13);
    assert_eq!(say(|of| of.addresses.own_prefix.length = 15), 0);
    assert_eq!(say(|of| of.limits.window = 3), 13);
    assert_eq!(say(|of| of.limits.slots = 7), 13);
    assert_eq!(say(|of| of.limits.payload = 17), 13);
    assert_eq!(say(|of| of.limits.segments = 9), 13);
    assert_eq!(say(|of| of.limits.timeout = 0), 13);
    assert_eq!(say(|of| of.limits.closing = 0), 13);
    assert_eq!(say(|of| of.limits.retries = 256), 13);
    assert_eq!(say(|of| of.limits.interval = 65_535), 0);
    assert_eq!(say(|of| of.limits.flow = 1), 0);
    assert_eq!(say(|of| of.limits.flow = 2), 13);
    assert_eq!(say(|of| of.limits.flow = 0x0100), 13);
    assert_eq!(say(|of| of.limits.spare = 1), 13);
    assert_eq!(say(|of| of.limits.lead = 1), 13);
}

/// Each octet of a prefix, past a length of 0 in the standing condition, and of a
/// full one in every packet.
#[test]
fn every_octet_of_a_prefix() {
    for place in 0..PREFIX {
        let mut host = End::enabled(HOST, STATION, direction::SENDS, LIMITS);
        host.record().addresses.remote_prefix.octets[place] = 1;
        assert_eq!(host.tick(), unserved(13), "octet {place}");
        host.record().addresses.remote_prefix.length = PREFIX as u8;
        assert_eq!(host.tick(), unserved(0));
        host.record().addresses.own_prefix.octets[place] = 1;
        assert_eq!(host.tick(), unserved(13), "octet {place}");
        host.record().addresses.own_prefix.length = PREFIX as u8;
        let packet = host.packet();
        let mut expected = [0; PREFIX];
        expected[place] = 1;
        assert_eq!(packet[8], 15);
        assert_eq!(packet[9..24], expected, "octet {place}");
    }
}

#[test]
fn every_mark() {
    let limits = Limits {
        slots: SLOTS,
        payload: 1,
        ..LIMITS
    };
    let mut host = End::made(HOST, STATION, direction::SENDS, limits);
    for place in 0..SLOTS {
        host.record().marks[place] = 5;
        assert_eq!(host.tick(), unserved(13), "place {place}");
        host.record().marks[place] = 0;
        assert_eq!(host.tick(), unserved(0));
    }
}

#[test]
fn every_timer_and_its_tries() {
    let limits = Limits {
        slots: SLOTS,
        payload: 1,
        ..LIMITS
    };
    for place in 0..SLOTS {
        let (mut host, _) = both_open(limits);
        host.record().timers.left[place] = 1;
        assert_eq!(host.tick(), INACTIVE, "place {place}");
        let (mut host, _) = both_open(limits);
        host.record().timers.left[place] = 1;
        host.record().timers.tries[place] = 1;
        assert_eq!(host.tick(), unserved(0), "place {place}");
        assert_eq!(host.record().timers.left[place], 0);
    }
}

#[test]
fn what_the_condition_leaves_free() {
    let mut host = End::enabled(HOST, STATION, direction::SENDS, LIMITS);
    host.packet();
    host.record().phase.control.timer = 1;
    assert_eq!(host.tick(), unserved(0));
    assert_eq!(host.record().phase.control.state, lone::AGAIN);
    host.packet();
    host.record().phase.control.timer = 1;
    host.record().phase.control.tries = 0;
    assert_eq!(host.tick(), INACTIVE);
    let (mut host, mut station) = both_open(LIMITS);
    host.record().window.start = 250;
    host.record().addresses.channel = 0x0908;
    host.record().addresses.remote = 77;
    host.transfer(b"a");
    let packet = host.packet();
    assert_eq!(packet[5..8], [9, 8, 250]);
    assert_eq!(packet[0], 77);
    host.close();
    host.packet();
    station.record().phase.state = state::CLOSING;
    station.record().timers.closing = 1;
    assert_eq!(station.tick(), unserved(0));
    assert_eq!(station.record().phase.state, state::CLOSED);
}

/// The Heartbeat of either end: each of its numbers, and the interval, which settings
/// put beside the others.
#[test]
fn what_is_read_of_a_heartbeat() {
    let (host, station) = both_open(LIMITS);
    for mut end in [host, station] {
        end.record().limits.interval = 0x0203;
        end.record().pulse.left = 1;
        assert_eq!(end.tick(), unserved(0));
        let pulse = end.record().pulse;
        assert_eq!((pulse.left, pulse.beat.state), (0x0203, lone::READY));
        end.record().pulse.left = 0x0405;
        assert_eq!(end.tick(), unserved(0));
        assert_eq!(end.record().pulse.left, 0x0404);
        end.packet();
        end.record().pulse.beat.timer = 1;
        assert_eq!(end.tick(), unserved(0));
        assert_eq!(end.record().pulse.beat.state, lone::AGAIN);
        end.record().pulse.beat.state = lone::OUT;
        end.record().pulse.beat.timer = 1;
        end.record().pulse.beat.tries = 0;
        assert_eq!(end.tick(), UNANSWERED);
        assert_eq!(end.record().pulse, Pulse::default());
    }
}

#[test]
fn every_ack_mark() {
    let limits = Limits {
        window: 4,
        slots: SLOTS,
        payload: 1,
        ..LIMITS
    };
    for place in 0..SLOTS {
        let (mut host, mut station) = both_open(limits);
        host.record().window.place = place;
        host.transfer(b"a");
        // What stood there before the hand-out is not this segment's ack.
        host.record().acked[place] = 1;
        let ack = station.arrival(&host.packet()).1;
        assert_eq!(host.record().acked[place], 0, "place {place}");
        host.record().acked[place] = 1;
        assert_eq!(host.arrival(&ack).0, refused(16), "place {place}");
        host.record().acked[place] = 0;
        assert_eq!(host.arrival(&ack).0, done(0, 1), "place {place}");
    }
}
