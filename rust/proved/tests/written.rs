//! What the library writes into a record lies at the places that this crate says.
//!
//! Rattle's own layout cannot be printed; it is seen by its effects. Every field
//! here begins with another value than the one it must get, is written by calls,
//! and is then read at Rust's place for it. Each expected value comes from
//! document 01 and the settings, and fields that could be taken for one another
//! get different values. So a field that the library kept at another place would
//! show as a wrong value here. What this does not show is what lies between the
//! fields: padding is nobody's.

mod ends;

use ends::{both_open, done, End, HOST, LIMITS, STATION};
use proved::record::{direction, lone, state, LINES, PREFIX, SLOTS};
use proved::{calls, Addresses, Channel, Flow, Limits, Lone, Phase, Prefix, Pulse};
use proved::{Settings, Timers, Window};

const SPOILT_LIMITS: Limits = Limits {
    window: usize::MAX - 1,
    slots: usize::MAX - 2,
    payload: usize::MAX - 3,
    segments: usize::MAX - 4,
    timeout: 0xB1B2,
    closing: 0xB3B4,
    retries: 0xB5B6,
    interval: 0xB7B8,
    flow: 0xB9BA,
    spare: 0xBBBC,
    lead: 0xBDBE,
};

const SPOILT_WINDOW: Window = Window {
    start: 0xC1,
    place: usize::MAX - 5,
    behind: usize::MAX - 6,
    ahead: usize::MAX - 7,
    flight: usize::MAX - 8,
    way: usize::MAX - 9,
};

const SPOILT_FLOW: Flow = Flow {
    packet: Lone {
        state: 0xF1,
        timer: 0xF2F3,
        tries: 0xF4F5,
    },
    number: 0xF6,
    stated: 0xF7,
    last: 0xF8,
    recorded: 0xF9,
};

const SPOILT_PREFIX: Prefix = Prefix {
    length: 0xA5,
    octets: [0xA6; PREFIX],
};

/// A record with no field as settings leave it.
const SPOILT: Channel = Channel {
    addresses: Addresses {
        channel: 0xA1A2,
        remote: 0xA3,
        direction: 0xA4,
        remote_prefix: SPOILT_PREFIX,
        own_prefix: SPOILT_PREFIX,
    },
    limits: SPOILT_LIMITS,
    phase: Phase {
        state: 0xD1,
        reason: 0xD2,
        kept: 0xD3,
        accepted: 0xD4,
        control: Lone {
            state: 0xD5,
            timer: 0xD6D7,
            tries: 0xD8D9,
        },
    },
    pulse: Pulse {
        left: 0xDADB,
        beat: Lone {
            state: 0xDC,
            timer: 0xDDDE,
            tries: 0xDFE0,
        },
        flow: SPOILT_FLOW,
    },
    window: SPOILT_WINDOW,
    timers: Timers {
        closing: 0xE1E2,
        left: [0xE3E4; SLOTS],
        tries: [0xE5E6; SLOTS],
    },
    marks: [0xE7; SLOTS],
    acked: [0xE8; SLOTS],
};

/// What settings make (`made_of` in `crates/channel/specs/Record.antt`).
fn made(settings: Settings) -> Channel {
    let mut made = Channel::blank();
    made.addresses = settings.addresses;
    made.limits = settings.limits;
    made.window.start = 1;
    made
}

#[test]
fn settings_write_every_field() {
    let second = Limits {
        window: 2,
        slots: 3,
        payload: 9,
        segments: 1,
        timeout: 0x0A0B,
        closing: 0x0C0D,
        retries: 255,
        interval: 0x0E0F,
        flow: 1,
        spare: 0,
        lead: 0,
    };
    let octets: Vec<u8> = (0x11..).take(4 * PREFIX).collect();
    let prefix = |place: usize, count| Prefix::of(&octets[place * PREFIX..][..count]).unwrap();
    let settings = [(0x0102, 3, 0, LIMITS), (0x0405, 6, 1, second)].map(|of| Settings {
        addresses: Addresses {
            channel: of.0,
            remote: of.1,
            direction: of.2,
            remote_prefix: prefix(of.2.into(), PREFIX),
            own_prefix: prefix(2 + usize::from(of.2), PREFIX - 1),
        },
        limits: of.3,
    });
    let mut table = [SPOILT; 2];
    let (memory, lengths) = ([0; 8 * 16 + 3 * 9], [0; 8 + 3]);
    let said = calls::settings(&mut table, &memory, &lengths, &mut [0; LINES], &settings);
    assert_eq!((said.number, said.index), (0, 2));
    assert_eq!(table, settings.map(made));
}

/// The first of two senders names the other as its spare (document 02, A13).
#[test]
fn settings_write_a_pair() {
    let settings = [(1, 2), (2, 0)].map(|(channel, spare)| Settings {
        addresses: Addresses {
            channel,
            ..Addresses::blank()
        },
        limits: Limits {
            spare,
            lead: 1,
            ..LIMITS
        },
    });
    let mut table = [SPOILT; 2];
    let (memory, lengths) = ([0; 2 * 8 * 16], [0; 2 * 8]);
    let said = calls::settings(&mut table, &memory, &lengths, &mut [0; LINES], &settings);
    assert_eq!((said.number, said.index), (0, 2));
    assert_eq!(table, settings.map(made));
}

#[test]
fn a_sender_opens() {
    let mut host = End::made(HOST, STATION, direction::SENDS, LIMITS);
    let mut expected = *host.record();
    host.open();
    expected.phase.state = state::ENABLED;
    expected.phase.control.state = lone::READY;
    // The resends left are said by the hand-out alone.
    expected.phase.control.tries = host.record().phase.control.tries;
    assert_eq!(*host.record(), expected);
    host.packet();
    expected.phase.control = Lone {
        state: lone::OUT,
        timer: LIMITS.timeout,
        tries: LIMITS.retries,
    };
    assert_eq!(*host.record(), expected);
    host.tick();
    expected.phase.control.timer -= 1;
    assert_eq!(*host.record(), expected);
    host.close();
    expected.phase.kept = 1;
    assert_eq!(*host.record(), expected);
}

/// The Heartbeat of either end, through all its states: the ticks left, the timer and
/// the resends are numbers of their own. Nothing else of the record changes.
#[test]
fn an_end_makes_heartbeats() {
    let limits = Limits {
        interval: 3,
        timeout: 0x0105,
        retries: 2,
        ..LIMITS
    };
    let (host, station) = both_open(limits);
    for mut end in [host, station] {
        let mut expected = *end.record();
        assert_eq!(expected.pulse.left, 3);
        assert_eq!(expected.pulse.beat, Lone::blank());
        end.tick();
        expected.pulse.left = 2;
        assert_eq!(*end.record(), expected);
        end.tick();
        end.tick();
        expected.pulse.left = 3;
        expected.pulse.beat.state = lone::READY;
        // The resends left are said by the hand-out alone.
        expected.pulse.beat.tries = end.record().pulse.beat.tries;
        assert_eq!(*end.record(), expected);
        end.packet();
        expected.pulse.beat = Lone {
            state: lone::OUT,
            timer: 0x0105,
            tries: 2,
        };
        assert_eq!(*end.record(), expected);
        end.tick();
        expected.pulse.left = 2;
        expected.pulse.beat.timer = 0x0104;
        assert_eq!(*end.record(), expected);
    }
}

/// Both open, and one unit of one segment gone through: the start is 2, in place 1.
fn one_place_on() -> (End, End) {
    let (mut host, mut station) = both_open(LIMITS);
    host.transfer(b"a");
    let ack = station.arrival(&host.packet()).1;
    assert_eq!(host.arrival(&ack).0, done(0, 1));
    assert_eq!(station.take().0, done(1, 0));
    (host, station)
}

#[test]
fn a_sender_holds_and_confirms() {
    let (mut host, mut station) = one_place_on();
    let mut expected = *host.record();
    // Segments 2 to 7 in places 1 to 6: units of 3, 2 and 1.
    for octets in [40, 20, 1] {
        assert_eq!(host.transfer(&vec![7; octets]), done(0, 0));
    }
    expected.window.ahead = 6;
    expected.marks[1..7].copy_from_slice(&[2, 1, 3, 2, 3, 4]);
    // What is said of acks and resends begins with the hand-out.
    expected.acked = host.record().acked;
    expected.timers.tries = host.record().timers.tries;
    assert_eq!(*host.record(), expected);
    assert_eq!(host.lengths, [1, 16, 16, 8, 16, 4, 1, 0]);
    // The window is 4; a tick after each, so that each timer differs.
    let acks = [(); 4].map(|()| {
        let ack = station.arrival(&host.packet()).1;
        host.tick();
        ack
    });
    expected.window.flight = 4;
    expected.timers.left[1..5].copy_from_slice(&[1, 2, 3, 4]);
    expected.timers.tries[1..5].copy_from_slice(&[2; 4]);
    assert_eq!(*host.record(), expected);
    // Places 1 and 3: the start passes one, and its unit of three is not confirmed.
    for ack in [&acks[0], &acks[2]] {
        assert_eq!(host.arrival(ack), (done(0, 0), vec![]));
    }
    expected.timers.left[1..5].copy_from_slice(&[0, 2, 0, 4]);
    let (seen, window) = (*host.record(), &mut expected.window);
    (window.start, window.place, window.behind) = (3, 2, 1);
    (window.ahead, window.flight) = (5, 3);
    assert_eq!(seen.window, *window);
    assert_eq!(seen.timers, expected.timers);
    assert_eq!(seen.marks, expected.marks);
    assert_eq!(seen.acked[2..5].iter().position(|ack| *ack != 0), Some(1));
}

#[test]
fn a_receiver_holds_and_closes() {
    let (mut host, mut station) = one_place_on();
    let mut expected = *station.record();
    for octets in [1, 40] {
        host.transfer(&vec![7; octets]);
    }
    let packets = [(); 4].map(|()| host.packet());
    // Segment 5 lies beyond a gap; then 2, a whole unit, and 3, which begins one.
    for number in [5, 2, 3] {
        assert_eq!(station.arrival(&packets[number - 2]).0, done(12, 0));
    }
    expected.marks[1..5].copy_from_slice(&[4, 2, 0, 3]);
    let window = &mut expected.window;
    (window.start, window.place, window.behind, window.way) = (4, 3, 2, 1);
    // The number of the last Ack; `flow_record` has the rest of Flow Control.
    expected.pulse.flow.last = 3;
    assert_eq!(*station.record(), expected);
    assert_eq!((expected.phase.accepted, expected.phase.kept), (1, 0));
    assert_eq!(station.lengths, [1, 1, 16, 0, 8, 0, 0, 0]);
    // A Close drops what is not complete, and starts the close timer.
    host.close();
    assert_eq!(station.arrival(&host.packet()).0, done(12, 0));
    let seen = *station.record();
    assert_eq!((seen.phase.state, seen.timers.closing), (state::CLOSING, 7));
    assert_eq!((seen.window.behind, seen.window.way), (1, 0));
    assert_eq!(seen.marks[..5], [0, 4, 0, 0, 0]);
}
