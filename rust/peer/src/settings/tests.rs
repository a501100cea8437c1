use super::*;
use crate::support::{RECEIVING, SENDING};

fn accepted(settings: Settings) -> bool {
    test_table(&[settings]).is_ok()
}

/// "window k a power of two", and "allow k up to 128" (document 02, A1)
#[test]
fn window() {
    let with = |window| Settings {
        window,
        slots: 128,
        ..SENDING
    };
    let good: Vec<u32> = (0..300).filter(|&k| accepted(with(k))).collect();
    assert_eq!(good, [1, 2, 4, 8, 16, 32, 64, 128]);
}

/// "slots from k to 128"
#[test]
fn slots() {
    let with = |slots| Settings {
        slots,
        most_segments: 1,
        ..SENDING
    };
    let good: Vec<u32> = (0..300).filter(|&slots| accepted(with(slots))).collect();
    assert_eq!(good, (4..=128).collect::<Vec<u32>>());
}

/// "P, the most payload octets, 1 to 1,024"
#[test]
fn most_payload() {
    let with = |most_payload| Settings {
        most_payload,
        ..SENDING
    };
    let good = [0, 1, 1_024, 1_025, u32::MAX].map(|p| accepted(with(p)));
    assert_eq!(good, [false, true, true, false, false]);
}

/// "M, the most segments in a unit, 1 to slots"
#[test]
fn most_segments() {
    let with = |most_segments| Settings {
        most_segments,
        ..SENDING
    };
    let good = [0, 1, 8, 9, u32::MAX].map(|m| accepted(with(m)));
    assert_eq!(good, [false, true, true, false, false]);
}

/// "timeout and close timeout 1 to 65,535 ticks"
#[test]
fn timeouts() {
    let timeout = |timeout| Settings { timeout, ..SENDING };
    let close_timeout = |close_timeout| Settings {
        close_timeout,
        ..SENDING
    };
    let ticks = [0, 1, 65_535, 65_536];
    let expected = [false, true, true, false];
    assert_eq!(ticks.map(|count| accepted(timeout(count))), expected);
    assert_eq!(ticks.map(|count| accepted(close_timeout(count))), expected);
}

/// "retries 0 to 255"
#[test]
fn retries() {
    let with = |retries| Settings { retries, ..SENDING };
    let good = [0, 255, 256].map(|count| accepted(with(count)));
    assert_eq!(good, [true, true, false]);
}

/// An interval of 0 is none; it is kept in 16 bits, as a timeout is (document 02,
/// A2).
#[test]
fn interval() {
    let with = |interval| Settings {
        interval,
        ..SENDING
    };
    let good = [0, 1, 65_535, 65_536].map(|count| accepted(with(count)));
    assert_eq!(good, [true, true, true, false]);
}

/// Flow Control is off or on (document 02, A5).
#[test]
fn flow() {
    let with = |flow| Settings { flow, ..SENDING };
    let good = [0, 1, 2, 256, u32::MAX].map(|flow| accepted(with(flow)));
    assert_eq!(good, [true, true, false, false, false]);
}

/// "No two records may have equal channel number, remote address and
/// direction."
#[test]
fn clashes() {
    let channel = Settings {
        channel: 3,
        ..SENDING
    };
    let remote = Settings {
        remote: 66,
        ..SENDING
    };
    let other_window = Settings {
        window: 2,
        ..SENDING
    };
    assert!(test_table(&[SENDING, RECEIVING, channel, remote]).is_ok());
    assert!(test_table(&[SENDING, SENDING]).is_err());
    assert!(test_table(&[SENDING, RECEIVING, other_window]).is_err());
}

/// "records that differ only in direction give 13" (document 02, A2), in either
/// order, also where they differ in what tells nothing apart. A channel number, a
/// remote address or a remote prefix of its own does.
#[test]
fn clashes_whatever_the_directions() {
    let prefix = Prefix::new(&[7]).unwrap();
    let turned = Settings {
        channel: SENDING.channel,
        ..RECEIVING
    };
    let mut alike = [turned; 3];
    alike[1].own_prefix = prefix;
    alike[2].window = 2;
    for other in alike {
        assert!(test_table(&[SENDING, other]).is_err());
        assert!(test_table(&[other, SENDING]).is_err());
    }
    let mut apart = [turned; 3];
    apart[0].channel = 2;
    apart[1].remote = 66;
    apart[2].remote_prefix = prefix;
    for other in apart {
        assert!(test_table(&[SENDING, other]).is_ok());
        assert!(test_table(&[SENDING, other, turned]).is_err());
    }
}

/// "Two records are equal only if their prefixes are too" (document 02, A7):
/// the remote ones. The own ones no arrival shows.
#[test]
fn clashes_but_for_a_prefix() {
    let remote = |octets: &[u8]| Settings {
        remote_prefix: Prefix::new(octets).unwrap(),
        ..SENDING
    };
    let own = |octets: &[u8]| Settings {
        own_prefix: Prefix::new(octets).unwrap(),
        ..SENDING
    };
    let apart = [&[][..], &[0], &[0, 0], &[1], &[7; 14], &[7; 15]];
    assert!(test_table(&apart.map(remote)).is_ok());
    for octets in apart {
        assert!(test_table(&[remote(octets), remote(octets)]).is_err());
        assert!(test_table(&[SENDING, own(octets)]).is_err());
    }
}

/// Each prefix has 0 to 15 octets, and 0 past them.
#[test]
fn prefixes() {
    let with = |length, last| {
        let mut octets = [0; 15];
        octets[14] = last;
        Prefix { length, octets }
    };
    let cases = [
        (with(0, 0), true),
        (with(14, 0), true),
        (with(15, 1), true),
        (with(14, 1), false),
        (with(0, 1), false),
        (with(16, 0), false),
        (with(255, 1), false),
    ];
    for (prefix, good) in cases {
        let remote = Settings {
            remote_prefix: prefix,
            ..SENDING
        };
        let own = Settings {
            own_prefix: prefix,
            ..SENDING
        };
        assert_eq!((accepted(remote), accepted(own)), (good, good));
    }
}

/// "A table of 0 or over 16 records [..] gives 13"
#[test]
fn count_of_records() {
    let table: Vec<Settings> = (0..17)
        .map(|channel| Settings { channel, ..SENDING })
        .collect();
    assert!(test_table(&[]).is_err());
    assert!(test_table(&table[..1]).is_ok());
    assert!(test_table(&table[..16]).is_ok());
    assert!(test_table(&table).is_err());
}

/// "a lent memory of exactly slots x P octets; beside it the caller lends one
/// 16-bit length for each slot"
#[test]
fn storage_of_a_table() {
    let small = Settings {
        channel: 2,
        slots: 5,
        most_payload: 3,
        ..SENDING
    };
    assert_eq!(storage(&[SENDING]), (128, 8));
    assert_eq!(storage(&[SENDING, small]), (143, 13));
}

/// "000 decides the default", which is 05h (000, 4.2.3.3).
#[test]
fn default_protocol() {
    assert_eq!(NodeSettings::new(64).protocol, 5);
}

/// A sending record with this channel number, spare and leading octet.
fn route(channel: u16, spare: u32, lead: u32) -> Settings {
    Settings {
        channel,
        spare,
        lead,
        ..SENDING
    }
}

/// "A named spare channel" (document 02, A13): another sending record of the table.
#[test]
fn spares() {
    let with = |spare| test_table(&[route(1, spare, 1), route(2, 0, 1)]).is_ok();
    let good: Vec<u32> = (1..40).filter(|&spare| with(spare)).collect();
    assert_eq!(good, [2], "the record itself, and none that is not there");

    let receiving = |record| Settings {
        direction: Direction::Receiving,
        ..record
    };
    let (first, spare) = (route(1, 2, 1), route(2, 0, 1));
    assert!(test_table(&[first, receiving(spare)]).is_err());
    assert!(test_table(&[receiving(first), spare]).is_err());
    assert!(test_table(&[route(1, u32::MAX, 1)]).is_err());
}

/// "A channel may be the spare of several, chains and mutual spares are fine."
#[test]
fn spares_of_several() {
    let spare_of_two = [route(1, 3, 1), route(2, 3, 1), route(3, 0, 1)];
    let chain = [route(1, 2, 1), route(2, 3, 1), route(3, 0, 1)];
    let mutual = [route(1, 2, 1), route(2, 1, 1), route(3, 0, 0)];
    for table in [spare_of_two, chain, mutual] {
        assert!(test_table(&table).is_ok(), "{table:?}");
    }
}

/// "Each has a leading octet on both routes", and nobody else has.
#[test]
fn leading_octets() {
    for leads in 0..8 {
        let lead = |place: u32| leads >> place & 1;
        let table = [
            route(1, 2, lead(0)),
            route(2, 0, lead(1)),
            route(3, 0, lead(2)),
        ];
        assert_eq!(test_table(&table).is_ok(), leads == 0b011, "{leads:03b}");
    }
    assert!(!accepted(route(1, 0, 1)));
    assert!(!accepted(route(1, 0, 2)));
}
