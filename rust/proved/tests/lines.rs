//! The lines (document 02, A4): settings empty them; lines of another size, and
//! such as no channels can stand in, are refused with 13, and all that is lent
//! stays. Sound ones count as they are. The order that they make is in `order`.

mod ends;

use ends::{done, unserved, End, HOST, LIMITS, STATION};
use proved::record::{direction, LINES};
use proved::{calls, Addresses, Said, Settings};

const LINE: usize = LINES / 3;

fn made() -> End {
    End::made(HOST, STATION, direction::SENDS, LIMITS)
}

/// Every call but settings, each with its name.
fn every_call(end: &mut End) -> Vec<(&'static str, Said)> {
    let would = {
        let (table, memory) = (&mut end.table, &mut end.memory);
        calls::would_transfer(table, memory, &mut end.lengths, &mut end.lines, 0, 1)
    };
    vec![
        ("would_transfer", would),
        ("open", end.open()),
        ("close", end.close()),
        ("transfer", end.transfer(b"x")),
        ("take", end.take().0),
        ("reclaim", end.reclaim().0),
        ("next_packet", end.next().0),
        ("arrival", end.arrival(&[0; 12]).0),
        ("tick", end.tick()),
    ]
}

/// These lines are answered 13 by every call but settings, and nothing changes.
fn are_refused(lines: Vec<u8>) {
    let mut end = made();
    end.lines = lines;
    let before = (end.table, end.memory.clone(), end.lengths.clone());
    let lines = end.lines.clone();
    for (name, said) in every_call(&mut end) {
        assert_eq!(said, unserved(13), "{name}: {lines:?}");
    }
    assert!((end.table, end.memory, end.lengths) == before);
    assert_eq!(end.lines, lines);
}

/// Empty lines but for one, which begins with these octets.
fn with(rank: usize, octets: &[u8]) -> Vec<u8> {
    let mut lines = vec![0; LINES];
    lines[rank * LINE..][..octets.len()].copy_from_slice(octets);
    lines
}

#[test]
fn settings_empty_them() {
    assert_eq!(made().lines, [0; LINES]);
}

#[test]
fn settings_measure_them() {
    let mut end = made();
    let addresses = Addresses {
        channel: 9,
        ..end.table[0].addresses
    };
    let limits = LIMITS;
    let asked = [Settings { addresses, limits }];
    let before = end.table;
    for octets in [0, LINES - 1, LINES + 1] {
        let mut lines = vec![255; octets];
        let said = calls::settings(
            &mut end.table,
            &end.memory,
            &end.lengths,
            &mut lines,
            &asked,
        );
        assert_eq!(said, unserved(13));
        assert_eq!(lines, vec![255; octets]);
        assert!(end.table == before);
    }
}

#[test]
fn lines_of_another_size() {
    for octets in [0, LINE, LINES - 1, LINES + 1] {
        are_refused(vec![0; octets]);
    }
}

/// The table has one record, so that 0 alone may stand in a line, once.
#[test]
fn lines_that_are_not_sound() {
    for rank in 0..3 {
        are_refused(with(rank, &[1, 1]));
        are_refused(with(rank, &[2, 0, 0]));
        are_refused(with(rank, &[0, 1]));
        are_refused(with(rank, &[1, 0, 1]));
        are_refused(with(rank, &[17]));
        are_refused(with(rank, &[255; LINE]));
        let mut last = [0; LINE];
        last[LINE - 1] = 1;
        are_refused(with(rank, &last));
    }
}

/// The channel stands in a line and has nothing ready: it is not served, and its
/// Open directive puts it where it belongs.
#[test]
fn sound_lines_count() {
    for rank in 0..3 {
        let mut end = made();
        end.lines = with(rank, &[1, 0]);
        assert_eq!(end.next().0, unserved(12));
        assert_eq!(end.lines, with(rank, &[1, 0]));
        assert_eq!(end.open(), done(0, 0));
        assert_eq!(end.lines, with(0, &[1, 0]));
        assert_eq!(end.packet().len(), 12);
        assert_eq!(end.lines, [0; LINES]);
    }
}

/// It has an Open ready and stands in another line than that of Control: it is not
/// served before a tick.
#[test]
fn a_tick_puts_them_right() {
    let mut end = made();
    assert_eq!(end.open(), done(0, 0));
    end.lines = with(2, &[1, 0]);
    assert_eq!(end.next().0, unserved(12));
    assert_eq!(end.tick(), unserved(0));
    assert_eq!(end.lines, with(0, &[1, 0]));
    assert_eq!(end.packet().len(), 12);
}
