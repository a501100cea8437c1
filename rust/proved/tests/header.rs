//! The numbers of the C header are those of this crate, and none is left out.

use proved::record::{direction, lone, reason, state, LINES, PREFIX, PROTOCOL, RECORDS, SLOTS};
use proved::{Outcome, Reason, Refusal};

const HEADER: &str = include_str!("../../../include/peatwimple_records.h");

/// Every name with a number in the header: in an enum, or defined.
fn numbers() -> Vec<(String, usize)> {
    let words: Vec<&str> = HEADER.split([' ', ',', '\n']).collect();
    let threes = || words.windows(3);
    let in_enums = threes().filter(|at| at[1] == "=").map(|at| (at[0], at[2]));
    let defined = threes()
        .filter(|at| at[0] == "#define")
        .map(|at| (at[1], at[2]));
    let named = in_enums.chain(defined);
    let numbers = named.filter_map(|(name, number)| Some((name.to_string(), number.parse().ok()?)));
    numbers
        .filter(|(name, _)| name.starts_with("PEAT_"))
        .collect()
}

fn of_answers() -> Vec<(&'static str, usize)> {
    let refusals = "SHORT DAMAGED STRANGE LACKING STATE LONG NO_ROOM FULL UNTAKEN SMALL NOTHING \
                    SETTINGS NO_CHANNEL IGNORED";
    let named = (0..=16).filter_map(|number| Refusal::of(number, 0));
    let numbers = named.map(|refusal| refusal.number() as usize);
    let mut answers: Vec<(&str, usize)> = refusals.split(' ').zip(numbers).collect();
    let others = [
        ("DONE", Outcome::DONE),
        ("INACTIVE", Outcome::Inactive(Reason::Retries)),
        ("REPEATED", Outcome::Repeated { length: 12 }),
    ];
    answers.extend(others.map(|(name, outcome)| (name, outcome.number() as usize)));
    answers
}

fn of_records() -> Vec<(&'static str, usize)> {
    let octets = [
        ("SENDS", direction::SENDS),
        ("RECEIVES", direction::RECEIVES),
        ("CLOSED", state::CLOSED),
        ("ENABLED", state::ENABLED),
        ("OPEN", state::OPEN),
        ("CLOSING", state::CLOSING),
        ("NO_REASON", reason::NONE),
        ("RETRIES", reason::RETRIES),
        ("LATE_OPEN", reason::LATE_OPEN),
        ("CONTROL_NUMBER", reason::CONTROL_NUMBER),
        ("DATA_NUMBER", reason::DATA_NUMBER),
        ("BROKEN_FLAGS", reason::BROKEN_FLAGS),
        ("UNANSWERED", reason::UNANSWERED),
        ("LONE_NONE", lone::NONE),
        ("LONE_READY", lone::READY),
        ("LONE_OUT", lone::OUT),
        ("LONE_AGAIN", lone::AGAIN),
        ("PROTOCOL", PROTOCOL),
    ];
    let octets = octets.map(|(name, number)| (name, usize::from(number)));
    let counts = [
        ("RECORDS", RECORDS),
        ("LINES", LINES),
        ("SLOTS", SLOTS),
        ("PREFIX", PREFIX),
    ];
    [&octets[..], &counts].concat()
}

/// Of the packet alone (000, 4.2.3): this crate has no names for them.
fn of_packets() -> Vec<(&'static str, usize)> {
    let kinds = [
        "DATA",
        "DATA_ACK",
        "OPEN_COMMAND",
        "CLOSE_COMMAND",
        "HEARTBEAT",
        "HEARTBEAT_ACK",
        "FLOW_CONTROL",
    ];
    let flags = ["CONTINUATION", "FIRST", "LAST", "WHOLE"];
    let others = [("CONTROL_ACK", 7), ("VERSION", 1), ("ACK_OCTETS", 12)];
    let counted = kinds.into_iter().zip(0..).chain(flags.into_iter().zip(0..));
    counted.chain(others).collect()
}

#[test]
fn the_header_has_these_numbers() {
    let mut seen = numbers();
    let expected = [of_answers(), of_records(), of_packets()].concat();
    let mut expected: Vec<(String, usize)> = expected
        .into_iter()
        .map(|(name, number)| (format!("PEAT_{name}"), number))
        .collect();
    seen.sort();
    expected.sort();
    assert_eq!(seen, expected);
}
