//! The trace files beside the peer, and the inputs made by chance.

use std::collections::BTreeSet;
use std::fs;
use std::path::PathBuf;

use peer::replay::replay;
use traces::packet::{Numbers, NUMBERS};
use traces::run::answers;
use traces::trace::{rewritten, Trace};
use traces::{changed, edges, random};

/// Every answer but 11 and 13: a reply of 12 octets, a packet of at most 28 and
/// a unit of at most M x P = 64 fit the buffers of 64, and the replay's
/// settings and memory are right from the start.
const REACHABLE: [u8; 15] = [0, 1, 2, 3, 4, 5, 6, 7, 8, 9, 10, 12, 14, 15, 16];

fn folder() -> PathBuf {
    PathBuf::from(env!("CARGO_MANIFEST_DIR")).join("../../traces")
}

fn all() -> Vec<Trace> {
    Trace::all(&folder()).expect("every trace can be read")
}

/// The files' names and texts.
fn texts() -> Vec<(String, String)> {
    let text = |trace: Trace| {
        let path = folder().join(trace.name.clone() + ".trace");
        (trace.name, fs::read_to_string(path).expect("a text"))
    };
    all().into_iter().map(text).collect()
}

#[test]
fn the_peer_prints_what_the_traces_say() {
    for trace in all() {
        assert_eq!(replay(&trace.input()), trace.expected(), "{}", trace.name);
    }
}

#[test]
fn the_octets_in_the_files_are_those_of_the_records() {
    for (name, text) in texts() {
        let right = rewritten(&text, NUMBERS).expect("it can be read");
        assert!(text == right, "run: traces rewrite traces/{name}.trace");
    }
}

#[test]
fn the_traces_reach_every_answer_that_can_be_reached() {
    let traces = all();
    assert!(traces.len() > 12, "the example and twelve more");
    let reached: BTreeSet<u8> = traces.iter().flat_map(Trace::answers).collect();
    assert_eq!(reached, BTreeSet::from(REACHABLE));
    let ends: BTreeSet<&str> = traces.iter().map(|trace| trace.ending.as_str()).collect();
    assert_eq!(ends, BTreeSet::from(["ok", "short"]));
}

#[test]
fn the_table_of_the_readme_is_theirs() {
    let readme = fs::read_to_string(folder().join("README.md")).expect("a text");
    let rows: Vec<&str> = readme
        .lines()
        .filter(|line| line.starts_with("| ["))
        .collect();
    let right: Vec<String> = all().iter().map(Trace::row).collect();
    assert_eq!(rows, right, "run: traces table traces");
}

/// Other channel numbers change the octets of packets, and no answer.
#[test]
fn channel_numbers_are_a_parameter() {
    let other = Numbers {
        sending: 3,
        receiving: 4,
    };
    for (name, text) in texts() {
        let read = |numbers| Trace::read(&text, numbers).expect("a trace");
        let (trace, renumbered) = (read(NUMBERS), read(other));
        assert_eq!(renumbered.expected(), trace.expected(), "{name}");
        assert_eq!(renumbered.input().len(), trace.input().len(), "{name}");
        let packets = text.contains("arrival ");
        assert_eq!(renumbered.input() != trace.input(), packets, "{name}");
    }
}

#[test]
fn files_that_are_not_well_written() {
    let why = "\n because\n";
    for wrong in [
        "".into(),
        format!("1 tick -> 0{why}"),
        format!("2 tick -> 0{why}end ok"),
        format!("1 tick -> 17{why}end ok"),
        format!("1 tick{why}end ok"),
        format!("1 tock -> 0{why}end ok"),
        format!("1 tick -> 0{why}end short"),
        format!("1 tick -> 0{why}end ok\n2 tick -> 0{why}"),
        format!("1 tick -> 0{why} 2 tick -> 0{why}end ok"),
        format!(". tick -> 0{why}end ok"),
        format!("1-3 repeat n = 1 to 2\n. tick -> 0{why}done\nend ok"),
        format!("1-2 repeat n = 1 to 2\n. tick -> 0{why}end ok"),
        "1 tick -> 0\nend ok".into(),
        "cut 00\nend ok".into(),
        "no words of these\nend ok".into(),
    ] {
        assert!(Trace::read(&wrong, NUMBERS).is_err(), "{wrong}");
    }
    let right = format!("1-2 tick -> 0{why}3-4 repeat n = 1 to 2\n. tick -> 0{why}done\nend ok");
    let right = Trace::read(&right, NUMBERS).expect("a trace");
    assert_eq!(right.expected(), "rec answer\n1 0\n2 0\n3 0\n4 0\nend ok\n");
}

/// The inputs made by chance end as they should, reach every answer too, and
/// are the same each time.
#[test]
fn inputs_by_chance() {
    let octets: Vec<Vec<u8>> = all().iter().map(Trace::input).collect();
    let make: [&dyn Fn(u64) -> Vec<u8>; 2] =
        [&random::input, &|place| changed::input(&octets, place)];
    for input in make {
        let mut reached = BTreeSet::new();
        for place in 0..300 {
            let printed = replay(&input(place));
            assert!(printed.ends_with("\nend ok\n") || printed.ends_with("\nend short\n"));
            reached.extend(answers(&printed));
        }
        assert_eq!(reached, BTreeSet::from(REACHABLE));
        assert_eq!(input(7), input(7));
    }
}

/// There are more records than two octets count, and the last is answered like
/// any other.
#[test]
fn a_long_input() {
    let printed = replay(&edges::long(&all()));
    assert!(answers(&printed).count() > edges::LONG);
    assert!(printed.ends_with("\nend ok\n"));
}

/// It ends between two records three times, and at its start.
#[test]
fn an_input_cut_anywhere() {
    let octets = edges::short();
    let ends = (0..=octets.len()).filter(|end| replay(&octets[..*end]).ends_with("end ok\n"));
    assert_eq!(ends.collect::<Vec<_>>(), [0, 4, 9, octets.len()]);
}
