//! The replay program, as it is run.

use std::io::Write;
use std::process::{Command, Stdio};

use link::Noise;
use peer::replay::replay;

/// What the program prints for a trace.
fn printed(trace: &[u8]) -> String {
    let mut program = Command::new(env!("CARGO_BIN_EXE_replay"))
        .stdin(Stdio::piped())
        .stdout(Stdio::piped())
        .spawn()
        .expect("the program starts");
    let mut input = program.stdin.take().expect("it reads");
    input.write_all(trace).expect("it reads all");
    drop(input);
    let output = program.wait_with_output().expect("it ends");
    assert!(output.status.success());
    String::from_utf8(output.stdout).expect("it prints text")
}

/// "The trace 00 00 02 00, 02 00 05 00 00 41 prints, whole: .."
#[test]
fn the_program_prints_the_example() {
    let trace = [0, 0, 2, 0, 2, 0, 5, 0, 0, 0x41];
    assert_eq!(printed(&trace), "rec answer\n1 0\n2 5\nend ok\n");
    assert_eq!(printed(&trace[..9]), "rec answer\n1 0\nend short\n");
    assert_eq!(printed(&[]), "rec answer\nend ok\n");
}

/// A trace of small random records, the last one cut off at times.
fn random_trace(noise: &mut Noise) -> Vec<u8> {
    let mut trace = Vec::new();
    for _ in 0..noise.below(40) {
        let length = noise.below(5) as u8;
        let kind = noise.below(10) as u8;
        trace.extend([length, 0, kind, 0]);
        let body = (0..length).map(|_| noise.below(3) as u8);
        trace.extend(body.collect::<Vec<u8>>());
    }
    let kept = trace.len() - noise.below(6).min(trace.len());
    trace.truncate(kept);
    trace
}

/// Every record that is whole has its line, numbered from 1.
#[test]
fn every_record_has_its_line() {
    let mut noise = Noise::new(5);
    for _ in 0..2_000 {
        let trace = random_trace(&mut noise);
        let text = replay(&trace);
        let mut lines = text.lines();
        assert_eq!(lines.next(), Some("rec answer"));
        let mut rest = &trace[..];
        let mut count = 0;
        while rest.len() >= 4 && rest.len() >= 4 + usize::from(rest[0]) {
            rest = &rest[4 + usize::from(rest[0])..];
            count += 1;
            let line = lines.next().expect("a line");
            let (record, number) = line.split_once(' ').expect("two columns");
            assert_eq!(record, count.to_string());
            assert!(number.parse::<u8>().is_ok_and(|number| number <= 16));
        }
        let end = if rest.is_empty() {
            "end ok"
        } else {
            "end short"
        };
        assert_eq!((lines.next(), lines.next()), (Some(end), None));
    }
}
