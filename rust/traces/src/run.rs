//! A program on all traces and on inputs by chance.

use std::collections::BTreeMap;
use std::sync::atomic::{AtomicUsize, Ordering::Relaxed};
use std::{env, fs, thread};

use peer::replay::replay;

use crate::program::{Feed, Program};
use crate::trace::Trace;
use crate::{changed, edges, random};

/// The lines that may be the last.
const ENDS: [&str; 2] = ["end ok", "end short"];

/// A program that fails so often need not be tried further.
const ENOUGH: usize = 30;

/// An input, how it comes, and what must be printed for it.
struct Case {
    name: String,
    input: Vec<u8>,
    feed: Feed,
    expected: String,
}

/// Runs the program on every trace, each a test of its own, on so many random
/// inputs and changed traces, and at the edges of what an input can be, each
/// sort one test. Gives how many tests passed and how many failed.
pub fn all(program: &Program, traces: &[Trace], inputs: u64) -> (usize, usize) {
    let written: Vec<Case> = traces.iter().map(of_trace).collect();
    let octets: Vec<Vec<u8>> = traces.iter().map(Trace::input).collect();
    let random = (0..inputs).map(|place| by_peer("random", place, random::input(place)));
    let changed =
        (0..inputs).map(|place| by_peer("changed", place, changed::input(&octets, place)));
    let sorts = [
        ("random inputs", random.collect()),
        ("changed traces", changed.collect()),
        ("long traces", vec![by_peer("long", 0, edges::long(traces))]),
        ("cut inputs", cut(Feed::Whole)),
        ("cut inputs in pieces", cut(Feed::Octets)),
        ("failing reads", vec![failing()]),
    ];
    let failed = failures("traces", program, &written);
    let of_sorts = sorts
        .iter()
        .map(|(sort, cases)| failures(sort, program, cases).min(1));
    let failed = failed + of_sorts.sum::<usize>();
    (traces.len() + sorts.len() - failed, failed)
}

/// An input cut before each of its octets, and whole.
fn cut(feed: Feed) -> Vec<Case> {
    let octets = edges::short();
    let cuts = (0..=octets.len()).map(|end| Case {
        feed,
        ..by_peer("cut", end as u64, octets[..end].to_vec())
    });
    cuts.collect()
}

/// An input that cannot be read is not at its end.
fn failing() -> Case {
    Case {
        name: "failing".into(),
        input: Vec::new(),
        feed: Feed::Failing,
        expected: "rec answer\nend short\n".into(),
    }
}

fn of_trace(trace: &Trace) -> Case {
    Case {
        name: trace.name.clone(),
        input: trace.input(),
        feed: Feed::Whole,
        expected: trace.expected(),
    }
}

/// The peer says what must be printed.
fn by_peer(sort: &str, place: u64, input: Vec<u8>) -> Case {
    Case {
        name: format!("{sort}-{place}"),
        expected: replay(&input),
        feed: Feed::Whole,
        input,
    }
}

/// How many of these fail, with a line for each of them and one for all. After
/// [`ENOUGH`] failures the rest is not tried and counts as failed.
fn failures(sort: &str, program: &Program, cases: &[Case]) -> usize {
    let (next, failed) = (&AtomicUsize::new(0), &AtomicUsize::new(0));
    let work = || {
        let mut passed = 0;
        while let Some(case) = cases.get(next.fetch_add(1, Relaxed)) {
            match check(program, case) {
                Ok(()) => passed += 1,
                Err(why) => {
                    println!("failed: {}: {why}", case.name);
                    if failed.fetch_add(1, Relaxed) + 1 >= ENOUGH {
                        break;
                    }
                }
            }
        }
        passed
    };
    let passed: usize = thread::scope(|scope| {
        let workers = thread::available_parallelism().map_or(1, |count| count.get());
        let workers: Vec<_> = (0..workers).map(|_| scope.spawn(work)).collect();
        let ended = workers.into_iter().map(|worker| worker.join());
        ended.map(|passed| passed.expect("no worker panics")).sum()
    });
    println!("{passed} of {} {sort}: {}", cases.len(), summary(cases));
    cases.len() - passed
}

/// The program prints what it must, and keeps the input if not.
fn check(program: &Program, case: &Case) -> Result<(), String> {
    let printed = program.printed(&case.input, case.feed);
    let right = printed.and_then(|text| compare(&text, &case.expected));
    right.map_err(|why| {
        let kept = env::temp_dir().join(format!("replay-{}.input", case.name));
        match fs::write(&kept, &case.input) {
            Ok(()) => format!("{why} (input: {})", kept.display()),
            Err(_) => why,
        }
    })
}

fn compare(printed: &str, expected: &str) -> Result<(), String> {
    let last = printed.lines().last().unwrap_or_default();
    if !ENDS.contains(&last) {
        return Err(format!("it ends with '{last}'"));
    }
    if printed == expected {
        return Ok(());
    }
    let mut pairs = printed.lines().zip(expected.lines());
    match pairs.find(|(one, other)| one != other) {
        Some((one, other)) => Err(format!("it prints '{one}', not '{other}'")),
        None => Err("it prints more or less than it must".into()),
    }
}

/// How many records there are, and how often each answer is to be given.
fn summary(cases: &[Case]) -> String {
    let mut counts = BTreeMap::new();
    for case in cases {
        for answer in answers(&case.expected) {
            *counts.entry(answer).or_insert(0) += 1;
        }
    }
    let records: usize = counts.values().sum();
    let counts = counts
        .iter()
        .map(|(answer, count)| format!("{answer} {count}x"));
    format!(
        "{records} records, answers {}",
        counts.collect::<Vec<_>>().join(", ")
    )
}

/// The answers in what replay prints.
pub fn answers(printed: &str) -> impl Iterator<Item = u8> + '_ {
    printed
        .lines()
        .filter_map(|line| line.split_once(' ')?.1.parse().ok())
}

#[cfg(test)]
mod tests {
    use super::*;

    #[test]
    fn outputs_that_differ() {
        let right = "rec answer\n1 0\nend ok\n";
        assert_eq!(compare(right, right), Ok(()));
        for wrong in [
            "",
            "rec answer\n1 0\n",
            "rec answer\n1 5\nend ok\n",
            "rec answer\n1 0\nend short\n",
            "rec answer\n1 0\n2 0\nend ok\n",
            "rec answer\n1 0\nend ok",
        ] {
            assert!(compare(wrong, right).is_err(), "{wrong}");
        }
    }

    #[test]
    fn answers_of_an_output() {
        let printed = "rec answer\n1 0\n2 16\nend short\n";
        assert_eq!(answers(printed).collect::<Vec<_>>(), [0, 16]);
    }
}
