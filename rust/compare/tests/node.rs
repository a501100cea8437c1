//! The proved library's node beside the peer's: the same calls made of both, and
//! all that can be seen compared after each.

use std::thread;

use compare::bounds::{check_bounds, ACCEPTED, COUNTS, OTHER_LINES, REFUSED, STORAGE};
use compare::flows::FLOWS;
use compare::order::ORDERS;
use compare::pulses::HEARTBEATS;
use compare::sizes::WRONGS;
use compare::strays::CLAUSES;
use compare::tables::Size;
use compare::tally::Tally;
use compare::trouble::Trouble;
use compare::world::{World, CASES, PREFIXES, WRITTEN};
use link::{Noise, Weather, FAIR};

/// Calls compared when PEAT_CALLS does not ask for more.
const LEAST_CALLS: u64 = 1_000_000;

/// Threads that share them, each with seeds of its own.
const THREADS: u64 = 2;

/// Loses and repeats little, and keeps the order: openings live long, and their
/// numbers wrap.
const STEADY: Trouble = Trouble {
    weather: Weather {
        loss: 4,
        repeat: 4,
        ..FAIR
    },
    stray: 12,
    breaking: 0,
    closing: 1,
};

/// Reorders a little, and closes now and then.
const UNSTEADY: Trouble = Trouble {
    weather: Weather {
        loss: 10,
        repeat: 10,
        damage: 5,
        lateness: 3,
        ..FAIR
    },
    stray: 15,
    breaking: 4,
    closing: 20,
};

/// Openings die of everything.
const STORMY: Trouble = Trouble {
    weather: Weather {
        loss: 20,
        repeat: 20,
        damage: 10,
        lateness: 8,
        ..FAIR
    },
    stray: 25,
    breaking: 25,
    closing: 60,
};

/// The plan of a run: how large, how bad, and how many calls.
fn plan(seed: u64) -> (Size, Trouble, u64) {
    let trouble = [STEADY, UNSTEADY, STORMY][seed as usize / 2 % 3];
    let long = if trouble.breaking == 0 { 6 } else { 1 };
    match seed / 2 % 32 {
        3 | 11 | 22 => (Size::Wide, trouble, 1_500),
        5 | 13 | 27 => (Size::Crowded, trouble, 1_500),
        7 => (Size::Large, trouble, 1_500 * long),
        _ => (Size::Small, trouble, 2_000 * long),
    }
}

/// Says which run it was that failed.
struct Run {
    seed: u64,
    calls: u64,
}

impl Drop for Run {
    fn drop(&mut self) {
        if thread::panicking() {
            let Run { seed, calls } = self;
            eprintln!("the run of seed {seed} failed after {calls} calls");
        }
    }
}

/// One run.
fn run(seed: u64) -> Tally {
    let (size, trouble, calls) = plan(seed);
    let mut run = Run { seed, calls: 0 };
    let mut world = World::new(seed, size, trouble);
    while world.tally.calls < calls {
        world.step();
        run.calls = world.tally.calls;
    }
    world.tally.clone()
}

/// Every THREADS-th seed from this one on, until there are so many calls.
fn runs(first: u64, calls: u64) -> Tally {
    let mut tally = Tally::default();
    let mut seed = first;
    check_bounds(&mut Noise::new(first), &mut tally);
    while tally.calls < calls {
        tally.add(&run(seed));
        seed += THREADS;
    }
    tally
}

fn calls_wanted() -> u64 {
    let Ok(asked) = std::env::var("PEAT_CALLS") else {
        return LEAST_CALLS;
    };
    let asked: u64 = asked.parse().expect("PEAT_CALLS is a number");
    asked.max(LEAST_CALLS)
}

/// Every case that some list names.
fn all_cases() -> Vec<&'static str> {
    let bounds = [&REFUSED[..], &ACCEPTED, &STORAGE].concat();
    let mut cases = [
        &CASES[..],
        &PREFIXES,
        &ORDERS,
        &WRITTEN,
        &HEARTBEATS,
        &FLOWS,
    ]
    .concat();
    cases.extend(bounds.iter().map(|(name, _)| *name));
    cases.extend(COUNTS.map(|(name, _, _)| name));
    cases.push(OTHER_LINES);
    cases.extend(CLAUSES.map(|(name, _)| name));
    cases.extend(WRONGS.map(|(name, _)| name));
    cases
}

#[test]
fn every_call_answers_as_the_peers() {
    let each = calls_wanted().div_ceil(THREADS);
    let mut tally = Tally::default();
    thread::scope(|scope| {
        let started: Vec<_> = (0..THREADS)
            .map(|first| scope.spawn(move || runs(first, each)))
            .collect();
        for thread in started {
            tally.add(&thread.join().expect("no difference"));
        }
    });
    let Tally { calls, alone, .. } = tally;
    println!("{calls} calls compared, and {alone} of the proved library alone");
    print!("{tally}");
    let waited = tally.waited;
    println!("no channel waited in a line for more than {waited} packets of its rank");
    assert!(calls >= calls_wanted());
    tally.assert_complete(&all_cases());
}
