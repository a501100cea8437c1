//! Long runs of two proved nodes over bad links: where is every unit?

use std::thread;

use link::{Weather, FAIR};
use proved::record::{state, Limits};
use soak::world::{Counts, World};

/// Runs of each kind when PEAT_SEEDS does not ask for more.
const LEAST_SEEDS: u64 = 2;

/// Loses and repeats, but keeps the order: openings live long.
const ORDERLY: Weather = Weather {
    loss: 8,
    repeat: 8,
    damage: 2,
    ..FAIR
};

/// Loses, and brings the rest once and in order: what A5 of document 02 asks of a link.
const LOSSY: Weather = Weather {
    repeat: 0,
    ..ORDERLY
};

/// Reorders as well, and brings back what was long forgotten.
const UNSTEADY: Weather = Weather {
    lateness: 3,
    forgotten: 1,
    ..ORDERLY
};

/// So bad that many openings die.
const STORMY: Weather = Weather {
    loss: 22,
    repeat: 25,
    damage: 5,
    lateness: 12,
    forgotten: 3,
};

/// Window, slots, P and M: the least slots, slots that do not divide 256, units
/// of one segment up to all slots, and the largest window.
const SHAPES: [[usize; 4]; 10] = [
    [1, 1, 3, 1],
    [1, 3, 1, 3],
    [2, 5, 4, 5],
    [4, 4, 3, 4],
    [4, 7, 1, 7],
    [4, 11, 2, 3],
    [8, 13, 1, 2],
    [16, 100, 2, 9],
    [64, 128, 4, 20],
    [128, 128, 4, 20],
];

fn limits([window, slots, payload, segments]: [usize; 4], retries: u16) -> Limits {
    Limits {
        window,
        slots,
        payload,
        segments,
        timeout: 4,
        closing: 9,
        retries,
        interval: 0,
        flow: 0,
        spare: 0,
        lead: 0,
    }
}

/// Every other channel makes Heartbeats at both ends, after a few ticks.
fn with_intervals(channels: &mut [(usize, Limits)], from: usize) {
    for (place, (_, limits)) in (from..).zip(channels) {
        limits.interval = [0, 1, 0, 3, 0, 12][place % 6];
    }
}

/// Every third channel uses Flow Control.
fn with_flow_control(channels: &mut [(usize, Limits)], from: usize) {
    for (place, (_, limits)) in (from..).zip(channels) {
        limits.flow = u16::from(place % 3 == 0);
    }
}

/// Whether a channel must go on in the end. With Flow Control it may stand still for
/// good where a packet is repeated or overtaken: two Flow Control packets may have one
/// number, and the Ack of the first be taken for that of the second, which was lost.
fn goes_on(limits: &Limits, weather: Weather) -> bool {
    let Weather {
        repeat,
        lateness,
        forgotten,
        ..
    } = weather;
    limits.flow == 0 || (repeat, lateness, forgotten) == (0, 0, 0)
}

/// Runs a world, then lets it settle in fair weather: in the end every channel
/// is open, and all is confirmed and taken.
fn run(channels: &[(usize, Limits)], weather: Weather, rounds: usize, seed: u64) -> Counts {
    let mut world = World::new(channels, weather, seed);
    for round in 0..rounds {
        world.round();
        if round % 50 == 0 {
            world.check();
        }
    }
    world.weather = FAIR;
    // A few units at first: without them, or a Heartbeat, an idle host would not
    // notice that the other end has closed.
    let lively = channels.iter().all(|(_, limits)| limits.interval > 0);
    for load in [if lively { 0 } else { 5 }, 0] {
        world.load = load;
        (0..600).for_each(|_| world.round());
    }
    world.check();
    for account in &world.accounts {
        world.counts.wrapped += u64::from(account.has_wrapped());
        if goes_on(&account.limits, weather) {
            assert_eq!(world.state(account.host), state::OPEN);
            assert_eq!(world.state(account.subscriber), state::OPEN);
            account.units.check_settled();
        }
    }
    world.counts
}

/// Every shape of channel alone, from each seed.
fn run_shapes(weather: Weather, retries: u16, rounds: usize) -> Counts {
    run_shapes_with(|limits| limits, weather, retries, rounds)
}

/// The same, with these limits changed.
fn run_shapes_with(
    change: fn(Limits) -> Limits,
    weather: Weather,
    retries: u16,
    rounds: usize,
) -> Counts {
    let mut counts = Counts::default();
    for seed in 0..seeds() {
        for (place, shape) in (1..).zip(SHAPES) {
            let mut channels = [(0, change(limits(shape, retries)))];
            with_intervals(&mut channels, (seed + place) as usize);
            counts.add(&run(&channels, weather, rounds, 1_000 * seed + place));
        }
    }
    counts
}

/// "on a link that loses but keeps order, answer 8 never arises between two ends that
/// obey" (document 02, A5); here at every k.
fn run_flow_control() -> Counts {
    let flowing = |mut limits: Limits| {
        limits.flow = 1;
        limits
    };
    let counts = run_shapes_with(flowing, LOSSY, 20, 3_000);
    assert_eq!(counts.full, [0, 0]);
    counts
}

/// Several channels in both directions, whose records lie in another order at
/// the other node.
fn run_several() -> Counts {
    let shapes = [[4, 7, 3, 4], [8, 11, 1, 6], [1, 5, 2, 5], [2, 3, 4, 1]];
    let directed = |(place, shape)| (place % 2, limits(shape, 6));
    let mut channels: Vec<_> = shapes.into_iter().enumerate().map(directed).collect();
    let mut counts = Counts::default();
    for seed in 0..seeds() {
        with_intervals(&mut channels, seed as usize);
        with_flow_control(&mut channels, seed as usize);
        for weather in [ORDERLY, UNSTEADY, STORMY] {
            counts.add(&run(&channels, weather, 1_200, 1_000 * seed + 100));
        }
    }
    counts
}

fn seeds() -> u64 {
    let Ok(asked) = std::env::var("PEAT_SEEDS") else {
        return LEAST_SEEDS;
    };
    let asked: u64 = asked.parse().expect("PEAT_SEEDS is a number");
    asked.max(LEAST_SEEDS)
}

/// Runs of one kind, and its name.
type Kind = (&'static str, fn() -> Counts);

#[test]
fn where_every_unit_is() {
    let kinds: [Kind; 5] = [
        ("orderly links", || run_shapes(ORDERLY, 20, 3_000)),
        ("unsteady links", || run_shapes(UNSTEADY, 20, 1_500)),
        ("stormy links", || run_shapes(STORMY, 3, 1_500)),
        ("several channels", run_several),
        ("lossy links, and Flow Control", run_flow_control),
    ];
    let mut all = Counts::default();
    thread::scope(|scope| {
        let (left, right) = kinds.split_at(1);
        let started = [left, right]
            .map(|half| scope.spawn(|| half.iter().map(|(_, run)| run()).collect::<Vec<_>>()));
        let counts = started
            .into_iter()
            .flat_map(|one| one.join().expect("no claim broken"));
        for ((name, _), counts) in kinds.iter().zip(counts.collect::<Vec<_>>()) {
            print!("{name}:\n{counts}");
            all.add(&counts);
        }
    });
    print!("all:\n{all}");
    assert!(all.units.iter().all(|&count| count > 1_000));
    assert!(all.packets.iter().all(|&count| count > 0));
    assert!(all.closed > 0 && all.wrapped > 0 && all.regional > 1_000);
    // The link delivers what was sent: no Control number and no flags are wrong.
    let [retries, late_open, control, data, flags, _] = all.inactive;
    assert!(retries > 0 && late_open > 0 && data > 0);
    assert_eq!((control, flags), (0, 0));
    assert!(all.heartbeats.iter().all(|&count| count > 1_000));
    assert!(all.flow_controls.iter().all(|&count| count > 1_000));
    // Without Flow Control the slots are found full again and again.
    assert!(all.full[0] > 1_000);
    assert!(all.unanswered.iter().all(|&count| count > 0));
}

/// From this seed a copy comes back when the window has started between 193 and
/// 256 past it. Without the premise it passes as new, and the bystander sees it:
/// what the other test finds in order is not found so by blindness.
#[test]
#[should_panic(expected = "claim 1")]
fn without_the_premise_a_claim_breaks() {
    let weather = Weather {
        forgotten: 1,
        ..FAIR
    };
    let channels = [(0, limits([64, 128, 4, 1], 20))];
    let mut world = World::new(&channels, weather, 33);
    world.premise = false;
    (0..600).for_each(|_| world.round());
}
