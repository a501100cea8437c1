//! A long run of two nodes over bad links.

use std::collections::BTreeSet;

use peer::prefix::Prefix;
use peer::settings::{Direction, Settings};
use peer::state::State;

use crate::calls::prefix;
use crate::world::World;
use link::{Noise, Weather, FAIR};

/// Loses and repeats, but keeps the order: openings live long.
const ORDERLY: Weather = Weather {
    loss: 10,
    repeat: 10,
    damage: 3,
    ..FAIR
};

/// Reorders a little as well.
const UNSTEADY: Weather = Weather {
    lateness: 3,
    ..ORDERLY
};

/// Reorders so much that many openings die.
const STORMY: Weather = Weather {
    loss: 20,
    repeat: 25,
    damage: 5,
    lateness: 12,
    ..FAIR
};

/// Settings with these window, slots, P and M. Every other shape has prefixes.
fn settings(channel: u16, window: u32, slots: u32, payload: u32, segments: u32) -> Settings {
    let noise = &mut Noise::new((slots + segments).into());
    let [remote_prefix, own_prefix] = match slots % 2 {
        0 => [Prefix::NONE; 2],
        _ => [prefix(noise), prefix(noise)],
    };
    Settings {
        direction: Direction::Sending,
        channel,
        remote: 0,
        remote_prefix,
        own_prefix,
        window,
        slots,
        most_payload: payload,
        most_segments: segments,
        timeout: 3,
        close_timeout: 7,
        retries: 20,
        interval: 0,
        flow: 0,
        spare: 0,
        lead: 0,
    }
}

/// Runs a world, then lets it settle in fair weather; gives it back with the
/// most segments that an opening sent. A few units are sent while it settles:
/// without them, or a Heartbeat, an idle transmit end would not notice that the
/// other end has closed.
fn run(channels: &[(usize, Settings)], weather: Weather, rounds: usize, seed: u64) -> (World, u64) {
    let mut world = World::new(channels, weather, seed);
    for round in 0..rounds {
        world.round();
        if round % 32 == 0 {
            world.check();
        }
    }
    world.weather = FAIR;
    let lively = channels.iter().all(|(_, settings)| settings.interval > 0);
    for load in [if lively { 0 } else { 2 }, 0] {
        world.load = load;
        (0..1_000).for_each(|_| world.round());
    }
    world.check();
    let openings = world.pairs.iter().flat_map(|pair| &pair.units.openings);
    let segments = openings.map(|opening| opening.last_sent).max();
    let segments = segments.unwrap_or(0);
    (world, segments)
}

/// In fair weather every channel opens in the end, and all is confirmed and
/// taken.
fn check_settled(world: &World) {
    for pair in &world.pairs {
        assert_eq!(world.state(pair.sender), State::Open);
        assert_eq!(world.state(pair.receiver), State::Open);
        pair.units.check_settled();
    }
}

/// Window, slots, P and M of the soaked channels: the least slots, slots that
/// do not divide 256, and units of one segment up to all slots.
const SHAPES: [(u32, u32, u32, u32); 14] = [
    (1, 1, 3, 1),
    (1, 3, 1, 3),
    (1, 7, 2, 4),
    (2, 2, 2, 2),
    (2, 3, 1, 2),
    (2, 5, 4, 5),
    (2, 100, 1, 9),
    (4, 4, 3, 4),
    (4, 6, 2, 1),
    (4, 7, 1, 7),
    (4, 11, 2, 3),
    (8, 8, 1, 5),
    (8, 9, 2, 9),
    (8, 13, 1, 2),
];

/// Runs every shape of channel alone; gives all answers seen.
fn run_shapes(weather: Weather, retries: u32, rounds: usize, least: u64) -> BTreeSet<u8> {
    let with = |settings| Settings {
        retries,
        ..settings
    };
    let (seen, flow_controls) = run_shapes_with(with, weather, rounds, least);
    assert_eq!(flow_controls, 0);
    seen
}

/// The same, with settings made from these; gives the Flow Control packets, too.
fn run_shapes_with(
    with: impl Fn(Settings) -> Settings,
    weather: Weather,
    rounds: usize,
    least: u64,
) -> (BTreeSet<u8>, usize) {
    let mut seen = BTreeSet::new();
    let mut flow_controls = 0;
    for (seed, &(window, slots, payload, segments)) in (1..).zip(&SHAPES) {
        let channel = with(settings(0, window, slots, payload, segments));
        let (world, most) = run(&[(0, channel)], weather, rounds, seed);
        check_settled(&world);
        assert!(most >= least, "{window} {slots}: {most} segments");
        flow_controls += world.flow_controls;
        seen.extend(world.seen);
    }
    (seen, flow_controls)
}

/// Openings of many segments: the numbers wrap again and again.
#[test]
fn orderly_links() {
    let seen = run_shapes(ORDERLY, 20, 16_000, 600);
    assert!(BTreeSet::from([0, 1, 2, 5, 6, 7, 8, 12, 15, 16]).is_subset(&seen));
}

/// "on a link that loses but keeps order, answer 8 never arises between two ends that
/// obey" (document 02, A5).
#[test]
fn orderly_links_with_flow_control() {
    let weather = Weather {
        repeat: 0,
        ..ORDERLY
    };
    let flowing = |settings| Settings {
        flow: 1,
        ..settings
    };
    let (seen, flow_controls) = run_shapes_with(flowing, weather, 8_000, 300);
    assert!(flow_controls > 1_000, "{flow_controls}");
    assert!(BTreeSet::from([0, 1, 2, 5, 6, 7, 12, 15]).is_subset(&seen));
    assert!(!seen.contains(&8));
}

#[test]
fn unsteady_links() {
    let seen = run_shapes(UNSTEADY, 20, 8_000, 20);
    assert!(BTreeSet::from([0, 1, 2, 5, 6, 7, 8, 9, 10, 12, 15, 16]).is_subset(&seen));
}

/// Openings that die of reordering and of used up retries, and leave units
/// behind at both ends.
#[test]
fn stormy_links() {
    let seen = run_shapes(STORMY, 4, 8_000, 2);
    assert!(BTreeSet::from([0, 1, 2, 5, 6, 7, 9, 10, 12, 15, 16]).is_subset(&seen));
}

/// Several channels in both directions between two nodes, whose memories lie
/// in different orders.
fn several() -> [(usize, Settings); 5] {
    [
        (0, settings(0, 4, 7, 3, 4)),
        (1, settings(1, 8, 11, 1, 6)),
        (0, settings(2, 1, 5, 2, 5)),
        (1, settings(3, 2, 3, 4, 1)),
        (0, settings(4, 8, 100, 1, 3)),
    ]
}

#[test]
fn several_channels() {
    for (seed, weather) in (100..).zip([ORDERLY, UNSTEADY, STORMY]) {
        let (world, _) = run(&several(), weather, 5_000, seed);
        check_settled(&world);
        assert_eq!(world.heartbeats, [0; 2]);
    }
}

/// Some with Flow Control, some without, some with Heartbeats as well. A link that
/// reorders may stop one with Flow Control for good, so no more is asked there than the
/// claims that every round asks.
#[test]
fn several_channels_with_flow_control() {
    for (seed, weather) in (300..).zip([ORDERLY, UNSTEADY, STORMY]) {
        let flowing = |(node, settings): (usize, Settings)| {
            let flow = u32::from(settings.channel != 1);
            let interval = 7 * u32::from(settings.channel % 2);
            (
                node,
                Settings {
                    flow,
                    interval,
                    ..settings
                },
            )
        };
        let (world, _) = run(&several().map(flowing), weather, 5_000, seed);
        assert!(world.flow_controls > 100);
    }
}

/// With a Heartbeat at both ends every channel settles though no unit is sent.
#[test]
fn lively_channels() {
    for (seed, weather) in (200..).zip([ORDERLY, UNSTEADY, STORMY]) {
        let lively = |(node, settings): (usize, Settings)| {
            let interval = 1 + 2 * u32::from(settings.channel);
            (
                node,
                Settings {
                    interval,
                    ..settings
                },
            )
        };
        let (world, _) = run(&several().map(lively), weather, 5_000, seed);
        check_settled(&world);
        assert!(world.heartbeats.iter().all(|&count| count > 500));
    }
}
