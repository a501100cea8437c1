//! The fan event, acted out over the proved library: a hall's host publishes
//! chamber events to a cooling station over a link that loses, repeats and
//! reorders packets. In the middle the station falls silent. Where is each event?
//! In a second story the station never falls silent, and is slow.

mod account;
mod ends;
mod events;
mod hall;
mod link;
mod options;
mod report;
mod slow;

pub use options::{Options, USAGE};

use crate::link::Link;
use ends::Lent;
use hall::Hall;
use proved::Limits;

/// Of the channel between the two, at both ends.
const LIMITS: Limits = Limits {
    window: 4,
    slots: 10,
    payload: 16,
    segments: 4,
    timeout: 6,
    closing: 40,
    retries: 4,
    interval: 0,
    flow: 0,
    spare: 0,
    lead: 0,
};

/// Plays the story that is asked for: it and its account in words, and whether all
/// is as it should be.
pub fn story(options: Options) -> (String, bool) {
    match options.slow {
        true => slow::story(options),
        false => silent(options),
    }
}

fn silent(options: Options) -> (String, bool) {
    let (mut of_host, mut of_station) = (Lent::host(LIMITS), Lent::station(LIMITS));
    let mut hall = Hall {
        options,
        host: of_host.node(),
        station: of_station.node(),
        there: Link::new(options.seed, options),
        back: Link::new(!options.seed, options),
        seen: Default::default(),
        story: Vec::new(),
        now: 0,
        silent: false,
    };
    hall.play();
    report::of(&hall)
}
