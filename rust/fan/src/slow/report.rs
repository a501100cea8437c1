//! The counts of both runs in a table, and what they mean in words.

use super::counted::{check, Counted};
use super::run::{PACE, TAKES};
use super::{HOST_SLOTS, STATION_SLOTS};
use crate::options::Options;
use std::fmt::{Error, Write};

/// A row's name, and what is counted in it.
type Row = (&'static str, fn(&Counted) -> usize);

/// The whole output, and whether it is as it should be.
pub fn of(asked: Options, without: &Counted, with: &Counted) -> (String, bool) {
    let mut text = String::new();
    let written = heading(&mut text, asked)
        .and_then(|()| table(&mut text, without, with))
        .and_then(|()| meaning(&mut text, without, with));
    let sound = written.expect("a String takes all that is written");
    (text, sound)
}

fn heading(to: &mut String, asked: Options) -> std::fmt::Result {
    let Options {
        seed, loss, events, ..
    } = asked;
    writeln!(
        to,
        "A host publishes {events} chamber events to a slow cooling station. Seed {seed}.\n\
         One is published every {PACE} ticks, and one is taken every {TAKES} ticks.\n\
         The host has slots for {HOST_SLOTS} events, the station for {STATION_SLOTS}.\n\
         The link keeps order, and was to lose {loss} packets in a hundred.\n\
         The same script is played twice: without Flow Control, and with it.\n"
    )
}

fn table(to: &mut String, without: &Counted, with: &Counted) -> std::fmt::Result {
    let rows: [Row; 7] = [
        ("events accepted by the host", |run| run.accepted.len()),
        ("Data packets handed out", |run| run.data),
        ("  of these, resends", |run| run.resends),
        ("Data that arrived at full slots", |run| run.full),
        ("Data or its Ack that was lost", |run| run.lost),
        ("Flow Control packets handed out", |run| run.flow),
        ("events taken by the station", |run| run.taken.len()),
    ];
    writeln!(to, "{:<32} {:>7} {:>7}", "", "without", "with")?;
    for (name, count) in rows {
        writeln!(to, "{name:<32} {:>7} {:>7}", count(without), count(with))?;
    }
    Ok(())
}

fn meaning(to: &mut String, without: &Counted, with: &Counted) -> Result<bool, Error> {
    if let Err(why) = check(without, with) {
        writeln!(to, "\nthis is not as it should be: {why}")?;
        return Ok(false);
    }
    writeln!(
        to,
        "\nWithout Flow Control the host sends while the station has no slot free: {} Data\n\
         packets came for nothing (answer 8, receive slots full), and were sent again.\n\
         With it the station states how far it has room, and the host waits: none came for\n\
         nothing, and nothing was sent again but for what the link lost.\n\
         In both runs the events taken are those accepted, in order; none is missing.",
        without.full
    )?;
    Ok(true)
}
