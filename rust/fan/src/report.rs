//! The story and the account in words.

use crate::account::{Fate, Seen};
use crate::hall::Hall;
use std::fmt::Write;

/// The whole output, and whether every event is accounted for.
pub fn of(hall: &Hall) -> (String, bool) {
    let mut text = String::new();
    let written = heading(&mut text, hall)
        .and_then(|()| happened(&mut text, hall))
        .and_then(|()| fates(&mut text, &hall.seen))
        .and_then(|()| account(&mut text, &hall.seen));
    let sound = written.expect("a String takes all that is written");
    (text, sound)
}

fn heading(to: &mut String, hall: &Hall) -> std::fmt::Result {
    let asked = hall.options;
    let (there, back) = (hall.there.counts, hall.back.counts);
    writeln!(
        to,
        "A host publishes {} chamber events to a cooling station. Seed {}.",
        asked.events, asked.seed
    )?;
    writeln!(
        to,
        "The link was to lose {}, repeat {} and reorder {} packets in a hundred.",
        asked.loss, asked.repeat, asked.reorder
    )?;
    writeln!(
        to,
        "It was given {} packets, lost {}, repeated {}, and let {} be overtaken.\n",
        there.sent + back.sent,
        there.lost + back.lost,
        there.repeated + back.repeated,
        there.late + back.late
    )
}

fn happened(to: &mut String, hall: &Hall) -> std::fmt::Result {
    for (tick, what) in &hall.story {
        writeln!(to, "tick {tick:>3}  {what}")?;
    }
    Ok(())
}

fn fates(to: &mut String, seen: &Seen) -> std::fmt::Result {
    writeln!(to, "\nWhere is each event?\n")?;
    for (event, fate) in seen.fates() {
        writeln!(to, "{event:<28}  {fate}")?;
    }
    Ok(())
}

fn account(to: &mut String, seen: &Seen) -> Result<bool, std::fmt::Error> {
    let fates = seen.fates();
    let refused = fates
        .iter()
        .filter(|(_, fate)| matches!(fate, Fate::Refused(_)));
    let accepted = seen.accepted().len();
    let (confirmed, reclaimed) = (seen.confirmed, seen.reclaimed.len());
    let (published, refused) = (fates.len(), refused.count());
    writeln!(
        to,
        "\n{published} events: {accepted} accepted, {refused} refused at publication"
    )?;
    write!(
        to,
        "{accepted} events accepted: {confirmed} confirmed, {reclaimed} reclaimed; "
    )?;
    match seen.check() {
        Ok(()) => writeln!(to, "none is unaccounted for")?,
        Err(why) => writeln!(to, "the account is wrong: {why}")?,
    }
    Ok(seen.check().is_ok())
}
