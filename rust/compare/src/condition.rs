//! The test for 13 as docs/CONDITION.md has it, that of the lines too: what a table that was overwritten must be answered.

use proved::record::{direction, lone, state, Channel, Limits, Prefix, LINES};

/// Whether these octets can be the lines of so many records.
pub fn are_lines(lines: &[u8], records: usize) -> bool {
    lines.len() == LINES && lines.chunks(LINES / 3).all(|line| is_line(line, records))
}

/// How many stand in it, then they, each once, then zeros.
fn is_line(line: &[u8], records: usize) -> bool {
    let count = usize::from(line[0]);
    if count > 16 {
        return false;
    }
    let (standing, past) = line[1..].split_at(count);
    let mut places = standing.iter().enumerate();
    let sound = places
        .all(|(place, index)| usize::from(*index) < records && !standing[..place].contains(index));
    sound && past.iter().all(|octet| *octet == 0)
}

/// Whether a table passes with so many octets and these lengths.
pub fn is_lawful(table: &[Channel], octets: usize, lengths: &[u16]) -> bool {
    if !(1..=16).contains(&table.len()) {
        return false;
    }
    let mut rest = lengths;
    let mut needed = 0;
    for record in table {
        let slots = record.limits.slots;
        if !fits(&record.limits) || rest.len() < slots {
            return false;
        }
        let (own, others) = rest.split_at(slots);
        if !stands(record, own) {
            return false;
        }
        needed += slots * record.limits.payload;
        rest = others;
    }
    rest.is_empty() && needed == octets
}

/// `fit_limits`: such as settings allow.
fn fits(limits: &Limits) -> bool {
    limits.window.is_power_of_two()
        && limits.window <= 128
        && (limits.window..=128).contains(&limits.slots)
        && (1..=1_024).contains(&limits.payload)
        && (1..=limits.slots).contains(&limits.segments)
        && limits.timeout >= 1
        && limits.closing >= 1
        && limits.retries <= 255
        && limits.flow <= 1
        && limits.spare <= 16
        && limits.lead <= 1
        && (limits.spare == 0 || limits.lead == 1)
}

/// The other clauses, of a record whose limits fit.
fn stands(record: &Channel, lengths: &[u16]) -> bool {
    is_named(record)
        && is_counted(record)
        && is_rested(record)
        && is_marked(record)
        && slots_fit(record, lengths)
}

fn is_named(record: &Channel) -> bool {
    record.addresses.direction <= 1
        && is_prefix(&record.addresses.remote_prefix)
        && is_prefix(&record.addresses.own_prefix)
        && record.phase.state <= 3
        && record.phase.reason <= 6
        && record.phase.kept <= 1
        && record.phase.accepted <= 1
        && record.phase.control.state <= 3
        && record.pulse.beat.state <= 3
        && record.pulse.flow.packet.state <= 3
}

/// At most 15 octets, and 0 in every one past them.
fn is_prefix(prefix: &Prefix) -> bool {
    let past = prefix.octets.iter().skip(prefix.length.into());
    prefix.length <= 15 && past.copied().all(|octet| octet == 0)
}

/// `in_ring`, `in_flight` and `sided`.
fn is_counted(record: &Channel) -> bool {
    let (limits, window) = (&record.limits, &record.window);
    let in_ring = window.place < limits.slots
        && window.behind <= limits.slots
        && window.ahead <= limits.slots - window.behind;
    let in_flight = window.flight <= window.ahead
        && window.flight <= limits.window
        && window.way <= window.behind
        && window.way < limits.segments;
    let sided = if record.addresses.direction == direction::SENDS {
        let rests = window.behind == 0 && window.flight == 0;
        window.way == 0 && (record.phase.state == state::OPEN || rests)
    } else {
        window.ahead == 0
    };
    in_ring && in_flight && sided
}

/// Out of OPEN: the window starts at 1, nothing is on the way, and a sender that
/// is not CLOSED has its Open or Close.
fn is_rested(record: &Channel) -> bool {
    let (phase, window) = (&record.phase, &record.window);
    let sends = record.addresses.direction == direction::SENDS;
    let asks = !sends || phase.state == state::CLOSED || phase.control.state != lone::NONE;
    phase.state == state::OPEN || window.start == 1 && window.way == 0 && asks
}

/// Each segment held, from the oldest on, lies in a slot that is marked.
fn is_marked(record: &Channel) -> bool {
    let (slots, window) = (record.limits.slots, &record.window);
    let oldest = window.place + slots - window.behind;
    let mut held = (0..window.behind + window.ahead).map(|one| (oldest + one) % slots);
    held.all(|place| record.marks[place] != 0)
}

/// Flags 0 to 3, at most P octets, and exactly P in a sender's segment that
/// does not end its unit.
fn slots_fit(record: &Channel, lengths: &[u16]) -> bool {
    let sends = record.addresses.direction == direction::SENDS;
    let most = record.limits.payload;
    let mut slots = record.marks.iter().zip(lengths);
    slots.all(|(&mark, &length)| match mark {
        0 => true,
        1 | 2 if sends => usize::from(length) == most,
        1..=4 => usize::from(length) <= most,
        _ => false,
    })
}
