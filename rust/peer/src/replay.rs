//! The replay program (document 01, Replay program).

use std::fmt::Write;

use crate::lines::LINE_OCTETS;
use crate::node::Node;
use crate::prefix::Prefix;
use crate::settings::{storage, Direction, NodeSettings, Settings};

#[cfg(test)]
mod tests;

/// Octets of each lent buffer: reply, packet, unit.
const BUFFER: usize = 64;

/// The answer to an unknown kind and to a missing index.
const NO_CHANNEL: u8 = 14;

/// One input record.
#[derive(Clone, Copy, Debug, PartialEq, Eq)]
struct Record<'a> {
    kind: u16,
    body: &'a [u8],
}

/// Replays a trace and gives what the program prints.
pub fn replay(input: &[u8]) -> String {
    let mut node = node();
    let mut text = String::from("rec answer\n");
    let mut rest = input;
    let mut count = 0;
    while let Some((record, after)) = next_record(rest) {
        count += 1;
        rest = after;
        let number = answer(&mut node, record);
        writeln!(text, "{count} {number}").expect("a string takes all");
    }
    let end = if rest.is_empty() { "ok" } else { "short" };
    writeln!(text, "end {end}").expect("a string takes all");
    text
}

/// The first record and what follows it, or none if the input ends within it.
fn next_record(input: &[u8]) -> Option<(Record<'_>, &[u8])> {
    let (head, rest) = input.split_at_checked(4)?;
    let length = u16::from_le_bytes([head[0], head[1]]);
    let kind = u16::from_le_bytes([head[2], head[3]]);
    let (body, after) = rest.split_at_checked(usize::from(length))?;
    Some((Record { kind, body }, after))
}

/// The answer number of one record.
fn answer(node: &mut Node, record: Record) -> u8 {
    let out = &mut [0; BUFFER];
    let answer = match (record.kind, record.body.split_first()) {
        (1, _) => node.arrival(record.body, out),
        (2, _) => node.tick(),
        (7, _) => node.next_packet(out),
        (3, Some((&index, _))) => node.open(index.into()),
        (4, Some((&index, _))) => node.close(index.into()),
        (5, Some((&index, unit))) => node.transfer(index.into(), unit),
        (6, Some((&index, _))) => node.take(index.into(), out),
        (8, Some((&index, _))) => node.reclaim(index.into(), out),
        _ => return NO_CHANNEL,
    };
    answer.number
}

/// The node of the replay: channel 0 transmits and is numbered 1; channel 1
/// receives and "is then numbered 2" (document 02, A2), which changes nothing
/// else there: neither makes a Heartbeat, and neither uses Flow Control (A5).
fn node() -> Node {
    let sending = Settings {
        direction: Direction::Sending,
        channel: 1,
        remote: 65,
        remote_prefix: Prefix::NONE,
        own_prefix: Prefix::NONE,
        window: 4,
        slots: 8,
        most_payload: 16,
        most_segments: 4,
        timeout: 4,
        close_timeout: 4,
        retries: 2,
        interval: 0,
        flow: 0,
        spare: 0,
        lead: 0,
    };
    let receiving = Settings {
        direction: Direction::Receiving,
        channel: 2,
        ..sending
    };
    let table = [sending, receiving];
    let (octets, lengths) = storage(&table);
    let settings = NodeSettings {
        own: 64,
        protocol: 238,
    };
    let (memory, lengths) = (vec![0; octets], vec![0; lengths]);
    let mut node = Node::new(settings, table.len(), memory, lengths, vec![0; LINE_OCTETS]);
    let answer = node.settings(&table);
    debug_assert_eq!(answer.number, 0);
    node
}
