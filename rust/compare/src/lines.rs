//! The lines by document 02, A4, told from the proved library's records and
//! octets: for calls that the peer cannot be asked, and to tell what a call was.

use link::Noise;
use proved::record::{direction, lone, state, Channel, Lone, LINES};
use proved::Said;

use crate::call::Call;

/// Octets of one line.
const LINE: usize = LINES / 3;

/// The ranks: Control, Heartbeats and Flow Control; resent Data; new Data.
pub const RANKS: std::ops::Range<usize> = 0..3;

/// A packet that goes out: its rank, and whose it is.
#[derive(Clone, Copy, Debug, PartialEq, Eq)]
pub struct Next {
    /// One of [`RANKS`].
    pub rank: usize,
    /// The index of its channel.
    pub index: usize,
}

/// Who stands in the line of a rank, from the head on.
pub fn standing(lines: &[u8], rank: usize) -> &[u8] {
    let line = &lines[rank * LINE..][..LINE];
    &line[1..][..line[0].into()]
}

/// Whether this channel does.
pub fn stands(lines: &[u8], rank: usize, index: usize) -> bool {
    standing(lines, rank).contains(&(index as u8))
}

/// The octets of lines in which these stand.
pub fn octets_of(queues: [Vec<u8>; 3]) -> Vec<u8> {
    let mut octets = vec![0; LINES];
    for (line, queue) in octets.chunks_mut(LINE).zip(queues) {
        line[0] = queue.len() as u8;
        line[1..][..queue.len()].copy_from_slice(&queue);
    }
    octets
}

/// Whether a packet that is sent alone is ready, for the first time or again.
pub fn is_waiting(packet: &Lone) -> bool {
    [lone::READY, lone::AGAIN].contains(&packet.state)
}

/// Whether a sender's next new segment is behind the number recorded, where Flow
/// Control is used: 128 and more past the start lets none be sent (document 02, A5).
fn is_allowed(record: &Channel) -> bool {
    let window = &record.window;
    let past = record.pulse.flow.recorded.wrapping_sub(window.start);
    record.limits.flow == 0 || past < 128 && window.flight <= past.into()
}

/// Whether a sender has new Data within its window.
fn has_new_data(record: &Channel) -> bool {
    let Channel { limits, window, .. } = record;
    window.flight < window.ahead.min(limits.window)
}

/// Whether a sender has new Data within its window that the number recorded does not
/// allow.
pub fn is_held_back(record: &Channel) -> bool {
    let sends = record.addresses.direction == direction::SENDS;
    let is_open = record.phase.state == state::OPEN;
    sends && is_open && has_new_data(record) && !is_allowed(record)
}

/// Whether a record has a packet of this rank ready: of a receiver its Heartbeat and
/// its Flow Control packet alone count.
pub fn is_ready(record: &Channel, rank: usize) -> bool {
    let Channel {
        limits,
        phase,
        pulse,
        window,
        ..
    } = record;
    let sends = record.addresses.direction == direction::SENDS;
    if (rank, phase.state) == (0, state::OPEN) {
        return is_waiting(&pulse.beat) || !sends && is_waiting(&pulse.flow.packet);
    }
    if !sends {
        return false;
    }
    let waits_again = |ahead| {
        let place = (window.place + ahead) % limits.slots;
        record.acked[place] == 0 && record.timers.left[place] == 0
    };
    match (rank, phase.state) {
        (0, state::ENABLED | state::CLOSING) => is_waiting(&phase.control),
        (1, state::OPEN) => (0..window.flight).any(waits_again),
        (2, state::OPEN) => has_new_data(record) && is_allowed(record),
        _ => false,
    }
}

/// The packet that these lines choose, if any: of the first rank, and there of
/// the first who has one ready.
pub fn next(lines: &[u8], table: &[Channel]) -> Option<Next> {
    RANKS.into_iter().find_map(|rank| {
        let mut line = standing(lines, rank).iter().copied().map(usize::from);
        let index = line.find(|&index| is_ready(&table[index], rank))?;
        Some(Next { rank, index })
    })
}

/// The lines after a call that left this table: those whom it served join, leave
/// or keep their places. The packet that it handed out is told, if it did.
pub fn after(
    call: &Call,
    said: Said,
    before: &[u8],
    table: &[Channel],
    out: Option<Next>,
) -> Vec<u8> {
    let served = match (call, said.number) {
        (Call::Settings(_), 0) => return vec![0; LINES],
        (Call::Tick, 0 | 9) => 0..table.len(),
        (Call::WouldTransfer(..), _) => 0..0,
        (_, 0 | 9 | 15) => said.index..said.index + 1,
        _ => 0..0,
    };
    let line = |rank| {
        let mut line = standing(before, rank).to_vec();
        line.retain(|&one| {
            let index = one.into();
            let keeps = !served.contains(&index) || is_ready(&table[index], rank);
            keeps && out != Some(Next { rank, index })
        });
        let joins =
            |index: &usize| is_ready(&table[*index], rank) && !line.contains(&(*index as u8));
        let joined: Vec<u8> = served.clone().filter(joins).map(|one| one as u8).collect();
        [line, joined].concat()
    };
    octets_of([line(0), line(1), line(2)])
}

/// Sound lines of another kind: some that stand in another order, some in which
/// nobody stands, some in which anybody does.
pub fn other_lines(lines: &[u8], records: usize, noise: &mut Noise) -> Vec<u8> {
    let kind = noise.below(3);
    octets_of([0, 1, 2].map(|rank| match kind {
        0 => standing(lines, rank).iter().rev().copied().collect(),
        1 if noise.one_in(2) => Vec::new(),
        1 => standing(lines, rank).to_vec(),
        _ => {
            let mut any: Vec<u8> = (0..records as u8).collect();
            for place in 1..records {
                any.swap(place, noise.below(place + 1));
            }
            any.truncate(noise.below(records + 1));
            any
        }
    }))
}
