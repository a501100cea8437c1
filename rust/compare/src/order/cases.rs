//! Which cases of the lines a call was, for the table that is printed.

use peer::packet::kind;
use peer::settings::Direction;
use proved::Said;

use crate::call::Call;
use crate::lines::{is_ready, standing, stands, Next, RANKS};
use crate::tally::Tally;
use crate::twin::Twin;

/// Every case of the lines that a run must have had.
pub const ORDERS: [&str; 14] = [
    LOWER,
    BACK,
    SMALL,
    TOGETHER,
    ACKED,
    ANSWERED,
    CLOSED,
    INACTIVE,
    RECEIVES,
    PASSED,
    UNSERVED,
    NEW_FIRST,
    RECEIVER,
    FLOW_ANSWERED,
];

const LOWER: &str = "lines: a lower index is ready, and stands behind the one served";
const BACK: &str = "lines: the one served goes to the tail, behind others";
const SMALL: &str = "lines: 11 at the head, and others stand behind it";
const TOGETHER: &str = "lines: several join in one tick";
const ACKED: &str = "lines: one leaves by a Data Ack";
const ANSWERED: &str = "lines: one leaves by a Heartbeat Ack";
const FLOW_ANSWERED: &str = "lines: one leaves by the Ack of a Flow Control packet";
const CLOSED: &str = "lines: one leaves by a Close directive";
const INACTIVE: &str = "lines: one leaves by inactivity";
const RECEIVES: &str = "lines: a receiver is served, and a sender stands behind it";
const PASSED: &str = "written lines: one who is not ready is passed over";
const UNSERVED: &str = "written lines: one who is ready stands nowhere, and 12";
const NEW_FIRST: &str = "written lines: new Data before the channel's resent Data";
const RECEIVER: &str = "written lines: a receiver leaves a line of Data by a call of its own";

fn is_of(kind: u8, packet: &[u8]) -> bool {
    packet[2] & 0b111 == kind
}

impl Twin {
    /// A packet of the channel that the lines chose, with 0 or 11.
    pub(super) fn note_next(&self, chosen: Next, said: Said, tally: &mut Tally) {
        let Next { rank, index } = chosen;
        assert_eq!(said.index, index, "another than the lines choose");
        let before = standing(&self.lines_before, rank);
        let after = standing(&self.lines, rank);
        let mut others = before.iter().copied().map(usize::from);
        let lower = others.any(|one| one < index && is_ready(&self.before[one], rank));
        let sends = |one: &u8| self.direction((*one).into()) == Direction::Sending;
        let receives = self.direction(index) == Direction::Receiving;
        let small = said.number == 11;
        let back = !small && after.len() > 1 && stands(&self.lines, rank, index);
        let cases = [
            (lower, LOWER),
            (back, BACK),
            (small && before.len() > 1, SMALL),
            (receives && after.iter().any(sends), RECEIVES),
            (usize::from(before[0]) != index, PASSED),
            (rank == 2 && is_ready(&self.before[index], 1), NEW_FIRST),
        ];
        for (_, case) in cases.into_iter().filter(|(is_so, _)| *is_so) {
            tally.case(case);
        }
    }

    /// Nobody who stands in a line has a packet ready: perhaps another has.
    pub(super) fn note_nothing(&self, said: Said, tally: &mut Tally) {
        assert_eq!(said.number, 12, "nobody waits in a line");
        let any_ready = |rank| self.table.iter().any(|record| is_ready(record, rank));
        if RANKS.into_iter().any(any_ready) {
            tally.case(UNSERVED);
        }
    }

    /// Who joins and who leaves by any other call.
    pub(super) fn note_moves(&self, call: &Call, said: Said, tally: &mut Tally) {
        for rank in RANKS {
            let before = standing(&self.lines_before, rank);
            let after = standing(&self.lines, rank);
            let joined = after.iter().filter(|index| !before.contains(index));
            let mut left = before.iter().filter(|index| !after.contains(index));
            let left = left.next().map(|&index| self.direction(index.into()));
            match (call, said.number, left) {
                (Call::Tick, 0, _) if joined.count() > 1 => tally.case(TOGETHER),
                (Call::Tick, 9, Some(_)) => tally.case(INACTIVE),
                (Call::Close(_), 0, Some(_)) => tally.case(CLOSED),
                (Call::Arrival(_) | Call::Take(_), _, Some(Direction::Receiving)) if rank > 0 => {
                    tally.case(RECEIVER);
                }
                (Call::Arrival(_), 0, Some(_)) if rank == 1 => tally.case(ACKED),
                (Call::Arrival(packet), 0, Some(_)) if is_of(kind::HEARTBEAT_ACK, packet) => {
                    tally.case(ANSWERED);
                }
                (Call::Arrival(packet), 0, Some(_)) if is_of(kind::FLOW_CONTROL, packet) => {
                    tally.case(FLOW_ANSWERED);
                }
                _ => {}
            }
        }
    }
}
