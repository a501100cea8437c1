//! The order in which channels are served, as a bystander sees it (document 02,
//! A4): who stands in a line has a packet of its rank ready, and the other way
//! round; and "while a channel stands in a line, at most fifteen packets of that
//! rank are handed out before its own".

use proved::Said;

use crate::call::Call;
use crate::lines::{is_ready, next, stands, Next, RANKS};
use crate::tally::Tally;
use crate::twin::Twin;

mod cases;

pub use cases::ORDERS;

/// By rank and index: how many packets of the rank were handed out since the
/// channel waits in that line.
pub type Passed = [[usize; 16]; 3];

impl Twin {
    /// Lines of the caller's making are lent to both, and they go on from there.
    /// Whoever waits begins anew.
    pub fn write_lines(&mut self, lines: Vec<u8>) {
        self.peer.lines_mut().clone_from(&lines);
        self.lines = lines;
        self.written = true;
        self.passed = Passed::default();
    }

    /// After a call that both answered alike: what the order must be.
    pub(crate) fn check_order(&mut self, call: &Call, said: Said, tally: &mut Tally) {
        if self.settings.is_empty() || said.number == 13 {
            return;
        }
        if matches!(
            (call, said.number),
            (Call::Settings(_), 0) | (Call::Tick, _)
        ) {
            self.written = false;
        }
        if !self.written {
            self.assert_standing();
        }
        let chosen = match call {
            Call::NextPacket => next(&self.lines_before, &self.before),
            _ => None,
        };
        self.follow(chosen.filter(|_| said.number == 0), tally);
        match (call, chosen) {
            // What the lines held before does not count.
            (Call::Settings(_), _) => {}
            (Call::NextPacket, Some(chosen)) => self.note_next(chosen, said, tally),
            (Call::NextPacket, None) => self.note_nothing(said, tally),
            _ => self.note_moves(call, said, tally),
        }
    }

    /// Who stands is ready, and who is ready stands: so it is until the caller
    /// writes into the lines, and again after a tick or settings.
    fn assert_standing(&self) {
        for rank in RANKS {
            for (index, record) in self.table.iter().enumerate() {
                let stands = stands(&self.lines, rank, index);
                assert_eq!(stands, is_ready(record, rank), "{index} in line {rank}");
            }
        }
    }

    /// Counts what is handed out before the packet of one who waits in a line.
    fn follow(&mut self, out: Option<Next>, tally: &mut Tally) {
        for rank in RANKS {
            let passes = out.is_some_and(|next| next.rank == rank);
            for (index, record) in self.table.iter().enumerate() {
                let passed = &mut self.passed[rank][index];
                let served = out == Some(Next { rank, index });
                if !served && stands(&self.lines, rank, index) && is_ready(record, rank) {
                    *passed += usize::from(passes);
                } else {
                    *passed = 0;
                }
                assert!(*passed <= 15, "{index} in line {rank} has waited too long");
                tally.waited = tally.waited.max(*passed);
            }
        }
    }
}
