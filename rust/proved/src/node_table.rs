//! The node as a type: settings make it over what is lent, and hold that for as
//! long as it lives, so that nothing else can touch a record between two calls.

use crate::answer::{Answer, Outcome, Refusal};
use crate::c::Said;
use crate::calls;
use crate::record::{Channel, Node, Settings};
use crate::words::{Reason, State};

/// A node over its lent table, memory, lengths and lines.
///
/// Every call keeps the standing condition of each record and that of the lines
/// (docs/CONDITION.md), and settings establish both; as only the calls here can change a record or the lines,
/// none of them ever answers [`Refusal::Settings`].
#[derive(Debug)]
pub struct NodeTable<'a> {
    node: Node,
    table: &'a mut [Channel],
    memory: &'a mut [u8],
    lengths: &'a mut [u16],
    lines: &'a mut [u8],
}

/// The octets of memory, and the lengths, that a table with these settings needs.
/// Settings that no node may have are refused later, so a sum that no number
/// holds may be wrong.
pub fn storage(settings: &[Settings]) -> (usize, usize) {
    let of_all = settings.iter().map(|one| one.limits);
    of_all.fold((0, 0), |(octets, lengths): (usize, usize), limits| {
        let own = limits.slots.saturating_mul(limits.payload);
        let lengths = lengths.saturating_add(limits.slots);
        (octets.saturating_add(own), lengths)
    })
}

impl<'a> NodeTable<'a> {
    /// A node whose channels are all CLOSED and empty. The memory and the lengths
    /// have the sizes that [`storage`] tells, and the lines are
    /// [`LINES`](crate::record::LINES) octets; what they hold does not matter.
    pub fn settings(
        node: Node,
        table: &'a mut [Channel],
        memory: &'a mut [u8],
        lengths: &'a mut [u16],
        lines: &'a mut [u8],
        settings: &[Settings],
    ) -> Result<Self, Refusal> {
        let said = calls::settings(table, memory, lengths, lines, settings);
        match Answer::of(said, table.len()).outcome {
            Outcome::Refused(refusal) => Err(refusal),
            _ => Ok(NodeTable {
                node,
                table,
                memory,
                lengths,
                lines,
            }),
        }
    }

    /// The records, to look at.
    pub fn records(&self) -> &[Channel] {
        self.table
    }

    /// The state of a channel, if there is one of this index.
    pub fn state(&self, index: usize) -> Option<State> {
        self.table
            .get(index)
            .and_then(|record| State::of(record.phase.state))
    }

    /// Why a channel went inactive, if there is one of this index and it did.
    pub fn reason(&self, index: usize) -> Option<Reason> {
        self.table
            .get(index)
            .and_then(|record| Reason::of(record.phase.reason))
    }

    /// An Open directive.
    pub fn open(&mut self, index: usize) -> Answer {
        let said = calls::open(self.table, self.memory, self.lengths, self.lines, index);
        self.answer(said)
    }

    /// A Close directive.
    pub fn close(&mut self, index: usize) -> Answer {
        let said = calls::close(self.table, self.memory, self.lengths, self.lines, index);
        self.answer(said)
    }

    /// A unit for a sender to hold and send.
    pub fn transfer(&mut self, index: usize, unit: &[u8]) -> Answer {
        let said = calls::transfer(
            self.table,
            self.memory,
            self.lengths,
            self.lines,
            index,
            unit,
        );
        self.answer(said)
    }

    /// What a transfer of so many octets would answer now. Nothing changes,
    /// whatever the answer.
    pub fn would_transfer(&mut self, index: usize, count: usize) -> Answer {
        let (table, memory) = (&mut *self.table, &mut *self.memory);
        let said = calls::would_transfer(table, memory, self.lengths, self.lines, index, count);
        self.answer(said)
    }

    /// The oldest complete unit of a receiver, at the front of `out`.
    pub fn take(&mut self, index: usize, out: &mut [u8]) -> Answer {
        let said = calls::take(
            self.table,
            self.memory,
            self.lengths,
            self.lines,
            index,
            out,
        );
        self.answer(said)
    }

    /// The oldest unconfirmed unit of a sender in CLOSED, at the front of `out`.
    pub fn reclaim(&mut self, index: usize, out: &mut [u8]) -> Answer {
        let said = calls::reclaim(
            self.table,
            self.memory,
            self.lengths,
            self.lines,
            index,
            out,
        );
        self.answer(said)
    }

    /// The packet that goes out next, at the front of `out`. A node that only
    /// receives is to be asked, too: its Heartbeats and Flow Control packets go out
    /// so.
    pub fn next_packet(&mut self, out: &mut [u8]) -> Answer {
        let said = calls::next_packet(
            self.table,
            self.memory,
            self.lengths,
            self.lines,
            self.node,
            out,
        );
        self.answer(said)
    }

    /// A packet that came in; its reply, if it has one, at the front of `reply`,
    /// which has at least 12 octets, N more where the channel's own prefix has N, and
    /// one more for the Ack of Data or Control where Flow Control is used.
    pub fn arrival(&mut self, packet: &[u8], reply: &mut [u8]) -> Answer {
        let (table, memory) = (&mut *self.table, &mut *self.memory);
        let said = calls::arrival(
            table,
            memory,
            self.lengths,
            self.lines,
            self.node,
            packet,
            reply,
        );
        self.answer(said)
    }

    /// One tick of every timer and interval, of senders and receivers.
    pub fn tick(&mut self) -> Answer {
        let said = calls::tick(self.table, self.memory, self.lengths, self.lines);
        self.answer(said)
    }

    fn answer(&self, said: Said) -> Answer {
        Answer::of(said, self.table.len())
    }
}
