//! The node: a table of channel records over lent storage, and all its calls
//! (document 01, A channel's record and memory, Answer numbers; 000, 4.6).

use crate::answer::{refuse_if, Answer, Refusal};
use crate::channel::Channel;
use crate::lines::{Lines, LINE_OCTETS};
use crate::settings::{storage, test_table, Direction, NodeSettings, Settings};
use crate::sight::Sight;
use crate::slots::Slots;
use crate::state::{Reason, State};

mod arrival;
mod moving;
mod next_packet;
#[cfg(test)]
mod tests;

/// A node with its storage. Before its settings are accepted no record has its
/// condition, and every other call answers 13.
#[derive(Clone, Debug, PartialEq, Eq)]
pub struct Node {
    node: NodeSettings,
    /// How many records the table has.
    records: usize,
    /// The records in table order; none before settings are accepted.
    channels: Vec<Channel>,
    memory: Vec<u8>,
    lengths: Vec<u16>,
    lines: Vec<u8>,
}

impl Node {
    /// A node of so many records over this storage, whose octets and lengths
    /// stay as they are until segments are filed. [`storage`] tells how much
    /// a table needs. The lines are [`LINE_OCTETS`], and stay as they are until
    /// settings are accepted.
    pub fn new(
        node: NodeSettings,
        records: usize,
        memory: Vec<u8>,
        lengths: Vec<u16>,
        lines: Vec<u8>,
    ) -> Node {
        Node {
            node,
            records,
            channels: Vec::new(),
            memory,
            lengths,
            lines,
        }
    }

    /// Settings for the whole table at once: "that call reads no old record,
    /// makes every channel CLOSED and empty, and alone may drop held units".
    /// Nobody stands in a line then. Refused ones leave everything as it was.
    pub fn settings(&mut self, table: &[Settings]) -> Answer {
        self.set(table).map(|()| Answer::DONE).into()
    }

    /// An Open directive.
    pub fn open(&mut self, index: usize) -> Answer {
        self.serve(index, |channel, _| channel.open().map(|()| Answer::DONE))
    }

    /// A Close directive; a receive end takes none (000, 4.5.2).
    pub fn close(&mut self, index: usize) -> Answer {
        self.serve(index, |channel, _| {
            let end = channel.sending()?;
            end.close().map(|()| Answer::DONE)
        })
    }

    /// A unit to be sent.
    pub fn transfer(&mut self, index: usize, unit: &[u8]) -> Answer {
        self.serve(index, |channel, slots| {
            let end = channel.sending()?;
            end.transfer(unit, slots).map(|()| Answer::DONE)
        })
    }

    /// What a transfer of so many octets would answer now. Asking changes
    /// nothing.
    pub fn would_transfer(&self, index: usize, octets: usize) -> Answer {
        match self.test_index(index) {
            Ok(_) => {
                let tested = self.channels[index].test_transfer(octets);
                Answer::from(tested.map(|()| Answer::DONE)).at(index)
            }
            Err(refusal) => refusal.into(),
        }
    }

    /// Takes the oldest complete unit of a receive end.
    pub fn take(&mut self, index: usize, out: &mut [u8]) -> Answer {
        self.serve(index, |channel, _| {
            let end = channel.receiving()?;
            end.take(out).map(Answer::written)
        })
    }

    /// Reclaims the oldest unconfirmed unit of a transmit end in CLOSED.
    pub fn reclaim(&mut self, index: usize, out: &mut [u8]) -> Answer {
        self.serve(index, |channel, _| {
            let end = channel.sending()?;
            end.reclaim(out).map(Answer::written)
        })
    }

    /// The units that a transmit end in CLOSED holds go to the spare channel that it
    /// names, "oldest first, as far as the spare accepts them; the rest stay held, in
    /// order" (document 02, A13). With 0 comes the number moved, as the length.
    pub fn move_units(&mut self, index: usize) -> Answer {
        self.move_from(index).into()
    }

    /// A tick for all channels: "answers 9 if any channel went inactive in it,
    /// else 0".
    pub fn tick(&mut self) -> Answer {
        self.tick_all().into()
    }

    /// A packet from the link; an ack for it is written into `reply`.
    pub fn arrival(&mut self, packet: &[u8], reply: &mut [u8]) -> Answer {
        self.arrive(packet, reply).into()
    }

    /// The next packet for the link.
    pub fn next_packet(&mut self, out: &mut [u8]) -> Answer {
        self.hand_out(out).into()
    }

    /// The state of a channel, if there is one of this index.
    pub fn state(&self, index: usize) -> Option<State> {
        self.channels.get(index).map(Channel::state)
    }

    /// Why a channel went inactive, if there is one of this index.
    pub fn reason(&self, index: usize) -> Option<Reason> {
        self.channels.get(index).map(Channel::reason)
    }

    /// The direction of a channel, if there is one of this index.
    pub fn direction(&self, index: usize) -> Option<Direction> {
        let channel = self.channels.get(index)?;
        Some(channel.settings().direction)
    }

    /// What else can be seen of a channel, if there is one of this index.
    pub fn sight(&self, index: usize) -> Option<Sight> {
        self.channels.get(index).map(Channel::sight)
    }

    /// The lent memory: "A node's memories lie one after another in table
    /// order."
    pub fn memory(&self) -> &[u8] {
        &self.memory
    }

    /// The lent lengths, one for each slot, in table order.
    pub fn lengths(&self) -> &[u16] {
        &self.lengths
    }

    /// The lent lines: for each rank how many channels stand in it, their
    /// indexes from the head on, and zeros.
    pub fn lines(&self) -> &[u8] {
        &self.lines
    }

    /// The lines, for the caller who lends them to write into.
    pub fn lines_mut(&mut self) -> &mut Vec<u8> {
        &mut self.lines
    }

    fn set(&mut self, table: &[Settings]) -> Result<(), Refusal> {
        test_table(table)?;
        let lent = (self.memory.len(), self.lengths.len());
        let fits = table.len() == self.records && storage(table) == lent;
        refuse_if(!fits || self.lines.len() != LINE_OCTETS, Refusal::Settings)?;
        self.channels = table.iter().copied().map(Channel::new).collect();
        Lines::default().write(&mut self.lines);
        Ok(())
    }

    fn tick_all(&mut self) -> Result<Answer, Refusal> {
        let lines = self.test_lent()?;
        let mut lowest = None;
        for (index, channel) in self.channels.iter_mut().enumerate() {
            if channel.tick() {
                lowest = lowest.or(Some(index));
            }
        }
        self.relist(lines, 0..self.channels.len());
        Ok(lowest.map_or(Answer::DONE, |index| Answer::INACTIVE.at(index)))
    }

    /// Test 13 of every call but settings, "before any other test". Gives the
    /// lines.
    fn test_lent(&self) -> Result<Lines, Refusal> {
        refuse_if(self.channels.is_empty(), Refusal::Settings)?;
        Lines::read(&self.lines, self.channels.len()).ok_or(Refusal::Settings)
    }

    /// The tests 13 and 14 of a request. Gives the lines.
    fn test_index(&self, index: usize) -> Result<Lines, Refusal> {
        let lines = self.test_lent()?;
        refuse_if(index >= self.channels.len(), Refusal::NoChannel)?;
        Ok(lines)
    }

    /// A call that one channel serves. What its step answers, a refusal too,
    /// comes with its index; what the tests 13 and 14 answer comes with none.
    /// "An arrival, request or tick may now also put its own channel into a
    /// line or take it out" (document 02, A4); a refusal changes nothing.
    fn serve(
        &mut self,
        index: usize,
        step: impl FnOnce(&mut Channel, &mut Slots) -> Result<Answer, Refusal>,
    ) -> Answer {
        let served = self.test_index(index).map(|lines| {
            let (channel, mut slots) = self.part(index);
            let stepped = step(channel, &mut slots);
            if stepped.is_ok() {
                self.relist(lines, [index]);
            }
            Answer::from(stepped).at(index)
        });
        served.into()
    }

    /// Where these channels stand by what they have ready now. "Two that join in
    /// the same call stand by index."
    fn relist(&mut self, mut lines: Lines, indexes: impl IntoIterator<Item = usize>) {
        for index in indexes {
            let channel = &self.channels[index];
            lines.relist(index, |rank| channel.is_ready(rank));
        }
        lines.write(&mut self.lines);
    }

    /// The channel of this index and its part of the storage.
    fn part(&mut self, index: usize) -> (&mut Channel, Slots<'_>) {
        let (before, others) = self.channels.split_at_mut(index);
        let before: Vec<Settings> = before.iter().map(|one| *one.settings()).collect();
        let (octets_from, lengths_from) = storage(&before);
        let channel = &mut others[0];
        let own = *channel.settings();
        let octets = &mut self.memory[octets_from..][..own.octets()];
        let lengths = &mut self.lengths[lengths_from..][..own.slots as usize];
        (channel, Slots::new(octets, lengths))
    }
}
