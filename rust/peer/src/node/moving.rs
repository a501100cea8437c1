//! Held units go to a spare channel (document 02, A13): "A move is a request of its own
//! that changes both channels".

use crate::answer::{refuse_if, Answer, Refusal};
use crate::channel::Channel;
use crate::state::State;

use super::Node;

impl Node {
    /// The tests 13 and 14, and then the move, whose answer names the first channel.
    /// Both are its own channels, so both stand in the lines by what they have ready
    /// now.
    pub(super) fn move_from(&mut self, first: usize) -> Result<Answer, Refusal> {
        let lines = self.test_index(first)?;
        let spare = self.spare_of(first)?;
        let moved = self.move_held(first, spare);
        if moved.is_ok() {
            self.relist(lines, [first, spare]);
        }
        Ok(Answer::from(moved.map(Answer::moved)).at(first))
    }

    /// The spare that a channel names, by its index: 14 if it names none.
    fn spare_of(&self, first: usize) -> Result<usize, Refusal> {
        let spare = self.channels[first].settings().spare as usize;
        let index = spare.checked_sub(1);
        let named = index.filter(|&index| index < self.channels.len());
        named.ok_or(Refusal::NoChannel)
    }

    /// Moves units, "oldest first, as far as the spare accepts them", and gives how
    /// many. "Room is tested before the unit's old slots are freed". If none was
    /// moved, either none is held (12), or "not even the oldest fits".
    fn move_held(&mut self, first: usize, spare: usize) -> Result<usize, Refusal> {
        self.test_routes(first, spare)?;
        let mut moved = 0;
        while let Some(unit) = self.channels[first].sending()?.oldest_again() {
            let (channel, mut slots) = self.part(spare);
            match channel.sending()?.file(&unit, &mut slots) {
                Ok(()) => self.channels[first].sending()?.free_oldest(),
                Err(refusal) if moved == 0 => return Err(refusal),
                Err(_) => break,
            }
            moved += 1;
        }
        refuse_if(moved == 0, Refusal::Nothing)?;
        Ok(moved)
    }

    /// "5 unless the first is a CLOSED sender and the spare an OPEN one".
    fn test_routes(&self, first: usize, spare: usize) -> Result<(), Refusal> {
        let sends_in = |index: usize, state: State| match &self.channels[index] {
            Channel::Sending(end) => end.state() == state,
            Channel::Receiving(_) => false,
        };
        let fit = sends_in(first, State::Closed) && sends_in(spare, State::Open);
        refuse_if(!fit, Refusal::State)
    }
}
