//! The lines of channels that wait for their packets to be handed out, one for
//! each rank (document 02, A4; 001, 3.1.3: "in the order in which they are
//! queued").
//!
//! The caller lends them as octets, which say who stands where. Here it is said
//! of each channel how many stand before it.

use crate::offer::Rank;
use crate::settings::MOST_RECORDS;

#[cfg(test)]
mod tests;

/// The octets of a line: how many stand in it, and a place for each channel.
const LINE: usize = 1 + MOST_RECORDS;

/// The octets of all lines.
pub const LINE_OCTETS: usize = Rank::ALL.len() * LINE;

/// A line for each rank.
#[derive(Clone, Debug, Default, PartialEq, Eq)]
pub(crate) struct Lines([Line; Rank::ALL.len()]);

impl Lines {
    /// The lines that lie in these octets; none if no channels of a table of so
    /// many records can stand so.
    pub(crate) fn read(octets: &[u8], records: usize) -> Option<Lines> {
        if octets.len() != LINE_OCTETS {
            return None;
        }
        let mut lines = Lines::default();
        for (line, octets) in lines.0.iter_mut().zip(octets.chunks(LINE)) {
            *line = Line::read(octets, records)?;
        }
        Some(lines)
    }

    /// Writes them into these octets.
    pub(crate) fn write(&self, octets: &mut [u8]) {
        for (line, octets) in self.0.iter().zip(octets.chunks_mut(LINE)) {
            line.write(octets);
        }
    }

    /// Whose packet is handed out next, and of which rank: Control before resent
    /// Data before new Data, and a channel "is served from the head". Who stands
    /// there and has nothing ready is passed over.
    pub(crate) fn next(&self, is_ready: impl Fn(usize, Rank) -> bool) -> Option<(usize, Rank)> {
        Rank::ALL.into_iter().find_map(|rank| {
            let index = self.0[rank as usize].first(|index| is_ready(index, rank))?;
            Some((index, rank))
        })
    }

    /// A channel leaves the line of a rank, wherever it stands.
    pub(crate) fn leave(&mut self, index: usize, rank: Rank) {
        self.0[rank as usize].leave(index);
    }

    /// A channel after its call: it "joins the line of a rank when it first has
    /// a ready packet of that rank", keeps its place while it has one, and
    /// leaves when it has none. So it is put right, too, where the caller wrote
    /// into the lines.
    pub(crate) fn relist(&mut self, index: usize, is_ready: impl Fn(Rank) -> bool) {
        for rank in Rank::ALL {
            match is_ready(rank) {
                true => self.0[rank as usize].join(index),
                false => self.0[rank as usize].leave(index),
            }
        }
    }
}

/// One line: for each index how many stand before that channel, if it stands
/// there.
#[derive(Clone, Copy, Debug, Default, PartialEq, Eq)]
struct Line([Option<u8>; MOST_RECORDS]);

impl Line {
    /// A count, as many indexes of the table, none of them twice, and nothing
    /// behind them.
    fn read(octets: &[u8], records: usize) -> Option<Line> {
        let (&count, places) = octets.split_first()?;
        let (standing, free) = places.split_at_checked(count.into())?;
        let mut line = Line::default();
        let table = line.0.get_mut(..records)?;
        for (place, &index) in (0..).zip(standing) {
            let twice = table.get_mut(usize::from(index))?.replace(place);
            if twice.is_some() {
                return None;
            }
        }
        free.iter().all(|&octet| octet == 0).then_some(line)
    }

    fn write(&self, octets: &mut [u8]) {
        octets.fill(0);
        octets[0] = self.count();
        for (index, place) in (0..).zip(self.0) {
            if let Some(place) = place {
                octets[1 + usize::from(place)] = index;
            }
        }
    }

    fn count(&self) -> u8 {
        self.0.iter().flatten().count() as u8
    }

    /// The first from the head on of those who are ready.
    fn first(&self, is_ready: impl Fn(usize) -> bool) -> Option<usize> {
        let standing = self.0.iter().enumerate();
        let standing = standing.filter_map(|(index, place)| Some((place.as_ref()?, index)));
        let ready = standing.filter(|&(_, index)| is_ready(index));
        ready.min().map(|(_, index)| index)
    }

    /// At the tail, unless it stands there already.
    fn join(&mut self, index: usize) {
        if self.0[index].is_none() {
            self.0[index] = Some(self.count());
        }
    }

    /// Those behind it move up.
    fn leave(&mut self, index: usize) {
        let Some(left) = self.0[index].take() else {
            return;
        };
        for place in self.0.iter_mut().flatten() {
            *place -= u8::from(*place > left);
        }
    }
}
