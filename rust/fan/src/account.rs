//! Where each event is, by what was seen from outside alone: what publication
//! answered, how many units the host was told are confirmed, what it reclaimed,
//! and what the station took or still has.

use proved::{Outcome, Refusal};
use std::fmt;

#[cfg(test)]
mod tests;

/// What was seen in a run, each list in the order in which it came.
#[derive(Default)]
pub struct Seen {
    /// Each event, and what the host's node answered to it.
    pub published: Vec<(String, Outcome)>,
    /// Units that the host was told are confirmed.
    pub confirmed: usize,
    /// Units that the host reclaimed.
    pub reclaimed: Vec<Vec<u8>>,
    /// Units that the station took.
    pub taken: Vec<Vec<u8>>,
    /// Units that the station still has to take.
    pub waiting: Vec<Vec<u8>>,
}

/// What the station has of an event.
#[derive(Clone, Copy, Debug, PartialEq, Eq)]
pub enum AtStation {
    Taken,
    Waiting,
    Nothing,
}

/// Where an event is.
#[derive(Clone, Copy, Debug, PartialEq, Eq)]
pub enum Fate {
    Confirmed(AtStation),
    Reclaimed(AtStation),
    Refused(Refusal),
    Unaccounted,
}

impl Seen {
    /// The events that the host's node accepted.
    pub fn accepted(&self) -> Vec<&str> {
        let done = self.published.iter().filter(|(_, at)| *at == Outcome::DONE);
        done.map(|(event, _)| event.as_str()).collect()
    }

    /// Where each event is.
    pub fn fates(&self) -> Vec<(&str, Fate)> {
        let mut place = 0;
        let mut fates = Vec::new();
        for (event, outcome) in &self.published {
            let fate = match outcome {
                Outcome::Refused(refusal) => Fate::Refused(*refusal),
                _ => {
                    place += 1;
                    self.fate(place - 1)
                }
            };
            fates.push((event.as_str(), fate));
        }
        fates
    }

    /// Of the accepted event of this place.
    fn fate(&self, place: usize) -> Fate {
        let at_station = match place {
            _ if place < self.taken.len() => AtStation::Taken,
            _ if place < self.taken.len() + self.waiting.len() => AtStation::Waiting,
            _ => AtStation::Nothing,
        };
        match place {
            _ if place < self.confirmed => Fate::Confirmed(at_station),
            _ if place < self.confirmed + self.reclaimed.len() => Fate::Reclaimed(at_station),
            _ => Fate::Unaccounted,
        }
    }

    /// Demand 3's account, or what is wrong with it.
    pub fn check(&self) -> Result<(), &'static str> {
        let accepted: Vec<&[u8]> = self.accepted().into_iter().map(str::as_bytes).collect();
        let at_station = [&self.taken[..], &self.waiting[..]].concat();
        if !accepted.starts_with(&by_octets(&at_station)) {
            return Err("what the station has is not the first of what was accepted, in order");
        }
        if self.confirmed > at_station.len() {
            return Err("a unit is confirmed that the station never had");
        }
        if accepted[self.confirmed..] != by_octets(&self.reclaimed) {
            return Err("what was accepted is not the confirmed and then the reclaimed, in order");
        }
        Ok(())
    }
}

fn by_octets(units: &[Vec<u8>]) -> Vec<&[u8]> {
    units.iter().map(Vec::as_slice).collect()
}

impl fmt::Display for Fate {
    fn fmt(&self, to: &mut fmt::Formatter<'_>) -> fmt::Result {
        use AtStation::{Nothing, Taken, Waiting};
        to.write_str(match self {
            Fate::Confirmed(Taken) => "confirmed; the station took it",
            Fate::Confirmed(Waiting) => "confirmed; it waits at the station to be taken",
            Fate::Confirmed(Nothing) => "confirmed, but the station never had it",
            Fate::Reclaimed(Taken) => "reclaimed; the station took it, and could not say so",
            Fate::Reclaimed(Waiting) => {
                "reclaimed; it waits at the station, which could not say so"
            }
            Fate::Reclaimed(Nothing) => "reclaimed; it did not come to the station whole",
            Fate::Refused(refusal) => {
                let number = refusal.number();
                return write!(to, "refused at publication: {number}, {refusal}");
            }
            Fate::Unaccounted => "accepted, and nobody knows",
        })
    }
}
