//! The window of a transmit end in OPEN (document 01, Sending; 000, 4.4.4.3).

use std::collections::BTreeMap;

use crate::answer::Refusal;
use crate::course::Course;
use crate::offer::Rank;
use crate::segment::sequence_number;

use super::recorded::Recorded;

/// The segments of an opening, by number: those that wait for their ack, and
/// those that are still to be handed out.
#[derive(Clone, Debug, PartialEq, Eq)]
pub(super) struct Window {
    /// Those that were handed out and are not acknowledged.
    waiting: BTreeMap<u64, Course>,
    /// The next to be handed out for the first time.
    new: u64,
    /// The next to be accepted.
    next: u64,
    /// How far the other end lets it send.
    recorded: Recorded,
}

impl Window {
    /// "Segments are numbered from 1 at each opening". The Ack of the Open states
    /// this number, where Flow Control is used.
    pub(super) fn new(stated: Option<u8>) -> Window {
        Window {
            waiting: BTreeMap::new(),
            new: 1,
            next: 1,
            recorded: Recorded::new(stated),
        }
    }

    pub(super) fn recorded(&self) -> Recorded {
        self.recorded
    }

    /// The window start: the lowest number not acknowledged, as "the start
    /// moves past every leading acknowledged number".
    pub(super) fn start(&self) -> u64 {
        self.waiting
            .first_key_value()
            .map_or(self.new, |(&number, _)| number)
    }

    /// The course of a segment that is not acknowledged.
    pub(super) fn course(&self, segment: u64) -> Option<&Course> {
        match segment < self.new {
            true => self.waiting.get(&segment),
            false => Some(&Course::NEW),
        }
    }

    /// Makes so many new segments ready and gives the first one's number.
    pub(super) fn add(&mut self, count: usize) -> u64 {
        let first = self.next;
        self.next += count as u64;
        first
    }

    /// "A Data Ack for a number sent, in the window and not yet acknowledged,
    /// is recorded [..]. Any other ack is ignored". What waits was sent in the
    /// window, at most 128 numbers in a row: no two are equal modulo 256.
    pub(super) fn acknowledge(&mut self, number: u8) -> Result<(), Refusal> {
        let mut waiting = self.waiting.keys().copied();
        let meant = waiting.find(|&segment| sequence_number(segment) == number);
        let segment = meant.ok_or(Refusal::Ignored)?;
        self.waiting.remove(&segment);
        Ok(())
    }

    /// The other end states this number, where Flow Control is used. The highest
    /// number sent is the one before the next new one, acknowledged or not.
    pub(super) fn record(&mut self, stated: Option<u8>, window: u32) {
        let highest = sequence_number(self.new - 1);
        self.recorded.record(stated, highest, window);
    }

    /// All timers fall; true if one ended with its retries used up.
    pub(super) fn tick(&mut self, retries: u32) -> bool {
        let mut used_up = false;
        for course in self.waiting.values_mut() {
            used_up |= course.tick(retries);
        }
        used_up
    }

    /// Of this rank the packet to be handed out next: "within a channel the
    /// lowest segment", and "Only the k numbers from the window start may be
    /// sent". The number recorded holds back new Data alone (000, 4.4.4.6 speaks of
    /// the number after the last one transmitted).
    pub(super) fn next_ready(&self, window: u32, rank: Rank) -> Option<u64> {
        match rank {
            Rank::Control => None,
            Rank::ResentData => {
                let mut waiting = self.waiting.iter();
                let again = waiting.find(|(_, course)| course.is_ready());
                again.map(|(&segment, _)| segment)
            }
            Rank::NewData => {
                let start = self.start();
                let end = self.next.min(start + u64::from(window));
                let allowed = self.recorded.allows(self.new, start);
                (self.new < end && allowed).then_some(self.new)
            }
        }
    }

    /// Hands out the packet of [`Window::next_ready`].
    pub(super) fn hand_out(&mut self, window: u32, rank: Rank, timeout: u32) {
        if let Some(segment) = self.next_ready(window, rank) {
            let course = self.waiting.entry(segment).or_insert(Course::NEW);
            course.hand_out(timeout);
            self.new = self.new.max(segment + 1);
        }
    }
}
