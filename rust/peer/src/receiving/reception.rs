//! The window of a receive end in OPEN, and the units that are not yet
//! complete (document 01, Receiving; 000, 4.5.3.3, 4.5.3.4 (1) and 4.5.4).

use std::collections::BTreeMap;

use crate::segment::{sequence_number, Segment};

/// Where a Data number lies.
#[derive(Clone, Copy, Debug, PartialEq, Eq)]
pub(super) enum Place {
    /// In the window: the number of the segment.
    InWindow(u64),
    /// At most k behind the start.
    Behind,
    /// Anywhere else.
    Invalid,
}

/// "let d be its number less the window start, taken round modulo 256"
pub(super) fn place(number: u8, start: u64, window: u32) -> Place {
    let distance = u32::from(number.wrapping_sub(sequence_number(start)));
    if distance < window {
        Place::InWindow(start + u64::from(distance))
    } else if distance >= 256 - window {
        Place::Behind
    } else {
        Place::Invalid
    }
}

/// What OPEN has: the start and the segments of units not yet complete.
#[derive(Clone, Debug, PartialEq, Eq)]
pub(super) struct Reception {
    start: u64,
    /// The segments of one unit that the start has passed, while it has not
    /// passed the last.
    unfinished: Vec<Segment>,
    /// The segments held beyond a gap, by number.
    beyond: BTreeMap<u64, Segment>,
}

impl Reception {
    /// "leads to OPEN, window start 1"
    pub(super) const NEW: Reception = Reception {
        start: 1,
        unfinished: Vec::new(),
        beyond: BTreeMap::new(),
    };

    pub(super) fn start(&self) -> u64 {
        self.start
    }

    /// All segments held here, lowest first.
    pub(super) fn segments(&self) -> impl Iterator<Item = &Segment> {
        self.unfinished.iter().chain(self.beyond.values())
    }

    /// How many of them the start has passed.
    pub(super) fn unfinished(&self) -> usize {
        self.unfinished.len()
    }

    /// Whether Data was accepted in this opening.
    pub(super) fn has_accepted(&self) -> bool {
        self.start > 1 || !self.beyond.is_empty()
    }

    /// Whether this segment of the window was accepted before.
    pub(super) fn holds(&self, segment: u64) -> bool {
        self.beyond.contains_key(&segment)
    }

    /// The oldest segment not yet taken, if no complete unit waits: the first
    /// one behind the units taken, arrived or not.
    pub(super) fn oldest(&self) -> u64 {
        self.start - self.unfinished.len() as u64
    }

    pub(super) fn hold(&mut self, segment: Segment) {
        self.beyond.insert(segment.number, segment);
    }

    /// "The start moves past every leading number held." Gives the units
    /// completed in the move, and false if the flags broke in it. Flags beyond
    /// a gap are not looked at.
    pub(super) fn advance(&mut self, most_segments: usize) -> (Vec<Vec<Segment>>, bool) {
        let mut units = Vec::new();
        while let Some(segment) = self.beyond.remove(&self.start) {
            self.start += 1;
            let ends = segment.ends_unit();
            let in_order = segment.begins_unit() == self.unfinished.is_empty();
            self.unfinished.push(segment);
            if !in_order || (!ends && self.unfinished.len() == most_segments) {
                return (units, false);
            }
            if ends {
                units.push(std::mem::take(&mut self.unfinished));
            }
        }
        (units, true)
    }
}

#[cfg(test)]
mod tests {
    use super::*;

    fn places(start: u64, window: u32, numbers: &[u8]) -> Vec<Place> {
        let place_of = |&number: &u8| place(number, start, window);
        numbers.iter().map(place_of).collect()
    }

    /// "Start 1, k 64: number 64 accepted; 65 inactive; 192 inactive; 193 and
    /// 0 answered 15."
    #[test]
    fn numbers_to_check_from_start_1() {
        use Place::{Behind, InWindow, Invalid};
        let expected = [InWindow(64), Invalid, Invalid, Behind, Behind];
        assert_eq!(places(1, 64, &[64, 65, 192, 193, 0]), expected);
    }

    /// "Start 250, k 16: 9 accepted; 10 inactive; 234 answered 15; 233
    /// inactive."
    #[test]
    fn numbers_to_check_from_start_250() {
        use Place::{Behind, InWindow, Invalid};
        let expected = [InWindow(265), Invalid, Behind, Invalid];
        assert_eq!(places(250, 16, &[9, 10, 234, 233]), expected);
    }

    /// "k 64, segment 1 repeated: start 193 makes it inactive; at 194 it would
    /// pass as new"
    #[test]
    fn a_repeat_that_is_too_late() {
        assert_eq!(place(1, 193, 64), Place::Invalid);
        assert_eq!(place(1, 194, 64), Place::InWindow(257));
    }

    /// "At 128 every number is in the window or behind it"; at 64 some are in
    /// neither (document 02, A1).
    #[test]
    fn no_number_is_elsewhere_at_128() {
        let elsewhere = |window| {
            let all = places(1, window, &(0..=255).collect::<Vec<u8>>());
            all.iter().filter(|&&one| one == Place::Invalid).count()
        };
        assert_eq!((elsewhere(64), elsewhere(128)), (128, 0));
        assert_eq!(place(1, 129, 128), Place::Behind);
        assert_eq!(place(1, 130, 128), Place::InWindow(257));
    }

    /// Every number has one place, and each window has k numbers in it and k
    /// behind it.
    #[test]
    fn k_numbers_in_the_window_and_k_behind() {
        for window in [1, 2, 4, 8, 16, 32, 64, 128] {
            for start in 1..600 {
                let all = places(start, window, &(0..=255).collect::<Vec<u8>>());
                let behind = all.iter().filter(|&&place| place == Place::Behind);
                let inside = all.iter().filter(|&&place| {
                    matches!(place, Place::InWindow(segment)
                        if (start..start + u64::from(window)).contains(&segment))
                });
                assert_eq!(behind.count(), window as usize);
                assert_eq!(inside.count(), window as usize);
            }
        }
    }
}
