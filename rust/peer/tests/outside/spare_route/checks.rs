//! What is said of all moves: "With held(first) = x1 .. xm there is n <= m, the number
//! told, with held(first)' = x(n+1) .. xm, held(spare)' = held(spare) ++ [again x1, ..,
//! again xn] [..]; every other channel as before; n = 0 iff the answer is not 0."

use peer::answer::Answer;
use peer::packet::flags;
use peer::settings::Settings;
use peer::sight::{CourseSight, SegmentSight, Sight};

use super::{again, Routes};
use crate::world::shadow::Shadow;

impl Routes {
    /// A refusal changes nothing; the index told is the first's once both records were
    /// found.
    pub(super) fn check_answer(&self, before: &Routes, first: usize, answer: Answer) {
        let found = ![13, 14].contains(&answer.number);
        assert_eq!(answer.index, found.then_some(first));
        assert_eq!(answer.confirmed, 0);
        assert_eq!(answer.number == 0, answer.length > 0, "{answer:?}");
        if answer.number == 0 {
            self.check_moved(before, first, answer.length);
        } else {
            assert!(self.node == before.node, "{answer:?} changed something");
        }
    }

    /// Each unit, as an item in its list, is on exactly one list.
    fn check_moved(&self, before: &Routes, first: usize, count: usize) {
        let spare = self.table[first].spare as usize - 1;
        let all = before.held(first);
        let (gone, left) = all.split_at(count);
        let units: Vec<Vec<u8>> = gone.iter().map(|unit| again(unit)).collect();
        assert_eq!(self.held(first), left);
        let after = self.held(spare);
        assert_eq!(after, [before.held(spare), units.clone()].concat());

        let freed: usize = gone.iter().map(|unit| self.pieces(first, unit).len()).sum();
        let mut sight = before.sight(first);
        sight.held.drain(..freed);
        assert_eq!(self.sight(first), sight);
        self.check_filed(before, spare, &units);
        self.check_others(before, first, spare);
    }

    /// The units are "cut anew" by the spare's P, behind what it held before; none of
    /// their segments was sent or acknowledged. Nothing else is written.
    fn check_filed(&self, before: &Routes, spare: usize, units: &[Vec<u8>]) {
        let mut storage = Shadow::new(&before.node, &self.table);
        let mut sight = before.sight(spare);
        let start = sight.start.expect("OPEN");
        let mut number = sight.held.last().map_or(start, |last| last.number + 1);
        for unit in units {
            let pieces = self.pieces(spare, unit);
            for (place, piece) in pieces.iter().enumerate() {
                storage.file(spare, number, piece);
                sight.held.push(new_segment(number, place, pieces.len()));
                number += 1;
            }
        }
        assert_eq!(self.sight(spare), sight);
        storage.check(&self.node);
    }

    /// "No other channel changes", and both keep their states.
    fn check_others(&self, before: &Routes, first: usize, spare: usize) {
        for index in 0..self.table.len() {
            assert_eq!(self.node.state(index), before.node.state(index));
            assert_eq!(self.node.reason(index), before.node.reason(index));
            if ![first, spare].contains(&index) {
                assert_eq!(self.sight(index), before.sight(index));
                assert_eq!(self.held(index), before.held(index));
            }
        }
    }

    fn sight(&self, index: usize) -> Sight {
        self.node.sight(index).expect("a channel")
    }

    /// The segments of what is filed on a channel.
    fn pieces<'a>(&self, index: usize, filed: &'a [u8]) -> Vec<&'a [u8]> {
        let Settings { most_payload, .. } = self.table[index];
        filed.chunks(most_payload as usize).collect()
    }
}

/// One of so many segments, before it is handed out.
fn new_segment(number: u64, place: usize, count: usize) -> SegmentSight {
    let first = u8::from(place == 0) * flags::FIRST;
    let last = u8::from(place + 1 == count) * flags::LAST;
    let course = CourseSight {
        hand_outs: 0,
        timer: None,
    };
    SegmentSight {
        number,
        flags: first | last,
        course: Some(course),
    }
}
