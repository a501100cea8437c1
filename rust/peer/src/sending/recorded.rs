//! The number recorded by a transmit end: how far the receive end lets it send
//! (document 02, A5; 000, 4.4.4.6).

use crate::segment::sequence_number;

/// "the Transmit TEP shall record the MASN contained in the Packet"; none where Flow
/// Control is not used.
#[derive(Clone, Copy, Debug, PartialEq, Eq)]
pub(super) struct Recorded(Option<u8>);

impl Recorded {
    /// "the initial value of the MASN is carried in the Control Ack Packet for the
    /// received Open Command" (000, 4.5.3.5).
    pub(super) fn new(stated: Option<u8>) -> Recorded {
        Recorded(stated)
    }

    pub(super) fn number(self) -> Option<u8> {
        self.0
    }

    /// A number is stated later. What the receive end accepts never falls, and lies
    /// from the highest number sent to k past it. So a number elsewhere was
    /// overtaken, and so was one that lies below the one recorded: it is not taken,
    /// as 000's "the most recent" would have it, or a sender with nothing outstanding
    /// might stand still for good. One recorded that lies elsewhere yields. Where the
    /// order is kept every number stated is the highest so far.
    pub(super) fn record(&mut self, stated: Option<u8>, highest: u8, window: u32) {
        let (Some(recorded), Some(stated)) = (self.0, stated) else {
            return;
        };
        let past = |number: u8| u32::from(number.wrapping_sub(highest));
        let told = past(stated) <= window;
        let stale = past(recorded) > window;
        if told && (stale || past(stated) >= past(recorded)) {
            self.0 = Some(stated);
        }
    }

    /// Whether a segment "is less than or equal to the MASN", taken round from the
    /// window start: 128 and more is behind it, and lets none be sent.
    pub(super) fn allows(self, segment: u64, start: u64) -> bool {
        self.0.is_none_or(|recorded| {
            let past = recorded.wrapping_sub(sequence_number(start));
            past < 128 && segment - start <= u64::from(past)
        })
    }
}

#[cfg(test)]
mod tests {
    use super::*;

    /// What is recorded after this number is stated, by the highest number sent.
    fn after(recorded: u8, stated: u8, highest: u8, window: u32) -> u8 {
        let mut record = Recorded::new(Some(recorded));
        record.record(Some(stated), highest, window);
        record.number().unwrap()
    }

    /// From the highest number sent to k past it, and not below the one recorded.
    #[test]
    fn a_number_that_is_recorded() {
        for highest in [0_u8, 1, 100, 127, 128, 250, 255] {
            let past = |distance: u8| highest.wrapping_add(distance);
            let cases = [
                (0, 0, 0),
                (0, 1, 1),
                (0, 4, 4),
                (0, 5, 0),
                (0, 128, 0),
                (0, 255, 0),
                (3, 2, 3),
                (3, 3, 3),
                (3, 4, 4),
                (3, 0, 3),
                (4, 5, 4),
            ];
            for (recorded, stated, expected) in cases {
                let found = after(past(recorded), past(stated), highest, 4);
                assert_eq!(found, past(expected), "{highest}: {recorded}, {stated}");
            }
        }
    }

    /// One recorded that lies elsewhere yields to any that does not, and to no other.
    #[test]
    fn a_number_that_yields() {
        for recorded in [15, 100, 200, 9] {
            for stated in 10..=14 {
                assert_eq!(after(recorded, stated, 10, 4), stated);
            }
            for stated in [9, 15, 16, 138, 255] {
                assert_eq!(after(recorded, stated, 10, 4), recorded);
            }
        }
    }

    /// At k 128 the 129 numbers that may be stated are told from those behind.
    #[test]
    fn the_widest_window() {
        for distance in 0..=255 {
            let told = distance <= 128;
            let expected = if told { distance } else { 0 };
            assert_eq!(after(0, distance, 0, 128), expected);
        }
    }

    /// "128 and more is behind": nothing may be sent then.
    #[test]
    fn how_far_it_may_send() {
        let most = |recorded: u8, start: u64| {
            let record = Recorded::new(Some(recorded));
            (0..300)
                .filter(|&past| record.allows(start + past, start))
                .count()
        };
        for start in [1, 5, 129, 250, 256, 257, 1_000] {
            let at = |past: u8| sequence_number(start).wrapping_add(past);
            assert_eq!(most(at(255), start), 0);
            assert_eq!(most(at(128), start), 0);
            assert_eq!(most(at(127), start), 128);
            assert_eq!(most(at(0), start), 1);
            assert_eq!(most(at(3), start), 4);
        }
    }

    /// Where Flow Control is not used nothing is recorded and nothing held back.
    #[test]
    fn without_flow_control() {
        let mut record = Recorded::new(None);
        record.record(None, 0, 4);
        assert_eq!(record.number(), None);
        assert!(record.allows(500, 1));
    }
}
