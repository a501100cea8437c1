//! Cutting units into segments and rejoining them (document 01, Sending; 000,
//! 4.4.2 and 4.5.4).

use crate::answer::Refusal;
use crate::packet::flags;
use crate::sight::{CourseSight, SegmentSight};

/// One segment of an opening. Its number is the whole one, which starts from 1
/// and is never taken round, so that it cannot be mistaken for another.
#[derive(Clone, Debug, PartialEq, Eq)]
pub(crate) struct Segment {
    pub(crate) number: u64,
    pub(crate) flags: u8,
    pub(crate) octets: Vec<u8>,
}

impl Segment {
    pub(crate) fn sight(&self, course: Option<CourseSight>) -> SegmentSight {
        SegmentSight {
            number: self.number,
            flags: self.flags,
            course,
        }
    }

    /// Whether this is a unit's last segment.
    pub(crate) fn ends_unit(&self) -> bool {
        [flags::LAST, flags::WHOLE].contains(&self.flags)
    }

    /// Whether this is a unit's first segment.
    pub(crate) fn begins_unit(&self) -> bool {
        [flags::FIRST, flags::WHOLE].contains(&self.flags)
    }
}

/// "a sequence number is that modulo 256"
pub(crate) fn sequence_number(segment: u64) -> u8 {
    (segment % 256) as u8
}

/// How many segments of at most P octets a unit has; an empty one has one.
pub(crate) fn segment_count(unit: usize, most_payload: usize) -> usize {
    unit.div_ceil(most_payload).max(1)
}

/// Cuts a unit into segments that are numbered from `first` on.
pub(crate) fn cut(unit: &[u8], most_payload: usize, first: u64) -> Vec<Segment> {
    let count = segment_count(unit.len(), most_payload);
    (0..count)
        .map(|place| {
            let from = place * most_payload;
            let to = unit.len().min(from + most_payload);
            Segment {
                number: first + place as u64,
                flags: flags_at(place, count),
                octets: unit[from..to].to_vec(),
            }
        })
        .collect()
}

/// The sequence flags of one of so many segments (000, 4.2.3.4.4).
fn flags_at(place: usize, count: usize) -> u8 {
    match (place == 0, place + 1 == count) {
        (true, true) => flags::WHOLE,
        (true, false) => flags::FIRST,
        (false, false) => flags::CONTINUATION,
        (false, true) => flags::LAST,
    }
}

/// Rejoins a unit at the front of `out` and gives its length. The octets past
/// it stay; so does the whole buffer if it is too small.
pub(crate) fn rejoin(segments: &[Segment], out: &mut [u8]) -> Result<usize, Refusal> {
    let unit: Vec<u8> = segments
        .iter()
        .flat_map(|segment| segment.octets.iter().copied())
        .collect();
    let wanted = unit.len();
    let room = out.get_mut(..wanted).ok_or(Refusal::Buffer { wanted })?;
    room.copy_from_slice(&unit);
    Ok(wanted)
}

#[cfg(test)]
mod tests {
    use super::*;

    /// "P 16: 0, 16, 17, 48, 49 octets give 1, 1, 2, 3, 4 segments"
    #[test]
    fn numbers_to_check() {
        let counts = [0, 16, 17, 48, 49].map(|length| segment_count(length, 16));
        assert_eq!(counts, [1, 1, 2, 3, 4]);
    }

    /// "All segments of a unit but the last have P octets"
    #[test]
    fn all_but_the_last_have_p_octets() {
        for length in 0..40 {
            let unit: Vec<u8> = (0..length).collect();
            let segments = cut(&unit, 4, 1);
            assert_eq!(segments.len(), segment_count(unit.len(), 4));
            let (last, others) = segments.split_last().unwrap();
            assert!(others.iter().all(|segment| segment.octets.len() == 4));
            assert_eq!(last.octets.len(), unit.len() - 4 * others.len());
            assert_eq!(last.octets.is_empty(), unit.is_empty());
        }
    }

    /// "an empty unit is one whole segment of 0 octets"
    #[test]
    fn an_empty_unit_is_one_whole_segment() {
        let whole = Segment {
            number: 7,
            flags: flags::WHOLE,
            octets: vec![],
        };
        assert_eq!(cut(&[], 16, 7), [whole]);
    }

    /// "Flags: 01 first, 00 continuation, 10 last, 11 whole unit."
    #[test]
    fn flags_of_the_segments() {
        let flags_of = |unit: &[u8]| -> Vec<u8> {
            let segments = cut(unit, 1, 1);
            segments.iter().map(|segment| segment.flags).collect()
        };
        assert_eq!(flags_of(b"a"), [0b11]);
        assert_eq!(flags_of(b"ab"), [0b01, 0b10]);
        assert_eq!(flags_of(b"abcd"), [0b01, 0b00, 0b00, 0b10]);
    }

    /// "Segments are numbered from 1 at each opening; a sequence number is
    /// that modulo 256", so Data number 0 follows 255.
    #[test]
    fn number_0_follows_255() {
        let numbers: Vec<u8> = cut(b"abcd", 1, 254)
            .iter()
            .map(|segment| sequence_number(segment.number))
            .collect();
        assert_eq!(numbers, [254, 255, 0, 1]);
    }

    #[test]
    fn what_is_cut_rejoins() {
        let mut out = [9; 12];
        let segments = cut(b"0123456789", 4, 1);
        assert_eq!(rejoin(&segments, &mut out), Ok(10));
        assert_eq!(&out, b"0123456789\x09\x09");
        let small = Err(Refusal::Buffer { wanted: 10 });
        assert_eq!(rejoin(&segments, &mut out[..9]), small);
    }
}
