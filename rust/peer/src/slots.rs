//! One channel's part of the lent storage (document 01, A channel's record and
//! memory).

/// The memory of slots times P octets, and one length for each slot.
pub(crate) struct Slots<'a> {
    octets: &'a mut [u8],
    lengths: &'a mut [u16],
}

impl<'a> Slots<'a> {
    pub(crate) fn new(octets: &'a mut [u8], lengths: &'a mut [u16]) -> Slots<'a> {
        Slots { octets, lengths }
    }

    /// Files a segment: "writes its octets and length; the slot's octets past
    /// it stay".
    pub(crate) fn file(&mut self, segment: u64, octets: &[u8]) {
        let slot = slot_of(segment, self.lengths.len());
        let size = self.octets.len() / self.lengths.len();
        self.octets[slot * size..][..octets.len()].copy_from_slice(octets);
        self.lengths[slot] = octets.len() as u16;
    }
}

/// "Segment s of an opening lies in slot s - 1 modulo slots." The sequence
/// number would not do for s, as slots need not divide 256.
pub(crate) fn slot_of(segment: u64, slots: usize) -> usize {
    ((segment - 1) % slots as u64) as usize
}

#[cfg(test)]
mod tests {
    use super::*;

    /// "Segment s of an opening lies in slot s - 1 modulo slots."
    #[test]
    fn segment_1_lies_in_slot_0() {
        assert_eq!([1, 2, 7, 8, 15].map(|s| slot_of(s, 7)), [0, 1, 6, 0, 0]);
    }

    /// Slots that do not divide 256: segment 257 has segment 1's number, yet
    /// another slot.
    #[test]
    fn past_255_the_slot_is_not_that_of_the_number() {
        assert_eq!(slot_of(257, 7), 4);
        assert_eq!(slot_of(257, 8), 0);
    }

    /// "Filing it [..] writes its octets and length; the slot's octets past it
    /// stay."
    #[test]
    fn filing_leaves_the_octets_past_it() {
        let mut octets = [9; 8];
        let mut lengths = [77; 2];
        Slots::new(&mut octets, &mut lengths).file(2, &[1, 2]);
        assert_eq!(octets, [9, 9, 9, 9, 1, 2, 9, 9]);
        assert_eq!(lengths, [77, 2]);
    }

    #[test]
    fn an_empty_segment_writes_its_length_alone() {
        let mut octets = [9; 8];
        let mut lengths = [77; 2];
        Slots::new(&mut octets, &mut lengths).file(3, &[]);
        assert_eq!(octets, [9; 8]);
        assert_eq!(lengths, [0, 77]);
    }
}
