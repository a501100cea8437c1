//! Units that go to a spare route (document 02, A13), where they are filed as any other.

use super::SendingEnd;
use crate::segment::Segment;

impl SendingEnd {
    /// The octets of the oldest unit held, as they go to a spare.
    pub(crate) fn oldest_again(&self) -> Option<Vec<u8>> {
        self.held.front().map(|unit| again(unit))
    }

    /// The oldest unit has gone to a spare: it is "counted as reclaimed" here, and its
    /// slots are free.
    pub(crate) fn free_oldest(&mut self) {
        self.held.pop_front();
    }
}

/// "A unit may have reached the subscriber already": its leading octet is "1 (may
/// repeat) once moved", whatever it was. How the unit was cut here does not count there.
fn again(unit: &[Segment]) -> Vec<u8> {
    let octets = unit.iter().flat_map(|segment| &segment.octets);
    [1].into_iter().chain(octets.skip(1).copied()).collect()
}
