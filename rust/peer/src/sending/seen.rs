//! What a bystander sees of a transmit end.

use super::{Phase, SendingEnd};
use crate::course::Course;
use crate::segment::Segment;
use crate::sight::{SegmentSight, Sight};

impl SendingEnd {
    pub(crate) fn sight(&self) -> Sight {
        let held = self.held.iter().flatten();
        let mut sight = Sight {
            held: held.map(|segment| self.seen(segment)).collect(),
            ..Sight::default()
        };
        match &self.phase {
            Phase::Closed(_) => {}
            Phase::Enabled { open, close_kept } => {
                sight.control = Some(open.sight());
                sight.close_kept = *close_kept;
            }
            Phase::Open { window, heartbeat } => {
                sight.start = Some(window.start());
                sight.see(heartbeat);
                sight.recorded = window.recorded().number().unwrap_or(0);
            }
            Phase::Closing { close } => sight.control = Some(close.sight()),
        }
        sight
    }

    fn seen(&self, segment: &Segment) -> SegmentSight {
        let course = match &self.phase {
            Phase::Open { window, .. } => window.course(segment.number),
            _ => None,
        };
        segment.sight(course.map(Course::sight))
    }
}
