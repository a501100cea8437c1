//! What a bystander sees of a receive end.

use super::{Phase, ReceivingEnd};
use crate::segment::Segment;
use crate::sight::Sight;

impl ReceivingEnd {
    pub(crate) fn sight(&self) -> Sight {
        let complete = self.complete.iter().flatten();
        let mut sight = Sight {
            held: complete.map(|segment| segment.sight(None)).collect(),
            ..Sight::default()
        };
        match &self.phase {
            Phase::Closed(_) | Phase::Enabled => {}
            Phase::Open {
                reception,
                heartbeat,
                flow_control,
            } => {
                let segments = reception.segments();
                sight
                    .held
                    .extend(segments.map(|one| Segment::sight(one, None)));
                sight.start = Some(reception.start());
                sight.unfinished = reception.unfinished();
                sight.accepted = reception.has_accepted();
                sight.see(heartbeat);
                sight.see_flow_control(flow_control);
            }
            Phase::Closing { timer } => sight.close_timer = Some(*timer),
        }
        sight
    }
}
