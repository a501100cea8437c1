//! What a bystander may see of a record beyond its state, so that it can be
//! held against another implementation. Looking changes nothing.

use crate::course::Course;
use crate::flow_control::FlowControl;
use crate::heartbeat::Heartbeat;

/// A packet that waits for its ack.
#[derive(Clone, Copy, Debug, PartialEq, Eq)]
pub struct CourseSight {
    /// How often it was handed out.
    pub hand_outs: u32,
    /// Ticks to go; none while the packet is ready.
    pub timer: Option<u32>,
}

/// A segment that an end holds.
#[derive(Clone, Copy, Debug, PartialEq, Eq)]
pub struct SegmentSight {
    /// The whole number, which is not taken round.
    pub number: u64,
    /// The sequence flags.
    pub flags: u8,
    /// At a transmit end in OPEN, while it is not acknowledged.
    pub course: Option<CourseSight>,
}

/// What a Flow Control packet was when it was first handed out.
#[derive(Clone, Copy, Debug, PartialEq, Eq)]
pub struct FlowSight {
    /// Its Sequence Number.
    pub number: u8,
    /// The number that it stated.
    pub stated: u8,
}

/// One record.
#[derive(Clone, Debug, Default, PartialEq, Eq)]
pub struct Sight {
    /// The window start, in OPEN.
    pub start: Option<u64>,
    /// The segments held, lowest first.
    pub held: Vec<SegmentSight>,
    /// How many of these the start has passed, of a unit that is not
    /// complete: at a receive end.
    pub unfinished: usize,
    /// The Open in ENABLED, the Close in CLOSING, of a transmit end.
    pub control: Option<CourseSight>,
    /// A Close directive is kept until the Open is acknowledged.
    pub close_kept: bool,
    /// Data was accepted in this opening, which is in OPEN.
    pub accepted: bool,
    /// The close timer, of a receive end in CLOSING.
    pub close_timer: Option<u32>,
    /// Ticks until a Heartbeat is made, in OPEN; 0 if none ever is.
    pub heartbeat_timer: u32,
    /// The Heartbeat that is ready or not acknowledged, in OPEN.
    pub heartbeat: Option<CourseSight>,
    /// The Flow Control packet that is ready or not acknowledged, of a receive end
    /// in OPEN.
    pub flow_control: Option<CourseSight>,
    /// What that was when it was first handed out, once it was.
    pub flow_first: Option<FlowSight>,
    /// The Sequence Number of the last packet that a receive end in OPEN has
    /// transmitted, whether it uses Flow Control or not; else 0.
    pub last_number: u8,
    /// The number recorded, of a transmit end in OPEN that uses Flow Control; else 0.
    pub recorded: u8,
}

impl Sight {
    /// Adds the Heartbeat, which either end has in OPEN.
    pub(crate) fn see(&mut self, heartbeat: &Heartbeat) {
        self.heartbeat_timer = heartbeat.timer();
        self.heartbeat = heartbeat.packet().map(Course::sight);
    }

    /// Adds the Flow Control packet, which a receive end has in OPEN.
    pub(crate) fn see_flow_control(&mut self, flow_control: &FlowControl) {
        self.flow_control = flow_control.packet().map(Course::sight);
        self.flow_first = flow_control.first().map(|first| FlowSight {
            number: first.number,
            stated: first.stated,
        });
        self.last_number = flow_control.last();
    }
}
