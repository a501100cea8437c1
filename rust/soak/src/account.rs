//! What a bystander knows of a channel.

use link::{Place, Units};
use proved::record::{state, Channel, Limits};

use crate::node::Node;

/// A channel and its history.
#[derive(Clone, Debug)]
pub struct Account {
    /// What both ends are allowed.
    pub limits: Limits,
    /// The channel number.
    pub channel: u16,
    /// The host's end.
    pub host: Place,
    /// The subscriber's end.
    pub subscriber: Place,
    /// Every unit, and its fate.
    pub units: Units,
    /// The window starts of host and subscriber, not taken round.
    pub starts: [u64; 2],
}

impl Account {
    /// Follows the window start of an end, 0 the host and 1 the subscriber. In one
    /// call it moves by less than 256.
    pub fn follow(&mut self, end: usize, record: &Channel) {
        if record.phase.state == state::OPEN {
            let moved = record.window.start.wrapping_sub(self.starts[end] as u8);
            self.starts[end] += u64::from(moved);
        }
    }

    /// Whether a packet of this segment comes too late to an end.
    pub fn is_late(&self, end: usize, segment: u64) -> bool {
        self.starts[end] > segment + 256 - self.limits.window as u64
    }

    /// Whether the numbers of the host's present opening passed 255.
    pub fn has_wrapped(&self) -> bool {
        let opening = self.units.openings.last();
        opening.is_some_and(|opening| opening.last_sent > 255)
    }

    /// The three claims.
    pub fn check(&self, nodes: &[Node; 2]) {
        let held = nodes[self.host.node].held(self.host.index);
        self.units.check(&held, &self.waiting(nodes));
    }

    /// Claims 1 and 2.
    pub fn check_confirmed(&self, nodes: &[Node; 2]) {
        self.units.check_confirmed(&self.waiting(nodes));
    }

    fn waiting(&self, nodes: &[Node; 2]) -> Vec<Vec<u8>> {
        nodes[self.subscriber.node].waiting(self.subscriber.index)
    }
}
