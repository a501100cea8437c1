//! A channel with both its ends, and what a bystander knows about it.

use link::{Place, Units};
use peer::node::Node;
use peer::packet::{flags, kind};
use peer::settings::Settings;
use peer::state::State;

use crate::calls::{behind, data, reclaim_all, take_all};

/// A channel and its history.
#[derive(Clone, Debug)]
pub struct Pair {
    pub settings: Settings,
    pub sender: Place,
    pub receiver: Place,
    /// Every unit, and its fate.
    pub units: Units,
}

impl Pair {
    /// How many segments a unit has.
    pub fn count(&self, unit: &[u8]) -> usize {
        let most_payload = self.settings.most_payload as usize;
        unit.len().div_ceil(most_payload).max(1)
    }

    /// The first segment of a unit of an opening.
    pub fn first_segment(&self, opening: usize, unit: usize) -> u64 {
        let before = &self.units.openings[opening].accepted[..unit];
        1 + before
            .iter()
            .map(|unit| self.count(unit) as u64)
            .sum::<u64>()
    }

    /// The first segment of the unit that is accepted next.
    pub fn next_segment(&self) -> u64 {
        let present = self.units.openings.len() - 1;
        self.first_segment(present, self.units.openings[present].accepted.len())
    }

    /// "accepted = confirmed ++ reclaimed ++ held", and "confirmed <= taken or
    /// waiting".
    pub fn check(&self, nodes: &[Node; 2]) {
        let held = self.held(&nodes[self.sender.node]);
        let waiting = take_all(&mut nodes[self.receiver.node].clone(), self.receiver.index);
        self.units.check(&held, &waiting);
    }

    /// The units that the transmit end holds: what it would give back if it
    /// were closed.
    fn held(&self, node: &Node) -> Vec<Vec<u8>> {
        let mut node = node.clone();
        let index = self.sender.index;
        if node.state(index) == Some(State::Enabled) {
            node.close(index);
            self.acknowledge(&mut node);
        }
        if node.state(index) == Some(State::Open) {
            assert_eq!(node.close(index).number, 0);
        }
        if node.state(index) == Some(State::Closing) {
            self.acknowledge(&mut node);
        }
        reclaim_all(&mut node, index)
    }

    /// Has this channel's Control packet handed out and acknowledged.
    fn acknowledge(&self, node: &mut Node) {
        while node.next_packet(&mut [0; 64]).number == 0 {}
        let channel = self.settings.channel;
        let stated = &[0][..self.settings.flow as usize];
        let to = self.sender.node;
        let ack = data(to, channel, kind::CONTROL_ACK, 0, flags::WHOLE, stated);
        let ack = behind(&self.settings.remote_prefix, &ack);
        assert_eq!(node.arrival(&ack, &mut [0; 12]).number, 0);
    }
}
