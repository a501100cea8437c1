//! The next packet for the link (document 01, Sending: "Each call for a packet
//! hands out one"; document 02, A2, A4 and A5; 000, 4.6.2).

use crate::answer::{Answer, Refusal};
use crate::channel::Channel;
use crate::offer::Rank;
use crate::packet::{self, Fields};
use crate::settings::NodeSettings;

use super::Node;

impl Node {
    /// Hands out one packet, by the tests 13, 12, 11. The lines alone choose it:
    /// one that does not fit gives 11, no other is tried, and the lines stay.
    /// Else its channel leaves the line, and "rejoins at the tail if it has
    /// more".
    pub(super) fn hand_out(&mut self, out: &mut [u8]) -> Result<Answer, Refusal> {
        let mut lines = self.test_lent()?;
        let is_ready = |index: usize, rank| self.channels[index].is_ready(rank);
        let (index, rank) = lines.next(is_ready).ok_or(Refusal::Nothing)?;
        let node = self.node;
        let length = hand_out_of(&mut self.channels[index], rank, &node, out);
        if length.is_ok() {
            lines.leave(index, rank);
            self.relist(lines, [index]);
        }
        Ok(Answer::from(length.map(Answer::written)).at(index))
    }
}

/// Hands out what a channel offers of this rank, and gives the packet's length.
fn hand_out_of(
    channel: &mut Channel,
    rank: Rank,
    node: &NodeSettings,
    out: &mut [u8],
) -> Result<usize, Refusal> {
    let offer = channel.offer(rank).ok_or(Refusal::Nothing)?;
    let settings = channel.settings();
    let fields = Fields {
        kind: offer.kind,
        flags: offer.flags,
        number: offer.number,
        ..node.header(settings.remote, settings.channel)
    };
    let own_prefix = settings.own_prefix;
    let length = packet::write(&fields, own_prefix.said(), &offer.payload, out)?;
    channel.hand_out(rank);
    Ok(length)
}
