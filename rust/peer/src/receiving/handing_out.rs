//! What a receive end hands out: Heartbeats, and where Flow Control is used Flow
//! Control packets (000, 4.5.3.7). Its acks are written as their packets arrive.

use super::{Phase, ReceivingEnd};
use crate::offer::{Offer, Rank};
use crate::packet::kind;

impl ReceivingEnd {
    /// Whether a packet of this rank is ready.
    pub(crate) fn is_ready(&self, rank: Rank) -> bool {
        self.offer(rank).is_some()
    }

    /// The packet of this rank that this end would hand out next, if any. All rank
    /// with Control, and the Flow Control packet is the "last in a channel".
    pub(crate) fn offer(&self, rank: Rank) -> Option<Offer<'_>> {
        let Phase::Open {
            heartbeat,
            flow_control,
            ..
        } = &self.phase
        else {
            return None;
        };
        match rank {
            Rank::Control if heartbeat.is_ready() => Some(Offer::alone(kind::HEARTBEAT)),
            Rank::Control if flow_control.is_ready() => {
                Some(Offer::flow_control(flow_control.number(), self.stated()))
            }
            _ => None,
        }
    }

    /// Notes that the packet of [`ReceivingEnd::offer`] was handed out. A Heartbeat
    /// is numbered 0. "Whenever the Receive TEP transmits a Packet (an Ack or Flow
    /// Control Packet), the Receive TEP shall restart the Receive Heartbeat timer"
    /// (000, 4.5.3.6): a resend is one, too.
    pub(crate) fn hand_out(&mut self) {
        let (timeout, stated) = (self.settings.timeout, self.stated());
        let Phase::Open {
            heartbeat,
            flow_control,
            ..
        } = &mut self.phase
        else {
            return;
        };
        if heartbeat.is_ready() {
            heartbeat.hand_out(timeout);
            flow_control.transmitted(0);
        } else {
            flow_control.hand_out(stated, timeout);
            heartbeat.restart();
        }
    }
}
