//! The Flow Control packet of a receive end in OPEN: when one is made, its Sequence
//! Number, and what becomes of it (document 02, A5; 000, 4.5.3.5 and 4.5.3.7).

use crate::answer::Refusal;
use crate::course::Course;

#[cfg(test)]
mod tests;

/// The one that waits for its ack, and what tells its Sequence Number.
#[derive(Clone, Debug, Default, PartialEq, Eq)]
pub(crate) struct FlowControl {
    /// The one that is ready or not acknowledged. "The Receive TEP shall generate no
    /// other Flow Control Packets until it receives the Ack Packet for the
    /// transmitted Flow Control Packet."
    packet: Option<Course>,
    /// What its first hand-out fixed.
    first: Option<FirstHandOut>,
    /// The Sequence Number of the last packet that this end transmitted. The Ack of
    /// the Open, numbered 0, has gone before.
    last: u8,
}

/// What a Flow Control packet was when it was first handed out.
#[derive(Clone, Copy, Debug, PartialEq, Eq)]
pub(crate) struct FirstHandOut {
    /// Its Sequence Number, which a resend keeps: "with the original Sequence
    /// Number".
    pub(crate) number: u8,
    /// The number that it stated. A resend states the number of now, so that what is
    /// stated never falls.
    pub(crate) stated: u8,
}

impl FlowControl {
    pub(crate) fn packet(&self) -> Option<&Course> {
        self.packet.as_ref()
    }

    pub(crate) fn first(&self) -> Option<FirstHandOut> {
        self.first
    }

    pub(crate) fn last(&self) -> u8 {
        self.last
    }

    /// A take has changed the number stated, and "there is no Data Ack Packet to be
    /// transmitted", as each is written at once: one becomes ready, unless there is one.
    /// It stays so until it is handed out, also if an Ack states the number meanwhile:
    /// that Ack may be one which the transmit end ignores.
    pub(crate) fn make(&mut self) {
        self.packet.get_or_insert(Course::NEW);
    }

    /// Whether there is one that may be handed out.
    pub(crate) fn is_ready(&self) -> bool {
        self.packet.as_ref().is_some_and(Course::is_ready)
    }

    /// The Sequence Number that it would be handed out with: "the same as that of
    /// the last Packet transmitted from the Receive TEP".
    pub(crate) fn number(&self) -> u8 {
        self.first.map_or(self.last, |first| first.number)
    }

    /// It is handed out and states this number.
    pub(crate) fn hand_out(&mut self, stated: u8, timeout: u32) {
        let number = self.number();
        if let Some(packet) = &mut self.packet {
            packet.hand_out(timeout);
            self.first.get_or_insert(FirstHandOut { number, stated });
            self.transmitted(number);
        }
    }

    /// This end has transmitted a packet of this Sequence Number, be it an Ack, a
    /// Heartbeat or a Flow Control packet.
    pub(crate) fn transmitted(&mut self, number: u8) {
        self.last = number;
    }

    /// Its ack: of its Sequence Number, and after it was handed out. "If the Receive
    /// TEP receives an Ack Packet for a non-outstanding Packet [..], the Receive TEP
    /// shall ignore it." Another one becomes ready if the number stated now is not
    /// the one that it stated first: a resend that has stated it may be lost, and
    /// the ack that of the packet before.
    pub(crate) fn acknowledge(&mut self, number: u8, stated: u8) -> Result<(), Refusal> {
        let first = self.first.filter(|first| first.number == number);
        let first = first.ok_or(Refusal::Ignored)?;
        self.first = None;
        self.packet = (first.stated != stated).then_some(Course::NEW);
        Ok(())
    }

    /// A tick; true if the retries of the one that waits are used up in it.
    pub(crate) fn tick(&mut self, retries: u32) -> bool {
        let packet = self.packet.as_mut();
        packet.is_some_and(|packet| packet.tick(retries))
    }
}
