//! The Heartbeat of an end in OPEN: when one is made, and what becomes of it
//! (document 02, A2; 000, 4.4.4.7 and 4.5.3.6). It is the same at both ends.

use crate::answer::{refuse_if, Refusal};
use crate::course::Course;

#[cfg(test)]
mod tests;

/// The Heartbeat timer, and the Heartbeat that waits for its ack.
#[derive(Clone, Debug, PartialEq, Eq)]
pub(crate) struct Heartbeat {
    /// The timer's initial value; 0 if this end makes no Heartbeat.
    interval: u32,
    /// Ticks to go until one is made; 0 if none ever is.
    timer: u32,
    /// The one that is ready or not acknowledged. There is never a second: all
    /// are numbered 0, so their acks could not be told apart.
    packet: Option<Course>,
}

impl Heartbeat {
    /// "Upon transitioning into the OPEN state, the Transmit TEP shall start the
    /// Transmit Heartbeat timer."
    pub(crate) fn new(interval: u32) -> Heartbeat {
        Heartbeat {
            interval,
            timer: interval,
            packet: None,
        }
    }

    pub(crate) fn timer(&self) -> u32 {
        self.timer
    }

    pub(crate) fn packet(&self) -> Option<&Course> {
        self.packet.as_ref()
    }

    /// "Whenever the Transmit TEP transmits a Packet (a Control, Data, or Ack
    /// Packet), the Transmit TEP shall restart the Transmit Heartbeat timer." A
    /// Heartbeat is not among them: the timer was restarted when it was made.
    pub(crate) fn restart(&mut self) {
        self.timer = self.interval;
    }

    /// Whether there is one that may be handed out. What goes out meanwhile does
    /// not take it back.
    pub(crate) fn is_ready(&self) -> bool {
        self.packet.as_ref().is_some_and(Course::is_ready)
    }

    pub(crate) fn hand_out(&mut self, timeout: u32) {
        if let Some(packet) = &mut self.packet {
            packet.hand_out(timeout);
        }
    }

    /// Its ack: numbered 0, and after it was handed out. "If the Transmit TEP
    /// receives an Ack Packet for a non-outstanding Packet [..], the Transmit TEP
    /// shall ignore it" (000, 4.4.4.5).
    pub(crate) fn acknowledge(&mut self, number: u8) -> Result<(), Refusal> {
        let was_sent = self.packet.as_ref().is_some_and(Course::was_sent);
        refuse_if(number != 0 || !was_sent, Refusal::Ignored)?;
        self.packet = None;
        Ok(())
    }

    /// A tick; true if the retries of the one that waits are used up in it. That
    /// one's timer comes first: one that is made in a tick is not ticked in it.
    pub(crate) fn tick(&mut self, retries: u32) -> bool {
        let packet = self.packet.as_mut();
        let used_up = packet.is_some_and(|packet| packet.tick(retries));
        if !used_up {
            self.tick_timer();
        }
        used_up
    }

    /// "Once the Transmit Heartbeat timer has ended, the Transmit TEP shall
    /// generate a Heartbeat Packet and shall restart the Transmit Heartbeat
    /// timer."
    fn tick_timer(&mut self) {
        if self.timer == 0 {
            return;
        }
        self.timer -= 1;
        if self.timer == 0 {
            self.packet.get_or_insert(Course::NEW);
            self.restart();
        }
    }
}
