//! The course of one packet from being ready to its ack: timer and retries
//! (document 01, Sending; 000, 4.4.4.5).

use crate::sight::CourseSight;

/// How often a packet was handed out, and the timer of the last time. Once it
/// is acknowledged it has no course any more.
#[derive(Clone, Debug, PartialEq, Eq)]
pub(crate) struct Course {
    hand_outs: u32,
    /// Ticks to go; none while the packet is ready.
    timer: Option<u32>,
}

impl Course {
    /// A packet that is ready and was never handed out.
    pub(crate) const NEW: Course = Course {
        hand_outs: 0,
        timer: None,
    };

    pub(crate) fn sight(&self) -> CourseSight {
        CourseSight {
            hand_outs: self.hand_outs,
            timer: self.timer,
        }
    }

    /// Whether the packet may be handed out.
    pub(crate) fn is_ready(&self) -> bool {
        self.timer.is_none()
    }

    /// Whether the packet was handed out, so that an ack can be its own. It
    /// stays so while the packet waits to be resent: it is still outstanding
    /// (000, 4.4.4.3).
    pub(crate) fn was_sent(&self) -> bool {
        self.hand_outs > 0
    }

    /// "A packet's timer starts at the timeout when it is handed out."
    pub(crate) fn hand_out(&mut self, timeout: u32) {
        self.hand_outs += 1;
        self.timer = Some(timeout);
    }

    /// "On a tick each timer falls by one." A timer that ends makes the packet
    /// ready again; true if that would be a resend more than the retries.
    pub(crate) fn tick(&mut self, retries: u32) -> bool {
        match self.timer {
            None => false,
            Some(left) if left > 1 => {
                self.timer = Some(left - 1);
                false
            }
            Some(_) => {
                self.timer = None;
                self.hand_outs > retries
            }
        }
    }
}

#[cfg(test)]
mod tests {
    use super::*;

    /// "A packet's timer starts at the timeout when it is handed out", and it
    /// ends on the timeout-th tick after that.
    #[test]
    fn the_timer_ends_on_the_tick_of_the_timeout() {
        let mut course = Course::NEW;
        course.hand_out(4);
        for _ in 0..3 {
            assert!(!course.tick(2));
            assert!(!course.is_ready());
        }
        assert!(!course.tick(2));
        assert!(course.is_ready());
    }

    /// "the retries are the resends allowed to it"
    #[test]
    fn there_is_one_hand_out_more_than_retries() {
        for retries in [0, 1, 2, 255] {
            let mut course = Course::NEW;
            for _ in 0..retries {
                course.hand_out(1);
                assert!(!course.tick(retries));
            }
            course.hand_out(1);
            assert!(course.tick(retries));
        }
    }

    /// A packet that is ready has no timer, so ticks do not wear it out.
    #[test]
    fn a_ready_packet_has_no_timer() {
        let mut course = Course::NEW;
        assert!(!course.tick(0));
        assert!(course.is_ready());
        assert!(!course.was_sent());
    }

    /// The ack of a packet that waits to be resent is its own.
    #[test]
    fn a_packet_stays_sent_while_it_waits_to_be_resent() {
        let mut course = Course::NEW;
        course.hand_out(1);
        course.tick(1);
        assert!(course.is_ready() && course.was_sent());
    }
}
