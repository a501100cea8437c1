//! The transmit end of a channel (document 01, Sending; 000, 4.4).

use std::collections::VecDeque;

use crate::answer::{refuse_if, Refusal};
use crate::course::Course;
use crate::heartbeat::Heartbeat;
use crate::offer::{Offer, Rank};
use crate::packet::kind;
use crate::segment::{cut, rejoin, segment_count, Segment};
use crate::settings::Settings;
use crate::slots::Slots;
use crate::state::{Reason, State};

use window::Window;

mod moving;
mod recorded;
mod seen;
#[cfg(test)]
mod tests;
mod window;

/// The states, each with what belongs to it alone: what a state has is gone
/// when the state is left.
#[derive(Clone, Debug, PartialEq, Eq)]
enum Phase {
    Closed(Reason),
    Enabled {
        open: Course,
        close_kept: bool,
    },
    Open {
        window: Window,
        heartbeat: Heartbeat,
    },
    Closing {
        close: Course,
    },
}

/// A transmit end and the units it holds.
#[derive(Clone, Debug, PartialEq, Eq)]
pub(crate) struct SendingEnd {
    settings: Settings,
    phase: Phase,
    /// Units accepted and neither confirmed nor reclaimed, oldest first. They
    /// outlive the opening: "leaving OPEN never discards an unconfirmed unit".
    held: VecDeque<Vec<Segment>>,
}

impl SendingEnd {
    /// A channel as settings make it: CLOSED and empty.
    pub(crate) fn new(settings: Settings) -> SendingEnd {
        SendingEnd {
            settings,
            phase: Phase::Closed(Reason::None),
            held: VecDeque::new(),
        }
    }

    pub(crate) fn settings(&self) -> &Settings {
        &self.settings
    }

    pub(crate) fn state(&self) -> State {
        match self.phase {
            Phase::Closed(_) => State::Closed,
            Phase::Enabled { .. } => State::Enabled,
            Phase::Open { .. } => State::Open,
            Phase::Closing { .. } => State::Closing,
        }
    }

    pub(crate) fn reason(&self) -> Reason {
        match self.phase {
            Phase::Closed(reason) => reason,
            _ => Reason::None,
        }
    }

    /// An Open directive (000, 4.4.3.2): "an Open directive leads to ENABLED,
    /// an Open (number 0) becomes ready".
    pub(crate) fn open(&mut self) -> Result<(), Refusal> {
        refuse_if(self.state() != State::Closed, Refusal::State)?;
        refuse_if(!self.held.is_empty(), Refusal::UnitsLeft)?;
        self.phase = Phase::Enabled {
            open: Course::NEW,
            close_kept: false,
        };
        Ok(())
    }

    /// A Close directive (000, 4.4.3.3 and 4.4.3.4). CLOSING leaves the window
    /// behind, and with it all Data sending and timers, and the Heartbeat.
    pub(crate) fn close(&mut self) -> Result<(), Refusal> {
        match &mut self.phase {
            Phase::Enabled { close_kept, .. } if !*close_kept => *close_kept = true,
            Phase::Open { .. } => self.phase = Phase::Closing { close: Course::NEW },
            _ => return Err(Refusal::State),
        }
        Ok(())
    }

    /// What goes before a unit's octets as it is filed: "each has a leading octet on
    /// both routes: 0, or 1 (may repeat) once moved" (document 02, A13).
    fn leading(&self) -> &'static [u8] {
        if self.settings.lead == 1 {
            &[0]
        } else {
            &[]
        }
    }

    /// The tests of a transfer of so many octets. "Answer 6 comes one octet sooner"
    /// on a pair (A13).
    pub(crate) fn test_transfer(&self, octets: usize) -> Result<(), Refusal> {
        let filed = octets.saturating_add(self.leading().len());
        self.test_filing(filed).map(|_| ())
    }

    /// The tests of a unit that is filed with so many octets, 5, 6 and 7; gives how
    /// many segments it has.
    fn test_filing(&self, octets: usize) -> Result<usize, Refusal> {
        refuse_if(self.state() != State::Open, Refusal::State)?;
        let needed = segment_count(octets, self.settings.most_payload as usize);
        refuse_if(
            needed > self.settings.most_segments as usize,
            Refusal::TooLong,
        )?;
        let held: usize = self.held.iter().map(Vec::len).sum();
        refuse_if(
            held + needed > self.settings.slots as usize,
            Refusal::NoSlots,
        )?;
        Ok(needed)
    }

    /// Accepts a unit (000, 4.4.2).
    pub(crate) fn transfer(&mut self, unit: &[u8], slots: &mut Slots) -> Result<(), Refusal> {
        let filed = [self.leading(), unit].concat();
        self.file(&filed, slots)
    }

    /// Files the segments of a unit, transferred or moved, by the tests of a transfer.
    /// On a pair its leading octet is the first of these octets.
    pub(crate) fn file(&mut self, octets: &[u8], slots: &mut Slots) -> Result<(), Refusal> {
        let needed = self.test_filing(octets.len())?;
        let Phase::Open { window, .. } = &mut self.phase else {
            return Err(Refusal::State);
        };
        let most_payload = self.settings.most_payload as usize;
        let segments = cut(octets, most_payload, window.add(needed));
        for segment in &segments {
            slots.file(segment.number, &segment.octets);
        }
        self.held.push_back(segments);
        Ok(())
    }

    /// "In CLOSED the application reclaims them whole, oldest first."
    pub(crate) fn reclaim(&mut self, out: &mut [u8]) -> Result<usize, Refusal> {
        refuse_if(self.state() != State::Closed, Refusal::State)?;
        let oldest = self.held.front().ok_or(Refusal::Nothing)?;
        let length = rejoin(oldest, out)?;
        self.held.pop_front();
        Ok(length)
    }

    /// A Control Ack (000, 4.4.3.3 and 4.4.3.5): it counts if it is "numbered
    /// 0 and after the Open was handed out"; a Close's "by the same rule". What the
    /// one that leads to OPEN states is recorded.
    pub(crate) fn control_ack(&mut self, number: u8, stated: Option<u8>) -> Result<(), Refusal> {
        let (course, next) = match &self.phase {
            Phase::Enabled { open, close_kept } if *close_kept => {
                (open, Phase::Closing { close: Course::NEW })
            }
            Phase::Enabled { open, .. } => (open, self.opened(stated)),
            Phase::Closing { close } => (close, Phase::Closed(Reason::None)),
            Phase::Closed(_) | Phase::Open { .. } => return Err(Refusal::State),
        };
        refuse_if(number != 0 || !course.was_sent(), Refusal::Ignored)?;
        self.phase = next;
        Ok(())
    }

    /// OPEN as it begins.
    fn opened(&self, stated: Option<u8>) -> Phase {
        Phase::Open {
            window: Window::new(stated),
            heartbeat: Heartbeat::new(self.settings.interval),
        }
    }

    /// A Data Ack; gives how many units it confirmed. "A unit is confirmed
    /// when the start has passed its last segment", so one beyond a gap is not. One
    /// that is ignored changes no record, so what it states is not recorded.
    pub(crate) fn data_ack(&mut self, number: u8, stated: Option<u8>) -> Result<usize, Refusal> {
        let Phase::Open { window, .. } = &mut self.phase else {
            return Err(Refusal::State);
        };
        window.acknowledge(number)?;
        window.record(stated, self.settings.window);
        let start = window.start();
        let is_passed = |unit: &&Vec<Segment>| unit.iter().all(|segment| segment.number < start);
        let confirmed = self.held.iter().take_while(is_passed).count();
        self.held.drain(..confirmed);
        Ok(confirmed)
    }

    /// A Flow Control packet (000, 4.4.4.6): it is acknowledged in OPEN, whatever it
    /// states and whether that is recorded.
    pub(crate) fn flow_control(&mut self, stated: Option<u8>) -> Result<(), Refusal> {
        let Phase::Open { window, .. } = &mut self.phase else {
            return Err(Refusal::State);
        };
        window.record(stated, self.settings.window);
        Ok(())
    }

    /// The Heartbeat, in OPEN.
    pub(crate) fn heartbeat(&mut self) -> Option<&mut Heartbeat> {
        match &mut self.phase {
            Phase::Open { heartbeat, .. } => Some(heartbeat),
            _ => None,
        }
    }

    /// A tick; true if the channel went inactive in it. "If one ends and its
    /// retries are used up, the channel goes inactive and CLOSED", by Data before
    /// the Heartbeat is looked at.
    pub(crate) fn tick(&mut self) -> bool {
        let retries = self.settings.retries;
        let used_up = match &mut self.phase {
            Phase::Closed(_) => None,
            Phase::Enabled { open: course, .. } | Phase::Closing { close: course } => {
                course.tick(retries).then_some(Reason::Retries)
            }
            Phase::Open { window, heartbeat } => match window.tick(retries) {
                true => Some(Reason::Retries),
                false => heartbeat.tick(retries).then_some(Reason::Heartbeat),
            },
        };
        if let Some(reason) = used_up {
            self.phase = Phase::Closed(reason);
        }
        used_up.is_some()
    }

    /// Whether a packet of this rank is ready.
    pub(crate) fn is_ready(&self, rank: Rank) -> bool {
        match &self.phase {
            Phase::Closed(_) => false,
            Phase::Enabled { open: course, .. } | Phase::Closing { close: course } => {
                rank == Rank::Control && course.is_ready()
            }
            Phase::Open { heartbeat, .. } if rank == Rank::Control => heartbeat.is_ready(),
            Phase::Open { window, .. } => window.next_ready(self.settings.window, rank).is_some(),
        }
    }

    /// The packet of this rank that this end would hand out next, if any.
    pub(crate) fn offer(&self, rank: Rank) -> Option<Offer<'_>> {
        let alone = |kind| self.is_ready(rank).then(|| Offer::alone(kind));
        match &self.phase {
            Phase::Closed(_) => None,
            Phase::Enabled { .. } => alone(kind::OPEN),
            Phase::Closing { .. } => alone(kind::CLOSE),
            Phase::Open { .. } if rank == Rank::Control => alone(kind::HEARTBEAT),
            Phase::Open { window, .. } => {
                let number = window.next_ready(self.settings.window, rank)?;
                let mut segments = self.held.iter().flatten();
                let segment = segments.find(|segment| segment.number == number)?;
                Some(Offer::data(segment))
            }
        }
    }

    /// Notes that the packet of [`SendingEnd::offer`] was handed out. Data, new
    /// or resent, restarts the Heartbeat timer.
    pub(crate) fn hand_out(&mut self, rank: Rank) {
        let timeout = self.settings.timeout;
        match &mut self.phase {
            Phase::Closed(_) => {}
            Phase::Enabled { open, .. } => open.hand_out(timeout),
            Phase::Open { heartbeat, .. } if rank == Rank::Control => heartbeat.hand_out(timeout),
            Phase::Open { window, heartbeat } => {
                window.hand_out(self.settings.window, rank, timeout);
                heartbeat.restart();
            }
            Phase::Closing { close } => close.hand_out(timeout),
        }
    }
}
