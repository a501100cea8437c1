//! The receive end of a channel (document 01, Receiving; 000, 4.5).

use std::collections::VecDeque;

use crate::answer::{refuse_if, Refusal};
use crate::flow_control::FlowControl;
use crate::heartbeat::Heartbeat;
use crate::packet::kind;
use crate::segment::{rejoin, Segment};
use crate::settings::Settings;
use crate::slots::Slots;
use crate::state::{Reason, State};

use reception::{place, Place, Reception};

mod handing_out;
mod reception;
mod seen;
mod stating;
#[cfg(test)]
mod tests;

/// The states, each with what belongs to it alone: unfinished units are part
/// of OPEN, so they "are dropped on leaving OPEN".
#[derive(Clone, Debug, PartialEq, Eq)]
enum Phase {
    Closed(Reason),
    Enabled,
    Open {
        reception: Reception,
        heartbeat: Heartbeat,
        flow_control: FlowControl,
    },
    Closing {
        timer: u32,
    },
}

/// A receive end and the complete units it holds.
#[derive(Clone, Debug, PartialEq, Eq)]
pub(crate) struct ReceivingEnd {
    settings: Settings,
    phase: Phase,
    /// Complete units not yet taken, oldest first; they "stay to be taken
    /// after the channel closes".
    complete: VecDeque<Vec<Segment>>,
}

/// What became of a packet that was not refused.
#[derive(Clone, Copy, Debug, PartialEq, Eq)]
pub(crate) enum Reaction {
    /// Accepted and to be acknowledged.
    Accepted,
    /// Not accepted, but to be acknowledged.
    Repeated,
    /// The channel went inactive; no ack.
    Inactive,
}

impl ReceivingEnd {
    /// A channel as settings make it: CLOSED and empty.
    pub(crate) fn new(settings: Settings) -> ReceivingEnd {
        ReceivingEnd {
            settings,
            phase: Phase::Closed(Reason::None),
            complete: VecDeque::new(),
        }
    }

    pub(crate) fn settings(&self) -> &Settings {
        &self.settings
    }

    pub(crate) fn state(&self) -> State {
        match self.phase {
            Phase::Closed(_) => State::Closed,
            Phase::Enabled => State::Enabled,
            Phase::Open { .. } => State::Open,
            Phase::Closing { .. } => State::Closing,
        }
    }

    pub(crate) fn reason(&self) -> Reason {
        match self.phase {
            Phase::Closed(reason) => reason,
            _ => Reason::None,
        }
    }

    /// "An Open directive in CLOSED leads to ENABLED" (000, 4.5.2.2).
    pub(crate) fn open(&mut self) -> Result<(), Refusal> {
        refuse_if(self.state() != State::Closed, Refusal::State)?;
        refuse_if(!self.complete.is_empty(), Refusal::UnitsLeft)?;
        self.phase = Phase::Enabled;
        Ok(())
    }

    /// Hands over the oldest complete unit. No state forbids it. The slots that it
    /// frees may change the number stated.
    pub(crate) fn take(&mut self, out: &mut [u8]) -> Result<usize, Refusal> {
        let oldest = self.complete.front().ok_or(Refusal::Nothing)?;
        let length = rejoin(oldest, out)?;
        let before = self.stated();
        self.complete.pop_front();
        if self.stated() != before {
            self.make_flow_control();
        }
        Ok(length)
    }

    /// The Heartbeat, in OPEN.
    pub(crate) fn heartbeat(&mut self) -> Option<&mut Heartbeat> {
        match &mut self.phase {
            Phase::Open { heartbeat, .. } => Some(heartbeat),
            _ => None,
        }
    }

    /// A tick; true if the channel went inactive in it, as it does when the
    /// retries of a Flow Control packet or of a Heartbeat are used up (000, 4.5.3.7),
    /// by the first before the other is looked at. The close timer "ends and leads to
    /// CLOSED", which is not going inactive.
    pub(crate) fn tick(&mut self) -> bool {
        let retries = self.settings.retries;
        let used_up = match &mut self.phase {
            Phase::Closed(_) | Phase::Enabled => None,
            Phase::Open {
                heartbeat,
                flow_control,
                ..
            } => match flow_control.tick(retries) {
                true => Some(Reason::Retries),
                false => heartbeat.tick(retries).then_some(Reason::Heartbeat),
            },
            Phase::Closing { timer } => {
                *timer -= 1;
                if *timer == 0 {
                    self.phase = Phase::Closed(Reason::None);
                }
                None
            }
        };
        if let Some(reason) = used_up {
            self.go_inactive(reason);
        }
        used_up.is_some()
    }

    /// An Open or a Close (000, 4.5.3.4 (2)). A number other than 0 is wrong
    /// in every state but CLOSED: 000 asks it of CLOSING too, where document
    /// 01 does not and yields.
    pub(crate) fn control(&mut self, command: u8, number: u8) -> Result<Reaction, Refusal> {
        refuse_if(self.state() == State::Closed, Refusal::State)?;
        if number != 0 {
            return Ok(self.go_inactive(Reason::ControlNumber));
        }
        match (&self.phase, command) {
            (Phase::Enabled, kind::OPEN) => {
                self.phase = Phase::Open {
                    reception: Reception::NEW,
                    heartbeat: Heartbeat::new(self.settings.interval),
                    flow_control: FlowControl::default(),
                };
                Ok(Reaction::Accepted)
            }
            (Phase::Open { reception, .. }, kind::OPEN) if reception.has_accepted() => {
                Ok(self.go_inactive(Reason::LateOpen))
            }
            (Phase::Open { .. }, kind::OPEN) => Ok(Reaction::Repeated),
            (Phase::Open { .. }, kind::CLOSE) => {
                let timer = self.settings.close_timeout;
                self.phase = Phase::Closing { timer };
                Ok(Reaction::Accepted)
            }
            (Phase::Closing { .. }, kind::CLOSE) => Ok(Reaction::Repeated),
            _ => Err(Refusal::State),
        }
    }

    /// A Data packet (000, 4.5.3.4 (1)), tested in the order payload over P,
    /// state, number, room, flags.
    pub(crate) fn data(
        &mut self,
        number: u8,
        flags: u8,
        payload: &[u8],
        slots: &mut Slots,
    ) -> Result<Reaction, Refusal> {
        let over = payload.len() > self.settings.most_payload as usize;
        refuse_if(over, Refusal::Header)?;
        let Phase::Open { reception, .. } = &self.phase else {
            return Err(Refusal::State);
        };
        match place(number, reception.start(), self.settings.window) {
            Place::Behind => Ok(Reaction::Repeated),
            Place::Invalid => Ok(self.go_inactive(Reason::DataNumber)),
            Place::InWindow(number) if reception.holds(number) => Ok(Reaction::Repeated),
            Place::InWindow(number) => {
                let segment = Segment {
                    number,
                    flags,
                    octets: payload.to_vec(),
                };
                self.accept(segment, slots)
            }
        }
    }

    /// Files a new segment if there is room for it, and moves the start.
    fn accept(&mut self, segment: Segment, slots: &mut Slots) -> Result<Reaction, Refusal> {
        let Phase::Open { reception, .. } = &mut self.phase else {
            return Err(Refusal::State);
        };
        let past = segment.number - oldest_untaken(&self.complete, reception);
        refuse_if(past >= u64::from(self.settings.slots), Refusal::Full)?;
        slots.file(segment.number, &segment.octets);
        reception.hold(segment);
        let most_segments = self.settings.most_segments as usize;
        let (units, sound) = reception.advance(most_segments);
        self.complete.extend(units);
        if sound {
            Ok(Reaction::Accepted)
        } else {
            Ok(self.go_inactive(Reason::Flags))
        }
    }

    /// "Inactive" means state CLOSED and the record says why.
    fn go_inactive(&mut self, reason: Reason) -> Reaction {
        self.phase = Phase::Closed(reason);
        Reaction::Inactive
    }
}

/// "the oldest segment not yet taken", in OPEN.
fn oldest_untaken(complete: &VecDeque<Vec<Segment>>, reception: &Reception) -> u64 {
    let waits = complete.front().map(|unit| unit[0].number);
    waits.unwrap_or(reception.oldest())
}
