//! A channel record: one end of a channel, of either direction.

use crate::answer::Refusal;
use crate::heartbeat::Heartbeat;
use crate::offer::{Offer, Rank};
use crate::receiving::ReceivingEnd;
use crate::sending::SendingEnd;
use crate::settings::{Direction, Settings};
use crate::sight::Sight;
use crate::state::{Reason, State};

/// A record of the table.
#[derive(Clone, Debug, PartialEq, Eq)]
pub(crate) enum Channel {
    Sending(SendingEnd),
    Receiving(ReceivingEnd),
}

impl Channel {
    pub(crate) fn new(settings: Settings) -> Channel {
        match settings.direction {
            Direction::Sending => Channel::Sending(SendingEnd::new(settings)),
            Direction::Receiving => Channel::Receiving(ReceivingEnd::new(settings)),
        }
    }

    pub(crate) fn settings(&self) -> &Settings {
        match self {
            Channel::Sending(end) => end.settings(),
            Channel::Receiving(end) => end.settings(),
        }
    }

    pub(crate) fn state(&self) -> State {
        match self {
            Channel::Sending(end) => end.state(),
            Channel::Receiving(end) => end.state(),
        }
    }

    pub(crate) fn reason(&self) -> Reason {
        match self {
            Channel::Sending(end) => end.reason(),
            Channel::Receiving(end) => end.reason(),
        }
    }

    pub(crate) fn sight(&self) -> Sight {
        match self {
            Channel::Sending(end) => end.sight(),
            Channel::Receiving(end) => end.sight(),
        }
    }

    /// An Open directive, for which either direction has a place.
    pub(crate) fn open(&mut self) -> Result<(), Refusal> {
        match self {
            Channel::Sending(end) => end.open(),
            Channel::Receiving(end) => end.open(),
        }
    }

    /// The tests of a transfer of so many octets.
    pub(crate) fn test_transfer(&self, octets: usize) -> Result<(), Refusal> {
        match self {
            Channel::Sending(end) => end.test_transfer(octets),
            Channel::Receiving(_) => Err(Refusal::State),
        }
    }

    /// The transmit end that a request needs; the other direction gives 5.
    pub(crate) fn sending(&mut self) -> Result<&mut SendingEnd, Refusal> {
        match self {
            Channel::Sending(end) => Ok(end),
            Channel::Receiving(_) => Err(Refusal::State),
        }
    }

    /// The receive end that a request needs; the other direction gives 5.
    pub(crate) fn receiving(&mut self) -> Result<&mut ReceivingEnd, Refusal> {
        match self {
            Channel::Receiving(end) => Ok(end),
            Channel::Sending(_) => Err(Refusal::State),
        }
    }

    /// Whether a packet of this rank is ready.
    pub(crate) fn is_ready(&self, rank: Rank) -> bool {
        match self {
            Channel::Sending(end) => end.is_ready(rank),
            Channel::Receiving(end) => end.is_ready(rank),
        }
    }

    /// The packet of this rank that this end would hand out next, if any.
    pub(crate) fn offer(&self, rank: Rank) -> Option<Offer<'_>> {
        match self {
            Channel::Sending(end) => end.offer(rank),
            Channel::Receiving(end) => end.offer(rank),
        }
    }

    /// Notes that the packet of [`Channel::offer`] was handed out.
    pub(crate) fn hand_out(&mut self, rank: Rank) {
        match self {
            Channel::Sending(end) => end.hand_out(rank),
            Channel::Receiving(end) => end.hand_out(),
        }
    }

    /// The Heartbeat of this end; in another state than OPEN it has none, and
    /// what belongs to it gives 5.
    pub(crate) fn heartbeat(&mut self) -> Result<&mut Heartbeat, Refusal> {
        let heartbeat = match self {
            Channel::Sending(end) => end.heartbeat(),
            Channel::Receiving(end) => end.heartbeat(),
        };
        heartbeat.ok_or(Refusal::State)
    }

    /// A tick; true if the channel went inactive in it.
    pub(crate) fn tick(&mut self) -> bool {
        match self {
            Channel::Sending(end) => end.tick(),
            Channel::Receiving(end) => end.tick(),
        }
    }
}
