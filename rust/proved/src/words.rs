//! A channel's state and the reason why it went inactive, in words.

use crate::numbers::{reason, state};
use std::fmt;

/// The states of a channel (000, 4.4.3 and 4.5.2).
#[derive(Clone, Copy, Debug, PartialEq, Eq)]
pub enum State {
    /// Nothing is sent or received.
    Closed,
    /// An Open directive was given, and the other end has not answered.
    Enabled,
    /// Units go over it.
    Open,
    /// A Close is on its way, or was answered.
    Closing,
}

impl State {
    /// The state with this number.
    pub fn of(number: u8) -> Option<State> {
        match number {
            state::CLOSED => Some(State::Closed),
            state::ENABLED => Some(State::Enabled),
            state::OPEN => Some(State::Open),
            state::CLOSING => Some(State::Closing),
            _ => None,
        }
    }
}

impl fmt::Display for State {
    fn fmt(&self, to: &mut fmt::Formatter<'_>) -> fmt::Result {
        to.write_str(match self {
            State::Closed => "CLOSED",
            State::Enabled => "ENABLED",
            State::Open => "OPEN",
            State::Closing => "CLOSING",
        })
    }
}

/// Why a channel went inactive.
#[derive(Clone, Copy, Debug, PartialEq, Eq)]
pub enum Reason {
    /// The retries of Data, an Open, a Close or a Flow Control packet were used up.
    Retries,
    /// An Open came after Data was accepted.
    LateOpen,
    /// A Control packet had another number than 0.
    ControlNumber,
    /// Data had a number neither in the window nor at most k behind it.
    DataNumber,
    /// The flags of segments in a row do not make units.
    BrokenFlags,
    /// The retries of a Heartbeat were used up.
    Unanswered,
}

impl Reason {
    /// The reason with this number; 0 is none.
    pub fn of(number: u8) -> Option<Reason> {
        match number {
            reason::RETRIES => Some(Reason::Retries),
            reason::LATE_OPEN => Some(Reason::LateOpen),
            reason::CONTROL_NUMBER => Some(Reason::ControlNumber),
            reason::DATA_NUMBER => Some(Reason::DataNumber),
            reason::BROKEN_FLAGS => Some(Reason::BrokenFlags),
            reason::UNANSWERED => Some(Reason::Unanswered),
            _ => None,
        }
    }
}

impl fmt::Display for Reason {
    fn fmt(&self, to: &mut fmt::Formatter<'_>) -> fmt::Result {
        to.write_str(match self {
            Reason::Retries => "retries used up",
            Reason::LateOpen => "late Open",
            Reason::ControlNumber => "Control number",
            Reason::DataNumber => "Data number",
            Reason::BrokenFlags => "flags",
            Reason::Unanswered => "Heartbeat unanswered",
        })
    }
}
