//! The states of a channel and why it went inactive (document 01, Sending and
//! Receiving; 000, 4.4.3.1 and 4.5.2.1).

/// The state of either end.
#[derive(Clone, Copy, Debug, PartialEq, Eq)]
pub enum State {
    /// No opening, or its end.
    Closed,
    /// Opened by the application here, not yet by the Open packet.
    Enabled,
    /// Data flows.
    Open,
    /// A Close was sent or received.
    Closing,
}

/// Why a channel went inactive (document 01, Receiving: "Inactive" means state
/// CLOSED and the record says why).
#[derive(Clone, Copy, Debug, PartialEq, Eq)]
pub enum Reason {
    /// It did not, or an Open directive has been accepted since.
    None,
    /// The timer of a packet ended and its retries were used up.
    Retries,
    /// An Open came when Data had been accepted.
    LateOpen,
    /// A Control packet had a number other than 0.
    ControlNumber,
    /// Data had a number neither in the window nor just behind it.
    DataNumber,
    /// The sequence flags did not make a unit.
    Flags,
    /// The timer of a Heartbeat ended and its retries were used up (document
    /// 02, A2).
    Heartbeat,
}
