//! What the numbers of a record mean, as `crates/channel` names them.

/// Slots that a record has a mark for, used or not.
pub const SLOTS: usize = 128;

/// Most octets of a prefix (000, 4.2.3.8.3).
pub const PREFIX: usize = 15;

/// Most records in a table.
pub const RECORDS: usize = 16;

/// Octets of the lines, 17 for each of three ranks (document 02, A4).
pub const LINES: usize = 51;

/// The protocol ID of SpaceWire-R (000, 4.2.3.3): what a node has unless it is
/// set otherwise.
pub const PROTOCOL: u8 = 5;

/// Whether this end of a channel sends or receives.
pub mod direction {
    /// The transmit end.
    pub const SENDS: u8 = 0;
    /// The receive end.
    pub const RECEIVES: u8 = 1;
}

/// The states of a channel (000, 4.4.3 and 4.5.2).
pub mod state {
    /// Nothing is sent or received.
    pub const CLOSED: u8 = 0;
    /// An Open directive was given, and the other end has not answered.
    pub const ENABLED: u8 = 1;
    /// Units go over it.
    pub const OPEN: u8 = 2;
    /// A Close is on its way, or was answered.
    pub const CLOSING: u8 = 3;
}

/// Why a channel went inactive.
pub mod reason {
    /// It did not.
    pub const NONE: u8 = 0;
    /// The retries of Data, an Open, a Close or a Flow Control packet were used up.
    pub const RETRIES: u8 = 1;
    /// An Open came after Data was accepted.
    pub const LATE_OPEN: u8 = 2;
    /// A Control packet had another number than 0.
    pub const CONTROL_NUMBER: u8 = 3;
    /// Data had a number neither in the window nor at most k behind it.
    pub const DATA_NUMBER: u8 = 4;
    /// The flags of segments in a row do not make units.
    pub const BROKEN_FLAGS: u8 = 5;
    /// The retries of a Heartbeat were used up (document 02, A2).
    pub const UNANSWERED: u8 = 6;
}

/// The states of a packet that is sent alone.
pub mod lone {
    /// There is none.
    pub const NONE: u8 = 0;
    /// It is ready for the first time.
    pub const READY: u8 = 1;
    /// It was handed out, and its timer runs.
    pub const OUT: u8 = 2;
    /// Its timer ended, and it is ready again.
    pub const AGAIN: u8 = 3;
}
