//! The record of a channel and its parts, as `crates/channel` has them: numbers
//! and arrays of numbers only, so that every bit pattern is a value, and a
//! record that was spoilt is refused with 13 and never undefined.

pub use crate::numbers::{direction, lone, reason, state, LINES, PREFIX, PROTOCOL, RECORDS, SLOTS};

/// `PeatNode`: the node's own settings.
#[repr(C)]
#[derive(Clone, Copy, Debug, Default, PartialEq, Eq)]
pub struct Node {
    /// Own logical address.
    pub address: u8,
    /// Protocol ID.
    pub protocol: u8,
}

/// `PeatPrefix`: what stands before the source address in packets from another
/// region (000, 4.2.3.9.2).
#[repr(C)]
#[derive(Clone, Copy, Debug, Default, PartialEq, Eq)]
pub struct Prefix {
    /// How many octets it has: 0 to 15.
    pub length: u8,
    /// These, and then 0 in every octet.
    pub octets: [u8; PREFIX],
}

impl Prefix {
    /// No prefix.
    pub const NONE: Prefix = Prefix {
        length: 0,
        octets: [0; PREFIX],
    };

    /// The prefix of these octets, if there are not too many.
    pub fn of(said: &[u8]) -> Option<Prefix> {
        let mut prefix = Prefix::NONE;
        prefix.octets.get_mut(..said.len())?.copy_from_slice(said);
        prefix.length = said.len() as u8;
        Some(prefix)
    }

    /// The octets that it has; of one whose length is out of bounds, all.
    pub fn said(&self) -> &[u8] {
        &self.octets[..PREFIX.min(self.length.into())]
    }
}

/// `PeatAddresses`: which channel it is, to which node, and whether this end
/// sends or receives. No two records of a table may agree in channel, remote and
/// remote prefix, whatever their directions.
#[repr(C)]
#[derive(Clone, Copy, Debug, Default, PartialEq, Eq)]
pub struct Addresses {
    /// Channel number.
    pub channel: u16,
    /// The other node's logical address.
    pub remote: u8,
    /// One of [`direction`].
    pub direction: u8,
    /// The prefix that packets from the other node have.
    pub remote_prefix: Prefix,
    /// The prefix that packets to the other node have.
    pub own_prefix: Prefix,
}

/// `PeatLimits`: what the settings fix.
#[repr(C)]
#[derive(Clone, Copy, Debug, Default, PartialEq, Eq)]
pub struct Limits {
    /// Window k: a power of two, 1 to 128.
    pub window: usize,
    /// Slots: k to 128.
    pub slots: usize,
    /// P, the most payload octets: 1 to 1,024.
    pub payload: usize,
    /// M, the most segments in a unit: 1 to slots.
    pub segments: usize,
    /// Ticks until a packet that is not acknowledged is ready again.
    pub timeout: u16,
    /// Ticks that a receiver stays in CLOSING.
    pub closing: u16,
    /// Resends allowed to a packet: 0 to 255.
    pub retries: u16,
    /// Ticks after which this end makes a Heartbeat if it has sent neither Data nor
    /// an Ack meanwhile, in OPEN; 0: it makes none.
    pub interval: u16,
    /// 1: Flow Control is used; 0: it is not. The other end's must be the same.
    pub flow: u16,
    /// Of a sender, its spare: the index and 1 more of another sending record; 0:
    /// it names none.
    pub spare: u16,
    /// 1 exactly if the record names a spare or is named as one: its units have a
    /// leading octet; else 0.
    pub lead: u16,
}

/// `PeatSettings`: of one channel.
#[repr(C)]
#[derive(Clone, Copy, Debug, Default, PartialEq, Eq)]
pub struct Settings {
    /// Which channel it is.
    pub addresses: Addresses,
    /// What it is allowed.
    pub limits: Limits,
}

/// `PeatLone`: one packet that is sent alone, a sender's Open or Close, the
/// Heartbeat of either end, or a receiver's Flow Control packet.
#[repr(C)]
#[derive(Clone, Copy, Debug, Default, PartialEq, Eq)]
pub struct Lone {
    /// One of [`lone`].
    pub state: u8,
    /// Ticks left while it is out.
    pub timer: u16,
    /// The resends left to it.
    pub tries: u16,
}

/// `PeatPhase`: where an opening stands.
#[repr(C)]
#[derive(Clone, Copy, Debug, Default, PartialEq, Eq)]
pub struct Phase {
    /// One of [`state`].
    pub state: u8,
    /// One of [`reason`].
    pub reason: u8,
    /// Not 0: a Close directive waits for the Open's ack.
    pub kept: u8,
    /// Not 0: Data was accepted in this opening.
    pub accepted: u8,
    /// The Open or the Close of a sender.
    pub control: Lone,
}

/// `PeatFlow`: Flow Control (document 02, A5). What a receiver states, and what a
/// sender has recorded of it.
#[repr(C)]
#[derive(Clone, Copy, Debug, Default, PartialEq, Eq)]
pub struct Flow {
    /// Of a receiver: the Flow Control packet that is ready or not acknowledged.
    pub packet: Lone,
    /// Of a receiver: that packet's own number, once it was handed out; else 0.
    pub number: u8,
    /// Of a receiver: the number that it stated when it was first handed out; else 0.
    pub stated: u8,
    /// Of a receiver: the number of the last packet sent, whether Flow Control is used
    /// or not. Of a sender it means nothing.
    pub last: u8,
    /// Of a sender: the number recorded, up to which it may send; 0 where Flow Control
    /// is not used.
    pub recorded: u8,
}

/// `PeatPulse`: the Heartbeat of an end, and Flow Control; all zeros out of OPEN, in a
/// record that settings and calls alone have written.
#[repr(C)]
#[derive(Clone, Copy, Debug, Default, PartialEq, Eq)]
pub struct Pulse {
    /// Ticks left until a Heartbeat is made; 0: none runs.
    pub left: u16,
    /// The Heartbeat that is ready or not acknowledged.
    pub beat: Lone,
    /// Flow Control.
    pub flow: Flow,
}

/// `PeatWindow`: the window's first number, and what lies before it and from it
/// on.
#[repr(C)]
#[derive(Clone, Copy, Debug, Default, PartialEq, Eq)]
pub struct Window {
    /// The window's first number.
    pub start: u8,
    /// The place on the ring of slots where that segment lies: the number does
    /// not tell it.
    pub place: usize,
    /// Segments kept before the start: sent and passed, but their unit is not
    /// confirmed; or received and not taken.
    pub behind: usize,
    /// A sender's segments from the start on.
    pub ahead: usize,
    /// Of these, those that were handed out.
    pub flight: usize,
    /// Of the receiver's last behind, those of a unit that is not finished.
    pub way: usize,
}

/// `PeatTimers`: by place on the ring, but for the close timer.
#[repr(C)]
#[derive(Clone, Copy, Debug, PartialEq, Eq)]
pub struct Timers {
    /// The receiver's close timer.
    pub closing: u16,
    /// Ticks left to a segment that is out; 0: no timer runs.
    pub left: [u16; SLOTS],
    /// The resends left to a segment.
    pub tries: [u16; SLOTS],
}

/// `PeatChannel`: the whole record.
#[repr(C)]
#[derive(Clone, Copy, Debug, PartialEq, Eq)]
pub struct Channel {
    /// Which channel it is.
    pub addresses: Addresses,
    /// What it is allowed.
    pub limits: Limits,
    /// Where an opening stands.
    pub phase: Phase,
    /// Its Heartbeat, and Flow Control.
    pub pulse: Pulse,
    /// Where the window stands, and what is held.
    pub window: Window,
    /// What runs.
    pub timers: Timers,
    /// By place: 0 for a slot not in use, else the segment's flags and 1 more.
    pub marks: [u8; SLOTS],
    /// By place: not 0 once the segment was acknowledged.
    pub acked: [u8; SLOTS],
}

impl Addresses {
    /// All zeros.
    pub const fn blank() -> Self {
        Addresses {
            channel: 0,
            remote: 0,
            direction: direction::SENDS,
            remote_prefix: Prefix::NONE,
            own_prefix: Prefix::NONE,
        }
    }
}

impl Lone {
    /// None.
    pub const fn blank() -> Self {
        Lone {
            state: lone::NONE,
            timer: 0,
            tries: 0,
        }
    }
}

impl Flow {
    /// No packet, and no number.
    pub const fn blank() -> Self {
        Flow {
            packet: Lone::blank(),
            number: 0,
            stated: 0,
            last: 0,
            recorded: 0,
        }
    }
}

impl Timers {
    /// None runs.
    pub const fn blank() -> Self {
        Timers {
            closing: 0,
            left: [0; SLOTS],
            tries: [0; SLOTS],
        }
    }
}

impl Channel {
    /// All zeros: what a caller lends to [`crate::calls::settings`] to be made.
    /// It lacks the standing condition, so every other call refuses it with 13.
    pub const fn blank() -> Self {
        Channel {
            addresses: Addresses::blank(),
            limits: Limits {
                window: 0,
                slots: 0,
                payload: 0,
                segments: 0,
                timeout: 0,
                closing: 0,
                retries: 0,
                interval: 0,
                flow: 0,
                spare: 0,
                lead: 0,
            },
            phase: Phase {
                state: state::CLOSED,
                reason: reason::NONE,
                kept: 0,
                accepted: 0,
                control: Lone::blank(),
            },
            pulse: Pulse {
                left: 0,
                beat: Lone::blank(),
                flow: Flow::blank(),
            },
            window: Window {
                start: 0,
                place: 0,
                behind: 0,
                ahead: 0,
                flight: 0,
                way: 0,
            },
            timers: Timers::blank(),
            marks: [0; SLOTS],
            acked: [0; SLOTS],
        }
    }
}

impl Default for Timers {
    fn default() -> Self {
        Timers::blank()
    }
}

impl Default for Channel {
    fn default() -> Self {
        Channel::blank()
    }
}
