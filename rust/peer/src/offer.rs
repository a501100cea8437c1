//! What an end would hand out next, and its rank (document 01, Sending: "Each
//! call for a packet hands out one"; document 02, A2, A4 and A5).

use std::borrow::Cow;

use crate::packet::{flags, kind};
use crate::segment::{sequence_number, Segment};

/// What a packet is handed out as. "A Heartbeat ranks with Control, after it in
/// a channel", where the two never meet: Control is for ENABLED and CLOSING, a
/// Heartbeat for OPEN (000, 4.4.4.4). A Flow Control packet "ranks with Control, last
/// in a channel": after the Heartbeat.
#[derive(Clone, Copy, Debug, PartialEq, Eq)]
pub(crate) enum Rank {
    Control,
    ResentData,
    NewData,
}

impl Rank {
    /// "Control before resent Data before new Data."
    pub(crate) const ALL: [Rank; 3] = [Rank::Control, Rank::ResentData, Rank::NewData];
}

/// A packet that an end would hand out.
#[derive(Clone, Debug, PartialEq, Eq)]
pub(crate) struct Offer<'a> {
    pub(crate) kind: u8,
    pub(crate) flags: u8,
    pub(crate) number: u8,
    pub(crate) payload: Cow<'a, [u8]>,
}

impl<'a> Offer<'a> {
    /// A Control packet or a Heartbeat: number 0, flags 11, no payload (000,
    /// 4.4.4.4 and 4.5.3.7, 4.2.3.4.4 and 4.2.4.1).
    pub(crate) fn alone(kind: u8) -> Offer<'a> {
        Offer {
            kind,
            flags: flags::WHOLE,
            number: 0,
            payload: Cow::Borrowed(&[]),
        }
    }

    /// A Flow Control packet of this Sequence Number: the number stated is all its
    /// payload, "one octet" (000, 4.2.4.4).
    pub(crate) fn flow_control(number: u8, stated: u8) -> Offer<'a> {
        Offer {
            number,
            payload: Cow::Owned(vec![stated]),
            ..Offer::alone(kind::FLOW_CONTROL)
        }
    }

    pub(crate) fn data(segment: &'a Segment) -> Offer<'a> {
        Offer {
            kind: kind::DATA,
            flags: segment.flags,
            number: sequence_number(segment.number),
            payload: Cow::Borrowed(&segment.octets),
        }
    }
}
