//! What a call answers, in words (document 01, Answer numbers).

use crate::c::Said;
use crate::words::Reason;
use std::fmt;

/// What a call answers: which channel it served, and what came of it.
#[derive(Clone, Copy, Debug, PartialEq, Eq)]
pub struct Answer {
    /// The index of the channel that the call served, also where that channel's
    /// own step refused; none where the call came to no channel. Of a tick, the
    /// lowest of those that went inactive in it.
    pub index: Option<usize>,
    /// What came of it.
    pub outcome: Outcome,
}

/// What came of a call.
#[derive(Clone, Copy, Debug, PartialEq, Eq)]
pub enum Outcome {
    /// 0: done.
    Done {
        /// Octets written.
        length: usize,
        /// Units that a Data Ack confirmed.
        confirmed: usize,
    },
    /// 15: acknowledged, not accepted.
    Repeated {
        /// Octets written.
        length: usize,
    },
    /// 9: this call made a channel inactive.
    Inactive(Reason),
    /// Any other number: nothing has changed.
    Refused(Refusal),
}

/// Why nothing was done. Each has document 01's number.
#[derive(Clone, Copy, Debug, PartialEq, Eq)]
pub enum Refusal {
    /// Under 12 octets, or not 12 + N + X.
    Short,
    /// The check sum is wrong.
    Damaged,
    /// Another header field is unexpected, or the payload is too long, or there
    /// is one where none may be, or none where Flow Control asks for one.
    Strange,
    /// Secondary header, or, to be written, a type over 7 or a prefix of over 15
    /// octets.
    Lacking,
    /// The state, or the direction, does not allow it.
    State,
    /// The unit has over M segments.
    Long,
    /// Slots held and slots needed are over the slots.
    NoRoom,
    /// The receive slots are full.
    Full,
    /// Units are untaken or unreclaimed.
    Untaken,
    /// The lent buffer is too small.
    Small {
        /// The octets that it would have to have.
        wanted: usize,
    },
    /// There is nothing to hand out.
    Nothing,
    /// Bad settings, sizes that do not fit, lines that are none of the
    /// table's, or a
    /// record that lacks its standing condition.
    Settings,
    /// No such channel.
    NoChannel,
    /// The ack is ignored.
    Ignored,
}

impl Refusal {
    /// Document 01's number.
    pub fn number(self) -> u32 {
        match self {
            Refusal::Short => 1,
            Refusal::Damaged => 2,
            Refusal::Strange => 3,
            Refusal::Lacking => 4,
            Refusal::State => 5,
            Refusal::Long => 6,
            Refusal::NoRoom => 7,
            Refusal::Full => 8,
            Refusal::Untaken => 10,
            Refusal::Small { .. } => 11,
            Refusal::Nothing => 12,
            Refusal::Settings => 13,
            Refusal::NoChannel => 14,
            Refusal::Ignored => 16,
        }
    }

    /// The refusal with this number, and with the length that came with it.
    pub fn of(number: u32, length: usize) -> Option<Refusal> {
        Some(match number {
            1 => Refusal::Short,
            2 => Refusal::Damaged,
            3 => Refusal::Strange,
            4 => Refusal::Lacking,
            5 => Refusal::State,
            6 => Refusal::Long,
            7 => Refusal::NoRoom,
            8 => Refusal::Full,
            10 => Refusal::Untaken,
            11 => Refusal::Small { wanted: length },
            12 => Refusal::Nothing,
            13 => Refusal::Settings,
            14 => Refusal::NoChannel,
            16 => Refusal::Ignored,
            _ => return None,
        })
    }
}

impl fmt::Display for Refusal {
    fn fmt(&self, to: &mut fmt::Formatter<'_>) -> fmt::Result {
        to.write_str(match self {
            Refusal::Short => "not 12 + N + X octets",
            Refusal::Damaged => "check sum wrong",
            Refusal::Strange => "header field unexpected",
            Refusal::Lacking => "not in the base",
            Refusal::State => "the state does not allow it",
            Refusal::Long => "unit over M segments",
            Refusal::NoRoom => "no room in the slots",
            Refusal::Full => "receive slots full",
            Refusal::Untaken => "units untaken or unreclaimed",
            Refusal::Small { .. } => "buffer too small",
            Refusal::Nothing => "nothing to hand out",
            Refusal::Settings => "bad settings",
            Refusal::NoChannel => "no such channel",
            Refusal::Ignored => "ack ignored",
        })
    }
}

impl Outcome {
    /// Done, with nothing written and nothing confirmed.
    pub const DONE: Outcome = Outcome::Done {
        length: 0,
        confirmed: 0,
    };

    /// Document 01's number.
    pub fn number(self) -> u32 {
        match self {
            Outcome::Done { .. } => 0,
            Outcome::Repeated { .. } => 15,
            Outcome::Inactive(_) => 9,
            Outcome::Refused(refusal) => refusal.number(),
        }
    }
}

impl Answer {
    /// What a call over so many records said. The library answers by document
    /// 01's numbers and reasons alone: that is proved (`said_of`), so that a number
    /// without a name here means that something else was linked.
    pub fn of(said: Said, records: usize) -> Answer {
        let Said {
            number,
            reason,
            length,
            confirmed,
            index,
        } = said;
        let outcome = match number {
            0 => Outcome::Done { length, confirmed },
            15 => Outcome::Repeated { length },
            9 => Outcome::Inactive(named(u8::try_from(reason).ok().and_then(Reason::of))),
            _ => Outcome::Refused(named(Refusal::of(number, length))),
        };
        let index = (index < records).then_some(index);
        Answer { index, outcome }
    }

    /// Document 01's number.
    pub fn number(self) -> u32 {
        self.outcome.number()
    }

    /// Octets written.
    pub fn length(self) -> usize {
        match self.outcome {
            Outcome::Done { length, .. } | Outcome::Repeated { length } => length,
            Outcome::Inactive(_) | Outcome::Refused(_) => 0,
        }
    }

    /// Octets that were wanted of a buffer that is too small, if it is.
    pub fn wanted(self) -> Option<usize> {
        match self.outcome {
            Outcome::Refused(Refusal::Small { wanted }) => Some(wanted),
            _ => None,
        }
    }

    /// Units that a Data Ack confirmed.
    pub fn confirmed(self) -> usize {
        match self.outcome {
            Outcome::Done { confirmed, .. } => confirmed,
            _ => 0,
        }
    }
}

fn named<T>(name: Option<T>) -> T {
    name.expect("the library answers by the numbers of document 01")
}
