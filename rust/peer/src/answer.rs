//! The answer numbers of document 01.

/// Why a call was refused (document 01, Answer numbers). A refused call has
/// changed no record and no octet. A call that was not refused answers 0, 9 or
/// 15, the three that change something.
#[derive(Clone, Copy, Debug, PartialEq, Eq)]
pub enum Refusal {
    /// Under 12 octets, or not 12 + N + X.
    Length,
    /// CRC wrong.
    Crc,
    /// A header field unexpected that is not one of [`Refusal::NotInBase`], a
    /// payload where none may be, or none where one must be.
    Header,
    /// Secondary header, or, of a packet to be written, a type over 7 or a prefix
    /// over 15 octets.
    NotInBase,
    /// The state does not allow it, or the direction does not.
    State,
    /// Unit over M segments.
    TooLong,
    /// Slots held and slots needed are more than there are.
    NoSlots,
    /// Receive slots full.
    Full,
    /// Open while units are untaken or unreclaimed.
    UnitsLeft,
    /// Lent buffer too small.
    Buffer {
        /// The octets that it would have to have.
        wanted: usize,
    },
    /// Nothing to hand out.
    Nothing,
    /// Bad settings.
    Settings,
    /// No such channel.
    NoChannel,
    /// Ack ignored.
    Ignored,
}

impl Refusal {
    /// The number that document 01 gives to this refusal.
    pub fn number(self) -> u32 {
        match self {
            Refusal::Length => 1,
            Refusal::Crc => 2,
            Refusal::Header => 3,
            Refusal::NotInBase => 4,
            Refusal::State => 5,
            Refusal::TooLong => 6,
            Refusal::NoSlots => 7,
            Refusal::Full => 8,
            Refusal::UnitsLeft => 10,
            Refusal::Buffer { .. } => 11,
            Refusal::Nothing => 12,
            Refusal::Settings => 13,
            Refusal::NoChannel => 14,
            Refusal::Ignored => 16,
        }
    }

    /// The octets that were wanted of a buffer which is too small, else 0.
    pub fn wanted(self) -> usize {
        match self {
            Refusal::Buffer { wanted } => wanted,
            _ => 0,
        }
    }
}

/// The refusal, if the test it belongs to failed.
pub(crate) fn refuse_if(wrong: bool, refusal: Refusal) -> Result<(), Refusal> {
    if wrong {
        Err(refusal)
    } else {
        Ok(())
    }
}

/// What a node's call gives back (document 01, Answer numbers).
#[derive(Clone, Copy, Debug, PartialEq, Eq)]
pub struct Answer {
    /// The number in document 01's table.
    pub number: u8,
    /// With 0 and 15 the octets written, of a packet or of a unit: they lie at
    /// the front of the lent buffer. With 11 how many octets were wanted. Of a
    /// move, which writes none, with 0 how many units were moved.
    pub length: usize,
    /// Units that this Data Ack confirmed.
    pub confirmed: usize,
    /// The channel that the call served, by its index, also where its own step
    /// refused; none where the call came to no channel. Of a tick, the lowest
    /// of those that went inactive in it; of a move, the first of the two.
    pub index: Option<usize>,
}

impl Answer {
    /// "done", with nothing written and nothing confirmed.
    pub(crate) const DONE: Answer = Answer::of(0);

    /// "this call made the channel inactive"; 9 writes no reply.
    pub(crate) const INACTIVE: Answer = Answer::of(9);

    const fn of(number: u8) -> Answer {
        Answer {
            number,
            length: 0,
            confirmed: 0,
            index: None,
        }
    }

    /// Octets written at the front of the lent buffer, of a call that has one.
    pub fn octets(self) -> usize {
        match self.number {
            0 | 15 => self.length,
            _ => 0,
        }
    }

    /// The same, of the channel with this index.
    pub(crate) fn at(self, index: usize) -> Answer {
        Answer {
            index: Some(index),
            ..self
        }
    }

    /// "done", with so many octets written.
    pub(crate) fn written(length: usize) -> Answer {
        Answer {
            length,
            ..Answer::DONE
        }
    }

    /// "0 and the number moved" (document 02, A13).
    pub(crate) fn moved(units: usize) -> Answer {
        Answer {
            length: units,
            ..Answer::DONE
        }
    }

    /// "acknowledged, not accepted", with an ack of so many octets.
    pub(crate) fn repeated(length: usize) -> Answer {
        Answer {
            length,
            ..Answer::of(15)
        }
    }

    /// "done", by a Data Ack that confirmed so many units.
    pub(crate) fn confirmed(confirmed: usize) -> Answer {
        Answer {
            confirmed,
            ..Answer::DONE
        }
    }
}

impl From<Refusal> for Answer {
    fn from(refusal: Refusal) -> Answer {
        Answer {
            length: refusal.wanted(),
            ..Answer::of(refusal.number() as u8)
        }
    }
}

impl From<Result<Answer, Refusal>> for Answer {
    fn from(result: Result<Answer, Refusal>) -> Answer {
        result.unwrap_or_else(Answer::from)
    }
}

#[cfg(test)]
mod tests {
    use super::*;

    /// "All but 0, 9 and 15 change no record and no octet."
    #[test]
    fn the_refusals_are_all_numbers_but_0_9_and_15() {
        use Refusal::*;
        let small = Buffer { wanted: 12 };
        let refusals = [
            Length, Crc, Header, NotInBase, State, TooLong, NoSlots, Full, UnitsLeft, small,
            Nothing, Settings, NoChannel, Ignored,
        ];
        let numbers = refusals.map(Refusal::number);
        assert_eq!(numbers, [1, 2, 3, 4, 5, 6, 7, 8, 10, 11, 12, 13, 14, 16]);
        assert_eq!(Answer::DONE.number, 0);
        assert_eq!(Answer::INACTIVE.number, 9);
        assert_eq!(Answer::repeated(12).number, 15);
    }

    /// "With 0 or 15 come the length written and, for a Data Ack, how many
    /// units it confirmed."
    #[test]
    fn a_refusal_comes_with_no_length_and_no_count() {
        let answer = Answer::from(Err(Refusal::Full));
        assert_eq!((answer.number, answer.length, answer.confirmed), (8, 0, 0));
    }

    /// With 11 the length says how many octets were wanted, and none is written.
    #[test]
    fn a_small_buffer_comes_with_the_length_wanted() {
        let answer = Answer::from(Err(Refusal::Buffer { wanted: 40 }));
        assert_eq!((answer.number, answer.length, answer.octets()), (11, 40, 0));
    }
}
