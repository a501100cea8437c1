//! What a bystander knows of the units of a channel between two nodes.

/// Where an end lies: the node, and the index in its table.
#[derive(Clone, Copy, Debug, PartialEq, Eq)]
pub struct Place {
    /// The node, 0 or 1.
    pub node: usize,
    /// The index.
    pub index: usize,
}

/// One opening of the transmit end.
#[derive(Clone, Debug, Default)]
pub struct Opening {
    /// The units accepted, in order.
    pub accepted: Vec<Vec<u8>>,
    /// How many of them the transmit end said are confirmed.
    pub confirmed: usize,
    /// The last segment handed out for the first time.
    pub last_sent: u64,
    /// How many of the units were reclaimed.
    reclaimed: usize,
    /// How many had come through when the receive end's opening was over.
    delivered: usize,
}

/// The units of a channel, and their fate, by what the applications at its ends
/// see. At any moment:
/// 1. the units taken or waiting at the receive end are the first so many that the
///    transmit end accepted, octet for octet and in order;
/// 2. every unit that the transmit end said is confirmed is among them;
/// 3. the units accepted are those confirmed, then those reclaimed, then those
///    still held, in order.
#[derive(Clone, Debug, Default)]
pub struct Units {
    /// All openings of the transmit end; the last is the present one.
    pub openings: Vec<Opening>,
    /// The opening from which the receive end has accepted Data, if it has.
    tied: Option<usize>,
    /// The units taken in the receive end's present opening.
    taken: usize,
}

impl Units {
    /// The transmit end's present opening.
    pub fn opening(&mut self) -> &mut Opening {
        self.openings.last_mut().expect("opened before")
    }

    /// Another opening of the transmit end.
    pub fn open_sender(&mut self) {
        self.openings.push(Opening::default());
    }

    /// Another opening of the receive end.
    pub fn open_receiver(&mut self) {
        if let Some(tied) = self.tied.take() {
            self.openings[tied].delivered = self.taken;
        }
        self.taken = 0;
    }

    /// The segment that was handed out with this number: none is handed out for
    /// the first time before the one below it.
    pub fn segment_sent(&mut self, number: u8) -> u64 {
        let opening = self.opening();
        let newest = opening.last_sent + 1;
        let back = u64::from((newest as u8).wrapping_sub(number));
        opening.last_sent = opening.last_sent.max(newest - back);
        newest - back
    }

    /// The receive end has accepted Data, which is of the present opening, as is
    /// all that it accepted before.
    pub fn tie(&mut self) {
        let present = self.openings.len() - 1;
        assert_eq!(*self.tied.get_or_insert(present), present);
    }

    /// Claim 1 as an application sees it: a unit taken is the next one accepted.
    /// Gives its opening, and its place there.
    pub fn take(&mut self, unit: &[u8]) -> (usize, usize) {
        let opening = self.tied.expect("only Data makes units");
        let next = self.openings[opening].accepted.get(self.taken);
        assert_eq!(Some(unit), next.map(Vec::as_slice), "claim 1");
        self.taken += 1;
        (opening, self.taken - 1)
    }

    /// Claim 3 as an application sees it: a unit reclaimed is the oldest that was
    /// not confirmed. Gives its opening, and its place there.
    pub fn reclaim(&mut self, unit: &[u8]) -> (usize, usize) {
        let opening = self.opening();
        let place = opening.confirmed + opening.reclaimed;
        assert_eq!(unit, opening.accepted[place], "claim 3");
        opening.reclaimed += 1;
        (self.openings.len() - 1, place)
    }

    /// The units that the transmit end must hold.
    pub fn held(&self) -> &[Vec<u8>] {
        match self.openings.last() {
            Some(opening) => &opening.accepted[opening.confirmed + opening.reclaimed..],
            None => &[],
        }
    }

    /// The three claims, of the units held and those waiting.
    pub fn check(&self, held: &[Vec<u8>], waiting: &[Vec<u8>]) {
        assert_eq!(held, self.held(), "claim 3");
        self.check_confirmed(waiting);
    }

    /// Claims 1 and 2, of the units waiting.
    pub fn check_confirmed(&self, waiting: &[Vec<u8>]) {
        let accepted = match self.tied {
            Some(tied) => &self.openings[tied].accepted[self.taken..],
            None => &[],
        };
        assert_eq!(Some(waiting), accepted.get(..waiting.len()), "claim 1");
        let Some(opening) = self.openings.last() else {
            return;
        };
        let present = self.tied == Some(self.openings.len() - 1);
        let delivered = match present {
            true => self.taken + waiting.len(),
            false => opening.delivered,
        };
        assert!(opening.confirmed <= delivered, "claim 2");
    }

    /// All that was accepted in the present opening is confirmed and taken.
    pub fn check_settled(&self) {
        let opening = self.openings.last().expect("an opening");
        assert_eq!(opening.confirmed, opening.accepted.len());
        assert_eq!(self.taken, opening.accepted.len());
    }
}
