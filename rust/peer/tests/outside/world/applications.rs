//! What the applications at both ends of a channel do.

use link::Place;
use peer::state::State;

use super::{World, BUSY};

impl World {
    /// A round of the sending application.
    pub fn sending_application(&mut self, pair: usize) {
        let Place { node, index } = self.pairs[pair].sender;
        match self.state(self.pairs[pair].sender) {
            State::Closed if self.noise.percent(50) => self.reclaim(pair),
            State::Closed => self.open_sender(pair),
            State::Enabled if self.load == BUSY && self.noise.percent(1) => {
                self.call(node, |node, _| node.close(index));
            }
            State::Open if self.load == BUSY && self.noise.below(10_000) == 0 => {
                let (answer, _) = self.call(node, |node, _| node.close(index));
                assert_eq!(answer.number, 0);
            }
            State::Open if self.noise.percent(self.load) => self.transfer(pair),
            _ => {}
        }
    }

    /// A round of the receiving application, which at times is slow.
    pub fn receiving_application(&mut self, pair: usize) {
        if self.noise.percent(40) {
            self.take(pair);
        }
        if self.state(self.pairs[pair].receiver) == State::Closed && self.noise.percent(20) {
            self.open_receiver(pair);
        }
    }

    /// A unit is accepted, or there are too few segments or slots for it.
    fn transfer(&mut self, pair: usize) {
        let Place { node, index } = self.pairs[pair].sender;
        let settings = self.pairs[pair].settings;
        let most_payload = settings.most_payload as usize;
        let longest = most_payload * settings.most_segments as usize;
        let length = self.noise.below(longest + 2);
        let unit = self.noise.octets(length);
        let expected = self.answer_to(pair, &unit);
        let (answer, _) = self.filing_call(node, |node, _| node.transfer(index, &unit));
        assert_eq!(answer.number, expected);
        if expected == 0 {
            let first = self.pairs[pair].next_segment();
            let pieces = unit.chunks(most_payload);
            let empty = unit.is_empty().then_some(&[][..]);
            for (segment, piece) in (first..).zip(pieces.chain(empty)) {
                self.shadows[node].file(index, segment, piece);
            }
            self.pairs[pair].units.opening().accepted.push(unit);
        }
        self.shadows[node].check(&self.nodes[node]);
    }

    /// The answer that the transfer of a unit must give in OPEN.
    fn answer_to(&self, pair: usize, unit: &[u8]) -> u8 {
        let pair = &self.pairs[pair];
        let opening = pair.units.openings.last().expect("opened before");
        let held = opening.accepted[opening.confirmed..].iter();
        let held: usize = held.map(|unit| pair.count(unit)).sum();
        match pair.count(unit) {
            needed if needed > pair.settings.most_segments as usize => 6,
            needed if held + needed > pair.settings.slots as usize => 7,
            _ => 0,
        }
    }

    /// Takes a unit, if there is one: "units taken are a prefix of those
    /// accepted".
    fn take(&mut self, pair: usize) {
        let Place { node, index } = self.pairs[pair].receiver;
        let (answer, unit) = self.call(node, |node, out| node.take(index, out));
        if answer.number == 12 {
            return;
        }
        assert_eq!(answer.number, 0);
        let of = self.pairs[pair].units.take(&unit);
        let pair = &self.pairs[pair];
        self.check_slots(pair, pair.receiver, of, &unit);
    }

    /// Reclaims a unit, if there is one: the oldest that was not confirmed.
    fn reclaim(&mut self, pair: usize) {
        let Place { node, index } = self.pairs[pair].sender;
        let (answer, unit) = self.call(node, |node, out| node.reclaim(index, out));
        if answer.number == 12 {
            return;
        }
        assert_eq!(answer.number, 0);
        let of = self.pairs[pair].units.reclaim(&unit);
        let pair = &self.pairs[pair];
        self.check_slots(pair, pair.sender, of, &unit);
    }

    /// Opens the transmit end, unless units are unreclaimed.
    fn open_sender(&mut self, pair: usize) {
        let Place { node, index } = self.pairs[pair].sender;
        let (answer, _) = self.call(node, |node, _| node.open(index));
        let units = &mut self.pairs[pair].units;
        let left = !units.held().is_empty();
        assert_eq!(answer.number, if left { 10 } else { 0 });
        if !left {
            units.open_sender();
            self.flush(pair);
        }
    }

    /// Opens the receive end, unless units are untaken.
    fn open_receiver(&mut self, pair: usize) {
        let Place { node, index } = self.pairs[pair].receiver;
        let (answer, _) = self.call(node, |node, _| node.open(index));
        if answer.number == 10 {
            return;
        }
        assert_eq!(answer.number, 0);
        self.pairs[pair].units.open_receiver();
        self.flush(pair);
    }

    /// No packet outlives its opening at either end.
    fn flush(&mut self, pair: usize) {
        let channel = self.pairs[pair].settings.channel;
        self.links.iter_mut().for_each(|link| link.flush(channel));
    }
}
