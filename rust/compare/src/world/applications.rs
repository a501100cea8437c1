//! What the applications at a node ask for.

use super::*;

impl World {
    /// A record of this direction, if chance finds one.
    fn record(&mut self, node: usize, direction: Direction) -> Option<usize> {
        let twin = &self.twins[node];
        let count = twin.settings.len();
        let from = self.noise.below(count);
        let mut turn = (0..count).map(|place| (from + place) % count);
        turn.find(|&index| twin.direction(index) == direction)
    }

    /// What makes sense at a transmit end in its state.
    pub(super) fn sending_application(&mut self, node: usize) {
        let Some(index) = self.record(node, Direction::Sending) else {
            return self.receiving_application(node);
        };
        let closes = self.noise.below(1_000) < self.trouble.closing;
        let held = self.twins[node].table[index].window.ahead > 0;
        match self.twins[node].state(index) {
            State::Closed if held == self.noise.one_in(8) => {
                self.call(node, Call::Open(index), 0);
            }
            State::Closed => self.reclaim(node, index),
            State::Open | State::Enabled if closes => {
                self.call(node, Call::Close(index), 0);
            }
            State::Open if self.is_full(node, index) && !self.noise.one_in(4) => {}
            State::Open => self.transfer(node, index),
            _ => {}
        }
    }

    /// Whether no slot of a record is free.
    fn is_full(&self, node: usize, index: usize) -> bool {
        let record = &self.twins[node].table[index];
        record.window.behind + record.window.ahead == record.limits.slots
    }

    /// What makes sense at a receive end.
    pub(super) fn receiving_application(&mut self, node: usize) {
        let Some(index) = self.record(node, Direction::Receiving) else {
            return;
        };
        let untaken = self.twins[node].table[index].window.behind > 0;
        let closed = self.twins[node].state(index) == State::Closed;
        if closed && untaken == self.noise.one_in(8) {
            self.call(node, Call::Open(index), 0);
        } else if untaken || self.noise.one_in(4) {
            self.take(node, index);
        }
    }

    /// A unit, of none to all of its segments, or one octet too long.
    fn transfer(&mut self, node: usize, index: usize) {
        let Settings {
            most_payload,
            most_segments,
            ..
        } = self.twins[node].settings[index];
        let segments = match self.noise.below(12) {
            0 => most_segments,
            1 => 0,
            _ => most_segments.min(3),
        };
        let longest = (segments * most_payload) as usize;
        let length = match self.noise.below(30) {
            0 => (most_segments * most_payload) as usize + 1,
            1..=4 => longest,
            _ => self.noise.below(longest + 1),
        };
        let unit = self.noise.octets(length);
        if self.noise.one_in(4) {
            return self.ask_and_transfer(node, index, &unit);
        }
        let said = self.call(node, Call::Transfer(index, &unit), 0).said;
        self.note_lead(node, index, length, said.number);
    }

    /// A unit on a pair of routes has a leading octet (document 02, A13).
    fn note_lead(&mut self, node: usize, index: usize, length: usize, number: u32) {
        let settings = &self.twins[node].settings[index];
        let most = (settings.most_segments * settings.most_payload) as usize;
        if settings.lead == 0 {
            return;
        }
        match (number, length) {
            (0, 0) => self
                .tally
                .case("transferred: no octet, behind a leading one"),
            (0, _) => self.tally.case("transferred: behind a leading octet"),
            (6, _) if length == most => self
                .tally
                .case("transferred: too long by the leading octet alone"),
            _ => {}
        }
    }

    /// The question, and then the transfer: it answers what was told.
    fn ask_and_transfer(&mut self, node: usize, index: usize, unit: &[u8]) {
        let question = Call::WouldTransfer(index, unit.len());
        let told = self.call(node, question, 0).said;
        let said = self.call(node, Call::Transfer(index, unit), 0).said;
        assert_eq!(said, told);
        self.tally.case("question: what the transfer then answers");
    }

    /// A buffer that the oldest unit fits into, or mostly.
    fn unit_room(&mut self, node: usize, index: usize) -> usize {
        let settings = &self.twins[node].settings[index];
        let longest = (settings.most_segments * settings.most_payload) as usize;
        match self.noise.below(10) {
            0 => self.noise.below(longest + 1),
            _ => longest,
        }
    }

    fn take(&mut self, node: usize, index: usize) {
        let room = self.unit_room(node, index);
        let before = self.twins[node].table[index].window.behind;
        let outcome = self.call(node, Call::Take(index), room);
        let gone = before - self.twins[node].table[index].window.behind;
        self.note_unit(
            outcome,
            gone,
            "taken: a unit of no octets",
            "taken: a unit of segments",
        );
    }

    fn reclaim(&mut self, node: usize, index: usize) {
        let room = self.unit_room(node, index);
        let before = self.twins[node].table[index].window.ahead;
        let outcome = self.call(node, Call::Reclaim(index), room);
        let gone = before - self.twins[node].table[index].window.ahead;
        self.note_unit(
            outcome,
            gone,
            "reclaimed: a unit of no octets",
            "reclaimed: a unit of segments",
        );
    }

    /// Any request of any record, also of one that is not there.
    pub(super) fn any_request(&mut self, node: usize) {
        let count = self.twins[node].settings.len();
        let beyond = self.noise.one_of(&[count, count + 1, 16, 255, usize::MAX]);
        let within = self.noise.below(count);
        let index = self.noise.one_of(&[within, within, within, beyond]);
        let length = self.noise.below(4);
        let unit = self.noise.octets(length);
        let room = self.noise.below(40);
        let count = self.noise.one_of(&[length, 100, 70_000, usize::MAX]);
        let call = match self.noise.below(10) {
            0 => Call::Open(index),
            // A Close of one that is there ends its opening.
            1 if self.trouble.breaking == 0 => Call::Close(beyond),
            1 => Call::Close(index),
            2 | 3 => Call::Transfer(index, &unit),
            4 | 5 => Call::Take(index),
            6 | 7 => Call::WouldTransfer(index, count),
            _ => Call::Reclaim(index),
        };
        self.call(node, call, room);
    }
}
