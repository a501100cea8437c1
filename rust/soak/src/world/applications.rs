//! What the applications at both ends of a channel do.

use super::*;

impl World {
    /// A round of the host, which publishes.
    pub(super) fn host(&mut self, channel: usize) {
        let Place { node, index } = self.accounts[channel].host;
        let busy = self.load > 0;
        match self.state(self.accounts[channel].host) {
            state::CLOSED if self.noise.percent(50) => self.reclaim(channel),
            state::CLOSED => self.open_host(channel),
            state::ENABLED if busy && self.noise.one_in(100) => {
                self.nodes[node].close(index);
            }
            state::OPEN if busy && self.noise.one_in(3_000) => {
                assert_eq!(self.nodes[node].close(index).number, 0);
            }
            state::OPEN if self.noise.percent(self.load) => self.transfer(channel),
            _ => {}
        }
    }

    /// A round of the subscriber, which at times is slow.
    pub(super) fn subscriber(&mut self, channel: usize) {
        let place = self.accounts[channel].subscriber;
        if self.noise.percent(40) {
            if let Some(unit) = self.nodes[place.node].take(place.index) {
                self.accounts[channel].units.take(&unit);
                self.counts.units[3] += 1;
            }
        }
        if self.state(place) == state::CLOSED && self.noise.percent(20) {
            self.open_subscriber(channel);
        }
    }

    /// A unit is accepted, or there are too few segments or slots for it.
    fn transfer(&mut self, channel: usize) {
        let account = &mut self.accounts[channel];
        let Limits {
            payload, segments, ..
        } = account.limits;
        let longest = self.noise.one_of(&[payload, payload * segments]);
        let length = self.noise.below(longest + 2);
        let unit = self.noise.octets(length);
        let Place { node, index } = account.host;
        let said = self.nodes[node].transfer(index, &unit);
        assert!([0, 6, 7].contains(&said.number), "{said:?}");
        if said.number == 0 {
            account.units.opening().accepted.push(unit);
            self.counts.units[0] += 1;
        }
    }

    fn reclaim(&mut self, channel: usize) {
        let Place { node, index } = self.accounts[channel].host;
        if let Some(unit) = self.nodes[node].reclaim(index) {
            self.accounts[channel].units.reclaim(&unit);
            self.counts.units[2] += 1;
        }
    }

    /// Opens the host's end, unless units are unreclaimed.
    fn open_host(&mut self, channel: usize) {
        let account = &mut self.accounts[channel];
        let Place { node, index } = account.host;
        let said = self.nodes[node].open(index);
        let left = !account.units.held().is_empty();
        assert_eq!(said.number, if left { 10 } else { 0 });
        if !left {
            self.counts.wrapped += u64::from(account.has_wrapped());
            account.units.open_sender();
            account.starts[0] = 1;
            self.counts.openings += 1;
            self.flush(channel);
        }
    }

    /// Opens the subscriber's end, unless units are untaken.
    fn open_subscriber(&mut self, channel: usize) {
        let account = &mut self.accounts[channel];
        let Place { node, index } = account.subscriber;
        let said = self.nodes[node].open(index);
        assert!([0, 10].contains(&said.number), "{said:?}");
        if said.number == 0 {
            account.units.open_receiver();
            account.starts[1] = 1;
            self.flush(channel);
        }
    }

    /// No packet outlives its opening at either end.
    fn flush(&mut self, channel: usize) {
        let number = self.accounts[channel].channel;
        self.links.iter_mut().for_each(|link| link.flush(number));
    }
}
