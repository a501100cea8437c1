//! A link in one direction that loses packets, repeats them, and lets later ones
//! overtake them.

use crate::options::Options;
use link::Noise;

/// Ticks that a packet is on its way if nothing befalls it.
const WAY: usize = 1;

/// The most ticks that a packet is late. In these the window moves by far fewer
/// than 256 - k segments, so that the lateness premise of document 01 is kept.
const LATEST: usize = 4;

pub struct Link {
    noise: Noise,
    options: Options,
    /// When each arrives, in the order in which they were sent.
    under_way: Vec<(usize, Vec<u8>)>,
    pub counts: Counts,
}

/// What befell the packets.
#[derive(Clone, Copy, Default)]
pub struct Counts {
    pub sent: usize,
    pub lost: usize,
    pub repeated: usize,
    pub late: usize,
}

impl Link {
    pub fn new(seed: usize, options: Options) -> Self {
        Link {
            noise: Noise::new(seed as u64),
            options,
            under_way: Vec::new(),
            counts: Counts::default(),
        }
    }

    pub fn send(&mut self, now: usize, packet: &[u8]) {
        self.counts.sent += 1;
        if self.noise.percent(self.options.loss) {
            self.counts.lost += 1;
            return;
        }
        let late = self.noise.percent(self.options.reorder);
        self.counts.late += usize::from(late);
        let first = now + WAY + if late { self.lateness() } else { 0 };
        self.under_way.push((first, packet.to_vec()));
        if self.noise.percent(self.options.repeat) {
            self.counts.repeated += 1;
            let second = now + WAY + self.lateness();
            self.under_way.push((second, packet.to_vec()));
        }
    }

    fn lateness(&mut self) -> usize {
        1 + self.noise.below(LATEST)
    }

    /// What arrives by now, the earliest first.
    pub fn arriving(&mut self, now: usize) -> Vec<Vec<u8>> {
        self.under_way.sort_by_key(|(when, _)| *when);
        let later = self.under_way.partition_point(|(when, _)| *when <= now);
        let due = self.under_way.drain(..later);
        due.map(|(_, packet)| packet).collect()
    }
}
