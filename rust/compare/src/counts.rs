//! How often each call gave each answer.

use std::collections::BTreeMap;
use std::fmt;

/// The answers that reading a packet alone can give.
pub const OF_READING: [u32; 5] = [0, 1, 2, 3, 4];

/// The answers that writing a packet alone can give.
pub const OF_WRITING: [u32; 4] = [0, 3, 4, 11];

/// Counts of pairs of call and answer.
#[derive(Default)]
pub struct Counts {
    counts: BTreeMap<(&'static str, u32), u64>,
}

impl Counts {
    /// One more of this pair.
    pub fn add(&mut self, call: &'static str, answer: u32) {
        *self.counts.entry((call, answer)).or_default() += 1;
    }

    /// Panics unless this call gave each of these answers, and no other.
    #[track_caller]
    pub fn assert_answers(&self, call: &str, answers: &[u32]) {
        let pairs = self.counts.keys().filter(|(of, _)| *of == call);
        let seen: Vec<u32> = pairs.map(|(_, answer)| *answer).collect();
        assert_eq!(seen, answers, "the answers to {call}");
    }
}

impl fmt::Display for Counts {
    fn fmt(&self, out: &mut fmt::Formatter) -> fmt::Result {
        for ((call, answer), count) in &self.counts {
            writeln!(out, "{call} answered {answer}: {count} times")?;
        }
        Ok(())
    }
}
