//! Which call gave which answer, and how often.

use std::collections::BTreeMap;
use std::fmt;

/// The answers that each call can give: those that docs/PROMISES.md lists for
/// it, from document 01, Answer numbers. 13 comes from each but settings where
/// a record lacks its condition, the lines are none of the table's, a size is
/// wrong, or the records are not 1 to 16. The lines of arrivals say what kind of packet came: 'read' for one that
/// passes the tests 11, 1, 2, 4 and the first 3, and so has a kind that counts.
/// Data alone can find the slots full or have a payload over P; an Ack alone
/// is ignored; a receive end alone goes inactive by a packet or answers 15. 11 comes
/// again where a reply is due, for one with a prefix (document 02, A7) or one that
/// states a number (A5); 3 for what that asks for or forbids.
pub const POSSIBLE: [(&str, &[u32]); 20] = [
    ("settings", &[0, 13]),
    ("open", &[0, 5, 10, 13, 14]),
    ("close", &[0, 5, 13, 14]),
    ("transfer", &[0, 5, 6, 7, 13, 14]),
    ("would_transfer", &[0, 5, 6, 7, 13, 14]),
    ("take", &[0, 5, 11, 12, 13, 14]),
    ("reclaim", &[0, 5, 11, 12, 13, 14]),
    ("next_packet", &[0, 11, 12, 13]),
    ("tick", &[0, 9, 13]),
    ("arrival", &[0, 1, 2, 3, 4, 5, 8, 9, 11, 13, 14, 15, 16]),
    ("read Data", &[0, 3, 5, 8, 9, 11, 14, 15]),
    ("read Data Ack", &[0, 3, 5, 14, 16]),
    ("read Open", &[0, 5, 9, 11, 14, 15]),
    ("read Close", &[0, 5, 9, 11, 14, 15]),
    ("read Heartbeat", &[0, 5, 11, 14]),
    ("read Heartbeat Ack", &[0, 5, 14, 16]),
    ("read Flow Control", &[0, 3, 5, 11, 14]),
    ("read Flow Control Ack", &[0, 3, 5, 14, 16]),
    ("read Control Ack", &[0, 3, 5, 14, 16]),
    ("not read", &[1, 2, 3, 4, 11, 13]),
];

/// The answer numbers of document 01 go to 16.
const NUMBERS: usize = 17;

/// Counts of answers by line, and of cases by name.
#[derive(Clone, Default)]
pub struct Tally {
    /// Calls made of both libraries and compared.
    pub calls: u64,
    /// Calls made of the proved library alone, where the peer cannot be asked.
    pub alone: u64,
    /// The most packets of a rank that were handed out before that of a channel
    /// which waited in its line.
    pub waited: usize,
    lines: BTreeMap<&'static str, [u64; NUMBERS]>,
    cases: BTreeMap<&'static str, u64>,
}

impl Tally {
    /// One more answer in this line.
    pub fn answer(&mut self, line: &'static str, number: u32) {
        let counts = self.lines.entry(line).or_default();
        counts[number as usize] += 1;
    }

    /// One more of this case.
    pub fn case(&mut self, case: &'static str) {
        *self.cases.entry(case).or_default() += 1;
    }

    /// Adds the counts of another run.
    pub fn add(&mut self, other: &Tally) {
        self.calls += other.calls;
        self.alone += other.alone;
        self.waited = self.waited.max(other.waited);
        for (line, counts) in &other.lines {
            let sums = self.lines.entry(line).or_default();
            for (sum, count) in sums.iter_mut().zip(counts) {
                *sum += count;
            }
        }
        for (case, count) in &other.cases {
            *self.cases.entry(case).or_default() += count;
        }
    }

    /// Panics unless each answer that can occur did, and no other, and each of
    /// these cases.
    #[track_caller]
    pub fn assert_complete(&self, cases: &[&str]) {
        for (line, possible) in POSSIBLE {
            let counts = self.lines.get(line).copied().unwrap_or_default();
            let seen = (0..NUMBERS as u32).filter(|&number| counts[number as usize] > 0);
            let seen: Vec<u32> = seen.collect();
            assert_eq!(seen, possible, "the answers to {line}");
        }
        let known = POSSIBLE.map(|(line, _)| line);
        assert!(self.lines.keys().all(|line| known.contains(line)));
        for case in cases {
            assert!(self.cases.contains_key(case), "no case of: {case}");
        }
    }
}

/// The table: a line for each call, a column for each number; '-' where the
/// pair cannot occur.
impl fmt::Display for Tally {
    fn fmt(&self, out: &mut fmt::Formatter) -> fmt::Result {
        write!(out, "{:<22}", "answer")?;
        (0..NUMBERS).try_for_each(|number| write!(out, "{number:>8}"))?;
        writeln!(out)?;
        for (line, possible) in POSSIBLE {
            let counts = self.lines.get(line).copied().unwrap_or_default();
            write!(out, "{line:<22}")?;
            for (number, count) in (0..).zip(counts) {
                if count == 0 && !possible.contains(&number) {
                    write!(out, "{:>8}", "-")?;
                } else {
                    write!(out, "{count:>8}")?;
                }
            }
            writeln!(out)?;
        }
        for (case, count) in &self.cases {
            writeln!(out, "{count:>9}  {case}")?;
        }
        Ok(())
    }
}
