//! The run: a host that publishes, a cooling station that falls silent, and the
//! link between them.

use crate::account::Seen;
use crate::ends::{arrival, handed_out};
use crate::events::event;
use crate::link::Link;
use crate::options::Options;
use proved::{NodeTable, Outcome, State};

/// Ticks from one publication to the next.
const PACE: usize = 5;

/// Ticks from one time that the station looks for units to the next.
const LOOKS: usize = 4;

pub struct Hall<'a> {
    pub options: Options,
    pub host: NodeTable<'a>,
    pub station: NodeTable<'a>,
    /// From the host to the station.
    pub there: Link,
    /// From the station to the host.
    pub back: Link,
    pub seen: Seen,
    /// What happened, by the tick in which it did.
    pub story: Vec<(usize, String)>,
    pub now: usize,
    pub silent: bool,
}

impl Hall<'_> {
    /// Plays until every event was published and the channel is CLOSED.
    pub fn play(&mut self) {
        self.station.open(0);
        self.host.open(0);
        while !self.is_over() {
            self.publish();
            self.host_sends();
            self.station_hears();
            self.station_takes();
            self.host_hears();
            self.tick();
        }
        // What the station would take if it were asked once more.
        self.seen.waiting = handed_out(|out| self.station.take(0, out));
    }

    fn is_over(&self) -> bool {
        self.is_published() && self.host.state(0) == Some(State::Closed)
    }

    fn is_published(&self) -> bool {
        self.seen.published.len() == self.options.events
    }

    fn tell(&mut self, what: String) {
        self.story.push((self.now, what));
    }

    /// One event in so many ticks, from when the Open was answered or given up;
    /// when all are published and confirmed, the Close.
    fn publish(&mut self) {
        if self.host.state(0) == Some(State::Enabled) || !self.now.is_multiple_of(PACE) {
            return;
        }
        if self.is_published() {
            if self.seen.confirmed == self.seen.accepted().len() {
                self.host.close(0);
            }
            return;
        }
        let event = event(self.seen.published.len());
        let outcome = self.host.transfer(0, event.as_bytes()).outcome;
        self.tell(match outcome {
            Outcome::Refused(why) => format!("refused   {event} ({}, {why})", why.number()),
            _ => format!("published {event}"),
        });
        self.seen.published.push((event, outcome));
        if self.seen.published.len() == self.options.events.div_ceil(2) {
            self.silent = true;
            self.tell("the cooling station falls silent: its answers go out no more".into());
        }
    }

    fn host_sends(&mut self) {
        for packet in handed_out(|out| self.host.next_packet(out)) {
            self.there.send(self.now, &packet);
        }
    }

    /// A silent station still files what comes; what it would reply is lost.
    fn station_hears(&mut self) {
        for packet in self.there.arriving(self.now) {
            let (answer, reply) = arrival(&mut self.station, &packet);
            if let Outcome::Inactive(reason) = answer.outcome {
                self.tell(format!("the station's channel is inactive ({reason})"));
            }
            if !reply.is_empty() && !self.silent {
                self.back.send(self.now, &reply);
            }
        }
    }

    /// A silent station takes nothing.
    fn station_takes(&mut self) {
        if self.silent || !self.now.is_multiple_of(LOOKS) {
            return;
        }
        let taken = handed_out(|out| self.station.take(0, out));
        if !taken.is_empty() {
            self.tell(format!("the station takes {}", names(&taken)));
        }
        self.seen.taken.extend(taken);
    }

    fn host_hears(&mut self) {
        let before = self.host.state(0);
        let from = self.seen.confirmed;
        for packet in self.back.arriving(self.now) {
            let (answer, _) = arrival(&mut self.host, &packet);
            self.seen.confirmed += answer.confirmed();
        }
        if before == Some(State::Enabled) && self.host.state(0) == Some(State::Open) {
            self.tell("the channel to the cooling station is open".into());
        }
        let accepted = self.seen.accepted();
        let told: Vec<&str> = accepted
            .into_iter()
            .take(self.seen.confirmed)
            .skip(from)
            .collect();
        if !told.is_empty() {
            self.tell(format!("confirmed {}", names(&told)));
        }
    }

    /// When retries are used up, the host reclaims what it holds.
    fn tick(&mut self) {
        self.now += 1;
        self.station.tick();
        let Outcome::Inactive(reason) = self.host.tick().outcome else {
            return;
        };
        self.tell(format!("the channel is inactive ({reason}), and CLOSED"));
        let reclaimed = handed_out(|out| self.host.reclaim(0, out));
        if !reclaimed.is_empty() {
            self.tell(format!("the host reclaims {}", names(&reclaimed)));
        }
        self.seen.reclaimed.extend(reclaimed);
    }
}

/// The numbers that these events begin with.
fn names<T: AsRef<[u8]>>(units: &[T]) -> String {
    let words = units
        .iter()
        .map(|unit| String::from_utf8_lossy(unit.as_ref()));
    let numbers = words.map(|words| words.split(':').next().unwrap_or_default().to_string());
    numbers.collect::<Vec<_>>().join(", ")
}
