//! One run of the script: a host that publishes, a station that takes slowly, and
//! the link between them.

use super::counted::Counted;
use crate::ends::{arrival, handed_out, one};
use crate::events::event;
use crate::link::Link;
use crate::options::Options;
use proved::{read_packet, Answer, NodeTable, Outcome, Refusal, State};

/// Ticks from one publication to the next.
pub const PACE: usize = 4;

/// Ticks from one time that the station takes an event to the next.
pub const TAKES: usize = 8;

/// Ticks after which a run that stands still is given up.
const MOST_TICKS: usize = 100_000;

/// The packet types of Data and its Ack (000, Table 4-2).
const DATA: u8 = 0;
const DATA_ACK: u8 = 1;

pub struct Run<'a> {
    options: Options,
    host: NodeTable<'a>,
    station: NodeTable<'a>,
    /// From the host to the station.
    there: Link,
    /// From the station to the host.
    back: Link,
    published: usize,
    counted: Counted,
    now: usize,
}

impl<'a> Run<'a> {
    pub fn new(options: Options, host: NodeTable<'a>, station: NodeTable<'a>) -> Self {
        Run {
            options,
            host,
            station,
            there: Link::new(options.seed, options),
            back: Link::new(!options.seed, options),
            published: 0,
            counted: Counted::default(),
            now: 0,
        }
    }

    /// Plays until every event accepted is taken and confirmed, or an end is inactive.
    pub fn play(mut self) -> Counted {
        self.station.open(0);
        self.host.open(0);
        while !self.is_over() {
            self.publish();
            self.host_sends();
            self.station_hears();
            self.station_takes();
            self.station_sends();
            self.host_hears();
            self.tick();
        }
        self.counted
    }

    fn is_over(&self) -> bool {
        let Counted {
            accepted,
            confirmed,
            taken,
            inactive,
            ..
        } = &self.counted;
        let all = [*confirmed, taken.len()] == [accepted.len(); 2];
        let is_done = self.published == self.options.events && all;
        is_done || inactive.is_some() || self.now == MOST_TICKS
    }

    /// One event in so many ticks, from when the channel is OPEN.
    fn publish(&mut self) {
        let is_time = self.now.is_multiple_of(PACE) && self.published < self.options.events;
        if !is_time || self.host.state(0) != Some(State::Open) {
            return;
        }
        let event = event(self.published).into_bytes();
        self.published += 1;
        if self.host.transfer(0, &event).outcome == Outcome::DONE {
            self.counted.accepted.push(event);
        }
    }

    /// Every event is one segment, and none goes out for the first time before the one
    /// below it: Data that has not the next number is a resend.
    fn host_sends(&mut self) {
        for packet in handed_out(|out| self.host.next_packet(out)) {
            let fields = read_packet(&packet).fields;
            if fields.kind == DATA {
                let next = self.counted.data - self.counted.resends + 1;
                self.counted.data += 1;
                self.counted.resends += usize::from(fields.number != next as u8);
            }
            self.counted.lost += put(&mut self.there, self.now, &packet);
        }
    }

    fn station_hears(&mut self) {
        for packet in self.there.arriving(self.now) {
            let (answer, reply) = arrival(&mut self.station, &packet);
            self.heed("station", answer);
            self.counted.full += usize::from(answer.outcome == Outcome::Refused(Refusal::Full));
            if !reply.is_empty() {
                self.counted.lost += put(&mut self.back, self.now, &reply);
            }
        }
    }

    fn station_takes(&mut self) {
        if self.now.is_multiple_of(TAKES) {
            let taken = one(|out| self.station.take(0, out));
            self.counted.taken.extend(taken);
        }
    }

    /// A receiver hands out Flow Control, and here nothing else.
    fn station_sends(&mut self) {
        for packet in handed_out(|out| self.station.next_packet(out)) {
            self.counted.flow += 1;
            self.counted.lost += put(&mut self.back, self.now, &packet);
        }
    }

    fn host_hears(&mut self) {
        for packet in self.back.arriving(self.now) {
            let (answer, reply) = arrival(&mut self.host, &packet);
            self.heed("host", answer);
            self.counted.confirmed += answer.confirmed();
            if !reply.is_empty() {
                self.counted.lost += put(&mut self.there, self.now, &reply);
            }
        }
    }

    fn tick(&mut self) {
        self.now += 1;
        let (of_host, of_station) = (self.host.tick(), self.station.tick());
        self.heed("host", of_host);
        self.heed("station", of_station);
    }

    /// The first end that goes inactive is the one told of.
    fn heed(&mut self, end: &'static str, answer: Answer) {
        if let Outcome::Inactive(reason) = answer.outcome {
            self.counted.inactive.get_or_insert((end, reason));
        }
    }
}

/// Puts a packet on a link, and tells how many Data packets or Acks of them it lost: one
/// or none.
fn put(link: &mut Link, now: usize, packet: &[u8]) -> usize {
    let before = link.counts.lost;
    link.send(now, packet);
    match read_packet(packet).fields.kind {
        DATA | DATA_ACK => link.counts.lost - before,
        _ => 0,
    }
}
