//! Two nodes, each kept twice, and the links between them: one call at a time.

use link::{Link, Noise};
use peer::packet::kind;
use peer::settings::{Direction, Settings};
use peer::state::State;
use proved::record::Node;

use crate::call::{unlawful, Call};
use crate::damage;
use crate::overwriting::overwrite_and_call;
use crate::sizes::lend_wrongly;
use crate::strays::{from_other_end, CLAUSES};
use crate::tables::{two_tables, Size, ABSENT, ADDRESSES};
use crate::tally::Tally;
use crate::trouble::Trouble;
use crate::twin::{Outcome, Twin};

mod applications;
mod cases;
mod lines;
mod prefixes;

use cases::reason_case;

pub use cases::CASES;
pub use lines::WRITTEN;
pub use prefixes::PREFIXES;

/// Two nodes and what goes on between them.
pub struct World {
    /// What was answered so far.
    pub tally: Tally,
    twins: [Twin; 2],
    links: [Link; 2],
    trouble: Trouble,
    noise: Noise,
    /// Any packet fits into so many octets.
    packet_room: usize,
    /// Nodes that had nothing to hand out, and nothing happened since.
    idle: [bool; 2],
    /// How long the link from a node still takes no packet.
    jams: [usize; 2],
}

impl World {
    /// A world from a seed.
    pub fn new(seed: u64, size: Size, trouble: Trouble) -> World {
        let mut noise = Noise::new(seed);
        let mut tally = Tally::default();
        let tables = two_tables(size, &mut noise);
        let protocol = noise.one_of(&[5, 5, 238]);
        let twins = [0, 1].map(|node| {
            let own = Node {
                address: ADDRESSES[node],
                protocol,
            };
            let table = &tables[node];
            let mut twin = Twin::new(own, table.len(), table, &mut noise);
            twin.call(Call::Open(0), 0, &mut tally);
            twin.call(Call::Settings(table), 0, &mut tally);
            twin
        });
        let packet = |one: &Settings| one.own_prefix.said().len() + one.most_payload as usize;
        let packets = tables.iter().flatten().map(packet);
        let packet_room = 12 + packets.max().unwrap_or(0);
        World {
            tally,
            twins,
            links: [0, 1].map(|_| Link::new(damage::any)),
            trouble,
            noise,
            packet_room,
            idle: [false; 2],
            jams: [0; 2],
        }
    }

    /// One call, or none, as chance has it.
    pub fn step(&mut self) {
        let node = self.noise.below(2);
        if self.noise.percent(self.trouble.stray) {
            return self.stray(node);
        }
        match self.noise.below(100) {
            0..=27 => self.hand_out(node),
            28..=67 => self.deliver(node),
            68..=71 => self.tick(node),
            72..=82 => self.sending_application(node),
            83..=93 => self.receiving_application(node),
            94..=95 => self.clause(node),
            96 => self.any_request(node),
            97 => overwrite_and_call(&mut self.twins[node], &mut self.noise, &mut self.tally),
            98 => self.lend_wrongly(node),
            _ if self.noise.one_in(8) => self.settings(node),
            _ if self.noise.one_in(2) => self.write_lines(node),
            _ => self.any_request(node),
        }
    }

    fn call(&mut self, node: usize, call: Call, room: usize) -> Outcome {
        let outcome = self.twins[node].call(call, room, &mut self.tally);
        self.idle[node] = match (call, outcome.said.number) {
            (Call::NextPacket, number) => number == 12,
            (Call::Reclaim(_) | Call::WouldTransfer(..), _) => self.idle[node],
            (_, 0) => false,
            _ => self.idle[node],
        };
        outcome
    }

    /// Mostly so many octets, or more; now and then too few.
    fn room(&mut self, enough: usize) -> usize {
        match self.noise.below(40) {
            0 => self.noise.below(14),
            1 => enough - 1,
            2..=9 => enough + self.noise.below(20),
            _ => enough,
        }
    }

    /// Now and then a link takes no packet for a while: so channels come to
    /// stand in lines.
    fn is_jammed(&mut self, node: usize) -> bool {
        if self.jams[node] == 0 && self.noise.one_in(100) {
            self.jams[node] = self.noise.below(60);
        }
        self.jams[node] = self.jams[node].saturating_sub(1);
        self.jams[node] > 0
    }

    /// The next packet goes on the link. A node that has none is mostly left
    /// in peace, and its application asked for something.
    fn hand_out(&mut self, node: usize) {
        if self.is_jammed(node) || self.idle[node] && !self.noise.one_in(16) {
            return self.sending_application(node);
        }
        let room = self.room(self.packet_room);
        let outcome = self.call(node, Call::NextPacket, room);
        self.note_next(node, room, outcome.said);
        self.send(node, &outcome.octets);
    }

    /// What a node has written goes on the link to the other. What is for an
    /// absent node is mostly not seen there.
    fn send(&mut self, node: usize, octets: &[u8]) {
        let strange = octets.first() == Some(&ABSENT) && !self.noise.one_in(16);
        if !octets.is_empty() && !strange {
            let weather = self.trouble.weather;
            self.links[1 - node].send(octets, None, weather, &mut self.noise);
        }
    }

    fn deliver(&mut self, node: usize) {
        self.links[node].pass();
        match self.links[node].deliver() {
            Some(flight) => self.arrive(node, &flight.octets),
            None if self.idle == [true; 2] => self.tick(1 - node),
            None if self.idle[1 - node] => self.sending_application(1 - node),
            None => self.hand_out(1 - node),
        }
    }

    /// A packet arrives; what is written goes back.
    fn arrive(&mut self, node: usize, packet: &[u8]) {
        let room = self.room(self.twins[node].reply_length(packet));
        let outcome = self.call(node, Call::Arrival(packet), room);
        self.note_arrival(node, packet, room, &outcome);
        self.send(node, &outcome.octets);
    }

    fn tick(&mut self, node: usize) {
        let said = self.call(node, Call::Tick, 0).said;
        if said.number == 9 {
            self.tally.case(reason_case(said.reason));
        }
        if said.number == 9 && said.index > 0 {
            self.tally
                .case("index: a tick names another than the first");
        }
        // Some may wait to be resent now, and for new Data too.
        if self.noise.one_in(30) {
            self.write_lines(node);
        }
    }

    /// A packet that nobody sent. Where nothing is to break it comes from an
    /// absent node alone, for it would spoil the exchange of those that are
    /// there.
    fn stray(&mut self, node: usize) {
        let twin = &self.twins[node];
        let index = self.noise.below(twin.table.len());
        let absent = twin.settings[index].remote == ABSENT;
        if self.trouble.breaking == 0 && !absent {
            return self.deliver(node);
        }
        let packet = from_other_end(twin, index, self.trouble.breaking, &mut self.noise);
        self.arrive(node, &packet);
    }

    fn stray_packet(&mut self, node: usize) -> Vec<u8> {
        let twin = &self.twins[node];
        let index = self.noise.below(twin.table.len());
        from_other_end(twin, index, self.trouble.breaking, &mut self.noise)
    }

    /// A packet that is good but for one clause.
    fn clause(&mut self, node: usize) {
        let mut packet = self.stray_packet(node);
        let (name, change) = self.noise.one_of(&CLAUSES);
        change(&mut packet, &mut self.noise);
        self.tally.case(name);
        self.arrive(node, &packet);
    }

    fn lend_wrongly(&mut self, node: usize) {
        let packet = self.stray_packet(node);
        lend_wrongly(&self.twins[node], &packet, &mut self.noise, &mut self.tally);
    }

    /// Settings in the middle of a run: refused ones, or the same again.
    fn settings(&mut self, node: usize) {
        let mut settings = self.twins[node].settings.clone();
        if self.trouble.breaking == 0 || self.noise.percent(70) {
            let last = settings.last_mut().expect("a record");
            match self.noise.below(3) {
                0 => last.most_segments = 0,
                1 => last.remote_prefix.length |= 16,
                _ => last.own_prefix.length |= 128,
            }
        }
        self.call(node, Call::Settings(&settings), 0);
    }
}
