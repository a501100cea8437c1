//! Two nodes, the links between them, and a bystander who checks them.

use std::collections::BTreeSet;

use link::{one_bit, Link, Noise, Place, Units, Weather};
use peer::answer::Answer;
use peer::node::Node;
use peer::packet::kind;
use peer::settings::{Direction, Settings};
use peer::state::Reason;

use crate::calls::{checked, new_node, payload_of, ADDRESSES};
use crate::pair::Pair;

mod applications;
pub mod shadow;

use shadow::Shadow;

/// The load at which the sending applications also close their channels.
const BUSY: usize = 60;

/// The kinds of packets that a transmit end hands out, and a receive end.
const HANDED_OUT: [&[u8]; 2] = [
    &[kind::DATA, kind::OPEN, kind::CLOSE, kind::HEARTBEAT],
    &[kind::HEARTBEAT, kind::FLOW_CONTROL],
];

/// Any packet and any unit fits into this buffer.
const BUFFER: usize = 512;

pub struct World {
    pub pairs: Vec<Pair>,
    /// All answer numbers that were given.
    pub seen: BTreeSet<u8>,
    pub weather: Weather,
    /// How often the sending applications have a unit, in percent.
    pub load: usize,
    /// The Heartbeats that the sending ends handed out, and the receiving ones.
    pub heartbeats: [usize; 2],
    /// The Flow Control packets that the receiving ends handed out.
    pub flow_controls: usize,
    nodes: [Node; 2],
    shadows: [Shadow; 2],
    /// The links, each to the node of its index.
    links: [Link; 2],
    noise: Noise,
}

impl World {
    /// A world of these channels: the sending settings of each, and the node
    /// that sends.
    pub fn new(channels: &[(usize, Settings)], weather: Weather, seed: u64) -> World {
        let mut noise = Noise::new(seed);
        let tables = [0, 1].map(|node| table_of(node, channels));
        let nodes = [0, 1].map(|node| new_node(node, &tables[node], &mut noise));
        let shadows = [0, 1].map(|node| Shadow::new(&nodes[node], &tables[node]));
        World {
            pairs: pairs_of(channels),
            seen: BTreeSet::new(),
            weather,
            load: BUSY,
            heartbeats: [0; 2],
            flow_controls: 0,
            nodes,
            shadows,
            links: [0, 1].map(|_| Link::new(one_bit)),
            noise,
        }
    }

    /// One round: applications, packets out, packets in, perhaps a tick.
    pub fn round(&mut self) {
        self.links.iter_mut().for_each(Link::pass);
        for pair in 0..self.pairs.len() {
            self.sending_application(pair);
            self.receiving_application(pair);
        }
        for node in [0, 1, 0, 1] {
            self.hand_out(node);
            self.deliver(node);
        }
        for node in [0, 1] {
            if self.noise.percent(30) {
                self.call(node, |node, _| node.tick());
            }
        }
    }

    /// The checks that are too slow for every call.
    pub fn check(&self) {
        for pair in &self.pairs {
            pair.check(&self.nodes);
        }
    }

    /// The node's state at an end of a pair.
    pub fn state(&self, place: Place) -> peer::state::State {
        self.nodes[place.node]
            .state(place.index)
            .expect("a channel")
    }

    /// A checked call; nothing but filing may have written the storage.
    fn call(
        &mut self,
        node: usize,
        call: impl FnOnce(&mut Node, &mut [u8]) -> Answer,
    ) -> (Answer, Vec<u8>) {
        let result = self.filing_call(node, call);
        self.shadows[node].check(&self.nodes[node]);
        result
    }

    /// A checked call that may file a segment.
    fn filing_call(
        &mut self,
        node: usize,
        call: impl FnOnce(&mut Node, &mut [u8]) -> Answer,
    ) -> (Answer, Vec<u8>) {
        let result = checked(&mut self.nodes[node], BUFFER, call);
        self.seen.insert(result.0.number);
        result
    }

    /// The next packet of a node goes on the link to the other.
    fn hand_out(&mut self, node: usize) {
        let (answer, packet) = self.call(node, |node, out| node.next_packet(out));
        if answer.number == 12 {
            return;
        }
        assert_eq!(answer.number, 0);
        let channel = u16::from_be_bytes([packet[5], packet[6]]);
        let pair = &mut self.pairs[usize::from(channel)];
        let kind = packet[2] & 0b111;
        let receives = usize::from(pair.receiver.node == node);
        self.heartbeats[receives] += usize::from(kind == kind::HEARTBEAT);
        self.flow_controls += usize::from(kind == kind::FLOW_CONTROL);
        assert!(HANDED_OUT[receives].contains(&kind));
        let segment = (kind == kind::DATA).then(|| pair.units.segment_sent(packet[7]));
        if let Some(segment) = segment {
            let filed = self.shadows[node].read(pair.sender.index, segment);
            assert_eq!(payload_of(&packet), filed);
        }
        self.links[1 - node].send(&packet, segment, self.weather, &mut self.noise);
    }

    /// The next packet on its link arrives at a node.
    fn deliver(&mut self, node: usize) {
        let Some(flight) = self.links[node].deliver() else {
            return;
        };
        let packet = &flight.octets;
        let (answer, reply) = self.filing_call(node, |node, out| node.arrival(packet, out));
        if flight.damaged {
            assert!([1, 2].contains(&answer.number));
        } else if let (Some(segment), 0) = (flight.segment, answer.number) {
            self.accepted(usize::from(flight.channel), segment, payload_of(packet));
        } else {
            let pair = &mut self.pairs[usize::from(flight.channel)];
            if answer.confirmed > 0 {
                pair.units.opening().confirmed += answer.confirmed;
            }
            let reason = self.nodes[node].reason(pair.receiver.index);
            assert!(pair.receiver.node != node || reason != Some(Reason::Flags));
        }
        self.shadows[node].check(&self.nodes[node]);
        if answer.octets() > 0 {
            self.links[1 - node].send(&reply, None, self.weather, &mut self.noise);
        }
    }

    /// A unit, here by its opening and its place there, lies in the slots of its
    /// segments at an end until it is given away.
    fn check_slots(&self, pair: &Pair, end: Place, of: (usize, usize), unit: &[u8]) {
        let first = pair.first_segment(of.0, of.1);
        let segments = first..first + pair.count(unit) as u64;
        let shadow = &self.shadows[end.node];
        let filed = segments.flat_map(|segment| shadow.read(end.index, segment));
        assert!(filed.eq(unit));
    }

    /// A receive end has accepted a segment of the present opening.
    fn accepted(&mut self, pair: usize, segment: u64, payload: &[u8]) {
        let pair = &mut self.pairs[pair];
        pair.units.tie();
        let Place { node, index } = pair.receiver;
        self.shadows[node].file(index, segment, payload);
    }
}

/// The table of a node: in the other's it is the other way round, and the
/// channel's number is its place in the list.
fn table_of(node: usize, channels: &[(usize, Settings)]) -> Vec<Settings> {
    let remote = ADDRESSES[1 - node];
    let directed = |&(sender, settings): &(usize, Settings)| match sender == node {
        true => Settings { remote, ..settings },
        false => Settings {
            direction: Direction::Receiving,
            remote,
            remote_prefix: settings.own_prefix,
            own_prefix: settings.remote_prefix,
            ..settings
        },
    };
    let mut table: Vec<Settings> = channels.iter().map(directed).collect();
    if node == 1 {
        table.reverse();
    }
    table
}

fn pairs_of(channels: &[(usize, Settings)]) -> Vec<Pair> {
    let place = |node: usize, channel: usize| Place {
        node,
        index: if node == 0 {
            channel
        } else {
            channels.len() - 1 - channel
        },
    };
    let pair = |(channel, &(sender, settings)): (usize, &(usize, Settings))| Pair {
        settings,
        sender: place(sender, channel),
        receiver: place(1 - sender, channel),
        units: Units::default(),
    };
    channels.iter().enumerate().map(pair).collect()
}
