//! Two nodes, the links between them, and the accounts of their channels.

use link::{one_bit, Flight, Link, Noise, Place, Weather};
use proved::record::{direction, reason, state, Limits};

use crate::account::Account;
use crate::node::Node;

mod applications;
mod counts;
mod tables;

pub use counts::Counts;
use tables::{accounts_of, prefixes_of, table_of};

/// The addresses of the two nodes.
const ADDRESSES: [u8; 2] = [64, 65];

/// The packet types of Data, a Heartbeat and its Ack, Flow Control and its Ack.
const DATA: u8 = 0;
const HEARTBEAT: u8 = 4;
const HEARTBEAT_ACK: u8 = 5;
const FLOW_CONTROL: u8 = 6;

/// Two nodes and what a bystander knows of them.
pub struct World {
    /// What happened.
    pub counts: Counts,
    /// How bad the links are.
    pub weather: Weather,
    /// How often the hosts have a unit, in percent; at 0 they close nothing.
    pub load: usize,
    /// Whether the links keep the premise of lateness.
    pub premise: bool,
    /// The channels.
    pub accounts: Vec<Account>,
    nodes: [Node; 2],
    /// The links, each to the node of its index.
    links: [Link; 2],
    noise: Noise,
}

impl World {
    /// A world of these channels: what each is allowed, and the node that sends.
    pub fn new(channels: &[(usize, Limits)], weather: Weather, seed: u64) -> World {
        let mut noise = Noise::new(seed);
        let prefixes = prefixes_of(channels.len(), seed);
        let nodes = [0, 1].map(|node| {
            let table = table_of(node, channels, &prefixes);
            Node::new(ADDRESSES[node], &table, &mut noise)
        });
        World {
            counts: Counts::default(),
            weather,
            load: 60,
            premise: true,
            accounts: accounts_of(channels),
            nodes,
            links: [0, 1].map(|_| Link::new(one_bit)),
            noise,
        }
    }

    /// One round: applications, packets out, packets in, perhaps a tick.
    pub fn round(&mut self) {
        self.links.iter_mut().for_each(Link::pass);
        for channel in 0..self.accounts.len() {
            self.host(channel);
            self.subscriber(channel);
        }
        for node in [0, 1, 0, 1] {
            self.hand_out(node);
            self.deliver(node);
        }
        for node in [0, 1] {
            if self.noise.percent(30) {
                let states = self.states(node);
                self.nodes[node].tick();
                self.note_closed(node, &states);
            }
        }
    }

    /// The three claims, of every channel.
    pub fn check(&mut self) {
        for account in &self.accounts {
            account.check(&self.nodes);
            self.counts.checks += 1;
        }
        self.counts.packets[0] = self.links.iter().map(|link| link.lost).sum();
    }

    /// The state of an end.
    pub fn state(&self, place: Place) -> u8 {
        self.nodes[place.node].record(place.index).phase.state
    }

    fn states(&self, node: usize) -> Vec<u8> {
        let records = 0..self.accounts.len();
        let state = |index| self.nodes[node].record(index).phase.state;
        records.map(state).collect()
    }

    /// Counts the ends of a node that closed in a call.
    fn note_closed(&mut self, node: usize, before: &[u8]) {
        for (index, &state) in before.iter().enumerate() {
            let record = self.nodes[node].record(index);
            if state != state::CLOSED && record.phase.state == state::CLOSED {
                let receives = record.addresses.direction == direction::RECEIVES;
                match record.phase.reason {
                    reason::NONE => self.counts.closed += 1,
                    reason => self.counts.inactive[usize::from(reason) - 1] += 1,
                }
                let unanswered = record.phase.reason == reason::UNANSWERED;
                self.counts.unanswered[usize::from(receives)] += u64::from(unanswered);
            }
        }
    }

    /// The next packet of a node goes on the link to the other.
    fn hand_out(&mut self, node: usize) {
        let Some(packet) = self.nodes[node].next_packet() else {
            return;
        };
        let channel = usize::from(u16::from_be_bytes([packet[5], packet[6]]));
        let kind = packet[2] & 0b111;
        let account = &mut self.accounts[channel];
        let subscriber = usize::from(account.subscriber.node == node);
        self.counts.heartbeats[subscriber] += u64::from(kind == HEARTBEAT);
        self.counts.flow_controls[0] += u64::from(kind == FLOW_CONTROL);
        let of_either = kind == HEARTBEAT;
        assert!(of_either || (subscriber == 1) == (kind == FLOW_CONTROL));
        let segment = (kind == DATA).then(|| account.units.segment_sent(packet[7]));
        self.counts.regional += u64::from(packet[8] > 0);
        self.links[1 - node].send(&packet, segment, self.weather, &mut self.noise);
    }

    /// The next packet on its link arrives at a node, if it is not too late.
    fn deliver(&mut self, node: usize) {
        let Some(flight) = self.links[node].deliver() else {
            return;
        };
        let account = &self.accounts[usize::from(flight.channel)];
        let end = usize::from(account.subscriber.node == node);
        let late = |segment| account.is_late(end, segment);
        if self.premise && flight.segment.is_some_and(late) {
            self.counts.packets[2] += 1;
            return;
        }
        self.arrive(node, end, flight);
    }

    fn arrive(&mut self, node: usize, end: usize, flight: Flight) {
        let states = self.states(node);
        let (said, reply) = self.nodes[node].arrival(&flight.octets);
        self.note_closed(node, &states);
        let account = &mut self.accounts[usize::from(flight.channel)];
        let place = [account.host, account.subscriber][end];
        account.follow(end, self.nodes[node].record(place.index));
        if !flight.damaged {
            assert_eq!(said.index, place.index, "{said:?}");
        }
        if flight.damaged {
            assert!([1, 2].contains(&said.number), "{said:?}");
            self.counts.packets[1] += 1;
        } else if said.number == 0 && end == 1 && flight.segment.is_some() {
            account.units.tie();
        } else if said.confirmed > 0 {
            account.units.opening().confirmed += said.confirmed;
            account.check_confirmed(&self.nodes);
            self.counts.units[1] += said.confirmed as u64;
        }
        self.counts.packets[3] += u64::from(said.number == 15);
        self.counts.full[usize::from(account.limits.flow)] += u64::from(said.number == 8);
        if !flight.damaged && said.number == 0 {
            match flight.octets[2] & 0b111 {
                HEARTBEAT => self.counts.heartbeats[2] += 1,
                HEARTBEAT_ACK => self.counts.heartbeats[3] += 1,
                FLOW_CONTROL => self.counts.flow_controls[1 + end] += 1,
                _ => {}
            }
        }
        if !reply.is_empty() {
            self.links[1 - node].send(&reply, flight.segment, self.weather, &mut self.noise);
        }
    }
}
