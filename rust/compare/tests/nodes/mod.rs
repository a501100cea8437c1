//! Two nodes, kept twice each, for the tests beside this.
#![allow(dead_code)] // each test uses a part of it

use compare::call::Call;
use compare::tables::ADDRESSES;
use compare::tally::Tally;
use compare::twin::Twin;
use link::Noise;
use peer::prefix::Prefix;
use peer::settings::{Direction, Settings};
use proved::record::Node;

/// A sender's settings with these timeouts and retries.
pub fn settings(channel: u16, timeout: u32, retries: u32) -> Settings {
    Settings {
        direction: Direction::Sending,
        channel,
        remote: ADDRESSES[1],
        remote_prefix: Prefix::NONE,
        own_prefix: Prefix::NONE,
        window: 4,
        slots: 8,
        most_payload: 4,
        most_segments: 4,
        timeout,
        close_timeout: timeout,
        retries,
        interval: 0,
        flow: 0,
        spare: 0,
        lead: 0,
    }
}

/// The other end's.
fn other_end(settings: Settings) -> Settings {
    Settings {
        direction: Direction::Receiving,
        remote: ADDRESSES[0],
        remote_prefix: settings.own_prefix,
        own_prefix: settings.remote_prefix,
        ..settings
    }
}

/// Two nodes, kept twice each, that exchange packets without loss.
pub struct Nodes {
    pub twins: [Twin; 2],
    pub tally: Tally,
    room: usize,
}

impl Nodes {
    /// Node 0 sends in all these channels, node 1 receives; all are open.
    pub fn open(table: &[Settings]) -> Nodes {
        let noise = &mut Noise::new(7);
        let tables = [
            table.to_vec(),
            table.iter().copied().map(other_end).collect(),
        ];
        let twins = [0, 1].map(|node| {
            let own = Node {
                address: ADDRESSES[node],
                protocol: 5,
            };
            Twin::new(own, table.len(), &tables[node], noise)
        });
        let payloads = table.iter().map(|one| one.most_payload as usize);
        let room = 12 + 15 + payloads.max().expect("a channel");
        let tally = Tally::default();
        let mut nodes = Nodes { twins, tally, room };
        for node in [0, 1] {
            assert_eq!(nodes.call(node, Call::Settings(&tables[node]), 0), 0);
            for index in 0..table.len() {
                assert_eq!(nodes.call(node, Call::Open(index), 0), 0);
            }
        }
        nodes.exchange();
        nodes
    }

    /// A call; gives the answer number.
    pub fn call(&mut self, node: usize, call: Call, room: usize) -> u32 {
        let outcome = self.twins[node].call(call, room, &mut self.tally);
        outcome.said.number
    }

    /// A packet of node 0, if one is ready.
    pub fn packet(&mut self) -> Option<Vec<u8>> {
        self.packet_of(0)
    }

    /// A packet of a node, if one is ready.
    pub fn packet_of(&mut self, node: usize) -> Option<Vec<u8>> {
        let outcome = self.twins[node].call(Call::NextPacket, self.room, &mut self.tally);
        (outcome.said.number == 0).then_some(outcome.octets)
    }

    /// Every packet that is ready goes over, and its ack comes back.
    pub fn exchange(&mut self) {
        while let Some(packet) = self.packet() {
            let arrival = Call::Arrival(&packet);
            let ack = self.twins[1].call(arrival, 13 + 15, &mut self.tally).octets;
            assert_eq!(self.call(0, Call::Arrival(&ack), 12), 0);
        }
    }
}
