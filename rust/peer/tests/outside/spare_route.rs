//! Held units go to a spare route (document 02, A13). Each move is checked for what is
//! said of all moves, so that a test says only what is its own.

use link::Noise;
use peer::node::Node;
use peer::packet::flags;
use peer::packet::kind::{CONTROL_ACK, DATA_ACK};
use peer::settings::Settings;
use peer::state::State;

use crate::calls::{data, new_node, packet, reclaim_all};
use crate::traps::SENDING;

mod answers;
mod checks;
mod lines;
mod octets;
mod random;
mod several;
mod subscriber;

/// A record of a pair: its channel number, which is its index, and the spare that it
/// names.
fn route(index: u16, spare: u32) -> Settings {
    Settings {
        channel: index,
        spare,
        lead: 1,
        ..SENDING
    }
}

/// Channel 0 and its spare, channel 1.
fn pair() -> [Settings; 2] {
    [route(0, 2), route(1, 0)]
}

/// A unit as it is filed by a transfer, on a pair.
fn first_time(unit: &[u8]) -> Vec<u8> {
    [&[0], unit].concat()
}

/// What is filed of a unit once it is moved: "its leading octet is set to 1".
fn again(filed: &[u8]) -> Vec<u8> {
    [&[1], &filed[1..]].concat()
}

/// A node of sending channels.
#[derive(Clone)]
struct Routes {
    node: Node,
    table: Vec<Settings>,
}

impl Routes {
    fn new(table: &[Settings]) -> Routes {
        Routes {
            node: new_node(0, table, &mut Noise::new(13)),
            table: table.to_vec(),
        }
    }

    /// The same, where these channels are OPEN.
    fn opened(table: &[Settings], indices: &[usize]) -> Routes {
        let mut routes = Routes::new(table);
        for &index in indices {
            routes.open(index);
        }
        routes
    }

    /// Channel 0 holds these units and is CLOSED, all others are OPEN and empty.
    fn closed_with(table: &[Settings], units: &[&[u8]]) -> Routes {
        let mut routes = Routes::opened(table, &(0..table.len()).collect::<Vec<_>>());
        for unit in units {
            assert_eq!(routes.transfer(0, unit), 0);
        }
        routes.shut(0);
        routes
    }

    /// From CLOSED to OPEN.
    fn open(&mut self, index: usize) {
        assert_eq!(self.node.open(index).number, 0);
        self.acknowledge(index);
        assert_eq!(self.node.state(index), Some(State::Open));
    }

    /// From OPEN to CLOSED.
    fn shut(&mut self, index: usize) {
        assert_eq!(self.node.close(index).number, 0);
        self.acknowledge(index);
        assert_eq!(self.node.state(index), Some(State::Closed));
    }

    /// Has a channel's Control packet handed out, which goes before all its Data, and
    /// acknowledged.
    fn acknowledge(&mut self, index: usize) {
        let mut handed_out = (0..16).map(|_| self.node.next_packet(&mut [0; 64]).index);
        assert!(handed_out.any(|one| one == Some(index)));
        self.control_ack(index);
    }

    /// Where Flow Control is used the Ack lets nothing be sent yet: it states 0.
    fn control_ack(&mut self, index: usize) {
        let stated = &[0][..self.table[index].flow as usize];
        let ack = data(0, index as u16, CONTROL_ACK, 0, flags::WHOLE, stated);
        assert_eq!(self.node.arrival(&ack, &mut [0; 12]).number, 0);
    }

    fn transfer(&mut self, index: usize, unit: &[u8]) -> u8 {
        self.node.transfer(index, unit).number
    }

    /// How many units a Data Ack confirms, which must be one that counts.
    fn data_ack(&mut self, index: usize, number: u8) -> usize {
        let ack = packet(0, index as u16, DATA_ACK, number);
        let answer = self.node.arrival(&ack, &mut [0; 12]);
        assert_eq!((answer.number, answer.index), (0, Some(index)));
        answer.confirmed
    }

    /// Has a unit of one segment handed out and acknowledged.
    fn confirm(&mut self, index: usize, number: u8) {
        assert_eq!(self.node.next_packet(&mut [0; 64]).index, Some(index));
        assert_eq!(self.data_ack(index, number), 1);
    }

    /// The units that a channel holds: what it would give back if it were closed.
    fn held(&self, index: usize) -> Vec<Vec<u8>> {
        let mut routes = self.clone();
        match routes.node.state(index) {
            Some(State::Enabled) => return Vec::new(),
            Some(State::Open) => assert_eq!(routes.node.close(index).number, 0),
            _ => {}
        }
        if routes.node.state(index) == Some(State::Closing) {
            while routes.node.next_packet(&mut [0; 64]).number == 0 {}
            routes.control_ack(index);
        }
        reclaim_all(&mut routes.node, index)
    }

    /// The answer number of a move, and how many units it moved.
    fn moved(&mut self, first: usize) -> (u8, usize) {
        let before = self.clone();
        let answer = self.node.move_units(first);
        self.check_answer(&before, first, answer);
        (answer.number, answer.length)
    }
}
