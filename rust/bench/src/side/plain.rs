//! The plain Rust peer.

use peer::lines::LINE_OCTETS;
use peer::settings::{storage, NodeSettings, Settings};

use super::{Given, Side};

/// The plain Rust peer.
#[derive(Clone)]
pub struct Plain {
    node: peer::node::Node,
    settings: Vec<Settings>,
}

impl From<peer::answer::Answer> for Given {
    fn from(answer: peer::answer::Answer) -> Given {
        Given {
            number: answer.number.into(),
            length: answer.length,
        }
    }
}

impl Side for Plain {
    fn new(address: u8, settings: &[Settings]) -> Plain {
        let (octets, slots) = storage(settings);
        let own = NodeSettings::new(address);
        let records = settings.len();
        let storage = (vec![0; octets], vec![0; slots]);
        let lines = vec![0; LINE_OCTETS];
        let node = peer::node::Node::new(own, records, storage.0, storage.1, lines);
        let mut side = Plain {
            node,
            settings: settings.to_vec(),
        };
        assert_eq!(side.settings().number, 0);
        side
    }

    fn settings(&mut self) -> Given {
        self.node.settings(&self.settings).into()
    }

    fn open(&mut self, index: usize) -> Given {
        self.node.open(index).into()
    }

    fn close(&mut self, index: usize) -> Given {
        self.node.close(index).into()
    }

    fn transfer(&mut self, index: usize, unit: &[u8]) -> Given {
        self.node.transfer(index, unit).into()
    }

    fn take(&mut self, index: usize, out: &mut [u8]) -> Given {
        self.node.take(index, out).into()
    }

    fn reclaim(&mut self, index: usize, out: &mut [u8]) -> Given {
        self.node.reclaim(index, out).into()
    }

    fn next_packet(&mut self, out: &mut [u8]) -> Given {
        self.node.next_packet(out).into()
    }

    fn arrival(&mut self, packet: &[u8], reply: &mut [u8]) -> Given {
        self.node.arrival(packet, reply).into()
    }

    fn tick(&mut self) -> Given {
        self.node.tick().into()
    }
}
