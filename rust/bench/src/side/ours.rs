//! The proved library.

use compare::call::to_proved;
use peer::settings::{storage, Settings};
use proved::record::{Channel, LINES};

use super::{Given, Side};

/// The proved library.
#[derive(Clone)]
pub struct Ours {
    node: proved::record::Node,
    settings: Vec<proved::record::Settings>,
    table: Vec<Channel>,
    memory: Vec<u8>,
    lengths: Vec<u16>,
    lines: [u8; LINES],
}

impl From<proved::Said> for Given {
    fn from(said: proved::Said) -> Given {
        Given {
            number: said.number,
            length: said.length,
        }
    }
}

impl Side for Ours {
    fn new(address: u8, settings: &[Settings]) -> Ours {
        let (octets, slots) = storage(settings);
        let node = proved::record::Node {
            address,
            protocol: proved::record::PROTOCOL,
        };
        let mut side = Ours {
            node,
            settings: settings.iter().map(to_proved).collect(),
            table: vec![Channel::blank(); settings.len()],
            memory: vec![0; octets],
            lengths: vec![0; slots],
            lines: [0; LINES],
        };
        assert_eq!(side.settings().number, 0);
        side
    }

    fn settings(&mut self) -> Given {
        let Ours {
            memory,
            lengths,
            lines,
            ..
        } = self;
        proved::calls::settings(&mut self.table, memory, lengths, lines, &self.settings).into()
    }

    fn open(&mut self, index: usize) -> Given {
        proved::calls::open(
            &mut self.table,
            &mut self.memory,
            &mut self.lengths,
            &mut self.lines,
            index,
        )
        .into()
    }

    fn close(&mut self, index: usize) -> Given {
        proved::calls::close(
            &mut self.table,
            &mut self.memory,
            &mut self.lengths,
            &mut self.lines,
            index,
        )
        .into()
    }

    fn transfer(&mut self, index: usize, unit: &[u8]) -> Given {
        let Ours {
            memory,
            lengths,
            lines,
            ..
        } = self;
        proved::calls::transfer(&mut self.table, memory, lengths, lines, index, unit).into()
    }

    fn take(&mut self, index: usize, out: &mut [u8]) -> Given {
        let Ours {
            memory,
            lengths,
            lines,
            ..
        } = self;
        proved::calls::take(&mut self.table, memory, lengths, lines, index, out).into()
    }

    fn reclaim(&mut self, index: usize, out: &mut [u8]) -> Given {
        let Ours {
            memory,
            lengths,
            lines,
            ..
        } = self;
        proved::calls::reclaim(&mut self.table, memory, lengths, lines, index, out).into()
    }

    fn next_packet(&mut self, out: &mut [u8]) -> Given {
        let Ours {
            memory,
            lengths,
            lines,
            ..
        } = self;
        proved::calls::next_packet(&mut self.table, memory, lengths, lines, self.node, out).into()
    }

    fn arrival(&mut self, packet: &[u8], reply: &mut [u8]) -> Given {
        let Ours {
            memory,
            lengths,
            lines,
            ..
        } = self;
        proved::calls::arrival(
            &mut self.table,
            memory,
            lengths,
            lines,
            self.node,
            packet,
            reply,
        )
        .into()
    }

    fn tick(&mut self) -> Given {
        proved::calls::tick(
            &mut self.table,
            &self.memory,
            &self.lengths,
            &mut self.lines,
        )
        .into()
    }
}
