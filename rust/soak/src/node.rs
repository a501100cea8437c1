//! A node of the proved library with its storage, which can be copied: what the
//! copy would give away tells what the node holds.

use link::Noise;
use proved::record::{state, Channel, Node as Own, Settings, LINES, PREFIX};
use proved::{calls, Fields, Said};

/// Any packet and any unit of these channels fits into this buffer.
const BUFFER: usize = 1_600;

/// A node and all that is lent to its calls.
#[derive(Clone)]
pub struct Node {
    own: Own,
    table: Vec<Channel>,
    memory: Vec<u8>,
    lengths: Vec<u16>,
    lines: [u8; LINES],
}

impl Node {
    /// A node with this address and these settings; noise lies in its storage.
    pub fn new(address: u8, settings: &[Settings], noise: &mut Noise) -> Node {
        let slots: usize = settings.iter().map(|one| one.limits.slots).sum();
        let limits = settings.iter().map(|one| one.limits);
        let octets = limits.map(|limits| limits.slots * limits.payload).sum();
        let own = Own {
            address,
            protocol: proved::record::PROTOCOL,
        };
        let mut node = Node {
            own,
            table: vec![Channel::blank(); settings.len()],
            memory: noise.octets(octets),
            lengths: (0..slots).map(|_| noise.number() as u16).collect(),
            lines: [0xA5; LINES],
        };
        let said = calls::settings(
            &mut node.table,
            &node.memory,
            &node.lengths,
            &mut node.lines,
            settings,
        );
        assert_eq!(said.number, 0);
        node
    }

    /// The record of a channel: its state, its reason, its window start.
    pub fn record(&self, index: usize) -> &Channel {
        &self.table[index]
    }

    /// An Open directive.
    pub fn open(&mut self, index: usize) -> Said {
        calls::open(
            &mut self.table,
            &mut self.memory,
            &mut self.lengths,
            &mut self.lines,
            index,
        )
    }

    /// A Close directive.
    pub fn close(&mut self, index: usize) -> Said {
        calls::close(
            &mut self.table,
            &mut self.memory,
            &mut self.lengths,
            &mut self.lines,
            index,
        )
    }

    /// A unit to be sent.
    pub fn transfer(&mut self, index: usize, unit: &[u8]) -> Said {
        let Node {
            table,
            memory,
            lengths,
            lines,
            ..
        } = self;
        calls::transfer(table, memory, lengths, lines, index, unit)
    }

    /// The oldest complete unit, if there is one.
    pub fn take(&mut self, index: usize) -> Option<Vec<u8>> {
        let Node {
            table,
            memory,
            lengths,
            lines,
            ..
        } = self;
        written(|out| calls::take(table, memory, lengths, lines, index, out))
    }

    /// The oldest unit held, if there is one.
    pub fn reclaim(&mut self, index: usize) -> Option<Vec<u8>> {
        let Node {
            table,
            memory,
            lengths,
            lines,
            ..
        } = self;
        written(|out| calls::reclaim(table, memory, lengths, lines, index, out))
    }

    /// The next packet, if there is one.
    pub fn next_packet(&mut self) -> Option<Vec<u8>> {
        let Node {
            own,
            table,
            memory,
            lengths,
            lines,
        } = self;
        written(|out| calls::next_packet(table, memory, lengths, lines, *own, out))
    }

    /// A packet arrives; gives the answer and the reply.
    pub fn arrival(&mut self, packet: &[u8]) -> (Said, Vec<u8>) {
        let Node {
            own,
            table,
            memory,
            lengths,
            lines,
        } = self;
        let mut reply = [0; 13 + PREFIX];
        let said = calls::arrival(table, memory, lengths, lines, *own, packet, &mut reply);
        (said, reply[..said.written()].to_vec())
    }

    /// A tick.
    pub fn tick(&mut self) -> Said {
        calls::tick(
            &mut self.table,
            &self.memory,
            &self.lengths,
            &mut self.lines,
        )
    }

    /// The complete units that wait at a receive end, as a copy gives them.
    pub fn waiting(&self, index: usize) -> Vec<Vec<u8>> {
        let mut copy = self.clone();
        std::iter::from_fn(|| copy.take(index)).collect()
    }

    /// The units that a transmit end holds, as a copy gives them once it is
    /// closed.
    pub fn held(&self, index: usize) -> Vec<Vec<u8>> {
        let mut copy = self.clone();
        while copy.table[index].phase.state != state::CLOSED {
            if copy.table[index].phase.state == state::OPEN {
                assert_eq!(copy.close(index).number, 0);
            }
            while copy.next_packet().is_some() {}
            let ack = copy.control_ack(index);
            assert_eq!(copy.arrival(&ack).0.number, 0);
        }
        std::iter::from_fn(|| copy.reclaim(index)).collect()
    }

    /// The ack that the Open or Close of a transmit end waits for; it states a number
    /// where Flow Control is used.
    fn control_ack(&self, index: usize) -> Vec<u8> {
        let Channel {
            addresses, limits, ..
        } = &self.table[index];
        let fields = Fields {
            destination: self.own.address,
            protocol: self.own.protocol,
            version: 1,
            flags: 3,
            kind: 7,
            channel: addresses.channel,
            source: addresses.remote,
            ..Fields::default()
        };
        let prefix = addresses.remote_prefix.said();
        let stated = &[1][..limits.flow.into()];
        let mut ack = vec![0; 12 + prefix.len() + stated.len()];
        let writing = proved::write_packet(fields, prefix, stated, &mut ack);
        assert_eq!(writing.answer, 0);
        ack
    }
}

/// The packet or unit that a call writes; none if it answers 12.
fn written(call: impl FnOnce(&mut [u8]) -> Said) -> Option<Vec<u8>> {
    let mut out = [0; BUFFER];
    let said = call(&mut out);
    assert!([0, 12].contains(&said.number), "{said:?}");
    (said.number == 0).then(|| out[..said.length].to_vec())
}
