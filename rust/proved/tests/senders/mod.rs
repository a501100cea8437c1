//! A node whose channels all send, with what it lends, for the tests beside this.
//! A channel's number is its index.

use proved::record::{direction, LINES};
use proved::{calls, storage, write_packet, Addresses, Channel, Fields, Limits, Node};
use proved::{Said, Settings};

const NODE: Node = Node {
    address: 64,
    protocol: 238,
};
const REMOTE: u8 = 65;

/// Packet types.
const DATA_ACK: u8 = 1;
const CONTROL_ACK: u8 = 7;

/// Of every channel, but for the window.
pub const LIMITS: Limits = Limits {
    window: 4,
    slots: 128,
    payload: 4,
    segments: 128,
    timeout: 5,
    closing: 5,
    retries: 9,
    interval: 0,
    flow: 0,
    spare: 0,
    lead: 0,
};

pub struct Senders {
    table: Vec<Channel>,
    memory: Vec<u8>,
    lengths: Vec<u16>,
    pub lines: [u8; LINES],
}

impl Senders {
    /// So many channels with this window, all in OPEN.
    pub fn open(count: usize, window: usize) -> Senders {
        let mut senders = Senders::made(count, window);
        for index in 0..count {
            senders.open_one(index);
            assert_eq!(senders.served(), Some(index));
            senders.ack(index, CONTROL_ACK, 0);
        }
        assert_eq!(senders.lines, [0; LINES]);
        senders
    }

    fn made(count: usize, window: usize) -> Senders {
        let settings: Vec<Settings> = (0..count as u16).map(|one| of(one, window)).collect();
        let (octets, lengths) = storage(&settings);
        let mut table = vec![Channel::blank(); count];
        let (memory, lengths, mut lines) = (vec![0; octets], vec![0; lengths], [255; LINES]);
        let said = calls::settings(&mut table, &memory, &lengths, &mut lines, &settings);
        assert_eq!(said.number, 0);
        Senders {
            table,
            memory,
            lengths,
            lines,
        }
    }

    fn open_one(&mut self, index: usize) {
        let (memory, lengths, lines) = (&mut self.memory, &mut self.lengths, &mut self.lines);
        let said = calls::open(&mut self.table, memory, lengths, lines, index);
        assert_eq!((said.number, said.index), (0, index));
    }

    /// A unit of as many octets.
    pub fn transfer(&mut self, index: usize, octets: usize) {
        let unit = vec![index as u8; octets];
        let (memory, lengths, lines) = (&mut self.memory, &mut self.lengths, &mut self.lines);
        let said = calls::transfer(&mut self.table, memory, lengths, lines, index, &unit);
        assert_eq!((said.number, said.index), (0, index));
    }

    /// What a transfer of so many octets would answer.
    pub fn ask(&mut self, index: usize, octets: usize) -> u32 {
        let (memory, lengths, lines) = (&mut self.memory, &mut self.lengths, &mut self.lines);
        calls::would_transfer(&mut self.table, memory, lengths, lines, index, octets).number
    }

    /// The answer to the call for a packet with room for so many octets.
    pub fn next(&mut self, room: usize) -> Said {
        let mut out = vec![0; room];
        let (memory, lengths, lines) = (&mut self.memory, &mut self.lengths, &mut self.lines);
        calls::next_packet(&mut self.table, memory, lengths, lines, NODE, &mut out)
    }

    /// Whose packet is handed out next, if one is.
    pub fn served(&mut self) -> Option<usize> {
        let said = self.next(16);
        assert!([0, 12].contains(&said.number), "{said:?}");
        (said.number == 0).then_some(said.index)
    }

    /// Whose packets are handed out next, so many of them.
    pub fn order(&mut self, count: usize) -> Vec<usize> {
        let served = (0..count).map(|_| self.served().expect("a packet"));
        served.collect()
    }

    /// A Data Ack for this number.
    pub fn data_ack(&mut self, index: usize, number: u8) {
        self.ack(index, DATA_ACK, number);
    }

    fn ack(&mut self, index: usize, kind: u8, number: u8) {
        let fields = Fields {
            destination: NODE.address,
            protocol: NODE.protocol,
            version: 1,
            flags: 3,
            kind,
            channel: index as u16,
            number,
            source: REMOTE,
            ..Fields::default()
        };
        let (mut ack, mut none) = ([0; 12], [0; 12]);
        assert_eq!(write_packet(fields, &[], &[], &mut ack).answer, 0);
        let (memory, lengths, lines) = (&mut self.memory, &mut self.lengths, &mut self.lines);
        let said = calls::arrival(
            &mut self.table,
            memory,
            lengths,
            lines,
            NODE,
            &ack,
            &mut none,
        );
        assert_eq!((said.number, said.index), (0, index));
    }

    /// So many ticks, in which nobody goes inactive.
    pub fn ticks(&mut self, count: u16) {
        for _ in 0..count {
            let lines = &mut self.lines;
            let said = calls::tick(&mut self.table, &self.memory, &self.lengths, lines);
            assert_eq!(said.number, 0);
        }
    }

    /// Who stands in the line of a rank, from the head on.
    pub fn standing(&self, rank: usize) -> &[u8] {
        let line = &self.lines[rank * LINES / 3..][..LINES / 3];
        let (standing, past) = line[1..].split_at(line[0].into());
        assert!(past.iter().all(|octet| *octet == 0));
        standing
    }

    /// The line of a rank is this one.
    pub fn stand(&mut self, rank: usize, indexes: &[u8]) {
        let line = &mut self.lines[rank * LINES / 3..][..LINES / 3];
        line.fill(0);
        line[0] = indexes.len() as u8;
        line[1..][..indexes.len()].copy_from_slice(indexes);
    }
}

fn of(channel: u16, window: usize) -> Settings {
    Settings {
        addresses: Addresses {
            channel,
            remote: REMOTE,
            direction: direction::SENDS,
            ..Addresses::default()
        },
        limits: Limits { window, ..LIMITS },
    }
}
