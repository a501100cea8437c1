//! A node kept twice, by the proved library and by the peer: each call is made
//! of both, and all that can be seen afterwards is compared.

use link::Noise;
use peer::answer::Answer;
use peer::packet::{kind, Fields};
use peer::settings::{storage, Direction, NodeSettings, Settings};
use peer::state::State;
use proved::record::{Channel, Node, LINES};
use proved::Said;

use crate::call::{to_proved, Call, Lent};
use crate::order::Passed;
use crate::records::{assert_same, reason_number, state_number};
use crate::tally::Tally;

/// Octets around a lent buffer that no call may touch.
const MARGIN: usize = 16;

/// The node, twice.
pub struct Twin {
    /// The settings that were accepted last; none before.
    pub settings: Vec<Settings>,
    /// The peer's node.
    pub peer: peer::node::Node,
    /// The proved library's records.
    pub table: Vec<Channel>,
    /// The memory lent to the proved library.
    pub memory: Vec<u8>,
    /// The lengths lent to it.
    pub lengths: Vec<u16>,
    /// The lines lent to it.
    pub lines: Vec<u8>,
    /// The node's own address and protocol ID.
    pub node: Node,
    /// The records before the last call.
    pub(crate) before: Vec<Channel>,
    /// The lines before it.
    pub(crate) lines_before: Vec<u8>,
    /// Whether the caller wrote into the lines since a tick or settings.
    pub(crate) written: bool,
    /// What was handed out before the packets of those who wait.
    pub(crate) passed: Passed,
    proved_settings: Vec<proved::record::Settings>,
    by_proved: Vec<u8>,
    by_peer: Vec<u8>,
}

/// What a call gave.
#[derive(Clone, Debug)]
pub struct Outcome {
    /// The answer.
    pub said: Said,
    /// The octets written, of a packet, reply or unit.
    pub octets: Vec<u8>,
}

impl Twin {
    /// A node of so many records over storage for these settings; noise lies
    /// in all of it. The settings are not given yet.
    pub fn new(node: Node, records: usize, settings: &[Settings], noise: &mut Noise) -> Twin {
        let (octets, slots) = storage(settings);
        let memory = noise.octets(octets);
        let lengths: Vec<u16> = (0..slots).map(|_| noise.number() as u16).collect();
        let own = NodeSettings {
            own: node.address,
            protocol: node.protocol,
        };
        let table = vec![Channel::blank(); records];
        let lines = vec![0xA5; LINES];
        let storage = (memory.clone(), lengths.clone());
        Twin {
            settings: Vec::new(),
            peer: peer::node::Node::new(own, records, storage.0, storage.1, lines.clone()),
            before: table.clone(),
            table,
            memory,
            lengths,
            lines_before: lines.clone(),
            lines,
            written: false,
            passed: Passed::default(),
            node,
            proved_settings: Vec::new(),
            by_proved: Vec::new(),
            by_peer: Vec::new(),
        }
    }

    /// The state of the record of this index.
    pub fn state(&self, index: usize) -> State {
        self.peer.state(index).expect("a record")
    }

    /// The direction of the record of this index.
    pub fn direction(&self, index: usize) -> Direction {
        self.settings[index].direction
    }

    /// The octets that a reply to this packet would have: 12 if none is due, or no
    /// record is found for it.
    pub fn reply_length(&self, packet: &[u8]) -> usize {
        let Ok(reading) = peer::packet::read(packet) else {
            return 12;
        };
        let Fields {
            channel,
            source,
            kind,
            ..
        } = reading.fields;
        let (end, states) = match kind {
            kind::DATA | kind::OPEN | kind::CLOSE => (Some(Direction::Receiving), true),
            kind::FLOW_CONTROL if reading.length > 0 => (Some(Direction::Sending), false),
            kind::HEARTBEAT => (None, false),
            _ => return 12,
        };
        let found = self.settings.iter().find(|one| {
            end.is_none_or(|end| end == one.direction)
                && (one.channel, one.remote) == (channel, source)
                && one.remote_prefix.said() == reading.prefix_of(packet)
        });
        let stated = |one: &Settings| usize::from(states && one.flow == 1);
        12 + found.map_or(0, |one| one.own_prefix.said().len() + stated(one))
    }

    /// What the proved library is lent, with a buffer of its own.
    pub fn lent<'a>(&'a mut self, out: &'a mut [u8]) -> Lent<'a> {
        Lent {
            node: self.node,
            table: &mut self.table,
            memory: &mut self.memory,
            lengths: &mut self.lengths,
            lines: &mut self.lines,
            out,
        }
    }

    /// Makes a call of both with a buffer of this size, and compares.
    pub fn call(&mut self, call: Call, room: usize, tally: &mut Tally) -> Outcome {
        self.before.copy_from_slice(&self.table);
        self.lines_before.clone_from(&self.lines);
        let quiet = tally.calls as u8;
        let mut by_proved = renewed(&mut self.by_proved, room, quiet);
        let mut by_peer = renewed(&mut self.by_peer, room, quiet);
        let lent = MARGIN..MARGIN + room;
        let answer = call.of_peer(&mut self.peer, &mut by_peer[lent.clone()]);
        let said = call.of_proved(self.lent(&mut by_proved[lent.clone()]));
        if let (Call::Settings(settings), 0) = (call, answer.number) {
            self.settings = settings.to_vec();
            self.proved_settings = settings.iter().map(to_proved).collect();
        }
        tally.calls += 1;
        tally.answer(call.name(), said.number);
        self.compare(&call, said, answer);
        self.check_order(&call, said, tally);
        self.note_pulses(&call, said, tally);
        assert!(by_proved == by_peer, "the octets written differ");
        let octets = by_proved[lent][..said.written()].to_vec();
        self.note_flows(&call, said, &octets, room, tally);
        (self.by_proved, self.by_peer) = (by_proved, by_peer);
        Outcome { said, octets }
    }

    fn compare(&self, call: &Call, said: Said, answer: Answer) {
        assert_eq!(said.number, u32::from(answer.number), "the number");
        assert_eq!(said.length, answer.length, "the length");
        assert_eq!(said.confirmed, answer.confirmed, "the units confirmed");
        let served = answer.index.unwrap_or(self.table.len());
        assert_eq!(said.index, served, "the index");
        assert!(self.lengths == self.peer.lengths(), "the lengths differ");
        assert!(self.memory == self.peer.memory(), "the memory differs");
        assert!(self.lines == self.peer.lines(), "the lines differ");
        let records = 0..self.table.len();
        let changed = records.filter(|&index| self.table[index] != self.before[index]);
        let changed: Vec<usize> = changed.collect();
        match (said.number, call) {
            (0, Call::Settings(_)) | (0 | 9, Call::Tick) => {}
            (_, Call::WouldTransfer(..)) => assert!(changed.is_empty(), "a question changed one"),
            // Also what is acknowledged and not accepted restarts the interval.
            (0 | 15, _) => assert!(changed.iter().all(|&one| one == served), "another changed"),
            (9, _) => assert_eq!(changed, [served]),
            _ => assert!(changed.is_empty(), "a refusal changed a record"),
        }
        let reason = match said.number {
            9 => reason_number(self.peer.reason(served).expect("a record")),
            _ => 0,
        };
        assert_eq!(said.reason, u32::from(reason), "the reason");
        self.compare_records();
    }

    /// Every record, if there are settings: before them no record has a
    /// meaning.
    fn compare_records(&self) {
        for (index, settings) in self.proved_settings.iter().enumerate() {
            let record = &self.table[index];
            let state = self.peer.state(index).map(state_number);
            let reason = self.peer.reason(index).map(reason_number);
            assert_eq!(
                (Some(record.phase.state), Some(record.phase.reason)),
                (state, reason)
            );
            let sight = self.peer.sight(index).expect("a record");
            assert_same(record, settings, self.direction(index), &sight);
        }
    }
}

/// A buffer of this size between its margins, with nothing in it that was
/// written before.
fn renewed(buffer: &mut Vec<u8>, room: usize, quiet: u8) -> Vec<u8> {
    let mut buffer = std::mem::take(buffer);
    buffer.clear();
    buffer.resize(room + 2 * MARGIN, quiet);
    buffer
}
