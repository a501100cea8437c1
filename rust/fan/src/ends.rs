//! The two ends of the channel: what each is lent, and what its calls hand out.

use proved::record::{direction, LINES, PROTOCOL};
use proved::{storage, Addresses, Answer, Channel, Limits, Node, NodeTable, Outcome, Settings};

const HOST: u8 = 64;
const STATION: u8 = 65;

/// Room for any packet, any reply and any unit of these settings.
const ROOM: usize = 64;

/// What an end is lent, and its settings.
pub struct Lent {
    node: Node,
    settings: [Settings; 1],
    table: [Channel; 1],
    memory: Vec<u8>,
    lengths: Vec<u16>,
    lines: [u8; LINES],
}

impl Lent {
    /// The end that sends.
    pub fn host(limits: Limits) -> Self {
        Lent::new(HOST, STATION, direction::SENDS, limits)
    }

    /// The end that receives.
    pub fn station(limits: Limits) -> Self {
        Lent::new(STATION, HOST, direction::RECEIVES, limits)
    }

    fn new(address: u8, remote: u8, direction: u8, limits: Limits) -> Self {
        let addresses = Addresses {
            channel: 1,
            remote,
            direction,
            ..Addresses::default()
        };
        let settings = [Settings { addresses, limits }];
        let (octets, slots) = storage(&settings);
        Lent {
            node: Node {
                address,
                protocol: PROTOCOL,
            },
            settings,
            table: [Channel::blank()],
            memory: vec![0; octets],
            lengths: vec![0; slots],
            lines: [0; LINES],
        }
    }

    /// The node over it.
    pub fn node(&mut self) -> NodeTable<'_> {
        let made = NodeTable::settings(
            self.node,
            &mut self.table,
            &mut self.memory,
            &mut self.lengths,
            &mut self.lines,
            &self.settings,
        );
        made.expect("the settings are good")
    }
}

/// Every unit, or packet, that a call hands out.
pub fn handed_out(mut call: impl FnMut(&mut [u8]) -> Answer) -> Vec<Vec<u8>> {
    std::iter::from_fn(|| one(&mut call)).collect()
}

/// One of them, if there is one.
pub fn one(mut call: impl FnMut(&mut [u8]) -> Answer) -> Option<Vec<u8>> {
    let mut out = [0; ROOM];
    match call(&mut out).outcome {
        Outcome::Done { length, .. } => Some(out[..length].to_vec()),
        _ => None,
    }
}

/// What an arrival answers, and its reply: empty if it has none.
pub fn arrival(end: &mut NodeTable, packet: &[u8]) -> (Answer, Vec<u8>) {
    let mut reply = [0; ROOM];
    let answer = end.arrival(packet, &mut reply);
    (answer, reply[..answer.length()].to_vec())
}
