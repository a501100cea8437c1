//! What the tests have in common: settings, packets, and a node each of whose
//! calls is checked for what document 01 says of all calls.

use crate::answer::Answer;
use crate::lines::LINE_OCTETS;
use crate::node::Node;
use crate::packet::{self, flags, kind, Fields};
use crate::prefix::Prefix;
use crate::settings::{storage, Direction, NodeSettings, Settings};

/// Octets that no call has written.
pub(crate) const NOISE: u8 = 0xA5;

/// Lengths that no call has written.
pub(crate) const NOISE_LENGTH: u16 = 0xA5A5;

/// The node under test.
pub(crate) const HERE: NodeSettings = NodeSettings {
    own: 64,
    protocol: 238,
};

/// The node at the other end.
pub(crate) const THERE: NodeSettings = NodeSettings {
    own: 65,
    protocol: 238,
};

/// The settings of the replay's channel 0.
pub(crate) const SENDING: Settings = Settings {
    direction: Direction::Sending,
    channel: 1,
    remote: 65,
    remote_prefix: Prefix::NONE,
    own_prefix: Prefix::NONE,
    window: 4,
    slots: 8,
    most_payload: 16,
    most_segments: 4,
    timeout: 4,
    close_timeout: 4,
    retries: 2,
    interval: 0,
    flow: 0,
    spare: 0,
    lead: 0,
};

/// The settings of the replay's channel 1.
pub(crate) const RECEIVING: Settings = Settings {
    direction: Direction::Receiving,
    channel: 2,
    ..SENDING
};

/// The channel number of packets of this kind: Acks are for the sending channel,
/// Data and Control for the receiving one.
pub(crate) fn channel_of(kind: u8) -> u16 {
    match kind {
        kind::DATA_ACK | kind::CONTROL_ACK => SENDING.channel,
        _ => RECEIVING.channel,
    }
}

/// A packet without payload from the other end.
pub(crate) fn alone(kind: u8, number: u8) -> Vec<u8> {
    packet_for(channel_of(kind), kind, number)
}

/// A packet without payload from the other end, for this channel number.
pub(crate) fn packet_for(channel: u16, kind: u8, number: u8) -> Vec<u8> {
    packet_with(channel, kind, number, &[])
}

/// A packet other than Data with this payload from the other end, for this channel
/// number.
pub(crate) fn packet_with(channel: u16, kind: u8, number: u8, payload: &[u8]) -> Vec<u8> {
    let fields = Fields {
        kind,
        number,
        ..THERE.header(HERE.own, channel)
    };
    written(&fields, payload)
}

/// A packet for the sending channel that states a number: an Ack, or a Flow Control
/// packet.
pub(crate) fn stating(kind: u8, number: u8, stated: u8) -> Vec<u8> {
    packet_with(SENDING.channel, kind, number, &[stated])
}

/// A Data packet from the other end.
pub(crate) fn data(number: u8, flags: u8, payload: &[u8]) -> Vec<u8> {
    let fields = Fields {
        kind: kind::DATA,
        number,
        flags,
        ..THERE.header(HERE.own, RECEIVING.channel)
    };
    written(&fields, payload)
}

/// A whole unit in one Data packet.
pub(crate) fn whole(number: u8, payload: &[u8]) -> Vec<u8> {
    data(number, flags::WHOLE, payload)
}

pub(crate) fn written(fields: &Fields, payload: &[u8]) -> Vec<u8> {
    written_from(&[], fields, payload)
}

/// A packet with this prefix.
pub(crate) fn written_from(prefix: &[u8], fields: &Fields, payload: &[u8]) -> Vec<u8> {
    let mut out = vec![0; 12 + prefix.len() + payload.len()];
    packet::write(fields, prefix, payload, &mut out).unwrap();
    out
}

/// Kind and number of a packet that HERE made.
pub(crate) fn kind_and_number(packet: &[u8]) -> (u8, u8) {
    let fields = packet::read(packet).unwrap().fields;
    assert_eq!((fields.destination, fields.source), (THERE.own, HERE.own));
    assert_eq!(fields.protocol, HERE.protocol);
    (fields.kind, fields.number)
}

/// A node over storage that is full of noise.
pub(crate) fn unset_node(table: &[Settings]) -> Node {
    let (octets, lengths) = storage(table);
    let (memory, lengths) = (vec![NOISE; octets], vec![NOISE_LENGTH; lengths]);
    Node::new(HERE, table.len(), memory, lengths, vec![NOISE; LINE_OCTETS])
}

/// A node and the checks of all its calls.
#[derive(Clone, Debug)]
pub(crate) struct Rig {
    pub(crate) node: Node,
}

impl Rig {
    pub(crate) fn new(table: &[Settings]) -> Rig {
        let mut node = unset_node(table);
        let answer = node.settings(table);
        assert_eq!(answer.number, 0);
        Rig { node }
    }

    /// A rig of one sending channel in OPEN.
    pub(crate) fn sending(settings: Settings) -> Rig {
        let ack = alone(kind::CONTROL_ACK, 0);
        Rig::sending_by(settings, &ack)
    }

    /// The same, which this Ack of its Open has led to OPEN.
    pub(crate) fn sending_by(settings: Settings, ack: &[u8]) -> Rig {
        let mut rig = Rig::new(&[settings]);
        assert_eq!(rig.open(0), 0);
        assert_eq!(rig.next(), Ok((kind::OPEN, 0)));
        assert_eq!(rig.arrive(ack), 0);
        rig
    }

    /// A rig of one receiving channel in OPEN.
    pub(crate) fn receiving(settings: Settings) -> Rig {
        let mut rig = Rig::new(&[settings]);
        assert_eq!(rig.open(0), 0);
        assert_eq!(rig.arrive(&alone(kind::OPEN, 0)), 0);
        rig
    }

    pub(crate) fn open(&mut self, index: usize) -> u8 {
        self.call(|node, _| node.open(index)).0.number
    }

    pub(crate) fn close(&mut self, index: usize) -> u8 {
        self.call(|node, _| node.close(index)).0.number
    }

    pub(crate) fn transfer(&mut self, index: usize, unit: &[u8]) -> u8 {
        self.call(|node, _| node.transfer(index, unit)).0.number
    }

    pub(crate) fn tick(&mut self) -> u8 {
        self.call(|node, _| node.tick()).0.number
    }

    /// So many ticks, which must all answer 0.
    pub(crate) fn ticks(&mut self, count: usize) {
        for _ in 0..count {
            assert_eq!(self.tick(), 0);
        }
    }

    /// The unit taken, or the answer number.
    pub(crate) fn take(&mut self, index: usize) -> Result<Vec<u8>, u8> {
        let (answer, unit) = self.call(|node, out| node.take(index, out));
        done(answer).map(|()| unit)
    }

    /// The unit reclaimed, or the answer number.
    pub(crate) fn reclaim(&mut self, index: usize) -> Result<Vec<u8>, u8> {
        let (answer, unit) = self.call(|node, out| node.reclaim(index, out));
        done(answer).map(|()| unit)
    }

    /// The answer number of an arrival. A reply must be the packet's ack.
    pub(crate) fn arrive(&mut self, packet: &[u8]) -> u8 {
        self.arrival(packet).number
    }

    /// The whole answer of an arrival. A reply must be the packet's ack.
    pub(crate) fn arrival(&mut self, packet: &[u8]) -> Answer {
        self.replied(packet).0
    }

    /// The answer number of an arrival, and what its reply carries.
    pub(crate) fn carried(&mut self, packet: &[u8]) -> (u8, Vec<u8>) {
        let (answer, reply) = self.replied(packet);
        let payload = packet::read(&reply).map(|reading| reading.payload_of(&reply).to_vec());
        (answer.number, payload.unwrap_or_default())
    }

    /// The whole answer of an arrival and its reply, which must be the packet's ack.
    fn replied(&mut self, packet: &[u8]) -> (Answer, Vec<u8>) {
        let (answer, reply) = self.call(|node, out| node.arrival(packet, out));
        if answer.octets() > 0 {
            let fields = packet::read(packet).unwrap().fields;
            let ack = match fields.kind {
                kind::DATA => kind::DATA_ACK,
                kind::HEARTBEAT => kind::HEARTBEAT_ACK,
                kind::FLOW_CONTROL => kind::FLOW_CONTROL,
                _ => kind::CONTROL_ACK,
            };
            assert_eq!(kind_and_number(&reply), (ack, fields.number));
        }
        (answer, reply)
    }

    /// Kind and number of the next packet, or the answer number.
    pub(crate) fn next(&mut self) -> Result<(u8, u8), u8> {
        self.next_packet().map(|packet| kind_and_number(&packet))
    }

    /// The numbers of all Data that is handed out until nothing is.
    pub(crate) fn all_data(&mut self) -> Vec<u8> {
        let mut numbers = Vec::new();
        while let Ok((kind::DATA, number)) = self.next() {
            numbers.push(number);
        }
        assert_eq!(self.next(), Err(12));
        numbers
    }

    /// The next packet, or the answer number.
    pub(crate) fn next_packet(&mut self) -> Result<Vec<u8>, u8> {
        let (answer, packet) = self.call(|node, out| node.next_packet(out));
        done(answer).map(|()| packet)
    }

    /// A call with a large buffer, and what it wrote there. "All but 0, 9 and
    /// 15 change no record and no octet"; "9 writes no reply"; "A written
    /// packet or unit leaves octets past its end untouched."
    fn call(&mut self, call: impl FnOnce(&mut Node, &mut [u8]) -> Answer) -> (Answer, Vec<u8>) {
        let before = self.node.clone();
        let mut out = vec![NOISE; 4_096];
        let answer = call(&mut self.node, &mut out);
        if ![0, 9, 15].contains(&answer.number) {
            assert_eq!(self.node, before);
        }
        if ![0, 11, 15].contains(&answer.number) {
            assert_eq!((answer.length, answer.confirmed), (0, 0));
        }
        let past = out.split_off(answer.octets());
        assert!(past.iter().all(|&octet| octet == NOISE));
        (answer, out)
    }
}

fn done(answer: Answer) -> Result<(), u8> {
    if answer.number == 0 {
        Ok(())
    } else {
        Err(answer.number)
    }
}
