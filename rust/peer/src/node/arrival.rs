//! A packet from the link, and the ack for it (document 01, Answer numbers:
//! "Arrivals test 11, 1, 2, 4, 3, 14, .."; 000, 4.4.4.2, 4.5.3.2 and 4.6.3).

use crate::answer::{refuse_if, Answer, Refusal};
use crate::channel::Channel;
use crate::packet::{self, kind, Fields, HEADER_LENGTH, TRAILER_LENGTH};
use crate::receiving::Reaction;
use crate::settings::{Direction, NodeSettings, Settings};
use crate::slots::Slots;

use super::Node;

/// The octets of an ack that has no prefix and no payload.
const ACK_LENGTH: usize = HEADER_LENGTH + TRAILER_LENGTH;

/// What a good packet says.
struct Arrived<'a> {
    fields: Fields,
    prefix: &'a [u8],
    payload: &'a [u8],
}

impl Arrived<'_> {
    /// Whether no reply is due to it. Of Flow Control the packet has a payload and
    /// its Ack has none (000, 4.2.4.1).
    fn is_ack(&self) -> bool {
        match self.fields.kind {
            kind::DATA_ACK | kind::CONTROL_ACK | kind::HEARTBEAT_ACK => true,
            kind::FLOW_CONTROL => self.payload.is_empty(),
            _ => false,
        }
    }

    /// The number that it states, if it is an Ack or a Flow Control packet that
    /// does: "The length of the MASN field shall be one octet" (000, 4.2.4.4).
    fn stated(&self) -> Option<u8> {
        self.payload.first().copied()
    }

    /// Which end it is for: "Data and Control look for a receiving record, Acks for a
    /// sending one". A Heartbeat and its Ack go both ways, and "no field tells its
    /// end" (document 02, A2). "A Flow Control packet looks for a sending record, its
    /// Ack for a receiving one" (A5).
    fn end(&self) -> Option<Direction> {
        match self.fields.kind {
            kind::HEARTBEAT | kind::HEARTBEAT_ACK => None,
            kind::FLOW_CONTROL if self.is_ack() => Some(Direction::Receiving),
            kind::FLOW_CONTROL => Some(Direction::Sending),
            _ if self.is_ack() => Some(Direction::Sending),
            _ => Some(Direction::Receiving),
        }
    }
}

impl Node {
    pub(super) fn arrive(&mut self, packet: &[u8], reply: &mut [u8]) -> Result<Answer, Refusal> {
        self.test_lent()?;
        test_room(reply, ACK_LENGTH)?;
        let reading = packet::read(packet)?;
        let fields = reading.fields;
        let for_this_node =
            fields.destination == self.node.own && fields.protocol == self.node.protocol;
        refuse_if(!for_this_node, Refusal::Header)?;
        let arrived = Arrived {
            fields,
            prefix: reading.prefix_of(packet),
            payload: reading.payload_of(packet),
        };
        match arrived.is_ack() {
            true => self.ack_arrives(&arrived),
            false => self.non_ack_arrives(&arrived, reply),
        }
    }

    /// An Ack: no reply is due to it.
    fn ack_arrives(&mut self, arrived: &Arrived) -> Result<Answer, Refusal> {
        let index = self.find(arrived)?;
        Ok(self.serve(index, |channel, _| {
            test_flow_control(channel.settings(), arrived)?;
            acknowledged(channel, arrived)
        }))
    }

    /// Data, Control, a Heartbeat or a Flow Control packet. "A buffer too short for
    /// the reply gives 11 once the channel is known" (document 02, A5 and A7), whatever
    /// would be answered.
    fn non_ack_arrives(&mut self, arrived: &Arrived, reply: &mut [u8]) -> Result<Answer, Refusal> {
        let index = self.find(arrived)?;
        let node = self.node;
        Ok(self.serve(index, |channel, slots| {
            let settings = *channel.settings();
            test_room(reply, reply_length(&settings, &arrived.fields))?;
            test_flow_control(&settings, arrived)?;
            let reaction = received(channel, arrived, slots)?;
            let mut acknowledge = || {
                let length = acknowledge(&node, channel, &arrived.fields, reply)?;
                transmitted(channel, arrived.fields.number);
                Ok(length)
            };
            match reaction {
                Reaction::Accepted => acknowledge().map(Answer::written),
                Reaction::Repeated => acknowledge().map(Answer::repeated),
                Reaction::Inactive => Ok(Answer::INACTIVE),
            }
        }))
    }

    /// The record for a packet: "none found is 14". Its source address, prefix
    /// and all, is the record's remote address.
    fn find(&self, arrived: &Arrived) -> Result<usize, Refusal> {
        let Fields {
            channel, source, ..
        } = arrived.fields;
        let end = arrived.end();
        self.channels
            .iter()
            .position(|one| {
                let settings = one.settings();
                settings.serves(end, channel, source, arrived.prefix)
            })
            .ok_or(Refusal::NoChannel)
    }
}

/// The octets of the reply that a packet of this kind gets on this channel: that of
/// Data or Control has the number stated, where Flow Control is used.
fn reply_length(settings: &Settings, fields: &Fields) -> usize {
    let states = matches!(fields.kind, kind::DATA | kind::OPEN | kind::CLOSE);
    let stated = usize::from(states && settings.uses_flow_control());
    ACK_LENGTH + settings.own_prefix.said().len() + stated
}

/// The channel's own test 3: what belongs to Flow Control has no place where that is
/// not used, and where it is a Data Ack or Control Ack states a number (000, 4.2.4.1).
fn test_flow_control(settings: &Settings, arrived: &Arrived) -> Result<(), Refusal> {
    let used = settings.uses_flow_control();
    let fits = match arrived.fields.kind {
        kind::FLOW_CONTROL => used,
        kind::DATA_ACK | kind::CONTROL_ACK => used == arrived.stated().is_some(),
        _ => true,
    };
    refuse_if(!fits, Refusal::Header)
}

/// Test 11: whether a reply of so many octets fits.
fn test_room(reply: &[u8], wanted: usize) -> Result<(), Refusal> {
    refuse_if(reply.len() < wanted, Refusal::Buffer { wanted })
}

/// What an Ack does to the channel that it is for.
fn acknowledged(channel: &mut Channel, arrived: &Arrived) -> Result<Answer, Refusal> {
    let (number, stated) = (arrived.fields.number, arrived.stated());
    match arrived.fields.kind {
        kind::DATA_ACK => {
            let confirmed = channel.sending()?.data_ack(number, stated);
            confirmed.map(Answer::confirmed)
        }
        kind::CONTROL_ACK => channel.sending()?.control_ack(number, stated).map(done),
        kind::FLOW_CONTROL => channel.receiving()?.flow_control_ack(number).map(done),
        _ => channel.heartbeat()?.acknowledge(number).map(done),
    }
}

fn done(_: ()) -> Answer {
    Answer::DONE
}

/// What Data, Control, a Heartbeat or a Flow Control packet does to the channel that
/// it is for. A Heartbeat does nothing, in OPEN, whatever its number; elsewhere it
/// gives 5.
fn received(
    channel: &mut Channel,
    arrived: &Arrived,
    slots: &mut Slots,
) -> Result<Reaction, Refusal> {
    let Fields {
        kind,
        number,
        flags,
        ..
    } = arrived.fields;
    match kind {
        kind::DATA => {
            let end = channel.receiving()?;
            end.data(number, flags, arrived.payload, slots)
        }
        kind::HEARTBEAT => channel.heartbeat().map(|_| Reaction::Accepted),
        kind::FLOW_CONTROL => {
            let end = channel.sending()?;
            end.flow_control(arrived.stated())
                .map(|()| Reaction::Accepted)
        }
        _ => channel.receiving()?.control(kind, number),
    }
}

/// An end has transmitted an Ack of this number: in OPEN that restarts its Heartbeat
/// timer (000, 4.4.4.7 and 4.5.3.6), and elsewhere there is none. A receive end keeps
/// the number for its next Flow Control packet (000, 4.5.3.7).
fn transmitted(channel: &mut Channel, number: u8) {
    if let Ok(heartbeat) = channel.heartbeat() {
        heartbeat.restart();
    }
    if let Ok(end) = channel.receiving() {
        end.transmitted(number);
    }
}

/// Writes the ack for a packet: its number copied (000, 4.5.3.4, 4.4.4.6, 4.4.4.7 and
/// 4.5.3.6), back to its source (000, 4.2.3.1), from this end's own address (000,
/// 4.2.3.9). That of Data or Control carries the number stated (000, 4.2.4.1 b).
fn acknowledge(
    node: &NodeSettings,
    channel: &mut Channel,
    fields: &Fields,
    reply: &mut [u8],
) -> Result<usize, Refusal> {
    let own_prefix = channel.settings().own_prefix;
    let (kind, stated) = match fields.kind {
        kind::DATA => (kind::DATA_ACK, channel.receiving()?.stated_in_ack()),
        kind::HEARTBEAT => (kind::HEARTBEAT_ACK, None),
        kind::FLOW_CONTROL => (kind::FLOW_CONTROL, None),
        _ => (kind::CONTROL_ACK, channel.receiving()?.stated_in_ack()),
    };
    let ack = Fields {
        kind,
        number: fields.number,
        ..node.header(fields.source, fields.channel)
    };
    packet::write(&ack, own_prefix.said(), stated.as_slice(), reply)
}
