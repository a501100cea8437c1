//! One call of a node, to be made of both libraries.

use peer::answer::Answer;
use peer::prefix::Prefix;
use peer::settings::{Direction, Settings};
use proved::calls;
use proved::record::{direction, Addresses, Channel, Limits, Node};
use proved::Said;

/// A call and what it is given beside the table, the memory, the lengths, the
/// lines and the buffer.
#[derive(Clone, Copy, Debug)]
pub enum Call<'a> {
    /// Settings for the whole table.
    Settings(&'a [Settings]),
    /// An Open directive for the record of this index.
    Open(usize),
    /// A Close directive.
    Close(usize),
    /// A unit to be sent.
    Transfer(usize, &'a [u8]),
    /// What a transfer of so many octets would answer.
    WouldTransfer(usize, usize),
    /// The oldest complete unit is asked for.
    Take(usize),
    /// The oldest unconfirmed unit is asked for.
    Reclaim(usize),
    /// The next packet is asked for.
    NextPacket,
    /// A packet from the link.
    Arrival(&'a [u8]),
    /// A tick.
    Tick,
}

/// What the caller of the proved library lends.
pub struct Lent<'a> {
    /// The node's own settings.
    pub node: Node,
    /// The records.
    pub table: &'a mut [Channel],
    /// The slots' octets.
    pub memory: &'a mut [u8],
    /// The slots' lengths.
    pub lengths: &'a mut [u16],
    /// The lines.
    pub lines: &'a mut [u8],
    /// The buffer, for calls that write a packet or a unit.
    pub out: &'a mut [u8],
}

impl Call<'_> {
    /// The call's name, as in docs/PROMISES.md.
    pub fn name(&self) -> &'static str {
        match self {
            Call::Settings(_) => "settings",
            Call::Open(_) => "open",
            Call::Close(_) => "close",
            Call::Transfer(..) => "transfer",
            Call::WouldTransfer(..) => "would_transfer",
            Call::Take(_) => "take",
            Call::Reclaim(_) => "reclaim",
            Call::NextPacket => "next_packet",
            Call::Arrival(_) => "arrival",
            Call::Tick => "tick",
        }
    }

    /// Made of the proved library.
    pub fn of_proved(&self, lent: Lent) -> Said {
        let Lent {
            node,
            table,
            memory,
            lengths,
            lines,
            out,
        } = lent;
        match *self {
            Call::Settings(settings) => {
                let settings: Vec<_> = settings.iter().map(to_proved).collect();
                calls::settings(table, memory, lengths, lines, &settings)
            }
            Call::Open(index) => calls::open(table, memory, lengths, lines, index),
            Call::Close(index) => calls::close(table, memory, lengths, lines, index),
            Call::Transfer(index, unit) => {
                calls::transfer(table, memory, lengths, lines, index, unit)
            }
            Call::WouldTransfer(index, count) => {
                calls::would_transfer(table, memory, lengths, lines, index, count)
            }
            Call::Take(index) => calls::take(table, memory, lengths, lines, index, out),
            Call::Reclaim(index) => calls::reclaim(table, memory, lengths, lines, index, out),
            Call::NextPacket => calls::next_packet(table, memory, lengths, lines, node, out),
            Call::Arrival(packet) => {
                calls::arrival(table, memory, lengths, lines, node, packet, out)
            }
            Call::Tick => calls::tick(table, memory, lengths, lines),
        }
    }

    /// Made of the peer.
    pub fn of_peer(&self, node: &mut peer::node::Node, out: &mut [u8]) -> Answer {
        match *self {
            Call::Settings(settings) => node.settings(settings),
            Call::Open(index) => node.open(index),
            Call::Close(index) => node.close(index),
            Call::Transfer(index, unit) => node.transfer(index, unit),
            Call::WouldTransfer(index, count) => node.would_transfer(index, count),
            Call::Take(index) => node.take(index, out),
            Call::Reclaim(index) => node.reclaim(index, out),
            Call::NextPacket => node.next_packet(out),
            Call::Arrival(packet) => node.arrival(packet, out),
            Call::Tick => node.tick(),
        }
    }
}

/// What a table of so many records that fails the test for 13 is answered.
pub fn unlawful(records: usize) -> Said {
    Said {
        number: 13,
        index: records,
        ..Said::default()
    }
}

/// The same settings as the proved library takes them. Timeouts, intervals and
/// retries over 65,535 cannot be said there: a caller asks for none.
pub fn to_proved(settings: &Settings) -> proved::record::Settings {
    let narrow = |number: u32| u16::try_from(number).expect("16 bits");
    proved::record::Settings {
        addresses: Addresses {
            channel: settings.channel,
            remote: settings.remote,
            direction: match settings.direction {
                Direction::Sending => direction::SENDS,
                Direction::Receiving => direction::RECEIVES,
            },
            remote_prefix: prefix_to_proved(settings.remote_prefix),
            own_prefix: prefix_to_proved(settings.own_prefix),
        },
        limits: Limits {
            window: settings.window as usize,
            slots: settings.slots as usize,
            payload: settings.most_payload as usize,
            segments: settings.most_segments as usize,
            timeout: narrow(settings.timeout),
            closing: narrow(settings.close_timeout),
            retries: narrow(settings.retries),
            interval: narrow(settings.interval),
            flow: narrow(settings.flow),
            spare: narrow(settings.spare),
            lead: narrow(settings.lead),
        },
    }
}

/// The same prefix, be it a good one or not.
fn prefix_to_proved(prefix: Prefix) -> proved::record::Prefix {
    let Prefix { length, octets } = prefix;
    proved::record::Prefix { length, octets }
}
