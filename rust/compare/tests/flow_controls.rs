//! Flow Control where chance does not come to: the last retry, every prefix, the widest
//! window, numbers that were overtaken. Every call is made of both libraries and
//! compared.

mod nodes;

use compare::call::Call;
use nodes::{settings, Nodes};
use peer::packet::kind::{DATA_ACK, FLOW_CONTROL, HEARTBEAT};
use peer::prefix::Prefix;
use peer::settings::Settings;
use peer::state::Reason;

/// Units of one segment, with Flow Control, and this window and these slots.
fn stating(window: u32, slots: u32, timeout: u32, retries: u32) -> Settings {
    Settings {
        window,
        slots,
        most_segments: 1,
        flow: 1,
        ..settings(1, timeout, retries)
    }
}

/// A packet that a node hands out.
fn packet(nodes: &mut Nodes, node: usize) -> Vec<u8> {
    nodes.packet_of(node).expect("a packet")
}

/// Type, number and the number stated.
fn said(packet: &[u8]) -> (u8, u8, u8) {
    (packet[2] & 0b111, packet[7], packet[packet.len() - 3])
}

/// Arrives, with 0, and the reply.
fn arrive(nodes: &mut Nodes, node: usize, packet: &[u8]) -> Vec<u8> {
    let outcome = nodes.twins[node].call(Call::Arrival(packet), 13 + 15, &mut nodes.tally);
    assert_eq!(outcome.said.number, 0);
    outcome.octets
}

/// So many units are given to the host.
fn transfer(nodes: &mut Nodes, count: usize) {
    for _ in 0..count {
        assert_eq!(nodes.call(0, Call::Transfer(0, b"unit"), 0), 0);
    }
}

fn take(nodes: &mut Nodes) {
    assert_eq!(nodes.call(1, Call::Take(0), 4), 0);
}

fn ticks(nodes: &mut Nodes, node: usize, count: u32) {
    for _ in 0..count {
        assert_eq!(nodes.call(node, Call::Tick, 0), 0);
    }
}

/// The slots of the station are full, and one unit is taken.
fn one_taken(settings: Settings) -> Nodes {
    let slots = settings.slots as usize;
    let mut nodes = Nodes::open(&[settings]);
    transfer(&mut nodes, slots);
    nodes.exchange();
    take(&mut nodes);
    nodes
}

/// 1 and the retries, then 9.
#[test]
fn the_last_retry() {
    for retries in [0, 1, 2, 254, 255] {
        let mut nodes = one_taken(stating(4, 8, 1, retries));
        for _ in 0..retries {
            assert_eq!(said(&packet(&mut nodes, 1)), (FLOW_CONTROL, 8, 9));
            ticks(&mut nodes, 1, 1);
        }
        assert_eq!(said(&packet(&mut nodes, 1)), (FLOW_CONTROL, 8, 9));
        assert_eq!(nodes.call(1, Call::Tick, 0), 9, "{retries} retries");
        assert_eq!(nodes.twins[1].peer.reason(0), Some(Reason::Retries));
    }
}

/// The Heartbeat is made first and goes first; both retries run out in one tick, and the
/// reason is that of Flow Control.
#[test]
fn beside_a_heartbeat() {
    let mut nodes = one_taken(Settings {
        interval: 1,
        ..stating(4, 8, 2, 0)
    });
    ticks(&mut nodes, 1, 1);
    let heartbeat = packet(&mut nodes, 1);
    assert_eq!(heartbeat[2] & 0b111, HEARTBEAT);
    // The last packet sent is that Heartbeat, numbered 0.
    assert_eq!(said(&packet(&mut nodes, 1)), (FLOW_CONTROL, 0, 9));
    ticks(&mut nodes, 1, 1);
    assert_eq!(nodes.call(1, Call::Tick, 0), 9);
    assert_eq!(nodes.twins[1].peer.reason(0), Some(Reason::Retries));
}

/// Every length of either prefix: the least room for the Ack of Data, for a Flow Control
/// packet and for its Ack; and an octet less.
#[test]
fn every_pair_of_prefixes() {
    let octets: Vec<u8> = (100..115).collect();
    let prefix = |count: usize| Prefix::new(&octets[..count]).expect("not over 15");
    for (own, remote) in (0..16).flat_map(|own| (0..16).map(move |remote| (own, remote))) {
        let mut nodes = Nodes::open(&[Settings {
            own_prefix: prefix(own),
            remote_prefix: prefix(remote),
            ..stating(1, 1, 9, 3)
        }]);
        transfer(&mut nodes, 1);
        let data = packet(&mut nodes, 0);
        assert_eq!(nodes.call(1, Call::Arrival(&data), 12 + remote), 11);
        let ack = nodes.twins[1].call(Call::Arrival(&data), 13 + remote, &mut nodes.tally);
        assert_eq!((ack.said.number, ack.octets.len()), (0, 13 + remote));
        assert_eq!(nodes.call(0, Call::Arrival(&ack.octets), 12), 0);
        take(&mut nodes);
        assert_eq!(nodes.call(1, Call::NextPacket, 12 + remote), 11);
        let flow_control = packet(&mut nodes, 1);
        assert_eq!(flow_control.len(), 13 + remote);
        let arrival = Call::Arrival(&flow_control);
        assert_eq!(nodes.call(0, arrival, 11 + own), 11);
        let ack = nodes.twins[0].call(arrival, 12 + own, &mut nodes.tally);
        assert_eq!((ack.said.number, ack.octets.len()), (0, 12 + own));
        assert_eq!(nodes.call(1, Call::Arrival(&ack.octets), 12), 0);
        assert_eq!(nodes.call(1, Call::Arrival(&ack.octets), 12), 16);
    }
}

/// Full slots at every start round 256: the host stops, and goes on by Flow Control
/// alone.
#[test]
fn numbers_past_255() {
    for (window, slots) in [(1, 1), (4, 4), (4, 7), (64, 64), (128, 128)] {
        let mut nodes = Nodes::open(&[stating(window, slots, 9, 3)]);
        for _ in 0..slots {
            transfer(&mut nodes, 1);
            nodes.exchange();
        }
        for _ in 0..600 {
            transfer(&mut nodes, 1);
            assert_eq!(nodes.call(0, Call::NextPacket, 64), 12);
            take(&mut nodes);
            let flow_control = packet(&mut nodes, 1);
            let ack = arrive(&mut nodes, 0, &flow_control);
            arrive(&mut nodes, 1, &ack);
            nodes.exchange();
        }
    }
}

/// At k 128 the number stated may lie 128 past the start, which counts as behind it: no
/// new Data goes until the start has moved.
#[test]
fn the_widest_window() {
    let mut nodes = Nodes::open(&[stating(128, 128, 4, 9)]);
    transfer(&mut nodes, 1);
    let data = packet(&mut nodes, 0);
    assert_eq!(said(&arrive(&mut nodes, 1, &data)), (DATA_ACK, 1, 128));
    // That Ack is lost. A take states one more.
    take(&mut nodes);
    let flow_control = packet(&mut nodes, 1);
    assert_eq!(said(&flow_control), (FLOW_CONTROL, 1, 129));
    transfer(&mut nodes, 1);
    arrive(&mut nodes, 0, &flow_control);
    assert_eq!(nodes.call(0, Call::NextPacket, 64), 12);
    ticks(&mut nodes, 0, 4);
    assert_eq!(packet(&mut nodes, 0), data);
    let ack = nodes.twins[1].call(Call::Arrival(&data), 13, &mut nodes.tally);
    assert_eq!(
        (ack.said.number, said(&ack.octets)),
        (15, (DATA_ACK, 1, 129))
    );
    arrive(&mut nodes, 0, &ack.octets);
    assert_eq!(packet(&mut nodes, 0)[7], 2);
}

/// Data 4 overtakes 1 to 3. The Ack that states the least comes last, and is not
/// recorded: the host goes on.
#[test]
fn an_overtaken_number() {
    let mut nodes = Nodes::open(&[stating(4, 8, 9, 3)]);
    transfer(&mut nodes, 5);
    let data = [0; 4].map(|_| packet(&mut nodes, 0));
    let acks = [3, 0, 1, 2].map(|place: usize| arrive(&mut nodes, 1, &data[place]));
    let stated = acks.each_ref().map(|ack| said(ack));
    let expected = [(4, 4), (1, 5), (2, 6), (3, 8)];
    assert_eq!(
        stated,
        expected.map(|(number, stated)| (DATA_ACK, number, stated))
    );
    for place in [1, 2, 3, 0] {
        arrive(&mut nodes, 0, &acks[place]);
        let recorded = nodes.twins[0].table[0].pulse.flow.recorded;
        assert_eq!(recorded, [8, 5, 6, 8][place]);
    }
    assert_eq!(packet(&mut nodes, 0)[7], 5);
}

/// A number that no Ack confirms is not lost: k = slots = M = 1. The Ack of a resend is
/// that of the packet before, and the resend that states the number of now is lost: one
/// more is made.
#[test]
fn a_number_is_not_lost() {
    let mut nodes = one_taken(stating(1, 1, 4, 9));
    transfer(&mut nodes, 1);
    let flow_control = packet(&mut nodes, 1);
    assert_eq!(said(&flow_control), (FLOW_CONTROL, 1, 2));
    arrive(&mut nodes, 0, &flow_control);
    let data = packet(&mut nodes, 0);
    ticks(&mut nodes, 1, 4);
    let resent = packet(&mut nodes, 1);
    assert_eq!(resent, flow_control);
    let late = arrive(&mut nodes, 0, &resent);
    arrive(&mut nodes, 1, &data);
    take(&mut nodes);
    ticks(&mut nodes, 1, 4);
    assert_eq!(said(&packet(&mut nodes, 1)), (FLOW_CONTROL, 1, 3));
    arrive(&mut nodes, 1, &late);
    assert_eq!(said(&packet(&mut nodes, 1)), (FLOW_CONTROL, 1, 3));
}

/// Sixteen receivers stand by the order of their takes, and by index when they are
/// resent.
#[test]
fn a_table_of_receivers() {
    let of = |channel| Settings {
        channel,
        ..stating(1, 1, 3, 1)
    };
    let table: Vec<Settings> = (0..16).map(of).collect();
    let mut nodes = Nodes::open(&table);
    for index in 0..16 {
        assert_eq!(nodes.call(0, Call::Transfer(index, b"unit"), 0), 0);
    }
    nodes.exchange();
    for index in (0..16).rev() {
        assert_eq!(nodes.call(1, Call::Take(index), 4), 0);
    }
    for channel in (0..16).rev() {
        assert_eq!(packet(&mut nodes, 1)[6], channel);
    }
    ticks(&mut nodes, 1, 3);
    for channel in 0..16 {
        assert_eq!(packet(&mut nodes, 1)[6], channel);
    }
    ticks(&mut nodes, 1, 2);
    let said = nodes.twins[1].call(Call::Tick, 0, &mut nodes.tally).said;
    assert_eq!((said.number, said.reason, said.index), (9, 1, 0));
}
