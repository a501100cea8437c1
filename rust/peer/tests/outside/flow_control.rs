//! Flow Control between two nodes (document 02, A5): the stories that its readings rest
//! on, and runs over a link that loses but keeps order.

use peer::node::Node;
use peer::packet::kind::{DATA, FLOW_CONTROL};
use peer::settings::Settings;

use crate::heartbeats::{received, sent};
use crate::traps::{opened_as, SENDING};

mod run;

/// A sender and a receiver with Flow Control, both OPEN, with this window, these slots
/// and units of one segment.
fn opened(window: u32, slots: u32) -> [Node; 2] {
    let settings = Settings {
        window,
        slots,
        most_segments: 1,
        flow: 1,
        ..SENDING
    };
    opened_as(settings, 0)
}

/// The kind and the number of a packet, and the number that it states, if it does.
fn told(packet: &[u8]) -> (u8, u8, Option<u8>) {
    let stated = packet[10..packet.len() - 2].first().copied();
    (packet[2] & 0b111, packet[7], stated)
}

/// A unit of one segment goes to the receiver and its Ack comes back.
fn pass(nodes: &mut [Node; 2]) {
    assert_eq!(nodes[0].transfer(0, b"u").number, 0);
    let data = sent(&mut nodes[0]).expect("Data");
    let (number, ack) = received(&mut nodes[1], &data);
    assert_eq!((number, received(&mut nodes[0], &ack).0), (0, 0));
}

/// The receiving application takes a unit.
fn take(nodes: &mut [Node; 2]) {
    assert_eq!(nodes[1].take(0, &mut [0; 16]).number, 0);
}

/// So many ticks for the receiver.
fn tick_receiver(nodes: &mut [Node; 2], count: usize) {
    for _ in 0..count {
        assert_eq!(nodes[1].tick().number, 0);
    }
}

/// A stopped sender goes on once the Flow Control packet arrives, whatever the slots,
/// and past number 255; its Ack lets the next one be made.
#[test]
fn a_stopped_sender_goes_on() {
    for (window, slots) in [(1, 1), (1, 5), (4, 4), (4, 7), (8, 128), (128, 128)] {
        let mut nodes = opened(window, slots);
        for _ in 0..slots {
            pass(&mut nodes);
        }
        for segment in slots + 1..slots + 600 {
            assert_eq!(nodes[0].transfer(0, b"u").number, 0);
            assert_eq!((sent(&mut nodes[0]), sent(&mut nodes[1])), (None, None));
            take(&mut nodes);
            let packet = sent(&mut nodes[1]).expect("Flow Control");
            let (number, last) = (segment as u8, (segment - 1) as u8);
            assert_eq!(told(&packet), (FLOW_CONTROL, last, Some(number)));
            let (_, ack) = received(&mut nodes[0], &packet);
            assert_eq!(told(&ack), (FLOW_CONTROL, last, None));
            assert_eq!(received(&mut nodes[1], &ack), (0, vec![]));
            let data = sent(&mut nodes[0]).expect("Data");
            assert_eq!(told(&data).1, number);
            let (answer, ack) = received(&mut nodes[1], &data);
            assert_eq!((answer, told(&ack).2), (0, Some(number)));
            assert_eq!(received(&mut nodes[0], &ack).0, 0);
        }
    }
}

/// "k = slots = M = 1. Data 1 is taken: Flow Control (number 1, MASN 2) arrives, its Ack
/// is lost. Data 2 goes; the timer ends, (1, 2) is resent and arrives: its Ack lies
/// behind Data 2. Data 2 arrives and is taken. The timer ends: (1, 3) is resent and
/// lost." That Ack then makes another, for 3 is not what was stated first: the sender
/// does not stand still.
#[test]
fn a_lost_resend_is_made_good() {
    let mut nodes = opened(1, 1);
    pass(&mut nodes);
    assert_eq!(nodes[0].transfer(0, b"u").number, 0);
    take(&mut nodes);
    let packet = sent(&mut nodes[1]).unwrap();
    assert_eq!(told(&packet), (FLOW_CONTROL, 1, Some(2)));
    let (_, _lost) = received(&mut nodes[0], &packet);
    let second = sent(&mut nodes[0]).unwrap();
    tick_receiver(&mut nodes, 4);
    let again = sent(&mut nodes[1]).unwrap();
    assert_eq!(again, packet);
    let (_, late) = received(&mut nodes[0], &again);
    let (number, ack) = received(&mut nodes[1], &second);
    assert_eq!((number, told(&ack).2), (0, Some(2)));
    assert_eq!(received(&mut nodes[0], &ack).0, 0);
    assert_eq!(nodes[0].transfer(0, b"u").number, 0);
    take(&mut nodes);
    assert_eq!(sent(&mut nodes[1]), None);
    tick_receiver(&mut nodes, 4);
    let lost = sent(&mut nodes[1]).unwrap();
    assert_eq!(told(&lost), (FLOW_CONTROL, 1, Some(3)));
    assert_eq!(received(&mut nodes[1], &late).0, 0);
    assert_eq!(sent(&mut nodes[0]), None);
    let one_more = sent(&mut nodes[1]).unwrap();
    assert_eq!(told(&one_more), (FLOW_CONTROL, 1, Some(3)));
    assert_eq!(received(&mut nodes[0], &one_more).0, 0);
    let third = sent(&mut nodes[0]).unwrap();
    assert_eq!(told(&third).1, 3);
}

/// The hole of 000: "two Flow Control packets may bear one number, so a late Ack of the
/// first can be taken for the second's; if the second was lost, nobody tells the
/// sender". It needs no more than a link that loses and keeps order, and a timeout that
/// the way there and back outlasts. The sender stands still.
#[test]
fn a_late_ack_is_taken_for_another_packets() {
    let mut nodes = opened(1, 1);
    assert_eq!(nodes[0].transfer(0, b"u").number, 0);
    let first = sent(&mut nodes[0]).unwrap();
    let (_, _lost) = received(&mut nodes[1], &first);
    take(&mut nodes);
    (0..4).for_each(|_| assert_eq!(nodes[0].tick().number, 0));
    let again = sent(&mut nodes[0]).unwrap();
    let (_, ack) = received(&mut nodes[1], &again);
    assert_eq!(told(&ack).2, Some(2));
    assert_eq!(received(&mut nodes[0], &ack).0, 0);
    let packet = sent(&mut nodes[1]).unwrap();
    assert_eq!(nodes[0].transfer(0, b"u").number, 0);
    let second = sent(&mut nodes[0]).unwrap();
    let (_, ack) = received(&mut nodes[1], &second);
    tick_receiver(&mut nodes, 4);
    let resent = sent(&mut nodes[1]).unwrap();
    assert_eq!(resent, packet);
    let (_, prompt) = received(&mut nodes[0], &packet);
    assert_eq!(received(&mut nodes[0], &ack).0, 0);
    let (_, late) = received(&mut nodes[0], &resent);
    take(&mut nodes);
    assert_eq!(received(&mut nodes[1], &prompt).0, 0);
    let lost = sent(&mut nodes[1]).unwrap();
    assert_eq!(told(&lost), (FLOW_CONTROL, 1, Some(3)));
    assert_eq!(received(&mut nodes[1], &late).0, 0);
    assert_eq!(nodes[0].transfer(0, b"u").number, 0);
    for _ in 0..100 {
        assert_eq!((sent(&mut nodes[0]), sent(&mut nodes[1])), (None, None));
        assert_eq!([0, 1].map(|node: usize| nodes[node].tick().number), [0, 0]);
    }
}

/// "k 4; Data 4 overtakes 1 to 3; Acks (1, 5), (2, 6), (3, 8), then (4, 4)": by "the
/// most recent" the sender would stand still for good. It keeps 8.
#[test]
fn an_ack_that_was_overtaken_stops_nobody() {
    let mut nodes = opened(4, 8);
    for _ in 0..4 {
        assert_eq!(nodes[0].transfer(0, b"u").number, 0);
    }
    let data: Vec<Vec<u8>> = std::iter::from_fn(|| sent(&mut nodes[0])).collect();
    let order = [3, 0, 1, 2].map(|place: usize| received(&mut nodes[1], &data[place]).1);
    let stated = [0, 1, 2, 3].map(|place: usize| told(&order[place]).2);
    assert_eq!(stated, [4, 5, 6, 8].map(Some));
    for place in [1, 2, 3, 0] {
        assert_eq!(received(&mut nodes[0], &order[place]).0, 0);
    }
    assert_eq!(nodes[0].sight(0).unwrap().recorded, 8);
    assert_eq!(sent(&mut nodes[1]), None);
    for number in 5..=8 {
        assert_eq!(nodes[0].transfer(0, b"u").number, 0);
        let data = sent(&mut nodes[0]).expect("Data");
        assert_eq!(told(&data), (DATA, number, Some(b'u')));
    }
}

/// "k 4, slots 8. 1 to 5 come, one is taken: (number 5, MASN 9) handed out, lost. Data
/// goes on to 256, all taken. 257 to 264 untaken: start 265, MASN 264 (octet 8). The
/// timer ends": the resend states 8 and not 9 again, which would let 265 go into full
/// slots.
#[test]
fn a_resend_states_the_number_of_now() {
    let mut nodes = opened(4, 8);
    (0..5).for_each(|_| pass(&mut nodes));
    take(&mut nodes);
    let lost = sent(&mut nodes[1]).unwrap();
    assert_eq!(told(&lost), (FLOW_CONTROL, 5, Some(9)));
    (0..4).for_each(|_| take(&mut nodes));
    for _ in 6..=256 {
        pass(&mut nodes);
        take(&mut nodes);
    }
    (257..=264).for_each(|_| pass(&mut nodes));
    assert_eq!(nodes[1].sight(0).unwrap().start, Some(265));
    tick_receiver(&mut nodes, 4);
    let again = sent(&mut nodes[1]).unwrap();
    assert_eq!(told(&again), (FLOW_CONTROL, 5, Some(8)));
    assert_eq!(nodes[0].transfer(0, b"u").number, 0);
    assert_eq!(received(&mut nodes[0], &again).0, 0);
    assert_eq!(sent(&mut nodes[0]), None);
    let mut misled = nodes.clone();
    assert_eq!(received(&mut misled[0], &lost).0, 0);
    let data = sent(&mut misled[0]).unwrap();
    assert_eq!(received(&mut misled[1], &data).0, 8);
}

/// An end that does not obey meets 8, and no more: Data in the window past the number
/// stated is no reason to close.
#[test]
fn data_past_the_number_stated_gets_8() {
    let mut nodes = opened(4, 4);
    (0..4).for_each(|_| pass(&mut nodes));
    for number in 5..=8 {
        let data = crate::calls::data(1, 1, DATA, number, 0b11, b"u");
        assert_eq!(received(&mut nodes[1], &data), (8, vec![]));
    }
    take(&mut nodes);
    let data = crate::calls::data(1, 1, DATA, 6, 0b11, b"u");
    assert_eq!(received(&mut nodes[1], &data).0, 8);
}
