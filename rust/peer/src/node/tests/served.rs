//! The answer names the channel that the call served: its index, also where its
//! own step refused; none where the call came to no channel.

use super::*;

/// The answer number and the index.
fn told(answer: Answer) -> (u8, Option<usize>) {
    (answer.number, answer.index)
}

/// Requests name the channel that they were for, whatever it answers.
#[test]
fn a_request_names_its_channel() {
    let mut rig = Rig::new(&[receiving(0), sending(1), sending(2)]);
    let node = &mut rig.node;
    let out = &mut [0; 64];
    assert_eq!(told(node.close(0)), (5, Some(0)));
    assert_eq!(told(node.take(0, out)), (12, Some(0)));
    assert_eq!(told(node.take(1, out)), (5, Some(1)));
    assert_eq!(told(node.reclaim(2, out)), (12, Some(2)));
    assert_eq!(told(node.transfer(2, b"a")), (5, Some(2)));
    assert_eq!(told(node.open(2)), (0, Some(2)));
    assert_eq!(told(node.open(2)), (5, Some(2)));
    for index in [3, 16, usize::MAX] {
        assert_eq!(told(node.open(index)), (14, None));
        assert_eq!(told(node.transfer(index, b"a")), (14, None));
        assert_eq!(told(node.would_transfer(index, 1)), (14, None));
        assert_eq!(told(node.reclaim(index, out)), (14, None));
    }
    assert_eq!(told(node.settings(&[])), (13, None));
}

/// The next packet names the channel whose it is, with 11 too; 12 names none.
#[test]
fn a_packet_names_its_channel() {
    let mut rig = Rig::new(&[receiving(0), sending(1), sending(2)]);
    let out = &mut [0; 64];
    assert_eq!(told(rig.node.next_packet(out)), (12, None));
    open_all(&mut rig, &[1, 2]);
    rig.transfer(2, b"abc");
    let small = rig.node.next_packet(&mut out[..14]);
    assert_eq!((told(small), small.length), ((11, Some(2)), 15));
    assert_eq!(told(rig.node.next_packet(out)), (0, Some(2)));
    assert_eq!(told(rig.node.next_packet(out)), (12, None));
}

/// Whose unit was confirmed, among senders that all have one out.
#[test]
fn an_ack_names_its_channel() {
    let mut rig = Rig::new(&[sending(0), sending(1), sending(2)]);
    open_all(&mut rig, &[0, 1, 2]);
    for index in [0, 1, 2] {
        rig.transfer(index, b"a");
        rig.next().unwrap();
    }
    for index in [1, 2, 0] {
        let ack = packet_for(index as u16, DATA_ACK, 1);
        let confirmed = Answer::confirmed(1).at(index);
        assert_eq!(rig.arrival(&ack), confirmed);
        assert_eq!(told(rig.arrival(&ack)), (16, Some(index)));
    }
}

/// An arrival names the record that it found; 11, 1, 2, 4, 14 and the 3 of the
/// packet alone come before one is found.
#[test]
fn an_arrival_names_the_record_found() {
    let mut rig = Rig::new(&[SENDING, RECEIVING, receiving(3)]);
    let long = whole(1, &[0; 17]);
    assert_eq!(told(rig.arrival(&long)), (3, Some(1)));
    assert_eq!(told(rig.arrival(&whole(1, b"a"))), (5, Some(1)));
    rig.open(2);
    let open = packet_for(3, OPEN, 0);
    assert_eq!(rig.arrival(&open), Answer::written(12).at(2));
    assert_eq!(rig.arrival(&open), Answer::repeated(12).at(2));
    assert_eq!(told(rig.arrival(&packet_for(3, OPEN, 1))), (9, Some(2)));
    assert_eq!(told(rig.arrival(&packet_for(4, OPEN, 0))), (14, None));
    assert_eq!(told(rig.arrival(&open[1..])), (1, None));
    let mut damaged = open.clone();
    damaged[7] = 1;
    assert_eq!(told(rig.arrival(&damaged)), (2, None));
}

/// Of a tick, the lowest index among the channels that went inactive in it.
#[test]
fn a_tick_names_the_lowest_that_went_inactive() {
    let fragile = |channel| Settings {
        retries: 0,
        ..sending(channel)
    };
    let mut rig = Rig::new(&[sending(0), fragile(1), fragile(2)]);
    for index in [0, 1, 2] {
        rig.open(index);
        rig.next().unwrap();
    }
    rig.ticks(3);
    assert_eq!(told(rig.node.tick()), (9, Some(1)));
    let reasons = [0, 1, 2].map(|index| rig.node.reason(index).unwrap());
    assert_eq!(reasons, [Reason::None, Reason::Retries, Reason::Retries]);
    assert_eq!(told(rig.node.tick()), (0, None));
}
