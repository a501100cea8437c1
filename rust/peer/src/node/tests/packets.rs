//! "Each call for a packet hands out one: Control before resent Data before
//! new Data; [..] within a channel the lowest segment." The order of channels of
//! equal rank is document 02's, A4: `lines`.

use super::*;

#[test]
fn control_before_data() {
    let mut rig = Rig::new(&[sending(0), sending(1), sending(2)]);
    open_all(&mut rig, &[0, 1]);
    rig.transfer(0, b"a");
    rig.transfer(1, b"b");
    rig.open(2);
    rig.close(1);
    assert_eq!(next(&mut rig), (2, OPEN, 0));
    assert_eq!(next(&mut rig), (1, CLOSE, 0));
    assert_eq!(next(&mut rig), (0, DATA, 1));
    assert_eq!(rig.next(), Err(12));
}

#[test]
fn resent_data_before_new_data() {
    let mut rig = Rig::new(&[sending(0), sending(1)]);
    open_all(&mut rig, &[0, 1]);
    rig.transfer(1, b"a");
    assert_eq!(next(&mut rig), (1, DATA, 1));
    rig.ticks(4);
    rig.transfer(0, b"b");
    rig.transfer(1, b"c");
    assert_eq!(next(&mut rig), (1, DATA, 1));
    assert_eq!(next(&mut rig), (0, DATA, 1));
    assert_eq!(next(&mut rig), (1, DATA, 2));
}

/// Within a channel resent Data goes before new Data, whatever their numbers,
/// and of each the lowest segment; number 255 lies below number 0 there.
#[test]
fn the_lowest_segment() {
    let mut rig = Rig::new(&[sending(1)]);
    rig.open(0);
    rig.next().unwrap();
    rig.arrive(&alone(CONTROL_ACK, 0));
    for number in 1..=254 {
        rig.transfer(0, b"a");
        assert_eq!(next(&mut rig), (1, DATA, number));
        assert_eq!(rig.arrive(&alone(DATA_ACK, number)), 0);
    }
    for _ in 0..4 {
        rig.transfer(0, b"a");
    }
    assert_eq!(rig.next(), Ok((DATA, 255)));
    rig.ticks(1);
    assert_eq!(rig.next(), Ok((DATA, 0)));
    rig.ticks(3);
    assert_eq!(rig.next(), Ok((DATA, 255)));
    assert_eq!(rig.next(), Ok((DATA, 1)));
    rig.ticks(1);
    assert_eq!(rig.next(), Ok((DATA, 0)));
    assert_eq!(rig.next(), Ok((DATA, 2)));
    rig.ticks(3);
    assert_eq!(rig.all_data(), [255, 1]);
}

/// 12 if nothing is ready, then 11 for the packet that the lines choose; a
/// smaller one that would fit is not tried.
#[test]
fn a_buffer_too_small_for_the_chosen_packet() {
    let mut rig = Rig::new(&[sending(0), sending(1)]);
    assert_eq!(rig.node.next_packet(&mut []).number, 12);
    open_all(&mut rig, &[0, 1]);
    rig.transfer(0, b"abc");
    rig.transfer(1, b"");
    let before = rig.node.clone();
    let mut out = [NOISE; 16];
    let small = rig.node.next_packet(&mut out[..14]);
    assert_eq!((small.number, small.length, small.index), (11, 15, Some(0)));
    assert_eq!((&rig.node, out), (&before, [NOISE; 16]));
    let answer = rig.node.next_packet(&mut out[..15]);
    assert_eq!((answer.number, answer.length), (0, 15));
    assert_eq!((out[6], out[15]), (0, NOISE));
    assert_eq!(rig.node.next_packet(&mut out[..12]).number, 0);
    assert_eq!(rig.node.next_packet(&mut []).number, 12);
}

/// Handing out leaves the storage; so do acks and ticks.
#[test]
fn only_filing_writes_the_storage() {
    let mut rig = Rig::sending(SENDING);
    rig.transfer(0, &[1; 40]);
    let (memory, lengths) = (rig.node.memory().to_vec(), rig.node.lengths().to_vec());
    rig.all_data();
    rig.ticks(4);
    rig.all_data();
    rig.arrive(&alone(DATA_ACK, 1));
    rig.close(0);
    rig.next().unwrap();
    rig.arrive(&alone(CONTROL_ACK, 0));
    rig.reclaim(0).unwrap();
    assert_eq!(rig.node.memory(), memory);
    assert_eq!(rig.node.lengths(), lengths);
}
