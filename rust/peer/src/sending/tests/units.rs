//! Units that are held, reclaimed, and left behind by an opening.

use super::*;

/// "leaving OPEN never discards an unconfirmed unit. In CLOSED the application
/// reclaims them whole, oldest first."
#[test]
fn unconfirmed_units_are_reclaimed_whole_and_oldest_first() {
    let mut rig = Rig::sending(SENDING);
    let long: Vec<u8> = (0..40).collect();
    rig.transfer(0, b"first");
    rig.transfer(0, &long);
    rig.transfer(0, b"");
    rig.transfer(0, b"last");
    rig.all_data();
    assert_eq!(confirms(&mut rig, [1]), [1]);
    shut(&mut rig);
    assert_eq!(rig.reclaim(0), Ok(long));
    assert_eq!(rig.reclaim(0), Ok(vec![]));
    assert_eq!(rig.reclaim(0), Ok(b"last".to_vec()));
    assert_eq!(rig.reclaim(0), Err(12));
}

/// Trap: "Freeing slots segment by segment, so a half-confirmed unit cannot be
/// reclaimed."
#[test]
fn a_half_confirmed_unit_is_reclaimed_whole() {
    let mut rig = Rig::sending(SENDING);
    let unit: Vec<u8> = (0..64).collect();
    rig.transfer(0, &unit);
    rig.all_data();
    assert_eq!(confirms(&mut rig, [1, 2, 4]), [0, 0, 0]);
    assert_eq!(rig.transfer(0, &[0; 64]), 0);
    assert_eq!(rig.transfer(0, b""), 7);
    shut(&mut rig);
    assert_eq!(rig.reclaim(0), Ok(unit));
}

/// A unit that lies acknowledged beyond a gap is unconfirmed, so it comes back.
#[test]
fn a_unit_beyond_a_gap_is_reclaimed() {
    let mut rig = Rig::sending(SENDING);
    rig.transfer(0, b"a");
    rig.transfer(0, b"b");
    rig.all_data();
    assert_eq!(confirms(&mut rig, [2]), [0]);
    shut(&mut rig);
    assert_eq!(rig.reclaim(0), Ok(b"a".to_vec()));
    assert_eq!(rig.reclaim(0), Ok(b"b".to_vec()));
}

/// Reclaiming belongs to CLOSED: 5 elsewhere, also if nothing is held.
#[test]
fn reclaiming_belongs_to_closed() {
    let mut rig = Rig::new(&[SENDING]);
    assert_eq!(rig.reclaim(0), Err(12));
    rig.open(0);
    assert_eq!(rig.reclaim(0), Err(5));
    rig.next().unwrap();
    rig.arrive(&alone(CONTROL_ACK, 0));
    assert_eq!(rig.reclaim(0), Err(5));
    rig.transfer(0, b"a");
    assert_eq!(rig.reclaim(0), Err(5));
    rig.close(0);
    assert_eq!(rig.reclaim(0), Err(5));
}

/// A transmit end has nothing to take.
#[test]
fn taking_belongs_to_the_other_direction() {
    let mut rig = Rig::sending(SENDING);
    rig.transfer(0, b"a");
    assert_eq!(rig.take(0), Err(5));
}

/// "Open while units are untaken or unreclaimed" gives 10, after 5.
#[test]
fn open_while_units_are_unreclaimed_gives_10() {
    let mut rig = Rig::sending(SENDING);
    rig.transfer(0, b"a");
    rig.transfer(0, b"b");
    assert_eq!(rig.open(0), 5);
    shut(&mut rig);
    assert_eq!(rig.open(0), 10);
    assert_eq!(rig.reclaim(0), Ok(b"a".to_vec()));
    assert_eq!(rig.open(0), 10);
    assert_eq!(rig.reclaim(0), Ok(b"b".to_vec()));
    assert_eq!(rig.open(0), 0);
}

/// "Segments are numbered from 1 at each opening", and segment 1 lies in
/// slot 0 again.
#[test]
fn the_next_opening_starts_from_1() {
    let mut rig = Rig::sending(SENDING);
    for _ in 0..3 {
        rig.transfer(0, b"abc");
    }
    rig.all_data();
    assert_eq!(confirms(&mut rig, [1, 2]), [1, 1]);
    shut(&mut rig);
    assert_eq!(rig.reclaim(0), Ok(b"abc".to_vec()));
    rig.open(0);
    rig.next().unwrap();
    rig.arrive(&alone(CONTROL_ACK, 0));
    rig.transfer(0, b"xy");
    assert_eq!(rig.node.memory()[..3], *b"xyc");
    assert_eq!(rig.node.lengths()[..4], [2, 3, 3, NOISE_LENGTH]);
    assert_eq!(rig.all_data(), [1]);
    assert_eq!(confirms(&mut rig, [1]), [1]);
}

/// A unit of all slots: k 64, 128 slots, P 1,024.
#[test]
fn the_largest_unit_comes_back() {
    let mut rig = Rig::sending(Settings {
        window: 64,
        slots: 128,
        most_payload: 1_024,
        most_segments: 128,
        ..SENDING
    });
    let unit: Vec<u8> = (0..131_072_u32).map(|place| (place / 7) as u8).collect();
    assert_eq!(
        rig.node
            .transfer(0, &[unit.clone(), vec![0]].concat())
            .number,
        6
    );
    assert_eq!(rig.node.transfer(0, &unit).number, 0);
    assert_eq!(rig.node.memory(), unit);
    shut(&mut rig);
    let mut out = vec![NOISE; 131_073];
    assert_eq!(rig.node.reclaim(0, &mut out[..131_071]).number, 11);
    let answer = rig.node.reclaim(0, &mut out);
    assert_eq!((answer.number, answer.length), (0, 131_072));
    assert_eq!(out[..131_072], unit);
    assert_eq!(out[131_072], NOISE);
}
