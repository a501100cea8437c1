//! Sequence flags: "As the start moves, flags must read 11, or 01, any 00s,
//! 10, and a unit's M-th segment must end it."

use super::*;

/// "flags must read 11, or 01, any 00s, 10"
#[test]
fn flags_that_make_units() {
    let mut rig = Rig::receiving(RECEIVING);
    let first = [(1, WHOLE), (2, FIRST), (3, LAST), (4, FIRST)];
    assert_eq!(pieces(&mut rig, first), [0; 4]);
    let second = [(5, CONTINUATION), (6, CONTINUATION), (7, LAST), (8, WHOLE)];
    assert_eq!(pieces(&mut rig, second), [0; 4]);
    let units = [vec![1], vec![2, 3], vec![4, 5, 6, 7], vec![8]];
    assert_eq!(taken(&mut rig), units);
}

/// "At a break [..] the channel is inactive and no ack is sent".
#[test]
fn flags_that_break() {
    let breaks = [
        vec![CONTINUATION],
        vec![LAST],
        vec![FIRST, FIRST],
        vec![FIRST, WHOLE],
        vec![FIRST, CONTINUATION, FIRST],
        vec![FIRST, CONTINUATION, WHOLE],
        vec![FIRST, LAST, CONTINUATION],
        vec![FIRST, LAST, LAST],
        vec![WHOLE, CONTINUATION],
        vec![WHOLE, LAST],
        vec![FIRST, CONTINUATION, CONTINUATION, CONTINUATION],
    ];
    for flags in breaks {
        let mut rig = Rig::receiving(RECEIVING);
        let (last, before) = flags.split_last().unwrap();
        for (number, &flags) in (1..).zip(before) {
            assert_eq!(pieces(&mut rig, [(number, flags)]), [0]);
        }
        let number = flags.len() as u8;
        assert_eq!(pieces(&mut rig, [(number, *last)]), [9]);
        assert_eq!(standing(&rig), (State::Closed, Reason::Flags));
    }
}

/// "a unit's M-th segment must end it": with M 1 only whole units do.
#[test]
fn the_smallest_m() {
    let mut rig = Rig::receiving(Settings {
        most_segments: 1,
        ..RECEIVING
    });
    assert_eq!(pieces(&mut rig, [(1, WHOLE), (2, FIRST)]), [0, 9]);
    assert_eq!(standing(&rig), (State::Closed, Reason::Flags));
}

/// Flags are looked at as the start moves: a break beyond a gap is accepted
/// and acknowledged first.
#[test]
fn a_break_beyond_a_gap_shows_when_the_start_reaches_it() {
    let mut rig = Rig::receiving(RECEIVING);
    assert_eq!(pieces(&mut rig, [(2, LAST), (3, WHOLE)]), [0, 0]);
    assert_eq!(rig.node.state(0), Some(State::Open));
    assert_eq!(pieces(&mut rig, [(1, WHOLE)]), [9]);
    assert_eq!(taken(&mut rig), [[1]]);
}

/// The M-th segment may arrive before the others.
#[test]
fn the_m_th_segment_out_of_order() {
    let mut rig = Rig::receiving(RECEIVING);
    let last = [(4, CONTINUATION), (3, CONTINUATION), (2, CONTINUATION)];
    assert_eq!(pieces(&mut rig, last), [0; 3]);
    assert_eq!(pieces(&mut rig, [(1, FIRST)]), [9]);
    assert_eq!(taken(&mut rig), Vec::<Vec<u8>>::new());
}

/// "earlier units stay, those completed in the same move too"; what lies
/// behind the break is dropped, whole units too.
#[test]
fn units_completed_in_the_same_move_stay() {
    let mut rig = Rig::receiving(RECEIVING);
    assert_eq!(wholes(&mut rig, [1]), [0]);
    let beyond = [(3, LAST), (4, CONTINUATION), (5, WHOLE)];
    assert_eq!(pieces(&mut rig, beyond), [0; 3]);
    assert_eq!(pieces(&mut rig, [(2, FIRST)]), [9]);
    assert_eq!(standing(&rig), (State::Closed, Reason::Flags));
    assert_eq!(rig.open(0), 10);
    assert_eq!(taken(&mut rig), [vec![1], vec![2, 3]]);
    assert_eq!(rig.open(0), 0);
}

/// "the new segment being filed already": its octets and length are in the
/// slot although the answer is 9.
#[test]
fn the_segment_that_breaks_is_filed() {
    let mut rig = Rig::receiving(RECEIVING);
    assert_eq!(rig.arrive(&data(1, LAST, b"broken")), 9);
    assert_eq!(rig.node.memory()[..7], *b"broken\xA5");
    assert_eq!(rig.node.lengths()[..2], [6, NOISE_LENGTH]);
}

/// The room comes before the flags.
#[test]
fn the_room_is_tested_before_the_flags() {
    let mut rig = Rig::receiving(Settings {
        slots: 4,
        ..RECEIVING
    });
    assert_eq!(wholes(&mut rig, [1, 2, 3, 4]), [0; 4]);
    assert_eq!(pieces(&mut rig, [(5, LAST)]), [8]);
    assert_eq!(rig.node.state(0), Some(State::Open));
}

/// Short first and middle segments are fine: a receiver does not ask that all
/// but the last have P octets. The last may be empty.
#[test]
fn segments_of_any_length() {
    let mut rig = Rig::receiving(RECEIVING);
    let segments = [
        data(1, FIRST, b"a"),
        data(2, CONTINUATION, b"bcd"),
        data(3, CONTINUATION, b"e"),
        data(4, LAST, b""),
    ];
    assert_eq!(segments.map(|packet| rig.arrive(&packet)), [0; 4]);
    assert_eq!(rig.take(0), Ok(b"abcde".to_vec()));
}

/// An empty first or middle segment is refused before its channel is looked
/// for, and fills no slot (document 02, A8).
#[test]
fn no_empty_middles() {
    let mut rig = Rig::receiving(RECEIVING);
    let empty = |number, unfinished| {
        let mut packet = data(number, LAST, b"");
        packet[2] = packet[2] & !0x18 | unfinished << 3;
        let body = packet.len() - 2;
        let trailer = crate::crc::crc(&packet[..body]).to_be_bytes();
        packet[body..].copy_from_slice(&trailer);
        packet
    };
    assert_eq!(rig.arrive(&empty(1, FIRST)), 3);
    assert_eq!(rig.arrive(&data(1, FIRST, b"a")), 0);
    assert_eq!(rig.arrive(&empty(2, CONTINUATION)), 3);
    assert_eq!(rig.arrive(&data(2, LAST, b"b")), 0);
    assert_eq!(rig.take(0), Ok(b"ab".to_vec()));
}
