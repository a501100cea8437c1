//! Room in the slots, and what lies in them.

use super::*;

/// "if the new segment lies as many slots or more past the oldest segment not
/// yet taken, it is neither accepted nor acknowledged (8)"
#[test]
fn full_slots_give_8_until_a_unit_is_taken() {
    let mut rig = Rig::receiving(RECEIVING);
    assert_eq!(wholes(&mut rig, [1, 2, 3, 4, 5, 6, 7, 8]), [0; 8]);
    assert_eq!(wholes(&mut rig, [9, 12]), [8, 8]);
    assert_eq!(rig.take(0), Ok(vec![1]));
    assert_eq!(wholes(&mut rig, [10, 9, 10]), [8, 0, 8]);
    assert_eq!(rig.take(0), Ok(vec![2]));
    assert_eq!(wholes(&mut rig, [10]), [0]);
}

/// A number in the window whose slot still holds an older untaken segment is
/// new: 8, not 15.
#[test]
fn a_slot_that_is_used_by_an_older_segment_is_no_repeat() {
    let mut rig = Rig::receiving(Settings {
        slots: 4,
        ..RECEIVING
    });
    assert_eq!(wholes(&mut rig, [1, 2, 3]), [0, 0, 0]);
    assert_eq!(wholes(&mut rig, [5, 6, 7]), [8, 8, 8]);
    assert_eq!(wholes(&mut rig, [4]), [0]);
    assert_eq!(wholes(&mut rig, [5, 6, 7, 8]), [8, 8, 8, 8]);
    assert_eq!(taken(&mut rig), [[1], [2], [3], [4]]);
    assert_eq!(wholes(&mut rig, [8, 7, 6, 5]), [0, 0, 0, 0]);
    assert_eq!(taken(&mut rig), [[5], [6], [7], [8]]);
}

/// The number comes before the room: with full slots a repeat is acknowledged
/// and a wrong number makes the channel inactive.
#[test]
fn the_number_is_tested_before_the_room() {
    let mut rig = Rig::receiving(Settings {
        slots: 4,
        ..RECEIVING
    });
    assert_eq!(wholes(&mut rig, [1, 2, 3, 4]), [0; 4]);
    assert_eq!(wholes(&mut rig, [1, 4, 5]), [15, 15, 8]);
    assert_eq!(wholes(&mut rig, [9]), [9]);
}

/// The oldest segment not yet taken may be one of an unfinished unit, or one
/// that has not arrived.
#[test]
fn the_oldest_segment_may_be_unfinished_or_missing() {
    let mut rig = Rig::receiving(Settings {
        slots: 5,
        ..RECEIVING
    });
    assert_eq!(pieces(&mut rig, [(1, FIRST), (2, CONTINUATION)]), [0, 0]);
    assert_eq!(wholes(&mut rig, [6]), [8]);
    assert_eq!(wholes(&mut rig, [5, 4]), [0, 0]);
    assert_eq!(pieces(&mut rig, [(3, LAST)]), [0]);
    assert_eq!(wholes(&mut rig, [6]), [8]);
    assert_eq!(taken(&mut rig), [vec![1, 2, 3], vec![4], vec![5]]);
    assert_eq!(wholes(&mut rig, [9, 6]), [0, 0]);
}

/// A unit of all slots: the window and the unit fit at the same time only if
/// all before it was taken.
#[test]
fn a_unit_of_all_slots() {
    let mut rig = Rig::receiving(Settings {
        window: 4,
        slots: 4,
        ..RECEIVING
    });
    let unit = [(4, LAST), (3, CONTINUATION), (2, CONTINUATION), (1, FIRST)];
    assert_eq!(pieces(&mut rig, unit), [0; 4]);
    assert_eq!(wholes(&mut rig, [5]), [8]);
    assert_eq!(taken(&mut rig), [[1, 2, 3, 4]]);
    assert_eq!(wholes(&mut rig, [5]), [0]);
}

/// "Filing it, at [..] an accepted arrival, writes its octets and length; the
/// slot's octets past it stay."
#[test]
fn an_accepted_segment_lies_in_its_slot() {
    let mut rig = Rig::receiving(Settings {
        window: 2,
        slots: 3,
        most_payload: 4,
        most_segments: 3,
        ..RECEIVING
    });
    assert_eq!(rig.arrive(&whole(2, b"bb")), 0);
    assert_eq!(rig.node.memory()[4..8], [b'b', b'b', NOISE, NOISE]);
    assert_eq!(rig.node.lengths(), [NOISE_LENGTH, 2, NOISE_LENGTH]);
    assert_eq!(rig.arrive(&whole(1, b"aaaa")), 0);
    assert_eq!(rig.arrive(&whole(3, b"")), 0);
    assert_eq!(rig.arrive(&whole(4, b"dd")), 8);
    assert_eq!(rig.take(0), Ok(b"aaaa".to_vec()));
    assert_eq!(rig.arrive(&whole(4, b"dd")), 0);
    assert_eq!(rig.node.memory(), b"ddaabb\xA5\xA5\xA5\xA5\xA5\xA5");
    assert_eq!(rig.node.lengths(), [2, 2, 0]);
}

/// Taking writes nothing into the storage.
#[test]
fn taking_leaves_the_storage() {
    let mut rig = Rig::receiving(RECEIVING);
    wholes(&mut rig, [1, 2]);
    let (memory, lengths) = (rig.node.memory().to_vec(), rig.node.lengths().to_vec());
    taken(&mut rig);
    assert_eq!(rig.node.memory(), memory);
    assert_eq!(rig.node.lengths(), lengths);
}

/// Slots that do not divide 256: the slot follows the segment, not its number.
#[test]
fn slots_past_number_255() {
    let mut rig = Rig::receiving(Settings {
        window: 2,
        slots: 7,
        most_payload: 1,
        ..RECEIVING
    });
    for segment in (1..1_200_usize).step_by(2) {
        let numbers = [segment + 1, segment].map(|segment| segment as u8);
        assert_eq!(wholes(&mut rig, numbers), [0, 0]);
        assert_eq!(rig.node.memory()[segment % 7], numbers[0]);
        assert_eq!(rig.node.memory()[(segment - 1) % 7], numbers[1]);
        assert_eq!(taken(&mut rig), [[numbers[1]], [numbers[0]]]);
    }
}
