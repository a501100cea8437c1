//! Data numbers.

use super::*;

/// "d < k and new: accepted, acknowledged."
#[test]
fn new_in_the_window_is_accepted() {
    let mut rig = Rig::receiving(RECEIVING);
    for number in [4, 2, 3, 1] {
        let answer = rig.arrival(&whole(number, &[number]));
        assert_eq!((answer.number, answer.length), (0, 12));
    }
    assert_eq!(taken(&mut rig), [[1], [2], [3], [4]]);
}

/// "d < k and already held: acknowledged (15), first copy stays."
#[test]
fn a_repeat_in_the_window_leaves_the_first_copy() {
    let mut rig = Rig::receiving(RECEIVING);
    assert_eq!(rig.arrive(&whole(2, b"first")), 0);
    let memory = rig.node.memory().to_vec();
    let answer = rig.arrival(&whole(2, b"another"));
    assert_eq!((answer.number, answer.length), (15, 12));
    assert_eq!(rig.node.memory(), memory);
    assert_eq!(rig.node.lengths()[1], 5);
    assert_eq!(rig.arrive(&data(2, FIRST, b"third")), 15);
    assert_eq!(wholes(&mut rig, [1]), [0]);
    assert_eq!(taken(&mut rig), [b"\x01".to_vec(), b"first".to_vec()]);
}

/// "d at least 256 - k: acknowledged, not accepted (15)." Trap: "Not
/// acknowledging a repeat behind the window: one lost ack then kills the
/// channel."
#[test]
fn a_repeat_behind_the_window_is_acknowledged() {
    let mut rig = started_at(RECEIVING, 6);
    let memory = rig.node.memory().to_vec();
    for number in 2..=5 {
        let answer = rig.arrival(&whole(number, b"again"));
        assert_eq!((answer.number, answer.length), (15, 12));
    }
    assert_eq!(rig.node.memory(), memory);
    assert_eq!(rig.take(0), Err(12));
    assert_eq!(wholes(&mut rig, [6]), [0]);
}

/// "Any other d: inactive."
#[test]
fn any_other_number_makes_the_channel_inactive() {
    for number in [1, 10, 100, 200] {
        let mut rig = started_at(RECEIVING, 6);
        assert_eq!(wholes(&mut rig, [number]), [9]);
        assert_eq!(standing(&rig), (State::Closed, Reason::DataNumber));
    }
}

/// "Start 1, k 64: number 64 accepted; 65 inactive; 192 inactive; 193 and 0
/// answered 15."
#[test]
fn numbers_to_check_from_start_1() {
    let settings = Settings {
        window: 64,
        slots: 64,
        ..RECEIVING
    };
    let answers = [64, 65, 192, 193, 0].map(|number| {
        let mut rig = Rig::receiving(settings);
        wholes(&mut rig, [number])[0]
    });
    assert_eq!(answers, [0, 9, 9, 15, 15]);
}

/// "Start 250, k 16: 9 accepted; 10 inactive; 234 answered 15; 233 inactive."
#[test]
fn numbers_to_check_from_start_250() {
    let settings = Settings {
        window: 16,
        slots: 17,
        ..RECEIVING
    };
    let started = started_at(settings, 250);
    let answers = [9, 10, 234, 233].map(|number| {
        let mut rig = started.clone();
        wholes(&mut rig, [number])[0]
    });
    assert_eq!(answers, [0, 9, 15, 9]);
}

/// "k 64, segment 1 repeated: start 193 makes it inactive; at 194 it would
/// pass as new, which the lateness premise excludes."
#[test]
fn a_repeat_that_comes_too_late() {
    let settings = Settings {
        window: 64,
        slots: 64,
        ..RECEIVING
    };
    let answers = [65, 66, 193, 194].map(|start| {
        let mut rig = started_at(settings, start);
        wholes(&mut rig, [1])[0]
    });
    assert_eq!(answers, [15, 9, 9, 0]);
}

/// Document 02, A1: at k 128 a repeat of segment 1 is behind at start 129; one
/// later it would pass as new, unless a unit is untaken.
#[test]
fn a_repeat_at_a_window_of_128() {
    let settings = Settings {
        window: 128,
        slots: 128,
        ..RECEIVING
    };
    let answers = [129, 130].map(|start| {
        let mut rig = started_at(settings, start);
        wholes(&mut rig, [1])[0]
    });
    assert_eq!(answers, [15, 0]);
    let mut untaken = started_at(settings, 129);
    assert_eq!(wholes(&mut untaken, [129, 1]), [0, 8]);
}

/// The ring is full, and the window start's slot is the oldest segment's.
#[test]
fn a_window_of_128_with_128_untaken() {
    let settings = Settings {
        window: 128,
        slots: 128,
        ..RECEIVING
    };
    let mut rig = Rig::receiving(settings);
    let filling = std::array::from_fn::<u8, 128, _>(|place| place as u8 + 1);
    assert_eq!(wholes(&mut rig, filling), [0; 128]);
    assert_eq!(wholes(&mut rig, [129, 128, 1]), [8, 15, 15]);
    rig.take(0).unwrap();
    assert_eq!(wholes(&mut rig, [129, 130]), [0, 8]);
}

/// Trap: "Taking number 0 for Control only: Data number 0 follows 255."
#[test]
fn data_number_0_follows_255() {
    let mut rig = started_at(RECEIVING, 255);
    assert_eq!(wholes(&mut rig, [255, 0, 1]), [0, 0, 0]);
    assert_eq!(taken(&mut rig), [[255], [0], [1]]);
}

/// "The start moves past every leading number held": the window is k wide from
/// there.
#[test]
fn the_window_follows_the_start() {
    let mut rig = Rig::receiving(RECEIVING);
    assert_eq!(wholes(&mut rig, [2, 3]), [0, 0]);
    let mut early = rig.clone();
    assert_eq!(wholes(&mut early, [5]), [9]);
    assert_eq!(wholes(&mut rig, [1]), [0]);
    assert_eq!(wholes(&mut rig, [7, 2, 0]), [0, 15, 15]);
    assert_eq!(wholes(&mut rig, [8]), [9]);
}

/// k 1: one number in the window and one behind it.
#[test]
fn the_smallest_window() {
    let settings = Settings {
        window: 1,
        slots: 1,
        most_segments: 1,
        ..RECEIVING
    };
    let started = started_at(settings, 300);
    let answers = [42, 43, 44, 45].map(|number| {
        let mut rig = started.clone();
        wholes(&mut rig, [number])[0]
    });
    assert_eq!(answers, [9, 15, 0, 9]);
}

/// Payload over P gives 3 before the state and the number are looked at.
#[test]
fn payload_over_p_gives_3() {
    let mut rig = Rig::new(&[RECEIVING]);
    assert_eq!(rig.arrive(&whole(1, &[0; 17])), 3);
    rig.open(0);
    assert_eq!(rig.arrive(&whole(1, &[0; 17])), 3);
    rig.arrive(&alone(OPEN, 0));
    assert_eq!(rig.arrive(&whole(100, &[0; 17])), 3);
    assert_eq!(rig.arrive(&whole(1, &[0; 16])), 0);
    assert_eq!(rig.arrive(&whole(1, &[0; 17])), 3);
}
