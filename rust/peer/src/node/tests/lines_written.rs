//! Lines that the caller wrote into. They are lent, with a condition: what
//! breaks it is 13. What keeps it counts as it lies there: a stander that is not
//! ready is passed over, and a call puts its own channel where it belongs.

use super::*;

/// Two sending channels and a receiving one, in OPEN, with a unit each to send.
fn three() -> Rig {
    let mut rig = Rig::new(&[sending(0), sending(1), receiving(2)]);
    open_all(&mut rig, &[0, 1]);
    rig.open(2);
    rig.arrive(&packet_for(2, OPEN, 0));
    for index in [0, 1] {
        assert_eq!(rig.transfer(index, b"a"), 0);
    }
    assert_eq!(standing(&rig), [vec![], vec![], vec![0, 1]]);
    rig
}

/// Whoever stands there, all lines are these.
fn write(rig: &mut Rig, lines: [&[u8]; 3]) {
    let octets = rig.node.lines_mut();
    octets.fill(0);
    for (place, line) in octets.chunks_mut(17).zip(lines) {
        place[0] = line.len() as u8;
        place[1..=line.len()].copy_from_slice(line);
    }
}

#[test]
fn lines_that_cannot_be() {
    let changes: [(usize, u8); 6] = [(0, 17), (18, 3), (37, 9), (34, 3), (50, 1), (17, 255)];
    for (place, octet) in changes {
        let mut rig = three();
        rig.node.lines_mut()[place] = octet;
        if place == 18 {
            rig.node.lines_mut()[17] = 1;
        }
        let before = rig.node.clone();
        assert_eq!(table::all_calls(&mut rig.node), [13; 10], "{place} {octet}");
        assert_eq!(rig.node, before);
        assert_eq!(
            rig.node
                .settings(&[sending(0), sending(1), receiving(2)])
                .number,
            0
        );
        assert_eq!(rig.node.lines(), [0; LINE_OCTETS]);
    }
}

#[test]
fn lines_of_another_size() {
    for octets in [0, 17, 50, 52] {
        let mut rig = three();
        rig.node.lines_mut().resize(octets, 0);
        let before = rig.node.clone();
        assert_eq!(table::all_calls(&mut rig.node), [13; 10]);
        assert_eq!(
            rig.node
                .settings(&[sending(0), sending(1), receiving(2)])
                .number,
            13
        );
        assert_eq!(rig.node, before);
    }
}

/// A receiver, a sender with nothing of that rank, and then one that has.
#[test]
fn who_is_not_ready_is_passed_over() {
    let mut rig = three();
    write(&mut rig, [&[0, 1, 2], &[2, 1], &[2, 1, 0]]);
    assert_eq!(next(&mut rig), (1, DATA, 1));
    assert_eq!(standing(&rig), [vec![0, 2], vec![2], vec![2, 0]]);
    assert_eq!(next(&mut rig), (0, DATA, 1));
    assert_eq!(rig.next(), Err(12));
    assert_eq!(standing(&rig), [vec![2], vec![2], vec![2]]);
}

/// Who does not stand is not served, until its own call or a tick puts it there.
#[test]
fn who_does_not_stand_is_not_served() {
    let mut rig = three();
    write(&mut rig, [&[], &[], &[]]);
    assert_eq!(rig.next(), Err(12));
    assert_eq!(rig.transfer(1, b"b"), 0);
    assert_eq!(next(&mut rig), (1, DATA, 1));
    assert_eq!(next(&mut rig), (1, DATA, 2));
    assert_eq!(rig.next(), Err(12));
    assert_eq!(rig.tick(), 0);
    assert_eq!(next(&mut rig), (0, DATA, 1));
}

/// Its new Data goes before its resent Data if it stands in that line alone.
#[test]
fn a_rank_that_is_not_its_lowest() {
    let mut rig = three();
    assert_eq!(next(&mut rig), (0, DATA, 1));
    assert_eq!(rig.transfer(0, b"b"), 0);
    rig.ticks(4);
    assert_eq!(standing(&rig), [vec![], vec![0], vec![1, 0]]);
    write(&mut rig, [&[], &[], &[0]]);
    assert_eq!(next(&mut rig), (0, DATA, 2));
    assert_eq!(standing(&rig), [vec![], vec![0], vec![]]);
}

/// A receiver that was put into lines leaves them by its own calls: 0 and 15.
#[test]
fn a_receiver_leaves() {
    let calls: [fn(&mut Rig) -> u8; 2] = [
        |rig| rig.arrive(&packet_for(2, OPEN, 0)),
        |rig| rig.arrive(&packet_for(2, CLOSE, 0)),
    ];
    for (call, number) in calls.into_iter().zip([15, 0]) {
        let mut rig = three();
        write(&mut rig, [&[2], &[0, 2], &[2, 0]]);
        assert_eq!(call(&mut rig), number);
        assert_eq!(standing(&rig), [vec![], vec![0], vec![0]]);
    }
}
