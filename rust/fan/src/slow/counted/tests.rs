//! Each way in which the counts could be wrong is noticed.

use super::{check, Counted};
use proved::Reason;

fn sound(full: usize, flow: usize) -> Counted {
    let events = vec![b"1".to_vec(), b"2".to_vec()];
    Counted {
        accepted: events.clone(),
        confirmed: 2,
        data: 2 + 1 + full,
        resends: 1 + full,
        full,
        flow,
        lost: 1,
        taken: events,
        inactive: None,
    }
}

#[test]
fn what_is_as_it_should_be() {
    assert_eq!(check(&sound(2, 0), &sound(0, 2)), Ok(()));
}

#[test]
fn what_is_wrong_with_either_run() {
    let wrongs: [fn(&mut Counted); 7] = [
        |run| run.inactive = Some(("host", Reason::Retries)),
        |run| run.confirmed -= 1,
        |run| run.resends += 1,
        |run| run.lost += 1,
        |run| run.taken.truncate(1),
        |run| run.taken.swap(0, 1),
        |run| run.taken.push(b"2".to_vec()),
    ];
    for wrong in wrongs {
        let (mut without, mut with) = (sound(2, 0), sound(0, 2));
        wrong(&mut without);
        let why = check(&without, &with).expect_err("the first run is wrong");
        assert!(why.starts_with("without Flow Control: "), "{why}");
        without = sound(2, 0);
        wrong(&mut with);
        let why = check(&without, &with).expect_err("the second run is wrong");
        assert!(why.starts_with("with Flow Control: "), "{why}");
    }
}

#[test]
fn what_flow_control_is_for() {
    for (without, with) in [
        (sound(0, 0), sound(0, 2)),
        (sound(2, 1), sound(0, 2)),
        (sound(2, 0), sound(1, 2)),
    ] {
        assert!(check(&without, &with).is_err());
    }
}
