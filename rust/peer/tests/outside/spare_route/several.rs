//! "A channel may be the spare of several. Chains and mutual spares are fine; 1 stays
//! 1."

use super::{route, Routes};

/// Channels 0 and 1 have the spare 2: its units lie there in the order of the moves.
#[test]
fn a_spare_of_two() {
    let table = [route(0, 3), route(1, 3), route(2, 0)];
    let mut routes = Routes::opened(&table, &[0, 1, 2]);
    for (index, unit) in [(0, b"a"), (1, b"b"), (2, b"c"), (0, b"d"), (1, b"e")] {
        assert_eq!(routes.transfer(index, unit), 0);
    }
    routes.shut(0);
    routes.shut(1);
    assert_eq!(routes.moved(1), (0, 2));
    assert_eq!(routes.moved(0), (0, 2));
    let all = [b"\0c", b"\x01b", b"\x01e", b"\x01a", b"\x01d"];
    assert_eq!(routes.held(2), all);
}

/// What one has moved is room that the other lacks.
#[test]
fn two_that_need_the_same_room() {
    let table = [route(0, 3), route(1, 3), route(2, 0)];
    let mut routes = Routes::opened(&table, &[0, 1, 2]);
    for _ in 0..5 {
        assert_eq!(routes.transfer(0, b"a"), 0);
        assert_eq!(routes.transfer(1, b"b"), 0);
    }
    routes.shut(0);
    routes.shut(1);
    assert_eq!(routes.moved(0), (0, 5));
    assert_eq!(routes.moved(1), (0, 3));
    assert_eq!(routes.moved(1), (7, 0));
    assert_eq!(routes.held(1), [b"\0b", b"\0b"]);
}

/// A chain: from 0 to 1, and once that has closed too to 2, with 1's own units.
#[test]
fn a_chain() {
    let table = [route(0, 2), route(1, 3), route(2, 0)];
    let mut routes = Routes::opened(&table, &[0, 1, 2]);
    assert_eq!(routes.transfer(0, b"a"), 0);
    assert_eq!(routes.transfer(1, b"b"), 0);
    routes.shut(0);
    assert_eq!(routes.moved(0), (0, 1));
    routes.shut(1);
    assert_eq!(routes.held(1), [b"\0b", b"\x01a"]);
    assert_eq!(routes.moved(1), (0, 2));
    assert_eq!(routes.held(2), [b"\x01b", b"\x01a"]);
    assert_eq!(routes.moved(2), (14, 0));
}

/// Mutual spares: a unit that is moved twice is where it was, and may be a repeat.
#[test]
fn mutual_spares() {
    let table = [route(0, 2), route(1, 1)];
    let mut routes = Routes::closed_with(&table, &[b"a", b""]);
    assert_eq!(routes.moved(1), (5, 0), "both are not as they must be");
    assert_eq!(routes.moved(0), (0, 2));
    assert_eq!(routes.transfer(1, b"b"), 0);
    routes.shut(1);
    assert_eq!(routes.moved(1), (5, 0), "both are CLOSED");
    routes.open(0);
    assert_eq!(routes.moved(1), (0, 3));
    routes.shut(0);
    let all = [&b"\x01a"[..], b"\x01", b"\x01b"];
    assert_eq!(routes.held(0), all);
    routes.open(1);
    assert_eq!(routes.moved(0), (0, 3));
    assert_eq!(routes.held(1), all);
}
