//! What is filed of a unit moved: its octets, behind the leading octet 1, cut anew by
//! the spare's P.

use peer::settings::Settings;

use super::{again, first_time, pair, route, Routes};

/// Mutual spares with P 16 and P 10, where as long a unit fits into either.
fn unlike() -> [Settings; 2] {
    let first = route(0, 2);
    let second = Settings {
        most_payload: 10,
        most_segments: 7,
        ..route(1, 1)
    };
    [first, second]
}

/// As many octets, none like its neighbour.
fn unit(octets: usize) -> Vec<u8> {
    (0..octets).map(|place| place as u8 ^ 0xA5).collect()
}

/// The lengths that are segments of P octets, and one octet more or less: with the
/// leading octet, and without.
fn at_boundaries() -> Vec<usize> {
    let near = |&octets: &usize| {
        let at = |most: usize| [0, 1, 2, most - 1].contains(&(octets % most));
        at(16) || at(10) || at(5)
    };
    (0..=63).filter(near).collect()
}

/// From P 16 to P 10, back, and to P 10 once more.
#[test]
fn there_and_back() {
    for octets in at_boundaries() {
        let unit = unit(octets);
        let mut routes = Routes::closed_with(&unlike(), &[&unit]);
        assert_eq!(routes.moved(0), (0, 1));
        for (first, spare) in [(1, 0), (0, 1)] {
            routes.shut(first);
            routes.open(spare);
            assert_eq!(routes.moved(first), (0, 1));
            assert_eq!(routes.held(spare), [again(&first_time(&unit))]);
        }
    }
}

/// The lengths that decide, by name.
#[test]
fn segments_on_either_route() {
    let lengths = [0, 8, 9, 10, 14, 15, 16, 17, 18, 19, 29, 30, 31, 47, 48, 63];
    let counts = [16, 10].map(|most| {
        lengths.map(|octets| {
            let table = unlike();
            let mut routes = Routes::closed_with(&table, &[&unit(octets)]);
            if most == 10 {
                assert_eq!(routes.moved(0), (0, 1));
            }
            let index = usize::from(most == 10);
            routes.node.sight(index).unwrap().held.len()
        })
    });
    let on_16 = [1, 1, 1, 1, 1, 1, 2, 2, 2, 2, 2, 2, 2, 3, 4, 4];
    let on_10 = [1, 1, 1, 2, 2, 2, 2, 2, 2, 2, 3, 4, 4, 5, 5, 7];
    assert_eq!(counts, [on_16, on_10]);
}

/// Several at once, so that segments lie round the end of the spare's slots.
#[test]
fn round_the_end_of_the_slots() {
    for before in 0..8 {
        let units = [unit(9), unit(0), unit(29), unit(10)];
        let units: Vec<&[u8]> = units.iter().map(Vec::as_slice).collect();
        let mut routes = Routes::closed_with(&unlike(), &units);
        for number in 0..before {
            assert_eq!(routes.transfer(1, b"gone"), 0);
            routes.confirm(1, number + 1);
        }
        assert_eq!(routes.moved(0), (0, 4));
        let filed: Vec<Vec<u8>> = units.iter().map(|unit| again(&first_time(unit))).collect();
        assert_eq!(routes.held(1), filed);
    }
}

/// "An empty unit is one segment of one octet", also once moved.
#[test]
fn an_empty_unit() {
    let mut routes = Routes::closed_with(&pair(), &[b"", b""]);
    assert_eq!(routes.held(0), [[0], [0]]);
    assert_eq!(routes.moved(0), (0, 2));
    assert_eq!(routes.held(1), [[1], [1]]);
}

/// The leading octet alone is set: what is behind it may look like one. Equal units are
/// two all the same.
#[test]
fn units_that_begin_like_a_leading_octet() {
    let units: [&[u8]; 5] = [&[0], &[1], &[1], &[255, 0], &[0, 0, 1]];
    let mut routes = Routes::closed_with(&pair(), &units);
    assert_eq!(routes.moved(0), (0, 5));
    assert_eq!(routes.held(1), units.map(|unit| [&[1], unit].concat()));
}

/// Sent and acknowledged on the first does not count on the spare: a unit that is half
/// confirmed, or acknowledged beyond a gap, goes whole.
#[test]
fn half_confirmed_units_go_whole() {
    let mut routes = Routes::opened(&unlike(), &[0, 1]);
    for unit in [&unit(40), &unit(3), &unit(5)] {
        assert_eq!(routes.transfer(0, unit), 0);
    }
    for _ in 0..4 {
        assert_eq!(routes.node.next_packet(&mut [0; 64]).number, 0);
    }
    for number in [1, 2, 4] {
        assert_eq!(routes.data_ack(0, number), 0, "none is confirmed");
    }
    routes.shut(0);
    assert_eq!(routes.moved(0), (0, 3));
    let filed = [40, 3, 5].map(|octets| again(&first_time(&unit(octets))));
    assert_eq!(routes.held(1), filed);
}
