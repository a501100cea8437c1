//! Where both channels stand in the lines (document 02, A4) after a move: the spare as
//! after a transfer, the first in none.

use peer::settings::Settings;

use super::{pair, route, Routes};

/// Who stands in the line of new Data, from the head on; nobody stands in another.
fn new_data(routes: &Routes) -> Vec<u8> {
    let (others, line) = routes.node.lines().split_at(34);
    assert!(others.iter().all(|&octet| octet == 0));
    line[1..][..usize::from(line[0])].to_vec()
}

/// The channels of the next packets, until there is none.
fn served(routes: &mut Routes) -> Vec<usize> {
    let mut indexes = Vec::new();
    loop {
        let answer = routes.node.next_packet(&mut [0; 64]);
        match answer.number {
            0 => indexes.push(answer.index.expect("a channel")),
            number => {
                assert_eq!(number, 12);
                return indexes;
            }
        }
    }
}

/// It joins at the tail, once, however many units it got.
#[test]
fn the_spare_joins_at_the_tail() {
    let table = [route(0, 3), route(1, 3), route(2, 0), route(3, 1)];
    let mut routes = Routes::closed_with(&table, &[b"a", b"b"]);
    assert_eq!(routes.transfer(3, b"c"), 0);
    assert_eq!(routes.transfer(1, b"d"), 0);
    assert_eq!(new_data(&routes), [3, 1]);
    assert_eq!(routes.moved(0), (0, 2));
    assert_eq!(new_data(&routes), [3, 1, 2]);
    assert_eq!(served(&mut routes), [3, 1, 2, 2]);
}

/// Where it stands already it keeps its place.
#[test]
fn the_spare_keeps_its_place() {
    let table = [route(0, 2), route(1, 0), route(2, 2)];
    let mut routes = Routes::closed_with(&table, &[b"a"]);
    assert_eq!(routes.transfer(1, b"b"), 0);
    assert_eq!(routes.transfer(2, b"c"), 0);
    assert_eq!(routes.moved(0), (0, 1));
    assert_eq!(new_data(&routes), [1, 2]);
    assert_eq!(served(&mut routes), [1, 2, 1]);
}

/// With k segments out nothing more is ready, so it does not join; the Ack that moves
/// the start lets it.
#[test]
fn a_spare_whose_window_is_full() {
    let mut routes = Routes::closed_with(&pair(), &[b"a"]);
    for _ in 0..4 {
        assert_eq!(routes.transfer(1, b"b"), 0);
    }
    assert_eq!(served(&mut routes), [1; 4]);
    assert_eq!(routes.moved(0), (0, 1));
    assert_eq!(new_data(&routes), []);
    assert_eq!(routes.data_ack(1, 2), 0);
    assert_eq!(new_data(&routes), []);
    assert_eq!(routes.data_ack(1, 1), 2);
    assert_eq!(new_data(&routes), [1]);
    assert_eq!(served(&mut routes), [1]);
}

/// The number recorded holds back new Data of a spare that uses Flow Control (A5): it
/// does not join.
#[test]
fn a_spare_that_is_held_back() {
    let [first, spare] = pair();
    let spare = Settings { flow: 1, ..spare };
    let mut routes = Routes::closed_with(&[first, spare], &[b"a"]);
    assert_eq!(routes.moved(0), (0, 1));
    assert_eq!(new_data(&routes), []);
    assert_eq!(served(&mut routes), []);
}

/// A refusal moves nobody, and a move no one but its own: a caller's lines are put
/// right for both, in every line, and left as they are for others.
#[test]
fn lines_that_the_caller_wrote() {
    let table = [route(0, 2), route(1, 0), route(2, 2)];
    let mut routes = Routes::closed_with(&table, &[b"a"]);
    let mut lines = [0; 51];
    for line in lines.chunks_mut(17) {
        line[..4].copy_from_slice(&[3, 0, 2, 1]);
    }
    routes.node.lines_mut().copy_from_slice(&lines);
    for index in [1, 2, 3] {
        assert_ne!(routes.moved(index).0, 0);
    }
    assert_eq!(routes.node.lines(), lines);
    assert_eq!(routes.moved(0), (0, 1));
    let mut right = [0; 51];
    for (line, expected) in right.chunks_mut(17).zip([[1, 2, 0], [1, 2, 0], [2, 2, 1]]) {
        line[..3].copy_from_slice(&expected);
    }
    assert_eq!(routes.node.lines(), right);
}
