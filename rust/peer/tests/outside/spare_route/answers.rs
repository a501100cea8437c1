//! "It tests 14, then 5 unless the first is a CLOSED sender and the spare an OPEN one,
//! then 12; it gives the spare's 6 or 7 if not even the oldest fits, else 0 and the
//! number moved."

use peer::settings::{Direction, Settings};
use peer::state::State;

use super::{first_time, pair, route, Routes};
use crate::traps::SENDING;

/// All states of a sending channel.
const STATES: [State; 4] = [State::Closed, State::Enabled, State::Open, State::Closing];

impl Routes {
    /// Leads an empty channel from CLOSED to this state.
    fn lead_to(&mut self, index: usize, state: State) {
        match state {
            State::Closed => {}
            State::Enabled => assert_eq!(self.node.open(index).number, 0),
            State::Open => self.open(index),
            State::Closing => {
                self.open(index);
                assert_eq!(self.node.close(index).number, 0);
            }
        }
        assert_eq!(self.node.state(index), Some(state));
    }
}

/// "14: missing, or no spare named", whatever the states: so a record that is named as
/// a spare and names none, one on no pair, and one that receives.
#[test]
fn no_record_or_no_spare() {
    let [first, spare] = pair();
    let alone = Settings {
        channel: 2,
        ..SENDING
    };
    let receiving = Settings {
        channel: 3,
        direction: Direction::Receiving,
        ..SENDING
    };
    let mut routes = Routes::new(&[first, spare, alone, receiving]);
    let steps: [fn(&mut Routes); 3] = [
        |_| {},
        |routes| [1, 2].into_iter().for_each(|index| routes.open(index)),
        |routes| {
            assert_eq!(routes.transfer(1, b"held"), 0);
            routes.shut(1);
        },
    ];
    for step in steps {
        step(&mut routes);
        for index in [1, 2, 3, 4, 15, 16, usize::MAX] {
            assert_eq!(routes.moved(index), (14, 0));
        }
    }
}

/// 5 in all states but one, before 12, which is the answer there: nothing is held.
#[test]
fn all_states_of_both() {
    for first in STATES {
        for spare in STATES {
            let mut routes = Routes::new(&pair());
            routes.lead_to(0, first);
            routes.lead_to(1, spare);
            let fit = (first, spare) == (State::Closed, State::Open);
            assert_eq!(routes.moved(0), (if fit { 12 } else { 5 }, 0));
        }
    }
}

/// 5 also where units are held, and where the spare would give 6.
#[test]
fn five_with_units_held() {
    let [first, spare] = pair();
    let narrow = Settings {
        most_segments: 1,
        ..spare
    };
    let mut routes = Routes::opened(&[first, narrow], &[0, 1]);
    assert_eq!(routes.transfer(0, &[7; 16]), 0);
    assert_eq!(routes.moved(0), (5, 0));
    assert_eq!(routes.node.close(0).number, 0);
    assert_eq!(routes.moved(0), (5, 0));
    routes.acknowledge(0);
    assert_eq!(routes.moved(0), (6, 0));
    routes.shut(1);
    assert_eq!(routes.moved(0), (5, 0));
}

/// 12 comes before 7, and 6 before 7.
#[test]
fn a_full_spare() {
    let [first, spare] = pair();
    let narrow = Settings {
        most_segments: 2,
        ..spare
    };
    let full = |units: &[&[u8]]| {
        let mut routes = Routes::closed_with(&[first, narrow], units);
        for _ in 0..8 {
            assert_eq!(routes.transfer(1, b"full"), 0);
        }
        routes
    };
    assert_eq!(full(&[]).moved(0), (12, 0));
    assert_eq!(full(&[b""]).moved(0), (7, 0));
    assert_eq!(full(&[&[7; 31]]).moved(0), (7, 0));
    assert_eq!(full(&[&[7; 32]]).moved(0), (6, 0));
}

/// "Answer 6 comes one octet sooner on such pairs": M x P octets give 6 on either
/// route. Of a unit moved the leading octet is there already, and counts once.
#[test]
fn the_longest_unit() {
    let [first, spare] = pair();
    let table = [first, Settings { spare: 1, ..spare }];
    for index in [0, 1] {
        let mut routes = Routes::opened(&table, &[0, 1]);
        assert_eq!(routes.transfer(index, &[7; 64]), 6);
        assert_eq!(routes.transfer(index, &[7; 63]), 0);
        routes.shut(index);
        assert_eq!(routes.moved(index), (0, 1));
    }
    let shorter = Settings {
        most_payload: 9,
        most_segments: 7,
        ..spare
    };
    for (octets, expected) in [(61, (0, 1)), (62, (0, 1)), (63, (6, 0))] {
        let mut routes = Routes::closed_with(&[first, shorter], &[&vec![7; octets]]);
        assert_eq!(routes.moved(0), expected, "{octets}");
    }
}

/// "As far as the spare accepts them; the rest stay held, in order": they may go later.
#[test]
fn room_for_two_of_three() {
    let [first, spare] = pair();
    let small = Settings {
        window: 2,
        slots: 2,
        most_segments: 2,
        ..spare
    };
    let mut routes = Routes::closed_with(&[first, small], &[b"a", b"b", b"c"]);
    assert_eq!(routes.moved(0), (0, 2));
    assert_eq!(routes.held(0), [b"\0c"]);
    assert_eq!(routes.held(1), [b"\x01a", b"\x01b"]);
    assert_eq!(routes.moved(0), (7, 0));
    assert_eq!(routes.node.open(0).number, 10, "one is held");
    routes.confirm(1, 1);
    assert_eq!(routes.moved(0), (0, 1));
    assert_eq!(routes.moved(0), (12, 0));
    assert_eq!(routes.node.open(0).number, 0, "none is held");
}

/// What does not fit stops the move, though what is behind it would fit: by 7, and by 6.
#[test]
fn none_overtakes() {
    let [first, spare] = pair();
    for (slots, most_segments, number) in [(4, 3, 7), (8, 2, 6)] {
        let small = Settings {
            slots,
            most_segments,
            ..spare
        };
        let units: [&[u8]; 4] = [b"a", &[7; 16], &[8; 47], b"c"];
        let mut routes = Routes::closed_with(&[first, small], &units);
        assert_eq!(routes.moved(0), (0, 2));
        let left = [&[8; 47], &b"c"[..]].map(first_time);
        assert_eq!(routes.held(0), left);
        assert_eq!(routes.moved(0), (number, 0));
    }
}

/// The first is on its way to be used again: what was moved does not hold it.
#[test]
fn the_first_opens_again() {
    let mut routes = Routes::closed_with(&pair(), &[b"a", b"b"]);
    assert_eq!(routes.node.open(0).number, 10);
    assert_eq!(routes.moved(0), (0, 2));
    routes.open(0);
    assert_eq!(routes.transfer(0, b"c"), 0);
    assert_eq!(routes.moved(0), (5, 0));
    assert_eq!(routes.held(0), [b"\0c"]);
}

/// Settings that were refused name no spare, and drop nothing.
#[test]
fn thirteen_before_all() {
    let mut routes = Routes::closed_with(&pair(), &[b"a"]);
    assert_eq!(routes.node.settings(&[route(0, 9)]).number, 13);
    assert_eq!(routes.moved(0), (0, 1));
    routes.node.lines_mut()[0] = 17;
    for index in [0, 1, 2] {
        assert_eq!(routes.moved(index), (13, 0));
    }
}
