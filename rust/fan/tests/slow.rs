//! The story of the slow station: full slots are met without Flow Control, and with
//! it none.

use fan::{story, Options};

/// The row of this name: the counts without Flow Control and with it.
fn row(told: &str, name: &str) -> [usize; 2] {
    let rest = told.lines().find_map(|line| line.strip_prefix(name));
    let words = rest.expect("there is such a row").split_whitespace();
    let counts: Vec<usize> = words.map(|word| word.parse().expect("a count")).collect();
    counts.try_into().expect("two counts")
}

#[test]
fn the_default_slow_story_is_the_one_in_the_folder() {
    let (told, sound) = story(Options::slow());
    assert!(sound);
    assert_eq!(told, include_str!("../slow.txt"));
}

#[test]
fn full_slots_without_flow_control_and_none_with_it() {
    for seed in [1, 2] {
        let options = Options {
            seed,
            ..Options::slow()
        };
        let (told, sound) = story(options);
        assert!(sound, "{told}");
        let [without, with] = row(&told, "Data that arrived at full slots");
        assert!(without > 0, "{told}");
        assert_eq!(with, 0, "{told}");
        let [without, with] = row(&told, "Flow Control packets handed out");
        assert_eq!(without, 0, "{told}");
        assert!(with > 0, "{told}");
        assert_eq!(row(&told, "events accepted by the host"), [24; 2]);
        assert_eq!(row(&told, "events taken by the station"), [24; 2]);
    }
}

#[test]
fn whatever_is_lost_in_moderation() {
    for seed in 0..60 {
        let options = Options {
            seed,
            loss: seed * 7 % 41,
            ..Options::slow()
        };
        let (told, sound) = story(options);
        assert!(sound, "{options:?}\n{told}");
    }
}

#[test]
fn a_link_that_loses_all_is_told_of() {
    let options = Options {
        loss: 100,
        ..Options::slow()
    };
    let (told, sound) = story(options);
    assert!(!sound);
    let last = "\nthis is not as it should be: without Flow Control: \
                the host's channel went inactive (retries used up)\n";
    assert!(told.ends_with(last), "{told}");
    assert_eq!(row(&told, "events accepted by the host"), [0; 2]);
}

#[test]
fn what_the_program_is_asked() {
    let asked = |words: &str| Options::of(words.split_whitespace().map(String::from));
    assert_eq!(asked("--slow"), Ok(Options::slow()));
    let options = Options {
        seed: 1,
        loss: 2,
        ..Options::slow()
    };
    assert_eq!(asked("--slow --seed 1 --loss 2"), Ok(options));
    assert_eq!(asked("--seed 1 --loss 2 --slow"), Ok(options));
    for wrong in ["--repeat 1", "--reorder 1", "--events 1", "--seed", "1"] {
        assert!(asked(&format!("--slow {wrong}")).is_err(), "{wrong}");
    }
}
