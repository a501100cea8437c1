//! The program's output, and that the account adds up whatever the link does.

use fan::{story, Options};

#[test]
fn the_default_story_is_the_one_in_the_folder() {
    let (told, sound) = story(Options::default());
    assert!(sound);
    assert_eq!(told, include_str!("../expected.txt"));
}

#[test]
fn every_event_is_accounted_for_whatever_the_link_does() {
    let mut fates = String::new();
    for seed in 0..200 {
        let part = |times: usize, most: usize| seed * times % most;
        let options = Options {
            seed,
            loss: part(7, 60),
            repeat: part(11, 50),
            reorder: part(13, 100),
            events: 1 + part(3, 40),
            ..Options::default()
        };
        let (told, sound) = story(options);
        assert!(sound, "{options:?}\n{told}");
        fates += &told;
    }
    let kinds = [
        "confirmed; the station took it",
        "confirmed; it waits at the station",
        "reclaimed; the station took it",
        "reclaimed; it waits at the station",
        "reclaimed; it did not come",
        "publication: 7",
        "publication: 5",
    ];
    for kind in kinds {
        println!("{:>5} {kind}", fates.matches(kind).count());
        assert!(fates.contains(kind), "no event was {kind}");
    }
}

#[test]
fn numbers_past_255() {
    let options = Options {
        loss: 5,
        events: 900,
        ..Options::default()
    };
    let (told, sound) = story(options);
    assert!(sound, "{told}");
    assert!(told.matches("confirmed; the station took it").count() > 256);
}

#[test]
fn links_at_their_limits() {
    for (loss, events) in [(100, 3), (0, 0), (0, 1), (100, 0), (0, 20)] {
        let options = Options {
            loss,
            events,
            ..Options::default()
        };
        let (told, sound) = story(options);
        assert!(sound, "{told}");
        let all_refused = format!("{events} events: 0 accepted, {events} refused");
        assert_eq!(told.contains(&all_refused), loss == 100 || events == 0);
    }
}

#[test]
fn what_the_program_is_asked() {
    let asked = |words: &str| Options::of(words.split_whitespace().map(String::from));
    assert_eq!(asked(""), Ok(Options::default()));
    let options = Options {
        slow: false,
        seed: 1,
        loss: 2,
        repeat: 3,
        reorder: 4,
        events: 5,
    };
    let words = "--seed 1 --loss 2 --repeat 3 --reorder 4 --events 5";
    assert_eq!(asked(words), Ok(options));
    for wrong in ["--seed", "--loss 101", "--events -1", "--loss x", "5"] {
        assert!(asked(wrong).is_err(), "{wrong}");
    }
}
