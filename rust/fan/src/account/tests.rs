//! Each way in which the account could be wrong is noticed.

use super::{AtStation, Fate, Seen};
use proved::{Outcome, Refusal};

fn units(words: &[&str]) -> Vec<Vec<u8>> {
    words.iter().map(|word| word.as_bytes().to_vec()).collect()
}

/// Of events 1, 2 and 4, while 3 was refused: 1 is confirmed, 2 came and is not.
fn sound() -> Seen {
    let full = Outcome::Refused(Refusal::NoRoom);
    let outcomes = [Outcome::DONE, Outcome::DONE, full, Outcome::DONE];
    let published = ["1", "2", "3", "4"].into_iter().zip(outcomes);
    Seen {
        published: published.map(|(event, at)| (event.into(), at)).collect(),
        confirmed: 1,
        reclaimed: units(&["2", "4"]),
        taken: units(&["1"]),
        waiting: units(&["2"]),
    }
}

#[test]
fn each_fate() {
    let seen = sound();
    assert_eq!(seen.check(), Ok(()));
    let fates: Vec<Fate> = seen.fates().into_iter().map(|(_, fate)| fate).collect();
    let expected = [
        Fate::Confirmed(AtStation::Taken),
        Fate::Reclaimed(AtStation::Waiting),
        Fate::Refused(Refusal::NoRoom),
        Fate::Reclaimed(AtStation::Nothing),
    ];
    assert_eq!(fates, expected);
}

#[test]
fn what_does_not_add_up() {
    let wrongs: [fn(&mut Seen); 8] = [
        |seen| seen.reclaimed.truncate(1),
        |seen| seen.reclaimed.reverse(),
        |seen| seen.confirmed = 0,
        |seen| seen.confirmed = 2,
        |seen| (seen.waiting.clear(), seen.taken.clear()).0,
        |seen| seen.taken = units(&["2"]),
        |seen| seen.waiting = units(&["4"]),
        |seen| seen.waiting = units(&["2 "]),
    ];
    for (place, wrong) in wrongs.iter().enumerate() {
        let mut seen = sound();
        wrong(&mut seen);
        assert!(seen.check().is_err(), "wrong {place}");
    }
}

#[test]
fn more_confirmed_than_accepted() {
    let mut seen = sound();
    seen.confirmed = 4;
    assert!(seen.check().is_err());
    seen.reclaimed.clear();
    seen.published.clear();
    assert!(seen.check().is_err());
}
