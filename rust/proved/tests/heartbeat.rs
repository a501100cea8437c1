//! Heartbeats (document 02, A2) through the linked library, at both ends: "A quiet
//! channel and a dead one look alike."

mod beats;
mod ends;

use beats::{ack, both, next, ticks, DATA, HEARTBEAT, LIVELY, UNANSWERED};
use ends::{done, refused, unserved, End};
use proved::record::{reason, state};
use proved::{Limits, Pulse, Said};

/// Interval 3, timeout 2, retries 1 and no answer: a Heartbeat after tick 3, again after
/// tick 5, and tick 7 answers 9.
fn dies(end: &mut End) {
    ticks(end, 3);
    assert_eq!(next(end), Some(HEARTBEAT));
    ticks(end, 2);
    assert_eq!(next(end), Some(HEARTBEAT));
    ticks(end, 1);
    assert_eq!(end.record().phase.state, state::OPEN);
    assert_eq!(end.tick(), UNANSWERED);
    let record = *end.record();
    let phase = (record.phase.state, record.phase.reason);
    assert_eq!(phase, (state::CLOSED, reason::UNANSWERED));
    assert_eq!(record.pulse, Pulse::default());
    assert_eq!(end.tick(), unserved(0));
    assert_eq!(next(end), None);
}

/// "a sender closed so holds its units as in any close": here two that were accepted
/// and never went out, as the Heartbeat goes first.
#[test]
fn a_sender_without_an_answer_holds_its_units() {
    let [mut host, _] = both(LIVELY);
    let units = [vec![7; 40], b"b".to_vec()];
    for unit in &units {
        assert_eq!(host.transfer(unit), done(0, 0));
    }
    let (memory, lengths) = (host.memory.clone(), host.lengths.clone());
    let (window, marks) = (host.record().window, host.record().marks);
    dies(&mut host);
    assert_eq!((&host.memory, &host.lengths), (&memory, &lengths));
    assert_eq!((host.record().window, host.record().marks), (window, marks));
    assert_eq!(host.open(), refused(10));
    for unit in units {
        assert_eq!(host.reclaim(), (done(unit.len(), 0), unit));
    }
    assert_eq!(host.reclaim().0, refused(12));
    assert_eq!(host.open(), done(0, 0));
    assert_eq!(host.record().phase.reason, reason::NONE);
}

/// A receiver's complete units stay to be taken, and an unfinished one goes.
#[test]
fn a_receiver_without_an_answer_keeps_complete_units() {
    let [mut host, mut station] = both(LIVELY);
    host.transfer(b"a");
    host.transfer(&[7; 40]);
    for _ in 0..2 {
        assert_eq!(station.arrival(&host.packet()).0, done(12, 0));
    }
    dies(&mut station);
    assert_eq!(station.take(), (done(1, 0), b"a".to_vec()));
    assert_eq!(station.take().0, refused(12));
}

/// An Ack in time, also one that comes while the Heartbeat waits to be resent, keeps the
/// channel; each Heartbeat has all its retries.
#[test]
fn an_ack_in_time_keeps_the_channel() {
    for mut end in both(LIVELY) {
        assert_eq!(ack(&mut end), refused(16));
        for _ in 0..20 {
            ticks(&mut end, 3);
            assert_eq!(ack(&mut end), refused(16));
            assert_eq!(next(&mut end), Some(HEARTBEAT));
            ticks(&mut end, 2);
            assert_eq!(ack(&mut end), done(0, 0));
            assert_eq!(ack(&mut end), refused(16));
            assert_eq!(next(&mut end), None);
            ticks(&mut end, 1);
            assert_eq!(next(&mut end), Some(HEARTBEAT));
            ticks(&mut end, 2);
            assert_eq!(next(&mut end), Some(HEARTBEAT));
            ticks(&mut end, 1);
            assert_eq!(ack(&mut end), done(0, 0));
        }
        assert_eq!(end.record().phase.state, state::OPEN);
    }
}

/// Data's retries and the Heartbeat's run out in one tick: the reason is Data's.
#[test]
fn data_runs_out_first() {
    let limits = Limits {
        retries: 0,
        ..LIVELY
    };
    let [mut host, _] = both(limits);
    host.transfer(b"a");
    ticks(&mut host, 3);
    assert_eq!(next(&mut host), Some(HEARTBEAT));
    assert_eq!(next(&mut host), Some(DATA));
    ticks(&mut host, 1);
    let retries = Said {
        reason: reason::RETRIES as u32,
        ..UNANSWERED
    };
    assert_eq!(host.tick(), retries);
    assert_eq!(host.record().pulse, Pulse::default());
    assert_eq!(host.reclaim(), (done(1, 0), b"a".to_vec()));
}

/// The ticks left until each makes a Heartbeat.
fn left(host: &mut End, station: &mut End) -> [u16; 2] {
    [host.record().pulse.left, station.record().pulse.left]
}

/// Two ends whose Heartbeats do not come in between, both two ticks after OPEN.
fn slow() -> [End; 2] {
    let mut ends = both(Limits {
        timeout: 5,
        interval: 9,
        ..LIVELY
    });
    for end in &mut ends {
        ticks(end, 2);
    }
    ends
}

/// Data that is handed out, new or resent, starts the interval anew; a transfer and an
/// Ack that comes in do not.
#[test]
fn data_starts_the_interval_anew() {
    let [mut host, mut station] = slow();
    host.transfer(b"a");
    assert_eq!(left(&mut host, &mut station), [7, 7]);
    let data = host.packet();
    assert_eq!(left(&mut host, &mut station), [9, 7]);
    ticks(&mut host, 5);
    assert_eq!(left(&mut host, &mut station), [4, 7]);
    assert_eq!(host.packet(), data);
    assert_eq!(left(&mut host, &mut station), [9, 7]);
    ticks(&mut host, 1);
    let ack = station.arrival(&data).1;
    assert_eq!(host.arrival(&ack).0, done(0, 1));
    assert_eq!(left(&mut host, &mut station), [8, 9]);
}

/// So does every Ack that is written, with 15 too; a take does not, nor does the
/// Heartbeat when it is handed out.
#[test]
fn acks_start_the_interval_anew() {
    let [mut host, mut station] = slow();
    host.transfer(b"a");
    let data = host.packet();
    let data_ack = station.arrival(&data).1;
    assert_eq!(host.arrival(&data_ack).0, done(0, 1));
    ticks(&mut station, 3);
    assert_eq!(station.take().0, done(1, 0));
    assert_eq!(left(&mut host, &mut station), [9, 6]);
    assert_eq!(station.arrival(&data).0.number, 15);
    assert_eq!(left(&mut host, &mut station), [9, 9]);
    ticks(&mut host, 9);
    ticks(&mut host, 1);
    let heartbeat = host.packet();
    assert_eq!(left(&mut host, &mut station), [8, 9]);
    ticks(&mut station, 1);
    let ack = station.arrival(&heartbeat).1;
    assert_eq!(left(&mut host, &mut station), [8, 9]);
    assert_eq!(host.arrival(&ack).0, done(0, 0));
    assert_eq!(left(&mut host, &mut station), [8, 9]);
}
