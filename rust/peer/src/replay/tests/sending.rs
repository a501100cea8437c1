//! Traces of channel 0, which transmits, with answers derived by hand.

use super::*;

/// From CLOSED through every state and back.
#[test]
fn one_opening() {
    check(&[
        (next(), 12),
        (transfer(b"A"), 5),
        (close(0), 5),
        (reclaim(0), 12),
        (take(0), 5),
        (open(0), 0),
        (open(0), 5),
        (transfer(b"A"), 5),
        (reclaim(0), 5),
        (control_ack(), 16),
        (next(), 0),
        (next(), 12),
        (data_ack(0), 5),
        (control_ack(), 0),
        (control_ack(), 5),
        (next(), 12),
        (transfer(b"A"), 0),
        (data_ack(1), 16),
        (next(), 0),
        (data_ack(2), 16),
        (data_ack(1), 0),
        (data_ack(1), 16),
        (close(0), 0),
        (transfer(b"A"), 5),
        (data_ack(1), 5),
        (control_ack(), 16),
        (next(), 0),
        (control_ack(), 0),
        (control_ack(), 5),
        (reclaim(0), 12),
        (open(0), 0),
    ]);
}

/// The Open's timer ends on each fourth tick; after two resends it is over.
#[test]
fn retries_of_an_open() {
    let mut trace = vec![(open(0), 0), (tick(), 0), (next(), 0)];
    for answer in [0, 0, 9] {
        trace.extend([0, 0, 0].map(|number| (tick(), number)));
        trace.push((next(), 12));
        trace.push((tick(), answer));
        if answer == 0 {
            trace.push((next(), 0));
        }
    }
    trace.extend([
        (tick(), 0),
        (next(), 12),
        (control_ack(), 5),
        (reclaim(0), 12),
        (open(0), 0),
        (next(), 0),
    ]);
    check(&trace);
}

/// Two units, of which the first is confirmed; the second's retries run out.
#[test]
fn retries_of_data() {
    let mut trace = opened_sender();
    trace.extend([
        (transfer(&[1; 20]), 0),
        (transfer(b"B"), 0),
        (next(), 0),
        (next(), 0),
        (next(), 0),
        (data_ack(3), 0),
        (data_ack(1), 0),
        (tick(), 0),
        (tick(), 0),
        (tick(), 0),
        (next(), 12),
        (tick(), 0),
        (data_ack(3), 16),
        (next(), 0),
        (next(), 12),
    ]);
    trace.extend([0, 0, 0, 0].map(|number| (tick(), number)));
    trace.push((next(), 0));
    trace.extend([0, 0, 0, 9].map(|number| (tick(), number)));
    trace.extend([
        (next(), 12),
        (data_ack(2), 5),
        (open(0), 10),
        (reclaim(0), 0),
        (open(0), 10),
        (reclaim(0), 0),
        (reclaim(0), 12),
        (open(0), 0),
    ]);
    check(&trace);
}

/// An ack is taken while its packet waits to be resent.
#[test]
fn acks_between_timer_and_resend() {
    let mut trace = vec![(open(0), 0), (next(), 0)];
    trace.extend([0; 4].map(|number| (tick(), number)));
    trace.extend([
        (control_ack(), 0),
        (next(), 12),
        (transfer(b"A"), 0),
        (next(), 0),
    ]);
    trace.extend([0; 4].map(|number| (tick(), number)));
    trace.extend([(data_ack(1), 0), (next(), 12), (data_ack(1), 16)]);
    check(&trace);
}

/// Eight slots and a window of four.
#[test]
fn slots_and_window() {
    let mut trace = opened_sender();
    trace.extend([
        (transfer(&[0; 64]), 0),
        (transfer(&[0; 33]), 0),
        (transfer(&[0; 17]), 7),
        (transfer(&[0; 65]), 6),
        (transfer(b""), 0),
        (transfer(b""), 7),
        (next(), 0),
        (next(), 0),
        (next(), 0),
        (next(), 0),
        (next(), 12),
        (data_ack(4), 0),
        (data_ack(2), 0),
        (data_ack(5), 16),
        (next(), 12),
        (data_ack(1), 0),
        (next(), 0),
        (next(), 0),
        (next(), 12),
        (transfer(b""), 7),
        (data_ack(3), 0),
        (transfer(&[0; 64]), 0),
        (transfer(b""), 7),
        (next(), 0),
        (next(), 0),
        (next(), 12),
    ]);
    check(&trace);
}

/// A Close directive in ENABLED is kept.
#[test]
fn a_kept_close() {
    check(&[
        (open(0), 0),
        (close(0), 0),
        (close(0), 5),
        (next(), 0),
        (next(), 12),
        (transfer(b"A"), 5),
        (control_ack(), 0),
        (transfer(b"A"), 5),
        (close(0), 5),
        (control_ack(), 16),
        (next(), 0),
        (control_ack(), 0),
        (open(0), 0),
        (next(), 0),
        (control_ack(), 0),
        (transfer(b"A"), 0),
    ]);
}

/// CLOSING sends no Data, resends its Close, and goes inactive in the end.
#[test]
fn a_close_without_answer() {
    let mut trace = opened_sender();
    trace.extend([(transfer(b"A"), 0), (transfer(b"B"), 0), (next(), 0)]);
    trace.extend([(close(0), 0), (next(), 0), (next(), 12)]);
    trace.extend([0; 4].map(|number| (tick(), number)));
    trace.push((next(), 0));
    trace.extend([0; 4].map(|number| (tick(), number)));
    trace.push((next(), 0));
    trace.extend([0, 0, 0, 9].map(|number| (tick(), number)));
    trace.extend([
        (reclaim(0), 0),
        (reclaim(0), 0),
        (reclaim(0), 12),
        (open(0), 0),
    ]);
    check(&trace);
}

/// 600 units, one by one: number 0 follows 255, twice.
#[test]
fn past_number_255() {
    let mut trace = opened_sender();
    for segment in 1..=600_u32 {
        let number = (segment % 256) as u8;
        trace.extend([
            (transfer(&[number]), 0),
            (next(), 0),
            (data_ack(number.wrapping_add(1)), 16),
            (data_ack(number), 0),
        ]);
    }
    check(&trace);
}
