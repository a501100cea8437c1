//! Measures the proved library beside the plain Rust peer, in one run on one
//! machine: units and octets from host to subscriber, each call, the test for 13
//! alone, and the check sum. `bench HOW [ROUNDS]`: HOW is printed, and says in
//! what way the program is run.

#![forbid(unsafe_code)]

mod calls;
mod pair;
mod side;
mod sums;

use pair::Pair;
use side::{Ours, Plain};

/// Rounds of which the best counts: the others were disturbed.
const ROUNDS: usize = 25;

fn main() {
    let mut arguments = std::env::args().skip(1);
    let how = arguments.next().unwrap_or("not said".to_string());
    let rounds = arguments.next().map_or(Ok(ROUNDS), |asked| asked.parse());
    let rounds = rounds.expect("ROUNDS is a number").max(1);
    println!("The proved library beside the plain Rust peer, both in this one program.");
    println!("Run: {how}");
    println!(
        "Both are optimised, without overflow checks and debug assertions. Buffers are not cleared"
    );
    println!("before a call, on either side. k 64, slots 128, nothing is lost. The best of {rounds} rounds.");
    println!("Ratio: how many times as fast ours is as the peer; below 1 ours is slower.");
    flows(rounds);
    for channels in [1, 16] {
        each_call(channels, rounds);
    }
    check_sums(rounds);
}

/// The least of each place over all rounds.
fn best<const N: usize>(rounds: usize, mut round: impl FnMut() -> [f64; N]) -> [f64; N] {
    let mut least = [f64::INFINITY; N];
    for _ in 0..rounds {
        let times = round();
        least = std::array::from_fn(|place| least[place].min(times[place]));
    }
    least
}

fn flows(rounds: usize) {
    println!("\nHost to subscriber, units of P octets       ours        peer   ratio");
    for (channels, payload) in [(1, 64), (1, 1_024), (16, 64), (16, 1_024)] {
        let mut ours = Pair::<Ours>::new(channels, payload);
        let mut plain = Pair::<Plain>::new(channels, payload);
        let least = best(rounds, || [ours.flow(), plain.flow()]);
        let [ours, plain] = least.map(|nanoseconds| 1e9 / nanoseconds);
        let ratio = ours / plain;
        let name = format!("P {payload}, channels {channels}");
        println!("{name:<24} units/s  {ours:>11.0} {plain:>11.0} {ratio:>7.3}");
        let [ours, plain] = [ours, plain].map(|units| units * payload as f64);
        println!(
            "{:<24} octets/s {ours:>11.0} {plain:>11.0} {ratio:>7.3}",
            ""
        );
    }
}

fn each_call(channels: usize, rounds: usize) {
    println!("\nNanoseconds a call, {channels} records, P 64             ours        peer   ratio");
    let mut least = [[f64::INFINITY; calls::NAMES.len()]; 2];
    for _ in 0..rounds {
        let times = [
            calls::round::<Ours>(channels),
            calls::round::<Plain>(channels),
        ];
        for (least, time) in least.iter_mut().flatten().zip(times.iter().flatten()) {
            *least = least.min(*time);
        }
    }
    let [ours, plain] = least;
    for (name, (ours, plain)) in calls::NAMES.iter().zip(ours.into_iter().zip(plain)) {
        let ratio = plain / ours;
        println!("{name:<42} {ours:>11.0} {plain:>11.0} {ratio:>7.3}");
    }
}

fn check_sums(rounds: usize) {
    print!("\nNanoseconds a check sum");
    for kind in sums::KINDS {
        print!(" {kind:>11}");
    }
    println!("   ratio to each of the others, and to 8 x 256 without the call (0 octets)");
    let mut call = None;
    for length in sums::LENGTHS {
        let times = best(rounds, || sums::round(length));
        let [ours, others @ ..] = times;
        let name = format!("{length} octets");
        print!("{name:<23}");
        for time in times {
            print!(" {time:>11.0}");
        }
        for other in others {
            print!(" {:>8.2}", other / ours);
        }
        let [call_ours, .., call_tables] = *call.get_or_insert(times);
        if length > 0 {
            let [.., tables] = others;
            print!(" {:>8.2}", (tables - call_tables) / (ours - call_ours));
        }
        println!();
    }
    let [copy] = best(rounds, || [calls::record_copied()]);
    let size = std::mem::size_of::<proved::record::Channel>();
    println!(
        "\nA yardstick: to copy a record of {size} octets by value takes {copy:.0} nanoseconds."
    );
}
