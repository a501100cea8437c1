//! Settings by chance, for the tables of two nodes that talk to each other.

use link::Noise;
use peer::prefix::Prefix;
use peer::settings::{Direction, Settings};

/// The addresses of the two nodes.
pub const ADDRESSES: [u8; 2] = [64, 65];

/// The address of a node that is not there: its packets are made up.
pub const ABSENT: u8 = 99;

/// How large the channels of a table are.
#[derive(Clone, Copy, Debug, PartialEq, Eq)]
pub enum Size {
    /// 1 to 4 records, small windows, few octets.
    Small,
    /// Up to 16 records.
    Wide,
    /// 12 to 16 records that all send at one node, and so stand in line there.
    Crowded,
    /// Windows up to 128, slots up to 128, payloads up to 1,024 octets.
    Large,
}

/// How many records a table has.
fn records(size: Size, noise: &mut Noise) -> usize {
    match size {
        Size::Small => 1 + noise.below(4),
        Size::Wide => 5 + noise.below(12),
        Size::Crowded => 12 + noise.below(5),
        Size::Large => 1 + noise.below(2),
    }
}

/// The tables of both nodes: as many records in each, in another order.
pub fn two_tables(size: Size, noise: &mut Noise) -> [Vec<Settings>; 2] {
    let records = records(size, noise);
    let mut tables = [Vec::new(), Vec::new()];
    let first_sender = noise.below(2);
    // None share a number; or two in a row do, and differ in direction and remote
    // prefix; or four do, and every other one differs in the remote prefix alone.
    // Where one node sends all, none do.
    let crowded = size == Size::Crowded;
    let sharing = if crowded {
        1
    } else {
        noise.one_of(&[1, 1, 2, 4])
    };
    for place in 0..records {
        let turn = if crowded { 0 } else { place };
        let sender = (first_sender + turn) % 2;
        let absent = noise.one_in(6);
        let sending = limits(size, noise);
        let receiving = other_end(sending, noise);
        let prefixes = [0, 1].map(|_| prefix((place % sharing) as u8, noise));
        for node in [0, 1] {
            let (direction, settings) = match node == sender {
                true => (Direction::Sending, sending),
                false => (Direction::Receiving, receiving),
            };
            let remote = if absent { ABSENT } else { ADDRESSES[1 - node] };
            tables[node].push(Settings {
                direction,
                channel: (place / sharing * 0x0103) as u16,
                remote,
                remote_prefix: prefixes[1 - node],
                own_prefix: prefixes[node],
                ..settings
            });
        }
    }
    tables[1].reverse();
    for table in &mut tables {
        if noise.one_in(3) {
            name_spares(table, noise);
        }
    }
    tables
}

/// Some senders name another as their spare; those on a pair have a leading octet
/// (document 02, A13).
fn name_spares(table: &mut [Settings], noise: &mut Noise) {
    let senders: Vec<usize> = (0..table.len())
        .filter(|&place| table[place].direction == Direction::Sending)
        .collect();
    for &place in &senders {
        let spare = noise.one_of(&senders);
        if spare != place && noise.one_in(2) {
            table[place].spare = spare as u32 + 1;
            (table[place].lead, table[spare].lead) = (1, 1);
        }
    }
}

/// A prefix by chance. Two of different marks, which go to 3, are never alike.
fn prefix(mark: u8, noise: &mut Noise) -> Prefix {
    let mut octets = noise.prefix();
    if mark > 0 && octets.is_empty() {
        octets.push(0);
    }
    if let Some(first) = octets.first_mut() {
        *first = *first & !3 | mark;
    }
    Prefix::new(&octets).expect("not over 15")
}

/// Good settings of this size, for a sender of channel 0.
pub fn limits(size: Size, noise: &mut Noise) -> Settings {
    let large = size == Size::Large;
    let window: u32 = if large {
        noise.one_of(&[16, 32, 64, 128])
    } else {
        noise.one_of(&[1, 2, 4, 4, 8])
    };
    let slots = if large {
        noise.one_of(&[window, 100, 127, 128])
    } else {
        window + noise.below(9) as u32
    };
    let most_payload = if large {
        noise.one_of(&[1, 64, 1_023, 1_024])
    } else {
        1 + noise.below(6) as u32
    };
    Settings {
        direction: Direction::Sending,
        channel: 0,
        remote: ABSENT,
        remote_prefix: Prefix::NONE,
        own_prefix: Prefix::NONE,
        window,
        slots: slots.max(window),
        most_payload,
        most_segments: 1 + noise.below(slots.max(window) as usize) as u32,
        timeout: ticks(noise),
        close_timeout: ticks(noise),
        retries: noise.one_of(&[0, 1, 2, 6, 6, 20, 255]),
        interval: interval(noise),
        flow: noise.below(2) as u32,
        spare: 0,
        lead: 0,
    }
}

/// Often none, else mostly a few ticks, of which one can hardly be quiet enough for
/// the longest.
fn interval(noise: &mut Noise) -> u32 {
    noise.one_of(&[0, 0, 0, 1, 2, 3, 3, 12, 65_535])
}

/// Mostly a few ticks: where one must wait for the longest, nothing happens.
fn ticks(noise: &mut Noise) -> u32 {
    if noise.one_in(40) {
        65_535
    } else {
        noise.one_of(&[1, 2, 3, 5, 8, 8, 20])
    }
}

/// The other end's settings: mostly its k, P, M and Flow Control, for its own slots,
/// and an interval of its own.
fn other_end(settings: Settings, noise: &mut Noise) -> Settings {
    let Settings {
        window,
        most_segments,
        most_payload,
        ..
    } = settings;
    let least = window.max(most_segments);
    let slots = (least + noise.below(6) as u32).min(128);
    let mut other = Settings {
        slots,
        interval: interval(noise),
        ..settings
    };
    match noise.below(16) {
        0 => other.most_payload = 1 + noise.below(most_payload as usize) as u32,
        1 => other.most_segments = 1 + noise.below(slots as usize) as u32,
        2 => other.window = 1,
        3 => other.flow = 1 - other.flow,
        _ => {}
    }
    other
}
