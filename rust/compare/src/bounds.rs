//! Settings at and past each bound, asked of both libraries.

use link::Noise;
use peer::prefix::Prefix;
use peer::settings::{Direction, Settings};
use peer::state::State;
use proved::record::Node;

use crate::call::{to_proved, Call};
use crate::tables::{limits, Size};
use crate::tally::Tally;
use crate::twin::Twin;

const NODE: Node = Node {
    address: 64,
    protocol: 5,
};

/// A change of settings, and its name.
pub type Bound = (&'static str, fn(&mut Vec<Settings>));

/// Each bound of document 01, one at a time: all else is good.
pub const REFUSED: [Bound; 32] = [
    ("settings: window 0", |table| table[0].window = 0),
    ("settings: window not a power of two", |table| {
        table[0].window = 3;
        table[0].slots = 8;
    }),
    ("settings: window 96", |table| {
        (table[0].window, table[0].slots) = (96, 128);
    }),
    ("settings: window over 128", |table| {
        (table[0].window, table[0].slots) = (256, 128);
    }),
    ("settings: slots under the window", |table| {
        table[0].window = 8;
        table[0].slots = 7;
        table[0].most_segments = 1;
    }),
    ("settings: slots over 128", |table| table[0].slots = 129),
    ("settings: P 0", |table| table[0].most_payload = 0),
    ("settings: P over 1,024", |table| {
        table[0].most_payload = 1_025;
    }),
    ("settings: M 0", |table| table[0].most_segments = 0),
    ("settings: M over slots", |table| {
        table[0].most_segments = table[0].slots + 1;
    }),
    ("settings: timeout 0", |table| table[0].timeout = 0),
    ("settings: close timeout 0", |table| {
        table[0].close_timeout = 0;
    }),
    ("settings: retries over 255", |table| table[0].retries = 256),
    ("settings: Flow Control 2", |table| table[0].flow = 2),
    ("settings: Flow Control 65,535", |table| {
        table[0].flow = 65_535;
    }),
    ("settings: two that clash", |table| {
        let last = table.len() - 1;
        table.push(table[last]);
    }),
    ("settings: apart in the own prefix alone", |table| {
        let other = Settings {
            own_prefix: FULL,
            ..table[table.len() - 1]
        };
        table.push(other);
    }),
    ("settings: apart in direction alone", |table| {
        table.push(turned(table));
    }),
    ("settings: apart in direction and own prefix", |table| {
        let other = Settings {
            own_prefix: FULL,
            ..turned(table)
        };
        table.push(other);
    }),
    ("settings: a remote prefix over 15 octets", |table| {
        table[0].remote_prefix.length = 16;
    }),
    ("settings: an own prefix over 15 octets", |table| {
        table[0].own_prefix.length = 255;
    }),
    ("settings: an octet past the remote prefix", |table| {
        table[0].remote_prefix = Prefix { length: 14, ..FULL };
    }),
    ("settings: an octet past the own prefix", |table| {
        table[0].own_prefix.octets[0] = 1;
    }),
    ("settings: a spare that is not there", |table| {
        pair(table, 3);
    }),
    ("settings: a spare past 16", |table| pair(table, 17)),
    ("settings: the spare 65,535", |table| pair(table, 65_535)),
    ("settings: a record as its own spare", |table| {
        pair(table, 1);
        table[1].lead = 0;
    }),
    ("settings: a spare that receives", |table| {
        pair(table, 2);
        table[1].direction = Direction::Receiving;
    }),
    ("settings: a receiver that names a spare", |table| {
        pair(table, 2);
        table[0].direction = Direction::Receiving;
    }),
    (
        "settings: no leading octet at the first of a pair",
        |table| {
            pair(table, 2);
            table[0].lead = 0;
        },
    ),
    ("settings: no leading octet at the spare", |table| {
        pair(table, 2);
        table[1].lead = 0;
    }),
    ("settings: a leading octet on no pair", |table| {
        table[0].lead = 1;
    }),
];

/// Two senders with a leading octet, of which the first names this spare.
fn pair(table: &mut Vec<Settings>, spare: u32) {
    let first = Settings {
        direction: Direction::Sending,
        lead: 1,
        spare,
        ..table[0]
    };
    let other = Settings {
        channel: first.channel ^ 1,
        spare: 0,
        ..first
    };
    *table = vec![first, other];
}

/// The last of these, of the other direction.
fn turned(table: &[Settings]) -> Settings {
    let last = table[table.len() - 1];
    let direction = match last.direction {
        Direction::Sending => Direction::Receiving,
        Direction::Receiving => Direction::Sending,
    };
    Settings { direction, ..last }
}

/// A prefix of as many octets as can be, and its last is not 0.
const FULL: Prefix = Prefix {
    length: 15,
    octets: [0, 0, 0, 0, 0, 0, 0, 0, 0, 0, 0, 0, 0, 0, 1],
};

/// Changes that lie just within the bounds.
pub const ACCEPTED: [Bound; 19] = [
    ("settings: window and slots 1", |table| {
        (table[0].window, table[0].slots, table[0].most_segments) = (1, 1, 1);
    }),
    ("settings: window 64, slots 128", |table| {
        (table[0].window, table[0].slots) = (64, 128);
    }),
    ("settings: window 128, slots 128", |table| {
        (table[0].window, table[0].slots) = (128, 128);
    }),
    ("settings: P 1", |table| table[0].most_payload = 1),
    ("settings: P 1,024", |table| table[0].most_payload = 1_024),
    ("settings: M as many as slots", |table| {
        table[0].most_segments = table[0].slots;
    }),
    ("settings: timeouts 65,535, retries 255", |table| {
        table[0].timeout = 65_535;
        table[0].close_timeout = 65_535;
        table[0].retries = 255;
    }),
    ("settings: interval 1", |table| table[0].interval = 1),
    ("settings: interval 65,535", |table| {
        table[0].interval = 65_535;
    }),
    ("settings: Flow Control used", |table| table[0].flow = 1),
    ("settings: Flow Control not used", |table| table[0].flow = 0),
    ("settings: a spare", |table| pair(table, 2)),
    ("settings: mutual spares", |table| {
        pair(table, 2);
        table[1].spare = 1;
    }),
    ("settings: prefixes of 15 octets", |table| {
        (table[0].remote_prefix, table[0].own_prefix) = (FULL, FULL);
    }),
    ("settings: apart in the remote prefix alone", |table| {
        let other = Settings {
            remote_prefix: FULL,
            ..table[table.len() - 1]
        };
        table.push(other);
    }),
    (
        "settings: apart in the remote prefix's length alone",
        |table| {
            let mut other = table[table.len() - 1];
            other.remote_prefix.length = 15;
            table.push(other);
        },
    ),
    ("settings: apart in direction and number", |table| {
        let mut other = turned(table);
        other.channel ^= 0x8000;
        table.push(other);
    }),
    ("settings: apart in direction and remote", |table| {
        let mut other = turned(table);
        other.remote ^= 1;
        table.push(other);
    }),
    ("settings: apart in direction and remote prefix", |table| {
        let mut other = turned(table);
        other.remote_prefix = FULL;
        table.push(other);
    }),
];

/// Counts of records, and of settings; all but the last are refused.
pub const COUNTS: [(&str, usize, usize); 5] = [
    ("settings: none for no record", 0, 0),
    ("settings: 17 for 17 records", 17, 17),
    ("settings: one for two records", 2, 1),
    ("settings: two for one record", 1, 2),
    ("settings: 16 for 16 records", 16, 16),
];

/// Good settings for so many records.
fn good(count: usize, noise: &mut Noise) -> Vec<Settings> {
    let numbered = |channel| Settings {
        channel,
        ..limits(Size::Small, noise)
    };
    (0..count as u16).map(numbered).collect()
}

/// Gives these settings to a node whose storage is made for them; all else is
/// asked of it afterwards.
fn give(settings: &[Settings], records: usize, noise: &mut Noise, tally: &mut Tally) -> u32 {
    let mut twin = Twin::new(NODE, records, settings, noise);
    let answer = twin.call(Call::Settings(settings), 0, tally).said.number;
    let others = [Call::Open(0), Call::Tick, Call::NextPacket, Call::Open(16)];
    let question = [0, 16].map(|index| Call::WouldTransfer(index, 1));
    for call in others.into_iter().chain(question) {
        twin.call(call, 64, tally);
    }
    answer
}

/// Every bound once, in the record of a table of chance.
pub fn check_bounds(noise: &mut Noise, tally: &mut Tally) {
    for (bounds, expected) in [(&REFUSED[..], 13), (&ACCEPTED[..], 0)] {
        for (name, change) in bounds {
            let mut settings = good(1 + noise.below(3), noise);
            change(&mut settings);
            let answer = give(&settings, settings.len(), noise, tally);
            assert_eq!(answer, expected, "{name}");
            tally.case(name);
        }
    }
    for (name, records, count) in COUNTS {
        let settings = good(count, noise);
        let expected = if records == 16 { 0 } else { 13 };
        assert_eq!(give(&settings, records, noise, tally), expected, "{name}");
        tally.case(name);
    }
    check_storage(noise, tally);
    check_lines(noise, tally);
    check_prefixes(noise, tally);
    check_unsayable(noise, tally);
}

/// Prefixes of every length, and some that are too long, with one octet that is not
/// 0: within the prefix or past it.
fn check_prefixes(noise: &mut Noise, tally: &mut Tally) {
    let places = (0..15).flat_map(|place| (0..=17).map(move |length| (place, length)));
    for (place, length) in places {
        let mut prefix = Prefix::NONE;
        prefix.length = length;
        prefix.octets[place] = noise.octet() | 1;
        let mut settings = good(1, noise);
        match noise.one_in(2) {
            true => settings[0].own_prefix = prefix,
            false => settings[0].remote_prefix = prefix,
        }
        let good = length <= 15 && place < length.into();
        let answer = give(&settings, 1, noise, tally);
        assert_eq!(answer, if good { 0 } else { 13 }, "{prefix:?}");
    }
}

/// Settings that ask for other storage than is lent.
pub const STORAGE: [Bound; 2] = [
    ("settings: memory of another size", |table| {
        table[0].most_payload += 1;
    }),
    ("settings: lengths of another size", |table| {
        // As many octets in fewer slots.
        table[0].slots /= 2;
        table[0].most_payload *= 2;
    }),
];

/// A case of [`check_lines`].
pub const OTHER_LINES: &str = "settings: lines of another size";

/// Settings over lines of another size: these stay, and there is no node.
fn check_lines(noise: &mut Noise, tally: &mut Tally) {
    let settings = good(1, noise);
    for octets in [0, 17, 50, 52] {
        let mut twin = Twin::new(NODE, 1, &settings, noise);
        twin.write_lines(noise.octets(octets));
        let answer = twin.call(Call::Settings(&settings), 0, tally).said.number;
        assert_eq!(answer, 13, "{octets} octets");
        tally.case(OTHER_LINES);
    }
}

/// A field of settings, set to what the peer's cannot say.
type Unsayable = fn(&mut proved::record::Settings, usize);

const UNSAYABLE: [Unsayable; 5] = [
    |settings, number| settings.addresses.direction = (number % 254) as u8 + 2,
    |settings, number| settings.limits.window = number,
    |settings, number| settings.limits.slots = number,
    |settings, number| settings.limits.payload = number,
    |settings, number| settings.limits.segments = number,
];

/// Settings that the proved library alone can be asked for: directions that are
/// none, and numbers so large that slots times P goes past what a word holds.
fn check_unsayable(noise: &mut Noise, tally: &mut Tally) {
    for change in UNSAYABLE {
        for number in [usize::MAX, 1 << 63, 1 << 32, usize::MAX / 2 + 2] {
            let settings = good(1, noise);
            let mut twin = Twin::new(NODE, 1, &settings, noise);
            twin.call(Call::Settings(&settings), 0, tally);
            let before = twin.table.clone();
            let mut asked = [to_proved(&settings[0])];
            change(&mut asked[0], number);
            let (memory, lengths) = (&twin.memory, &twin.lengths);
            let said =
                proved::calls::settings(&mut twin.table, memory, lengths, &mut twin.lines, &asked);
            tally.alone += 1;
            tally.answer("settings", said.number);
            tally.case("settings: what the peer cannot say");
            assert_eq!(said.number, 13, "{asked:?}");
            assert!(twin.table == before);
        }
    }
}

/// Settings over the storage of other ones, which have an opening: it goes on.
fn check_storage(noise: &mut Noise, tally: &mut Tally) {
    for (name, change) in STORAGE {
        let mut settings = good(1, noise);
        (settings[0].window, settings[0].slots) = (1, 8);
        settings[0].most_segments = 1;
        let mut twin = Twin::new(NODE, 1, &settings, noise);
        let answer = twin.call(Call::Settings(&settings), 0, tally).said.number;
        assert_eq!(answer, 0, "{name}");
        twin.call(Call::Open(0), 0, tally);
        change(&mut settings);
        let answer = twin.call(Call::Settings(&settings), 0, tally).said.number;
        assert_eq!(answer, 13, "{name}");
        tally.case(name);
        assert_eq!(twin.state(0), State::Enabled, "{name}");
    }
}
