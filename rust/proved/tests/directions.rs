//! Records that differ only in direction (document 02, A2): settings refuse them. A
//! table that the caller overwrote may hold such records, for no later call looks
//! for them; a packet then finds its own by the direction that its type asks for.

mod ends;

use ends::{HOST, LIMITS, STATION};
use proved::record::{direction, LINES};
use proved::{calls, storage, write_packet, Addresses, Channel, Fields, Prefix, Settings};

/// Packet types.
const DATA: u8 = 0;
const OPEN: u8 = 2;
const CONTROL_ACK: u8 = 7;

/// Of this end of channel number 1.
fn settings(direction: u8) -> Settings {
    let addresses = Addresses {
        channel: 1,
        remote: STATION.address,
        direction,
        ..Addresses::default()
    };
    let limits = LIMITS;
    Settings { addresses, limits }
}

/// What is lent for two records.
struct Lent {
    table: [Channel; 2],
    memory: Vec<u8>,
    lengths: Vec<u16>,
    lines: [u8; LINES],
}

/// The answer of settings, and what was lent to them.
fn made(asked: &[Settings; 2]) -> (u32, Lent) {
    let (octets, lengths) = storage(asked);
    let mut lent = Lent {
        table: [Channel::blank(); 2],
        memory: vec![0; octets],
        lengths: vec![0; lengths],
        lines: [0; LINES],
    };
    let (table, lines) = (&mut lent.table, &mut lent.lines);
    let said = calls::settings(table, &lent.memory, &lent.lengths, lines, asked);
    (said.number, lent)
}

impl Lent {
    fn open(&mut self, index: usize) -> u32 {
        let (memory, lengths, lines) = (&mut self.memory, &mut self.lengths, &mut self.lines);
        calls::open(&mut self.table, memory, lengths, lines, index).number
    }

    /// Whose packet is handed out next.
    fn served(&mut self) -> usize {
        let (memory, lengths, lines) = (&mut self.memory, &mut self.lengths, &mut self.lines);
        calls::next_packet(&mut self.table, memory, lengths, lines, HOST, &mut [0; 28]).index
    }

    /// A packet of this type for channel number 1: the answer, and whose it is.
    fn arrival(&mut self, kind: u8, number: u8) -> (u32, usize) {
        let fields = Fields {
            destination: HOST.address,
            protocol: HOST.protocol,
            version: 1,
            flags: 3,
            kind,
            channel: 1,
            number,
            source: STATION.address,
            ..Fields::default()
        };
        let (mut packet, mut reply) = ([0; 12], [0; 12]);
        assert_eq!(write_packet(fields, &[], &[], &mut packet).answer, 0);
        let (memory, lengths, lines) = (&mut self.memory, &mut self.lengths, &mut self.lines);
        let table = &mut self.table;
        let said = calls::arrival(table, memory, lengths, lines, HOST, &packet, &mut reply);
        (said.number, said.index)
    }
}

fn seven() -> Prefix {
    Prefix::of(&[7]).expect("not over 15")
}

/// A change of settings, and what they are answered then.
type Case = (fn(&mut Settings), u32);

/// In either order. What the own prefix or the limits are tells none apart; a
/// channel number, a remote address or a remote prefix of its own does.
#[test]
fn settings_refuse_them() {
    let cases: [Case; 6] = [
        (|_| {}, 13),
        (|one| one.limits.timeout += 1, 13),
        (|one| one.addresses.own_prefix = seven(), 13),
        (|one| one.addresses.channel = 2, 0),
        (|one| one.addresses.remote = 66, 0),
        (|one| one.addresses.remote_prefix = seven(), 0),
    ];
    let ends = [direction::SENDS, direction::RECEIVES].map(settings);
    for (change, number) in cases {
        for place in [0, 1] {
            let mut asked = ends;
            change(&mut asked[place]);
            assert_eq!(made(&asked).0, number, "{asked:?}");
            asked.reverse();
            assert_eq!(made(&asked).0, number, "{asked:?}");
        }
    }
}

/// Refused settings leave the records that were there.
#[test]
fn refused_settings_leave_the_table() {
    let ends = [direction::SENDS, direction::RECEIVES].map(settings);
    let mut apart = ends;
    apart[1].addresses.channel = 2;
    let (number, mut lent) = made(&apart);
    assert_eq!((number, lent.open(0)), (0, 0));
    let (table, lines) = (lent.table, lent.lines);
    let said = calls::settings(
        &mut lent.table,
        &lent.memory,
        &lent.lengths,
        &mut lent.lines,
        &ends,
    );
    assert_eq!(said.number, 13);
    assert!(lent.table == table && lent.lines == lines);
}

#[test]
fn a_table_overwritten_so() {
    let mut ends = [direction::SENDS, direction::RECEIVES].map(settings);
    ends[1].addresses.channel = 2;
    let (number, mut lent) = made(&ends);
    assert_eq!(number, 0);
    lent.table[1].addresses.channel = 1;
    assert_eq!([lent.open(0), lent.open(1)], [0, 0]);
    assert_eq!(lent.served(), 0);
    assert_eq!(lent.arrival(OPEN, 0), (0, 1));
    assert_eq!(lent.arrival(CONTROL_ACK, 0), (0, 0));
    assert_eq!(lent.arrival(DATA, 1), (0, 1));
    assert_eq!(lent.arrival(CONTROL_ACK, 0), (5, 0));
}
