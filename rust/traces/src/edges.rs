//! Inputs at the edges of what a trace can be.

use crate::packet::{Packet, DATA, NUMBERS};
use crate::record::Record;
use crate::trace::Trace;

/// A long trace has more records than two octets count.
pub const LONG: usize = 1 << 16;

/// The traces one after another, over and over, until there are more records
/// than [`LONG`]. Those that end within a record are left out, and those with
/// bodies so long that nothing else would be read.
pub fn long(traces: &[Trace]) -> Vec<u8> {
    let whole = |trace: &&Trace| trace.ending == "ok" && trace.input().len() < LONG;
    let mut octets = Vec::new();
    let mut records = 0;
    for trace in traces.iter().filter(whole).cycle() {
        if records > LONG {
            break;
        }
        octets.extend(trace.input());
        records += trace.records();
    }
    octets
}

/// A record without a body, one with a body, and a packet.
pub fn short() -> Vec<u8> {
    let records = [
        Record::new("tick", vec![]),
        Record::new("open", vec![vec![1]]),
        Record::new("arrival", Packet::new(DATA, NUMBERS).fields()),
    ];
    records.iter().flat_map(Record::octets).collect()
}
