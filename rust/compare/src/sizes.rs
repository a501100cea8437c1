//! Memory, lengths and lines of another size, lines in which nobody can stand so,
//! and tables of 0 or 17 records: every call but settings is answered 13, and
//! nothing has changed. The peer keeps its storage to itself, so that this is
//! asked of the proved library alone; settings over such storage are asked of
//! both, in `bounds`, and lines of every other call too, in `world`.

use crate::call::{unlawful, Call, Lent};
use crate::tally::Tally;
use crate::twin::Twin;
use link::Noise;
use proved::record::Channel;

/// All that is lent of a node.
#[derive(Clone, PartialEq)]
pub struct Whole {
    table: Vec<Channel>,
    memory: Vec<u8>,
    lengths: Vec<u16>,
    lines: Vec<u8>,
}

/// What is lent wrongly, and its name.
pub type Wrong = (&'static str, fn(&mut Whole));

/// Everything that can be lent wrongly.
pub const WRONGS: [Wrong; 13] = [
    ("13: an octet of memory less", |lent| {
        lent.memory.pop();
    }),
    ("13: an octet of memory more", |lent| lent.memory.push(1)),
    ("13: no memory", |lent| lent.memory.clear()),
    ("13: a length less", |lent| {
        lent.lengths.pop();
    }),
    ("13: a length more", |lent| lent.lengths.push(1)),
    ("13: an octet of lines less", |lent| {
        lent.lines.pop();
    }),
    ("13: an octet of lines more", |lent| lent.lines.push(0)),
    ("13: more stand in a line than it holds", |lent| {
        lent.lines[0] = 17;
    }),
    ("13: an index in a line that no record has", |lent| {
        lent.lines[17..19].copy_from_slice(&[1, lent.table.len() as u8]);
    }),
    ("13: an index twice in a line", |lent| {
        lent.lines[34..37].copy_from_slice(&[2, 0, 0]);
    }),
    ("13: an octet past those who stand in a line", |lent| {
        lent.lines[34] = lent.lines[34].min(15);
        lent.lines[50] = 1;
    }),
    ("13: no record", |lent| {
        lent.table.clear();
        lent.memory.clear();
        lent.lengths.clear();
    }),
    ("13: 17 records that stand", |lent| {
        let record = lent.table[0];
        let slots = record.limits.slots;
        lent.table = vec![record; 17];
        lent.lengths = lent.lengths[..slots].repeat(17);
        lent.memory = vec![9; 17 * slots * record.limits.payload];
    }),
];

fn any_call<'a>(index: usize, packet: &'a [u8], noise: &mut Noise) -> Call<'a> {
    match noise.below(9) {
        0 => Call::Open(index),
        1 => Call::Close(index),
        2 => Call::Transfer(index, &[7; 3]),
        3 => Call::Take(index),
        4 => Call::Reclaim(index),
        5 => Call::NextPacket,
        6 => Call::Arrival(packet),
        7 => Call::WouldTransfer(index, 3),
        _ => Call::Tick,
    }
}

/// Lends something of another size to any call.
pub fn lend_wrongly(twin: &Twin, packet: &[u8], noise: &mut Noise, tally: &mut Tally) {
    let (name, wrong) = noise.one_of(&WRONGS);
    let mut lent = Whole {
        table: twin.table.clone(),
        memory: twin.memory.clone(),
        lengths: twin.lengths.clone(),
        lines: twin.lines.clone(),
    };
    wrong(&mut lent);
    let before = lent.clone();
    let call = any_call(noise.below(twin.table.len() + 1), packet, noise);
    let mut out = [0xA5; 64];
    let said = call.of_proved(Lent {
        node: twin.node,
        table: &mut lent.table,
        memory: &mut lent.memory,
        lengths: &mut lent.lengths,
        lines: &mut lent.lines,
        out: &mut out,
    });
    tally.alone += 1;
    tally.case(name);
    tally.answer(call.name(), said.number);
    if matches!(call, Call::Arrival(_)) {
        tally.answer("not read", said.number);
    }
    assert_eq!(said, unlawful(lent.table.len()), "{name}: {call:?}");
    assert!(lent == before, "{name}: {call:?}");
    assert_eq!(out, [0xA5; 64], "{name}: {call:?}");
}
