//! Every call of the node over lent slices, with its answer as numbers, in the
//! order of arguments of `crates/host`. docs/PROMISES.md says for each what it
//! answers and what it leaves in every slice. No call has a condition: records
//! or lines that were spoilt, and slices of another size, are refused with 13. Calls
//! that serve one channel are lent memory and lengths to write, as one function
//! serves them all; only a transfer and an arrival change an octet or a length
//! there. Settings empty the lines; a call that answers 0, 9 or 15 puts its own
//! channel into a line or takes it out, a tick any, and the question none.
//!
//! Every `unsafe` here is sound for one reason: each pointer goes with the count
//! of its own slice, a slice that is only read is lent as shared, and those that
//! are written are lent alone, so that no two overlap. The library keeps none of
//! them after the call, and every bit pattern of a record is a value.

use crate::c::{self, Said};
use crate::record::{Channel, Node, Settings};

/// Makes a table afresh, each record of its settings, CLOSED and empty: 0 or
/// 13. The memory and the lengths are only measured; with 0 the lines are empty.
pub fn settings(
    table: &mut [Channel],
    memory: &[u8],
    lengths: &[u16],
    lines: &mut [u8],
    settings: &[Settings],
) -> Said {
    // SAFETY: as above.
    unsafe {
        c::peat_settings(
            table.as_mut_ptr(),
            table.len(),
            memory.as_ptr(),
            memory.len(),
            lengths.as_ptr(),
            lengths.len(),
            lines.as_mut_ptr(),
            lines.len(),
            settings.as_ptr(),
            settings.len(),
        )
    }
}

/// An Open directive: 0, 5, 10, 13 or 14.
pub fn open(
    table: &mut [Channel],
    memory: &mut [u8],
    lengths: &mut [u16],
    lines: &mut [u8],
    index: usize,
) -> Said {
    // SAFETY: as above.
    unsafe {
        c::peat_open(
            table.as_mut_ptr(),
            table.len(),
            memory.as_mut_ptr(),
            memory.len(),
            lengths.as_mut_ptr(),
            lengths.len(),
            lines.as_mut_ptr(),
            lines.len(),
            index,
        )
    }
}

/// A Close directive: 0, 5, 13 or 14.
pub fn close(
    table: &mut [Channel],
    memory: &mut [u8],
    lengths: &mut [u16],
    lines: &mut [u8],
    index: usize,
) -> Said {
    // SAFETY: as above.
    unsafe {
        c::peat_close(
            table.as_mut_ptr(),
            table.len(),
            memory.as_mut_ptr(),
            memory.len(),
            lengths.as_mut_ptr(),
            lengths.len(),
            lines.as_mut_ptr(),
            lines.len(),
            index,
        )
    }
}

/// A unit for a sender to hold and send: 0, 5, 6, 7, 13 or 14.
pub fn transfer(
    table: &mut [Channel],
    memory: &mut [u8],
    lengths: &mut [u16],
    lines: &mut [u8],
    index: usize,
    unit: &[u8],
) -> Said {
    // SAFETY: as above.
    unsafe {
        c::peat_transfer(
            table.as_mut_ptr(),
            table.len(),
            memory.as_mut_ptr(),
            memory.len(),
            lengths.as_mut_ptr(),
            lengths.len(),
            lines.as_mut_ptr(),
            lines.len(),
            index,
            unit.as_ptr(),
            unit.len(),
        )
    }
}

/// What a transfer of so many octets would answer now: 0, 5, 6, 7, 13 or 14.
/// Nothing changes, whatever the answer.
pub fn would_transfer(
    table: &mut [Channel],
    memory: &mut [u8],
    lengths: &mut [u16],
    lines: &mut [u8],
    index: usize,
    count: usize,
) -> Said {
    // SAFETY: as above.
    unsafe {
        c::peat_would_transfer(
            table.as_mut_ptr(),
            table.len(),
            memory.as_mut_ptr(),
            memory.len(),
            lengths.as_mut_ptr(),
            lengths.len(),
            lines.as_mut_ptr(),
            lines.len(),
            index,
            count,
        )
    }
}

/// The oldest complete unit of a receiver: 0, 5, 11, 12, 13 or 14.
pub fn take(
    table: &mut [Channel],
    memory: &mut [u8],
    lengths: &mut [u16],
    lines: &mut [u8],
    index: usize,
    out: &mut [u8],
) -> Said {
    // SAFETY: as above.
    unsafe {
        c::peat_take(
            table.as_mut_ptr(),
            table.len(),
            memory.as_mut_ptr(),
            memory.len(),
            lengths.as_mut_ptr(),
            lengths.len(),
            lines.as_mut_ptr(),
            lines.len(),
            index,
            out.as_mut_ptr(),
            out.len(),
        )
    }
}

/// The oldest unconfirmed unit of a sender in CLOSED: 0, 5, 11, 12, 13 or 14.
pub fn reclaim(
    table: &mut [Channel],
    memory: &mut [u8],
    lengths: &mut [u16],
    lines: &mut [u8],
    index: usize,
    out: &mut [u8],
) -> Said {
    // SAFETY: as above.
    unsafe {
        c::peat_reclaim(
            table.as_mut_ptr(),
            table.len(),
            memory.as_mut_ptr(),
            memory.len(),
            lengths.as_mut_ptr(),
            lengths.len(),
            lines.as_mut_ptr(),
            lines.len(),
            index,
            out.as_mut_ptr(),
            out.len(),
        )
    }
}

/// The packet that goes out next: 0, 11, 12 or 13. Control, Heartbeats and Flow
/// Control before resent Data before new Data; of a rank that of the first in its line
/// who has one ready. A receiver hands out its Heartbeats and its Flow Control packets.
pub fn next_packet(
    table: &mut [Channel],
    memory: &mut [u8],
    lengths: &mut [u16],
    lines: &mut [u8],
    node: Node,
    out: &mut [u8],
) -> Said {
    // SAFETY: as above.
    unsafe {
        c::peat_next_packet(
            table.as_mut_ptr(),
            table.len(),
            memory.as_mut_ptr(),
            memory.len(),
            lengths.as_mut_ptr(),
            lengths.len(),
            lines.as_mut_ptr(),
            lines.len(),
            node,
            out.as_mut_ptr(),
            out.len(),
        )
    }
}

/// A packet that came in, and the room for its reply: any answer but 6, 7, 10 and
/// 12.
pub fn arrival(
    table: &mut [Channel],
    memory: &mut [u8],
    lengths: &mut [u16],
    lines: &mut [u8],
    node: Node,
    packet: &[u8],
    reply: &mut [u8],
) -> Said {
    // SAFETY: as above.
    unsafe {
        c::peat_arrival(
            table.as_mut_ptr(),
            table.len(),
            memory.as_mut_ptr(),
            memory.len(),
            lengths.as_mut_ptr(),
            lengths.len(),
            lines.as_mut_ptr(),
            lines.len(),
            node,
            packet.as_ptr(),
            packet.len(),
            reply.as_mut_ptr(),
            reply.len(),
        )
    }
}

/// One tick of every timer and interval, of senders and receivers: 0, 9 or 13.
pub fn tick(table: &mut [Channel], memory: &[u8], lengths: &[u16], lines: &mut [u8]) -> Said {
    // SAFETY: as above.
    unsafe {
        c::peat_tick(
            table.as_mut_ptr(),
            table.len(),
            memory.as_ptr(),
            memory.len(),
            lengths.as_ptr(),
            lengths.len(),
            lines.as_mut_ptr(),
            lines.len(),
        )
    }
}
