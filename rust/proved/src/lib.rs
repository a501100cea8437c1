//! The proved library, called through its C interface. No other crate here
//! has unsafe code.

#![deny(unsafe_op_in_unsafe_fn)]
#![warn(missing_docs)]

mod answer;
mod c;
pub mod calls;
mod node_table;
pub mod numbers;
pub mod record;
mod words;

pub use answer::{Answer, Outcome, Refusal};
pub use c::{Fields, Reading, Said, Writing};
pub use node_table::{storage, NodeTable};
pub use record::{Addresses, Channel, Flow, Limits, Lone, Node, Phase, Prefix, Pulse};
pub use record::{Settings, Timers, Window};
pub use words::{Reason, State};

/// The check sum over these octets.
pub fn crc(octets: &[u8]) -> u16 {
    // SAFETY: the pointer and the count are those of one slice, which the
    // call only reads.
    unsafe { c::peat_crc(octets.as_ptr(), octets.len()) }
}

/// Reads a packet alone.
pub fn read_packet(packet: &[u8]) -> Reading {
    // SAFETY: as in `crc`.
    unsafe { c::peat_read_packet(packet.as_ptr(), packet.len()) }
}

/// Writes a packet alone, with this prefix, at the front of `out`.
pub fn write_packet(fields: Fields, prefix: &[u8], payload: &[u8], out: &mut [u8]) -> Writing {
    // SAFETY: each pointer and count are those of one slice. Prefix and payload
    // are only read; `out` is lent for writing, so neither overlaps it.
    unsafe {
        c::peat_write_packet(
            fields,
            prefix.as_ptr(),
            prefix.len(),
            payload.as_ptr(),
            payload.len(),
            out.as_mut_ptr(),
            out.len(),
        )
    }
}
